//! `copy IN OUT`: reads the table file IN, which `sst pack` wrote, and writes its entries as the table file OUT.
use sst::{Config, Hash, Table, Writer};
use std::fs::File;

fn main() -> Result<(), Box<dyn std::error::Error>> {
    let [from, to] = <[String; 2]>::try_from(std::env::args().skip(1).collect::<Vec<_>>()).map_err(|_| "copy IN OUT")?;
    let file = std::fs::read(from)?;
    let table = Table::check_by(&file, Hash::Poly31)?;
    let mut writer = Writer::new(File::create(to)?, Config::default());
    for entry in table.iter() {
        writer.add(&entry)?;
    }
    writer.finish()?.sync_all()?;
    Ok(())
}
