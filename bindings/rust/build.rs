//! Links libsst.a, as tools/c-library PREFIX makes it: SST_PREFIX names PREFIX.
fn main() {
    println!("cargo:rerun-if-env-changed=SST_PREFIX");
    match std::env::var("SST_PREFIX") {
        Ok(prefix) => {
            println!("cargo:rustc-link-search=native={prefix}/lib");
            println!("cargo:rerun-if-changed={prefix}/lib/libsst.a");
            println!("cargo:rustc-link-lib=static=sst");
        }
        // Where the system has it.
        Err(_) => println!("cargo:rustc-link-lib=sst"),
    }
}
