//! The calls of sst.h.
use std::os::raw::c_uint;

pub const MEMORY: u32 = 15;
pub const NOT_FOUND: u32 = 16;
pub const NO_ROOM: u32 = 18;

#[repr(C)]
pub struct Entry {
    pub key: *const u8,
    pub key_len: usize,
    pub value: *const u8,
    pub value_len: usize,
    pub seqno: u64,
    pub value_type: u8,
}

#[repr(C)]
#[derive(Clone, Copy, Default)]
pub struct Place {
    pub seqno: u64,
    pub prefix_offset: usize,
    pub prefix_len: usize,
    pub key_offset: usize,
    pub key_len: usize,
    pub value_offset: usize,
    pub value_len: usize,
    pub value_type: u8,
}

#[repr(C)]
pub struct KeyedHandle {
    pub end_key: *const u8,
    pub end_key_len: usize,
    pub seqno: u64,
    pub offset: u64,
    pub size: u32,
}

#[repr(C)]
#[derive(Default)]
pub struct Handle {
    pub offset: u64,
    pub size: u32,
}

#[repr(C)]
pub struct Bytes {
    pub data: *const u8,
    pub len: usize,
}

#[repr(C)]
pub struct RunConfig {
    pub num: u32,
    pub den: u32,
    pub bits_per_key: u32,
    pub restart_interval: u8,
    pub index_interval: u8,
    pub hash: u16,
}

#[repr(C)]
#[derive(Clone, Copy, Default)]
pub struct RunHandles {
    pub index_offset: u64,
    pub filter_offset: u64,
    pub index_size: u32,
    pub filter_size: u32,
}

#[repr(C)]
pub struct Run {
    pub bytes: *const u8,
    pub len: usize,
    pub handles: RunHandles,
}

#[repr(C)]
#[derive(Clone, Copy, Default)]
pub struct OpenRun {
    pub handles: RunHandles,
    pub blocks: usize,
    pub fronts: usize,
    pub prefix_offset: usize,
    pub prefix_len: usize,
    pub hash: u32,
}

#[repr(C)]
#[derive(Clone, Copy, Default)]
pub struct Window {
    pub first_block: usize,
    pub first_index: usize,
    pub end_block: usize,
    pub end_index: usize,
}

#[repr(C)]
#[derive(Clone, Copy)]
pub struct Merged {
    pub run: usize,
    pub place: Place,
}

#[repr(C)]
#[derive(Default)]
pub struct Summary {
    pub blocks: usize,
    pub entries: u64,
    pub least_seqno: u64,
    pub greatest_seqno: u64,
}

#[repr(C)]
#[derive(Clone, Copy, Default)]
pub struct CheckEnd {
    pub part: u8,
    pub block: usize,
    pub offset: u64,
    pub size: u32,
}

extern "C" {
    pub fn sst_data_block_encode(
        entries: *const Entry, count: usize, interval: u8, num: u32, den: u32, hash: u32, out: *mut u8,
        cap: usize, len: *mut usize,
    ) -> c_uint;
    pub fn sst_data_block_check(payload: *const u8, len: usize, hash: u32, count: *mut usize) -> c_uint;
    pub fn sst_data_block_find(
        payload: *const u8, len: usize, hash: u32, key: *const u8, key_len: usize, below: u64, place: *mut Place,
    ) -> c_uint;
    pub fn sst_data_block_scan(
        payload: *const u8, len: usize, window: *mut Window, has_below: u8, below: u64, reverse: u8,
        places: *mut Place, cap: usize, count: *mut usize,
    ) -> c_uint;
    pub fn sst_index_block_encode(
        handles: *const KeyedHandle, count: usize, interval: u8, out: *mut u8, cap: usize, len: *mut usize,
    ) -> c_uint;
    pub fn sst_index_block_check(payload: *const u8, len: usize, count: *mut usize) -> c_uint;
    pub fn sst_index_block_find(
        payload: *const u8, len: usize, key: *const u8, key_len: usize, below: u64, handle: *mut Handle,
    ) -> c_uint;
    pub fn sst_filter_build(
        keys: *const Bytes, count: usize, bits_per_key: u32, hash: u32, out: *mut u8, cap: usize, len: *mut usize,
    ) -> c_uint;
    pub fn sst_filter_may_contain(
        payload: *const u8, len: usize, hash: u32, key: *const u8, key_len: usize,
    ) -> c_uint;
    pub fn sst_frame_write(
        payload: *const u8, len: usize, block_type: u8, hash: u32, out: *mut u8, cap: usize, out_len: *mut usize,
    ) -> c_uint;
    pub fn sst_frame_check(
        bytes: *const u8, len: usize, hash: u32, block_type: *mut u8, payload_len: *mut usize,
    ) -> c_uint;
    pub fn sst_run_write(
        entries: *const Entry, count: usize, cuts: *const usize, cut_count: usize, config: *const RunConfig,
        out: *mut u8, cap: usize, len: *mut usize, handles: *mut RunHandles,
    ) -> c_uint;
    pub fn sst_run_block_write(
        entries: *const Entry, count: usize, config: *const RunConfig, out: *mut u8, cap: usize, len: *mut usize,
        hashes: *mut u64, hash_cap: usize,
    ) -> c_uint;
    pub fn sst_run_end_write(
        handles: *const KeyedHandle, handle_count: usize, hashes: *const u64, hash_count: usize,
        config: *const RunConfig, out: *mut u8, cap: usize, len: *mut usize, run_handles: *mut RunHandles,
    ) -> c_uint;
    pub fn sst_run_check(
        run: *const u8, len: usize, handles: *const RunHandles, hash: u32, summary: *mut Summary,
    ) -> c_uint;
    pub fn sst_run_check_at(
        run: *const u8, len: usize, handles: *const RunHandles, hash: u32, summary: *mut Summary,
        end: *mut CheckEnd,
    ) -> c_uint;
    pub fn sst_run_get(
        run: *const u8, len: usize, handles: *const RunHandles, hash: u32, key: *const u8, key_len: usize,
        below: u64, place: *mut Place,
    ) -> c_uint;
    pub fn sst_run_open(
        bytes: *const u8, len: usize, handles: *const RunHandles, hash: u32, numbers: *mut u64, cap: usize,
        run: *mut OpenRun,
    ) -> c_uint;
    pub fn sst_run_find(
        bytes: *const u8, len: usize, run: *const OpenRun, numbers: *const u64, count: usize, key: *const u8,
        key_len: usize, below: u64, place: *mut Place,
    ) -> c_uint;
    pub fn sst_run_range(
        run: *const u8, len: usize, handles: *const RunHandles, has_from: u8, from: *const u8, from_len: usize,
        has_to: u8, to: *const u8, to_len: usize, window: *mut Window,
    );
    pub fn sst_run_scan(
        run: *const u8, len: usize, handles: *const RunHandles, window: *mut Window, has_below: u8, below: u64,
        reverse: u8, places: *mut Place, cap: usize, count: *mut usize,
    ) -> c_uint;
    pub fn sst_merge_scan(
        runs: *const Run, run_count: usize, windows: *mut Window, window_count: usize, has_below: u8, below: u64,
        snapshots: *const u64, snapshot_count: usize, merged: *mut Merged, cap: usize, count: *mut usize,
    ) -> c_uint;
    pub fn sst_compact(
        runs: *const Run, run_count: usize, has_from: u8, from: *const u8, from_len: usize, has_to: u8, to: *const u8,
        to_len: usize, snapshots: *const u64, snapshot_count: usize, is_bottom: u8, block_size: usize,
        config: *const RunConfig, out: *mut u8, cap: usize, len: *mut usize, handles: *mut RunHandles,
    ) -> c_uint;
    pub fn sst_footer_read(file: *const u8, len: usize, handles: *mut RunHandles) -> c_uint;
    pub fn sst_footer_write(
        handles: *const RunHandles, out: *mut u8, cap: usize, len: *mut usize,
    ) -> c_uint;
}

/// Fills a vector by a call that says how much room it needs.
pub fn filled(first: usize, mut call: impl FnMut(*mut u8, usize, &mut usize) -> u32) -> Result<Vec<u8>, u32> {
    let (mut room, mut len) = (first, 0);
    loop {
        let mut out = vec![0; room];
        match call(out.as_mut_ptr(), room, &mut len) {
            0 => {
                out.truncate(len);
                return Ok(out);
            }
            NO_ROOM => room = len,
            status => return Err(status),
        }
    }
}
