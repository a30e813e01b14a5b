//! The Rust side: edid-rs as it stands, over a cursor on the lent bytes.
use std::hint::black_box;
use std::io::Cursor;

/// Of the answer only whether it is a record is asked.
#[no_mangle]
pub unsafe extern "C" fn rust_parse(block: *const u8, length: usize) -> u64 {
    let bytes = std::slice::from_raw_parts(block, length);
    edid_rs::parse(&mut Cursor::new(bytes)).is_ok() as u64
}

/// The whole record is made: the compiler takes it that every field of it is read.
#[no_mangle]
pub unsafe extern "C" fn rust_record(block: *const u8, length: usize) -> u64 {
    let bytes = std::slice::from_raw_parts(block, length);
    black_box(edid_rs::parse(&mut Cursor::new(bytes))).is_ok() as u64
}
