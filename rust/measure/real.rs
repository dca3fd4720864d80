//! The real crate's calls under C names, for the driver. A refusal answers the largest usize.
#![no_std]
use core::panic::PanicInfo;
use core::slice::{from_raw_parts, from_raw_parts_mut};

#[panic_handler]
fn panicked(_: &PanicInfo) -> ! {
    loop {}
}

/// # Safety
/// Both pointers go with their lengths.
#[no_mangle]
pub unsafe extern "C" fn real_encode(src: *const u8, n: usize, dest: *mut u8, m: usize) -> usize {
    match cobs::try_encode(from_raw_parts(src, n), from_raw_parts_mut(dest, m)) {
        Ok(length) => length,
        Err(_) => usize::MAX,
    }
}

/// # Safety
/// Both pointers go with their lengths.
#[no_mangle]
pub unsafe extern "C" fn real_decode(src: *const u8, n: usize, dest: *mut u8, m: usize) -> usize {
    match cobs::decode(from_raw_parts(src, n), from_raw_parts_mut(dest, m)) {
        Ok(report) => report.frame_size(),
        Err(_) => usize::MAX,
    }
}
