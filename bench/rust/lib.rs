//! The Rust side of the measurements for C to call: one function for each thing that is measured.
#[path = "../../tools/rust/journal.rs"]
mod journal;

use core::slice::{from_raw_parts, from_raw_parts_mut};
use morus::Morus;

type Sixteen = [u8; 16];

#[no_mangle]
pub unsafe extern "C" fn rust_seal_in_place(
    key: &Sixteen,
    nonce: &Sixteen,
    ad: *const u8,
    ad_length: usize,
    text: *mut u8,
    text_length: usize,
    tag: &mut Sixteen,
) -> u8 {
    *tag = Morus::new(nonce, key).encrypt_in_place(
        from_raw_parts_mut(text, text_length),
        from_raw_parts(ad, ad_length),
    );
    0
}

#[no_mangle]
pub unsafe extern "C" fn rust_open_in_place(
    key: &Sixteen,
    nonce: &Sixteen,
    ad: *const u8,
    ad_length: usize,
    text: *mut u8,
    text_length: usize,
    tag: &Sixteen,
) -> u8 {
    let opened = Morus::new(nonce, key).decrypt_in_place(
        from_raw_parts_mut(text, text_length),
        tag,
        from_raw_parts(ad, ad_length),
    );
    opened.is_err() as u8
}

#[no_mangle]
pub unsafe extern "C" fn rust_write_line(
    key: &Sixteen,
    nonce: &Sixteen,
    ad: *const u8,
    ad_length: usize,
    message: *const u8,
    message_length: usize,
    line: *mut u8,
    line_length: usize,
    size: &mut usize,
) -> u8 {
    let report = journal::write_line(
        key,
        nonce,
        from_raw_parts(ad, ad_length),
        from_raw_parts(message, message_length),
        from_raw_parts_mut(line, line_length),
    );
    *size = report.length;
    report.number
}

#[no_mangle]
pub unsafe extern "C" fn rust_read_line(
    text: *const u8,
    length: usize,
    place: usize,
    key: &Sixteen,
    frame: *mut u8,
    frame_length: usize,
    next: &mut usize,
    n: &mut usize,
    m: &mut usize,
    at: &mut usize,
) -> u8 {
    let answer = journal::read_line(
        from_raw_parts(text, length),
        place,
        key,
        from_raw_parts_mut(frame, frame_length),
    );
    *next = answer.next;
    *n = answer.n;
    *m = answer.m;
    *at = answer.at;
    answer.number
}

#[no_mangle]
pub unsafe extern "C" fn rust_read_lines(
    text: *const u8,
    length: usize,
    place: usize,
    key: &Sixteen,
    slots: *mut usize,
    slots_length: usize,
    frames: *mut u8,
    frames_length: usize,
    next: &mut usize,
) -> u8 {
    let many = journal::read_lines(
        from_raw_parts(text, length),
        place,
        key,
        from_raw_parts_mut(slots, slots_length),
        from_raw_parts_mut(frames, frames_length),
    );
    *next = many.next;
    many.number
}
