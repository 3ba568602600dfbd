//! The functions of libexport.a, as include/votrikany.h declares them, and a safe function for each.
//!
//! What the header asks of a caller is met by the types: a reference is never null and points to what its type says, a
//! slice's pointer to as many elements as its length says, and nothing that is lent `&mut` overlaps anything else. A
//! sealer or a checker is made here alone, by the library.
use crate::journal::{Frame, FRAME_SIZE};
use crate::parts::{Checker, Sealer};
use crate::{Key, Nonce, Tag};

/// The words of an answer of `read_lines`: number, next place, n, m and the answer's own place.
pub const SLOT_SIZE: usize = 5;
pub type Slot = [usize; SLOT_SIZE];

#[link(name = "export", kind = "static")]
extern "C" {
    fn votrikany_seal_in_place(
        key: *const u8,
        nonce: *const u8,
        ad: *const u8,
        ad_length: usize,
        text: *mut u8,
        text_length: usize,
        tag: *mut u8,
    ) -> u8;
    fn votrikany_open_in_place(
        key: *const u8,
        nonce: *const u8,
        ad: *const u8,
        ad_length: usize,
        text: *mut u8,
        text_length: usize,
        tag: *const u8,
    ) -> u8;
    #[cfg(feature = "std")]
    fn votrikany_seal(
        key: *const u8,
        nonce: *const u8,
        ad: *const u8,
        ad_length: usize,
        message: *const u8,
        message_length: usize,
        out: *mut u8,
        out_length: usize,
        tag: *mut u8,
    ) -> u8;
    #[cfg(feature = "std")]
    fn votrikany_open(
        key: *const u8,
        nonce: *const u8,
        ad: *const u8,
        ad_length: usize,
        cipher: *const u8,
        cipher_length: usize,
        tag: *const u8,
        out: *mut u8,
        out_length: usize,
    ) -> u8;
    fn votrikany_sealer_begin(key: *const u8, nonce: *const u8) -> Sealer;
    fn votrikany_sealer_data(sealer: *mut Sealer, part: *const u8, part_length: usize) -> u8;
    fn votrikany_sealer_message(sealer: *mut Sealer, part: *mut u8, part_length: usize) -> u8;
    fn votrikany_sealer_tag(sealer: *mut Sealer, tag: *mut u8) -> u8;
    fn votrikany_checker_begin(key: *const u8, nonce: *const u8) -> Checker;
    fn votrikany_checker_data(checker: *mut Checker, part: *const u8, part_length: usize) -> u8;
    fn votrikany_checker_ciphertext(
        checker: *mut Checker,
        part: *const u8,
        part_length: usize,
    ) -> u8;
    fn votrikany_checker_tag(checker: *mut Checker, tag: *const u8) -> u8;
    fn votrikany_write_line(
        key: *const u8,
        nonce: *const u8,
        ad: *const u8,
        ad_length: usize,
        message: *const u8,
        message_length: usize,
        line: *mut u8,
        line_length: usize,
        size: *mut usize,
    ) -> u8;
    fn votrikany_read_line(
        journal: *const u8,
        journal_length: usize,
        place: usize,
        key: *const u8,
        frame: *mut u8,
        frame_length: usize,
        next: *mut usize,
        n: *mut usize,
        m: *mut usize,
        at: *mut usize,
    ) -> u8;
    fn votrikany_read_lines(
        journal: *const u8,
        journal_length: usize,
        place: usize,
        key: *const u8,
        slots: *mut usize,
        slots_length: usize,
        frames: *mut u8,
        frames_length: usize,
        next: *mut usize,
    ) -> u8;
    fn votrikany_decode(
        message: *const u8,
        message_length: usize,
        ratio: *mut f64,
        tick: *mut u32,
    ) -> u8;
    fn votrikany_newer(a: u32, b: u32) -> bool;
}

pub fn seal_in_place(key: &Key, nonce: &Nonce, ad: &[u8], text: &mut [u8], tag: &mut Tag) -> u8 {
    unsafe {
        votrikany_seal_in_place(
            key.as_ptr(),
            nonce.as_ptr(),
            ad.as_ptr(),
            ad.len(),
            text.as_mut_ptr(),
            text.len(),
            tag.as_mut_ptr(),
        )
    }
}

pub fn open_in_place(key: &Key, nonce: &Nonce, ad: &[u8], text: &mut [u8], tag: &Tag) -> u8 {
    unsafe {
        votrikany_open_in_place(
            key.as_ptr(),
            nonce.as_ptr(),
            ad.as_ptr(),
            ad.len(),
            text.as_mut_ptr(),
            text.len(),
            tag.as_ptr(),
        )
    }
}

#[cfg(feature = "std")]
pub fn seal(
    key: &Key,
    nonce: &Nonce,
    ad: &[u8],
    message: &[u8],
    out: &mut [u8],
    tag: &mut Tag,
) -> u8 {
    unsafe {
        votrikany_seal(
            key.as_ptr(),
            nonce.as_ptr(),
            ad.as_ptr(),
            ad.len(),
            message.as_ptr(),
            message.len(),
            out.as_mut_ptr(),
            out.len(),
            tag.as_mut_ptr(),
        )
    }
}

#[cfg(feature = "std")]
pub fn open(key: &Key, nonce: &Nonce, ad: &[u8], cipher: &[u8], tag: &Tag, out: &mut [u8]) -> u8 {
    unsafe {
        votrikany_open(
            key.as_ptr(),
            nonce.as_ptr(),
            ad.as_ptr(),
            ad.len(),
            cipher.as_ptr(),
            cipher.len(),
            tag.as_ptr(),
            out.as_mut_ptr(),
            out.len(),
        )
    }
}

pub fn sealer_begin(key: &Key, nonce: &Nonce) -> Sealer {
    unsafe { votrikany_sealer_begin(key.as_ptr(), nonce.as_ptr()) }
}

pub fn sealer_data(sealer: &mut Sealer, part: &[u8]) -> u8 {
    unsafe { votrikany_sealer_data(sealer, part.as_ptr(), part.len()) }
}

pub fn sealer_message(sealer: &mut Sealer, part: &mut [u8]) -> u8 {
    unsafe { votrikany_sealer_message(sealer, part.as_mut_ptr(), part.len()) }
}

pub fn sealer_tag(sealer: &mut Sealer, tag: &mut Tag) -> u8 {
    unsafe { votrikany_sealer_tag(sealer, tag.as_mut_ptr()) }
}

pub fn checker_begin(key: &Key, nonce: &Nonce) -> Checker {
    unsafe { votrikany_checker_begin(key.as_ptr(), nonce.as_ptr()) }
}

pub fn checker_data(checker: &mut Checker, part: &[u8]) -> u8 {
    unsafe { votrikany_checker_data(checker, part.as_ptr(), part.len()) }
}

pub fn checker_ciphertext(checker: &mut Checker, part: &[u8]) -> u8 {
    unsafe { votrikany_checker_ciphertext(checker, part.as_ptr(), part.len()) }
}

pub fn checker_tag(checker: &mut Checker, tag: &Tag) -> u8 {
    unsafe { votrikany_checker_tag(checker, tag.as_ptr()) }
}

pub fn write_line(
    key: &Key,
    nonce: &Nonce,
    ad: &[u8],
    message: &[u8],
    line: &mut [u8],
    size: &mut usize,
) -> u8 {
    unsafe {
        votrikany_write_line(
            key.as_ptr(),
            nonce.as_ptr(),
            ad.as_ptr(),
            ad.len(),
            message.as_ptr(),
            message.len(),
            line.as_mut_ptr(),
            line.len(),
            size,
        )
    }
}

pub fn read_line(
    journal: &[u8],
    place: usize,
    key: &Key,
    frame: &mut [u8],
    next: &mut usize,
    n: &mut usize,
    m: &mut usize,
    at: &mut usize,
) -> u8 {
    unsafe {
        votrikany_read_line(
            journal.as_ptr(),
            journal.len(),
            place,
            key.as_ptr(),
            frame.as_mut_ptr(),
            frame.len(),
            next,
            n,
            m,
            at,
        )
    }
}

/// Arrays stand in a slice one behind the other with nothing between, so it is as many words, or bytes, as they have
/// together. No product wraps: each counts what is in memory.
pub fn read_lines(
    journal: &[u8],
    place: usize,
    key: &Key,
    slots: &mut [Slot],
    frames: &mut [Frame],
    next: &mut usize,
) -> u8 {
    unsafe {
        votrikany_read_lines(
            journal.as_ptr(),
            journal.len(),
            place,
            key.as_ptr(),
            slots.as_mut_ptr().cast(),
            SLOT_SIZE * slots.len(),
            frames.as_mut_ptr().cast(),
            FRAME_SIZE * frames.len(),
            next,
        )
    }
}

pub fn decode(message: &[u8], ratio: &mut f64, tick: &mut u32) -> u8 {
    unsafe { votrikany_decode(message.as_ptr(), message.len(), ratio, tick) }
}

pub fn newer(a: u32, b: u32) -> bool {
    unsafe { votrikany_newer(a, b) }
}
