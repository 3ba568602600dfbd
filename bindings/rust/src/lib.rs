//! MORUS-1280-128 with the interface of the crate morus 0.1.5, and beside it messages that come in parts ([`parts`])
//! and the line journal ([`journal`]).
//!
//! The work is done by the proved library `export`, in x86-64 code; this crate hands over slices and takes the answers
//! apart. A program over morus 0.1.5 takes this crate instead by one line of its Cargo.toml:
//! `morus = { package = "votrikany", path = ".." }`.
//!
//! What is proved is the library. That this crate's declarations are those of `include/votrikany.h` is read, and tested.
#![cfg_attr(not(feature = "std"), no_std)]

#[cfg(not(all(target_arch = "x86_64", target_os = "linux")))]
compile_error!("libexport.a is x86-64 Linux code: build with --target x86_64-unknown-linux-gnu");

use core::fmt;

pub mod journal;
mod library;
pub mod parts;

/// Why an opening is refused.
#[derive(Debug, Clone, Copy, Eq, PartialEq)]
pub enum Error {
    InvalidTag,
}

impl fmt::Display for Error {
    fn fmt(&self, f: &mut fmt::Formatter<'_>) -> fmt::Result {
        match self {
            Error::InvalidTag => f.write_str("Invalid tag"),
        }
    }
}

#[cfg(feature = "std")]
impl std::error::Error for Error {}

/// The sixteen bytes that an opening compares.
pub type Tag = [u8; 16];

/// A secret of sixteen bytes.
pub type Key = [u8; 16];

/// Sixteen bytes that are used once with a key. [`Morus`] takes any, sixteen zero bytes too, as morus 0.1.5 does; the
/// journal refuses those ([`journal::ZERO_NONCE`]).
pub type Nonce = [u8; 16];

/// A key and a nonce, used up by one call.
pub struct Morus {
    nonce: Nonce,
    key: Key,
}

/// What an opening's number says. The lengths fit: no slice of bytes has 2^61 of them, since no address has so many bits, and
/// a second buffer is made here; parts were looked at as they came.
fn opened(number: u8) -> Result<(), Error> {
    match number {
        0 => Ok(()),
        1 => Err(Error::InvalidTag),
        _ => unreachable!("the answer {} to lengths that fit", number),
    }
}

fn sealed(number: u8) {
    assert_eq!(number, 0, "the answer to lengths that fit");
}

impl Morus {
    /// The nonce first, as in morus 0.1.5.
    pub fn new(nonce: &Nonce, key: &Key) -> Self {
        Morus {
            nonce: *nonce,
            key: *key,
        }
    }

    /// The ciphertext of `m` with the data `ad`, and the tag.
    #[cfg(feature = "std")]
    pub fn encrypt(self, m: &[u8], ad: &[u8]) -> (Vec<u8>, Tag) {
        let mut c = vec![0u8; m.len()];
        let mut tag = [0u8; 16];
        sealed(library::seal(
            &self.key,
            &self.nonce,
            ad,
            m,
            &mut c,
            &mut tag,
        ));
        (c, tag)
    }

    /// Seals `mc` where it stands, and gives the tag.
    pub fn encrypt_in_place(self, mc: &mut [u8], ad: &[u8]) -> Tag {
        let mut tag = [0u8; 16];
        sealed(library::seal_in_place(
            &self.key,
            &self.nonce,
            ad,
            mc,
            &mut tag,
        ));
        tag
    }

    /// The message of `c`, or an error where the tag differs.
    #[cfg(feature = "std")]
    pub fn decrypt(self, c: &[u8], tag: &Tag, ad: &[u8]) -> Result<Vec<u8>, Error> {
        let mut m = vec![0u8; c.len()];
        opened(library::open(&self.key, &self.nonce, ad, c, tag, &mut m))?;
        Ok(m)
    }

    /// Opens `mc` where it stands. Where the tag differs every byte of it becomes 0xaa.
    pub fn decrypt_in_place(self, mc: &mut [u8], tag: &Tag, ad: &[u8]) -> Result<(), Error> {
        opened(library::open_in_place(&self.key, &self.nonce, ad, mc, tag))
    }
}
