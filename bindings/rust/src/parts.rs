//! Sealing and checking of a message that comes in parts, as a heap map does that no host holds whole.
//!
//! However the parts are cut, ciphertext and tag are those that [`Morus`](crate::Morus) makes of the whole; so the tag
//! does not say where the cuts were. `include/votrikany.h` says what each number means. Nothing here allocates.
use crate::library;
use crate::{opened, sealed, Error, Key, Nonce, Tag};
use core::mem::MaybeUninit;

/// The number for a part with which data, or message, would have 2^61 bytes or more.
pub const TOO_LONG: u8 = 2;

/// The number for data after a part of the message, even if that was empty.
pub const DATA_LATE: u8 = 23;

/// What the library keeps between two parts: 216 bytes, aligned to 8. It may leave the last few unwritten.
type Record = [MaybeUninit<u64>; 27];

/// Seals a message that comes in parts: all of the data, then the parts of the message, each in place at once, then the
/// tag. A refused part is left as it was, and the sealer can go on with another.
///
/// ```
/// use std::io::{Read, Write};
/// use votrikany::{parts::Sealer, Key, Nonce};
///
/// fn seal(map: &mut impl Read, out: &mut impl Write, nonce: &Nonce, key: &Key) -> std::io::Result<()> {
///     let (mut sealer, mut piece) = (Sealer::new(nonce, key), [0; 4096]);
///     sealer.data(b"host=a17").expect("data that comes first");
///     loop {
///         let length = map.read(&mut piece)?;
///         if length == 0 {
///             return out.write_all(&sealer.tag());
///         }
///         sealer.message(&mut piece[..length]).expect("under 2^61 bytes");
///         out.write_all(&piece[..length])?;
///     }
/// }
/// ```
// Not Clone: two that go on apart would seal two messages under one nonce. Not Debug: it is as secret as the key.
#[repr(C)]
pub struct Sealer(Record);

impl Sealer {
    /// The nonce first, as in [`Morus::new`](crate::Morus::new).
    pub fn new(nonce: &Nonce, key: &Key) -> Self {
        library::sealer_begin(key, nonce)
    }

    /// Takes a part of the data, or says [`DATA_LATE`] or [`TOO_LONG`], in this order.
    pub fn data(&mut self, part: &[u8]) -> Result<(), u8> {
        taken(library::sealer_data(self, part))
    }

    /// Seals a part of the message where it stands, or says [`TOO_LONG`]: the part is then not sealed. The first part,
    /// even an empty one, ends the data.
    pub fn message(&mut self, part: &mut [u8]) -> Result<(), u8> {
        taken(library::sealer_message(self, part))
    }

    /// The tag of all that came. It uses the sealer up, so the library's 24, for a call after the tag, is never given.
    pub fn tag(mut self) -> Tag {
        let mut tag = [0u8; 16];
        sealed(library::sealer_tag(&mut self, &mut tag));
        tag
    }
}

/// Checks a sealed message that comes in parts: all of the data, then the parts of the ciphertext, then the tag. It
/// says whether the tag is right, and hands out nothing of the message.
///
/// ```
/// use std::io::Read;
/// use votrikany::{parts::Checker, Error, Key, Nonce, Tag};
///
/// fn check(text: &mut impl Read, tag: &Tag, nonce: &Nonce, key: &Key) -> std::io::Result<Result<(), Error>> {
///     let (mut checker, mut piece) = (Checker::new(nonce, key), [0; 4096]);
///     checker.data(b"host=a17").expect("data that comes first");
///     loop {
///         let length = text.read(&mut piece)?;
///         if length == 0 {
///             return Ok(checker.tag(tag));
///         }
///         checker.ciphertext(&piece[..length]).expect("under 2^61 bytes");
///     }
/// }
/// ```
// Not Clone: a checker is for one tag, and a yes and a no both end it. Not Debug: it is as secret as the key.
#[repr(C)]
pub struct Checker(Record);

impl Checker {
    /// The nonce first, as in [`Morus::new`](crate::Morus::new).
    pub fn new(nonce: &Nonce, key: &Key) -> Self {
        library::checker_begin(key, nonce)
    }

    /// Takes a part of the data, or says [`DATA_LATE`] or [`TOO_LONG`], in this order.
    pub fn data(&mut self, part: &[u8]) -> Result<(), u8> {
        taken(library::checker_data(self, part))
    }

    /// Takes a part of the ciphertext, or says [`TOO_LONG`]. The first part, even an empty one, ends the data.
    pub fn ciphertext(&mut self, part: &[u8]) -> Result<(), u8> {
        taken(library::checker_ciphertext(self, part))
    }

    /// Whether `tag` is the tag of all that came; where it is not, nothing that came is to be used. It uses the checker
    /// up, so the library's 24 is never given.
    pub fn tag(mut self, tag: &Tag) -> Result<(), Error> {
        opened(library::checker_tag(&mut self, tag))
    }
}

fn taken(number: u8) -> Result<(), u8> {
    match number {
        0 => Ok(()),
        _ => Err(number),
    }
}
