//! The parts of bindings/rust: any cutting against the one call, refusals, and the examples of the documentation.
use std::io::{Read, Write};
use votrikany::parts::{Checker, Sealer, DATA_LATE};
use votrikany::{Error, Key, Morus, Nonce, Tag};

const KEY: Key = [7; 16];
const NONCE: Nonce = [9; 16];

/// Bytes that all differ from their neighbours.
fn bytes(length: usize, from: u8) -> Vec<u8> {
    (0..length)
        .map(|i| (i * 7) as u8 ^ (i >> 5) as u8 ^ from)
        .collect()
}

/// The first part, which can be empty, and then parts of `step` bytes.
fn cut(length: usize, first: usize, step: usize) -> Vec<usize> {
    let mut parts = vec![first.min(length)];
    let mut left = length - parts[0];
    while left > 0 {
        parts.push(step.min(left));
        left -= step.min(left);
    }
    parts
}

fn sealed(data: &[u8], by: &[usize], message: &[u8], then: &[usize]) -> (Vec<u8>, Tag) {
    let (mut sealer, mut data, mut text) = (Sealer::new(&NONCE, &KEY), data, message.to_vec());
    for &length in by {
        let (part, rest) = data.split_at(length);
        sealer.data(part).unwrap();
        data = rest;
    }
    let mut left = text.as_mut_slice();
    for &length in then {
        let (part, rest) = left.split_at_mut(length);
        sealer.message(part).unwrap();
        left = rest;
    }
    (text, sealer.tag())
}

fn checked(data: &[u8], by: &[usize], text: &[u8], then: &[usize], tag: &Tag) -> Result<(), Error> {
    let (mut checker, mut data, mut text) = (Checker::new(&NONCE, &KEY), data, text);
    for &length in by {
        let (part, rest) = data.split_at(length);
        checker.data(part).unwrap();
        data = rest;
    }
    for &length in then {
        let (part, rest) = text.split_at(length);
        checker.ciphertext(part).unwrap();
        text = rest;
    }
    checker.tag(tag)
}

/// Data and a message, cut so, against the one call; and with a bit changed wherever it stands.
fn alike(n: usize, m: usize, first: usize, step: usize) {
    let (data, message) = (bytes(n, 1), bytes(m, 2));
    let (by, then) = (cut(n, first, step), cut(m, step, first.max(1)));
    let (text, tag) = Morus::new(&NONCE, &KEY).encrypt(&message, &data);
    let wanted = (text.clone(), tag);
    assert_eq!(
        sealed(&data, &by, &message, &then),
        wanted,
        "{by:?} {then:?}"
    );
    assert_eq!(checked(&data, &by, &text, &then, &tag), Ok(()));
    let mut other = (data, text, tag);
    for place in [0, n / 2, n.max(1) - 1].into_iter().filter(|_| n > 0) {
        other.0[place] ^= 0x80;
        assert_eq!(
            checked(&other.0, &by, &other.1, &then, &other.2),
            Err(Error::InvalidTag)
        );
        other.0[place] ^= 0x80;
    }
    for place in [0, m / 2, m.max(1) - 1].into_iter().filter(|_| m > 0) {
        other.1[place] ^= 0x80;
        assert_eq!(
            checked(&other.0, &by, &other.1, &then, &other.2),
            Err(Error::InvalidTag)
        );
        other.1[place] ^= 0x80;
    }
    other.2[n % 16] ^= 1;
    assert_eq!(
        checked(&other.0, &by, &other.1, &then, &other.2),
        Err(Error::InvalidTag)
    );
}

fn any_cut() -> usize {
    const LENGTHS: [usize; 8] = [0, 1, 31, 32, 33, 64, 65, 200];
    let mut cuts = 0;
    for (n, m) in LENGTHS.iter().flat_map(|n| LENGTHS.map(|m| (*n, m))) {
        for (first, step) in [
            (0, 1),
            (1, 31),
            (31, 32),
            (32, 33),
            (33, 2),
            (64, 64),
            (200, 200),
        ] {
            alike(n, m, first, step);
            cuts += 1;
        }
    }
    cuts
}

/// Data after a part of the message, an empty one too; what was refused changes nothing.
fn data_late() {
    for length in [0, 1, 32, 40] {
        let (data, message) = (bytes(33, 1), bytes(65, 2));
        let (mut sealer, mut text) = (Sealer::new(&NONCE, &KEY), message.clone());
        let mut checker = Checker::new(&NONCE, &KEY);
        assert_eq!((sealer.data(&data), checker.data(&data)), (Ok(()), Ok(())));
        let (first, rest) = text.split_at_mut(length);
        assert_eq!(
            (sealer.message(first), checker.ciphertext(first)),
            (Ok(()), Ok(()))
        );
        for late in [&[], &data[..1], &data] {
            assert_eq!(sealer.data(late), Err(DATA_LATE));
            assert_eq!(checker.data(late), Err(DATA_LATE));
        }
        assert_eq!(
            (sealer.message(rest), checker.ciphertext(rest)),
            (Ok(()), Ok(()))
        );
        let tag = sealer.tag();
        assert_eq!(
            (text, tag),
            Morus::new(&NONCE, &KEY).encrypt(&message, &data)
        );
        assert_eq!(checker.tag(&tag), Ok(()));
    }
}

/// No part of a message is an empty message; and the nonce of zeros is taken as any other.
fn without_parts() {
    for nonce in [NONCE, [0; 16]] {
        for data in [bytes(0, 1), bytes(33, 1)] {
            let (mut sealer, mut checker) = (Sealer::new(&nonce, &KEY), Checker::new(&nonce, &KEY));
            assert_eq!((sealer.data(&data), checker.data(&data)), (Ok(()), Ok(())));
            let tag = sealer.tag();
            assert_eq!(
                tag,
                Morus::new(&nonce, &KEY).encrypt_in_place(&mut [], &data)
            );
            assert_eq!(checker.tag(&tag), Ok(()));
        }
    }
    assert_eq!(
        Checker::new(&NONCE, &KEY).tag(&[0; 16]),
        Err(Error::InvalidTag)
    );
}

/// The example of `Sealer`.
fn seal(
    map: &mut impl Read,
    out: &mut impl Write,
    nonce: &Nonce,
    key: &Key,
) -> std::io::Result<()> {
    let (mut sealer, mut piece) = (Sealer::new(nonce, key), [0; 4096]);
    sealer.data(b"host=a17").expect("data that comes first");
    loop {
        let length = map.read(&mut piece)?;
        if length == 0 {
            return out.write_all(&sealer.tag());
        }
        sealer
            .message(&mut piece[..length])
            .expect("under 2^61 bytes");
        out.write_all(&piece[..length])?;
    }
}

/// The example of `Checker`.
fn check(
    text: &mut impl Read,
    tag: &Tag,
    nonce: &Nonce,
    key: &Key,
) -> std::io::Result<Result<(), Error>> {
    let (mut checker, mut piece) = (Checker::new(nonce, key), [0; 4096]);
    checker.data(b"host=a17").expect("data that comes first");
    loop {
        let length = text.read(&mut piece)?;
        if length == 0 {
            return Ok(checker.tag(tag));
        }
        checker
            .ciphertext(&piece[..length])
            .expect("under 2^61 bytes");
    }
}

fn examples() {
    for length in [0, 1, 4095, 4096, 4097, 10000] {
        let (map, mut out) = (bytes(length, 3), Vec::new());
        seal(&mut map.as_slice(), &mut out, &NONCE, &KEY).unwrap();
        let (text, mut tag) = Morus::new(&NONCE, &KEY).encrypt(&map, b"host=a17");
        assert_eq!(out, [text.as_slice(), &tag].concat());
        assert_eq!(
            check(&mut text.as_slice(), &tag, &NONCE, &KEY).unwrap(),
            Ok(())
        );
        tag[length % 16] ^= 1;
        let wrong = check(&mut text.as_slice(), &tag, &NONCE, &KEY).unwrap();
        assert_eq!(wrong, Err(Error::InvalidTag));
    }
}

/// Which of the two is meant can be told only of a type that is not `Clone`: for one that is, this does not compile.
trait Copies<Kind> {
    fn none() {}
}

struct Cloned;

impl<T> Copies<()> for T {}
impl<T: Clone> Copies<Cloned> for T {}

fn records() {
    <Sealer as Copies<_>>::none();
    <Checker as Copies<_>>::none();
    assert_eq!(std::mem::size_of::<Sealer>(), 216);
    assert_eq!(std::mem::size_of::<Checker>(), 216);
    assert_eq!(std::mem::align_of::<Sealer>(), 8);
    assert_eq!(std::mem::align_of::<Checker>(), 8);
}

fn main() {
    records();
    let cuts = any_cut();
    data_late();
    without_parts();
    examples();
    println!(
        "parts: {cuts} cuttings sealed and checked as in one call, refusals as the header says"
    );
}
