//! The line journal over the unchanged Rust crate, written from the specification's table and from nothing of ours:
//! the comparison judges by it, and the benchmark measures against it. It is plain and fast Rust.
use morus::Morus;

/// What a refused reading leaves in every byte.
pub const REFUSED: u8 = 0xaa;

/// The nonce that nobody set: no line is written or opened under it.
const ZERO_NONCE: [u8; 16] = [0; 16];

const DIGITS: &[u8; 16] = b"0123456789abcdef";

pub struct Line {
    pub number: u8,
    pub length: usize,
}

pub struct Answer {
    pub number: u8,
    pub next: usize,
    pub n: usize,
    pub m: usize,
    pub at: usize,
}

/// What reading many lines answers.
pub struct Many {
    pub number: u8,
    pub next: usize,
}

pub fn write_line(
    key: &[u8; 16],
    nonce: &[u8; 16],
    data: &[u8],
    message: &[u8],
    line: &mut [u8],
) -> Line {
    let (n, m) = (data.len(), message.len());
    let refused = |number| Line { number, length: 0 };
    if n > 64 {
        return refused(8);
    }
    if m > 256 {
        return refused(10);
    }
    if *nonce == ZERO_NONCE {
        return refused(22);
    }
    let count = 33 + n + m;
    if line.len() < 2 * count + 1 {
        return refused(15);
    }
    let mut frame = [0u8; 353];
    let (start, end) = (17 + n, 17 + n + m);
    frame[..16].copy_from_slice(nonce);
    frame[16] = n as u8;
    frame[17..start].copy_from_slice(data);
    frame[start..end].copy_from_slice(message);
    let tag = Morus::new(nonce, key).encrypt_in_place(&mut frame[start..end], data);
    frame[end..count].copy_from_slice(&tag);
    encode(&frame[..count], line);
    line[2 * count] = b'\n';
    Line {
        number: 0,
        length: 2 * count + 1,
    }
}

/// Two digits for each byte, at the front of `text`, which has room for them.
pub fn encode(bytes: &[u8], text: &mut [u8]) {
    for (digits, byte) in text.chunks_exact_mut(2).zip(bytes) {
        digits[0] = DIGITS[(byte >> 4) as usize];
        digits[1] = DIGITS[(byte & 15) as usize];
    }
}

pub fn digit(byte: u8) -> Option<u8> {
    match byte {
        b'0'..=b'9' => Some(byte - b'0'),
        b'a'..=b'f' => Some(byte - b'a' + 10),
        _ => None,
    }
}

/// The bytes that the text says, at the front of `bytes`, which has room for them, and how many; or the number of what
/// is wrong with the digits.
pub fn decode(text: &[u8], bytes: &mut [u8]) -> Result<usize, u8> {
    for (byte, digits) in bytes.iter_mut().zip(text.chunks_exact(2)) {
        *byte = digit(digits[0]).ok_or(5)? << 4 | digit(digits[1]).ok_or(5)?;
    }
    if let [last] = text.chunks_exact(2).remainder() {
        return Err(if digit(*last).is_some() { 6 } else { 5 });
    }
    Ok(text.len() / 2)
}

/// The frame's bytes at the buffer's front, and how many; or the number of what is wrong with the text.
fn frame_of(text: &[u8], frame: &mut [u8]) -> Result<usize, u8> {
    if text.len() > 706 {
        return Err(4);
    }
    decode(text, frame)
}

/// Opens the frame of `count` bytes at the buffer's front where it stands: n and m, or the number of what is wrong.
fn open(count: usize, key: &[u8; 16], frame: &mut [u8]) -> Result<(usize, usize), u8> {
    // No digits at all pass the tests of the text, so an empty line is told here, where a good one does not pay for it.
    if count < 33 {
        return Err(if count == 0 { 16 } else { 7 });
    }
    let n = frame[16] as usize;
    if n > 64 {
        return Err(8);
    }
    if 33 + n > count {
        return Err(9);
    }
    let m = count - 33 - n;
    if m > 256 {
        return Err(10);
    }
    if frame[..16] == ZERO_NONCE {
        return Err(22);
    }
    let (head, rest) = frame.split_at_mut(17 + n);
    let (text, rest) = rest.split_at_mut(m);
    let nonce: [u8; 16] = head[..16].try_into().unwrap();
    let tag: [u8; 16] = rest[..16].try_into().unwrap();
    Morus::new(&nonce, key)
        .decrypt_in_place(text, &tag, &head[17..])
        .map_err(|_| 1)?;
    Ok((n, m))
}

/// The line's answer: its next place with the frame's sizes, or with the number of what is wrong.
fn read(
    journal: &[u8],
    place: usize,
    key: &[u8; 16],
    frame: &mut [u8],
) -> (usize, Result<(usize, usize, usize), u8>) {
    if frame.len() < 353 {
        return (place, Err(13));
    }
    if place > journal.len() {
        return (place, Err(12));
    }
    if place == journal.len() {
        return (place, Err(14));
    }
    match journal[place..].iter().position(|&byte| byte == b'\n') {
        None => (journal.len(), Err(11)),
        Some(length) => {
            let end = place + length;
            let opened = frame_of(&journal[place..end], frame)
                .and_then(|count| open(count, key, frame).map(|(n, m)| (count, n, m)));
            (end + 1, opened)
        }
    }
}

/// The place of the first byte from `place` on that is no digit; there is one.
fn not_digit(journal: &[u8], place: usize) -> usize {
    let digits = journal[place..]
        .iter()
        .take_while(|&&byte| digit(byte).is_some());
    place + digits.count()
}

pub fn read_line(journal: &[u8], place: usize, key: &[u8; 16], frame: &mut [u8]) -> Answer {
    match read(journal, place, key, frame) {
        (next, Ok((count, n, m))) => {
            frame[count..].fill(REFUSED);
            Answer {
                number: 0,
                next,
                n,
                m,
                at: place,
            }
        }
        (next, Err(number)) => {
            frame.fill(REFUSED);
            let at = match number {
                5 => not_digit(journal, place),
                _ => place,
            };
            Answer {
                number,
                next,
                n: 0,
                m: 0,
                at,
            }
        }
    }
}

/// A line for each slot, which is five numbers of `slots`: number, next place, n, m and the answer's own place; its
/// frame is 353 bytes of `frames`. Words behind the last whole slot stay as they were.
pub fn read_lines(
    journal: &[u8],
    place: usize,
    key: &[u8; 16],
    slots: &mut [usize],
    frames: &mut [u8],
) -> Many {
    if (slots.len() / 5).checked_mul(353) != Some(frames.len()) {
        frames.fill(REFUSED);
        for slot in slots.chunks_exact_mut(5) {
            slot.copy_from_slice(&[21, place, 0, 0, place]);
        }
        return Many {
            number: 21,
            next: place,
        };
    }
    let mut next = place;
    for (slot, frame) in slots.chunks_exact_mut(5).zip(frames.chunks_exact_mut(353)) {
        let a = read_line(journal, next, key, frame);
        slot.copy_from_slice(&[a.number.into(), a.next, a.n, a.m, a.at]);
        next = a.next;
    }
    Many { number: 0, next }
}
