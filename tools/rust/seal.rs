//! The Rust side of the program `seal`: a key line and lines NONCE DATA MESSAGE in, their sealed lines out.
#[allow(dead_code)] // the reader is not used here
mod journal;

use std::io::{BufRead, BufReader, Write};

/// How many bytes are read and written at a time; a line that is as long is not sealed.
const PIECE: usize = 65_536;
const MOST_LINE: usize = 707;

fn key_of(line: &[u8]) -> Option<[u8; 16]> {
    let mut key = [0u8; 16];
    match line {
        [text @ .., b'\n'] if text.len() == 32 => journal::decode(text, &mut key).ok()?,
        _ => return None,
    };
    Some(key)
}

/// How many bytes a word says, at the front of `bytes`, or what is wrong with it; `-` says none.
fn bytes_of(word: &[u8], bytes: &mut [u8], too_long: &'static str) -> Result<usize, &'static str> {
    match word {
        b"" => return Err("nothing, where - says none"),
        b"-" => return Ok(0),
        _ => {}
    }
    let mut behind = word.iter().skip(2 * bytes.len());
    if behind.any(|&byte| journal::digit(byte).is_none()) {
        return Err("a byte is not 0-9 or a-f (5)");
    }
    match journal::decode(word, bytes) {
        Ok(count) if count <= bytes.len() => Ok(count),
        Ok(_) => Err(too_long),
        Err(5) => Err("a byte is not 0-9 or a-f (5)"),
        Err(_) => Err("odd number of digits (6)"),
    }
}

/// The length of the sealed line, at the front of `out`, or the word that is wrong and why. The third word is all that
/// stands behind the second space, so where there are more it says no bytes.
fn seal(key: &[u8; 16], line: &[u8], out: &mut [u8]) -> Result<usize, String> {
    let mut words = line.splitn(3, |&byte| byte == b' ');
    let mut word = |name: &str, bytes: &mut [u8], too_long| {
        bytes_of(words.next().unwrap_or(b""), bytes, too_long)
            .map_err(|why| format!("{}: {}", name, why))
    };
    let (mut nonce, mut data, mut message) = ([0u8; 16], [0u8; 64], [0u8; 256]);
    if word("nonce", &mut nonce, "not 16 bytes")? != 16 {
        return Err("nonce: not 16 bytes".to_string());
    }
    let n = word("data", &mut data, "over 64 bytes (8)")?;
    let m = word("message", &mut message, "over 256 bytes (10)")?;
    let sealed = journal::write_line(key, &nonce, &data[..n], &message[..m], out);
    match sealed.number {
        0 => Ok(sealed.length),
        22 => Err("nonce: sixteen zero bytes (22)".to_string()),
        number => Err(format!("not sealed ({})", number)),
    }
}

/// What is said of a line that was not sealed: its length and the number of its words come first.
fn reason(line: &[u8], why: String) -> String {
    if line.len() >= PIECE {
        return "over 65535 bytes".to_string();
    }
    if line.iter().filter(|&&byte| byte == b' ').count() != 2 {
        return "not three words, NONCE DATA MESSAGE, with single spaces between".to_string();
    }
    why
}

fn main() {
    let mut input = BufReader::with_capacity(PIECE, std::io::stdin().lock());
    let mut stdout = std::io::stdout().lock();
    let mut line = Vec::new();
    input.read_until(b'\n', &mut line).unwrap();
    let key = match key_of(&line) {
        Some(key) => key,
        None => return eprintln!("bad key"),
    };
    let (mut out, mut used) = ([0u8; PIECE], 0);
    for number in 2u64.. {
        line.clear();
        if input.read_until(b'\n', &mut line).unwrap() == 0 {
            break;
        }
        if PIECE - used < MOST_LINE {
            stdout.write_all(&out[..used]).unwrap();
            used = 0;
        }
        let text = line.strip_suffix(b"\n").unwrap_or(&line);
        match seal(&key, text, &mut out[used..]) {
            Ok(length) => used += length,
            Err(why) => eprintln!("line {}: {}", number, reason(text, why)),
        }
    }
    stdout.write_all(&out[..used]).unwrap();
}
