//! The Rust side of the whole program: a key line and a journal in, the listing out.
#[allow(dead_code)] // the writer and the reader of many lines are not used here
#[path = "../../tools/rust/journal.rs"]
mod journal;

use std::io::{Read, Write};

const MOST: usize = 60_000;

fn key_of(input: &[u8]) -> Option<[u8; 16]> {
    if input.len() < 33 || input[32] != b'\n' {
        return None;
    }
    let mut key = [0u8; 16];
    journal::decode(&input[..32], &mut key).ok()?;
    Some(key)
}

fn listing(key: &[u8; 16], text: &[u8], out: &mut Vec<u8>) {
    let mut frame = [0u8; 353];
    let mut place = 0;
    loop {
        let a = journal::read_line(text, place, key, &mut frame);
        write!(out, "{} {} {} {} {}", place, a.number, a.n, a.m, a.at).unwrap();
        if a.number == 0 && a.m > 0 {
            out.push(b' ');
            let (start, end) = (17 + a.n, out.len());
            out.resize(end + 2 * a.m, 0);
            journal::encode(&frame[start..start + a.m], &mut out[end..]);
        }
        out.push(b'\n');
        if a.number == 14 {
            return;
        }
        place = a.next;
    }
}

fn main() {
    let mut input = Vec::new();
    std::io::stdin()
        .take(33 + MOST as u64 + 1)
        .read_to_end(&mut input)
        .unwrap();
    let mut out = Vec::new();
    match key_of(&input) {
        None => out.extend_from_slice(b"bad key\n"),
        Some(_) if input.len() > 33 + MOST => out.extend_from_slice(b"too big\n"),
        Some(key) => listing(&key, &input[33..], &mut out),
    }
    std::io::stdout().write_all(&out).unwrap();
}
