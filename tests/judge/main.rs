//! What the Rust crate gives for the cases of `crates/cases`, in the same form.
//! Only well-formed lines come here, one to a line of standard input: who makes the cases knows which are not.
#[path = "../../tools/rust/journal.rs"]
mod journal;
#[path = "../../tools/rust/reading.rs"]
mod reading;

use journal::REFUSED;
use morus::Morus;
use std::io::{Read, Write};

/// What a lent buffer holds before the call.
const BEFORE: u8 = 0x55;

/// What each number of a lent slot is before the call.
const UNSET: usize = 7;

fn bytes(word: &str) -> Vec<u8> {
    if word == "-" {
        return Vec::new();
    }
    let mut bytes = vec![0; word.len() / 2];
    journal::decode(word.as_bytes(), &mut bytes).expect("digits");
    bytes
}

fn sixteen(word: &str) -> [u8; 16] {
    bytes(word).try_into().expect("sixteen bytes")
}

fn number(word: &str) -> usize {
    word.parse().expect("a number")
}

fn tick(word: &str) -> u32 {
    word.parse().expect("a tick")
}

fn digits(bytes: &[u8]) -> String {
    if bytes.is_empty() {
        return "-".to_string();
    }
    let mut text = vec![0; 2 * bytes.len()];
    journal::encode(bytes, &mut text);
    String::from_utf8(text).expect("digits")
}

fn sealed(number: u8, text: &[u8], tag: &[u8]) -> String {
    format!("{} {} {}", number, digits(text), digits(tag))
}

fn opened(number: u8, text: &[u8]) -> String {
    format!("{} {}", number, digits(text))
}

/// The cipher of a case that begins with key and nonce.
fn cipher(w: &[&str]) -> Morus {
    Morus::new(&sixteen(w[2]), &sixteen(w[1]))
}

fn seal(w: &[&str]) -> String {
    let mut text = bytes(w[4]);
    let tag = cipher(w).encrypt_in_place(&mut text, &bytes(w[3]));
    sealed(0, &text, &tag)
}

fn open(w: &[&str]) -> String {
    let mut text = bytes(w[4]);
    match cipher(w).decrypt_in_place(&mut text, &sixteen(w[5]), &bytes(w[3])) {
        Ok(()) => opened(0, &text),
        Err(_) => opened(1, &text),
    }
}

/// The Rust makes its own output, so it never sees a buffer of another length: number 3 is the specification's.
fn seal2(w: &[&str]) -> String {
    let (text, size) = (bytes(w[4]), number(w[5]));
    if size != text.len() {
        return sealed(3, &vec![BEFORE; size], &[0; 16]);
    }
    let (output, tag) = cipher(w).encrypt(&text, &bytes(w[3]));
    sealed(0, &output, &tag)
}

/// The Rust drops its output where the tag differs; what is left then is what it fills its own with.
fn open2(w: &[&str]) -> String {
    let (text, size) = (bytes(w[4]), number(w[6]));
    if size != text.len() {
        return opened(3, &vec![REFUSED; size]);
    }
    match cipher(w).decrypt(&text, &sixteen(w[5]), &bytes(w[3])) {
        Ok(output) => opened(0, &output),
        Err(_) => opened(1, &vec![REFUSED; size]),
    }
}

fn write(w: &[&str]) -> String {
    let mut line = vec![BEFORE; number(w[5])];
    let wrote = journal::write_line(&sixteen(w[1]), &sixteen(w[2]), &bytes(w[3]), &bytes(w[4]), &mut line);
    format!("{} {} {}", wrote.number, wrote.length, digits(&line))
}

fn read(w: &[&str]) -> String {
    let mut frame = vec![BEFORE; number(w[3])];
    let a = journal::read_line(&bytes(w[4]), number(w[2]), &sixteen(w[1]), &mut frame);
    format!("{} {} {} {} {} {}", a.number, a.next, a.n, a.m, a.at, digits(&frame))
}

/// The slots' numbers are written as they stand, five for each.
fn many(w: &[&str]) -> String {
    let mut slots = vec![UNSET; 5 * number(w[3])];
    let mut frames = vec![BEFORE; number(w[4])];
    let a = journal::read_lines(&bytes(w[5]), number(w[2]), &sixteen(w[1]), &mut slots, &mut frames);
    let slots: String = slots.iter().map(|number| format!("{} ", number)).collect();
    format!("{} {} {}{}", a.number, a.next, slots, digits(&frames))
}

/// The ratio is written as its bits, so that each of them is compared.
fn decode(w: &[&str]) -> String {
    match reading::decode(&bytes(w[1])) {
        Ok((ratio, tick)) => format!("0 {} {:016x}", tick, ratio.to_bits()),
        Err(number) => number.to_string(),
    }
}

fn newer(w: &[&str]) -> String {
    u8::from(reading::newer(tick(w[1]), tick(w[2]))).to_string()
}

/// What the calls of a line have handed over. The crate has no parts: which calls are taken is the specification's, and
/// what comes of all that they handed over is one call of the crate.
#[derive(Default)]
struct Came {
    data: Vec<u8>,
    text: Vec<u8>,
    begun: bool,
    closed: bool,
}

impl Came {
    /// The number of a call: 24 before 23. No line is long enough for 2.
    fn call(&mut self, word: &str) -> u8 {
        if self.closed {
            return 24;
        }
        if word.starts_with('d') {
            if self.begun {
                return 23;
            }
            self.data.extend(part(word));
        } else if word.starts_with('t') {
            self.closed = true;
        } else {
            self.begun = true;
            self.text.extend(part(word));
        }
        0
    }
}

/// The bytes of a call.
fn part(word: &str) -> Vec<u8> {
    bytes(&word[2..])
}

fn joined(answers: impl Iterator<Item = String>) -> String {
    answers.collect::<Vec<String>>().join(" ")
}

/// A part is taken from the one ciphertext, where its bytes stood in the message; a refused one is as it was.
fn parts(w: &[&str]) -> String {
    let mut came = Came::default();
    let calls: Vec<(&str, u8, usize)> = w[3..].iter().map(|word| (*word, came.call(word), came.text.len())).collect();
    let tag = cipher(w).encrypt_in_place(&mut came.text, &came.data);
    joined(calls.iter().map(|&(word, number, end)| match (&word[..1], number) {
        ("d", _) => number.to_string(),
        ("t", 0) => format!("0={}", digits(&tag)),
        ("t", _) => format!("{}={}", number, digits(&[0; 16])),
        (_, 0) => format!("0={}", digits(&came.text[end - part(word).len()..end])),
        (_, _) => format!("{}={}", number, digits(&part(word))),
    }))
}

/// The verdict is the one call's.
fn check(w: &[&str]) -> String {
    let mut came = Came::default();
    joined(w[3..].iter().map(|word| match (&word[..1], came.call(word)) {
        ("t", 0) => match cipher(w).decrypt_in_place(&mut came.text, &sixteen(&word[2..]), &came.data) {
            Ok(()) => "0".to_string(),
            Err(_) => "1".to_string(),
        },
        (_, number) => number.to_string(),
    }))
}

fn answer(line: &str) -> String {
    let w: Vec<&str> = line.split(' ').collect();
    match w[0] {
        "seal" => seal(&w),
        "open" => open(&w),
        "seal2" => seal2(&w),
        "open2" => open2(&w),
        "write" => write(&w),
        "read" => read(&w),
        "many" => many(&w),
        "decode" => decode(&w),
        "newer" => newer(&w),
        "parts" => parts(&w),
        "check" => check(&w),
        name => panic!("no such case: {}", name),
    }
}

fn main() {
    let mut input = String::new();
    std::io::stdin().read_to_string(&mut input).expect("text");
    let mut output = String::new();
    for line in input.lines() {
        output.push_str(&answer(line));
        output.push('\n');
    }
    std::io::stdout().write_all(output.as_bytes()).expect("a reader");
}
