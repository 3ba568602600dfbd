//! The journal of bindings/rust: what is written is read back and decoded, and refusals leave what the header says.
use std::iter::FusedIterator;
use votrikany::journal::{
    lines, read_line, read_lines, write_line, Answer, Entry, Line, Lines, Reading, ACTIVE_ABOVE,
    COUNTER_TOO_LARGE, END, FRAME_SIZE, LONGEST_LINE, NOT_TWENTY, READING_SIZE, RESIDENT_ZERO,
    ROLL_MARK, ZERO_NONCE,
};
use votrikany::{Error, Key, Morus, Nonce};

/// A reading of the line at `place` in a text that ends with it, which is refused with a number and says a place.
fn refused(text: &[u8], place: usize, number: u8, at: usize) {
    let mut frame = [0u8; FRAME_SIZE];
    let answer = read_line(text, place, &[7; 16], &mut frame);
    let wanted = Answer {
        number,
        next: text.len(),
        n: 0,
        m: 0,
        at,
    };
    assert_eq!(answer, wanted, "{:?} at {}", text, place);
    assert_eq!(frame, [0xaa; FRAME_SIZE]);
}

/// The line at 4, behind an empty one and `0g`, with the place that is said.
fn third_line(line: &[u8], number: u8, at: usize) {
    let text = [b"\n0g\n", line, b"\n"].concat();
    refused(&text, 4, number, at);
}

/// A line of `digits` zeros with the count n.
fn zeros(digits: usize, n: u8) -> Vec<u8> {
    let mut line = vec![b'0'; digits];
    if digits >= 34 {
        line[32..34].copy_from_slice(format!("{:02x}", n).as_bytes());
    }
    line
}

/// A line of zeros but for its nonce and its count n.
fn with_nonce(digits: usize, n: u8) -> Vec<u8> {
    let mut line = zeros(digits, n);
    line[31] = b'1';
    line
}

/// With 5 the place of the first byte that is no digit, from the journal's start; else the place given.
fn places() {
    refused(b"0g\n", 0, 5, 1);
    refused(b"\n0g\n", 1, 5, 2);
    for (line, at) in [
        (b"g000".as_slice(), 4),
        (b"000g", 7),
        (b"0/:0", 5),
        (b"00\0\xff", 6),
        (b"0\xff\0", 5),
        (b"abcdEf", 8),
        (b"ab ", 6),
    ] {
        third_line(line, 5, at);
    }
    for (digits, n, number) in [
        (707, 0, 4),
        (67, 0, 6),
        (0, 0, ROLL_MARK),
        (2, 0, 7),
        (64, 0, 7),
        (66, 65, 8),
        (66, 1, 9),
        (706, 0, 10),
        (66, 0, ZERO_NONCE),
    ] {
        third_line(&zeros(digits, n), number, 4);
    }
    for (digits, n, number) in [(66, 65, 8), (66, 1, 9), (706, 0, 10), (66, 0, 1)] {
        third_line(&with_nonce(digits, n), number, 4);
    }
    refused(b"\n0g\nabc", 4, 11, 4);
    refused(b"\n0g\n", 4, 14, 4);
    let beyond = read_line(b"0g\n", 9, &[7; 16], &mut [0; FRAME_SIZE]);
    assert_eq!((beyond.number, beyond.next, beyond.at), (12, 9, 9));
    let small = read_line(b"\n0g\n", 1, &[7; 16], &mut [0; 352]);
    assert_eq!((small.number, small.next, small.at), (13, 1, 1));
}

/// Who counts damage can leave the roll marks out: of seven lines two are opened, three are roll marks and two damaged.
fn roll_marks() {
    let key = [7; 16];
    let mut line = [0; LONGEST_LINE];
    let length = write_line(&key, &[9; 16], b"host", b"reading", &mut line).length;
    let good = &line[..length];
    let text = [b"\n", good, b"\n\n\r\n", &good[1..], good].concat();
    let (mut place, mut numbers, mut frame) = (0, Vec::new(), [0; FRAME_SIZE]);
    loop {
        let answer = read_line(&text, place, &key, &mut frame);
        if answer.number == 14 {
            break;
        }
        assert!(answer.number == 0 || frame == [0xaa; FRAME_SIZE]);
        numbers.push(answer.number);
        place = answer.next;
    }
    assert_eq!(numbers, [ROLL_MARK, 0, ROLL_MARK, ROLL_MARK, 5, 6, 0]);
    let small = read_line(b"\n", 0, &key, &mut [0; 352]);
    assert_eq!((small.number, small.next, small.at), (13, 0, 0));
}

/// The line of a frame that is made by hand, with the right tag whatever the nonce is.
fn by_hand(key: &Key, nonce: &Nonce, data: &[u8], message: &[u8]) -> Vec<u8> {
    let (text, tag) = Morus::new(nonce, key).encrypt(message, data);
    let frame = [nonce, [data.len() as u8].as_slice(), data, &text, &tag].concat();
    let digits: String = frame.iter().map(|byte| format!("{:02x}", byte)).collect();
    [digits.as_bytes(), b"\n"].concat()
}

/// A nonce of zeros is neither written nor read, even with the right tag; the cipher takes it.
fn zero_nonce() {
    const ZERO: Nonce = [0; 16];
    let (key, bytes) = ([7; 16], [9; 257]);
    for (n, m, room, number) in [
        (0, 0, 67, ZERO_NONCE),
        (64, 256, 707, ZERO_NONCE),
        (64, 256, 706, ZERO_NONCE),
        (0, 0, 0, ZERO_NONCE),
        (0, 257, 0, 10),
        (65, 257, 0, 8),
        (65, 0, 707, 8),
    ] {
        let mut line = [0x55; LONGEST_LINE];
        let wrote = write_line(&key, &ZERO, &bytes[..n], &bytes[..m], &mut line[..room]);
        assert_eq!(wrote, Line { number, length: 0 }, "{} {} {}", n, m, room);
        assert_eq!(line, [0x55; LONGEST_LINE]);
    }
    for (n, m) in [(0, 0), (1, 0), (3, 2), (0, 20), (64, 256)] {
        let (data, message) = (&bytes[..n], &bytes[..m]);
        let (mut line, mut frame) = ([0; LONGEST_LINE], [0; FRAME_SIZE]);
        let length = write_line(&key, &key, data, message, &mut line).length;
        assert_eq!(by_hand(&key, &key, data, message), line[..length]);
        let mut text = by_hand(&key, &ZERO, data, message);
        refused(&text, 0, ZERO_NONCE, 0);
        let entry = lines(&text, &key).next().unwrap();
        assert_eq!(
            (entry.answer.number, entry.frame),
            (ZERO_NONCE, [0xaa; FRAME_SIZE])
        );
        assert!(entry.data().is_empty() && entry.message().is_empty());
        assert_eq!(read_line(&text, 0, &[8; 16], &mut frame).number, ZERO_NONCE);
        text[length - 2] = if text[length - 2] == b'0' { b'1' } else { b'0' };
        refused(&text, 0, ZERO_NONCE, 0);
        let (sealed, mut tag) = Morus::new(&ZERO, &key).encrypt(message, data);
        let opened = Morus::new(&ZERO, &key).decrypt(&sealed, &tag, data);
        assert_eq!(opened.as_deref(), Ok(message));
        tag[0] ^= 1;
        let opened = Morus::new(&ZERO, &key).decrypt(&sealed, &tag, data);
        assert_eq!(opened, Err(Error::InvalidTag));
    }
    for (place, byte) in (0..16).flat_map(|place| [1, 0x80, 0xff].map(|byte| (place, byte))) {
        let (mut nonce, mut line, mut frame) = (ZERO, [0; LONGEST_LINE], [0; FRAME_SIZE]);
        nonce[place] = byte;
        let length = write_line(&key, &nonce, b"host", b"reading", &mut line).length;
        let answer = read_line(&line[..length], 0, &key, &mut frame);
        assert_eq!(answer.number, 0, "{:?}", nonce);
        assert_eq!(answer.message(&frame), b"reading");
        assert_eq!(frame[..16], nonce);
    }
}

/// K lines in one call and in K calls.
fn as_many_calls<const K: usize>(text: &[u8], place: usize, key: &Key) {
    let (mut frames, mut frame) = ([[0x55; FRAME_SIZE]; K], [0x55; FRAME_SIZE]);
    let (answers, last) = read_lines(text, place, key, &mut frames);
    let mut next = place;
    for (answer, got) in answers.iter().zip(&frames) {
        let wanted = read_line(text, next, key, &mut frame);
        assert_eq!(*answer, wanted, "{} lines from {}", K, place);
        assert_eq!(*got, frame, "{} lines from {}", K, place);
        next = wanted.next;
    }
    assert_eq!(last, next, "{} lines from {}", K, place);
}

/// A line for each number that a line can have, good ones between them, and the last one cut.
fn each_number(key: &Key) -> Vec<u8> {
    let (mut text, mut line) = (Vec::new(), [0; LONGEST_LINE]);
    let length = write_line(key, &[9; 16], b"host", b"reading", &mut line).length;
    for (digits, n) in [
        (0, 0),
        (707, 0),
        (67, 0),
        (64, 0),
        (66, 65),
        (66, 1),
        (706, 0),
        (66, 0),
    ] {
        text.extend([&zeros(digits, n), b"\n".as_slice(), &line[..length]].concat());
    }
    text.extend([&with_nonce(66, 0), b"\n".as_slice(), &line[..length]].concat());
    text.extend(b"0g\nabc");
    text
}

fn many_lines() {
    let key = [7; 16];
    let text = each_number(&key);
    let numbers = read_lines(&text, 0, &key, &mut [[0; FRAME_SIZE]; 22]).0;
    assert_eq!(
        numbers.map(|answer| answer.number),
        [ROLL_MARK, 0, 4, 0, 6, 0, 7, 0, 8, 0, 9, 0, 10, 0, ZERO_NONCE, 0, 1, 0, 5, 11, END, END]
    );
    for text in [&text, &text[..text.len() - 3], b"", b"\n\n", b"0g\n\nabc"] {
        let end = text.len();
        for place in [
            0,
            1,
            2,
            end / 3,
            end / 2,
            end.max(1) - 1,
            end,
            end + 1,
            usize::MAX,
        ] {
            as_many_calls::<0>(text, place, &key);
            as_many_calls::<1>(text, place, &key);
            as_many_calls::<2>(text, place, &key);
            as_many_calls::<7>(text, place, &key);
            as_many_calls::<22>(text, place, &key);
        }
    }
}

/// The example of `read_lines`: every reading of a journal, in its order.
fn for_each_reading(journal: &[u8], key: &Key, mut work: impl FnMut(Reading)) {
    let (mut frames, mut place) = ([[0; FRAME_SIZE]; 64], 0);
    loop {
        let (answers, next) = read_lines(journal, place, key, &mut frames);
        for (answer, frame) in answers.iter().zip(&frames) {
            if answer.number == END {
                return;
            }
            // A line that is not opened has no message, and so no reading.
            if let Ok(reading) = Reading::decode(answer.message(frame)) {
                work(reading);
            }
        }
        place = next;
    }
}

/// A journal of so many lines, and its readings: no two opened lines are alike, every third line is a roll mark, every
/// fourth no reading.
fn journal_of(lines: u32, key: &Key) -> (Vec<u8>, Vec<Reading>) {
    let (mut text, mut wanted, mut line) = (Vec::new(), Vec::new(), [0; LONGEST_LINE]);
    for tick in 0..lines {
        if tick % 3 == 2 {
            text.push(b'\n');
            continue;
        }
        let sent = &message(tick, 4, 1)[..READING_SIZE - (tick % 4 == 3) as usize];
        let length = write_line(key, &[9; 16], b"host", sent, &mut line).length;
        text.extend(&line[..length]);
        wanted.extend(Reading::decode(sent));
    }
    (text, wanted)
}

/// Journals that end before, with and behind a batch of 64.
fn batches() {
    let key = [7; 16];
    for lines in [0, 1, 63, 64, 65, 127, 128, 129, 200] {
        let ((text, wanted), mut got) = (journal_of(lines, &key), Vec::new());
        for_each_reading(&text, &key, |reading| got.push(reading));
        assert_eq!(got, wanted, "{} lines", lines);
    }
}

fn fused<I: FusedIterator>(items: I) -> I {
    items
}

/// The lines of a journal by calls of `read_line` one after another, up to the end and without it.
fn one_by_one(text: &[u8], key: &Key) -> Vec<Entry> {
    let (mut place, mut frame, mut entries) = (0, [0x55; FRAME_SIZE], Vec::new());
    loop {
        let answer = read_line(text, place, key, &mut frame);
        if answer.number == END {
            return entries;
        }
        entries.push(Entry {
            place,
            answer,
            frame,
        });
        place = answer.next;
    }
}

/// How many items the iterator gives: these lines, and then none for longer than a batch can be.
fn iterated(text: &[u8], key: &Key) -> usize {
    let (wanted, mut items) = (one_by_one(text, key), fused(lines(text, key)));
    for line in &wanted {
        assert_eq!(items.next().as_ref(), Some(line));
        assert_eq!(line.data(), line.answer.data(&line.frame));
        assert_eq!(line.message(), line.answer.message(&line.frame));
    }
    assert!((0..100).all(|_| items.next().is_none()), "{:?}", text);
    wanted.len()
}

/// Every number of lines up to several batches, whole, cut, with damage in the middle, and under another key.
fn iterator() {
    let key = [7; 16];
    for count in 0..=70 {
        assert_eq!(iterated(&b"\n".repeat(count), &key), count);
        let (mut text, _) = journal_of(count as u32, &key);
        let (middle, last) = (text.len() / 2, text.len().max(1) - 1);
        assert_eq!(iterated(&text, &key), count);
        assert_eq!(iterated(&text, &[8; 16]), count);
        iterated(&text[..last], &key);
        text.extend(b"ab");
        assert_eq!(iterated(&text, &key), count + 1);
        for byte in [b'g', b'\n'] {
            text[middle] = byte;
            iterated(&text, &key);
        }
    }
    let text = each_number(&key);
    assert_eq!(iterated(&text, &key), 20);
    for end in 0..200 {
        iterated(&text[..end], &key);
        iterated(&text[text.len() - end..], &key);
    }
}

/// The example of `lines`.
fn readings_of<'a>(journal: &'a [u8], key: &'a Key) -> impl Iterator<Item = Reading> + 'a {
    // A line that is not opened has no message, and so no reading.
    lines(journal, key).filter_map(|line| Reading::decode(line.message()).ok())
}

fn damaged(journal: &[u8], key: &Key) -> usize {
    lines(journal, key)
        .filter(|line| ![0, ROLL_MARK].contains(&line.answer.number))
        .count()
}

/// What the iterator says of a journal that was written, and not by other calls; two at once do not meet, and a line
/// outlives its journal.
fn iterator_used() {
    let key = [7; 16];
    let (text, wanted) = journal_of(40, &key);
    assert!(readings_of(&text, &key).eq(wanted.iter().copied()));
    assert_eq!(damaged(&text, &key), 0);
    assert_eq!(damaged(&each_number(&key), &key), 10);
    let three: Vec<_> = lines(b"0g\n\nabc", &key)
        .map(|line| (line.place, line.answer.number, line.frame))
        .collect();
    let nothing = [0xaa; FRAME_SIZE];
    assert_eq!(
        three,
        [(0, 5, nothing), (3, ROLL_MARK, nothing), (4, 11, nothing)]
    );
    let (mut ahead, behind) = (lines(&text, &key), lines(&text, &key));
    let first = ahead.next();
    ahead.by_ref().take(20).for_each(drop);
    assert_eq!((ahead.count(), behind.count()), (19, 40));
    drop(text);
    let first = first.unwrap();
    assert_eq!((first.place, first.data()), (0, b"host".as_slice()));
    assert_eq!(first.message(), message(0, 4, 1));
    assert!(std::mem::size_of::<Lines>() < 8192);
}

fn message(tick: u32, resident: u64, active: u64) -> [u8; READING_SIZE] {
    let mut bytes = [0; READING_SIZE];
    bytes[..4].copy_from_slice(&tick.to_le_bytes());
    bytes[4..12].copy_from_slice(&resident.to_le_bytes());
    bytes[12..].copy_from_slice(&active.to_le_bytes());
    bytes
}

/// The reading of the line at `place`, or the number of the line or of its message.
fn reading_at(journal: &[u8], place: usize, key: &Key) -> Result<Reading, u8> {
    let mut frame = [0; FRAME_SIZE];
    let answer = read_line(journal, place, key, &mut frame);
    match answer.number {
        0 => Reading::decode(answer.message(&frame)),
        number => Err(number),
    }
}

/// What is sealed is decoded, to its bits; a line's number comes before its message's.
fn readings() {
    const EXACT: u64 = 1 << 53;
    let (key, mut line) = ([7; 16], [0; LONGEST_LINE]);
    for (tick, resident, active, wanted) in [
        (0x04030201, 3, 2, Ok(0x3fd5555555555555)),
        (0xfefdfcfb, EXACT, EXACT, Ok(0)),
        (u32::MAX, EXACT, 0, Ok(0x3ff0000000000000)),
        (5, EXACT + 1, 0, Err(COUNTER_TOO_LARGE)),
        (5, EXACT, EXACT + 1, Err(COUNTER_TOO_LARGE)),
        (5, 0, EXACT + 1, Err(COUNTER_TOO_LARGE)),
        (5, 2, 3, Err(ACTIVE_ABOVE)),
        (5, 0, 1, Err(ACTIVE_ABOVE)),
        (5, 0, 0, Err(RESIDENT_ZERO)),
    ] {
        let sent = message(tick, resident, active);
        let length = write_line(&key, &[9; 16], b"host", &sent, &mut line).length;
        let got = reading_at(&line[..length], 0, &key).map(|r| (r.ratio.to_bits(), r.tick));
        assert_eq!(got, wanted.map(|bits| (bits, tick)));
        assert_eq!(Reading::decode(&sent[..19]), Err(NOT_TWENTY));
    }
    assert_eq!(Reading::decode(&[]), Err(NOT_TWENTY));
    assert_eq!(Reading::decode(&[0xff; 21]), Err(NOT_TWENTY));
    assert_eq!(reading_at(b"\n", 0, &key), Err(ROLL_MARK));
}

/// Of each pair of ticks whether the first is newer, and whether the second is.
fn newer() {
    const HALF: u32 = 1 << 31;
    for (a, b, newer, older) in [
        (7, 7, false, false),
        (8, 7, true, false),
        (0, u32::MAX, true, false),
        (HALF + 6, 7, true, false),
        (HALF + 7, 7, false, false),
        (HALF + 8, 7, false, true),
    ] {
        let [a, b] = [a, b].map(|tick| Reading::decode(&message(tick, 1, 0)).unwrap());
        assert_eq!(a.newer_than(&b), newer, "{a:?} {b:?}");
        assert_eq!(b.newer_than(&a), older, "{a:?} {b:?}");
    }
}

fn main() {
    let (key, nonce) = ([7u8; 16], [9u8; 16]);
    let message: Vec<u8> = (0..=255).collect();
    let mut text = [0x55u8; LONGEST_LINE + 3];
    let mut lines = 0;
    for n in [0, 1, 20, 63, 64] {
        for m in [0, 1, 20, 255, 256] {
            let line = write_line(&key, &nonce, &message[..n], &message[..m], &mut text);
            assert_eq!(
                line,
                Line {
                    number: 0,
                    length: 2 * (33 + n + m) + 1
                }
            );
            assert!(text[line.length - 1] == b'\n' && text[LONGEST_LINE..] == [0x55; 3]);
            let mut frame = [0u8; FRAME_SIZE + 1];
            let answer = read_line(&text[..line.length], 0, &key, &mut frame);
            assert_eq!(
                answer,
                Answer {
                    number: 0,
                    next: line.length,
                    n,
                    m,
                    at: 0
                }
            );
            assert_eq!(
                (answer.data(&frame), answer.message(&frame)),
                (&message[..n], &message[..m])
            );
            assert!(frame[33 + n + m..].iter().all(|&b| b == 0xaa));
            let end = read_line(&text[..line.length], line.length, &key, &mut frame);
            assert_eq!(
                end,
                Answer {
                    number: 14,
                    next: line.length,
                    n: 0,
                    m: 0,
                    at: line.length
                }
            );
            assert!(frame.iter().all(|&b| b == 0xaa) && end.message(&frame).is_empty());
            lines += 1;
        }
    }
    let mut small = [0x55u8; 66];
    assert_eq!(
        write_line(&key, &nonce, &[], &[], &mut small),
        Line {
            number: 15,
            length: 0
        }
    );
    assert_eq!(
        write_line(&key, &nonce, &[0; 65], &[0; 257], &mut small),
        Line {
            number: 8,
            length: 0
        }
    );
    assert_eq!(
        write_line(&key, &nonce, &[], &[0; 257], &mut small),
        Line {
            number: 10,
            length: 0
        }
    );
    assert_eq!(small, [0x55; 66]);
    places();
    roll_marks();
    zero_nonce();
    many_lines();
    readings();
    batches();
    iterator();
    iterator_used();
    newer();
    println!(
        "journal: {} lines written and read back, refusals, batches and readings as the header says",
        lines
    );
}
