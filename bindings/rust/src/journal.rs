//! The line journal: sealed frames in lowercase hexadecimal, one to a line, and the readings that are their messages.
//! `include/votrikany.h` says what each number means.
use crate::library::{self, SLOT_SIZE};
use crate::{Key, Nonce};
use core::iter::FusedIterator;

/// The most bytes of data and of message that a line holds, and of a line.
pub const MOST_DATA: usize = 64;
pub const MOST_MESSAGE: usize = 256;
pub const LONGEST_LINE: usize = 707;

/// The least that a frame buffer has.
pub const FRAME_SIZE: usize = 353;

/// Room for one frame.
pub type Frame = [u8; FRAME_SIZE];

/// The bytes of a message that is a reading.
pub const READING_SIZE: usize = 20;

/// Reading's number at the journal's end.
pub const END: u8 = 14;

/// Reading's number for an empty line, as a log roller writes one at each roll: no reading, and no damage.
pub const ROLL_MARK: u8 = 16;

/// Writing's and reading's number for a nonce of sixteen zero bytes, as where nobody set it. Writing looks for it after
/// 10 and before 15, reading after 10 and before 1, so a right tag does not help. [`Morus`](crate::Morus) takes that
/// nonce as any other.
pub const ZERO_NONCE: u8 = 22;

/// Decoding's numbers, in the order of its tests: not 20 bytes, resident or active above 2^53, active above resident,
/// resident zero.
pub const NOT_TWENTY: u8 = 17;
pub const COUNTER_TOO_LARGE: u8 = 18;
pub const ACTIVE_ABOVE: u8 = 19;
pub const RESIDENT_ZERO: u8 = 20;

/// What writing reports: a number, and the line's length, 0 where the number is not 0.
#[derive(Debug, Clone, Copy, Eq, PartialEq)]
pub struct Line {
    pub number: u8,
    pub length: usize,
}

/// What reading answers: a number, the next place, how many bytes of data and of message there are, and a place: with
/// number 5 that of the line's first byte that is no digit, counted from the journal's start, else the place given.
#[derive(Debug, Clone, Copy, Eq, PartialEq)]
pub struct Answer {
    pub number: u8,
    pub next: usize,
    pub n: usize,
    pub m: usize,
    pub at: usize,
}

impl Answer {
    /// The data of an opened frame; nothing where the answer is not 0.
    pub fn data<'a>(&self, frame: &'a [u8]) -> &'a [u8] {
        if self.number == 0 {
            &frame[17..17 + self.n]
        } else {
            &[]
        }
    }

    /// The message of an opened frame; nothing where the answer is not 0.
    pub fn message<'a>(&self, frame: &'a [u8]) -> &'a [u8] {
        if self.number == 0 {
            &frame[17 + self.n..17 + self.n + self.m]
        } else {
            &[]
        }
    }
}

/// A reading of the heap at one instant: resident - active over resident, from 0 to 1, and the tick that it is of.
#[derive(Debug, Clone, Copy, PartialEq)]
pub struct Reading {
    pub ratio: f64,
    pub tick: u32,
}

impl Reading {
    /// The reading that a message is, or decoding's number.
    ///
    /// A line that is not opened has no message, which is answered with 17, so its own number is looked at first:
    ///
    /// ```
    /// use votrikany::journal::{read_line, Reading, FRAME_SIZE};
    ///
    /// fn reading_at(journal: &[u8], place: usize, key: &votrikany::Key) -> Result<Reading, u8> {
    ///     let mut frame = [0; FRAME_SIZE];
    ///     let answer = read_line(journal, place, key, &mut frame);
    ///     match answer.number {
    ///         0 => Reading::decode(answer.message(&frame)),
    ///         number => Err(number),
    ///     }
    /// }
    /// ```
    pub fn decode(message: &[u8]) -> Result<Reading, u8> {
        let (mut ratio, mut tick) = (0.0, 0);
        match library::decode(message, &mut ratio, &mut tick) {
            0 => Ok(Reading { ratio, tick }),
            number => Err(number),
        }
    }

    /// Whether this reading's tick is newer than the other's. Ticks go round: one is newer if it is 1 to 2^31 - 1
    /// ahead, and where two are 2^31 apart neither is.
    pub fn newer_than(&self, other: &Reading) -> bool {
        library::newer(self.tick, other.tick)
    }
}

/// Writes the line of data and a message at the front of `line`, and keeps the bytes behind it. A refusal (8, 10,
/// [`ZERO_NONCE`] or 15, in this order) leaves all as it was.
pub fn write_line(key: &Key, nonce: &Nonce, data: &[u8], message: &[u8], line: &mut [u8]) -> Line {
    let mut length = 0;
    let number = library::write_line(key, nonce, data, message, line, &mut length);
    Line { number, length }
}

/// Reads the line that starts at `place` and opens its frame into `frame`; whatever is not an opened frame there is 0xaa.
/// A line under a nonce of sixteen zero bytes is not opened, whatever its tag is ([`ZERO_NONCE`]).
pub fn read_line(journal: &[u8], place: usize, key: &Key, frame: &mut [u8]) -> Answer {
    let (mut next, mut n, mut m, mut at) = (0, 0, 0, 0);
    let number = library::read_line(
        journal, place, key, frame, &mut next, &mut n, &mut m, &mut at,
    );
    Answer {
        number,
        next,
        n,
        m,
        at,
    }
}

/// Reads as many lines as there are frames, from `place` on, in one call of the library. The answers and the frames are
/// those of as many calls of [`read_line`], each from the next place of the one before: once one is [`END`], so are all
/// behind it. The place beside the answers is the last next one; with no frame it is `place`.
///
/// A journal is read in batches, here of 64 lines; [`lines`] does it for a whole one. From a place beyond its end no
/// answer is [`END`], but 12.
///
/// ```
/// use votrikany::journal::{read_lines, Reading, END, FRAME_SIZE};
///
/// fn for_each_reading(journal: &[u8], key: &votrikany::Key, mut work: impl FnMut(Reading)) {
///     let (mut frames, mut place) = ([[0; FRAME_SIZE]; 64], 0);
///     loop {
///         let (answers, next) = read_lines(journal, place, key, &mut frames);
///         for (answer, frame) in answers.iter().zip(&frames) {
///             if answer.number == END {
///                 return;
///             }
///             // A line that is not opened has no message, and so no reading.
///             if let Ok(reading) = Reading::decode(answer.message(frame)) {
///                 work(reading);
///             }
///         }
///         place = next;
///     }
/// }
/// ```
///
/// There are as many answers as frames by their types, so the library's 21, for a frame area that does not fit the
/// slots, is never given. The answers come by value: a large batch is better read as several.
pub fn read_lines<const K: usize>(
    journal: &[u8],
    place: usize,
    key: &Key,
    frames: &mut [Frame; K],
) -> ([Answer; K], usize) {
    let (mut slots, mut last) = ([[0; SLOT_SIZE]; K], 0);
    let number = library::read_lines(journal, place, key, &mut slots, frames, &mut last);
    assert_eq!(number, 0, "the answer to a slot for each frame");
    let answers = slots.map(|[number, next, n, m, at]| Answer {
        number: number as u8, // a number of the table, so nothing is cut off
        next,
        n,
        m,
        at,
    });
    (answers, last)
}

/// How many lines [`Lines`] reads in one call of the library. With them it is under 8 KiB, which a small stack has.
const BATCH: usize = 16;

/// A line of a journal as [`Lines`] gives it: the place where it starts, its answer and its frame. It borrows nothing,
/// so it can be kept when the next one is read.
#[derive(Debug, Clone, Copy, Eq, PartialEq)]
pub struct Entry {
    pub place: usize,
    pub answer: Answer,
    pub frame: Frame,
}

impl Entry {
    /// The line's data; nothing where it is not opened.
    pub fn data(&self) -> &[u8] {
        self.answer.data(&self.frame)
    }

    /// The line's message; nothing where it is not opened.
    pub fn message(&self) -> &[u8] {
        self.answer.message(&self.frame)
    }
}

/// The iterator that [`lines`] gives. It can not be printed: it knows the key.
pub struct Lines<'a> {
    journal: &'a [u8],
    key: &'a Key,
    place: usize,
    answers: [Answer; BATCH],
    frames: [Frame; BATCH],
    given: usize, // of the batch: all of it where the next one is still to be read
}

/// Every line of a journal, from its first byte on and in its order: opened ones, refused ones, roll marks and a cut
/// last one, as calls of [`read_line`] answer them. [`END`] is no line: there the iterator ends, for good.
///
/// It only borrows the journal and the key, allocates nothing, and reads a few lines ahead in one call of the library.
///
/// ```
/// use votrikany::journal::{lines, Reading, ROLL_MARK};
/// use votrikany::Key;
///
/// fn readings<'a>(journal: &'a [u8], key: &'a Key) -> impl Iterator<Item = Reading> + 'a {
///     // A line that is not opened has no message, and so no reading.
///     lines(journal, key).filter_map(|line| Reading::decode(line.message()).ok())
/// }
///
/// fn damaged(journal: &[u8], key: &Key) -> usize {
///     lines(journal, key)
///         .filter(|line| ![0, ROLL_MARK].contains(&line.answer.number))
///         .count()
/// }
///
/// let (journal, key) = (b"0g\n\nabc", [7; 16]);
/// assert_eq!(lines(journal, &key).map(|line| line.place).collect::<Vec<_>>(), [0, 3, 4]);
/// assert_eq!((readings(journal, &key).count(), damaged(journal, &key)), (0, 2));
/// ```
pub fn lines<'a>(journal: &'a [u8], key: &'a Key) -> Lines<'a> {
    let unread = Answer {
        number: END,
        next: 0,
        n: 0,
        m: 0,
        at: 0,
    };
    Lines {
        journal,
        key,
        place: 0,
        answers: [unread; BATCH],
        frames: [[0; FRAME_SIZE]; BATCH],
        given: BATCH,
    }
}

impl Iterator for Lines<'_> {
    type Item = Entry;

    fn next(&mut self) -> Option<Entry> {
        if self.given == BATCH {
            self.answers = read_lines(self.journal, self.place, self.key, &mut self.frames).0;
            self.given = 0;
        }
        let answer = self.answers[self.given];
        if answer.number == END {
            return None; // and the end is not given, so the next call finds it again
        }
        let entry = Entry {
            place: self.place,
            answer,
            frame: self.frames[self.given],
        };
        self.place = answer.next;
        self.given += 1;
        Some(entry)
    }
}

impl FusedIterator for Lines<'_> {}
