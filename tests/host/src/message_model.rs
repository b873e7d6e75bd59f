//! The rules of document 01 about header fields, numbers and the two messages that the library
//! writes, from its words and the decided open points (H). A message is split at CR and a segment
//! at its bars; all offsets follow from the lengths of the pieces.

use crate::model::first_forbidden;

const BAR: u8 = b'|';
const CARRIAGE_RETURN: u8 = 0x0D;

/// -1 as a word.
pub const MINUS_ONE: u64 = u64::MAX;

/// The largest number in MSH-13, and the one that may only be expected, in MSA-4.
pub const LARGEST_SENT: u64 = 999_999_999_999_998;
pub const LARGEST_EXPECTED: u64 = 999_999_999_999_999;

pub const HEADER_WORDS: usize = 6;
pub const ANSWER_WORDS: usize = 9;
pub const REPORT_WORDS: usize = 2;

/// What a written answer has besides its control ID (twice) and its number.
pub const ANSWER_FRAME: usize = 38;

const CODES: [&[u8]; 3] = [b"AA", b"AE", b"AR"];
const MOST_DIGITS: usize = 15;
const LONGEST_CONTROL_ID: usize = 20;

/// A field: where it begins in the message, and its bytes.
#[derive(Clone, Copy, Debug, PartialEq, Eq)]
pub struct Field<'a> {
    pub offset: usize,
    pub bytes: &'a [u8],
}

impl Field<'_> {
    fn words(&self) -> [u64; 2] {
        [self.offset as u64, self.bytes.len() as u64]
    }
}

/// What a field holds that should hold a number.
#[derive(Clone, Copy, Debug, PartialEq, Eq)]
pub enum Held {
    Nothing,
    NoNumber,
    MinusOne,
    Number(u64),
}

impl Held {
    /// The kind of the field and the number, as words.
    fn words(self) -> [u64; 2] {
        match self {
            Held::Nothing => [0, 0],
            Held::NoNumber => [1, 0],
            Held::MinusOne => [2, MINUS_ONE],
            Held::Number(number) => [2, number],
        }
    }
}

/// `-1`, or 1 to 15 digits of at most a largest number; a missing field is empty here.
pub fn held(field: &[u8], largest: u64) -> Held {
    if field.is_empty() {
        return Held::Nothing;
    }
    if field == b"-1" {
        return Held::MinusOne;
    }
    let digits = field.len() <= MOST_DIGITS && field.iter().all(u8::is_ascii_digit);
    let text = std::str::from_utf8(field).ok().filter(|_| digits);
    match text.and_then(|text| text.parse().ok()) {
        Some(number) if number <= largest => Held::Number(number),
        _ => Held::NoNumber,
    }
}

/// The segment that a message begins with, without its CR, and what follows; none if it doesn't end
/// in CR.
fn first_segment(message: &[u8]) -> Option<(&[u8], &[u8])> {
    let mut halves = message.splitn(2, |&byte| byte == CARRIAGE_RETURN);
    halves.next().zip(halves.next())
}

/// The field that follows so many bars of the segment that begins at an offset. A missing field is
/// empty, and stands where the segment's CR does.
fn field(segment: &[u8], offset: usize, bars: usize) -> Field<'_> {
    let mut pieces = segment.split(|&byte| byte == BAR);
    let before = pieces.by_ref().take(bars);
    let skipped: usize = before.map(|piece| piece.len() + 1).sum();
    match pieces.next() {
        Some(bytes) => Field {
            offset: offset + skipped,
            bytes,
        },
        None => Field {
            offset: offset + segment.len(),
            bytes: &[],
        },
    }
}

/// MSH-10 and MSH-13.
#[derive(Clone, Copy, Debug, PartialEq, Eq)]
pub struct Header<'a> {
    pub control_id: Field<'a>,
    pub sequence: Field<'a>,
}

impl Header<'_> {
    pub fn words(&self) -> [u64; HEADER_WORDS] {
        let [id_offset, id_length] = self.control_id.words();
        let [offset, length] = self.sequence.words();
        let [kind, number] = held(self.sequence.bytes, LARGEST_SENT).words();
        [id_offset, id_length, offset, length, kind, number]
    }
}

/// MSA-1, MSA-2 and MSA-4.
#[derive(Clone, Copy, Debug, PartialEq, Eq)]
pub struct Answer<'a> {
    pub code: Field<'a>,
    pub control_id: Field<'a>,
    pub expected: Field<'a>,
}

impl Answer<'_> {
    pub fn words(&self) -> [u64; ANSWER_WORDS] {
        let [code_offset, code_length] = self.code.words();
        let code = code_number(self.code.bytes);
        let [id_offset, id_length] = self.control_id.words();
        let [offset, length] = self.expected.words();
        let [kind, number] = held(self.expected.bytes, LARGEST_EXPECTED).words();
        [
            code_offset,
            code_length,
            code,
            id_offset,
            id_length,
            offset,
            length,
            kind,
            number,
        ]
    }
}

fn code_number(field: &[u8]) -> u64 {
    let index = CODES.iter().position(|&code| code == field);
    index.map_or(0, |index| index as u64 + 1)
}

/// The header of a message, or none: 9.
pub fn header(message: &[u8]) -> Option<Header<'_>> {
    let (segment, _) = first_segment(message)?;
    let control_id = field(segment, 0, 9);
    let readable =
        segment.starts_with(b"MSH|") && (1..=LONGEST_CONTROL_ID).contains(&control_id.bytes.len());
    readable.then(|| Header {
        control_id,
        sequence: field(segment, 0, 12),
    })
}

/// The MSA segment of an answer, or none: 9. The header must be readable too.
pub fn answer(message: &[u8]) -> Option<Answer<'_>> {
    header(message)?;
    let (header, rest) = first_segment(message)?;
    let (segment, _) = first_segment(rest)?;
    let offset = header.len() + 1;
    segment.starts_with(b"MSA|").then(|| Answer {
        code: field(segment, offset, 1),
        control_id: field(segment, offset, 2),
        expected: field(segment, offset, 4),
    })
}

/// The memory that a writer has: the length of its buffer, where to start in it, and the words of
/// its report.
#[derive(Clone, Copy)]
pub struct Memory {
    pub buffer_length: usize,
    pub start: usize,
    pub report_words: usize,
}

impl Memory {
    fn too_short(&self, need: usize) -> bool {
        let end = self.start as u128 + need as u128;
        self.report_words < REPORT_WORDS || end > self.buffer_length as u128
    }
}

/// What a writer does.
#[derive(Clone, Debug, PartialEq, Eq)]
pub enum Written {
    /// 1 or 2: nothing is changed.
    Nothing(u64),
    /// 3, 9 or 10, and the second word of the report; the first is 0.
    Refused(u64, u64),
    /// The bytes from the start on; their length and 0 are the report.
    Bytes(Vec<u8>),
}

pub fn number_text(number: u64) -> String {
    if number == MINUS_ONE {
        "-1".to_string()
    } else {
        number.to_string()
    }
}

/// The answer to a request: 1, 2, 3, 9, 10 in this order. The need is that of the parts as given,
/// whatever they are.
pub fn answer_written(control_id: &[u8], code: u64, number: u64, memory: &Memory) -> Written {
    let Some(&code) = CODES.get((code as usize).wrapping_sub(1)) else {
        return Written::Nothing(1);
    };
    let number_text = number_text(number);
    if memory.too_short(ANSWER_FRAME + 2 * control_id.len() + number_text.len()) {
        return Written::Nothing(2);
    }
    if let Some(offset) = first_forbidden(control_id) {
        return Written::Refused(3, offset as u64);
    }
    let splits = control_id.contains(&BAR) || control_id.contains(&CARRIAGE_RETURN);
    if splits || control_id.is_empty() || control_id.len() > LONGEST_CONTROL_ID {
        return Written::Refused(9, 0);
    }
    if number != MINUS_ONE && !(1..=LARGEST_EXPECTED).contains(&number) {
        return Written::Refused(10, 0);
    }
    let pieces: [&[u8]; 9] = [
        b"MSH|^~\\&|||||||ACK|",
        control_id,
        b"|P|2.3.1\rMSA|",
        code,
        b"|",
        control_id,
        b"||",
        number_text.as_bytes(),
        b"\r",
    ];
    Written::Bytes(pieces.concat())
}

/// The sender's control message: 1, 2 in this order.
pub fn control_written(message_type: &[u8], number: u64, memory: &Memory) -> Written {
    let capitals = message_type.iter().all(u8::is_ascii_uppercase);
    if message_type.len() != 3 || !capitals || !(number == 0 || number == MINUS_ONE) {
        return Written::Nothing(1);
    }
    let number_text = number_text(number);
    let digits = number_text.as_bytes();
    let pieces: [&[u8]; 7] = [
        b"MSH|^~\\&|||||||",
        message_type,
        b"|",
        digits,
        b"|P|2.3.1|",
        digits,
        b"\r",
    ];
    let bytes = pieces.concat();
    if memory.too_short(bytes.len()) {
        return Written::Nothing(2);
    }
    Written::Bytes(bytes)
}
