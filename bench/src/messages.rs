//! The two sides of the functions for messages: the library through its C interface, and the model.
//! Each makes the same calls some passes long and leaves its words or bytes for comparison.

use crate::inputs;
use crate::model_side;
use crate::timing::Work;
use host::ffi::{self, names};
use host::prng::Random;
use std::hint::black_box;

/// So many messages in one pass, and so many passes in one turn.
pub const MESSAGES: usize = 16;
const PASSES: usize = 50;

/// How many bytes the first segments have, and how many bytes of further segments follow them.
pub const HEADERS: [usize; 3] = [31, 100, 400];
pub const BEHIND: [usize; 4] = [0, 1_000, 10_000, 90_000];

type Words = [u64; names::ANSWER_WORDS];

/// A reading function of one side: leaves the words, and gives the number.
type Read = fn(&[u8], &mut Words) -> u64;

/// Both sides of a reading function, and the first bytes of its messages.
pub struct Reader {
    pub act: &'static str,
    library: Read,
    model: Read,
    heads: Vec<Vec<u8>>,
}

impl Reader {
    pub fn header(length: usize) -> Reader {
        let mut random = Random::new(length as u64);
        let heads = (0..MESSAGES).map(|_| header(&mut random, length));
        Reader {
            act: "gmv_header_read",
            library: |message, words| ffi::header_read(message, &mut words[..names::HEADER_WORDS]),
            model: |message, words| model_side::header_read(black_box(message), words),
            heads: heads.collect(),
        }
    }

    pub fn answer() -> Reader {
        let mut random = Random::new(44);
        let heads = (0..MESSAGES).map(|_| answer(&mut random));
        Reader {
            act: "gmv_answer_read",
            library: |message, words| ffi::answer_read(message, words),
            model: |message, words| model_side::answer_read(black_box(message), words),
            heads: heads.collect(),
        }
    }

    /// The bytes that have to be read of each message.
    pub fn length(&self) -> usize {
        self.heads[0].len()
    }

    /// The same heads with so many bytes behind each.
    pub fn with_behind(&self, behind: usize) -> Reading {
        let mut random = Random::new(behind as u64);
        let message = |head: &Vec<u8>| [&head[..], &inputs::content(&mut random, behind)].concat();
        Reading {
            library: self.library,
            model: self.model,
            messages: self.heads.iter().map(message).collect(),
            library_words: vec![[0; names::ANSWER_WORDS]; self.heads.len()],
            model_words: vec![[0; names::ANSWER_WORDS]; self.heads.len()],
        }
    }

    /// Both sides say the same of a message, be it readable or not.
    fn compare(&self, message: &[u8]) {
        let (mut library, mut model) = ([7; names::ANSWER_WORDS], [7; names::ANSWER_WORDS]);
        let numbers = [
            (self.library)(message, &mut library),
            (self.model)(message, &mut model),
        ];
        let text = message.escape_ascii();
        assert!(
            numbers[0] == numbers[1],
            "{}: {numbers:?}, {text}",
            self.act
        );
        assert!(library == model, "{}: other words, {text}", self.act);
    }
}

/// A first segment of so many bytes, with numbers in MSH-10 and MSH-13. The shortest is a control
/// message's; in a longer one the fields MSH-3 to MSH-8 are filled.
pub fn header(random: &mut Random, length: usize) -> Vec<u8> {
    if length == HEADERS[0] {
        let (id, sequence) = (random.below(10), random.below(10));
        return format!("MSH|^~\\&|||||||ADT|{id}|P|2.3.1|{sequence}\r").into_bytes();
    }
    let mut number = || random.between(100_000, 999_999);
    let end = format!("|ADT^A01|{}|P|2.3.1|{}|||AL|NE\r", number(), number());
    let mut bytes = b"MSH|^~\\&".to_vec();
    let filling = length - bytes.len() - 6 - end.len();
    for index in 0..6 {
        bytes.push(b'|');
        for _ in filling * index / 6..filling * (index + 1) / 6 {
            bytes.push(random.between(b'A'.into(), b'Z'.into()) as u8);
        }
    }
    bytes.extend_from_slice(end.as_bytes());
    bytes
}

/// An answer of 44 bytes.
fn answer(random: &mut Random) -> Vec<u8> {
    let (id, number) = (random.between(10, 99), random.between(10, 99));
    let code = random.pick(&["AA", "AE", "AR"]);
    format!("MSH|^~\\&|||||||ACK|{id}|P|2.3.1\rMSA|{code}|{id}||{number}\r").into_bytes()
}

/// Messages that both sides read.
pub struct Reading {
    library: Read,
    model: Read,
    messages: Vec<Vec<u8>>,
    library_words: Vec<Words>,
    model_words: Vec<Words>,
}

fn read_all(read: Read, messages: &[Vec<u8>], words: &mut [Words]) {
    for _ in 0..PASSES {
        for (message, words) in messages.iter().zip(words.iter_mut()) {
            assert_eq!(read(message, words), names::OK);
        }
    }
}

impl Work for Reading {
    fn calls(&self) -> usize {
        PASSES * self.messages.len()
    }

    fn library(&mut self) {
        read_all(self.library, &self.messages, &mut self.library_words);
    }

    fn model(&mut self) {
        read_all(self.model, &self.messages, &mut self.model_words);
    }

    fn compare(&self) {
        assert!(self.library_words == self.model_words, "the words differ");
    }
}

/// A call of a writer. The text is the control ID of an answer, or the type of a control message,
/// which has no code.
struct Call {
    text: Vec<u8>,
    code: u64,
    number: u64,
}

/// A writing function of one side: writes from an offset of the buffer on, leaves its report, and
/// gives the number.
type Write = fn(&Call, &mut [u8], usize, &mut Report) -> u64;
type Report = [u64; names::REPORT_WORDS];

/// Both sides of a writing function.
#[derive(Clone, Copy)]
struct Writer {
    act: &'static str,
    library: Write,
    model: Write,
}

const ANSWER_WRITER: Writer = Writer {
    act: "gmv_answer_write",
    library: |call, buffer, start, report| {
        ffi::answer_write(&call.text, call.code, call.number, buffer, start, report)
    },
    model: |call, buffer, start, report| {
        let call = black_box(call);
        model_side::answer_write(&call.text, call.code, call.number, buffer, start, report)
    },
};

const CONTROL_WRITER: Writer = Writer {
    act: "gmv_control_write",
    library: |call, buffer, start, report| {
        ffi::control_write(&call.text, call.number, buffer, start, report)
    },
    model: |call, buffer, start, report| {
        let call = black_box(call);
        model_side::control_write(&call.text, call.number, buffer, start, report)
    },
};

/// Calls that both sides make.
pub struct Writing {
    pub act: &'static str,
    pub length: usize,
    writer: Writer,
    calls: Vec<Call>,
    library_bytes: Vec<u8>,
    model_bytes: Vec<u8>,
}

impl Writing {
    fn new(writer: Writer, calls: Vec<Call>) -> Writing {
        let mut report = [0; names::REPORT_WORDS];
        (writer.model)(&calls[0], &mut [0; 128], 0, &mut report);
        let length = report[names::MESSAGE_LENGTH] as usize;
        let bytes = vec![0; calls.len() * length];
        Writing {
            act: writer.act,
            length,
            writer,
            calls,
            library_bytes: bytes.clone(),
            model_bytes: bytes,
        }
    }

    /// Answers to requests with control IDs of so many digits, and with numbers of so many.
    pub fn answers(id_digits: u32, number_digits: u32) -> Writing {
        let mut random = Random::new(u64::from(id_digits));
        let calls = (0..MESSAGES).map(|_| Call {
            text: digits(&mut random, id_digits),
            code: random.between(1, 3) as u64,
            number: with_digits(&mut random, number_digits),
        });
        Writing::new(ANSWER_WRITER, calls.collect())
    }

    /// Control messages for 0 or -1, of random types.
    pub fn controls(number: u64) -> Writing {
        let mut random = Random::new(3);
        let mut letter = || random.between(b'A'.into(), b'Z'.into()) as u8;
        let calls = (0..MESSAGES).map(|_| Call {
            text: vec![letter(), letter(), letter()],
            code: 0,
            number,
        });
        Writing::new(CONTROL_WRITER, calls.collect())
    }
}

fn digits(random: &mut Random, count: u32) -> Vec<u8> {
    (0..count)
        .map(|_| random.between(b'0'.into(), b'9'.into()) as u8)
        .collect()
}

/// A number with so many digits.
fn with_digits(random: &mut Random, count: u32) -> u64 {
    let least = 10_usize.pow(count - 1);
    random.between(least, 10 * least - 1) as u64
}

/// Writes all messages one behind the other.
fn write_all(write: Write, calls: &[Call], buffer: &mut [u8]) {
    let mut report = [0; names::REPORT_WORDS];
    for _ in 0..PASSES {
        let mut start = 0;
        for call in calls {
            assert_eq!(write(call, buffer, start, &mut report), names::OK);
            start += report[names::MESSAGE_LENGTH] as usize;
        }
        assert_eq!(start, buffer.len());
    }
}

impl Work for Writing {
    fn calls(&self) -> usize {
        PASSES * self.calls.len()
    }

    fn library(&mut self) {
        write_all(self.writer.library, &self.calls, &mut self.library_bytes);
    }

    fn model(&mut self) {
        write_all(self.writer.model, &self.calls, &mut self.model_bytes);
    }

    fn compare(&self) {
        assert!(self.library_bytes == self.model_bytes, "the bytes differ");
    }
}

/// Before anything is timed: the two sides give the same results, also where they refuse.
pub fn compare_sides() {
    let whole = b"MSH|^~\\&|||||||ACK|17|P|2.3.1|-1\rMSA|AE|17||999999999999999\rERR|";
    for reader in [Reader::header(HEADERS[1]), Reader::answer()] {
        for head in &reader.heads {
            reader.compare(head);
        }
        for offset in 0..whole.len() {
            reader.compare(&whole[..offset]);
            for byte in *b"|\r0-A" {
                let mut message = whole.to_vec();
                message[offset] = byte;
                reader.compare(&message);
            }
        }
    }
    let texts: [&[u8]; 9] = [
        b"17",
        b"",
        b"ADT",
        b"AdT",
        b"1|7",
        b"1\r7",
        b"1|\x7F",
        &[b'A'; 20],
        &[b'A'; 21],
    ];
    let largest = 999_999_999_999_999;
    for text in texts {
        for code in 0..5 {
            for number in [0, 17, largest, largest + 1, names::MINUS_ONE] {
                let text = text.to_vec();
                compare_writers(&Call { text, code, number });
            }
        }
    }
}

/// Buffers of every length up to 100, with a start of 0 and of 3.
fn compare_writers(call: &Call) {
    for writer in [ANSWER_WRITER, CONTROL_WRITER] {
        for length in 0..100 {
            for start in [0, 3] {
                let sides = [writer.library, writer.model].map(|write| {
                    let (mut bytes, mut report) = (vec![7; length], [7; names::REPORT_WORDS]);
                    let number = write(call, &mut bytes, start, &mut report);
                    (number, report, bytes)
                });
                assert!(sides[0] == sides[1], "{}: {sides:?}", writer.act);
            }
        }
    }
}
