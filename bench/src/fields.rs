//! The two sides of the field reader: whole messages read field by field, by the library through its
//! C interface and by the model, which splits the message first. Each leaves the words of all fields
//! for comparison.

use crate::messages::{self, HEADERS, MESSAGES};
use crate::timing::Work;
use host::ffi::{self, names};
use host::field_model::Fields;
use host::prng::Random;
use std::hint::black_box;
use std::slice::IterMut;

/// How many bytes the messages have. The shortest is a control message.
pub const LENGTHS: [usize; 3] = [HEADERS[0], 400, 4_000];

/// About so many bytes are read in one turn, so that the turns of all lengths are alike.
const TURN_BYTES: usize = 200_000;

type Words = [u64; names::NEXT_WORDS];

/// A message of so many bytes: a header of 100 bytes, and segments of empty and of short fields.
fn message(random: &mut Random, length: usize) -> Vec<u8> {
    if length == LENGTHS[0] {
        return messages::header(random, length);
    }
    let mut bytes = messages::header(random, 100);
    while bytes.len() < length {
        for _ in 0..random.pick(&[0, 0, 0, 1, 1, 4, 8, 12, 20]) {
            bytes.push(random.between(b'A'.into(), b'Z'.into()) as u8);
        }
        bytes.push(if random.one_in(20) { b'\r' } else { b'|' });
    }
    bytes.truncate(length - 1);
    bytes.push(b'\r');
    bytes
}

/// Messages that both sides read to their end.
pub struct Walking {
    messages: Vec<Vec<u8>>,
    passes: usize,
    library_words: Vec<Words>,
    model_words: Vec<Words>,
}

impl Walking {
    pub fn new(length: usize) -> Walking {
        let mut random = Random::new(length as u64);
        let messages: Vec<_> = (0..MESSAGES)
            .map(|_| message(&mut random, length))
            .collect();
        let delimiters = |message: &Vec<u8>| {
            let delimiters = message.iter().filter(|byte| b"|\r".contains(byte));
            delimiters.count()
        };
        let fields = messages.iter().map(delimiters).sum();
        Walking {
            messages,
            passes: TURN_BYTES / (MESSAGES * length),
            library_words: vec![[0; names::NEXT_WORDS]; fields],
            model_words: vec![[0; names::NEXT_WORDS]; fields],
        }
    }

    /// The fields of a message, on average.
    pub fn fields(&self) -> f64 {
        self.library_words.len() as f64 / self.messages.len() as f64
    }
}

/// Leaves the words of a message's fields. Every message ends with a delimiter, so its last field is
/// known by its position.
fn walk(length: usize, fields: &mut IterMut<Words>, next: impl Fn(usize, &mut Words)) {
    let mut position = 0;
    while position < length {
        let words = fields.next().expect("as many fields as delimiters");
        next(position, words);
        position = words[names::NEXT_POSITION] as usize;
    }
}

fn library_walk(message: &[u8], fields: &mut IterMut<Words>) {
    walk(message.len(), fields, |position, words| {
        assert_eq!(ffi::field_next(message, position, words), names::OK);
    });
}

fn model_walk(message: &[u8], fields: &mut IterMut<Words>) {
    let split = Fields::new(black_box(message));
    walk(message.len(), fields, |position, words| {
        *words = split.next(position);
    });
}

type Walk = fn(&[u8], &mut IterMut<Words>);

fn walk_all(walk: Walk, passes: usize, messages: &[Vec<u8>], words: &mut [Words]) {
    for _ in 0..passes {
        let mut fields = words.iter_mut();
        for message in messages {
            walk(message, &mut fields);
        }
        assert_eq!(fields.len(), 0, "too few fields");
    }
}

impl Work for Walking {
    fn calls(&self) -> usize {
        self.passes * self.library_words.len()
    }

    fn library(&mut self) {
        let words = &mut self.library_words;
        walk_all(library_walk, self.passes, &self.messages, words);
    }

    fn model(&mut self) {
        let words = &mut self.model_words;
        walk_all(model_walk, self.passes, &self.messages, words);
    }

    fn compare(&self) {
        assert!(self.library_words == self.model_words, "the words differ");
    }
}

/// Before anything is timed: the two sides say the same from every position on, and behind the end.
pub fn compare_sides() {
    let mut random = Random::new(5);
    for length in [0, 1, 7, 31, 100, 400] {
        for _ in 0..20 {
            let bytes = (0..length).map(|_| random.pick(b"||\rAAAAA\x00\x7D\x0C\xFC\x8D"));
            let message: Vec<u8> = bytes.collect();
            let split = Fields::new(&message);
            let behind = [length, length + 1, usize::MAX];
            for position in (0..length).chain(behind) {
                let mut words = [7; names::NEXT_WORDS];
                let number = ffi::field_next(&message, position, &mut words);
                let (said, text) = ((number, words), message.escape_ascii());
                assert_eq!(said, (0, split.next(position)), "{position}, {text}");
            }
        }
    }
}
