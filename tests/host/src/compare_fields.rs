//! Calls of the field reader, each compared with the model: the answer, and every word and byte of
//! the memory. The steps through a whole message are compared with what else the library says of it.

use crate::compare::{same_number, Compare, Outcome, GUARD_BYTE, GUARD_WORD};
use crate::guarded::{same, Guarded};
use crate::library;
use host::ffi::{self, names};
use host::field_model::{Fields, Next, NEXT_WORDS};

/// Calls of the field reader: all, those that gave an empty field, one ended by CR, one ended by the
/// message's end, and no field; and the headers and answers that were found by steps.
#[derive(Default)]
pub struct FieldCounts {
    pub calls: u64,
    pub empty: u64,
    pub segment_ends: u64,
    pub message_ends: u64,
    pub none: u64,
    pub headers: u64,
    pub answers: u64,
}

impl FieldCounts {
    /// Counts what a call gave that had words enough.
    pub fn add(&mut self, next: &Next) {
        let found = next[names::NEXT_FOUND] == 1;
        let ended_by = |delimiter| u64::from(next[names::NEXT_DELIMITER] == delimiter);
        self.none += u64::from(!found);
        self.empty += u64::from(found && next[names::NEXT_LENGTH] == 0);
        self.segment_ends += ended_by(names::DELIMITER_SEGMENT_END);
        self.message_ends += ended_by(names::DELIMITER_MESSAGE_END);
    }
}

/// Positions far behind the end of any message, and ones that are small again in fewer bits.
pub const FAR: [usize; 8] = [
    1 << 16,
    1 << 31,
    1 << 32,
    (1 << 32) + 1,
    isize::MAX as usize,
    1 << 63,
    usize::MAX - 1,
    usize::MAX,
];

/// A message in guarded memory, and its fields by the model.
struct Given<'a> {
    message: &'a [u8],
    memory: Guarded<u8>,
    fields: Fields,
}

impl Given<'_> {
    fn new(message: &[u8]) -> Given<'_> {
        Given {
            message,
            memory: Guarded::new(message, GUARD_BYTE),
            fields: Fields::new(message),
        }
    }

    /// Says which message something is wrong with; also that it was changed.
    fn finish(&self, outcome: Outcome) -> Outcome {
        outcome
            .and_then(|()| self.memory.compare("message", self.message))
            .map_err(|why| format!("{why}; message {}", library::text(self.message)))
    }
}

impl Compare {
    /// All steps through a message, from its start to its end.
    pub fn walk(&mut self, message: &[u8]) -> Outcome {
        let given = Given::new(message);
        let outcome = self.steps(&given).and_then(|steps| {
            same("steps", &steps, &given.fields.steps())?;
            same("joined fields", &joined(message, &steps), message)?;
            self.header_by_steps(message, &steps)?;
            self.answer_by_steps(message, &steps)
        });
        given.finish(outcome)
    }

    /// The next field from every position on, up to two behind the end, and from ones far behind.
    pub fn every_position(&mut self, message: &[u8]) -> Outcome {
        let given = Given::new(message);
        let far = FAR.into_iter().filter(|&far| far > message.len());
        let wrapped = [0, 1, message.len()].map(|less| usize::MAX - less);
        let outcome = (0..message.len() + 3)
            .chain(far)
            .chain(wrapped)
            .try_for_each(|position| self.next_field(&given, position).map(|_| ()));
        given.finish(outcome)
    }

    /// The next field from one position on, with so many words for it.
    pub fn field_with(&mut self, message: &[u8], position: usize, words: usize) -> Outcome {
        let given = Given::new(message);
        let outcome = self.field_call(&given, position, words).map(|_| ());
        given.finish(outcome)
    }

    fn steps(&mut self, given: &Given) -> Result<Vec<Next>, String> {
        let mut steps = Vec::new();
        let mut position = 0;
        loop {
            let next = self.next_field(given, position)?;
            if next[names::NEXT_FOUND] == 0 {
                return Ok(steps);
            }
            position = next[names::NEXT_POSITION] as usize;
            steps.push(next);
        }
    }

    /// One call, with some more words than needed; gives those that the library wrote.
    fn next_field(&mut self, given: &Given, position: usize) -> Result<Next, String> {
        let more = self.random.below(3);
        let words = self.field_call(given, position, NEXT_WORDS + more)?;
        Ok(std::array::from_fn(|index| words.content()[index]))
    }

    fn field_call(
        &mut self,
        given: &Given,
        position: usize,
        words: usize,
    ) -> Result<Guarded<u64>, String> {
        self.fields.calls += 1;
        let mut expected = self.random.words(words);
        let mut found = Guarded::new(&expected, GUARD_WORD);
        let answer = ffi::field_next(given.memory.content(), position, found.content_mut());
        let number = if words < NEXT_WORDS {
            names::TOO_SHORT
        } else {
            let next = given.fields.next(position);
            expected[..NEXT_WORDS].copy_from_slice(&next);
            self.fields.add(&next);
            names::OK
        };
        same_number(answer, number)
            .and_then(|()| found.compare("words", &expected))
            .map_err(|why| format!("gmv_field_next, position {position}, {words} words: {why}"))?;
        Ok(found)
    }

    /// A message has a header where the steps say so, and MSH-10 and MSH-13 are the tenth and the
    /// thirteenth step, as MSH-1 is the first bar.
    fn header_by_steps(&mut self, message: &[u8], steps: &[Next]) -> Outcome {
        let expected = header_of(message, steps);
        let mut words = [77; names::HEADER_WORDS];
        let number = ffi::header_read(message, &mut words);
        self.fields.headers += u64::from(expected.is_some());
        let [control_id, sequence] = expected.unwrap_or([[77; 2]; 2]);
        same_number(number, expected.map_or(names::HEAD, |_| names::OK))
            .and_then(|()| same("MSH-10", &words[..2], &control_id))
            .and_then(|()| same("MSH-13", &words[2..4], &sequence))
            .map_err(|why| format!("gmv_header_read, by steps: {why}"))
    }

    /// The same with MSA-1, MSA-2 and MSA-4.
    fn answer_by_steps(&mut self, message: &[u8], steps: &[Next]) -> Outcome {
        let expected = answer_of(message, steps);
        let mut words = [77; names::ANSWER_WORDS];
        let number = ffi::answer_read(message, &mut words);
        self.fields.answers += u64::from(expected.is_some());
        let [code, control_id, number_field] = expected.unwrap_or([[77; 2]; 3]);
        same_number(number, expected.map_or(names::HEAD, |_| names::OK))
            .and_then(|()| same("MSA-1", &words[..2], &code))
            .and_then(|()| same("MSA-2", &words[3..5], &control_id))
            .and_then(|()| same("MSA-4", &words[5..7], &number_field))
            .map_err(|why| format!("gmv_answer_read, by steps: {why}"))
    }
}

/// The bytes of the field that a step gave.
fn bytes_of<'a>(message: &'a [u8], step: &Next) -> &'a [u8] {
    &message[step[names::NEXT_OFFSET] as usize..][..step[names::NEXT_LENGTH] as usize]
}

/// All fields, each with the byte that its delimiter stands for.
fn joined(message: &[u8], steps: &[Next]) -> Vec<u8> {
    let mut bytes = Vec::with_capacity(message.len());
    for step in steps {
        bytes.extend_from_slice(bytes_of(message, step));
        bytes.extend(match step[names::NEXT_DELIMITER] {
            names::DELIMITER_SEPARATOR => Some(b'|'),
            names::DELIMITER_SEGMENT_END => Some(0x0D),
            _ => None,
        });
    }
    bytes
}

/// The steps of the first segment and those behind it; none if it has another name, no bar or no CR.
fn segment_of<'a>(
    message: &[u8],
    steps: &'a [Next],
    name: &[u8],
) -> Option<(&'a [Next], &'a [Next])> {
    let end = |step: &Next| step[names::NEXT_DELIMITER] == names::DELIMITER_SEGMENT_END;
    let (segment, rest) = steps.split_at(steps.iter().position(end)? + 1);
    let named = bytes_of(message, &segment[0]) == name && segment.len() > 1;
    named.then_some((segment, rest))
}

/// Offset and length of a segment's field; a missing one is empty, and has the offset of its CR.
fn field_of(segment: &[Next], index: usize) -> [u64; 2] {
    let part = |step: &Next| [step[names::NEXT_OFFSET], step[names::NEXT_LENGTH]];
    match segment.get(index) {
        Some(step) => part(step),
        None => [segment.last().map(part).unwrap_or_default().iter().sum(), 0],
    }
}

fn header_of(message: &[u8], steps: &[Next]) -> Option<[[u64; 2]; 2]> {
    let (segment, _) = segment_of(message, steps, b"MSH")?;
    let control_id = field_of(segment, 9);
    let readable = (1..=20).contains(&control_id[1]);
    readable.then(|| [control_id, field_of(segment, 12)])
}

fn answer_of(message: &[u8], steps: &[Next]) -> Option<[[u64; 2]; 3]> {
    header_of(message, steps)?;
    let (_, rest) = segment_of(message, steps, b"MSH")?;
    let (segment, _) = segment_of(message, rest, b"MSA")?;
    Some([1, 2, 4].map(|index| field_of(segment, index)))
}
