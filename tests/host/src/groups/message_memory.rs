//! Messages at the C boundary: memory at the edge of what may be touched.

use super::memory::Pages;
use crate::compare::{Compare, Outcome};
use crate::guarded::same;
use crate::library;
use crate::make_messages;
use host::ffi;
use host::message_model::{self, Memory, Written, ANSWER_WORDS, HEADER_WORDS, MINUS_ONE};

/// One set of pages for each kind of memory.
struct GuardPages {
    text: Pages,
    buffer: Pages,
    words: Pages,
    report: Pages,
}

/// Reads and writes with all memory at the edge of what may be touched.
pub fn message_guard_pages(compare: &mut Compare) -> Outcome {
    let mut guarded = GuardPages {
        text: Pages::new(1),
        buffer: Pages::new(1),
        words: Pages::new(1),
        report: Pages::new(1),
    };
    let corpus = make_messages::corpus();
    for round in 0..60_000 {
        let at_end = round % 4 != 0;
        let mut message = if round % 8 == 0 {
            corpus[compare.random.below(corpus.len())].clone()
        } else {
            make_messages::pieces(&mut compare.random).bytes()
        };
        if compare.random.one_in(2) {
            message.truncate(compare.random.below(message.len() + 1));
        }
        guarded_read(compare, &mut guarded, &message, at_end)?;
        guarded_answer(compare, &mut guarded, at_end)?;
        guarded_control(compare, &mut guarded, at_end)?;
    }
    Ok(())
}

fn guarded_read(
    compare: &mut Compare,
    guarded: &mut GuardPages,
    message: &[u8],
    at_end: bool,
) -> Outcome {
    compare.messages += 1;
    let text = guarded.text.bytes(message.len(), at_end);
    text.copy_from_slice(message);
    let header = message_model::header(message).map(|header| header.words());
    let answer = message_model::answer(message).map(|answer| answer.words());
    let words = guarded.words.words(HEADER_WORDS, at_end);
    words.fill(77);
    let number = ffi::header_read(text, words);
    same("number", &[number], &[header.map_or(9, |_| 0)])
        .and_then(|()| same("header", words, &header.unwrap_or([77; HEADER_WORDS])))
        .map_err(|why| format!("header: {why}; message {}", library::text(message)))?;
    let words = guarded.words.words(ANSWER_WORDS, at_end);
    words.fill(77);
    let number = ffi::answer_read(text, words);
    same("number", &[number], &[answer.map_or(9, |_| 0)])
        .and_then(|()| same("answer", words, &answer.unwrap_or([77; ANSWER_WORDS])))
        .map_err(|why| format!("answer: {why}; message {}", library::text(message)))
}

fn guarded_answer(compare: &mut Compare, guarded: &mut GuardPages, at_end: bool) -> Outcome {
    compare.messages += 1;
    let mut id = make_messages::control_id(&mut compare.random);
    if compare.random.one_in(6) {
        id.resize(compare.random.below(26), 0x7F);
    }
    let control_id = guarded.text.bytes(id.len(), at_end);
    control_id.copy_from_slice(&id);
    let number = compare.random.pick(&[17, MINUS_ONE, 999_999_999_999_999]);
    let (start, less) = (compare.random.below(5), compare.random.pick(&[0, 0, 0, 1]));
    let digits = message_model::number_text(number).len();
    let length = start + message_model::ANSWER_FRAME + 2 * id.len() + digits - less;
    let buffer = guarded.buffer.bytes(length, at_end);
    let report = guarded.report.words(2, at_end);
    let found = ffi::answer_write(control_id, 3, number, buffer, start, report);
    let memory = Memory {
        buffer_length: length,
        start,
        report_words: 2,
    };
    let expected = message_model::answer_written(&id, 3, number, &memory);
    as_expected(found, &buffer[start..], &expected)
        .map_err(|why| format!("answer, number {number}: {why}; {}", library::text(&id)))
}

fn guarded_control(compare: &mut Compare, guarded: &mut GuardPages, at_end: bool) -> Outcome {
    compare.messages += 1;
    let message_type = guarded.text.bytes(3, at_end);
    message_type.copy_from_slice(b"ORU");
    let number = compare.random.pick(&[0, MINUS_ONE]);
    let start = compare.random.below(5);
    let length = start + compare.random.pick(&[31, 33, 33, 30, 32]);
    let buffer = guarded.buffer.bytes(length, at_end);
    let report = guarded.report.words(2, at_end);
    let found = ffi::control_write(message_type, number, buffer, start, report);
    let memory = Memory {
        buffer_length: length,
        start,
        report_words: 2,
    };
    let expected = message_model::control_written(b"ORU", number, &memory);
    as_expected(found, &buffer[start..], &expected)
        .map_err(|why| format!("control message, number {number}: {why}"))
}

fn as_expected(found: u64, buffer: &[u8], expected: &Written) -> Outcome {
    let (number, bytes) = match expected {
        Written::Nothing(number) | Written::Refused(number, _) => (*number, &[][..]),
        Written::Bytes(bytes) => (0, &bytes[..]),
    };
    same("number", &[found], &[number])?;
    same("message", &buffer[..bytes.len()], bytes)
}
