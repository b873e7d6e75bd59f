//! The other side of messages and acts: the model of tests/host, called as the C functions are. What
//! it gives is copied into the caller's words and bytes, and that is timed with it.

use host::message_model::{self, Memory, Written, HEADER_WORDS, REPORT_WORDS};
use host::model::Settings;
use host::receiver_model::{self, ReceiverAct, RECEIVER_WORDS};
use host::sender_model::{self, Act, Acted, ACT_WORDS, SENDER_WORDS};

const OK: u64 = 0;
const NO_HEADER: u64 = 9;

pub fn header_read(message: &[u8], words: &mut [u64]) -> u64 {
    let Some(header) = message_model::header(message) else {
        return NO_HEADER;
    };
    words[..HEADER_WORDS].copy_from_slice(&header.words());
    OK
}

pub fn answer_read(message: &[u8], words: &mut [u64]) -> u64 {
    let Some(answer) = message_model::answer(message) else {
        return NO_HEADER;
    };
    words.copy_from_slice(&answer.words());
    OK
}

/// The memory of a writer whose report has so many words.
fn memory(buffer: &[u8], start: usize, report: &[u64]) -> Memory {
    Memory {
        buffer_length: buffer.len(),
        start,
        report_words: report.len(),
    }
}

fn put(bytes: &[u8], buffer: &mut [u8], start: usize) {
    buffer[start..start + bytes.len()].copy_from_slice(bytes);
}

fn written(written: Written, buffer: &mut [u8], start: usize, report: &mut [u64]) -> u64 {
    let (number, words) = match written {
        Written::Nothing(number) => return number,
        Written::Refused(number, offset) => (number, [0, offset]),
        Written::Bytes(bytes) => {
            put(&bytes, buffer, start);
            (OK, [bytes.len() as u64, 0])
        }
    };
    report[..REPORT_WORDS].copy_from_slice(&words);
    number
}

pub fn answer_write(
    control_id: &[u8],
    code: u64,
    number: u64,
    buffer: &mut [u8],
    start: usize,
    report: &mut [u64],
) -> u64 {
    let memory = memory(buffer, start, report);
    let answer = message_model::answer_written(control_id, code, number, &memory);
    written(answer, buffer, start, report)
}

pub fn control_write(
    message_type: &[u8],
    number: u64,
    buffer: &mut [u8],
    start: usize,
    report: &mut [u64],
) -> u64 {
    let memory = memory(buffer, start, report);
    let control = message_model::control_written(message_type, number, &memory);
    written(control, buffer, start, report)
}

pub fn control_block(
    settings: &Settings,
    message_type: &[u8],
    number: u64,
    buffer: &mut [u8],
    start: usize,
    report: &mut [u64],
) -> u64 {
    let memory = memory(buffer, start, report);
    match sender_model::control_block(settings, message_type, number, &memory) {
        Ok(block) => written(Written::Bytes(block), buffer, start, report),
        Err(number) => number,
    }
}

pub fn receiver_act(
    act: &ReceiverAct,
    state: &mut [u64],
    buffer: &mut [u8],
    start: usize,
    report: &mut [u64],
) -> u64 {
    let memory = memory(buffer, start, report);
    match receiver_model::act_on_words(act, state, &memory) {
        receiver_model::Acted::Refused(number) => number,
        receiver_model::Acted::Done {
            state: then,
            report: words,
            reply,
        } => {
            if let Some(then) = then {
                state[..RECEIVER_WORDS].copy_from_slice(&then);
            }
            report[..words.len()].copy_from_slice(&words);
            put(&reply, buffer, start);
            OK
        }
    }
}

pub fn sender_act(act: &Act, state: &mut [u64], report: &mut [u64]) -> u64 {
    match sender_model::act_on_words(act, state, report.len()) {
        Acted::Unchanged(number) => number,
        Acted::Reported(number, words, reported) => {
            state[..SENDER_WORDS].copy_from_slice(&words);
            report[..ACT_WORDS].copy_from_slice(&reported);
            number
        }
    }
}
