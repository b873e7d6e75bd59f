//! Calls of the functions for messages, each compared with the model: the answer, and every word
//! and byte of the memory.

use crate::compare::{same_number, Compare, Outcome, GUARD_BYTE, GUARD_WORD};
use crate::guarded::{same, Guarded};
use crate::library;
use host::ffi;
use host::message_model::{self, Memory, Written, ANSWER_WORDS, HEADER_WORDS, MINUS_ONE};
use host::model::Settings;

/// The least data limit of a link: every message that the library writes must fit.
const LEAST_LIMIT: u64 = 128;

/// One call of the answer writer.
#[derive(Clone, Copy)]
pub struct AnswerCall<'a> {
    pub control_id: &'a [u8],
    pub code: u64,
    pub number: u64,
    pub buffer: &'a [u8],
    pub start: usize,
    pub report_words: usize,
}

/// One call of the writer of control messages.
#[derive(Clone, Copy)]
pub struct ControlCall<'a> {
    pub message_type: &'a [u8],
    pub number: u64,
    pub buffer: &'a [u8],
    pub start: usize,
    pub report_words: usize,
}

/// A reading function, the words it needs, and those it must write (none: 9).
struct Reading<'a> {
    name: &'a str,
    read: fn(&[u8], &mut [u64]) -> u64,
    need: usize,
    expected: Option<&'a [u64]>,
}

impl Compare {
    /// Gives a message to both readers, with some more words than needed.
    pub fn message(&mut self, message: &[u8]) -> Outcome {
        let more = self.random.below(3);
        self.message_with(message, HEADER_WORDS + more, ANSWER_WORDS + more)
    }

    /// The same with so many words for a header and so many for an answer.
    pub fn message_with(
        &mut self,
        message: &[u8],
        header_words: usize,
        answer_words: usize,
    ) -> Outcome {
        self.messages += 1;
        self.both_readers(message, header_words, answer_words)
    }

    fn both_readers(
        &mut self,
        message: &[u8],
        header_words: usize,
        answer_words: usize,
    ) -> Outcome {
        let header = message_model::header(message).map(|header| header.words());
        let answer = message_model::answer(message).map(|answer| answer.words());
        self.headers += u64::from(header.is_some());
        self.answers += u64::from(answer.is_some());
        let header = Reading {
            name: "gmv_header_read",
            read: ffi::header_read,
            need: HEADER_WORDS,
            expected: header.as_ref().map(|words| &words[..]),
        };
        let answer = Reading {
            name: "gmv_answer_read",
            read: ffi::answer_read,
            need: ANSWER_WORDS,
            expected: answer.as_ref().map(|words| &words[..]),
        };
        self.reader(&header, message, header_words)?;
        self.reader(&answer, message, answer_words)
    }

    /// One reading call.
    fn reader(&mut self, reading: &Reading, message: &[u8], words: usize) -> Outcome {
        let mut expected = self.random.words(words);
        let mut found_words = Guarded::new(&expected, GUARD_WORD);
        let mut given = Guarded::new(message, GUARD_BYTE);
        let found = (reading.read)(given.content_mut(), found_words.content_mut());
        let number = match (words < reading.need, reading.expected) {
            (true, _) => 2,
            (false, None) => 9,
            (false, Some(read)) => {
                expected[..reading.need].copy_from_slice(read);
                0
            }
        };
        same_number(found, number)
            .and_then(|()| found_words.compare("words", &expected))
            .and_then(|()| given.compare("message", message))
            .map_err(|why| {
                let name = reading.name;
                let text = library::text(message);
                format!("{name}, {words} words: {why}; message {text}")
            })
    }

    /// One call of the answer writer; what was written is then read back.
    pub fn answer_call(&mut self, call: &AnswerCall) -> Outcome {
        self.messages += 1;
        let memory = Memory {
            buffer_length: call.buffer.len(),
            start: call.start,
            report_words: call.report_words,
        };
        let (id, code, number) = (call.control_id, call.code, call.number);
        let expected = message_model::answer_written(id, code, number, &memory);
        let mut given = Guarded::new(id, GUARD_BYTE);
        self.writer(&expected, call.buffer, &memory, |buffer, report| {
            ffi::answer_write(
                given.content_mut(),
                code,
                number,
                buffer,
                call.start,
                report,
            )
        })
        .and_then(|()| given.compare("control ID", id))
        .and_then(|()| match &expected {
            Written::Bytes(bytes) => self.answer_reads_back(call, bytes),
            _ => Ok(()),
        })
        .map_err(|why| {
            format!(
                "gmv_answer_write, code {code}, number {number}, start {}, {} buffer bytes, {} \
                 report words: {why}; control ID {}",
                call.start,
                call.buffer.len(),
                call.report_words,
                library::text(id)
            )
        })
    }

    /// One call of the writer of control messages; what was written is then read back.
    pub fn control_call(&mut self, call: &ControlCall) -> Outcome {
        self.messages += 1;
        let memory = Memory {
            buffer_length: call.buffer.len(),
            start: call.start,
            report_words: call.report_words,
        };
        let (message_type, number) = (call.message_type, call.number);
        let expected = message_model::control_written(message_type, number, &memory);
        let mut given = Guarded::new(message_type, GUARD_BYTE);
        self.writer(&expected, call.buffer, &memory, |buffer, report| {
            ffi::control_write(given.content_mut(), number, buffer, call.start, report)
        })
        .and_then(|()| given.compare("type", message_type))
        .and_then(|()| match &expected {
            Written::Bytes(bytes) => self.control_reads_back(number, bytes),
            _ => Ok(()),
        })
        .map_err(|why| {
            format!(
                "gmv_control_write, number {number}, start {}, {} buffer bytes, {} report words: \
                 {why}; type {}",
                call.start,
                call.buffer.len(),
                call.report_words,
                library::text(message_type)
            )
        })
    }

    /// One writing call, compared with what it must do.
    fn writer(
        &mut self,
        expected: &Written,
        buffer_before: &[u8],
        memory: &Memory,
        call: impl FnOnce(&mut [u8], &mut [u64]) -> u64,
    ) -> Outcome {
        let mut expected_report = self.random.words(memory.report_words);
        let mut expected_buffer = buffer_before.to_vec();
        let mut buffer = Guarded::new(buffer_before, GUARD_BYTE);
        let mut report = Guarded::new(&expected_report, GUARD_WORD);
        let found = call(buffer.content_mut(), report.content_mut());
        let number = match expected {
            Written::Nothing(number) => *number,
            Written::Refused(number, offset) => {
                expected_report[..2].copy_from_slice(&[0, *offset]);
                *number
            }
            Written::Bytes(bytes) => {
                expected_buffer[memory.start..][..bytes.len()].copy_from_slice(bytes);
                expected_report[..2].copy_from_slice(&[bytes.len() as u64, 0]);
                0
            }
        };
        same_number(found, number)?;
        report.compare("report", &expected_report)?;
        buffer.compare("buffer", &expected_buffer)
    }

    /// The words of a written answer follow from the lengths of its parts.
    fn answer_reads_back(&mut self, call: &AnswerCall, message: &[u8]) -> Outcome {
        let id = call.control_id.len() as u64;
        let digits = message.len() as u64 - 38 - 2 * id;
        let header = [19, id, 27 + id, 0, 0, 0];
        let (first, last) = (32 + id, 37 + 2 * id);
        let answer = [
            first,
            2,
            call.code,
            first + 3,
            id,
            last,
            digits,
            2,
            call.number,
        ];
        self.reads_back_as(message, &header, Some(&answer))
    }

    fn control_reads_back(&mut self, number: u64, message: &[u8]) -> Outcome {
        let digits = if number == MINUS_ONE { 2 } else { 1 };
        let header = [19, digits, 28 + digits, digits, 2, number];
        self.reads_back_as(message, &header, None)
    }

    /// Reads a written message as it is, and as the data of a block in that block's own bytes.
    fn reads_back_as(
        &mut self,
        message: &[u8],
        header: &[u64; HEADER_WORDS],
        answer: Option<&[u64; ANSWER_WORDS]>,
    ) -> Outcome {
        self.both_readers(message, HEADER_WORDS, ANSWER_WORDS)?;
        let settings = Settings::hybrid(0x0B, 0x1C, LEAST_LIMIT);
        let mut block = vec![0; message.len() + settings.overhead()];
        let (mut report, mut verdict) = ([0; 2], [0; 8]);
        let data_block = u64::from(b'D');
        let number = library::write(&settings, data_block, message, &mut block, 0, &mut report);
        same_number(number, 0)?;
        same("block report", &report, &[block.len() as u64, 0])?;
        same_number(library::check(&settings, &block, &mut verdict), 0)?;
        same("data", &verdict[5..7], &[5, message.len() as u64])?;
        let data = &block[5..][..message.len()];
        same("data", data, message)?;
        let mut words = [77; HEADER_WORDS];
        same_number(ffi::header_read(data, &mut words), 0)?;
        same("header read back", &words, header)?;
        let mut words = [77; ANSWER_WORDS];
        let number = ffi::answer_read(data, &mut words);
        same_number(number, if answer.is_some() { 0 } else { 9 })?;
        let unchanged = [77; ANSWER_WORDS];
        same("answer read back", &words, answer.unwrap_or(&unchanged))
    }
}
