//! Acts of the sender, each compared with the model: the answer, and every word and byte of the memory.

use crate::compare::{same_number, Compare, Kinds, Outcome, GUARD_BYTE, GUARD_WORD, RESENDS};
use crate::guarded::{same, Guarded};
use crate::library;
use host::ends_ffi;
use host::ffi;
use host::message_model::{Memory, HEADER_WORDS, LARGEST_EXPECTED, LARGEST_SENT, MINUS_ONE};
use host::model::{Layer, Settings};
use host::receiver_model::Incoming;
use host::sender_model::{self, Act, Acted, Sender, ACT_WORDS, SENDER_WORDS};

/// What an act of the sender answered, and its report; without one for 1 and 2.
#[derive(Clone, Copy)]
pub struct SenderAnswer {
    pub number: u64,
    pub report: [u64; ACT_WORDS],
}

/// One call of a writer of control blocks.
#[derive(Clone, Copy)]
pub struct ControlBlockCall<'a> {
    pub settings: Settings,
    pub message_type: &'a [u8],
    pub number: u64,
    pub buffer: &'a [u8],
    pub start: usize,
    pub report_words: usize,
}

/// So near the ends of their range numbers count as small or large.
const NEAR: u64 = 100;

impl Kinds {
    pub fn count_number(&mut self, number: u64) {
        let large = LARGEST_SENT - NEAR..=LARGEST_EXPECTED;
        self.small += u64::from((1..=NEAR).contains(&number));
        self.large += u64::from(large.contains(&number));
    }

    fn count_sender(&mut self, act: &Act, state: &[u64]) {
        if let Act::Timer { resends } | Act::Block { resends, .. } = act {
            let index = RESENDS.iter().position(|listed| listed == resends);
            index.into_iter().for_each(|index| self.resends[index] += 1);
        }
        if let Some(sender) = state.get(..SENDER_WORDS).and_then(Sender::decode) {
            self.count_number(sender.last);
        }
    }
}

impl Compare {
    /// A fresh sender with some more words than needed.
    pub fn sender_fresh(&mut self, first: u64) -> Result<Vec<u64>, String> {
        let words = SENDER_WORDS + self.random.below(3);
        self.sender_fresh_with(first, words)
    }

    pub fn sender_fresh_with(&mut self, first: u64, words: usize) -> Result<Vec<u64>, String> {
        self.acts += 1;
        let mut expected = self.random.words(words);
        let mut state = Guarded::new(&expected, GUARD_WORD);
        let found = ends_ffi::sender_fresh(first, state.content_mut());
        let number = match sender_model::fresh(first, words) {
            Ok(fresh) => {
                expected[..SENDER_WORDS].copy_from_slice(&fresh);
                0
            }
            Err(number) => number,
        };
        same_number(found, number)
            .and_then(|()| state.compare("state", &expected))
            .map_err(|why| format!("gmv_sender_fresh, first {first}, {words} words: {why}"))?;
        Ok(expected)
    }

    /// One act of the sender, with a report of some more words than needed.
    pub fn sender_act(&mut self, act: &Act, state: &mut [u64]) -> Result<SenderAnswer, String> {
        let words = ACT_WORDS + self.random.below(3);
        self.sender_act_with(act, state, words)
    }

    pub fn sender_act_with(
        &mut self,
        act: &Act,
        state: &mut [u64],
        report_words: usize,
    ) -> Result<SenderAnswer, String> {
        self.acts += 1;
        self.kinds.count_sender(act, state);
        let before = state.to_vec();
        let mut expected_report = self.random.words(report_words);
        let mut report = Guarded::new(&expected_report, GUARD_WORD);
        let mut words = Guarded::new(state, GUARD_WORD);
        let bytes = act_bytes(act);
        let mut given = Guarded::new(bytes, GUARD_BYTE);
        let copied = with_bytes(act, given.content_mut());
        let found = ends_ffi::sender_act(&copied, words.content_mut(), report.content_mut());
        let mut answer = SenderAnswer {
            number: 0,
            report: [0; ACT_WORDS],
        };
        match sender_model::act_on_words(act, state, report_words) {
            Acted::Unchanged(number) => answer.number = number,
            Acted::Reported(number, state_words, report_words) => {
                answer.number = number;
                answer.report = report_words;
                state[..SENDER_WORDS].copy_from_slice(&state_words);
                expected_report[..ACT_WORDS].copy_from_slice(&report_words);
            }
        }
        same_number(found, answer.number)
            .and_then(|()| words.compare("state", state))
            .and_then(|()| report.compare("report", &expected_report))
            .and_then(|()| given.compare("data", bytes))
            .map_err(|why| {
                let act = act_text(act);
                format!("{act}, {report_words} report words, state {before:?}: {why}")
            })?;
        Ok(answer)
    }

    /// One call of a writer of control blocks; what was written is then read back.
    pub fn control_block(&mut self, call: &ControlBlockCall) -> Outcome {
        self.acts += 1;
        let mut expected_report = self.random.words(call.report_words);
        let mut expected_buffer = call.buffer.to_vec();
        let mut report = Guarded::new(&expected_report, GUARD_WORD);
        let mut buffer = Guarded::new(call.buffer, GUARD_BYTE);
        let mut given = Guarded::new(call.message_type, GUARD_BYTE);
        let (settings, number) = (call.settings, call.number);
        let found = ends_ffi::control_block(
            &settings,
            given.content_mut(),
            number,
            buffer.content_mut(),
            call.start,
            report.content_mut(),
        );
        let written = call.expected();
        if let Ok(block) = &written {
            expected_buffer[call.start..][..block.len()].copy_from_slice(block);
            expected_report[..2].copy_from_slice(&[block.len() as u64, 0]);
        }
        same_number(found, *written.as_ref().err().unwrap_or(&0))
            .and_then(|()| report.compare("report", &expected_report))
            .and_then(|()| buffer.compare("buffer", &expected_buffer))
            .and_then(|()| given.compare("type", call.message_type))
            .and_then(|()| match &written {
                Ok(block) => control_reads_back(&settings, number, block),
                Err(_) => Ok(()),
            })
            .map_err(|why| control_text(call, &why))
    }
}

impl ControlBlockCall<'_> {
    /// What the model writes, or its refusal.
    fn expected(&self) -> Result<Vec<u8>, u64> {
        let memory = Memory {
            buffer_length: self.buffer.len(),
            start: self.start,
            report_words: self.report_words,
        };
        sender_model::control_block(&self.settings, self.message_type, self.number, &memory)
    }
}

/// The library's check takes a control block, and its reader finds the number in both fields.
fn control_reads_back(settings: &Settings, number: u64, block: &[u8]) -> Outcome {
    let digits = if number == MINUS_ONE { 2 } else { 1 };
    let length = 29 + 2 * digits;
    let data_offset = match settings.layer {
        Layer::Hybrid => 5,
        Layer::Minimal => 1,
    };
    same(
        "block's length",
        &[block.len()],
        &[length as usize + settings.overhead()],
    )?;
    let mut verdict = [0; 8];
    same_number(library::check(settings, block, &mut verdict), 0)?;
    let all = block.len() as u64;
    let expected = [1, 0, 0, 0, u64::from(b'D'), data_offset, length, all];
    same("verdict", &verdict, &expected)?;
    let data = &block[data_offset as usize..][..length as usize];
    let mut header = [0; HEADER_WORDS];
    same_number(ffi::header_read(data, &mut header), 0)?;
    let expected = [19, digits, 28 + digits, digits, 2, number];
    same("header", &header, &expected)
}

/// The bytes that an act takes.
fn act_bytes<'a>(act: &Act<'a>) -> &'a [u8] {
    match *act {
        Act::Submit { message, .. } => message,
        Act::Block { block, .. } => block.data,
        Act::Open | Act::Ended | Act::Reset | Act::Timer { .. } => &[],
    }
}

/// The same act with other bytes.
fn with_bytes<'a>(act: &Act, bytes: &'a [u8]) -> Act<'a> {
    match *act {
        Act::Submit { limit, .. } => Act::Submit {
            limit,
            message: bytes,
        },
        Act::Block { resends, block } => Act::Block {
            resends,
            block: Incoming {
                data: bytes,
                ..block
            },
        },
        Act::Open => Act::Open,
        Act::Ended => Act::Ended,
        Act::Reset => Act::Reset,
        Act::Timer { resends } => Act::Timer { resends },
    }
}

fn block_text(block: &Incoming) -> String {
    let (number, block_type) = (block.number, block.block_type);
    let data = library::text(block.data);
    format!("block number {number}, type {block_type:#x}, data {data}")
}

pub fn act_text(act: &Act) -> String {
    match act {
        Act::Submit { limit, message } => {
            format!("submit, D={limit}, message {}", library::text(message))
        }
        Act::Open => "open".to_string(),
        Act::Ended => "ended".to_string(),
        Act::Reset => "reset".to_string(),
        Act::Timer { resends } => format!("timer, r={resends}"),
        Act::Block { resends, block } => format!("block, r={resends}, {}", block_text(block)),
    }
}

fn control_text(call: &ControlBlockCall, why: &str) -> String {
    format!(
        "control block, {}, number {}, start {}, {} buffer bytes, {} report words: {why}; type {}",
        library::settings_text(&call.settings),
        call.number,
        call.start,
        call.buffer.len(),
        call.report_words,
        library::text(call.message_type)
    )
}
