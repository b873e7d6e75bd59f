//! The two sides of the acts of both ends: the library through its C interface, and the model. Each
//! call begins from words that were prepared, and leaves its words and bytes for comparison.

use crate::act_inputs::{accepted, data_block, decision, ReceiverState, SenderState, LIMIT};
use crate::model_side;
use crate::timing::Work;
use host::ends_ffi;
use host::ends_ffi::names::{
    ACT_WORDS, DECISION_TRANSACTION, DECISION_WORDS, RECEIVER_WORDS, SENDER_WORDS, STORED,
};
use host::ffi::names::REPORT_WORDS;
use host::model::Settings;
use host::receiver_model::ReceiverAct;
use host::sender_model::Act;
use std::hint::black_box;

/// One pass makes every call once. So many passes make a turn where a call takes the same time
/// whatever its bytes; where it looks at each byte, about so many bytes do.
const PASSES: usize = 50;
const TURN_BYTES: usize = 500_000;

/// Replies and control blocks lie so far apart in the buffer.
const STRIDE: usize = 128;

/// The sender's acts.
#[derive(Clone, Copy, Debug, PartialEq, Eq)]
pub enum Step {
    Submit,
    Open,
    Ended,
    Reset,
    Timer,
    Answer,
    Nak,
}

/// A sender's act: its bytes, r, and the words it begins from. Aligned, as its result is, so that
/// where it lies in memory makes no difference of a nanosecond.
#[repr(align(64))]
pub struct SenderCall {
    pub step: Step,
    pub resends: u64,
    pub state: SenderState,
    pub bytes: Vec<u8>,
}

impl SenderCall {
    fn act(&self) -> Act<'_> {
        let resends = self.resends;
        match self.step {
            Step::Submit => Act::Submit {
                limit: LIMIT,
                message: &self.bytes,
            },
            Step::Open => Act::Open,
            Step::Ended => Act::Ended,
            Step::Reset => Act::Reset,
            Step::Timer => Act::Timer { resends },
            Step::Answer => data_block(resends, &self.bytes),
            Step::Nak => Act::Block {
                resends,
                block: accepted(b'N', &self.bytes),
            },
        }
    }
}

/// What a call left.
#[derive(Clone, PartialEq, Eq)]
#[repr(align(64))]
struct SenderResult {
    state: SenderState,
    report: [u64; ACT_WORDS],
}

/// Acts of a sender that both sides make.
pub struct SenderWork {
    calls: Vec<SenderCall>,
    passes: usize,
    library: Vec<SenderResult>,
    model: Vec<SenderResult>,
}

impl SenderWork {
    pub fn new(calls: Vec<SenderCall>) -> SenderWork {
        let result = SenderResult {
            state: [0; SENDER_WORDS],
            report: [0; ACT_WORDS],
        };
        let bytes: usize = calls.iter().map(|call| call.bytes.len()).sum();
        let linear = calls.iter().any(|call| call.step == Step::Submit);
        SenderWork {
            passes: if linear {
                (TURN_BYTES / bytes).clamp(1, PASSES)
            } else {
                PASSES
            },
            library: vec![result.clone(); calls.len()],
            model: vec![result; calls.len()],
            calls,
        }
    }

    /// The bytes that an act is given.
    pub fn length(&self) -> usize {
        self.calls[0].bytes.len()
    }
}

type SenderAct = fn(&Act, &mut [u64], &mut [u64]) -> u64;

fn act_all(act: SenderAct, calls: &[SenderCall], passes: usize, results: &mut [SenderResult]) {
    for _ in 0..passes {
        for (call, result) in calls.iter().zip(results.iter_mut()) {
            result.state = call.state;
            let number = act(
                black_box(&call.act()),
                &mut result.state,
                &mut result.report,
            );
            assert_eq!(number, 0);
        }
    }
}

impl Work for SenderWork {
    fn calls(&self) -> usize {
        self.passes * self.calls.len()
    }

    fn library(&mut self) {
        let results = &mut self.library;
        act_all(ends_ffi::sender_act, &self.calls, self.passes, results);
    }

    fn model(&mut self) {
        let results = &mut self.model;
        act_all(model_side::sender_act, &self.calls, self.passes, results);
    }

    fn compare(&self) {
        assert!(self.library == self.model, "the sender's words differ");
    }
}

/// The receiver's acts; the last makes a decision and the report that it is stored.
#[derive(Clone, Copy, Debug, PartialEq, Eq)]
pub enum ReceiverStep {
    Decide,
    Answer,
    Nak,
    Both,
}

/// The block that an N reply answers: its sum was wrong.
const REFUSED: u64 = 7;

/// A receiver's act from a state; on an accepted data block where it is a decision.
pub struct ReceiverCall {
    pub state: ReceiverState,
    pub data: Vec<u8>,
}

/// What a pass left: states, what decisions said, reports and replies.
#[derive(Clone, PartialEq, Eq)]
struct ReceiverResults {
    states: Vec<ReceiverState>,
    decisions: Vec<[u64; DECISION_WORDS]>,
    reports: Vec<[u64; REPORT_WORDS]>,
    buffer: Vec<u8>,
}

/// Acts of a receiver that both sides make.
pub struct ReceiverWork {
    settings: Settings,
    step: ReceiverStep,
    calls: Vec<ReceiverCall>,
    library: ReceiverResults,
    model: ReceiverResults,
}

impl ReceiverWork {
    pub fn new(settings: Settings, step: ReceiverStep, calls: Vec<ReceiverCall>) -> ReceiverWork {
        let count = calls.len();
        let need = settings.limit as usize + settings.overhead();
        let results = ReceiverResults {
            states: vec![[0; RECEIVER_WORDS]; count],
            decisions: vec![[0; DECISION_WORDS]; count],
            reports: vec![[0; REPORT_WORDS]; count],
            buffer: vec![0; need + count * STRIDE],
        };
        ReceiverWork {
            settings,
            step,
            calls,
            library: results.clone(),
            model: results,
        }
    }

    /// The bytes of a reply, once some were written.
    pub fn reply_length(&self) -> u64 {
        self.library.reports[0][0]
    }

    fn act_all(&self, act: ReceiverActs, results: &mut ReceiverResults) {
        let settings = self.settings;
        let (is_deciding, reply) = match self.step {
            ReceiverStep::Decide => (true, None),
            ReceiverStep::Answer => (false, Some(reported(settings))),
            ReceiverStep::Both => (true, Some(reported(settings))),
            ReceiverStep::Nak => (
                false,
                Some(ReceiverAct::Nak {
                    settings,
                    number: REFUSED,
                }),
            ),
        };
        for _ in 0..PASSES {
            for (index, call) in self.calls.iter().enumerate() {
                let (mut state, buffer) = (call.state, &mut results.buffer);
                if is_deciding {
                    let (act_on, said) = (decision(&call.data), &mut results.decisions[index]);
                    let number = act(black_box(&act_on), &mut state, buffer, 0, said);
                    assert_eq!(number, 0);
                }
                if let Some(reply) = &reply {
                    let (start, report) = (index * STRIDE, &mut results.reports[index]);
                    let number = act(black_box(reply), &mut state, buffer, start, report);
                    assert_eq!(number, 0);
                }
                results.states[index] = state;
            }
        }
    }
}

fn reported(settings: Settings) -> ReceiverAct<'static> {
    ReceiverAct::Report {
        settings,
        stored: STORED,
    }
}

type ReceiverActs = fn(&ReceiverAct, &mut [u64], &mut [u8], usize, &mut [u64]) -> u64;

fn nothing() -> ReceiverResults {
    ReceiverResults {
        states: Vec::new(),
        decisions: Vec::new(),
        reports: Vec::new(),
        buffer: Vec::new(),
    }
}

impl Work for ReceiverWork {
    fn calls(&self) -> usize {
        PASSES * self.calls.len()
    }

    fn library(&mut self) {
        let mut results = std::mem::replace(&mut self.library, nothing());
        self.act_all(ends_ffi::receiver_act, &mut results);
        self.library = results;
    }

    fn model(&mut self) {
        let mut results = std::mem::replace(&mut self.model, nothing());
        self.act_all(model_side::receiver_act, &mut results);
        self.model = results;
    }

    fn compare(&self) {
        assert!(self.library == self.model, "the receiver's results differ");
        let decisions = &mut self.library.decisions.iter();
        let is_taken = decisions.all(|said| said[DECISION_TRANSACTION] != 0);
        let is_written = self.library.reports.iter().all(|report| report[0] != 0);
        let is_deciding = matches!(self.step, ReceiverStep::Decide | ReceiverStep::Both);
        assert!(
            is_taken == is_deciding,
            "a transaction that is due is not taken"
        );
        assert!(
            is_written == (self.step != ReceiverStep::Decide),
            "no reply"
        );
    }
}

/// Control blocks that both sides write.
pub struct ControlWork {
    settings: Settings,
    number: u64,
    types: Vec<[u8; 3]>,
    library: Vec<u8>,
    model: Vec<u8>,
    pub length: u64,
}

impl ControlWork {
    pub fn new(settings: Settings, number: u64, types: Vec<[u8; 3]>) -> ControlWork {
        let buffer = vec![0; types.len() * STRIDE];
        let mut work = ControlWork {
            settings,
            number,
            library: buffer.clone(),
            model: buffer,
            types,
            length: 0,
        };
        work.length = work.write_all(ends_ffi::control_block, 1, &mut vec![0; STRIDE * 16]);
        work
    }

    /// Gives the length of the last block.
    fn write_all(&self, write: WriteControl, passes: usize, buffer: &mut [u8]) -> u64 {
        let mut report = [0; REPORT_WORDS];
        for _ in 0..passes {
            for (index, message_type) in self.types.iter().enumerate() {
                let (settings, start) = (&self.settings, index * STRIDE);
                let message_type = black_box(message_type);
                let number = write(
                    settings,
                    message_type,
                    self.number,
                    buffer,
                    start,
                    &mut report,
                );
                assert_eq!(number, 0);
            }
        }
        report[0]
    }
}

type WriteControl = fn(&Settings, &[u8], u64, &mut [u8], usize, &mut [u64]) -> u64;

impl Work for ControlWork {
    fn calls(&self) -> usize {
        PASSES * self.types.len()
    }

    fn library(&mut self) {
        let mut buffer = std::mem::take(&mut self.library);
        self.write_all(ends_ffi::control_block, PASSES, &mut buffer);
        self.library = buffer;
    }

    fn model(&mut self) {
        let mut buffer = std::mem::take(&mut self.model);
        self.write_all(model_side::control_block, PASSES, &mut buffer);
        self.model = buffer;
    }

    fn compare(&self) {
        assert!(self.library == self.model, "the control blocks differ");
    }
}
