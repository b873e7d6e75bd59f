//! Acts of the receiver, each compared with the model: the answer, and every word and byte of the
//! memory.

use crate::compare::{same_number, Compare, Kinds, Outcome, GUARD_BYTE, GUARD_WORD};
use crate::guarded::{same, Guarded};
use crate::library;
use host::ends_ffi;
use host::ends_ffi::names::{DECISION_BLOCK, DECISION_CHANGES, DECISION_OPENED};
use host::ffi;
use host::message_model::{Memory, ANSWER_WORDS, HEADER_WORDS};
use host::model::{Layer, Settings};
use host::receiver_model::{self, Acted, ReceiverAct, RECEIVER_WORDS};

/// A receiver with the memory of its replies, which stays the same from act to act, beside what it
/// must be.
pub struct Receiver {
    pub settings: Settings,
    pub state: Vec<u64>,
    buffer: Guarded<u8>,
    expected_buffer: Vec<u8>,
}

/// An act: how many words of the state are passed, the buffer's length, where a reply starts in it, and
/// the report's words. A decision is not lent the buffer.
#[derive(Clone, Copy)]
pub struct ReceiverCall<'a> {
    pub act: ReceiverAct<'a>,
    pub state_words: usize,
    pub buffer_length: usize,
    pub start: usize,
    pub report_words: usize,
}

/// What an act answered, its report, and the reply's bytes; nothing if refused.
pub struct ReceiverAnswer {
    pub number: u64,
    pub report: Vec<u64>,
    pub reply: Vec<u8>,
}

/// The bytes that a receiver's reply needs, whatever it is.
pub fn needed(settings: &Settings) -> usize {
    settings.limit as usize + settings.overhead()
}

/// The words of a state in which no decision is open.
pub fn expects(expected: u64) -> [u64; RECEIVER_WORDS] {
    let mut words = [0; RECEIVER_WORDS];
    words[0] = expected;
    words
}

impl Receiver {
    /// The buffer has so many bytes more than the receiver needs, and the state up to two words more.
    pub fn new(compare: &mut Compare, settings: &Settings, expected: u64, more: usize) -> Receiver {
        let words = compare.random.below(3);
        let mut state = expects(expected).to_vec();
        state.extend(compare.random.words(words));
        let buffer = compare.random.bytes(needed(settings) + more);
        Receiver {
            settings: *settings,
            state,
            buffer: Guarded::new(&buffer, GUARD_BYTE),
            expected_buffer: buffer,
        }
    }

    pub fn buffer_length(&self) -> usize {
        self.expected_buffer.len()
    }

    pub fn set_words(&mut self, words: [u64; RECEIVER_WORDS]) {
        self.state[..RECEIVER_WORDS].copy_from_slice(&words);
    }

    /// The model's receiver of these words; none where they encode no state.
    pub fn decoded(&self) -> Option<receiver_model::Receiver> {
        receiver_model::Receiver::decode(&self.state[..RECEIVER_WORDS])
    }

    pub fn is_open(&self) -> bool {
        self.decoded().is_some_and(|state| state.open.is_some())
    }

    /// An act with all memory as needed.
    pub fn whole_call<'a>(&self, act: ReceiverAct<'a>) -> ReceiverCall<'a> {
        ReceiverCall {
            act,
            state_words: RECEIVER_WORDS,
            buffer_length: self.buffer_length(),
            start: self.buffer_length() - needed(&self.settings),
            report_words: act.report_words(),
        }
    }

    /// The report on the open decision, with this receiver's settings.
    pub fn report(&self, stored: u64) -> ReceiverAct<'static> {
        let settings = self.settings;
        ReceiverAct::Report { settings, stored }
    }

    /// The N reply, with this receiver's settings.
    pub fn nak(&self, number: u64) -> ReceiverAct<'static> {
        let settings = self.settings;
        ReceiverAct::Nak { settings, number }
    }

    /// What the model answers; the state and the expected buffer become what they must be then.
    fn expected(&mut self, call: &ReceiverCall) -> ReceiverAnswer {
        let memory = Memory {
            buffer_length: call.buffer_length,
            start: call.start,
            report_words: call.report_words,
        };
        let words = &self.state[..call.state_words];
        match receiver_model::act_on_words(&call.act, words, &memory) {
            Acted::Refused(number) => ReceiverAnswer {
                number,
                report: Vec::new(),
                reply: Vec::new(),
            },
            Acted::Done {
                state,
                report,
                reply,
            } => {
                if let Some(state) = state {
                    self.set_words(state);
                }
                if !reply.is_empty() {
                    self.expected_buffer[call.start..][..reply.len()].copy_from_slice(&reply);
                }
                ReceiverAnswer {
                    number: 0,
                    report,
                    reply,
                }
            }
        }
    }
}

/// What the acts compared came to; each is counted, and every run promises so many of it.
#[derive(Clone, Copy)]
enum Kind {
    Acts,
    Opened,
    Unchanging,
    Unreadable,
    NakBlocks,
    NakBlocksWhileOpen,
    DecisionsWhileOpen,
    HybridAnswers,
    MinimalAnswers,
    Failures,
    ReportsWithNoneOpen,
    ShortReports,
    Naks,
    NaksWhileOpen,
    NoState,
    Last,
}

pub const RECEIVER_KINDS: usize = Kind::Last as usize;

pub const LEAST_OF_RECEIVERS: [(&str, u64); RECEIVER_KINDS] = [
    ("acts of receivers", 1_000_000),
    ("decisions opened", 200_000),
    ("decisions opened that change nothing", 50_000),
    ("decisions on data without a readable header", 10_000),
    ("N blocks dropped", 5_000),
    ("N blocks refused while a decision is open", 5_000),
    ("decisions refused while one is open", 30_000),
    ("reports of success that give a hybrid answer", 50_000),
    ("reports of success that give a minimal answer", 30_000),
    ("reports of failure", 50_000),
    ("reports refused with no decision open", 30_000),
    ("reports refused by 2 with a decision open", 10_000),
    ("N replies", 20_000),
    ("N replies refused while a decision is open", 5_000),
    ("acts refused on words that encode no state", 100_000),
];

/// The acts of receivers, by kind.
#[derive(Default)]
pub struct ReceiverCounts([u64; RECEIVER_KINDS]);

impl ReceiverCounts {
    pub fn all(&self) -> [u64; RECEIVER_KINDS] {
        self.0
    }

    pub fn acts(&self) -> u64 {
        self.0[Kind::Acts as usize]
    }

    fn add(&mut self, kind: Kind, is: bool) {
        self.0[kind as usize] += u64::from(is);
    }

    /// An act on a state, or on words that are none.
    fn count(&mut self, call: &ReceiverCall, state: Option<bool>, answer: &ReceiverAnswer) {
        let is_open = state == Some(true);
        let done = answer.number == 0;
        let refused = answer.number == 11;
        self.add(Kind::Acts, true);
        self.add(Kind::NoState, refused && state.is_none());
        match call.act {
            ReceiverAct::Decide { block_type, .. } => {
                let opened = done && answer.report[DECISION_OPENED] == 1;
                let is_nak = block_type == u64::from(b'N');
                self.add(Kind::Opened, opened);
                self.add(
                    Kind::Unchanging,
                    opened && answer.report[DECISION_CHANGES] == 0,
                );
                self.add(Kind::Unreadable, done && answer.report[DECISION_BLOCK] == 9);
                self.add(Kind::NakBlocks, done && is_nak);
                self.add(Kind::NakBlocksWhileOpen, refused && is_nak && is_open);
                self.add(Kind::DecisionsWhileOpen, refused && is_open);
            }
            ReceiverAct::Report { settings, stored } => {
                let is_hybrid = settings.layer == Layer::Hybrid;
                self.add(Kind::HybridAnswers, done && stored == 1 && is_hybrid);
                self.add(Kind::MinimalAnswers, done && stored == 1 && !is_hybrid);
                self.add(Kind::Failures, done && stored == 0);
                self.add(Kind::ReportsWithNoneOpen, refused && state == Some(false));
                self.add(Kind::ShortReports, answer.number == 2 && is_open);
            }
            ReceiverAct::Nak { .. } => {
                self.add(Kind::Naks, done);
                self.add(Kind::NaksWhileOpen, refused && is_open);
            }
        }
    }
}

impl Kinds {
    fn count_receiver(&mut self, settings: &Settings, state: &[u64]) {
        match settings.layer {
            Layer::Hybrid => self.hybrid += 1,
            Layer::Minimal => self.minimal += 1,
        }
        self.count_number(state[0]);
    }
}

/// The same act with other data.
fn with_data<'a>(act: &ReceiverAct, data: &'a [u8]) -> ReceiverAct<'a> {
    match *act {
        ReceiverAct::Decide {
            application,
            block_type,
            ..
        } => ReceiverAct::Decide {
            application,
            block_type,
            data,
        },
        ReceiverAct::Report { settings, stored } => ReceiverAct::Report { settings, stored },
        ReceiverAct::Nak { settings, number } => ReceiverAct::Nak { settings, number },
    }
}

/// The data that an act takes.
fn data_of<'a>(act: &ReceiverAct<'a>) -> &'a [u8] {
    match *act {
        ReceiverAct::Decide { data, .. } => data,
        ReceiverAct::Report { .. } | ReceiverAct::Nak { .. } => &[],
    }
}

impl Compare {
    /// One act of the receiver.
    pub fn receiver_act(
        &mut self,
        receiver: &mut Receiver,
        call: &ReceiverCall,
    ) -> Result<ReceiverAnswer, String> {
        self.acts += 1;
        self.kinds
            .count_receiver(&receiver.settings, &receiver.state);
        let before = receiver.state.clone();
        let state = receiver.decoded().map(|state| state.open.is_some());
        let mut expected_report = self.random.words(call.report_words);
        let mut report = Guarded::new(&expected_report, GUARD_WORD);
        let mut words = Guarded::new(&receiver.state, GUARD_WORD);
        let mut given = Guarded::new(data_of(&call.act), GUARD_BYTE);
        let found = ends_ffi::receiver_act(
            &with_data(&call.act, given.content_mut()),
            &mut words.content_mut()[..call.state_words],
            &mut receiver.buffer.content_mut()[..call.buffer_length],
            call.start,
            report.content_mut(),
        );
        let answer = receiver.expected(call);
        expected_report[..answer.report.len()].copy_from_slice(&answer.report);
        same_number(found, answer.number)
            .and_then(|()| words.compare("state", &receiver.state))
            .and_then(|()| report.compare("report", &expected_report))
            .and_then(|()| receiver.buffer.compare("buffer", &receiver.expected_buffer))
            .and_then(|()| given.compare("data", data_of(&call.act)))
            .map_err(|why| receiver_text(call, &before, &why))?;
        self.receiver.count(call, state, &answer);
        Ok(answer)
    }

    /// An act with all memory as needed.
    pub fn receiver_acts(
        &mut self,
        receiver: &mut Receiver,
        act: ReceiverAct,
    ) -> Result<ReceiverAnswer, String> {
        let call = receiver.whole_call(act);
        self.receiver_act(receiver, &call)
    }

    /// A fresh state in words of any content; more words than needed don't change.
    pub fn receiver_fresh(&mut self, state: &mut [u64]) -> Outcome {
        self.acts += 1;
        let mut words = Guarded::new(state, GUARD_WORD);
        let found = ends_ffi::receiver_fresh(words.content_mut());
        let expected = if state.len() < RECEIVER_WORDS {
            2
        } else {
            state[..RECEIVER_WORDS].fill(0);
            0
        };
        same_number(found, expected)
            .and_then(|()| words.compare("state", state))
            .map_err(|why| format!("gmv_receiver_fresh, {} words: {why}", state.len()))
    }

    /// The library's own check and readers on a reply: an N block, or an answer with this control
    /// ID in both fields.
    pub fn reply_reads_back(
        &mut self,
        settings: &Settings,
        reply: &[u8],
        control_id: &[u8],
    ) -> Outcome {
        let mut verdict = [0; 8];
        same_number(library::check(settings, reply, &mut verdict), 0)?;
        let data = &reply[verdict[5] as usize..][..verdict[6] as usize];
        if verdict[4] == u64::from(b'N') {
            return same("length of an N block", &[data.len()], &[1]);
        }
        let (mut header, mut answer) = ([0; HEADER_WORDS], [0; ANSWER_WORDS]);
        same_number(ffi::header_read(data, &mut header), 0)?;
        same_number(ffi::answer_read(data, &mut answer), 0)?;
        let field = |offset: u64, length: u64| &data[offset as usize..][..length as usize];
        same("MSH-10", field(header[0], header[1]), control_id)?;
        same("MSA-2", field(answer[3], answer[4]), control_id)
    }
}

fn receiver_act_text(act: &ReceiverAct) -> String {
    match act {
        ReceiverAct::Decide {
            application,
            block_type,
            data,
        } => {
            let data = library::text(data);
            format!("decide, application {application}, type {block_type:#x}, data {data}")
        }
        ReceiverAct::Report { settings, stored } => {
            let settings = library::settings_text(settings);
            format!("report, {settings}, stored {stored}")
        }
        ReceiverAct::Nak { settings, number } => {
            let settings = library::settings_text(settings);
            format!("N reply, {settings}, block number {number}")
        }
    }
}

fn receiver_text(call: &ReceiverCall, state: &[u64], why: &str) -> String {
    format!(
        "{} words of state {state:?}, {} buffer bytes, start {}, {} report words: {why}; {}",
        call.state_words,
        call.buffer_length,
        call.start,
        call.report_words,
        receiver_act_text(&call.act)
    )
}
