//! The two ends at the C boundary: memory at the edge of what may be touched.

use super::memory::Pages;
use crate::compare::{Compare, Outcome};
use crate::compare_ends::act_text;
use crate::guarded::same;
use crate::library;
use crate::make;
use crate::make_ends::{self, Plan};
use host::ends_ffi;
use host::message_model::{Memory, LARGEST_SENT, MINUS_ONE};
use host::model::{Layer, Settings};
use host::prng::Random;
use host::receiver_model::{self, Incoming, ReceiverAct, RECEIVER_WORDS};
use host::sender_model::{self, Act, Acted, Sender, ACT_WORDS, SENDER_WORDS};

/// One set of pages for each kind of memory.
struct GuardPages {
    data: Pages,
    buffer: Pages,
    state: Pages,
    report: Pages,
}

/// Acts with all memory at the edge of what may be touched.
pub fn ends_guard_pages(compare: &mut Compare) -> Outcome {
    let mut guarded = GuardPages {
        data: Pages::new(1),
        buffer: Pages::new(1),
        state: Pages::new(1),
        report: Pages::new(1),
    };
    let mut words = [1, 0, 0, 0, 0, 0, 0];
    for round in 0..25_000 {
        let at_end = round % 4 != 0;
        if round % 50 == 0 {
            words = [1, 0, 0, 0, 0, 0, 0];
        }
        guarded_act(compare, &mut guarded, &mut words, at_end)?;
        guarded_receiver(compare, &mut guarded, at_end)?;
        if round % 8 == 0 {
            guarded_control(compare, &mut guarded, at_end)?;
        }
    }
    Ok(())
}

fn copied<'a>(bytes: &[u8], memory: &'a mut Pages, at_end: bool) -> &'a [u8] {
    let copied = memory.bytes(bytes.len(), at_end);
    copied.copy_from_slice(bytes);
    copied
}

/// The same act with its bytes in other memory.
fn moved<'a>(act: &Act, memory: &'a mut Pages, at_end: bool) -> Act<'a> {
    match *act {
        Act::Submit { limit, message } => Act::Submit {
            limit,
            message: copied(message, memory, at_end),
        },
        Act::Block { resends, block } => Act::Block {
            resends,
            block: Incoming {
                data: copied(block.data, memory, at_end),
                ..block
            },
        },
        Act::Open => Act::Open,
        Act::Ended => Act::Ended,
        Act::Reset => Act::Reset,
        Act::Timer { resends } => Act::Timer { resends },
    }
}

fn guarded_act(
    compare: &mut Compare,
    guarded: &mut GuardPages,
    words: &mut [u64; SENDER_WORDS],
    at_end: bool,
) -> Outcome {
    compare.acts += 1;
    let plan = Plan {
        resends: compare.random.pick(&[0, 1, 3]),
        limit: 128,
    };
    let sender = Sender::decode(words).ok_or_else(|| format!("{words:?} is no state"))?;
    let planned = plan.any(&mut compare.random, &sender, 2);
    let act = planned.act();
    let state = guarded.state.words(SENDER_WORDS, at_end);
    state.copy_from_slice(words);
    let report = guarded.report.words(ACT_WORDS, at_end);
    report.fill(77);
    let copied = moved(&act, &mut guarded.data, at_end);
    let found = ends_ffi::sender_act(&copied, state, report);
    let (number, then, reported) = match sender_model::act_on_words(&act, words, ACT_WORDS) {
        Acted::Unchanged(number) => (number, *words, [77; ACT_WORDS]),
        Acted::Reported(number, then, reported) => (number, then, reported),
    };
    same("number", &[found], &[number])
        .and_then(|()| same("state", state, &then))
        .and_then(|()| same("report", report, &reported))
        .map_err(|why| format!("{}, state {words:?}: {why}", act_text(&act)))?;
    *words = then;
    Ok(())
}

/// A receiver's act: the state before it, the block's data, the buffer's length and where the reply
/// starts in it.
struct Receiving {
    kind: usize,
    settings: Settings,
    words: [u64; RECEIVER_WORDS],
    message: Vec<u8>,
    length: usize,
    start: usize,
}

/// A decision near what a state expects, a report on one that is open or on none, or an N reply.
fn any_receiving(random: &mut Random) -> Receiving {
    let settings = if random.one_in(3) {
        Settings::minimal(128)
    } else {
        make::hybrid_settings(random, 128)
    };
    let expected = random.pick(&[0, 5, LARGEST_SENT]);
    let sequence = make_ends::near(random, expected);
    let mut message = make_ends::request(random, b"5", sequence.as_deref());
    if random.one_in(3) {
        message.truncate(random.below(message.len() + 1));
    }
    let start = random.below(5);
    let less = usize::from(random.one_in(10));
    let rejected = [expected, 3, expected, 0, expected, 8, SEVENS, 0, 0];
    let open = random.pick(&[[5, 2, 5, 5, 6, 20, SEVENS, SEVENS, SEVENS], rejected]);
    let closed = [expected, 0, 1, 2, 3, 4, 5, 6, 7];
    Receiving {
        kind: random.below(4),
        settings,
        words: random.pick(&[open, open, closed]),
        message,
        length: start + 128 + settings.overhead() - less,
        start,
    }
}

const SEVENS: u64 = 0x3737_3737_3737_3737;

impl Receiving {
    fn act<'a>(&self, data: &'a [u8]) -> ReceiverAct<'a> {
        let settings = self.settings;
        match self.kind {
            0 if settings.layer == Layer::Hybrid => ReceiverAct::Nak {
                settings,
                number: 3,
            },
            0 | 1 => ReceiverAct::Decide {
                application: 2,
                block_type: if self.start == 0 { 78 } else { 68 },
                data,
            },
            kind => ReceiverAct::Report {
                settings,
                stored: kind as u64 - 2,
            },
        }
    }

    /// The number, the state then, the report and the buffer, which held 77 and EE before.
    fn model(&self) -> (u64, [u64; RECEIVER_WORDS], Vec<u64>, Vec<u8>) {
        let act = self.act(&self.message);
        let memory = Memory {
            buffer_length: self.length,
            start: self.start,
            report_words: act.report_words(),
        };
        let mut bytes = vec![0xEE; self.length];
        match receiver_model::act_on_words(&act, &self.words, &memory) {
            receiver_model::Acted::Refused(number) => {
                (number, self.words, vec![77; act.report_words()], bytes)
            }
            receiver_model::Acted::Done {
                state,
                report,
                reply,
            } => {
                bytes[self.start..][..reply.len()].copy_from_slice(&reply);
                (0, state.unwrap_or(self.words), report, bytes)
            }
        }
    }
}

fn guarded_receiver(compare: &mut Compare, guarded: &mut GuardPages, at_end: bool) -> Outcome {
    compare.acts += 1;
    let receiving = any_receiving(&mut compare.random);
    let data = copied(&receiving.message, &mut guarded.data, at_end);
    let state = guarded.state.words(RECEIVER_WORDS, at_end);
    state.copy_from_slice(&receiving.words);
    let act = receiving.act(data);
    let report = guarded.report.words(act.report_words(), at_end);
    report.fill(77);
    let buffer = guarded.buffer.bytes(receiving.length, at_end);
    buffer.fill(0xEE);
    let found = ends_ffi::receiver_act(&act, state, buffer, receiving.start, report);
    let (number, then, reported, bytes) = receiving.model();
    same("number", &[found], &[number])
        .and_then(|()| same("state", state, &then))
        .and_then(|()| same("report", report, &reported))
        .and_then(|()| same("buffer", buffer, &bytes))
        .map_err(|why| {
            let settings = library::settings_text(&receiving.settings);
            let text = library::text(&receiving.message);
            let words = receiving.words;
            format!("{settings}, state {words:?}: {why}; {act:?}, data {text}")
        })
}

fn guarded_control(compare: &mut Compare, guarded: &mut GuardPages, at_end: bool) -> Outcome {
    compare.acts += 1;
    let random = &mut compare.random;
    let settings = random.pick(&[Settings::minimal(128), Settings::hybrid(0x0B, 0x1C, 128)]);
    let number = random.pick(&[0, MINUS_ONE]);
    let start = random.below(5);
    let length = start + random.pick(&[33, 34, 35, 36, 45, 46, 47, 48]);
    let message_type = copied(b"ORU", &mut guarded.data, at_end);
    let buffer = guarded.buffer.bytes(length, at_end);
    buffer.fill(0xEE);
    let report = guarded.report.words(2, at_end);
    report.fill(77);
    let found = ends_ffi::control_block(&settings, message_type, number, buffer, start, report);
    let (expected, reported, bytes) = control_model(&settings, number, length, start);
    same("number", &[found], &[expected])
        .and_then(|()| same("report", report, &reported))
        .and_then(|()| same("buffer", buffer, &bytes))
        .map_err(|why| {
            let settings = library::settings_text(&settings);
            format!("control block, {settings}: {why}")
        })
}

/// The number, the report and the buffer, which held 77 and EE before.
fn control_model(
    settings: &Settings,
    number: u64,
    length: usize,
    start: usize,
) -> (u64, [u64; 2], Vec<u8>) {
    let memory = Memory {
        buffer_length: length,
        start,
        report_words: 2,
    };
    let mut bytes = vec![0xEE; length];
    match sender_model::control_block(settings, b"ORU", number, &memory) {
        Ok(block) => {
            bytes[start..][..block.len()].copy_from_slice(&block);
            (0, [block.len() as u64, 0], bytes)
        }
        Err(number) => (number, [77; 2], bytes),
    }
}
