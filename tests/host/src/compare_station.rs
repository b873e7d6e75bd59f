//! Acts of the X3.28 receiving station, each compared with the model: the answer, and every word and
//! byte of the memory.

use crate::compare::{same_number, Compare, Outcome, GUARD_BYTE, GUARD_WORD};
use crate::guarded::Guarded;
use crate::library;
use host::station_ffi;
use host::station_model::{
    self, Acted, Lengths, Station, Unit, STATION_REPORT_WORDS, STATION_WORDS,
};

/// A station's words and its message buffer, which stay the same from act to act, beside what the
/// buffer must be.
#[derive(Clone)]
pub struct StationMemory {
    pub state: Vec<u64>,
    buffer: Guarded<u8>,
    expected_buffer: Vec<u8>,
}

/// One act: how many words of the state and bytes of the buffer are passed.
#[derive(Clone, Copy)]
pub struct StationCall<'a> {
    pub unit: Unit<'a>,
    pub state_words: usize,
    pub buffer_length: usize,
    pub report_words: usize,
}

/// What an act answered, and its report; all 0 if refused.
#[derive(Clone, Copy, Debug, PartialEq, Eq)]
pub struct StationAnswer {
    pub number: u64,
    pub report: [u64; STATION_REPORT_WORDS],
}

impl StationMemory {
    /// The words, some more that must not change, and a buffer of random bytes.
    pub fn new(compare: &mut Compare, words: [u64; STATION_WORDS], space: usize) -> StationMemory {
        let more = compare.random.below(3);
        let mut state = words.to_vec();
        state.extend(compare.random.words(more));
        let buffer = compare.random.bytes(space);
        StationMemory {
            state,
            buffer: Guarded::new(&buffer, GUARD_BYTE),
            expected_buffer: buffer,
        }
    }

    /// A closed station, made by the library.
    pub fn fresh(compare: &mut Compare, space: usize) -> Result<StationMemory, String> {
        let words = [(); STATION_WORDS].map(|()| compare.random.draw());
        let mut memory = StationMemory::new(compare, words, space);
        compare.station_fresh(&mut memory.state)?;
        Ok(memory)
    }

    pub fn station(&self) -> Result<Station, String> {
        let words = &self.state[..STATION_WORDS];
        Station::decode(words).ok_or_else(|| format!("{words:?} is no state"))
    }

    /// Other words, as a driver might lend that lost them.
    pub fn set_words(&mut self, words: [u64; STATION_WORDS]) {
        self.state[..STATION_WORDS].copy_from_slice(&words);
    }

    pub fn buffer(&self) -> &[u8] {
        self.buffer.content()
    }

    /// What the model answers; the state and the expected buffer become what they must be then.
    fn expected(&mut self, call: &StationCall) -> StationAnswer {
        let lengths = Lengths {
            buffer: call.buffer_length,
            report: call.report_words,
        };
        let words = &self.state[..call.state_words];
        match station_model::act_on_words(&call.unit, words, &lengths) {
            Acted::Refused(number) => StationAnswer {
                number,
                report: [0; STATION_REPORT_WORDS],
            },
            Acted::Done(state, report, offset) => {
                self.state[..STATION_WORDS].copy_from_slice(&state);
                if let Some(offset) = offset {
                    let text = text_of(&call.unit);
                    self.expected_buffer[offset..][..text.len()].copy_from_slice(text);
                }
                StationAnswer { number: 0, report }
            }
        }
    }
}

impl Compare {
    /// A closed station in words of any content; more words than needed don't change.
    pub fn station_fresh(&mut self, state: &mut [u64]) -> Outcome {
        self.station.acts += 1;
        let mut words = Guarded::new(state, GUARD_WORD);
        let found = station_ffi::station_fresh(words.content_mut());
        let expected = if state.len() < STATION_WORDS {
            2
        } else {
            state[..STATION_WORDS].fill(0);
            0
        };
        same_number(found, expected)
            .and_then(|()| words.compare("state", state))
            .map_err(|why| format!("a fresh station, {} words: {why}", state.len()))
    }

    /// One act with all of the memory, and with a report of some more words than needed.
    pub fn station_act(
        &mut self,
        memory: &mut StationMemory,
        unit: &Unit,
    ) -> Result<StationAnswer, String> {
        let call = StationCall {
            unit: *unit,
            state_words: memory.state.len(),
            buffer_length: memory.buffer().len(),
            report_words: STATION_REPORT_WORDS + self.random.below(3),
        };
        self.station_call(memory, &call)
    }

    pub fn station_call(
        &mut self,
        memory: &mut StationMemory,
        call: &StationCall,
    ) -> Result<StationAnswer, String> {
        let before = memory.state.clone();
        let mut expected_report = self.random.words(call.report_words);
        let mut report = Guarded::new(&expected_report, GUARD_WORD);
        let mut words = Guarded::new(&memory.state, GUARD_WORD);
        let text = text_of(&call.unit);
        let mut given = Guarded::new(text, GUARD_BYTE);
        let found = station_ffi::station_act(
            &with_text(&call.unit, given.content_mut()),
            &mut memory.buffer.content_mut()[..call.buffer_length],
            &mut words.content_mut()[..call.state_words],
            report.content_mut(),
        );
        let answer = memory.expected(call);
        if answer.number == 0 {
            expected_report[..STATION_REPORT_WORDS].copy_from_slice(&answer.report);
        }
        self.station.count(call, &before, &answer);
        same_number(found, answer.number)
            .and_then(|()| words.compare("state", &memory.state))
            .and_then(|()| report.compare("report", &expected_report))
            .and_then(|()| memory.buffer.compare("buffer", &memory.expected_buffer))
            .and_then(|()| given.compare("text", text))
            .map_err(|why| call_text(call, &before, &why))?;
        Ok(answer)
    }
}

/// Kinds of acts. The eight duplicates follow one another by the expected number.
#[derive(Clone, Copy)]
enum Kind {
    Act,
    Message,
    Duplicate,
    DuplicateAt,
    Older = 11,
    JustFit,
    OneByteOver,
    Refused,
    /// Acts with RINT, ENQ and asking.
    Turning,
    RintGiven,
    RintCompleting,
    EotWhilePending,
    RintedDuplicate,
    PendingDuplicate,
    NakWhilePending,
    NakAfterRint,
    AckAgain,
    NakAgain,
    RintAgain,
    NakToFirstEnq,
    EnqWhilePending,
    EnqWhileClosed,
    Asked,
    AskedWhileClosed,
    AskedWhilePending,
    AskedWithoutAck,
    AskedAgain,
    Last,
}

/// How many kinds of acts are counted.
pub const STATION_KINDS: usize = Kind::Last as usize;

/// The kinds of acts, with how many of each a whole run has at least.
pub const LEAST_OF_STATIONS: [(&str, u64); STATION_KINDS] = [
    ("acts of stations", 1_000_000),
    ("messages completed by stations", 100_000),
    ("duplicate blocks", 100_000),
    ("duplicate blocks, 0 expected", 10_000),
    ("duplicate blocks, 1 expected", 10_000),
    ("duplicate blocks, 2 expected", 10_000),
    ("duplicate blocks, 3 expected", 10_000),
    ("duplicate blocks, 4 expected", 10_000),
    ("duplicate blocks, 5 expected", 10_000),
    ("duplicate blocks, 6 expected", 10_000),
    ("duplicate blocks, 7 expected", 10_000),
    ("older blocks answered NAK", 15_000),
    ("texts that just fit", 50_000),
    ("texts one byte too long", 20_000),
    ("refused acts of stations", 50_000),
    ("acts of stations with RINT, ENQ and asking", 600_000),
    ("RINTs given for a block", 80_000),
    ("RINTs given for a message's last block", 30_000),
    ("texts too long while a RINT is pending", 10_000),
    ("duplicates of a block that got RINT: ACK", 10_000),
    ("duplicates while a RINT is pending: ACK", 12_000),
    ("NAKs while a RINT is pending", 80_000),
    ("NAKs after a RINT and before an ACK", 60_000),
    ("ACKs given again on ENQ", 150_000),
    ("NAKs given again on ENQ", 50_000),
    ("RINTs given again on ENQ", 25_000),
    ("NAKs to an ENQ before any reply", 20_000),
    ("ENQs while a RINT is pending", 40_000),
    ("ENQs to a closed station", 20_000),
    ("RINTs asked for", 100_000),
    ("RINTs asked of a closed station: 11", 15_000),
    ("RINTs asked for with one pending: 11", 30_000),
    ("RINTs asked for with no ACK since the last: 11", 20_000),
    ("RINTs asked for again, an ACK given since the last", 5_000),
];

/// Acts of stations by their kind, in the order of `LEAST_OF_STATIONS`.
pub struct StationCounts {
    pub acts: u64,
    kinds: [u64; STATION_KINDS],
}

/// The words of an open station before an act, and what it replied.
struct Seen {
    expected: u64,
    held: u64,
    last_reply: u64,
    interrupt: u64,
    reply: u64,
    complete: u64,
}

impl StationCounts {
    pub fn new() -> StationCounts {
        StationCounts {
            acts: 0,
            kinds: [0; STATION_KINDS],
        }
    }

    pub fn all(&self) -> [u64; STATION_KINDS] {
        let mut all = self.kinds;
        all[Kind::Act as usize] = self.acts;
        all
    }

    fn add(&mut self, kind: Kind, happened: bool) {
        self.kinds[kind as usize] += u64::from(happened);
    }

    fn count(&mut self, call: &StationCall, before: &[u64], answer: &StationAnswer) {
        self.acts += 1;
        let is_asked = matches!(call.unit, Unit::Interrupt);
        let is_enq = matches!(call.unit, Unit::BareEnq);
        let [reply, _, complete, _] = answer.report;
        self.add(Kind::Turning, is_asked || is_enq || reply == 5);
        self.add(Kind::Refused, answer.number != 0);
        let is_state = before.len() >= STATION_WORDS
            && Station::decode(&before[..STATION_WORDS]).is_some()
            && [0, 11].contains(&answer.number);
        if !is_state {
            return;
        }
        if before[0] == 0 {
            self.add(Kind::EnqWhileClosed, is_enq);
            self.add(Kind::AskedWhileClosed, is_asked);
            return;
        }
        let seen = Seen {
            expected: before[1],
            held: before[2],
            last_reply: before[3],
            interrupt: before[4],
            reply,
            complete,
        };
        match call.unit {
            Unit::Block { number, text, .. } => {
                let needed = seen.held.saturating_add(text.len() as u64);
                self.count_block(number, needed, call.buffer_length as u64, &seen);
            }
            Unit::Interrupt => self.count_asked(&seen),
            Unit::BareEnq => self.count_enq(&seen),
            Unit::Opened | Unit::Bad | Unit::Enquiry | Unit::End => {}
        }
        self.add(Kind::NakWhilePending, reply == 2 && seen.interrupt == 1);
        self.add(Kind::NakAfterRint, reply == 2 && seen.interrupt == 2);
    }

    /// A good block with so much text held together with it, in a buffer of this length.
    fn count_block(&mut self, number: u64, needed: u64, length: u64, seen: &Seen) {
        let is_expected = number == seen.expected;
        let is_taken = is_expected && (seen.reply == 1 || seen.reply == 5);
        let is_duplicate = !is_expected && seen.reply == 1;
        let is_pending = seen.interrupt == 1;
        let is_over = is_expected && seen.reply == 3;
        self.kinds[Kind::Message as usize] += seen.complete;
        self.add(Kind::Duplicate, is_duplicate);
        self.kinds[Kind::DuplicateAt as usize + seen.expected as usize] += u64::from(is_duplicate);
        self.add(
            Kind::Older,
            seen.reply == 2 && number < seen.expected.saturating_sub(1),
        );
        self.add(Kind::JustFit, is_taken && needed == length);
        self.add(Kind::OneByteOver, is_over && needed == length + 1);
        self.add(Kind::RintGiven, seen.reply == 5);
        self.add(Kind::RintCompleting, seen.reply == 5 && seen.complete == 1);
        self.add(Kind::EotWhilePending, is_over && is_pending);
        self.add(Kind::RintedDuplicate, is_duplicate && seen.interrupt == 2);
        self.add(Kind::PendingDuplicate, is_duplicate && is_pending);
    }

    fn count_asked(&mut self, seen: &Seen) {
        self.add(Kind::Asked, seen.interrupt == 0);
        self.add(Kind::AskedWhilePending, seen.interrupt == 1);
        self.add(Kind::AskedWithoutAck, seen.interrupt == 2);
    }

    fn count_enq(&mut self, seen: &Seen) {
        self.add(Kind::AckAgain, seen.reply == 1);
        self.add(Kind::NakAgain, seen.reply == 2 && seen.last_reply == 2);
        self.add(Kind::RintAgain, seen.reply == 5);
        self.add(Kind::NakToFirstEnq, seen.last_reply == 0);
        self.add(Kind::EnqWhilePending, seen.interrupt == 1);
    }

    /// A RINT asked for a second time in one opening, which words do not tell.
    pub fn asked_again(&mut self) {
        self.add(Kind::AskedAgain, true);
    }
}

/// The text of a block; other units have none.
pub fn text_of<'a>(unit: &Unit<'a>) -> &'a [u8] {
    match unit {
        Unit::Block { text, .. } => text,
        _ => &[],
    }
}

/// The same unit with its text in other memory.
pub fn with_text<'a>(unit: &Unit, text: &'a [u8]) -> Unit<'a> {
    match *unit {
        Unit::Block { number, ending, .. } => Unit::Block {
            number,
            ending,
            text,
        },
        Unit::Opened => Unit::Opened,
        Unit::Bad => Unit::Bad,
        Unit::Enquiry => Unit::Enquiry,
        Unit::End => Unit::End,
        Unit::BareEnq => Unit::BareEnq,
        Unit::Interrupt => Unit::Interrupt,
    }
}

pub fn unit_text(unit: &Unit) -> String {
    match unit {
        Unit::Block {
            number,
            ending,
            text,
        } => format!(
            "block {number}, ended by {ending:#x}, text {}",
            library::hex(text)
        ),
        other => format!("{other:?}"),
    }
}

fn call_text(call: &StationCall, state: &[u64], why: &str) -> String {
    format!(
        "station, {} words of state {state:?}, {} buffer bytes, {} report words: {why}; {}",
        call.state_words,
        call.buffer_length,
        call.report_words,
        unit_text(&call.unit)
    )
}
