//! Acts of the X3.28 sending station, each compared with the model: the answer, and every word of the
//! memory.

use crate::compare::{same_number, Compare, Outcome, GUARD_WORD};
use crate::guarded::Guarded;
use host::master_ffi;
use host::master_model::{
    self, number_just_before, Master, MasterAct, MasterActed, MASTER_REPORT_WORDS, MASTER_WORDS,
    REPLY_ACK, REPLY_DAMAGED, REPLY_EOT, REPLY_NAK, REPLY_RINT,
};

/// A master's words, and some more that must not change.
#[derive(Clone)]
pub struct MasterMemory {
    pub state: Vec<u64>,
}

/// One act: how many words of the state are passed, and of the report.
#[derive(Clone, Copy)]
pub struct MasterCall {
    pub act: MasterAct,
    pub state_words: usize,
    pub report_words: usize,
}

/// What an act answered, and its report; all 0 if refused.
#[derive(Clone, Copy, Debug, PartialEq, Eq)]
pub struct MasterAnswer {
    pub number: u64,
    pub report: [u64; MASTER_REPORT_WORDS],
}

impl MasterMemory {
    pub fn new(compare: &mut Compare, words: [u64; MASTER_WORDS]) -> MasterMemory {
        let more = compare.random.below(3);
        let mut state = words.to_vec();
        state.extend(compare.random.words(more));
        MasterMemory { state }
    }

    /// A closed master, made by the library.
    pub fn fresh(compare: &mut Compare) -> Result<MasterMemory, String> {
        let words = [(); MASTER_WORDS].map(|()| compare.random.draw());
        let mut memory = MasterMemory::new(compare, words);
        compare.master_fresh(&mut memory.state)?;
        Ok(memory)
    }

    pub fn master(&self) -> Result<Master, String> {
        let words = &self.state[..MASTER_WORDS];
        Master::decode(words).ok_or_else(|| format!("{words:?} is no state"))
    }

    /// What the model answers; the state becomes what it must be then.
    fn expected(&mut self, call: &MasterCall) -> MasterAnswer {
        let words = &self.state[..call.state_words];
        match master_model::act_on_words(&call.act, words, call.report_words) {
            MasterActed::Refused(number) => MasterAnswer {
                number,
                report: [0; MASTER_REPORT_WORDS],
            },
            MasterActed::Done(master, report) => {
                self.state[..MASTER_WORDS].copy_from_slice(&master.words());
                MasterAnswer {
                    number: 0,
                    report: report.words(),
                }
            }
        }
    }
}

impl Compare {
    /// A closed master in words of any content; more words than needed don't change.
    pub fn master_fresh(&mut self, state: &mut [u64]) -> Outcome {
        self.master.acts += 1;
        let mut words = Guarded::new(state, GUARD_WORD);
        let found = master_ffi::master_fresh(words.content_mut());
        let expected = if state.len() < MASTER_WORDS {
            2
        } else {
            state[..MASTER_WORDS].fill(0);
            0
        };
        same_number(found, expected)
            .and_then(|()| words.compare("state", state))
            .map_err(|why| format!("a fresh master, {} words: {why}", state.len()))
    }

    /// One act with all of the memory, and with a report of some more words than needed.
    pub fn master_act(
        &mut self,
        memory: &mut MasterMemory,
        act: &MasterAct,
    ) -> Result<MasterAnswer, String> {
        let call = MasterCall {
            act: *act,
            state_words: memory.state.len(),
            report_words: MASTER_REPORT_WORDS + self.random.below(3),
        };
        self.master_call(memory, &call)
    }

    pub fn master_call(
        &mut self,
        memory: &mut MasterMemory,
        call: &MasterCall,
    ) -> Result<MasterAnswer, String> {
        let before = memory.state.clone();
        let mut expected_report = self.random.words(call.report_words);
        let mut report = Guarded::new(&expected_report, GUARD_WORD);
        let mut words = Guarded::new(&memory.state, GUARD_WORD);
        let found = master_ffi::master_act(
            &call.act,
            &mut words.content_mut()[..call.state_words],
            report.content_mut(),
        );
        let answer = memory.expected(call);
        if answer.number == 0 {
            expected_report[..MASTER_REPORT_WORDS].copy_from_slice(&answer.report);
        }
        self.master.count(call, &before, &answer);
        same_number(found, answer.number)
            .and_then(|()| words.compare("state", &memory.state))
            .and_then(|()| report.compare("report", &expected_report))
            .map_err(|why| call_text(call, &before, &why))?;
        Ok(answer)
    }
}

fn call_text(call: &MasterCall, state: &[u64], why: &str) -> String {
    format!(
        "master, {} words of state {state:?}, {} report words: {why}; {:?}",
        call.state_words, call.report_words, call.act
    )
}

/// Kinds of acts. The eight of the number just before follow one another by the number of the block out.
#[derive(Clone, Copy)]
enum Kind {
    Act,
    Started,
    EmptyMessage,
    LargeSize,
    LargeLength,
    Acknowledged,
    Done,
    AgainAfterNak,
    AgainAfterAck,
    AgainAfterTimer,
    JustBefore = 10,
    Failed = 18,
    OtherNumber,
    Damaged,
    EndBySlave,
    IdleEndBySlave,
    EndByDriver,
    NoneOut,
    WhileClosed,
    Uncounted,
    RefusedBy1,
    RefusedBy2,
    RefusedBy11,
    StartWhileClosed,
    StartWhileBusy,
    CloseWhileClosed,
    CloseWhileBusy,
    /// Acts with RINT, ENQ and leave to receive.
    Turning,
    RintAccepted,
    RintAfterNak,
    RintAfterRint,
    RintAfterRintBlockSentLast,
    RintAfterNakAndEnq,
    RintFailed,
    RintNoneOut,
    RintWhileClosed,
    RintUncounted,
    ReplyNotedNoneOut,
    DamagedAfterRint,
    EnqSent,
    EnqWithLeave,
    TimerAfterEnq,
    EnqWhileClosed,
    EnqNoneOut,
    LeaveWithBlockOut,
    LeaveWithNoneOut,
    LeaveTwice,
    LeaveWhileClosed,
    LeaveBeforeRint,
    ReversedByAck,
    ReversedByRint,
    ReversedDone,
    ReversedNotDone,
    LeaveAndFailed,
    LeaveAndEot,
    Last,
}

/// How many kinds of acts are counted.
pub const MASTER_KINDS: usize = Kind::Last as usize;

/// The kinds of acts, with how many of each a whole run has at least.
pub const LEAST_OF_MASTERS: [(&str, u64); MASTER_KINDS] = [
    ("acts of masters", 2_000_000),
    ("messages started", 100_000),
    ("empty messages started", 15_000),
    ("sizes over 2^63", 10_000),
    ("lengths over 2^63", 5_000),
    ("blocks acknowledged", 400_000),
    ("messages done", 100_000),
    ("blocks sent again after NAK", 80_000),
    ("blocks sent again after the number just before", 80_000),
    ("blocks sent again after Timer A", 80_000),
    ("the number just before, 0 out", 6_000),
    ("the number just before, 1 out", 6_000),
    ("the number just before, 2 out", 6_000),
    ("the number just before, 3 out", 6_000),
    ("the number just before, 4 out", 6_000),
    ("the number just before, 5 out", 6_000),
    ("the number just before, 6 out", 6_000),
    ("the number just before, 7 out", 6_000),
    ("failures", 8_000),
    ("other ACK numbers", 150_000),
    ("damaged replies", 50_000),
    ("openings ended by the slave, a block out", 15_000),
    ("openings ended by the slave, none out", 5_000),
    ("openings ended by the driver", 4_000),
    ("replies and timers with no block out", 150_000),
    ("replies and timers of a closed master", 40_000),
    ("acknowledgments that could not be counted", 7_000),
    ("acts of masters refused by 1", 50_000),
    ("acts of masters refused by 2", 25_000),
    ("acts of masters refused by 11", 100_000),
    ("starts of a closed master", 2_000),
    ("starts while a block is out", 20_000),
    ("closings of a closed master", 1_000),
    ("closings while a block is out", 20_000),
    (
        "acts of masters with RINT, ENQ and leave to receive",
        600_000,
    ),
    ("RINTs that acknowledged", 150_000),
    ("such RINTs after a NAK, a block sent last", 20_000),
    ("RINTs refused after a RINT", 40_000),
    ("such RINTs, a block sent last", 30_000),
    ("RINTs refused after a NAK, ENQ sent last", 10_000),
    ("RINTs refused for the last time: failures", 2_000),
    ("RINTs with no block out", 40_000),
    ("RINTs to a closed master", 15_000),
    ("RINTs that could not be counted", 1_000),
    (
        "undamaged replies with no block out, of another kind than the last",
        30_000,
    ),
    ("damaged replies after a RINT", 15_000),
    ("ENQs sent", 150_000),
    ("ENQs sent with leave to receive", 10_000),
    ("blocks sent again after Timer A, ENQ sent last", 20_000),
    ("ENQs of a closed master: 11", 10_000),
    ("ENQs with no block out: 11", 25_000),
    ("leaves to receive with a block out", 40_000),
    ("leaves to receive with none out", 7_000),
    ("leaves to receive given twice", 6_000),
    ("leaves to receive of a closed master: 11", 5_000),
    ("leaves to receive before a RINT: 11", 30_000),
    ("openings reversed by an ACK", 30_000),
    ("openings reversed by a RINT", 12_000),
    ("openings reversed with the message done", 15_000),
    ("openings reversed with the message not done", 20_000),
    ("openings with leave to receive that failed", 3_000),
    ("openings with leave to receive that the slave ended", 6_000),
];

/// Acts of masters by their kind, in the order of `LEAST_OF_MASTERS`.
pub struct MasterCounts {
    pub acts: u64,
    kinds: [u64; MASTER_KINDS],
}

impl MasterCounts {
    pub fn new() -> MasterCounts {
        MasterCounts {
            acts: 0,
            kinds: [0; MASTER_KINDS],
        }
    }

    pub fn all(&self) -> [u64; MASTER_KINDS] {
        let mut all = self.kinds;
        all[Kind::Act as usize] = self.acts;
        all
    }

    fn add(&mut self, kind: Kind, happened: bool) {
        self.kinds[kind as usize] += u64::from(happened);
    }

    fn count(&mut self, call: &MasterCall, before: &[u64], answer: &MasterAnswer) {
        self.acts += 1;
        self.add(Kind::RefusedBy1, answer.number == 1);
        self.add(Kind::RefusedBy2, answer.number == 2);
        self.add(Kind::RefusedBy11, answer.number == 11);
        if answer.number != 0 {
            return self.count_refused(call, before, answer.number);
        }
        let [send, _, _, _, _, acknowledged, done, end, ..] = answer.report;
        self.add(Kind::Acknowledged, acknowledged == 1);
        self.add(Kind::Done, done == 1);
        self.add(Kind::Failed, end == 1);
        self.add(Kind::EndByDriver, end == 3);
        self.count_turning(call, before, answer);
        match call.act {
            MasterAct::Start {
                message_length,
                block_size,
            } => {
                self.add(Kind::Started, true);
                self.add(Kind::EmptyMessage, message_length == 0);
                self.add(Kind::LargeSize, block_size > 1 << 63);
                self.add(Kind::LargeLength, message_length > 1 << 63);
            }
            MasterAct::Timer => {
                self.add(Kind::AgainAfterTimer, send == 1);
                self.add(Kind::TimerAfterEnq, send == 1 && before[8] == 1);
                self.add(Kind::NoneOut, before[0] == 1);
                self.add(Kind::WhileClosed, before[0] == 0);
            }
            MasterAct::Reply { reply, number } => self.count_reply(reply, number, before, answer),
            MasterAct::Open | MasterAct::Close | MasterAct::Enquire | MasterAct::MayReceive => {}
        }
    }

    /// Acts on a state that don't apply now.
    fn count_refused(&mut self, call: &MasterCall, before: &[u64], number: u64) {
        let master = match number {
            11 => Master::decode(&before[..MASTER_WORDS]),
            _ => None,
        };
        let Some(master) = master else {
            return;
        };
        let is_closed = matches!(master, Master::Closed(_));
        let [if_closed, if_open] = match call.act {
            MasterAct::Start { .. } => [Kind::StartWhileClosed, Kind::StartWhileBusy],
            MasterAct::Close => [Kind::CloseWhileClosed, Kind::CloseWhileBusy],
            MasterAct::Enquire => [Kind::EnqWhileClosed, Kind::EnqNoneOut],
            _ => [Kind::LeaveWhileClosed, Kind::LeaveBeforeRint],
        };
        self.add(if is_closed { if_closed } else { if_open }, true);
        let is_turning = matches!(call.act, MasterAct::Enquire | MasterAct::MayReceive);
        self.add(Kind::Turning, is_turning);
    }

    /// What the reverse interrupt and the enquiry bring.
    fn count_turning(&mut self, call: &MasterCall, before: &[u64], answer: &MasterAnswer) {
        let [_, _, _, _, _, acknowledged, done, end, ..] = answer.report;
        let (phase, may_receive) = (before[0], before[9] == 1);
        let reply = match call.act {
            MasterAct::Reply { reply, .. } => reply,
            _ => 0,
        };
        let is_enq = call.act == MasterAct::Enquire;
        let is_leave = call.act == MasterAct::MayReceive;
        self.add(Kind::Turning, reply == REPLY_RINT || is_enq || is_leave);
        self.add(Kind::EnqSent, is_enq);
        self.add(Kind::EnqWithLeave, is_enq && may_receive);
        self.add(Kind::LeaveWithBlockOut, is_leave && phase == 2);
        self.add(Kind::LeaveWithNoneOut, is_leave && phase == 1);
        self.add(Kind::LeaveTwice, is_leave && may_receive);
        if acknowledged == 1 && end == 4 {
            self.add(Kind::ReversedByAck, reply == REPLY_ACK);
            self.add(Kind::ReversedByRint, reply == REPLY_RINT);
            self.add(Kind::ReversedDone, done == 1);
            self.add(Kind::ReversedNotDone, done == 0);
        }
        if may_receive && call.act != MasterAct::Open {
            self.add(Kind::LeaveAndFailed, end == 1);
            self.add(Kind::LeaveAndEot, end == 2);
        }
    }

    /// A RINT to a master.
    fn count_rint(&mut self, before: &[u64], answer: &MasterAnswer) {
        let [send, _, _, _, _, acknowledged, _, end, ..] = answer.report;
        let (phase, last_reply, is_enquired) = (before[0], before[6], before[8] == 1);
        self.add(Kind::RintNoneOut, phase == 1);
        self.add(Kind::RintWhileClosed, phase == 0);
        let is_accepted = acknowledged == 1;
        let is_refused = phase == 2 && (send == 1 || end == 1) && !is_accepted;
        self.add(Kind::RintAccepted, is_accepted);
        self.add(Kind::RintAfterNak, is_accepted && last_reply == REPLY_NAK);
        self.add(Kind::RintAfterRint, is_refused && last_reply == REPLY_RINT);
        self.add(
            Kind::RintAfterRintBlockSentLast,
            is_refused && last_reply == REPLY_RINT && !is_enquired,
        );
        self.add(
            Kind::RintAfterNakAndEnq,
            is_refused && last_reply == REPLY_NAK && is_enquired,
        );
        self.add(Kind::RintFailed, is_refused && end == 1);
        self.add(
            Kind::RintUncounted,
            phase == 2 && !is_accepted && !is_refused,
        );
    }

    fn count_reply(&mut self, reply: u64, number: u64, before: &[u64], answer: &MasterAnswer) {
        let (phase, count) = (before[0], before[5]);
        let [send, _, _, _, _, acknowledged, ..] = answer.report;
        if reply == REPLY_RINT {
            self.count_rint(before, answer);
        }
        let is_undamaged = [REPLY_ACK, REPLY_NAK, REPLY_RINT].contains(&reply);
        let is_noted = phase == 1 && is_undamaged && reply != before[6];
        self.add(Kind::ReplyNotedNoneOut, is_noted);
        let is_damaged = reply == REPLY_DAMAGED && phase != 0;
        self.add(
            Kind::DamagedAfterRint,
            is_damaged && before[6] == REPLY_RINT,
        );
        let own = (count % 8 + 1) % 8;
        let is_ack = reply == REPLY_ACK && phase == 2;
        let is_just_before = is_ack && number == number_just_before(own);
        self.add(Kind::NoneOut, phase == 1);
        self.add(Kind::WhileClosed, phase == 0);
        self.add(Kind::Damaged, reply == REPLY_DAMAGED && phase == 2);
        self.add(Kind::EndBySlave, reply == REPLY_EOT && phase == 2);
        self.add(Kind::IdleEndBySlave, reply == REPLY_EOT && phase == 1);
        self.add(Kind::AgainAfterNak, reply == REPLY_NAK && send == 1);
        self.add(Kind::AgainAfterAck, is_just_before && send == 1);
        self.kinds[Kind::JustBefore as usize + own as usize] += u64::from(is_just_before);
        self.add(
            Kind::OtherNumber,
            is_ack && number != own && !is_just_before,
        );
        self.add(
            Kind::Uncounted,
            is_ack && number == own && acknowledged == 0,
        );
    }
}
