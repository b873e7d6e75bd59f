//! What can be done otherwise on a simulated link than demand 3 has it, so that the tests are seen to
//! find it: the hosts neglect a duty, the lines bring something else, or something is wrongly reported.

use crate::compare::Outcome;
use crate::guarded::same;
use crate::line::Arrived;
use crate::link::Link;
use crate::link_ends::control_id;
use host::ends_ffi::names::{
    ACT_EVENT, ACT_SEND, ACT_SENDS, ACT_SEND_NUMBER, ACT_WORDS, EVENT_DELIVERED, EVENT_DROPPED,
    SENDER_LAST, SENDER_PERSISTED_WORDS, SENDER_WORDS, SEND_NOTHING,
};
use host::message_model;

/// A duty of the two hosts, as crates/link/specs/Duties.antt defines it.
#[derive(Clone, Copy, PartialEq, Eq, Debug)]
pub enum Duty {
    Exchanges,
    EmptiesLines,
    DropsReplies,
    DropsVerdicts,
    BringsNothingLate,
    WritesInOrder,
    OffersInOrder,
    SenderPersistsFirst,
    PersistsAsOne,
    ReportsPersisted,
    ReportsFailed,
    SettlesWrites,
    DropsNamed,
    DropsReports,
    DropsDecision,
    Survives,
}

/// Each duty with its name. That an answer goes out before what it answers is stored was the neglect of
/// a duty once. It cannot be built any more: a decision is lent no buffer and gives no answer, and the
/// library gives one only by a report of success. What is left of it is that such a report is false.
pub const DUTIES: [(Duty, &str); 16] = [
    (Duty::Exchanges, "exchanges"),
    (Duty::EmptiesLines, "empties_lines"),
    (Duty::DropsReplies, "drops_replies"),
    (Duty::DropsVerdicts, "drops_verdicts"),
    (Duty::BringsNothingLate, "brings_nothing_late"),
    (Duty::WritesInOrder, "writes_in_order"),
    (Duty::OffersInOrder, "offers_in_order"),
    (Duty::SenderPersistsFirst, "sender_persists_first"),
    (Duty::PersistsAsOne, "persists_as_one"),
    (Duty::ReportsPersisted, "reports_persisted"),
    (Duty::ReportsFailed, "reports_failed"),
    (Duty::SettlesWrites, "settles_writes"),
    (Duty::DropsNamed, "drops_named"),
    (Duty::DropsReports, "drops_reports"),
    (Duty::DropsDecision, "drops_decision"),
    (Duty::Survives, "survives"),
];

const DEFINITION: &str = concat!(
    env!("CARGO_MANIFEST_DIR"),
    "/../../crates/link/specs/Duties.antt"
);

/// A name of the definitions as it is written here.
fn with_underscores(name: &str) -> String {
    let letter = |letter: char| match letter.is_ascii_uppercase() {
        true => format!("_{}", letter.to_ascii_lowercase()),
        false => letter.to_string(),
    };
    name.chars().map(letter).collect()
}

/// The duties of the definition are these: one more of them would have no link run without it.
pub fn same_duties() -> Outcome {
    let text = std::fs::read_to_string(DEFINITION).map_err(|why| format!("{DEFINITION}: {why}"))?;
    let mut lines = text.lines();
    lines.find(|line| line.starts_with("pub data Duty "));
    let variants = lines.take_while(|line| line.starts_with(' '));
    let defined: Vec<String> = variants
        .filter_map(|line| line.strip_suffix(" : Duty"))
        .flat_map(|names| names.split_whitespace().map(with_underscores))
        .collect();
    same("duty", &defined, &DUTIES.map(|(_, name)| name.to_string()))
}

/// What is done otherwise than demand 3 has it, or what is wrongly reported.
#[derive(Clone, Copy, PartialEq, Eq, Debug)]
pub enum Deviation {
    /// None: what demand 3 says holds.
    Faithful,
    /// The hosts neglect one duty, or two.
    Without(Duty),
    WithoutBoth(Duty, Duty),
    /// The line to the receiver has a request of an earlier run at the start.
    OldRequest,
    /// One end alone keeps what it has read and not acted on over a new circuit, the first too.
    ReceiverKeepsVerdicts,
    SenderKeepsVerdicts,
    /// A restart goes on from what it finds, which a power cut can still undo.
    ReceiverFindsUndurable,
    SenderFindsUndurable,
    /// The state's word is stored in place of the decision's number.
    OldNumberStored,
    /// The line brings each request again behind the next, or requests as it may bring answers: in any
    /// order, and repeatedly.
    RequestsTwice,
    RequestsDisordered,
    /// The sender does not compare MSA-2 with what waits.
    ControlIdIgnored,
    AbandonsEarly,
    AbandonsLate,
    CountsWrongly,
    SendForgotten,
    AnswerForgotten,
    /// A message that was refused counts as submitted.
    RefusedSubmitted,
    /// A reply is sent from the buffer's beginning, wherever it was to stand.
    ReplyFromBeginning,
}

impl Deviation {
    pub fn keeps(self, duty: Duty) -> bool {
        match self {
            Deviation::Without(one) => one != duty,
            Deviation::WithoutBoth(one, other) => one != duty && other != duty,
            _ => true,
        }
    }

    pub fn sender_drops_verdicts(self) -> bool {
        self.keeps(Duty::DropsVerdicts) && self != Deviation::SenderKeepsVerdicts
    }

    pub fn receiver_drops_verdicts(self) -> bool {
        self.keeps(Duty::DropsVerdicts) && self != Deviation::ReceiverKeepsVerdicts
    }
}

/// What a restart finds and takes for stored. The first crash comes when what the end holds can be
/// seen and is not yet durable; the next one is a power cut, and what was durable is there again.
fn found<T: PartialEq>(held: T, persisted: T, durable: T) -> T {
    if durable == persisted {
        held
    } else {
        durable
    }
}

impl Link {
    /// What a restarted sender finds.
    pub fn sender_finds(&mut self) {
        if self.deviation == Deviation::SenderFindsUndurable {
            let end = &mut self.sending;
            let mut held = end.persisted;
            held.copy_from_slice(&end.state[..SENDER_PERSISTED_WORDS]);
            end.persisted = found(held, end.persisted, end.durable);
        }
    }

    /// What a restarted receiver finds: what the open decision says, which was written and is not yet
    /// durable; or, after a power cut, what was durable.
    pub fn receiver_finds(&mut self) {
        let end = &mut self.receiving;
        if self.deviation != Deviation::ReceiverFindsUndurable {
            return;
        }
        if end.durable != end.stored() {
            end.revert(end.durable);
        } else if end.is_open() && !end.is_persisted {
            end.store(end.decided.clone());
        }
    }

    /// What is open was not stored when it was reported failed, or when the host started again: a write of
    /// it may still land.
    pub fn leaves_write(&mut self) {
        if !self.keeps(Duty::SettlesWrites) {
            self.receiving
                .unsettled
                .push(self.receiving.decided.clone());
        }
    }

    /// A write lands that was given up.
    pub fn lands_late(&mut self, choice: usize) -> Outcome {
        let end = &mut self.receiving;
        if !end.unsettled.is_empty() {
            let late = end.unsettled.remove(choice % end.unsettled.len());
            end.store(late);
        }
        self.check()
    }

    /// What was stored at the receiver does not survive: something older is there again.
    pub fn reverts(&mut self, choice: usize) -> Outcome {
        let end = &mut self.receiving;
        if !end.older.is_empty() {
            end.revert(end.older[choice % end.older.len()]);
        }
        self.check()
    }

    /// A block of an earlier circuit comes late, or one of an earlier run.
    pub fn brings_late(&mut self, choice: usize) -> Outcome {
        let block = match self.earlier.len() {
            0 => self.old_answer(&self.first.to_string(), self.first)?,
            count => self.earlier[choice % count].clone(),
        };
        self.back.extend(block);
        self.check()
    }

    /// r as the sender is told it.
    pub fn told_resends(&self) -> u64 {
        match self.deviation {
            Deviation::AbandonsEarly => self.resends.saturating_sub(1),
            Deviation::AbandonsLate => (self.resends + 1).min(99),
            _ => self.resends,
        }
    }

    /// An answer to something else as an answer to what waits.
    pub fn answer_otherwise(&self, arrived: &mut Arrived) {
        let (answer, waits) = (message_model::answer(&arrived.data), self.sending.waiting());
        let (Some(answer), Some(waits)) = (answer, waits) else {
            return;
        };
        if self.deviation == Deviation::ControlIdIgnored {
            let (code, expected) = (answer.code.bytes, answer.expected.bytes);
            let id = control_id(waits).into_bytes();
            let head = b"MSH|^~\\&|||||||ACK|1|P|2.3.1\rMSA|";
            arrived.data = [&head[..], code, b"|", &id, b"||", expected, b"\r"].concat();
        }
    }

    /// A deviation in what a refused submission leaves.
    pub fn submit_otherwise(&mut self) {
        if self.deviation == Deviation::RefusedSubmitted {
            self.sending.state[SENDER_LAST] += 1;
        }
    }

    /// A deviation in what the library reports.
    pub fn report_otherwise(&mut self, before: [u64; SENDER_WORDS], report: &mut [u64; ACT_WORDS]) {
        let is_due = self.sending.history.len() % 7 == 6;
        match self.deviation {
            Deviation::CountsWrongly if is_due => report[ACT_SENDS] += 1,
            Deviation::SendForgotten if is_due => {
                report[ACT_SEND] = SEND_NOTHING;
                report[ACT_SEND_NUMBER] = 0;
            }
            Deviation::AnswerForgotten if report[ACT_EVENT] == EVENT_DELIVERED => {
                self.sending.state = before;
                *report = [0; ACT_WORDS];
                report[ACT_SENDS] = self.sending.sends_made(self.sending.waiting());
                report[ACT_EVENT] = EVENT_DROPPED;
            }
            _ => {}
        }
    }
}
