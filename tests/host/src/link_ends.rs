//! The two ends of a simulated link: what each holds and what of it is persisted.

use crate::line::{Arrived, Reader};
use crate::link_counts::Kind;
use crate::link_receiving::Part;
use host::ends_ffi::names::{
    ACT_EVENT, ACT_SEND, ACT_SEND_NUMBER, ACT_WORDS, DECISION_EXPECTED, DECISION_TRANSACTION,
    DECISION_WORDS, EVENT_ABANDONED, RECEIVER_CODE, RECEIVER_EXPECTED, RECEIVER_WORDS,
    SENDER_DELIVERED, SENDER_PERSISTED_WORDS, SENDER_WAITING, SENDER_WORDS, SEND_NOTHING,
    SEND_QUERY, SEND_RESYNCHRONIZE, SEND_TRANSACTION, WAITING_CLOSED, WAITING_QUERY,
    WAITING_RESYNCHRONIZE, WAITING_TRANSACTION,
};
use host::model::Settings;
use std::collections::VecDeque;

/// A message as a report names it, with the number of a transaction.
pub type Message = [u64; 2];

/// An act of the sender, or a crash of it, in the history: what it sent and what waited then.
pub struct Entry {
    pub sent: Option<Message>,
    pub waits: Option<Message>,
}

/// The sending end: its words, those persisted and those that a power cut leaves, what was named and
/// not yet written, its reader, the blocks that were read and not yet reported, and the history.
pub struct SendingEnd {
    pub state: [u64; SENDER_WORDS],
    pub persisted: [u64; SENDER_PERSISTED_WORDS],
    pub durable: [u64; SENDER_PERSISTED_WORDS],
    pub named: VecDeque<Message>,
    pub reader: Reader,
    pub arrived: VecDeque<Arrived>,
    pub history: Vec<Entry>,
}

impl SendingEnd {
    pub fn new(state: [u64; SENDER_WORDS], settings: &Settings) -> SendingEnd {
        let mut persisted = [0; SENDER_PERSISTED_WORDS];
        persisted.copy_from_slice(&state[..SENDER_PERSISTED_WORDS]);
        SendingEnd {
            state,
            persisted,
            durable: persisted,
            named: VecDeque::new(),
            reader: Reader::new(settings),
            arrived: VecDeque::new(),
            history: Vec::new(),
        }
    }

    pub fn waiting(&self) -> Option<Message> {
        let next = self.state[SENDER_DELIVERED].wrapping_add(1);
        match self.state[SENDER_WAITING] {
            WAITING_RESYNCHRONIZE => Some([SEND_RESYNCHRONIZE, 0]),
            WAITING_QUERY => Some([SEND_QUERY, 0]),
            WAITING_TRANSACTION => Some([SEND_TRANSACTION, next]),
            _ => None,
        }
    }

    /// The sends made of a message since it began to wait on this circuit.
    pub fn sends_made(&self, message: Option<Message>) -> u64 {
        let entries = self.history.iter().rev();
        let since = entries.take_while(|entry| entry.waits.is_some() && entry.waits == message);
        since.filter(|entry| entry.sent == message).count() as u64
    }

    pub fn has_circuit(&self) -> bool {
        self.state[SENDER_WAITING] != WAITING_CLOSED
    }

    pub fn is_persisted(&self) -> bool {
        self.persisted == self.state[..SENDER_PERSISTED_WORDS]
    }

    /// The sender is what is persisted of it, without a circuit.
    pub fn restore(&mut self) {
        self.state = [0; SENDER_WORDS];
        self.state[..SENDER_PERSISTED_WORDS].copy_from_slice(&self.persisted);
        self.history.push(Entry {
            sent: None,
            waits: None,
        });
    }
}

/// What is stored at a receiver: the expected number, and how many transactions.
pub type Stored = (u64, usize);

/// What was decided on: the block's data, the application's verdict, and the decision's report.
#[derive(Clone)]
pub struct Decided {
    pub message: Vec<u8>,
    pub application: u64,
    pub report: [u64; DECISION_WORDS],
}

/// The receiving end: its words, with the decision that is open or none; what is stored, the expected
/// number and the transactions with their verdicts, what of it a power cut leaves and what was stored
/// before; what was decided on, whether that is stored, which half of it where the host stores it in two
/// acts, and the writes that can still land where it does not see to that; the replies not yet sent; its
/// reader, the blocks that were read and not yet acted on, and whether the oldest of them was refused
/// while a decision was open.
pub struct ReceivingEnd {
    pub state: [u64; RECEIVER_WORDS],
    pub expected: u64,
    pub transactions: Vec<(Vec<u8>, u64)>,
    pub durable: Stored,
    pub older: Vec<Stored>,
    pub decided: Decided,
    pub is_persisted: bool,
    pub half: Option<Part>,
    pub unsettled: Vec<Decided>,
    pub pending: VecDeque<Vec<u8>>,
    pub reader: Reader,
    pub arrived: VecDeque<Arrived>,
    pub was_refused: bool,
}

/// The words of a receiver that expects a number, with no decision open.
fn closed(expected: u64) -> [u64; RECEIVER_WORDS] {
    let mut words = [0; RECEIVER_WORDS];
    words[RECEIVER_EXPECTED] = expected;
    words
}

impl ReceivingEnd {
    pub fn new(expected: u64, settings: &Settings) -> ReceivingEnd {
        ReceivingEnd {
            state: closed(expected),
            expected,
            transactions: Vec::new(),
            durable: (expected, 0),
            older: Vec::new(),
            decided: Decided {
                message: Vec::new(),
                application: 0,
                report: [0; DECISION_WORDS],
            },
            is_persisted: false,
            half: None,
            unsettled: Vec::new(),
            pending: VecDeque::new(),
            reader: Reader::new(settings),
            arrived: VecDeque::new(),
            was_refused: false,
        }
    }

    pub fn is_open(&self) -> bool {
        self.state[RECEIVER_CODE] != 0
    }

    pub fn stored(&self) -> Stored {
        (self.expected, self.transactions.len())
    }

    /// Something else is found in storage: an older number, with fewer transactions.
    pub fn revert(&mut self, (expected, count): Stored) {
        self.expected = expected;
        self.transactions.truncate(count);
    }

    /// The receiver is what is stored of it.
    pub fn restore(&mut self) {
        self.state = closed(self.expected);
        self.half = None;
    }

    /// What was read and not acted on is dropped.
    pub fn drop_verdicts(&mut self) {
        self.arrived.clear();
        self.was_refused = false;
    }

    /// What a decision says is stored beside what is there.
    pub fn store(&mut self, decided: Decided) {
        self.expected = decided.report[DECISION_EXPECTED];
        if decided.report[DECISION_TRANSACTION] != 0 {
            self.transactions
                .push((decided.message, decided.application));
        }
    }
}

/// An act of the sender: its kind, its number, the words before it, what waited and how many sends were made
/// of it, what was due to be sent again, and the report.
pub struct Report {
    pub kind: Kind,
    pub number: u64,
    pub before: [u64; SENDER_WORDS],
    pub waited: Option<Message>,
    pub made: u64,
    pub due: Option<Message>,
    pub words: [u64; ACT_WORDS],
}

impl Report {
    pub fn is_abandoned(&self) -> bool {
        self.words[ACT_EVENT] == EVENT_ABANDONED
    }
}

/// The message that a report names to send now.
pub fn named(report: &[u64; ACT_WORDS]) -> Option<Message> {
    (report[ACT_SEND] != SEND_NOTHING).then_some([report[ACT_SEND], report[ACT_SEND_NUMBER]])
}

/// The control ID of a message.
pub fn control_id(message: Message) -> String {
    match message {
        [SEND_RESYNCHRONIZE, _] => "-1".to_string(),
        [SEND_QUERY, _] => "0".to_string(),
        [_, number] => number.to_string(),
    }
}
