//! The rules of documents 01 and 02 about the receiver of sequence numbers, from 01's table, §1 of 02 by
//! which deciding and answering are two acts, and the decided open points (V, S1): what each act brings
//! about, in the words and bytes of the C interface.

use crate::message_model::{
    self, held, Held, Memory, LARGEST_EXPECTED, LARGEST_SENT, MINUS_ONE, REPORT_WORDS,
};
use crate::model::{self, Layer, Settings};

/// The least data limit of a sender or receiver.
pub const LEAST_LIMIT: u64 = 128;

pub const RECEIVER_WORDS: usize = 9;
pub const DECISION_WORDS: usize = 5;

pub const ACCEPT: u64 = 1;
pub const ERROR: u64 = 2;
pub const REJECT: u64 = 3;

const DATA_BLOCK: u64 = b'D' as u64;
const NAK_BLOCK: u64 = b'N' as u64;

const LONGEST_CONTROL_ID: usize = 20;
const BYTES_IN_WORD: usize = 8;

/// Decided (the papers are silent): data of a block that no reader gives, whose control ID has a byte
/// that no block may hold, counts as refused by this number. Group `data_of_no_block` alone asks.
pub const FORBIDDEN_CONTROL_ID: Option<u64> = Some(9);

/// A block as its reader gave it: the verdict's number, and of an accepted one its type and data.
#[derive(Clone, Copy, Debug)]
pub struct Incoming<'a> {
    pub number: u64,
    pub block_type: u64,
    pub data: &'a [u8],
}

impl Incoming<'_> {
    /// Only 0 and 3 to 8 are numbers of a verdict.
    pub fn is_verdict(&self) -> bool {
        self.number == 0 || (3..=8).contains(&self.number)
    }

    /// To a sender what is not an N block counts as a data block, also types that no reader gives (which
    /// the papers leave open; group `other_block_types` alone asks).
    pub fn is_nak(&self) -> bool {
        self.block_type == NAK_BLOCK
    }
}

/// What the table says: MSA-1 and MSA-4 (-1 as a word), what is stored then, and the number of the
/// transaction that is stored with it.
#[derive(Clone, Copy, Debug, PartialEq, Eq)]
pub struct Decision {
    pub code: u64,
    pub number: u64,
    pub expected: Option<u64>,
    pub transaction: Option<u64>,
}

/// The table: what MSH-13 holds, the expected number (none: NONE), and the application's verdict.
pub fn decide(incoming: Held, expected: Option<u64>, application: u64) -> Decision {
    let answer = |code: u64, number: u64, expected: Option<u64>| Decision {
        code,
        number,
        expected,
        transaction: None,
    };
    match (incoming, expected) {
        (Held::MinusOne, _) => answer(ACCEPT, MINUS_ONE, None),
        (Held::Number(0), None) => answer(ACCEPT, MINUS_ONE, None),
        (Held::Number(0), Some(next)) => answer(ACCEPT, next, expected),
        (Held::Number(number), Some(next)) if number != next => answer(REJECT, next, expected),
        (Held::Number(number), _) => Decision {
            code: application,
            number,
            expected: Some(number + 1),
            transaction: Some(number),
        },
        (Held::Nothing | Held::NoNumber, None) => answer(REJECT, MINUS_ONE, None),
        (Held::Nothing | Held::NoNumber, Some(next)) => answer(REJECT, next, expected),
    }
}

/// The reason in the N block that answers a refused block.
fn nak_reason(number: u64) -> &'static [u8] {
    match number {
        4 => b"B",
        6 => b"C",
        7 => b"X",
        _ => b"G",
    }
}

/// A decision that is open, with the control ID that its answer carries.
#[derive(Clone, Debug, PartialEq, Eq)]
pub struct Open {
    pub decision: Decision,
    pub control_id: Vec<u8>,
}

/// A receiver: what it expects, which is stored, and the open decision, which a crash drops.
#[derive(Clone, Debug, PartialEq, Eq)]
pub struct Receiver {
    pub expected: Option<u64>,
    pub open: Option<Open>,
}

/// 0 for NONE, and for -1.
fn word(number: Option<u64>) -> u64 {
    number.filter(|&number| number != MINUS_ONE).unwrap_or(0)
}

/// Can an answer carry this control ID, as a field and as data?
fn carries(control_id: &[u8]) -> bool {
    let ends_field = |byte: &u8| [b'|', b'\r'].contains(byte);
    (1..=LONGEST_CONTROL_ID).contains(&control_id.len())
        && !control_id.iter().any(ends_field)
        && model::first_forbidden(control_id).is_none()
}

/// A control ID in words: its length, and its bytes, of which the first is the lowest of its word.
fn id_words(control_id: &[u8]) -> [u64; 4] {
    let mut words = [control_id.len() as u64, 0, 0, 0];
    for (part, word) in control_id.chunks(BYTES_IN_WORD).zip(&mut words[1..]) {
        let mut bytes = [0; BYTES_IN_WORD];
        bytes[..part.len()].copy_from_slice(part);
        *word = u64::from_le_bytes(bytes);
    }
    words
}

fn id_of_words(words: &[u64]) -> Option<Vec<u8>> {
    let bytes = words[1..].iter().flat_map(|word| word.to_le_bytes());
    let length = usize::try_from(words[0]).ok()?;
    let control_id: Vec<u8> = bytes.take(length).collect();
    (control_id.len() == length && carries(&control_id)).then_some(control_id)
}

impl Decision {
    fn words(&self) -> [u64; 4] {
        let number = word(Some(self.number));
        let transaction = word(self.transaction);
        [self.code, number, transaction, word(self.expected)]
    }

    /// The row of the table that has these words, for what is expected: what would have come is -1, 0,
    /// no number, or the number of the transaction.
    fn of_words(words: &[u64], expected: Option<u64>) -> Option<Decision> {
        let number = Some(words[2]).filter(|number| (1..=LARGEST_SENT).contains(number));
        let incoming = [Held::MinusOne, Held::Number(0), Held::Nothing].into_iter();
        let incoming = incoming.chain(number.map(Held::Number));
        let rows = incoming.flat_map(|held| {
            [ACCEPT, ERROR].map(|application| decide(held, expected, application))
        });
        rows.into_iter().find(|row| row.words() == words[..4])
    }
}

impl Receiver {
    /// The receiver of these words; none if they encode no state.
    pub fn decode(words: &[u64]) -> Option<Receiver> {
        let expected = (words[0] != 0).then_some(words[0]);
        if words[0] > LARGEST_EXPECTED {
            return None;
        }
        let open = match words[1] {
            0 => None,
            _ => Some(Open {
                decision: Decision::of_words(&words[1..5], expected)?,
                control_id: id_of_words(&words[5..RECEIVER_WORDS])?,
            }),
        };
        Some(Receiver { expected, open })
    }

    pub fn words(&self) -> [u64; RECEIVER_WORDS] {
        let mut words = [0; RECEIVER_WORDS];
        words[0] = word(self.expected);
        if let Some(open) = &self.open {
            words[1..5].copy_from_slice(&open.decision.words());
            words[5..].copy_from_slice(&id_words(&open.control_id));
        }
        words
    }
}

/// An act of the receiver: the decision on a block that was accepted; the report that the open decision
/// is stored (1) or failed (0), which gives the answer; and the N reply of a hybrid link to a block that
/// was refused.
#[derive(Clone, Copy, Debug)]
pub enum ReceiverAct<'a> {
    Decide {
        application: u64,
        block_type: u64,
        data: &'a [u8],
    },
    Report {
        settings: Settings,
        stored: u64,
    },
    Nak {
        settings: Settings,
        number: u64,
    },
}

/// What an act does: the number that refuses it, with nothing changed; or the words of the state where
/// they are written, the report, and the reply's bytes.
#[derive(Clone, Debug, PartialEq, Eq)]
pub enum Acted {
    Refused(u64),
    Done {
        state: Option<[u64; RECEIVER_WORDS]>,
        report: Vec<u64>,
        reply: Vec<u8>,
    },
}

impl ReceiverAct<'_> {
    pub fn report_words(&self) -> usize {
        match self {
            ReceiverAct::Decide { .. } => DECISION_WORDS,
            ReceiverAct::Report { .. } | ReceiverAct::Nak { .. } => REPORT_WORDS,
        }
    }

    /// How many bytes of the buffer it needs from the start on, whatever it writes; a decision writes
    /// nothing.
    pub fn buffer_need(&self) -> usize {
        match self {
            ReceiverAct::Decide { .. } => 0,
            ReceiverAct::Report { settings, .. } | ReceiverAct::Nak { settings, .. } => {
                settings.limit as usize + settings.overhead()
            }
        }
    }

    fn is_outside(&self) -> bool {
        let bad = |settings: &Settings| settings.refused() || settings.limit < LEAST_LIMIT;
        match self {
            ReceiverAct::Decide {
                application,
                block_type,
                ..
            } => {
                ![ACCEPT, ERROR].contains(application)
                    || ![DATA_BLOCK, NAK_BLOCK].contains(block_type)
            }
            ReceiverAct::Report { settings, stored } => bad(settings) || *stored > 1,
            ReceiverAct::Nak { settings, number } => bad(settings) || !(3..=9).contains(number),
        }
    }

    fn is_short(&self, state_words: usize, memory: &Memory) -> bool {
        let end = memory.start as u128 + self.buffer_need() as u128;
        let writes = self.buffer_need() > 0;
        state_words < RECEIVER_WORDS
            || memory.report_words < self.report_words()
            || writes && end > memory.buffer_length as u128
    }
}

/// An act on words: 1, 2 and 11 in this order, and then what it does.
pub fn act_on_words(act: &ReceiverAct, state: &[u64], memory: &Memory) -> Acted {
    if act.is_outside() {
        return Acted::Refused(1);
    }
    if act.is_short(state.len(), memory) {
        return Acted::Refused(2);
    }
    let Some(receiver) = Receiver::decode(state) else {
        return Acted::Refused(11);
    };
    match *act {
        ReceiverAct::Decide {
            application,
            block_type,
            data,
        } => receiver.decides(application, block_type, data),
        ReceiverAct::Report { settings, stored } => receiver.reported(&settings, stored == 1),
        ReceiverAct::Nak { settings, number } => receiver.naks(&settings, number),
    }
}

impl Receiver {
    /// A block of this number that opens no decision.
    fn opens_nothing(&self, number: u64) -> Acted {
        Acted::Done {
            state: None,
            report: vec![number, 0, 0, word(self.expected), 0],
            reply: Vec::new(),
        }
    }

    /// 11 while a decision is open, whatever the block (S1-10, S1-11); an N block is dropped.
    fn decides(self, application: u64, block_type: u64, data: &[u8]) -> Acted {
        if self.open.is_some() {
            return Acted::Refused(11);
        }
        if block_type == NAK_BLOCK {
            return self.opens_nothing(0);
        }
        let Some(header) = message_model::header(data) else {
            return self.opens_nothing(9);
        };
        let id = header.control_id.bytes;
        let forbidden = model::first_forbidden(id).and(FORBIDDEN_CONTROL_ID);
        if let Some(number) = forbidden {
            return self.opens_nothing(number);
        }
        let incoming = held(header.sequence.bytes, LARGEST_SENT);
        let decision = decide(incoming, self.expected, application);
        let changes = decision.expected != self.expected || decision.transaction.is_some();
        let [_, _, transaction, expected] = decision.words();
        let open = Open {
            decision,
            control_id: id.to_vec(),
        };
        let then = Receiver {
            open: Some(open),
            ..self
        };
        Acted::Done {
            state: Some(then.words()),
            report: vec![0, 1, transaction, expected, changes.into()],
            reply: Vec::new(),
        }
    }

    /// Stored: the answer, and what was decided is expected. Failed: nothing to send, and the state of
    /// before the decision.
    fn reported(self, settings: &Settings, is_stored: bool) -> Acted {
        let Some(open) = self.open else {
            return Acted::Refused(11);
        };
        let (expected, reply) = match is_stored {
            true => {
                let text = answer_text(&open.control_id, &open.decision);
                (open.decision.expected, framed(settings, &text))
            }
            false => (self.expected, Vec::new()),
        };
        let then = Receiver {
            expected,
            open: None,
        };
        Acted::Done {
            state: Some(then.words()),
            report: vec![reply.len() as u64, 0],
            reply,
        }
    }

    fn naks(&self, settings: &Settings, number: u64) -> Acted {
        if self.open.is_some() {
            return Acted::Refused(11);
        }
        let reply = model::written(settings, NAK_BLOCK, nak_reason(number)).unwrap_or_default();
        Acted::Done {
            state: None,
            report: vec![reply.len() as u64, 0],
            reply,
        }
    }
}

/// The answer of document 01: only MSH-10, MSA-1, MSA-2 and MSA-4 vary.
fn answer_text(control_id: &[u8], decision: &Decision) -> Vec<u8> {
    let codes: [&[u8]; 3] = [b"AA", b"AE", b"AR"];
    let number = message_model::number_text(decision.number);
    let pieces: [&[u8]; 9] = [
        b"MSH|^~\\&|||||||ACK|",
        control_id,
        b"|P|2.3.1\rMSA|",
        codes[decision.code as usize - 1],
        b"|",
        control_id,
        b"||",
        number.as_bytes(),
        b"\r",
    ];
    pieces.concat()
}

/// A data block around any bytes.
pub(crate) fn framed(settings: &Settings, data: &[u8]) -> Vec<u8> {
    let mut block = vec![settings.start_byte()];
    if settings.layer == Layer::Hybrid {
        block.extend_from_slice(b"D23\r");
    }
    block.extend_from_slice(data);
    if settings.layer == Layer::Hybrid {
        let sum = block.iter().fold(0, |sum, byte| sum ^ byte);
        block.extend_from_slice(format!("{:05}{sum:03}", data.len() + 5).as_bytes());
    }
    block.extend_from_slice(&[settings.end_byte(), 0x0D]);
    block
}
