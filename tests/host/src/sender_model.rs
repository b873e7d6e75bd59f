//! The rules of document 01 about the sender of sequence numbers, from its words and the decided
//! open points (N): each act on a plain state, and the words of states and reports in the C
//! interface.

use crate::message_model::{
    self, held, Held, Memory, LARGEST_EXPECTED, LARGEST_SENT, MINUS_ONE, REPORT_WORDS,
};
use crate::model::{first_forbidden, Settings};
use crate::receiver_model::{framed, Incoming, ACCEPT, ERROR, LEAST_LIMIT, REJECT};

pub const SENDER_WORDS: usize = 7;
pub const PERSISTED_WORDS: usize = 5;
pub const ACT_WORDS: usize = 8;

const LARGEST_LIMIT: u64 = 99_994;
const MOST_RESENDS: u64 = 99;

/// Whether an act on a block that is refused by 11 still says the block's number, which the papers
/// leave open.
const REFUSED_ACT_SAYS_BLOCK: bool = false;

/// A message that the sender sends.
#[derive(Clone, Copy, Debug, PartialEq, Eq)]
pub enum Message {
    MinusOne,
    Zero,
    Transaction(u64),
}

impl Message {
    pub fn control_id(self) -> String {
        match self {
            Message::MinusOne => "-1".to_string(),
            Message::Zero => "0".to_string(),
            Message::Transaction(number) => number.to_string(),
        }
    }

    fn words(self) -> [u64; 2] {
        match self {
            Message::MinusOne => [1, 0],
            Message::Zero => [2, 0],
            Message::Transaction(number) => [3, number],
        }
    }
}

#[derive(Clone, Copy, Debug, PartialEq, Eq)]
pub enum Circuit {
    Closed,
    Idle,
    /// What waits for its answer, and the sends made of it on this circuit.
    Waiting(Message, u64),
}

#[derive(Clone, Copy, Debug, PartialEq, Eq)]
pub struct Sender {
    pub first: u64,
    pub delivered: u64,
    pub last: u64,
    pub resynchronized: bool,
    pub frozen: bool,
    pub circuit: Circuit,
}

/// What happened in an act.
#[derive(Clone, Copy, Debug, PartialEq, Eq)]
pub enum Event {
    Nothing,
    /// A transaction is known to be delivered, with its verdict: AA, AE, or 0 where it is unknown.
    Delivered(u64, u64),
    /// After so many sends.
    Abandoned(u64),
    Froze,
    Dropped,
}

/// What an act that was done says: the message to send now, what happened, and the number of the
/// block that was read.
#[derive(Clone, Copy, Debug, PartialEq, Eq)]
pub struct Answered {
    pub send: Option<Message>,
    pub event: Event,
    pub block: u64,
}

const NOTHING: Answered = Answered {
    send: None,
    event: Event::Nothing,
    block: 0,
};

/// A refusal, and the offset of a forbidden byte (else 0).
pub type Refusal = (u64, u64);

#[derive(Clone, Copy, Debug)]
pub enum Act<'a> {
    Submit { limit: u64, message: &'a [u8] },
    Open,
    Ended,
    Reset,
    Timer { resends: u64 },
    Block { resends: u64, block: Incoming<'a> },
}

impl Sender {
    pub fn new(first: u64) -> Sender {
        Sender {
            first,
            delivered: first - 1,
            last: first - 1,
            resynchronized: false,
            frozen: false,
            circuit: Circuit::Closed,
        }
    }

    /// The state that words encode, if they do.
    pub fn decode(words: &[u64]) -> Option<Sender> {
        let &[first, delivered, last, resynchronized, frozen, waiting, sends] = words else {
            return None;
        };
        let in_order = delivered <= last && last <= LARGEST_SENT && first <= delivered + 1;
        let numbers = (1..=LARGEST_SENT).contains(&first) && in_order;
        if !numbers || resynchronized > 1 || frozen > 1 {
            return None;
        }
        let (resynchronized, frozen) = (resynchronized == 1, frozen == 1);
        if !resynchronized && delivered + 1 != first {
            return None;
        }
        let counted = (1..=MOST_RESENDS + 1).contains(&sends) && !frozen;
        let circuit = match waiting {
            0 if sends == 0 => Circuit::Closed,
            1 if resynchronized && !frozen && delivered == last && sends == 0 => Circuit::Idle,
            2 if !resynchronized && counted => Circuit::Waiting(Message::MinusOne, sends),
            3 if resynchronized && counted => Circuit::Waiting(Message::Zero, sends),
            4 if resynchronized && counted && delivered < last => {
                Circuit::Waiting(Message::Transaction(delivered + 1), sends)
            }
            _ => return None,
        };
        Some(Sender {
            first,
            delivered,
            last,
            resynchronized,
            frozen,
            circuit,
        })
    }

    pub fn encode(&self) -> [u64; SENDER_WORDS] {
        let waiting = match self.circuit {
            Circuit::Closed => 0,
            Circuit::Idle => 1,
            Circuit::Waiting(Message::MinusOne, _) => 2,
            Circuit::Waiting(Message::Zero, _) => 3,
            Circuit::Waiting(Message::Transaction(_), _) => 4,
        };
        [
            self.first,
            self.delivered,
            self.last,
            self.resynchronized.into(),
            self.frozen.into(),
            waiting,
            self.sends(),
        ]
    }

    /// The sends made of the message that waits.
    fn sends(&self) -> u64 {
        match self.circuit {
            Circuit::Waiting(_, sends) => sends,
            Circuit::Closed | Circuit::Idle => 0,
        }
    }

    pub fn act(&mut self, act: &Act) -> Result<Answered, Refusal> {
        match *act {
            Act::Submit { limit, message } => self.submit(limit, message),
            Act::Open => self.open(),
            Act::Ended => self.ended(),
            Act::Reset => self.reset(),
            Act::Timer { resends } => self.timer(resends),
            Act::Block { resends, block } => self.block(resends, &block),
        }
    }

    /// "Submitting takes the next number only (MSH-13), with MSH-10 its plain decimal; it applies
    /// with or without a circuit unless frozen": 11, 4, 3, 9, 10.
    fn submit(&mut self, limit: u64, message: &[u8]) -> Result<Answered, Refusal> {
        if self.frozen {
            return Err((11, 0));
        }
        if message.len() as u64 > limit {
            return Err((4, 0));
        }
        if let Some(offset) = first_forbidden(message) {
            return Err((3, offset as u64));
        }
        let header = message_model::header(message).ok_or((9, 0))?;
        let next = self.last + 1;
        let numbered = held(header.sequence.bytes, LARGEST_SENT) == Held::Number(next);
        if !numbered || header.control_id.bytes != next.to_string().as_bytes() {
            return Err((10, 0));
        }
        self.last = next;
        if self.circuit != Circuit::Idle {
            return Ok(NOTHING);
        }
        Ok(self.next_waits(Event::Nothing))
    }

    /// "Each new circuit opens with -1 if not yet resynchronised, otherwise with 0."
    fn open(&mut self) -> Result<Answered, Refusal> {
        if self.frozen || self.circuit != Circuit::Closed {
            return Err((11, 0));
        }
        let message = if self.resynchronized {
            Message::Zero
        } else {
            Message::MinusOne
        };
        self.circuit = Circuit::Waiting(message, 1);
        Ok(Answered {
            send: Some(message),
            ..NOTHING
        })
    }

    fn ended(&mut self) -> Result<Answered, Refusal> {
        self.need_circuit()?;
        self.circuit = Circuit::Closed;
        Ok(NOTHING)
    }

    fn reset(&mut self) -> Result<Answered, Refusal> {
        if !self.frozen {
            return Err((11, 0));
        }
        self.frozen = false;
        Ok(NOTHING)
    }

    fn timer(&mut self, resends: u64) -> Result<Answered, Refusal> {
        self.need_circuit()?;
        Ok(self.send_again(resends, 0))
    }

    fn need_circuit(&self) -> Result<(), Refusal> {
        match self.circuit {
            Circuit::Closed => Err((11, 0)),
            Circuit::Idle | Circuit::Waiting(..) => Ok(()),
        }
    }

    /// A timer event, an N block or a refused block "resends the waiting message while fewer than
    /// r + 1 sends were made of it"; otherwise the circuit ends. With nothing waiting nothing is done.
    fn send_again(&mut self, resends: u64, block: u64) -> Answered {
        let Circuit::Waiting(message, sends) = self.circuit else {
            return Answered { block, ..NOTHING };
        };
        if sends < resends + 1 {
            self.circuit = Circuit::Waiting(message, sends + 1);
            return Answered {
                send: Some(message),
                event: Event::Nothing,
                block,
            };
        }
        self.circuit = Circuit::Closed;
        Answered {
            send: None,
            event: Event::Abandoned(sends),
            block,
        }
    }

    fn block(&mut self, resends: u64, block: &Incoming) -> Result<Answered, Refusal> {
        self.need_circuit()?;
        if block.number != 0 {
            return Ok(self.send_again(resends, block.number));
        }
        if block.is_nak() {
            return Ok(self.send_again(resends, 0));
        }
        let Some(answer) = message_model::answer(block.data) else {
            return Ok(self.send_again(resends, 9));
        };
        let Circuit::Waiting(message, _) = self.circuit else {
            return Ok(NOTHING);
        };
        if answer.control_id.bytes != message.control_id().as_bytes() {
            return Ok(Answered {
                event: Event::Dropped,
                ..NOTHING
            });
        }
        let expected = held(answer.expected.bytes, LARGEST_EXPECTED);
        Ok(self.answered(message, answer.code.bytes, expected))
    }

    /// An answer to what waits: what the rules name goes on, all else freezes.
    fn answered(&mut self, message: Message, code: &[u8], expected: Held) -> Answered {
        let code = match code {
            b"AA" => ACCEPT,
            b"AE" => ERROR,
            b"AR" => REJECT,
            _ => 0,
        };
        match (message, code) {
            (Message::MinusOne, ACCEPT) if expected == Held::MinusOne => {
                self.resynchronized = true;
                self.next_waits(Event::Nothing)
            }
            (Message::Zero, ACCEPT) => self.told_expected(expected),
            (Message::Transaction(number), ACCEPT | ERROR) if expected == Held::Number(number) => {
                self.moves(number, code)
            }
            (Message::Transaction(number), REJECT) if expected == Held::Number(number + 1) => {
                self.moves(number, 0)
            }
            _ => self.freezes(),
        }
    }

    /// AA to 0: -1 goes on if nothing is delivered yet; e if e - 1 is the last one delivered, or the
    /// next one and submitted.
    fn told_expected(&mut self, expected: Held) -> Answered {
        let next = self.delivered + 1;
        let submitted = self.delivered < self.last;
        match expected {
            Held::MinusOne if next == self.first => self.next_waits(Event::Nothing),
            Held::Number(number) if number == next => self.next_waits(Event::Nothing),
            Held::Number(number) if number == next + 1 && submitted => self.moves(next, 0),
            _ => self.freezes(),
        }
    }

    fn freezes(&mut self) -> Answered {
        self.frozen = true;
        self.circuit = Circuit::Closed;
        Answered {
            event: Event::Froze,
            ..NOTHING
        }
    }

    fn moves(&mut self, delivered: u64, code: u64) -> Answered {
        self.delivered = delivered;
        self.next_waits(Event::Delivered(delivered, code))
    }

    /// The transaction after the last one delivered waits, if it has been submitted; it is sent
    /// once as it begins to wait.
    fn next_waits(&mut self, event: Event) -> Answered {
        let message = Message::Transaction(self.delivered + 1);
        let submitted = self.delivered < self.last;
        self.circuit = if submitted {
            Circuit::Waiting(message, 1)
        } else {
            Circuit::Idle
        };
        Answered {
            send: submitted.then_some(message),
            event,
            block: 0,
        }
    }
}

/// What an act does at the C interface.
#[derive(Clone, Copy, Debug, PartialEq, Eq)]
pub enum Acted {
    /// 1 or 2: nothing is changed.
    Unchanged(u64),
    /// The number, the state then, and the report.
    Reported(u64, [u64; SENDER_WORDS], [u64; ACT_WORDS]),
}

/// 1 of an act: the settings that it uses, and a block's number.
fn setting_refused(act: &Act) -> bool {
    match act {
        Act::Submit { limit, .. } => !(LEAST_LIMIT..=LARGEST_LIMIT).contains(limit),
        Act::Timer { resends } => *resends > MOST_RESENDS,
        Act::Block { resends, block } => *resends > MOST_RESENDS || !block.is_verdict(),
        Act::Open | Act::Ended | Act::Reset => false,
    }
}

/// An act on words: 1, 2, 11, and then the act's own refusals.
pub fn act_on_words(act: &Act, state: &[u64], report_words: usize) -> Acted {
    if setting_refused(act) {
        return Acted::Unchanged(1);
    }
    if state.len() < SENDER_WORDS || report_words < ACT_WORDS {
        return Acted::Unchanged(2);
    }
    let mut words = [0; SENDER_WORDS];
    words.copy_from_slice(&state[..SENDER_WORDS]);
    let Some(mut sender) = Sender::decode(&words) else {
        return Acted::Reported(11, words, refused_report(act, 0, 0));
    };
    match sender.act(act) {
        Ok(answered) => Acted::Reported(0, sender.encode(), report(&answered, sender.sends())),
        Err((number, offset)) => {
            let report = refused_report(act, sender.sends(), offset);
            Acted::Reported(number, words, report)
        }
    }
}

fn report(answered: &Answered, sends: u64) -> [u64; ACT_WORDS] {
    let [send, send_number] = answered.send.map_or([0, 0], Message::words);
    let (event, sends, delivered, code) = match answered.event {
        Event::Nothing => (0, sends, 0, 0),
        Event::Delivered(number, code) => (1, sends, number, code),
        Event::Abandoned(made) => (2, made, 0, 0),
        Event::Froze => (3, sends, 0, 0),
        Event::Dropped => (4, sends, 0, 0),
    };
    [
        send,
        send_number,
        sends,
        event,
        delivered,
        code,
        answered.block,
        0,
    ]
}

/// Nothing to send, the sends of what still waits, nothing happened.
fn refused_report(act: &Act, sends: u64, forbidden_offset: u64) -> [u64; ACT_WORDS] {
    let block = match act {
        Act::Block { block, .. } if REFUSED_ACT_SAYS_BLOCK => block.number,
        _ => 0,
    };
    [0, 0, sends, 0, 0, 0, block, forbidden_offset]
}

/// A fresh sender's words: 1, 2 in this order.
pub fn fresh(first: u64, state_words: usize) -> Result<[u64; SENDER_WORDS], u64> {
    if !(1..=LARGEST_SENT).contains(&first) {
        return Err(1);
    }
    if state_words < SENDER_WORDS {
        return Err(2);
    }
    Ok(Sender::new(first).encode())
}

/// The control message for 0 or -1 as a block: 1, 2 in this order, with nothing changed; or the
/// block's bytes.
pub fn control_block(
    settings: &Settings,
    message_type: &[u8],
    number: u64,
    memory: &Memory,
) -> Result<Vec<u8>, u64> {
    let capitals = message_type.len() == 3 && message_type.iter().all(u8::is_ascii_uppercase);
    let numbers = number == 0 || number == MINUS_ONE;
    if settings.refused() || settings.limit < LEAST_LIMIT || !capitals || !numbers {
        return Err(1);
    }
    let number = message_model::number_text(number);
    let pieces: [&[u8]; 7] = [
        b"MSH|^~\\&|||||||",
        message_type,
        b"|",
        number.as_bytes(),
        b"|P|2.3.1|",
        number.as_bytes(),
        b"\r",
    ];
    let block = framed(settings, &pieces.concat());
    let end = memory.start as u128 + block.len() as u128;
    if memory.report_words < REPORT_WORDS || end > memory.buffer_length as u128 {
        return Err(2);
    }
    Ok(block)
}
