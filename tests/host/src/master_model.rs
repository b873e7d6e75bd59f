//! The rules of document 02, §3 and §14, about the X3.28 sending station, with what was decided on them,
//! twice: `act_on_words` says what one call does to the words of the C interface, from any words; `answers`
//! goes through all that the driver told the master, and keeps the blocks and the replies themselves.

use crate::station_model::{LastReply, ETB, ETX};
use std::collections::VecDeque;

pub const MASTER_WORDS: usize = 10;
pub const MASTER_REPORT_WORDS: usize = 10;

/// "at most 5 times a block (000's L)"
pub const MOST_RESENDS: u64 = 5;

/// The codes of the replies.
pub const REPLY_ACK: u64 = 1;
pub const REPLY_NAK: u64 = 2;
pub const REPLY_EOT: u64 = 3;
pub const REPLY_DAMAGED: u64 = 4;
pub const REPLY_RINT: u64 = 5;

/// What the driver tells the master.
#[derive(Clone, Copy, Debug, PartialEq, Eq)]
pub enum MasterAct {
    Open,
    Start {
        message_length: u64,
        block_size: u64,
    },
    Reply {
        reply: u64,
        number: u64,
    },
    Timer,
    Close,
    Enquire,
    MayReceive,
}

/// What is to be sent.
#[derive(Clone, Copy, Debug, PartialEq, Eq)]
pub enum Transmit<Text> {
    Nothing,
    Block {
        number: u64,
        ending: u64,
        text: Text,
    },
    Eot,
    Enq,
}

/// How an opening ended, if it did.
#[derive(Clone, Copy, Debug, PartialEq, Eq)]
pub enum End {
    No,
    Failed,
    BySlave,
    ByDriver,
    Reversed,
}

/// A part of the message.
#[derive(Clone, Copy, Debug, PartialEq, Eq)]
pub struct Part {
    pub offset: u64,
    pub length: u64,
}

/// What one act answers.
#[derive(Clone, Copy, Debug, PartialEq, Eq)]
pub struct Report<Text> {
    pub transmit: Transmit<Text>,
    pub acknowledged: bool,
    pub done: bool,
    pub end: End,
    pub count: u64,
    pub resends: u64,
}

impl<Text> Report<Text> {
    /// Nothing happened, so many blocks being acknowledged and the block out sent again so often.
    fn nothing(count: u64, resends: u64) -> Report<Text> {
        Report {
            transmit: Transmit::Nothing,
            acknowledged: false,
            done: false,
            end: End::No,
            count,
            resends,
        }
    }

    /// The opening ended.
    fn ended(end: End, count: u64) -> Report<Text> {
        let transmit = match end {
            End::Failed | End::ByDriver | End::Reversed => Transmit::Eot,
            End::No | End::BySlave => Transmit::Nothing,
        };
        Report {
            transmit,
            end,
            ..Report::nothing(count, 0)
        }
    }
}

impl Report<Part> {
    pub fn words(&self) -> [u64; MASTER_REPORT_WORDS] {
        let [send, number, ending, offset, length] = match self.transmit {
            Transmit::Nothing => [0; 5],
            Transmit::Block {
                number,
                ending,
                text,
            } => [1, number, ending, text.offset, text.length],
            Transmit::Eot => [2, 0, 0, 0, 0],
            Transmit::Enq => [3, 0, 0, 0, 0],
        };
        let end = match self.end {
            End::No => 0,
            End::Failed => 1,
            End::BySlave => 2,
            End::ByDriver => 3,
            End::Reversed => 4,
        };
        let (acknowledged, done) = (u64::from(self.acknowledged), u64::from(self.done));
        [
            send,
            number,
            ending,
            offset,
            length,
            acknowledged,
            done,
            end,
            self.count,
            self.resends,
        ]
    }
}

/// The block out: where it is in its message, and how often it was sent again; whether ENQ was sent after
/// it, and whether the opening ends with its acceptance.
#[derive(Clone, Copy, Debug, PartialEq, Eq)]
pub struct BlockOut {
    pub message_length: u64,
    pub block_size: u64,
    pub offset: u64,
    pub resends: u64,
    pub is_enquired: bool,
    pub may_receive: bool,
}

/// What the words say where no block is out.
const NONE_OUT: BlockOut = BlockOut::first(0, 0);

impl BlockOut {
    const fn first(message_length: u64, block_size: u64) -> BlockOut {
        BlockOut {
            message_length,
            block_size,
            offset: 0,
            resends: 0,
            is_enquired: false,
            may_receive: false,
        }
    }

    /// Decided: it is a part of its message, sent again at most five times.
    fn is_possible(&self) -> bool {
        let is_part = self.offset == 0 || self.offset < self.message_length;
        self.block_size != 0 && is_part && self.resends <= MOST_RESENDS
    }

    fn is_last(&self) -> bool {
        self.message_length - self.offset <= self.block_size
    }
}

/// What was noted of the replies in this opening: the last undamaged one, and whether a RINT came.
#[derive(Clone, Copy, Debug, Default, PartialEq, Eq)]
pub struct Noted {
    pub last_reply: LastReply,
    pub is_interrupted: bool,
}

impl Noted {
    /// Decided: before the first reply none is a RINT, and no block is acknowledged.
    fn is_possible(&self, count: u64, offset: u64) -> bool {
        match self.last_reply {
            LastReply::Nothing => !self.is_interrupted && count == 0 && offset == 0,
            LastReply::Ack | LastReply::Nak => true,
            LastReply::Rint => self.is_interrupted,
        }
    }

    /// "the last undamaged reply", whatever it does
    fn with(self, reply: u64) -> Noted {
        let last_reply = match reply {
            REPLY_ACK => LastReply::Ack,
            REPLY_NAK => LastReply::Nak,
            REPLY_RINT => LastReply::Rint,
            _ => self.last_reply,
        };
        Noted {
            last_reply,
            is_interrupted: self.is_interrupted || last_reply == LastReply::Rint,
        }
    }

    /// "A RINT is no acceptance if the last undamaged reply before it, even with no block out, was a RINT,
    /// or was a NAK and the master last sent ENQ"
    fn makes_rint_doubtful(&self, is_enquired: bool) -> bool {
        match self.last_reply {
            LastReply::Rint => true,
            LastReply::Nak => is_enquired,
            LastReply::Nothing | LastReply::Ack => false,
        }
    }
}

/// A master, as its words say it; with each phase the count of acknowledged blocks.
#[derive(Clone, Copy, Debug, PartialEq, Eq)]
pub enum Master {
    Closed(u64),
    Idle(Noted, u64),
    Waiting(BlockOut, Noted, u64),
}

fn decode_flag(word: u64) -> Option<bool> {
    match word {
        0 => Some(false),
        1 => Some(true),
        _ => None,
    }
}

impl Master {
    /// Decided: closed, and all words but the count are 0; idle, and those of a block out are; or a block
    /// out that is a part of its message. An open one has noted what an opening can bring, and may receive
    /// only after a RINT.
    pub fn decode(words: &[u64]) -> Option<Master> {
        let &[phase, ref out @ .., count, last_reply, interrupted, enquired, may_receive] = words
        else {
            return None;
        };
        let &[message_length, block_size, offset, resends] = out else {
            return None;
        };
        let noted = Noted {
            last_reply: LastReply::decode(last_reply)?,
            is_interrupted: decode_flag(interrupted)?,
        };
        let out = BlockOut {
            message_length,
            block_size,
            offset,
            resends,
            is_enquired: decode_flag(enquired)?,
            may_receive: decode_flag(may_receive)?,
        };
        let is_noted = noted.is_possible(count, offset);
        match phase {
            0 if out == NONE_OUT && noted == Noted::default() => Some(Master::Closed(count)),
            1 if out == NONE_OUT && is_noted => Some(Master::Idle(noted, count)),
            2 if out.is_possible() && is_noted && (noted.is_interrupted || !out.may_receive) => {
                Some(Master::Waiting(out, noted, count))
            }
            _ => None,
        }
    }

    pub fn words(&self) -> [u64; MASTER_WORDS] {
        let (phase, out, noted, count) = match *self {
            Master::Closed(count) => (0, NONE_OUT, Noted::default(), count),
            Master::Idle(noted, count) => (1, NONE_OUT, noted, count),
            Master::Waiting(out, noted, count) => (2, out, noted, count),
        };
        [
            phase,
            out.message_length,
            out.block_size,
            out.offset,
            out.resends,
            count,
            noted.last_reply.word(),
            u64::from(noted.is_interrupted),
            u64::from(out.is_enquired),
            u64::from(out.may_receive),
        ]
    }

    pub fn count(&self) -> u64 {
        match *self {
            Master::Closed(count) | Master::Idle(_, count) | Master::Waiting(_, _, count) => count,
        }
    }
}

/// How blocks are numbered. The second is wrong: two messages of a block each are then one for the
/// slave.
#[derive(Clone, Copy, Debug, PartialEq, Eq)]
pub enum Numbering {
    OverTheOpening,
    AnewWithEachMessage,
}

impl Numbering {
    /// The number of a block out, after so many acknowledged ones: the first has 1, and after 7 comes 0.
    fn number(self, out: &BlockOut, count: u64) -> u64 {
        let before = match self {
            Numbering::OverTheOpening => count,
            Numbering::AnewWithEachMessage => out.offset / out.block_size,
        };
        [1, 2, 3, 4, 5, 6, 7, 0][(before % 8) as usize]
    }
}

/// "the number just before (0 for 1)"
pub fn number_just_before(number: u64) -> u64 {
    [7, 0, 1, 2, 3, 4, 5, 6][number as usize]
}

/// What a call does.
#[derive(Clone, Copy, Debug, PartialEq, Eq)]
pub enum MasterActed {
    /// 1, 2 or 11: nothing is changed.
    Refused(u64),
    /// The state and the report then.
    Done(Master, Report<Part>),
}

/// 1, 2 and 11 for words, in this order; the master where there is none of them. Decided: opening takes
/// any words.
fn taken(act: &MasterAct, words: &[u64], report_words: usize) -> Result<Master, u64> {
    match *act {
        MasterAct::Start { block_size: 0, .. } => return Err(1),
        MasterAct::Reply { reply, .. } if !(REPLY_ACK..=REPLY_RINT).contains(&reply) => {
            return Err(1);
        }
        _ => {}
    }
    if words.len() < MASTER_WORDS || report_words < MASTER_REPORT_WORDS {
        return Err(2);
    }
    match (act, Master::decode(&words[..MASTER_WORDS])) {
        (MasterAct::Open, _) => Ok(Master::Closed(0)),
        (_, Some(master)) => Ok(master),
        (_, None) => Err(11),
    }
}

/// One call, from any words.
pub fn act_on_words(act: &MasterAct, words: &[u64], report_words: usize) -> MasterActed {
    numbered_act(act, words, report_words, Numbering::OverTheOpening)
}

/// The same of a master that may number its blocks wrongly.
pub fn numbered_act(
    act: &MasterAct,
    words: &[u64],
    report_words: usize,
    numbering: Numbering,
) -> MasterActed {
    let master = match taken(act, words, report_words) {
        Ok(master) => master,
        Err(number) => return MasterActed::Refused(number),
    };
    let now = |noted, count| Opened {
        noted,
        count,
        numbering,
    };
    match (*act, master) {
        (MasterAct::Open, _) => stays(Master::Idle(Noted::default(), 0)),
        (MasterAct::Timer, Master::Waiting(out, noted, count)) => {
            now(noted, count).sends_again(out)
        }
        (MasterAct::Reply { reply, .. }, Master::Idle(_, count) | Master::Waiting(_, _, count))
            if reply == REPLY_EOT =>
        {
            ends(End::BySlave, count)
        }
        (MasterAct::Reply { reply, .. }, Master::Idle(noted, count)) => {
            stays(Master::Idle(noted.with(reply), count))
        }
        (MasterAct::Reply { reply, number }, Master::Waiting(out, noted, count)) => {
            now(noted, count).replied(out, reply, number)
        }
        (MasterAct::Reply { .. } | MasterAct::Timer, _) => stays(master),
        (_, Master::Closed(_)) => MasterActed::Refused(11),
        (_, Master::Idle(noted, count)) => now(noted, count).idle_act(act),
        (_, Master::Waiting(out, noted, count)) => now(noted, count).waiting_act(out, act),
    }
}

fn stays(master: Master) -> MasterActed {
    let resends = match master {
        Master::Waiting(out, ..) => out.resends,
        Master::Closed(_) | Master::Idle(..) => 0,
    };
    MasterActed::Done(master, Report::nothing(master.count(), resends))
}

fn ends(end: End, count: u64) -> MasterActed {
    MasterActed::Done(Master::Closed(count), Report::ended(end, count))
}

/// An open master but for the block out.
#[derive(Clone, Copy)]
struct Opened {
    noted: Noted,
    count: u64,
    numbering: Numbering,
}

impl Opened {
    /// What the driver wishes with no block out.
    fn idle_act(self, act: &MasterAct) -> MasterActed {
        match *act {
            MasterAct::Start {
                message_length,
                block_size,
            } => self.sends(BlockOut::first(message_length, block_size)),
            MasterAct::Close => ends(End::ByDriver, self.count),
            MasterAct::MayReceive if self.noted.is_interrupted => ends(End::Reversed, self.count),
            _ => MasterActed::Refused(11),
        }
    }

    /// What the driver wishes while a block is out.
    fn waiting_act(self, out: BlockOut, act: &MasterAct) -> MasterActed {
        match *act {
            MasterAct::Enquire => {
                let is_enquired = true;
                self.says(BlockOut { is_enquired, ..out }, Transmit::Enq)
            }
            MasterAct::MayReceive if self.noted.is_interrupted => {
                let may_receive = true;
                self.waits(BlockOut { may_receive, ..out })
            }
            _ => MasterActed::Refused(11),
        }
    }

    fn waits(self, out: BlockOut) -> MasterActed {
        stays(Master::Waiting(out, self.noted, self.count))
    }

    fn says(self, out: BlockOut, transmit: Transmit<Part>) -> MasterActed {
        let report = Report {
            transmit,
            ..Report::nothing(self.count, out.resends)
        };
        MasterActed::Done(Master::Waiting(out, self.noted, self.count), report)
    }

    /// The block out goes onto the line, and the master waits for its reply.
    fn sends(self, out: BlockOut) -> MasterActed {
        let text = Part {
            offset: out.offset,
            length: (out.message_length - out.offset).min(out.block_size),
        };
        let block = Transmit::Block {
            number: self.numbering.number(&out, self.count),
            ending: if out.is_last() { ETX } else { ETB },
            text,
        };
        let is_enquired = false;
        self.says(BlockOut { is_enquired, ..out }, block)
    }

    /// "at most 5 times a block (000's L); the next time it sends EOT and reports failure"
    fn sends_again(self, out: BlockOut) -> MasterActed {
        if out.resends == MOST_RESENDS {
            return ends(End::Failed, self.count);
        }
        let resends = out.resends + 1;
        self.sends(BlockOut { resends, ..out })
    }

    /// A reply other than EOT while a block is out.
    fn replied(self, out: BlockOut, reply: u64, number: u64) -> MasterActed {
        let own = self.numbering.number(&out, self.count);
        let is_doubtful = self.noted.makes_rint_doubtful(out.is_enquired);
        let noted = self.noted.with(reply);
        let then = Opened { noted, ..self };
        match reply {
            REPLY_ACK if number == own => then.acknowledged(out),
            REPLY_RINT if !is_doubtful => then.acknowledged(out),
            REPLY_ACK if number == number_just_before(own) => then.sends_again(out),
            REPLY_NAK | REPLY_RINT => then.sends_again(out),
            _ => then.waits(out),
        }
    }

    /// The block out is acknowledged, if that can be counted.
    fn acknowledged(self, out: BlockOut) -> MasterActed {
        let Some(count) = self.count.checked_add(1) else {
            return self.waits(out);
        };
        let then = Opened { count, ..self };
        let next = match out.is_last() {
            _ if out.may_receive => ends(End::Reversed, count),
            true => stays(Master::Idle(self.noted, count)),
            false => then.sends(BlockOut {
                offset: out.offset + out.block_size,
                resends: 0,
                ..out
            }),
        };
        let MasterActed::Done(master, report) = next else {
            unreachable!("an acknowledgment is not refused");
        };
        let report = Report {
            acknowledged: true,
            done: out.is_last(),
            ..report
        };
        MasterActed::Done(master, report)
    }
}

/// What the driver tells the master, with the message itself.
#[derive(Clone, Copy, Debug)]
pub enum Told<'a> {
    Open,
    Start { message: &'a [u8], block_size: u64 },
    Reply { reply: u64, number: u64 },
    Timer,
    Close,
    Enquire,
    MayReceive,
}

impl Told<'_> {
    pub fn act(&self) -> MasterAct {
        match *self {
            Told::Open => MasterAct::Open,
            Told::Start {
                message,
                block_size,
            } => MasterAct::Start {
                message_length: message.len() as u64,
                block_size,
            },
            Told::Reply { reply, number } => MasterAct::Reply { reply, number },
            Told::Timer => MasterAct::Timer,
            Told::Close => MasterAct::Close,
            Told::Enquire => MasterAct::Enquire,
            Told::MayReceive => MasterAct::MayReceive,
        }
    }
}

/// What a master says to what it was told: a refusal, or a report with the text to send.
pub type Answer<'a> = Result<Report<&'a [u8]>, u64>;

/// A master with all that its driver told it since the last opening.
#[derive(Default)]
struct Opening<'a> {
    is_open: bool,
    acknowledged: u64,
    /// The number of the newest acknowledged block; before the first, which has number 1, it is 0.
    newest: u64,
    /// The blocks of the message that are not yet acknowledged; the first of them is out.
    blocks: VecDeque<&'a [u8]>,
    sends: u64,
    /// All undamaged replies.
    replies: Vec<u64>,
    /// Whether each that was sent is an ENQ, and not a block.
    sent_enq: Vec<bool>,
    may_receive: bool,
}

/// "a message cut into blocks at a given size"; "an empty message goes as one empty block".
pub fn blocks_of(message: &[u8], block_size: u64) -> Vec<&[u8]> {
    if message.is_empty() {
        return vec![message];
    }
    message.chunks(block_size as usize).collect()
}

/// What the master says to each of these, from before the first opening. Here the number of a block
/// follows from that of the block before it, its ending from the blocks left of its message, its resends
/// are the sends after the first, and whether a RINT is an acceptance from the lists of what came and of
/// what was sent.
pub fn answers<'a>(told: &[Told<'a>]) -> Vec<Answer<'a>> {
    let mut opening = Opening::default();
    told.iter().map(|act| opening.answer(act)).collect()
}

impl<'a> Opening<'a> {
    fn answer(&mut self, told: &Told<'a>) -> Answer<'a> {
        let is_waiting = !self.blocks.is_empty();
        match *told {
            Told::Start { block_size: 0, .. } => Err(1),
            Told::Reply { reply, .. } if reply == 0 || reply > REPLY_RINT => Err(1),
            Told::Start { .. } | Told::Close if !self.is_open || is_waiting => Err(11),
            Told::Enquire if !is_waiting => Err(11),
            Told::MayReceive if !self.replies.contains(&REPLY_RINT) => Err(11),
            Told::Open => {
                *self = Opening::default();
                self.is_open = true;
                Ok(self.nothing())
            }
            Told::Start {
                message,
                block_size,
            } => {
                self.blocks = blocks_of(message, block_size).into();
                self.sends = 0;
                Ok(self.send())
            }
            Told::Close => Ok(self.end(End::ByDriver)),
            Told::Enquire => Ok(self.enquire()),
            Told::MayReceive => Ok(self.leave_to_receive()),
            Told::Timer if is_waiting => Ok(self.send()),
            Told::Reply { reply, number } if self.is_open => Ok(self.reply(reply, number)),
            Told::Timer | Told::Reply { .. } => Ok(self.nothing()),
        }
    }

    fn nothing(&self) -> Report<&'a [u8]> {
        Report::nothing(self.acknowledged, self.sends.saturating_sub(1))
    }

    /// Only the count is kept.
    fn end(&mut self, end: End) -> Report<&'a [u8]> {
        let acknowledged = self.acknowledged;
        *self = Opening {
            acknowledged,
            ..Opening::default()
        };
        Report::ended(end, acknowledged)
    }

    /// The block out is sent, or the sends are used up: one and five more.
    fn send(&mut self) -> Report<&'a [u8]> {
        if self.sends > MOST_RESENDS {
            return self.end(End::Failed);
        }
        self.sends += 1;
        self.sent_enq.push(false);
        let transmit = Transmit::Block {
            number: (self.newest + 1) % 8,
            ending: if self.blocks.len() == 1 { ETX } else { ETB },
            text: self.blocks[0],
        };
        Report {
            transmit,
            ..self.nothing()
        }
    }

    fn enquire(&mut self) -> Report<&'a [u8]> {
        self.sent_enq.push(true);
        Report {
            transmit: Transmit::Enq,
            ..self.nothing()
        }
    }

    /// "ends with EOT when the block out is accepted, at once if none is out"
    fn leave_to_receive(&mut self) -> Report<&'a [u8]> {
        if self.blocks.is_empty() {
            return self.end(End::Reversed);
        }
        self.may_receive = true;
        self.nothing()
    }

    /// "no acceptance if the last undamaged reply before it .. was a RINT, or was a NAK and the master last
    /// sent ENQ"
    fn is_rint_accepted(&self) -> bool {
        let was_enq = self.sent_enq.last() == Some(&true);
        match self.replies.last() {
            Some(&REPLY_RINT) => false,
            Some(&REPLY_NAK) => !was_enq,
            _ => true,
        }
    }

    /// A reply to an open master.
    fn reply(&mut self, reply: u64, number: u64) -> Report<&'a [u8]> {
        let is_rint_accepted = self.is_rint_accepted();
        match reply {
            REPLY_EOT => return self.end(End::BySlave),
            REPLY_DAMAGED => return self.nothing(),
            _ => self.replies.push(reply),
        }
        let own = (self.newest + 1) % 8;
        let is_acceptance = match reply {
            _ if self.blocks.is_empty() => return self.nothing(),
            REPLY_ACK if number == own => true,
            REPLY_ACK if number == self.newest => false,
            REPLY_ACK => return self.nothing(),
            _ => reply == REPLY_RINT && is_rint_accepted,
        };
        match is_acceptance {
            true => self.acknowledged(own),
            false => self.send(),
        }
    }

    fn acknowledged(&mut self, number: u64) -> Report<&'a [u8]> {
        (self.newest, self.sends) = (number, 0);
        self.acknowledged += 1;
        self.blocks.pop_front();
        let done = self.blocks.is_empty();
        let then = match done {
            _ if self.may_receive => self.end(End::Reversed),
            true => self.nothing(),
            false => self.send(),
        };
        Report {
            acknowledged: true,
            done,
            ..then
        }
    }
}
