//! The rules of document 01 about the X3.28 receiving station, with the duplicates of document 02, §2, the
//! reverse interrupt and the enquiry of §14, and the decided open points (X, E, Q), twice: `act_on_words`
//! says what one call does to the words and the buffer of the C interface, from any words; `answers` goes
//! through all that the driver reported, and keeps the blocks and the replies themselves.

pub const STATION_WORDS: usize = 5;
pub const STATION_REPORT_WORDS: usize = 4;

/// The characters that end a good block.
pub const ETX: u64 = 0x03;
pub const ETB: u64 = 0x17;

/// What the driver reports, or asks for.
#[derive(Clone, Copy, Debug)]
pub enum Unit<'a> {
    Opened,
    /// A good block: its number, the character that ended it, its text.
    Block {
        number: u64,
        ending: u64,
        text: &'a [u8],
    },
    Bad,
    /// A block ended by ENQ.
    Enquiry,
    /// EOT was received.
    End,
    /// ENQ was received, and it ends no block.
    BareEnq,
    /// The driver asks for a reverse interrupt.
    Interrupt,
}

#[derive(Clone, Copy, Debug, PartialEq, Eq)]
pub enum Reply {
    Nothing,
    Ack(u64),
    Nak,
    Eot,
    Rint,
}

impl Reply {
    /// The words of a report that say it.
    fn words(self) -> [u64; 2] {
        match self {
            Reply::Nothing => [0, 0],
            Reply::Ack(number) => [1, number],
            Reply::Nak => [2, 0],
            Reply::Eot => [3, 0],
            Reply::Rint => [5, 0],
        }
    }
}

/// Of which kind the last reply of an opening was. A slave keeps the last that it gave, a master the last
/// undamaged one that came.
#[derive(Clone, Copy, Debug, Default, PartialEq, Eq)]
pub enum LastReply {
    #[default]
    Nothing,
    Ack,
    Nak,
    Rint,
}

impl LastReply {
    pub fn decode(word: u64) -> Option<LastReply> {
        match word {
            0 => Some(LastReply::Nothing),
            1 => Some(LastReply::Ack),
            2 => Some(LastReply::Nak),
            5 => Some(LastReply::Rint),
            _ => None,
        }
    }

    pub fn word(self) -> u64 {
        match self {
            LastReply::Nothing => 0,
            LastReply::Ack => 1,
            LastReply::Nak => 2,
            LastReply::Rint => 5,
        }
    }
}

/// Whether RINT was asked for, and whether an ACK was given since the last.
#[derive(Clone, Copy, Debug, PartialEq, Eq)]
pub enum Interrupt {
    Possible,
    Pending,
    /// "no ACK since the last"
    Given,
}

impl Interrupt {
    fn decode(word: u64) -> Option<Interrupt> {
        match word {
            0 => Some(Interrupt::Possible),
            1 => Some(Interrupt::Pending),
            2 => Some(Interrupt::Given),
            _ => None,
        }
    }

    fn word(self) -> u64 {
        match self {
            Interrupt::Possible => 0,
            Interrupt::Pending => 1,
            Interrupt::Given => 2,
        }
    }
}

/// An open station: the number that it expects, the length of the text held, its last reply, and how it
/// stands with RINT.
#[derive(Clone, Copy, Debug, PartialEq, Eq)]
pub struct OpenStation {
    pub expected: u64,
    pub held: u64,
    pub last_reply: LastReply,
    pub interrupt: Interrupt,
}

/// A station, as its words say it.
#[derive(Clone, Copy, Debug, PartialEq, Eq)]
pub enum Station {
    Closed,
    Open(OpenStation),
}

/// "Opened by the driver, it expects block 1".
const OPENED: OpenStation = OpenStation {
    expected: 1,
    held: 0,
    last_reply: LastReply::Nothing,
    interrupt: Interrupt::Possible,
};

impl OpenStation {
    /// Decided: only what an opening can come to. A block is taken with ACK or RINT, so that without a
    /// reply none was. After a RINT nothing but an ACK makes another possible; and the last reply is not
    /// that RINT any more where one is possible again.
    fn is_possible(&self) -> bool {
        match self.last_reply {
            LastReply::Nothing => {
                self.interrupt != Interrupt::Given && self.expected == 1 && self.held == 0
            }
            LastReply::Ack => self.interrupt != Interrupt::Given,
            LastReply::Nak => true,
            LastReply::Rint => self.interrupt == Interrupt::Given,
        }
    }

    /// The station when it has given this reply.
    fn after(self, reply: Reply) -> OpenStation {
        let (last_reply, interrupt) = match (reply, self.interrupt) {
            (Reply::Ack(_), Interrupt::Given) => (LastReply::Ack, Interrupt::Possible),
            (Reply::Ack(_), interrupt) => (LastReply::Ack, interrupt),
            (Reply::Nak, interrupt) => (LastReply::Nak, interrupt),
            (Reply::Rint, _) => (LastReply::Rint, Interrupt::Given),
            (Reply::Nothing | Reply::Eot, interrupt) => (self.last_reply, interrupt),
        };
        OpenStation {
            last_reply,
            interrupt,
            ..self
        }
    }

    /// "the slave answers a bare ENQ with its last reply, or NAK if it gave none"
    fn again(&self) -> Reply {
        match self.last_reply {
            LastReply::Nothing | LastReply::Nak => Reply::Nak,
            LastReply::Ack => Reply::Ack(just_before(self.expected)),
            LastReply::Rint => Reply::Rint,
        }
    }
}

impl Station {
    /// Decided: open is 1, the expected number 0 to 7, and last reply and interrupt are of one opening; or
    /// all words are 0.
    pub fn decode(words: &[u64]) -> Option<Station> {
        match *words {
            [0, 0, 0, 0, 0] => Some(Station::Closed),
            [1, expected @ 0..=7, held, last_reply, interrupt] => {
                let open = OpenStation {
                    expected,
                    held,
                    last_reply: LastReply::decode(last_reply)?,
                    interrupt: Interrupt::decode(interrupt)?,
                };
                open.is_possible().then_some(Station::Open(open))
            }
            _ => None,
        }
    }

    pub fn words(&self) -> [u64; STATION_WORDS] {
        match *self {
            Station::Closed => [0; STATION_WORDS],
            Station::Open(open) => [
                1,
                open.expected,
                open.held,
                open.last_reply.word(),
                open.interrupt.word(),
            ],
        }
    }
}

/// What a call does.
#[derive(Clone, Debug, PartialEq, Eq)]
pub enum Acted {
    /// 1, 2 or 11: nothing is changed.
    Refused(u64),
    /// The words of the state and of the report then. The text goes into the buffer at the offset, if
    /// there is one; nothing else of the buffer changes.
    Done(
        [u64; STATION_WORDS],
        [u64; STATION_REPORT_WORDS],
        Option<usize>,
    ),
}

/// The lengths of the buffer and the report of a call; acts without a buffer don't look at the first.
#[derive(Clone, Copy, Debug)]
pub struct Lengths {
    pub buffer: usize,
    pub report: usize,
}

/// 1, 2 and 11, in this order; the station where there is none of them. Decided: opening takes any
/// words.
fn taken(unit: &Unit, words: &[u64], lengths: &Lengths) -> Result<Station, u64> {
    if let Unit::Block { ending, .. } = unit {
        if *ending != ETX && *ending != ETB {
            return Err(1);
        }
    }
    if words.len() < STATION_WORDS || lengths.report < STATION_REPORT_WORDS {
        return Err(2);
    }
    match (unit, Station::decode(&words[..STATION_WORDS])) {
        (Unit::Opened, _) => Ok(Station::Closed),
        (_, Some(station)) => Ok(station),
        (_, None) => Err(11),
    }
}

fn done(station: Station, reply: Reply) -> Acted {
    let [reply, number] = reply.words();
    Acted::Done(station.words(), [reply, number, 0, 0], None)
}

/// An open station gives this reply, and else is as it was.
fn replies(open: OpenStation, reply: Reply) -> Acted {
    done(Station::Open(open.after(reply)), reply)
}

/// The number just before one of 0 to 7, "counting round from 0 back to 7".
fn just_before(number: u64) -> u64 {
    [7, 0, 1, 2, 3, 4, 5, 6][number as usize]
}

/// The reply to a good block whose number is not the expected one: "A duplicate is the number just
/// before the expected one, counting round from 0 back to 7. Any other unexpected number is dropped
/// with NAK." Decided: a duplicate gets its ACK also where the block itself got RINT.
fn out_of_order(number: u64, expected: u64) -> Reply {
    if number == just_before(expected) {
        Reply::Ack(number)
    } else {
        Reply::Nak
    }
}

/// One call, from any words.
pub fn act_on_words(unit: &Unit, words: &[u64], lengths: &Lengths) -> Acted {
    let station = match taken(unit, words, lengths) {
        Ok(station) => station,
        Err(number) => return Acted::Refused(number),
    };
    match (*unit, station) {
        (Unit::Opened, _) => done(Station::Open(OPENED), Reply::Nothing),
        (Unit::Interrupt, _) => asked(station),
        (_, Station::Closed) | (Unit::End, _) => done(Station::Closed, Reply::Nothing),
        (Unit::Bad | Unit::Enquiry, Station::Open(open)) => replies(open, Reply::Nak),
        (Unit::BareEnq, Station::Open(open)) => replies(open, open.again()),
        (Unit::Block { number, .. }, Station::Open(open)) if number != open.expected => {
            replies(open, out_of_order(number, open.expected))
        }
        (Unit::Block { ending, text, .. }, Station::Open(open)) => {
            let all = u128::from(open.held) + text.len() as u128;
            if all > lengths.buffer as u128 {
                return done(Station::Closed, Reply::Eot);
            }
            append(open, ending == ETX, all as u64)
        }
    }
}

/// "11 for asking RINT with one pending or no ACK since the last". Decided: so it is with a closed station,
/// and before the first RINT none is the last.
fn asked(station: Station) -> Acted {
    match station {
        Station::Open(open) if open.interrupt == Interrupt::Possible => {
            let interrupt = Interrupt::Pending;
            let asked = OpenStation { interrupt, ..open };
            done(Station::Open(asked), Reply::Nothing)
        }
        Station::Open(_) | Station::Closed => Acted::Refused(11),
    }
}

/// A good block with the expected number, with so much text held together with it: "the slave gives RINT
/// instead of the ACK for the next good expected block".
fn append(open: OpenStation, last: bool, all: u64) -> Acted {
    let reply = match open.interrupt {
        Interrupt::Pending => Reply::Rint,
        Interrupt::Possible | Interrupt::Given => Reply::Ack(open.expected),
    };
    let (complete, message, held) = if last { (1, all, 0) } else { (0, 0, all) };
    let then = OpenStation {
        expected: [1, 2, 3, 4, 5, 6, 7, 0][open.expected as usize],
        held,
        ..open.after(reply)
    };
    let [reply, number] = reply.words();
    Acted::Done(
        Station::Open(then).words(),
        [reply, number, complete, message],
        Some(open.held as usize),
    )
}

/// What the station says to one of the reported units: the reply and, where a message is complete, its
/// text.
#[derive(Clone, Debug, PartialEq, Eq)]
pub struct Answer {
    pub reply: Reply,
    pub message: Option<Vec<u8>>,
}

/// What a station says, or the number that refuses.
pub type Said = Result<Answer, u64>;

fn says(reply: Reply) -> Said {
    let message = None;
    Ok(Answer { reply, message })
}

/// A block taken since the opening.
struct Taken<'a> {
    number: u64,
    ending: u64,
    text: &'a [u8],
}

/// A station since it was opened: the blocks that it took, all replies that it gave, and whether RINT was
/// asked for and not yet given.
#[derive(Default)]
struct Opening<'a> {
    taken: Vec<Taken<'a>>,
    replies: Vec<Reply>,
    is_asked: bool,
}

/// What the station says to each of the units, from before the first opening, with so much space for
/// a message. Here the expected number is counted from the blocks taken since the opening, a duplicate
/// repeats the newest of them, the text held is the texts of those since the last ETX, and what is given
/// again on ENQ is the newest of the replies.
pub fn answers(units: &[Unit], space: usize) -> Vec<Said> {
    let mut opening: Option<Opening> = None;
    let said = units.iter();
    said.map(|unit| {
        let said = unit_answer(&mut opening, unit, space);
        if let (Some(opening), Ok(answer)) = (&mut opening, &said) {
            let reply = Some(answer.reply).filter(|reply| *reply != Reply::Nothing);
            opening.replies.extend(reply);
        }
        said
    })
    .collect()
}

fn unit_answer<'a>(station: &mut Option<Opening<'a>>, unit: &Unit<'a>, space: usize) -> Said {
    match (*unit, station.as_mut()) {
        (Unit::Opened, _) => *station = Some(Opening::default()),
        (Unit::End, _) => *station = None,
        (Unit::Interrupt, None) => return Err(11),
        (Unit::Interrupt, Some(opening)) => return opening.asked(),
        (_, None) => {}
        (Unit::Bad | Unit::Enquiry, Some(_)) => return says(Reply::Nak),
        (Unit::BareEnq, Some(opening)) => {
            return says(opening.replies.last().copied().unwrap_or(Reply::Nak));
        }
        (
            Unit::Block {
                number,
                ending,
                text,
            },
            Some(opening),
        ) => {
            let block = Taken {
                number,
                ending,
                text,
            };
            let said = opening.block(block, space);
            if said == says(Reply::Eot) {
                *station = None;
            }
            return said;
        }
    }
    says(Reply::Nothing)
}

impl<'a> Opening<'a> {
    fn block(&mut self, block: Taken<'a>, space: usize) -> Said {
        let number = block.number;
        if number != due(&self.taken) {
            let is_duplicate = number == newest(&self.taken);
            return says(match is_duplicate {
                true => Reply::Ack(number),
                false => Reply::Nak,
            });
        }
        let whole = last_texts(&self.taken, block.text);
        if whole.len() > space {
            return says(Reply::Eot);
        }
        let is_last = block.ending == ETX;
        self.taken.push(block);
        Ok(Answer {
            reply: self.acknowledges(number),
            message: is_last.then_some(whole),
        })
    }

    /// The newest of the ACKs and RINTs tells whether there was an ACK since the last RINT.
    fn asked(&mut self) -> Said {
        let acknowledging = |reply: &&Reply| matches!(reply, Reply::Ack(_) | Reply::Rint);
        let newest = self.replies.iter().rev().find(acknowledging);
        if self.is_asked || newest == Some(&Reply::Rint) {
            return Err(11);
        }
        self.is_asked = true;
        says(Reply::Nothing)
    }

    /// The reply to a block that was taken; a RINT is given once for each asking.
    fn acknowledges(&mut self, number: u64) -> Reply {
        match std::mem::take(&mut self.is_asked) {
            true => Reply::Rint,
            false => Reply::Ack(number),
        }
    }
}

/// The first block of an opening has number 1, and the one after 7 has 0.
fn due(taken: &[Taken]) -> u64 {
    (1 + taken.len() as u64) % 8
}

/// The number "just before the expected one" is that of the block taken last. Before the first block,
/// which has number 1, it is 0.
fn newest(taken: &[Taken]) -> u64 {
    taken.last().map_or(0, |block| block.number)
}

/// The texts since the last ETX, and one more.
fn last_texts(taken: &[Taken], text: &[u8]) -> Vec<u8> {
    let ended = taken.iter().rposition(|block| block.ending == ETX);
    let current = &taken[ended.map_or(0, |index| index + 1)..];
    let mut texts: Vec<&[u8]> = current.iter().map(|block| block.text).collect();
    texts.push(text);
    texts.concat()
}
