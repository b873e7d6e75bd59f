//! Makes what the two ends take: requests, answers, blocks and acts, right and wrong ones.

use crate::make_messages::{self, BAR};
use host::message_model::{LARGEST_EXPECTED, LARGEST_SENT};
use host::prng::Random;
use host::receiver_model::Incoming;
use host::sender_model::{Act, Circuit, Message, Sender};

const DATA_BLOCK: u64 = b'D' as u64;
const NAK_BLOCK: u64 = b'N' as u64;

/// Bytes of a field that any block may hold.
fn text(random: &mut Random, most: usize) -> Vec<u8> {
    let length = random.below(most + 1);
    let byte = |random: &mut Random| match random.between(0x20, 0x7D) as u8 {
        BAR => b'~',
        byte => byte,
    };
    (0..length).map(|_| byte(random)).collect()
}

/// MSH-10, MSH-13 and perhaps other fields; without MSH-13 there are too few bars for it.
fn header(random: &mut Random, control_id: &[u8], sequence: Option<&[u8]>) -> Vec<u8> {
    let mut fields: Vec<Vec<u8>> = [
        &b"MSH"[..],
        b"^~\\&",
        b"",
        b"",
        b"",
        b"",
        b"",
        b"",
        b"ADT",
        control_id,
        b"P",
        b"2.3.1",
    ]
    .map(<[u8]>::to_vec)
    .into();
    if random.one_in(4) {
        for index in [2, 3, 4, 6, 8, 10, 11] {
            fields[index] = text(random, 6);
        }
    }
    match sequence {
        Some(sequence) => {
            fields.push(sequence.to_vec());
            for _ in 0..random.pick(&[0, 0, 0, 1, 3]) {
                fields.push(text(random, 3));
            }
        }
        None => fields.truncate(random.between(10, 12)),
    }
    let mut segment = fields.join(&BAR);
    segment.push(b'\r');
    segment
}

/// A request: a header, and sometimes more segments.
pub fn request(random: &mut Random, control_id: &[u8], sequence: Option<&[u8]>) -> Vec<u8> {
    let mut message = header(random, control_id, sequence);
    let rests: [&[u8]; 6] = [
        b"",
        b"",
        b"PID|||17\r",
        b"PID|||17",
        b"\r",
        b"MSA|AA|17||17\r",
    ];
    message.extend_from_slice(random.pick(&rests));
    message
}

/// An answer with its own control ID; without MSA-4 there are too few bars for it.
pub fn answer(
    random: &mut Random,
    own_id: &[u8],
    code: &[u8],
    answered_id: &[u8],
    expected: Option<&[u8]>,
) -> Vec<u8> {
    let sequence = random.pick(&[None, None, Some(&b"17"[..]), Some(b"")]);
    let mut message = header(random, own_id, sequence);
    let mut fields: Vec<&[u8]> = vec![b"MSA", code, answered_id];
    if let Some(expected) = expected {
        fields.extend([b"", expected]);
        if random.one_in(4) {
            fields.extend([&b""[..], b"text"]);
        }
    } else if random.one_in(2) {
        fields.push(b"");
    }
    message.extend(fields.join(&BAR));
    message.push(b'\r');
    let rests: [&[u8]; 4] = [b"", b"", b"ERR|", b"MSA|AA|0||-1\r"];
    message.extend_from_slice(random.pick(&rests));
    message
}

/// Control IDs that can't be read.
fn unreadable_id(random: &mut Random) -> Vec<u8> {
    let length = random.pick(&[0, 21, 22, 40]);
    vec![b'7'; length]
}

/// Data without a readable header: not begun MSH|, the first segment not ended, MSH-10 empty, too
/// long or missing.
pub fn without_header(random: &mut Random, sequence: &[u8]) -> Vec<u8> {
    match random.below(6) {
        0 => Vec::new(),
        1 => {
            let begins: [&[u8]; 6] = [b"msh|", b"MSH^", b"MSA|", b" MSH|", b"\rMSH|", b"MS|"];
            let message = request(random, b"17", Some(sequence));
            [random.pick(&begins), &message[4..]].concat()
        }
        2 => {
            let message = header(random, b"17", Some(sequence));
            message[..message.len() - 1].to_vec()
        }
        3 => {
            let bars = random.between(1, 8);
            [&b"MSH"[..], &vec![BAR; bars], b"17\r"].concat()
        }
        _ => {
            let id = unreadable_id(random);
            request(random, &id, Some(sequence))
        }
    }
}

/// Data that is no answer: without a readable header, or without an MSA segment after it.
pub fn without_answer(random: &mut Random, answered_id: &[u8]) -> Vec<u8> {
    let segments: [&[u8]; 9] = [
        b"", b"MSA", b"MSA\r", b"MSB|", b"msa|", b"\rMSA|", b"MSA", b"|MSA|", b"MSH|",
    ];
    match random.below(4) {
        0 => without_header(random, answered_id),
        1 => {
            let id = unreadable_id(random);
            answer(random, &id, b"AA", answered_id, Some(answered_id))
        }
        2 => {
            let begin = header(random, b"17", None);
            [&begin[..], random.pick(&segments), b"AA|17||17\r"].concat()
        }
        _ => {
            let begin = header(random, b"17", None);
            [&begin[..], b"MSA|AA|", answered_id, b"||", answered_id].concat()
        }
    }
}

/// A number in plain decimal, or with zeros before it as far as 15 digits allow.
pub fn decimal(random: &mut Random, number: u64) -> Vec<u8> {
    let plain = number.to_string().into_bytes();
    let most = 15 - plain.len().min(15);
    let zeros = if random.one_in(6) {
        random.below(most + 1)
    } else {
        0
    };
    [vec![b'0'; zeros], plain].concat()
}

/// What may stand in a number's field, often near a number; none where the field is missing.
pub fn near(random: &mut Random, number: u64) -> Option<Vec<u8>> {
    const ODD: [&[u8]; 11] = [
        b"-01",
        b"+1",
        b"-0",
        b"-2",
        b"1-",
        b"17^x",
        b"\"\"",
        b" 1",
        b"A",
        b"0000000000000017",
        b"1000000000000000",
    ];
    let bytes = match random.below(16) {
        0 => return None,
        1 => Vec::new(),
        2 => random.pick(&ODD).to_vec(),
        3 | 4 => b"-1".to_vec(),
        5 => decimal(random, 0),
        6 => decimal(random, LARGEST_SENT),
        7 => decimal(random, LARGEST_EXPECTED),
        8 => {
            let other = random.below(20) as u64;
            decimal(random, other)
        }
        9 => make_messages::digits(random, 15),
        _ => {
            let other = (number + random.below(5) as u64).saturating_sub(2);
            decimal(random, other)
        }
    };
    Some(bytes)
}

/// An act with its own bytes: D or r, and of a block its number and type.
pub struct Planned {
    kind: Kind,
    setting: u64,
    number: u64,
    block_type: u64,
    bytes: Vec<u8>,
}

#[derive(Clone, Copy, PartialEq, Eq)]
enum Kind {
    Submit,
    Open,
    Ended,
    Reset,
    Timer,
    Block,
}

impl Planned {
    fn plain(kind: Kind, setting: u64) -> Planned {
        Planned {
            kind,
            setting,
            number: 0,
            block_type: 0,
            bytes: Vec::new(),
        }
    }

    fn submit(limit: u64, bytes: Vec<u8>) -> Planned {
        Planned {
            bytes,
            ..Planned::plain(Kind::Submit, limit)
        }
    }

    fn data(resends: u64, bytes: Vec<u8>) -> Planned {
        Planned {
            block_type: DATA_BLOCK,
            bytes,
            ..Planned::plain(Kind::Block, resends)
        }
    }

    pub fn act(&self) -> Act<'_> {
        let resends = self.setting;
        match self.kind {
            Kind::Submit => Act::Submit {
                limit: self.setting,
                message: &self.bytes,
            },
            Kind::Open => Act::Open,
            Kind::Ended => Act::Ended,
            Kind::Reset => Act::Reset,
            Kind::Timer => Act::Timer { resends },
            Kind::Block => Act::Block {
                resends,
                block: Incoming {
                    number: self.number,
                    block_type: self.block_type,
                    data: &self.bytes,
                },
            },
        }
    }
}

/// The settings of one sender's history, good ones.
#[derive(Clone, Copy)]
pub struct Plan {
    pub resends: u64,
    pub limit: u64,
}

impl Plan {
    /// Some act for this state: one that makes progress, or any.
    pub fn any(&self, random: &mut Random, sender: &Sender, one_wild_in: usize) -> Planned {
        let mut planned = if random.one_in(one_wild_in) {
            self.wild(random, sender)
        } else {
            self.progress(random, sender)
        };
        if random.one_in(80) {
            spoil_setting(random, &mut planned);
        }
        planned
    }

    /// The act that brings the sender on.
    fn progress(&self, random: &mut Random, sender: &Sender) -> Planned {
        if sender.frozen {
            return Planned::plain(Kind::Reset, 0);
        }
        let undelivered = sender.last - sender.delivered;
        match sender.circuit {
            Circuit::Closed if undelivered > 0 || random.one_in(2) => Planned::plain(Kind::Open, 0),
            Circuit::Closed | Circuit::Idle => self.right_submit(random, sender),
            Circuit::Waiting(..) if undelivered < 3 && random.one_in(3) => {
                self.right_submit(random, sender)
            }
            Circuit::Waiting(message, _) => {
                let bytes = right_answer(random, sender, message);
                Planned::data(self.resends, bytes)
            }
        }
    }

    fn wild(&self, random: &mut Random, sender: &Sender) -> Planned {
        match random.below(16) {
            0 => self.right_submit(random, sender),
            1..=3 => self.wrong_submit(random, sender),
            4 => Planned::plain(Kind::Open, 0),
            5 => Planned::plain(Kind::Ended, 0),
            6 => Planned::plain(Kind::Reset, 0),
            7 | 8 => Planned::plain(Kind::Timer, self.resends),
            _ => self.wild_block(random, sender),
        }
    }

    /// The next number; where none is left the one after, which is no number.
    fn right_submit(&self, random: &mut Random, sender: &Sender) -> Planned {
        let next = sender.last + 1;
        let sequence = decimal(random, next);
        let id = next.to_string().into_bytes();
        let mut message = request(random, &id, Some(&sequence));
        if random.one_in(20) && self.limit <= 4096 || random.one_in(2000) {
            message.resize(self.limit as usize, b' ');
        }
        Planned::submit(self.limit, message)
    }

    fn wrong_submit(&self, random: &mut Random, sender: &Sender) -> Planned {
        let next = sender.last + 1;
        let id = next.to_string().into_bytes();
        let message = match random.below(8) {
            0 | 1 => {
                let sequence = near(random, next);
                request(random, &id, sequence.as_deref())
            }
            2 => {
                let wrong = near(random, next).unwrap_or_else(|| b"1 ".to_vec());
                let sequence = decimal(random, next);
                request(random, &wrong, Some(&sequence))
            }
            3 => {
                let number = (next + random.below(4) as u64).saturating_sub(2);
                let id = number.to_string().into_bytes();
                request(random, &id, Some(&id))
            }
            4 => without_header(random, &id),
            5 => {
                let bytes = self.right_submit(random, sender).bytes;
                with_forbidden(random, bytes)
            }
            6 if self.limit <= 4096 || random.one_in(50) => self.over_limit(random, sender),
            _ => {
                let bytes = without_header(random, &id);
                with_forbidden(random, bytes)
            }
        };
        Planned::submit(self.limit, message)
    }

    /// Too long by a byte or some, and perhaps wrong in other ways too.
    fn over_limit(&self, random: &mut Random, sender: &Sender) -> Vec<u8> {
        let mut bytes = self.right_submit(random, sender).bytes;
        let more = random.pick(&[1, 1, 2, 40]);
        bytes.resize(self.limit as usize + more, b' ');
        if random.one_in(3) {
            bytes = with_forbidden(random, bytes);
        }
        bytes
    }

    /// A refused block, an N block, data that is no answer, or an answer to what waits or to
    /// something else, with any code and number.
    fn wild_block(&self, random: &mut Random, sender: &Sender) -> Planned {
        let message = match sender.circuit {
            Circuit::Waiting(message, _) => message,
            Circuit::Closed | Circuit::Idle => random.pick(&[
                Message::MinusOne,
                Message::Zero,
                Message::Transaction(sender.last),
            ]),
        };
        let id = message.control_id().into_bytes();
        let bytes = match random.below(12) {
            0..=2 => return self.refused_block(random, sender, message),
            3 | 4 => return self.nak_block(random, sender, message),
            5 | 6 => without_answer(random, &id),
            7 | 8 => {
                let foreign = foreign_id(random, &id, sender);
                any_answer(random, &foreign, sender)
            }
            _ => any_answer(random, &id, sender),
        };
        Planned::data(self.resends, bytes)
    }

    fn refused_block(&self, random: &mut Random, sender: &Sender, message: Message) -> Planned {
        let number = random.between(3, 8) as u64;
        let bytes = right_answer(random, sender, message);
        Planned {
            number,
            block_type: random.pick(&[0, DATA_BLOCK, NAK_BLOCK]),
            ..Planned::data(self.resends, bytes)
        }
    }

    fn nak_block(&self, random: &mut Random, sender: &Sender, message: Message) -> Planned {
        let bytes = if random.one_in(4) {
            right_answer(random, sender, message)
        } else {
            vec![random.pick(b"CXBG")]
        };
        Planned {
            block_type: NAK_BLOCK,
            ..Planned::data(self.resends, bytes)
        }
    }
}

/// A setting outside its range, or the number of no verdict.
fn spoil_setting(random: &mut Random, planned: &mut Planned) {
    match planned.kind {
        Kind::Submit => planned.setting = random.pick(&[0, 1, 127, 99_995, 100_000, u64::MAX]),
        Kind::Block if random.one_in(2) => {
            planned.number = random.pick(&[1, 2, 9, 10, 11, 12, 256, u64::MAX]);
        }
        _ => planned.setting = random.pick(&[100, 101, 255, 256, 1 << 32, u64::MAX]),
    }
}

/// The same bytes with one that no data may have.
fn with_forbidden(random: &mut Random, mut bytes: Vec<u8>) -> Vec<u8> {
    for _ in 0..random.between(1, 2) {
        let byte = random.pick(b"\x00\x01\x0A\x0B\x0C\x0E\x1C\x1F\x7F\x80\xFF");
        let offset = match random.below(4) {
            0 => bytes.len(),
            1 => 0,
            _ => random.below(bytes.len() + 1),
        };
        if offset < bytes.len() && random.one_in(2) {
            bytes[offset] = byte;
        } else {
            bytes.insert(offset, byte);
        }
    }
    bytes
}

/// An answer that doesn't freeze the sender.
fn right_answer(random: &mut Random, sender: &Sender, message: Message) -> Vec<u8> {
    let id = message.control_id().into_bytes();
    let fresh = sender.delivered + 1 == sender.first;
    let submitted = sender.delivered < sender.last;
    let (code, expected): (&[u8], _) = match message {
        Message::MinusOne => (b"AA", None),
        Message::Zero if fresh && random.one_in(2) => (b"AA", None),
        Message::Zero if submitted && random.one_in(2) => (b"AA", Some(sender.delivered + 2)),
        Message::Zero => (b"AA", Some(sender.delivered + 1)),
        Message::Transaction(number) => match random.below(4) {
            0 => (b"AE", Some(number)),
            1 => (b"AR", Some(number + 1)),
            _ => (b"AA", Some(number)),
        },
    };
    let expected = match expected {
        Some(number) => decimal(random, number),
        None => b"-1".to_vec(),
    };
    let own_id = if random.one_in(8) {
        make_messages::control_id(random)
    } else {
        id.clone()
    };
    answer(random, &own_id, code, &id, Some(&expected))
}

/// An answer with this MSA-2 and any code and number, half of them near what would be right.
fn any_answer(random: &mut Random, answered_id: &[u8], sender: &Sender) -> Vec<u8> {
    const CODES: [&[u8]; 12] = [
        b"AA", b"AA", b"AA", b"AE", b"AE", b"AR", b"AR", b"CA", b"aa", b"", b"AAA", b"A",
    ];
    let own_id = make_messages::control_id(random);
    let delivered = sender.delivered;
    let (code, expected) = if random.one_in(2) {
        let number = random.pick(&[
            None,
            Some(0),
            Some(delivered),
            Some(delivered + 1),
            Some(delivered + 2),
            Some(delivered + 3),
            Some(sender.first),
        ]);
        let expected = number.map_or(b"-1".to_vec(), |number| decimal(random, number));
        (random.pick(&CODES[..7]), Some(expected))
    } else {
        let number = random.pick(&[sender.last, sender.first, delivered + 1, delivered + 1]);
        (random.pick(&CODES), near(random, number))
    };
    answer(random, &own_id, code, answered_id, expected.as_deref())
}

/// A control ID that is not the one given, most of them like it.
fn foreign_id(random: &mut Random, id: &[u8], sender: &Sender) -> Vec<u8> {
    loop {
        let other = match random.below(8) {
            0 => b"-1".to_vec(),
            1 => b"0".to_vec(),
            2 => [b"0", id].concat(),
            3 => [id, b" "].concat(),
            4 => id[..id.len() - 1].to_vec(),
            5 => make_messages::control_id(random),
            _ => {
                let number = (sender.delivered + random.below(5) as u64).saturating_sub(1);
                number.to_string().into_bytes()
            }
        };
        if other != id {
            return other;
        }
    }
}

/// A sender's act on an accepted data block.
pub fn data_block(resends: u64, data: &[u8]) -> Act<'_> {
    with_type(resends, DATA_BLOCK, data)
}

/// The same on an N block.
pub fn nak_block(resends: u64, data: &[u8]) -> Act<'_> {
    with_type(resends, NAK_BLOCK, data)
}

pub fn with_type(resends: u64, block_type: u64, data: &[u8]) -> Act<'_> {
    Act::Block {
        resends,
        block: Incoming {
            number: 0,
            block_type,
            data,
        },
    }
}

/// The same on a refused block.
pub fn refused_block(resends: u64, number: u64) -> Act<'static> {
    Act::Block {
        resends,
        block: Incoming {
            number,
            block_type: 0,
            data: &[],
        },
    }
}
