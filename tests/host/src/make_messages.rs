//! Makes messages: from their fields, from the real ones, and damaged ones.

use crate::make::CARRIAGE_RETURN;
use crate::real;
use host::prng::Random;

pub const BAR: u8 = b'|';

/// Document 01's three messages.
pub const ANSWER_17: &[u8] = b"MSH|^~\\&|||||||ACK|17|P|2.3.1\rMSA|AA|17||17\r";
pub const CONTROL_0: &[u8] = b"MSH|^~\\&|||||||ADT|0|P|2.3.1|0\r";
pub const CONTROL_MINUS_1: &[u8] = b"MSH|^~\\&|||||||ADT|-1|P|2.3.1|-1\r";

/// A message by its pieces: those between the bars of its first two segments, whose names come
/// first, and all bytes after them. Without a piece there is no second segment.
#[derive(Clone)]
pub struct Pieces {
    pub header: Vec<Vec<u8>>,
    pub second: Vec<Vec<u8>>,
    pub rest: Vec<u8>,
}

impl Pieces {
    /// A header with MSH-10 and MSH-13, and an MSA segment with MSA-1, MSA-2 and MSA-4; the other
    /// fields are as in written messages.
    pub fn new(control_id: &[u8], sequence: &[u8], answer: [&[u8]; 3]) -> Pieces {
        let [code, answered_id, expected] = answer;
        let header: [&[u8]; 13] = [
            b"MSH", b"^~\\&", b"", b"", b"", b"", b"", b"", b"ADT", control_id, b"P", b"2.3.1",
            sequence,
        ];
        let second: [&[u8]; 5] = [b"MSA", code, answered_id, b"", expected];
        Pieces {
            header: owned(&header),
            second: owned(&second),
            rest: Vec::new(),
        }
    }

    pub fn bytes(&self) -> Vec<u8> {
        let mut bytes = self.header.join(&BAR);
        bytes.push(CARRIAGE_RETURN);
        if !self.second.is_empty() {
            bytes.extend(self.second.join(&BAR));
            bytes.push(CARRIAGE_RETURN);
        }
        bytes.extend_from_slice(&self.rest);
        bytes
    }

    /// Fills the fields that are not read, adds some behind, and more segments.
    pub fn fill(&mut self, random: &mut Random) {
        for index in [2, 3, 4, 5, 6, 7, 8, 10, 11] {
            if random.one_in(3) {
                let length = random.below(9);
                self.header[index] = field(random, length);
            }
        }
        for segment in [&mut self.header, &mut self.second] {
            for _ in 0..random.pick(&[0, 0, 0, 1, 2, 6]) {
                let length = random.pick(&[0, 0, 1, 4]);
                segment.push(field(random, length));
            }
        }
        let rests: [&[u8]; 7] = [
            b"",
            b"",
            b"\r",
            b"MSA|AE|9||9\r",
            b"PID|",
            b"ERR\r",
            b"|MSH|",
        ];
        self.rest = random.pick(&rests).to_vec();
    }
}

fn owned(pieces: &[&[u8]]) -> Vec<Vec<u8>> {
    pieces.iter().map(|piece| piece.to_vec()).collect()
}

/// Bytes that may stand in a field: any but bar and CR, most of them text.
pub fn field(random: &mut Random, length: usize) -> Vec<u8> {
    let byte = |random: &mut Random| match random.below(12) {
        0 => random.pick(b"\x00\x0A\x0B\x1C\x7F\x80\x8D\xFC\xFF"),
        1 => random.pick(b"^~\\& -+"),
        2..=6 => random.between(b'0'.into(), b'9'.into()) as u8,
        _ => random.between(b'A'.into(), b'Z'.into()) as u8,
    };
    (0..length).map(|_| byte(random)).collect()
}

/// A control ID that can be written: 1 to 20 bytes of 20 to 7E without a bar.
pub fn control_id(random: &mut Random) -> Vec<u8> {
    let length = random.between(1, 20);
    let byte = |random: &mut Random| match random.between(0x20, 0x7D) as u8 {
        BAR => b'~',
        byte => byte,
    };
    (0..length).map(|_| byte(random)).collect()
}

pub fn digits(random: &mut Random, length: usize) -> Vec<u8> {
    (0..length)
        .map(|_| random.between(b'0'.into(), b'9'.into()) as u8)
        .collect()
}

/// What may stand in a number's field; most of it is a number.
pub fn number(random: &mut Random) -> Vec<u8> {
    const ODD: [&[u8]; 12] = [
        b"", b"-1", b"-1", b"0", b"-01", b"+1", b"-0", b"-2", b"1-", b"17^x", b"\"\"", b" 1",
    ];
    match random.below(8) {
        0 | 1 => random.pick(&ODD).to_vec(),
        2 => {
            let near = random.below(5) as u64;
            (999_999_999_999_996 + near).to_string().into_bytes()
        }
        3 => {
            let length = random.between(12, 18);
            digits(random, length)
        }
        4 => {
            let zeros = random.below(16);
            let length = random.below(4);
            [vec![b'0'; zeros], digits(random, length)].concat()
        }
        _ => {
            let length = random.between(1, 9);
            digits(random, length)
        }
    }
}

pub fn code(random: &mut Random) -> Vec<u8> {
    const CODES: [&[u8]; 14] = [
        b"AA", b"AA", b"AE", b"AE", b"AR", b"AR", b"CA", b"CR", b"", b"A", b"aa", b"AAA", b"AR ",
        b"EA",
    ];
    random.pick(&CODES).to_vec()
}

/// A message with good fields, most of them.
pub fn pieces(random: &mut Random) -> Pieces {
    let length = random.pick(&[1, 2, 7, 19, 20, 20, 21, 0]);
    let control_id = field(random, length);
    let answered_id = if random.one_in(3) {
        let length = random.below(26);
        field(random, length)
    } else {
        control_id.clone()
    };
    let (sequence, expected) = (number(random), number(random));
    let code = code(random);
    let mut pieces = Pieces::new(&control_id, &sequence, [&code, &answered_id, &expected]);
    pieces.fill(random);
    pieces
}

/// The segments of a message, each with its CR; the last may have none.
pub fn segments(message: &[u8]) -> Vec<Vec<u8>> {
    let ends = message.split_inclusive(|&byte| byte == CARRIAGE_RETURN);
    ends.map(<[u8]>::to_vec).collect()
}

/// Swaps two segments of a message, by number; what has no such segment stays as it is.
pub fn swapped(message: &[u8], one: usize, other: usize) -> Vec<u8> {
    let mut list = segments(message);
    if one < list.len() && other < list.len() {
        list.swap(one, other);
    }
    list.concat()
}

/// Puts a segment before the one of this number, or at the end.
pub fn with_segment(message: &[u8], index: usize, segment: &[u8]) -> Vec<u8> {
    let mut list = segments(message);
    list.insert(index.min(list.len()), segment.to_vec());
    list.concat()
}

/// Changes the pieces between the bars of one segment.
pub fn with_fields(
    message: &[u8],
    index: usize,
    change: impl FnOnce(&mut Vec<Vec<u8>>),
) -> Vec<u8> {
    let mut list = segments(message);
    if let Some(segment) = list.get_mut(index) {
        let (body, end) = match segment.split_last() {
            Some((&CARRIAGE_RETURN, body)) => (body, &b"\r"[..]),
            _ => (&segment[..], &b""[..]),
        };
        let mut fields = owned(&body.split(|&byte| byte == BAR).collect::<Vec<_>>());
        change(&mut fields);
        *segment = [&fields.join(&BAR), end].concat();
    }
    list.concat()
}

/// The offsets at which a byte stands.
pub fn offsets(message: &[u8], wanted: u8) -> Vec<usize> {
    let bytes = message.iter().enumerate();
    bytes
        .filter(|(_, &byte)| byte == wanted)
        .map(|(offset, _)| offset)
        .collect()
}

/// A message with some bytes in the stead of those in a range.
pub fn with_bytes(message: &[u8], range: std::ops::Range<usize>, bytes: &[u8]) -> Vec<u8> {
    [&message[..range.start], bytes, &message[range.end..]].concat()
}

/// The real messages; answers made of each real header and each real MSA segment; those with a
/// number in MSH-13 and MSA-4; and document 01's three.
pub fn corpus() -> Vec<Vec<u8>> {
    let mut list: Vec<Vec<u8>> = real::MESSAGES.map(|(message, _)| message.to_vec()).into();
    for index in 0..list.len() {
        for (number, segment) in segments(real::SEGMENTS).iter().take(3).enumerate() {
            let answer = with_segment(&list[index], 1, segment);
            let digits = [&b"17"[..], b"-1", b"999999999999999"][number];
            let set = |fields: &mut Vec<Vec<u8>>, field: usize| {
                fields.resize(fields.len().max(field + 1), Vec::new());
                fields[field] = digits.to_vec();
            };
            let numbered = with_fields(&answer, 1, |fields| set(fields, 4));
            list.push(with_fields(&numbered, 0, |fields| set(fields, 12)));
            list.push(answer);
        }
    }
    list.extend([ANSWER_17, CONTROL_0, CONTROL_MINUS_1].map(<[u8]>::to_vec));
    list
}

/// One random change, most of them in the first two segments.
pub fn damaged(random: &mut Random, message: &[u8]) -> Vec<u8> {
    let near = message.len().min(200);
    let any = random.below(near + 1);
    let segment = random.below(3);
    let special = random.pick(b"||\r\r\n017-+ A\x00\xFF");
    match random.below(10) {
        0 => message[..random.below(message.len() + 1)].to_vec(),
        1 => with_bytes(message, any..any, &[special]),
        2 => with_bytes(message, any..near.min(any + 1), &[special]),
        3 => with_bytes(message, any..near.min(any + 1), b""),
        4 => {
            let other = random.below(4);
            swapped(message, segment, other)
        }
        5 => with_fields(message, segment.min(1), |fields| {
            fields.remove(random.below(fields.len()));
        }),
        6 => with_fields(message, segment.min(1), |fields| {
            let (one, other) = (random.below(fields.len()), random.below(fields.len()));
            fields.swap(one, other);
        }),
        7 => {
            let wanted = random.pick(&[BAR, CARRIAGE_RETURN]);
            let list = offsets(&message[..near], wanted);
            if list.is_empty() {
                return message.to_vec();
            }
            let offset = random.pick(&list);
            let bytes: [&[u8]; 4] = [b"", b"||", b"\r\r", b"\n"];
            with_bytes(message, offset..offset + 1, random.pick(&bytes))
        }
        8 => {
            let (index, wanted) = random.pick(&[(0, 9), (0, 12), (1, 1), (1, 2), (1, 4)]);
            let bytes = if wanted % 4 == 0 {
                number(random)
            } else {
                let length = random.below(23);
                field(random, length)
            };
            with_fields(message, index, |fields| {
                if let Some(field) = fields.get_mut(wanted) {
                    *field = bytes;
                }
            })
        }
        _ => with_segment(message, segment, b"MSA|AA|17||17\r"),
    }
}
