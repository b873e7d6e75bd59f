//! Units that a driver might report to a station, mostly near what the station expects and what its
//! buffer still takes.

use host::prng::Random;
use host::station_model::{Station, Unit, ETB, ETX, STATION_WORDS};

/// A unit with a text of its own.
#[derive(Clone, Debug)]
pub enum Planned {
    Opened,
    Block {
        number: u64,
        ending: u64,
        text: Vec<u8>,
    },
    Bad,
    Enquiry,
    End,
    BareEnq,
    Interrupt,
}

impl Planned {
    pub fn unit(&self) -> Unit<'_> {
        match self {
            Planned::Opened => Unit::Opened,
            Planned::Block {
                number,
                ending,
                text,
            } => Unit::Block {
                number: *number,
                ending: *ending,
                text,
            },
            Planned::Bad => Unit::Bad,
            Planned::Enquiry => Unit::Enquiry,
            Planned::End => Unit::End,
            Planned::BareEnq => Unit::BareEnq,
            Planned::Interrupt => Unit::Interrupt,
        }
    }
}

pub fn block(number: u64, ending: u64, text: &[u8]) -> Unit<'_> {
    Unit::Block {
        number,
        ending,
        text,
    }
}

/// The words of the last reply and of RINT that an open station may have at any expected number.
pub const REPLY_WORDS: [[u64; 2]; 6] = [[1, 0], [1, 1], [2, 0], [2, 1], [2, 2], [5, 2]];

/// Words of an open station with such a pair, or with those from before its first reply.
pub fn open_words(random: &mut Random, expected: u64, held: u64) -> [u64; STATION_WORDS] {
    let [last_reply, interrupt] = match random.below(8) {
        0 if expected == 1 && held == 0 => [0, 0],
        1 if expected == 1 && held == 0 => [0, 1],
        _ => random.pick(&REPLY_WORDS),
    };
    [1, expected, held, last_reply, interrupt]
}

/// Numbers of 64 bits whose low bits are those of a small one, and others.
pub fn large_numbers(number: u64) -> [u64; 8] {
    [
        number + 8,
        number + 16,
        number + 256,
        number + (1 << 32),
        number + (1 << 63),
        number.wrapping_sub(8),
        u64::MAX - number,
        u64::MAX,
    ]
}

/// The number so many before a number of 0 to 7, counting round from 0 back to 7.
pub fn number_before(number: u64, count: u64) -> u64 {
    (number + 8 - count) % 8
}

/// A block number near the expected one, most often the one just before it, any of a byte's, or a
/// large one.
pub fn any_number(random: &mut Random, expected: u64) -> u64 {
    match random.below(10) {
        0..=2 => number_before(expected, 1),
        3 => number_before(expected, random.between(2, 7) as u64),
        4 => expected + 1 + random.below(3) as u64,
        5 | 6 => random.below(8) as u64,
        7 => u64::from(random.byte()),
        8 => random.pick(&large_numbers(expected)),
        _ => random.draw(),
    }
}

/// A text's length around the space left, or short.
pub fn any_length(random: &mut Random, left: usize) -> usize {
    match random.below(16) {
        0 => left,
        1 => left + 1,
        2 => left.saturating_sub(1),
        3 => left + random.below(20),
        4 => random.below(left + 1),
        5 | 6 => 0,
        _ => random.below(left.min(12) + 1),
    }
}

/// What the station expects, and the space left in a buffer of so many bytes.
pub fn expected_and_left(station: &Station, space: usize) -> (u64, usize) {
    match *station {
        Station::Closed => (1, space),
        Station::Open(open) => (open.expected, space.saturating_sub(open.held as usize)),
    }
}

/// A block of which the number is the expected one but once in so many times.
pub fn near_block(random: &mut Random, station: &Station, space: usize, wrong: usize) -> Planned {
    let (expected, left) = expected_and_left(station, space);
    let number = if random.one_in(wrong) {
        any_number(random, expected)
    } else {
        expected
    };
    let length = any_length(random, left);
    Planned::Block {
        number,
        ending: random.pick(&[ETX, ETB, ETB]),
        text: random.bytes(length),
    }
}

/// Any unit; a closed station is mostly opened.
pub fn any_unit(random: &mut Random, station: &Station, space: usize) -> Planned {
    if *station == Station::Closed && random.one_in(2) {
        return Planned::Opened;
    }
    match random.below(48) {
        0 => Planned::Opened,
        1 => Planned::End,
        2 | 3 => Planned::Bad,
        4 | 5 => Planned::Enquiry,
        6..=11 => Planned::BareEnq,
        12..=17 => Planned::Interrupt,
        _ => near_block(random, station, space, 3),
    }
}
