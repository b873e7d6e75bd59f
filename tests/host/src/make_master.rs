//! What a driver might tell a master, mostly near the block that is out.

use crate::make_station::{large_numbers, number_before};
use host::master_model::{
    Master, MasterAct, Told, MASTER_WORDS, REPLY_ACK, REPLY_DAMAGED, REPLY_EOT, REPLY_NAK,
    REPLY_RINT,
};
use host::prng::Random;

/// What the driver tells, with a message of its own.
#[derive(Clone, Debug)]
pub enum PlannedTold {
    Open,
    Start { message: Vec<u8>, block_size: u64 },
    Reply { reply: u64, number: u64 },
    Timer,
    Close,
    Enquire,
    MayReceive,
}

impl PlannedTold {
    pub fn told(&self) -> Told<'_> {
        match self {
            PlannedTold::Open => Told::Open,
            PlannedTold::Start {
                message,
                block_size,
            } => Told::Start {
                message,
                block_size: *block_size,
            },
            PlannedTold::Reply { reply, number } => Told::Reply {
                reply: *reply,
                number: *number,
            },
            PlannedTold::Timer => Told::Timer,
            PlannedTold::Close => Told::Close,
            PlannedTold::Enquire => Told::Enquire,
            PlannedTold::MayReceive => Told::MayReceive,
        }
    }

    /// Of an act without a message.
    fn of(act: MasterAct) -> PlannedTold {
        match act {
            MasterAct::Reply { reply, number } => PlannedTold::Reply { reply, number },
            MasterAct::Timer => PlannedTold::Timer,
            MasterAct::Close => PlannedTold::Close,
            MasterAct::Enquire => PlannedTold::Enquire,
            MasterAct::MayReceive => PlannedTold::MayReceive,
            MasterAct::Open | MasterAct::Start { .. } => PlannedTold::Open,
        }
    }
}

/// The number of the block that is out, or of the next.
pub fn own_number(master: &Master) -> u64 {
    (master.count() % 8 + 1) % 8
}

pub fn ack(number: u64) -> MasterAct {
    MasterAct::Reply {
        reply: REPLY_ACK,
        number,
    }
}

pub fn other_reply(reply: u64) -> MasterAct {
    MasterAct::Reply { reply, number: 0 }
}

/// The sizes at which a message of so many bytes is divided otherwise, and the largest.
pub fn sizes_around(length: u64) -> [u64; 5] {
    [
        1,
        length.saturating_sub(1),
        length,
        length.saturating_add(1),
        u64::MAX,
    ]
}

/// A number for an ACK: the block's own, the one just before, others of 0 to 7, any of a byte's, or a
/// large one.
pub fn any_ack_number(random: &mut Random, own: u64) -> u64 {
    match random.below(16) {
        0..=8 => own,
        9 | 10 => number_before(own, 1),
        11 => number_before(own, random.between(2, 7) as u64),
        12 => random.below(8) as u64,
        13 => u64::from(random.byte()),
        14 => random.pick(&large_numbers(own)),
        _ => random.draw(),
    }
}

/// A code that is no reply.
fn no_reply(random: &mut Random) -> u64 {
    match random.below(4) {
        0 => 0,
        1 => random.between(6, 260) as u64,
        2 => random.pick(&[256, 257, (1 << 32) + 1, (1 << 63) + 2, u64::MAX, !4, !1]),
        _ => random.draw(),
    }
}

/// Any reply, one in so many being EOT; codes that are none too.
pub fn any_reply(random: &mut Random, own: u64, ends: usize) -> MasterAct {
    let number = any_ack_number(random, own);
    let reply = match random.below(32) {
        0 => no_reply(random),
        1 | 2 => REPLY_DAMAGED,
        3..=5 => REPLY_NAK,
        6 if random.one_in(ends) => REPLY_EOT,
        7..=13 => REPLY_RINT,
        _ => REPLY_ACK,
    };
    MasterAct::Reply { reply, number }
}

/// A message and its block size. One in so many has hundreds of blocks.
pub fn any_message(random: &mut Random, long: usize) -> (Vec<u8>, u64) {
    if random.one_in(long) {
        let size = random.between(1, 3);
        let length = random.below(300 * size + 1);
        return (random.bytes(length), size as u64);
    }
    let length = match random.below(8) {
        0 => 0,
        1 => 1,
        _ => random.below(24),
    };
    let size = match random.below(4) {
        0 => random.pick(&sizes_around(length as u64)),
        1 if random.one_in(6) => 0,
        _ => random.between(1, 9) as u64,
    };
    (random.bytes(length), size)
}

/// Anything at any time; a closed master is mostly opened, and an idle one mostly given a message.
pub fn any_told(random: &mut Random, master: &Master, long: usize) -> PlannedTold {
    let own = own_number(master);
    let starts = match master {
        Master::Closed(_) if random.one_in(2) => return PlannedTold::Open,
        Master::Idle(..) if random.one_in(2) => true,
        _ => random.one_in(30),
    };
    if starts {
        let (message, block_size) = any_message(random, long);
        return PlannedTold::Start {
            message,
            block_size,
        };
    }
    PlannedTold::of(match random.below(60) {
        0 => MasterAct::Open,
        1 | 2 => MasterAct::Close,
        3..=8 => MasterAct::Timer,
        9..=15 => MasterAct::Enquire,
        16..=18 => MasterAct::MayReceive,
        _ => any_reply(random, own, 3),
    })
}

/// The last four words of a master with a block out at this offset, after so many acknowledged: any that go
/// with them.
pub fn reply_words(random: &mut Random, count: u64, offset: u64) -> [u64; 4] {
    let is_first = count == 0 && offset == 0;
    let [last_reply, interrupted] = match random.below(6) {
        0 | 1 if is_first => [0, 0],
        0 | 1 => [REPLY_ACK, 1],
        2 => [REPLY_ACK, 0],
        3 => [REPLY_NAK, 0],
        4 => [REPLY_NAK, 1],
        _ => [REPLY_RINT, 1],
    };
    let enquired = random.below(2) as u64;
    let may_receive = interrupted * random.below(2) as u64;
    [last_reply, interrupted, enquired, may_receive]
}

/// Words of a master with no block out after so many acknowledged.
pub fn idle_words(random: &mut Random, count: u64) -> [u64; MASTER_WORDS] {
    let [last_reply, interrupted, ..] = reply_words(random, count, 0);
    [1, 0, 0, 0, 0, count, last_reply, interrupted, 0, 0]
}

/// Words of a master with this block out after so many acknowledged.
pub fn waiting_words(random: &mut Random, out: [u64; 4], count: u64) -> [u64; MASTER_WORDS] {
    let [length, size, offset, resends] = out;
    let [last_reply, interrupted, enquired, may_receive] = reply_words(random, count, offset);
    [
        2,
        length,
        size,
        offset,
        resends,
        count,
        last_reply,
        interrupted,
        enquired,
        may_receive,
    ]
}

/// A number of 64 bits near its ends, near a power of two, small, or any.
pub fn any_word(random: &mut Random) -> u64 {
    let small = random.below(4) as u64;
    match random.below(8) {
        0 => small,
        1 => u64::MAX - small,
        2 => (1 << 63) - 2 + small,
        3 => (1 << 32) - 2 + small,
        4 => u64::MAX / 2 - small,
        5 => random.below(300) as u64,
        _ => random.draw(),
    }
}

/// A length, a block size and an offset in the message, near the ends of their ranges and of one
/// another.
pub fn any_lengths(random: &mut Random) -> [u64; 3] {
    let length = any_word(random);
    let near =
        |random: &mut Random, base: u64| base.wrapping_add(random.below(5) as u64).wrapping_sub(2);
    let offset = match random.below(5) {
        0 => 0,
        1 => near(random, length),
        2 => length.saturating_sub(1),
        3 => length / 2,
        _ => any_word(random),
    };
    let left = length.saturating_sub(offset);
    let size = match random.below(5) {
        0 => random.pick(&sizes_around(length)),
        1 => random.pick(&sizes_around(left)),
        2 => near(random, left),
        3 => near(random, left / 2),
        _ => any_word(random),
    };
    [length, size, offset]
}
