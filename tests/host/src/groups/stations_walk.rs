//! Every reachable state of a small link of the library's two X3.28 stations. A state is the words of both
//! stations, the units on the lines and what the sentences speak of; it goes from state to state by calls of
//! the C functions. The sentences are held in every state.

use crate::compare::{Compare, Outcome};
use crate::guarded::same;
use crate::stations_checks::{Given, Heard, Progress};
use crate::stations_counts::{StationsCounts, StationsKind as Kind};
use crate::stations_link::{Beginning, Link, MasterOf};
use crate::stations_plan::Plan;
use crate::stations_readings::Reading;
use crate::stations_units::{Back, BlockUnit, Forward, LinkAct, Way};
use std::collections::HashSet;
use std::hash::{BuildHasherDefault, Hasher};

/// How many units a key has bits for, each way.
const MOST_UNITS: usize = 4;

/// Which acts a walk has: those of request 3; enquiries, askings and leaves to receive as well; or also
/// repetition, noise, what looks like an ENQ or a NAK, and EOTs of the drivers at any moment.
#[derive(Clone, Copy, PartialEq, Eq, PartialOrd)]
enum Acts {
    Plain,
    Turning,
    Noisy,
}

/// A link to be walked: its messages by length and block size, how many units a line holds, the slave's
/// buffer, the acts, and how many states it has.
struct Walked {
    what: &'static str,
    messages: &'static [(usize, u64)],
    capacity: usize,
    buffer_length: usize,
    acts: Acts,
    states: usize,
}

/// Those with the acts of request 3.
const PLAIN: [Walked; 3] = [
    Walked {
        what: "9 blocks in 2 messages, 3 units each way",
        messages: &[(9, 2), (4, 1)],
        capacity: 3,
        buffer_length: 9,
        acts: Acts::Plain,
        states: 553_807,
    },
    Walked {
        what: "18 blocks in 3 messages, 3 units each way",
        messages: &[(9, 1), (0, 7), (15, 2)],
        capacity: 3,
        buffer_length: 15,
        acts: Acts::Plain,
        states: 1_158_149,
    },
    Walked {
        what: "10 blocks in 3 messages, the last too long for the slave, 3 units each way",
        messages: &[(5, 1), (0, 1), (7, 2)],
        capacity: 3,
        buffer_length: 5,
        acts: Acts::Plain,
        states: 531_400,
    },
];

/// Those with the acts of request 14.
const TURNING: [Walked; 2] = [
    Walked {
        what: "3 blocks in 2 messages, 2 units each way, with RINT and ENQ",
        messages: &[(2, 1), (1, 1)],
        capacity: 2,
        buffer_length: 2,
        acts: Acts::Turning,
        states: 700_866,
    },
    Walked {
        what: "3 blocks in 2 messages, the last too long for the slave, 2 units each way, with RINT and ENQ",
        messages: &[(1, 1), (3, 2)],
        capacity: 2,
        buffer_length: 2,
        acts: Acts::Turning,
        states: 512_828,
    },
];

/// One in which the numbers go round.
const LONG: [Walked; 1] = [Walked {
    what: "9 blocks in 2 messages, 2 units each way, with RINT and ENQ",
    messages: &[(9, 2), (4, 1)],
    capacity: 2,
    buffer_length: 9,
    acts: Acts::Turning,
    states: 2_534_346,
}];

/// One with noise.
const NOISY: [Walked; 1] = [Walked {
    what: "2 blocks in 1 message, 2 units each way, with RINT, ENQ and noise",
    messages: &[(2, 1)],
    capacity: 2,
    buffer_length: 2,
    acts: Acts::Noisy,
    states: 921_300,
}];

/// Those that are too large for every run.
const APART: [Walked; 4] = [
    Walked {
        what: "9 blocks in 2 messages, 4 units each way",
        messages: &[(9, 2), (4, 1)],
        capacity: 4,
        buffer_length: 9,
        acts: Acts::Plain,
        states: 2_542_319,
    },
    Walked {
        what: "3 blocks in 2 messages, 2 units each way, with RINT, ENQ and noise",
        messages: &[(2, 1), (1, 1)],
        capacity: 2,
        buffer_length: 2,
        acts: Acts::Noisy,
        states: 1_676_417,
    },
    Walked {
        what: "2 blocks in 1 message, 3 units each way, with RINT and ENQ",
        messages: &[(2, 1)],
        capacity: 3,
        buffer_length: 2,
        acts: Acts::Turning,
        states: 4_319_901,
    },
    Walked {
        what: "3 blocks in 2 messages, 3 units each way, with RINT and ENQ",
        messages: &[(2, 1), (1, 1)],
        capacity: 3,
        buffer_length: 2,
        acts: Acts::Turning,
        states: 8_154_389,
    },
];

/// A key is well spread already by two multiplications.
#[derive(Default)]
struct KeyHasher(u64);

impl Hasher for KeyHasher {
    fn finish(&self) -> u64 {
        self.0
    }

    fn write(&mut self, bytes: &[u8]) {
        for &byte in bytes {
            self.0 = (self.0 ^ u64::from(byte)).wrapping_mul(0x9E37_79B9_7F4A_7C15);
        }
    }

    fn write_u128(&mut self, key: u128) {
        let (low, high) = (key as u64, (key >> 64) as u64);
        let mixed = (low ^ high.rotate_left(32)).wrapping_mul(0x9E37_79B9_7F4A_7C15);
        self.0 = (mixed ^ (mixed >> 32)).wrapping_mul(0xD6E8_FEB8_6659_FD93);
    }
}

/// The bits of a state's key, written from the lowest on and read in the same order.
#[derive(Default)]
struct Bits {
    key: u128,
    used: u32,
    is_too_narrow: bool,
}

impl Bits {
    fn put(&mut self, value: u64, width: u32) {
        self.is_too_narrow |= value >> width != 0;
        self.key |= u128::from(value) << self.used;
        self.used += width;
    }

    fn take(&mut self, width: u32) -> u64 {
        let value = (self.key >> self.used) as u64 & ((1 << width) - 1);
        self.used += width;
        value
    }
}

const MASTER_WIDTHS: [u32; 10] = [2, 6, 4, 6, 3, 6, 3, 1, 1, 1];
const SLAVE_WIDTHS: [u32; 5] = [1, 3, 6, 3, 2];
const FORWARD_WIDTH: u32 = 6;
const BACK_WIDTH: u32 = 4;

/// What stands on the forward line: nothing is 0, and a block is its index and 4. What a damaged unit was
/// makes no difference to the library.
fn forward_code(plan: &Plan, unit: &Forward) -> Result<u64, String> {
    match unit {
        Forward::Eot => Ok(1),
        Forward::Damaged | Forward::DamagedEnq => Ok(2),
        Forward::Enq => Ok(3),
        Forward::Block(block) if *block == block_of(plan, block.index) => {
            Ok(4 + block.index as u64)
        }
        Forward::Block(_) | Forward::BlockEndedByEnq => Err(format!("{unit:?} on the line")),
    }
}

/// Numbers go on over the opening.
fn block_of(plan: &Plan, index: usize) -> BlockUnit {
    BlockUnit {
        number: (index as u64 + 1) % 8,
        block: plan.blocks[index],
        index,
    }
}

fn forward_unit(plan: &Plan, code: u64) -> Option<Forward> {
    match code {
        0 => None,
        1 => Some(Forward::Eot),
        2 => Some(Forward::Damaged),
        3 => Some(Forward::Enq),
        _ => Some(Forward::Block(block_of(plan, code as usize - 4))),
    }
}

fn back_code(unit: &Back) -> u64 {
    match *unit {
        Back::Nak => 1,
        Back::EotByStation => 2,
        Back::EotByDriver => 3,
        Back::Damaged => 4,
        Back::Rint => 5,
        Back::Ack(number) => 6 + number,
    }
}

fn back_unit(code: u64) -> Option<Back> {
    match code {
        0 => None,
        1 => Some(Back::Nak),
        2 => Some(Back::EotByStation),
        3 => Some(Back::EotByDriver),
        4 => Some(Back::Damaged),
        5 => Some(Back::Rint),
        _ => Some(Back::Ack(code - 6)),
    }
}

impl Link<'_> {
    /// The text held needs no bits of its own: it is that of the blocks accepted since the last ETX.
    fn check_held(&self) -> Outcome {
        let held = self.plan.held(self.progress.accepted);
        let is_open = self.slave[0] == 1;
        if is_open && (self.slave[2] != held.len() as u64 || !self.buffer.starts_with(held)) {
            return Err(format!("the slave holds {:?}", self.buffer));
        }
        let told = if self.master[0] == 2 {
            self.master[4]
        } else {
            0
        };
        if self.progress.resends != told {
            return Err(format!("{told} resends are told"));
        }
        Ok(())
    }

    fn key(&self, acts: Acts) -> Result<u128, String> {
        self.check_held()?;
        let mut bits = Bits::default();
        for (word, width) in self.master.into_iter().zip(MASTER_WIDTHS) {
            bits.put(word, width);
        }
        for (word, width) in self.slave.into_iter().zip(SLAVE_WIDTHS) {
            bits.put(word, width);
        }
        bits.put(u64::from(self.was_slave_open), 1);
        let was_rint_given = acts == Acts::Noisy && self.progress.was_rint_given;
        bits.put(u64::from(was_rint_given), 1);
        let progress = &self.progress;
        bits.put(progress.sent as u64, 6);
        bits.put(progress.accepted as u64, 6);
        for messages in [progress.started, progress.handed_over, progress.done] {
            bits.put(messages as u64, 2);
        }
        for index in 0..MOST_UNITS {
            let unit = self.forward.get(index);
            let code = unit.map_or(Ok(0), |unit| forward_code(self.plan, unit))?;
            bits.put(code, FORWARD_WIDTH);
            bits.put(self.back.get(index).map_or(0, back_code), BACK_WIDTH);
        }
        let units = self.forward.len().max(self.back.len());
        if bits.is_too_narrow || units > MOST_UNITS {
            return Err("a state that the key has no bits for".to_string());
        }
        Ok(bits.key)
    }

    /// The link becomes the one of this key.
    fn load(&mut self, key: u128) {
        let mut bits = Bits {
            key,
            ..Bits::default()
        };
        self.master = MASTER_WIDTHS.map(|width| bits.take(width));
        self.slave = SLAVE_WIDTHS.map(|width| bits.take(width));
        self.was_slave_open = bits.take(1) == 1;
        self.progress = Progress {
            was_rint_given: bits.take(1) == 1,
            sent: bits.take(6) as usize,
            accepted: bits.take(6) as usize,
            started: bits.take(2) as usize,
            handed_over: bits.take(2) as usize,
            done: bits.take(2) as usize,
            resends: self.master[4],
        };
        self.load_given();
        self.forward.clear();
        self.back.clear();
        for _ in 0..MOST_UNITS {
            let forward = forward_unit(self.plan, bits.take(FORWARD_WIDTH));
            self.forward.extend(forward);
            self.back.extend(back_unit(bits.take(BACK_WIDTH)));
        }
        self.buffer.fill(0xEE);
        if self.slave[0] == 1 {
            let held = self.plan.held(self.progress.accepted);
            self.buffer[..held.len()].copy_from_slice(held);
        }
    }

    /// What was given and heard needs no bits of its own: the words say it, which is held after each act.
    fn load_given(&mut self) {
        let [_, expected, _, last_reply, interrupt] = self.slave;
        self.given = Given {
            last: match last_reply {
                0 => None,
                1 => Some(Back::Ack((expected + 7) % 8)),
                2 => Some(Back::Nak),
                _ => Some(Back::Rint),
            },
            rinted: (interrupt == 2).then(|| self.progress.accepted.wrapping_sub(1)),
            is_asked: interrupt == 1,
        };
        let [.., last, interrupted, enquired, may_receive] = self.master;
        self.heard = Heard {
            last,
            was_interrupted: interrupted == 1,
            is_enquired: enquired == 1,
            may_receive: may_receive == 1,
        };
    }

    /// All that may happen now; what the drivers wish also where it is refused.
    fn put_acts(&self, acts: Acts, all: &mut Vec<LinkAct>) {
        all.clear();
        all.push(LinkAct::TimerA);
        if acts >= Acts::Turning {
            all.extend([LinkAct::Enquire, LinkAct::Ask, LinkAct::MayReceive]);
        }
        if self.is_idle() {
            all.push(LinkAct::Close);
            if self.progress.started < self.plan.messages.len() {
                all.push(LinkAct::Start);
            }
        }
        if !self.was_slave_open {
            all.push(LinkAct::SlaveOpens);
        }
        if self.is_slave_open() {
            all.push(LinkAct::TimerD);
        }
        self.put_losses(all);
        if !self.forward.is_empty() {
            all.extend([false, true].map(|eot_instead| LinkAct::UnitComes {
                index: 0,
                eot_instead,
            }));
        }
        if !self.back.is_empty() {
            all.push(LinkAct::ReplyComes(0));
        }
        if acts == Acts::Noisy {
            self.put_noise(all);
        }
    }

    /// Each unit may be lost, or damaged where it is not.
    fn put_losses(&self, all: &mut Vec<LinkAct>) {
        for index in 0..self.forward.len() {
            all.push(LinkAct::Lose(Way::Forward, index));
            if self.forward[index] != Forward::Damaged {
                all.push(LinkAct::DamageUnit(index, Forward::Damaged));
            }
        }
        for index in 0..self.back.len() {
            all.push(LinkAct::Lose(Way::Back, index));
            if self.back[index] != Back::Damaged {
                all.push(LinkAct::DamageReply(index, Back::Damaged));
            }
        }
    }

    /// What else may happen on bad lines, and the drivers' EOTs. A NAK that the slave did not give comes
    /// only as long as it has given no RINT.
    fn put_noise(&self, all: &mut Vec<LinkAct>) {
        let may_be_nak = !self.progress.was_rint_given;
        for index in 0..self.forward.len() {
            all.push(LinkAct::Repeat(Way::Forward, index));
            all.push(LinkAct::DamageUnit(index, Forward::Enq));
        }
        for index in 0..self.back.len() {
            all.push(LinkAct::Repeat(Way::Back, index));
            if may_be_nak {
                all.push(LinkAct::DamageReply(index, Back::Nak));
            }
        }
        for index in 0..=self.forward.len() {
            let noise = [Forward::Damaged, Forward::Enq];
            all.extend(noise.map(|unit| LinkAct::UnitNoise(index, unit)));
        }
        for index in 0..=self.back.len() {
            all.push(LinkAct::ReplyNoise(index, Back::Damaged));
            if may_be_nak {
                all.push(LinkAct::ReplyNoise(index, Back::Nak));
            }
        }
        if !self.is_closed() {
            all.push(LinkAct::MasterEot);
        }
        if self.is_slave_open() {
            all.push(LinkAct::SlaveEot);
        }
    }
}

/// The states found, and the counts of all acts from them.
fn walk(link: &mut Link, acts: Acts) -> Result<usize, String> {
    let mut found: HashSet<u128, BuildHasherDefault<KeyHasher>> = HashSet::default();
    let first = link.key(acts)?;
    let mut waiting = vec![first];
    found.insert(first);
    let mut all = Vec::new();
    while let Some(key) = waiting.pop() {
        link.load(key);
        link.put_acts(acts, &mut all);
        for act in &all {
            link.load(key);
            let next = link.act(act).and_then(|()| link.key(acts));
            let next = next.map_err(|why| {
                link.load(key);
                let (master, slave) = (link.master, link.slave);
                let lines = (&link.forward, &link.back);
                format!("{act:?}: {why}; master {master:?}, slave {slave:?}, lines {lines:?}")
            })?;
            if found.insert(next) {
                waiting.push(next);
            }
        }
    }
    Ok(found.len())
}

/// A walk in which one of these never happened visited no whole link.
const PLAIN_KINDS: [(Kind, &str); 8] = [
    (Kind::Done, "done"),
    (Kind::Duplicate, "duplicate"),
    (Kind::Failed, "failure"),
    (Kind::FailedOneShort, "failure with the count one short"),
    (Kind::EotByDriver, "EOT of the slave's driver"),
    (
        Kind::EotByDriverOneShort,
        "such an EOT, the count one short",
    ),
    (Kind::ClosedByDriver, "closing"),
    (Kind::TimerD, "Timer D"),
];

/// The same of one with RINT and ENQ.
const TURNING_KINDS: [(Kind, &str); 17] = [
    (Kind::AckAgain, "ACK given again"),
    (Kind::NakAgain, "NAK given again"),
    (Kind::RintAgain, "RINT given again"),
    (Kind::NakToFirstEnq, "ENQ before any reply"),
    (Kind::RintedDuplicate, "duplicate of a block that got RINT"),
    (Kind::AskRefused, "asking that is refused"),
    (Kind::EnquiryRefused, "enquiry that is refused"),
    (Kind::LeaveRefused, "leave to receive that is refused"),
    (Kind::RintAccepted, "RINT that acknowledged"),
    (Kind::RintAfterRint, "RINT refused after a RINT"),
    (Kind::RintAfterNakAndEnq, "RINT refused after NAK and ENQ"),
    (Kind::RintNoneOut, "RINT with no block out"),
    (Kind::LeaveBlockOut, "leave with a block out"),
    (Kind::LeaveNoneOut, "leave with none out"),
    (Kind::ReversedDone, "reversal, the message done"),
    (Kind::ReversedNotDone, "reversal, the message not done"),
    (Kind::ReversedNoneOut, "reversal with no block out"),
];

/// The same of one with noise.
const NOISY_KINDS: [(Kind, &str); 7] = [
    (Kind::EnqRepeated, "repeated ENQ"),
    (Kind::RintRepeated, "repeated RINT"),
    (Kind::DamagedIntoEnq, "unit damaged into ENQ"),
    (Kind::DamagedIntoNak, "reply damaged into NAK"),
    (Kind::NakNoise, "NAK that is noise"),
    (Kind::MasterEot, "EOT of the master's driver"),
    (Kind::SlaveEot, "EOT of the slave's driver at any moment"),
];

fn enough(counts: &StationsCounts, acts: Acts, short_buffer: bool) -> Outcome {
    let turning = TURNING_KINDS.iter().filter(|_| acts >= Acts::Turning);
    let noisy = NOISY_KINDS.iter().filter(|_| acts == Acts::Noisy);
    let mut kinds = PLAIN_KINDS.iter().chain(turning).chain(noisy);
    if let Some((_, what)) = kinds.find(|(kind, _)| counts.get(*kind) == 0) {
        return Err(format!("a walk without {what}"));
    }
    if short_buffer != (counts.get(Kind::EotByStation) > 0) {
        return Err("the station's own EOT".to_string());
    }
    Ok(())
}

pub fn stations_walk(compare: &mut Compare) -> Outcome {
    walk_each(compare, &PLAIN)
}

/// The same with the reverse interrupt and the enquiry.
pub fn stations_turning_walk(compare: &mut Compare) -> Outcome {
    walk_each(compare, &TURNING)
}

/// The same, and the numbers go round.
pub fn stations_long_walk(compare: &mut Compare) -> Outcome {
    walk_each(compare, &LONG)
}

/// The same on worse lines.
pub fn stations_noisy_walk(compare: &mut Compare) -> Outcome {
    walk_each(compare, &NOISY)
}

/// The same of larger links.
pub fn stations_large_walk(compare: &mut Compare) -> Outcome {
    walk_each(compare, &APART)
}

fn walk_each(compare: &mut Compare, walks: &[Walked]) -> Outcome {
    walks
        .iter()
        .try_for_each(|walked| walk_all(compare, walked))
}

/// All states of a link, and how many there are.
fn walk_all(compare: &mut Compare, walked: &Walked) -> Outcome {
    let plan = Plan::of_letters(walked.messages);
    let beginning = Beginning {
        master_of: MasterOf::Library,
        reading: Reading::Right,
        capacity: walked.capacity,
        buffer_length: walked.buffer_length,
        answers_bids: false,
        with_corollaries: true,
    };
    let mut link = Link::new(&plan, beginning)?;
    let states = walk(&mut link, walked.acts);
    let states = states.map_err(|why| format!("{}: {why}", walked.what))?;
    let acts = link.counts.acts();
    println!("  {}: {states} states, {acts} acts", walked.what);
    compare.walk_acts += acts;
    compare.walk_states += states as u64;
    let longest = plan.messages.iter().map(|message| message.length).max();
    let is_short = longest > Some(walked.buffer_length);
    enough(&link.counts, walked.acts, is_short)?;
    same("states", &[states], &[walked.states])
}
