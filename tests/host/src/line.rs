//! The lines of a simulated link, as bytes; the library's reader at the end of one; and loss, damage
//! and disorder, of which the library's reader itself says whether they are within demand 3.

use crate::library;
use crate::make;
use host::ffi;
use host::ffi::names::{
    DATA_LENGTH, DATA_OFFSET, FOUND, NUMBER, PHASE, READER_WORDS, TYPE, USED, VERDICT_WORDS,
};
use host::model::Settings;
use host::prng::Random;

/// What a reader found: a block's number, its type and its data.
pub struct Arrived {
    pub number: u64,
    pub block_type: u64,
    pub data: Vec<u8>,
}

/// A reader of the library with its buffer.
#[derive(Clone)]
pub struct Reader {
    settings: Settings,
    state: [u64; READER_WORDS],
    buffer: Vec<u8>,
}

/// What a reader would find in bytes: the blocks that it accepts, how many it refuses, and whether
/// it stands inside a block then.
struct Verdicts {
    accepted: Vec<(u64, Vec<u8>)>,
    refused: usize,
    is_inside: bool,
}

impl Reader {
    pub fn new(settings: &Settings) -> Reader {
        Reader {
            settings: *settings,
            state: [0; READER_WORDS],
            buffer: vec![0xEE; settings.fits()],
        }
    }

    /// The reader starts afresh.
    pub fn restart(&mut self) -> Result<(), String> {
        match ffi::reader_fresh(&mut self.state) {
            0 => Ok(()),
            number => Err(format!("a fresh reader was refused by {number}")),
        }
    }

    /// One call on a part: how many bytes of it were read, and what was found.
    pub fn read(&mut self, part: &[u8]) -> Result<(usize, Option<Arrived>), String> {
        let mut verdict = [0; VERDICT_WORDS];
        let (state, buffer) = (&mut self.state, &mut self.buffer);
        let number = library::read(&self.settings, state, part, buffer, &mut verdict);
        let used = verdict[USED] as usize;
        if number != 0 || used == 0 || used > part.len() {
            return Err(format!("a read answered {number}, verdict {verdict:?}"));
        }
        if verdict[FOUND] == 0 {
            return Ok((used, None));
        }
        let (offset, length) = (verdict[DATA_OFFSET] as usize, verdict[DATA_LENGTH] as usize);
        let arrived = Arrived {
            number: verdict[NUMBER],
            block_type: verdict[TYPE],
            data: self.buffer[offset..][..length].to_vec(),
        };
        Ok((used, Some(arrived)))
    }

    /// What this reader would find in bytes; a copy of it reads them.
    fn verdicts(&self, bytes: &[u8]) -> Result<Verdicts, String> {
        let mut reader = self.clone();
        let mut verdicts = Verdicts {
            accepted: Vec::new(),
            refused: 0,
            is_inside: false,
        };
        let mut rest = bytes;
        while !rest.is_empty() {
            let (used, arrived) = reader.read(rest)?;
            rest = &rest[used..];
            match arrived {
                Some(block) if block.number == 0 => {
                    verdicts.accepted.push((block.block_type, block.data));
                }
                Some(_) => verdicts.refused += 1,
                None => {}
            }
        }
        verdicts.is_inside = reader.state[PHASE] != 0;
        Ok(verdicts)
    }
}

/// What loss, damage or disorder did to what a reader finds.
#[derive(Clone, Copy, PartialEq, Eq)]
pub enum Effect {
    /// A block would be accepted that was not sent: outside demand 3, and undone.
    Undone,
    /// The reader finds the same.
    Same,
    /// One refusal more.
    OneRefusal,
    /// Several refusals more.
    SeveralRefusals,
    /// No refusal until the next SB.
    UntilNextStart,
    /// No refusal at all.
    Vanished,
    /// The blocks come in another order.
    OtherOrder,
    /// More blocks come than were sent.
    Repeated,
}

/// What a line may do to its blocks: requests keep their order, and come at most once; answers may
/// come in any order, and any number of times.
#[derive(Clone, Copy, PartialEq, Eq)]
pub enum Order {
    Kept,
    Any,
}

/// Whether the first are some of the second, in their order.
fn is_some_of<T: PartialEq>(some: &[T], all: &[T]) -> bool {
    let mut rest = all.iter();
    some.iter().all(|one| rest.any(|other| other == one))
}

/// Puts other bytes in place of those on the line, unless a block would be accepted that would not
/// have been.
pub fn replace(
    reader: &Reader,
    line: &mut Vec<u8>,
    bytes: Vec<u8>,
    order: Order,
) -> Result<Effect, String> {
    let (before, after) = (reader.verdicts(line)?, reader.verdicts(&bytes)?);
    let keeps_order = is_some_of(&after.accepted, &before.accepted);
    let is_each = || {
        after
            .accepted
            .iter()
            .all(|one| before.accepted.contains(one))
    };
    if !keeps_order && (order == Order::Kept || !is_each()) {
        return Ok(Effect::Undone);
    }
    *line = bytes;
    if after.accepted.len() > before.accepted.len() {
        return Ok(Effect::Repeated);
    }
    if !keeps_order {
        return Ok(Effect::OtherOrder);
    }
    let is_same = after.accepted.len() == before.accepted.len();
    Ok(match after.refused.saturating_sub(before.refused) {
        0 if is_same => Effect::Same,
        0 if after.is_inside => Effect::UntilNextStart,
        0 => Effect::Vanished,
        1 => Effect::OneRefusal,
        _ => Effect::SeveralRefusals,
    })
}

/// Where blocks begin on a line.
fn starts(settings: &Settings, line: &[u8]) -> Vec<usize> {
    let bytes = line.iter().enumerate();
    let starts = bytes.filter(|(_, &byte)| byte == settings.start_byte());
    starts.map(|(offset, _)| offset).collect()
}

/// The blocks on a line; the first may be what is left of one that is half read.
fn blocks<'a>(settings: &Settings, line: &'a [u8]) -> Vec<&'a [u8]> {
    let mut bounds = starts(settings, line);
    if bounds.first() != Some(&0) {
        bounds.insert(0, 0);
    }
    bounds.push(line.len());
    bounds
        .windows(2)
        .map(|ends| &line[ends[0]..ends[1]])
        .collect()
}

/// The line without one of its blocks, or without what is left of one that is half read.
pub fn without_block(random: &mut Random, settings: &Settings, line: &[u8]) -> Vec<u8> {
    let mut blocks = blocks(settings, line);
    blocks.remove(random.below(blocks.len()));
    blocks.concat()
}

/// A line with more bytes than this repeats nothing, so that it does not grow without bound.
const MOST_REPEATED: usize = 1_000;

/// The line with its blocks in another order, or with one of them again.
pub fn disordered(random: &mut Random, settings: &Settings, line: &[u8]) -> Vec<u8> {
    let mut blocks = blocks(settings, line);
    for _ in 0..random.between(1, 3) {
        let (from, to) = (random.below(blocks.len()), random.below(blocks.len() + 1));
        if random.one_in(3) && line.len() < MOST_REPEATED {
            blocks.insert(to, blocks[from]);
        } else {
            let block = blocks.remove(from);
            blocks.insert(to.min(blocks.len()), block);
        }
    }
    blocks.concat()
}

/// The line with two blocks joined: the end of the first, or the end and the next SB, is missing.
/// With one block its end is missing.
fn joined(random: &mut Random, settings: &Settings, line: &[u8]) -> Vec<u8> {
    let ends: Vec<usize> = (0..line.len())
        .filter(|&offset| line[offset] == settings.end_byte())
        .collect();
    if ends.is_empty() {
        return line[..random.below(line.len())].to_vec();
    }
    let from = random.pick(&ends);
    let to = (from + random.between(1, 3)).min(line.len());
    [&line[..from], &line[to..]].concat()
}

/// The line with some bytes changed, dropped or put in, with blocks joined, or with something that was
/// never sent.
pub fn damaged(random: &mut Random, settings: &Settings, line: &[u8]) -> Vec<u8> {
    let mut bytes = line.to_vec();
    let special = [settings.start_byte(), settings.end_byte(), 0x0D, b'|', 0x01];
    for _ in 0..random.pick(&[1, 1, 2, 5]) {
        if bytes.is_empty() {
            return make::piece(random, settings);
        }
        let offset = random.below(bytes.len());
        let end = (offset + random.between(1, 12)).min(bytes.len());
        match random.below(8) {
            0 => bytes[offset] ^= 1 << random.below(8),
            1 => bytes[offset] = random.pick(&special),
            2 => bytes.insert(offset, random.pick(&special)),
            3 => bytes = [&bytes[..offset], &bytes[end..]].concat(),
            4 => bytes.truncate(offset),
            5 => bytes.extend((0..random.between(1, 6)).map(|_| random.pick(&special))),
            6 => bytes = joined(random, settings, &bytes),
            _ => {
                let piece = make::piece(random, settings);
                bytes = [&bytes[..offset], &piece, &bytes[offset..]].concat();
            }
        }
    }
    bytes
}
