//! The rules of document 01 about blocks, written from its words and the decided open points
//! (O, S, R, C, W). A stream is defined on its whole list of bytes: nothing here knows of parts,
//! but for `resume`, which answers a call that starts from any words whatever.

use std::ops::Range;

const CARRIAGE_RETURN: u8 = 0x0D;
const LARGEST_LIMIT: u64 = 99_994;
const FRAME: usize = 12;
const TRAILER: usize = 8;

/// The words of a reader that no run reaches: between blocks, and word 1 or 2 not 0. Bytes that
/// are skipped leave them as they came ("taken as it is"). Group `between_words` alone asks.
const SKIPPING_KEEPS_WORDS: bool = true;

#[derive(Clone, Copy, Debug, PartialEq, Eq)]
pub enum Layer {
    Hybrid,
    Minimal,
}

/// Settings as a caller gives them, good or bad.
#[derive(Clone, Copy, Debug, PartialEq, Eq)]
pub struct Settings {
    pub layer: Layer,
    pub start: u64,
    pub end: u64,
    pub limit: u64,
}

impl Settings {
    pub fn hybrid(start: u64, end: u64, limit: u64) -> Settings {
        Settings {
            layer: Layer::Hybrid,
            start,
            end,
            limit,
        }
    }

    pub fn minimal(limit: u64) -> Settings {
        Settings {
            layer: Layer::Minimal,
            start: 0x0B,
            end: 0x1C,
            limit,
        }
    }

    /// Number 1 holds: the two bytes are equal, or one is CR, in 20 to 7E or no byte at all, or D
    /// is not 1 to 99,994.
    pub fn refused(&self) -> bool {
        let unfit =
            |number: u64| number > 0xFF || number == 0x0D || (0x20..=0x7E).contains(&number);
        self.start == self.end
            || unfit(self.start)
            || unfit(self.end)
            || !(1..=LARGEST_LIMIT).contains(&self.limit)
    }

    /// How many bytes between SB and EB a block may have: D + 12, or D if minimal. The reader's
    /// buffer must have as many.
    pub fn fits(&self) -> usize {
        match self.layer {
            Layer::Hybrid => self.limit as usize + FRAME,
            Layer::Minimal => self.limit as usize,
        }
    }

    pub fn start_byte(&self) -> u8 {
        self.start as u8
    }

    pub fn end_byte(&self) -> u8 {
        self.end as u8
    }

    /// Where the data lies among the bytes between SB and EB.
    pub fn data_offset(&self) -> usize {
        match self.layer {
            Layer::Hybrid => 4,
            Layer::Minimal => 0,
        }
    }

    /// The bytes a written block has besides its data.
    pub fn overhead(&self) -> usize {
        match self.layer {
            Layer::Hybrid => FRAME + 3,
            Layer::Minimal => 3,
        }
    }
}

/// What is said of one block: its number, the offset of a forbidden byte (else 0), and if accepted
/// its type and data.
#[derive(Clone, Debug, PartialEq, Eq)]
pub struct Judgement {
    pub number: u64,
    pub forbidden_offset: u64,
    pub block_type: u8,
    pub data: Range<usize>,
}

impl Judgement {
    fn accepted(block_type: u8, data: Range<usize>) -> Judgement {
        Judgement {
            number: 0,
            forbidden_offset: 0,
            block_type,
            data,
        }
    }

    fn refused(number: u64, forbidden_offset: usize) -> Judgement {
        Judgement {
            number,
            forbidden_offset: forbidden_offset as u64,
            block_type: 0,
            data: 0..0,
        }
    }
}

fn allowed(byte: u8) -> bool {
    byte == CARRIAGE_RETURN || (0x20..=0x7E).contains(&byte)
}

pub(crate) fn first_forbidden(data: &[u8]) -> Option<usize> {
    data.iter().position(|&byte| !allowed(byte))
}

fn nak_reason(data: &[u8]) -> bool {
    matches!(data, [b'C'] | [b'X'] | [b'B'] | [b'G'])
}

fn exclusive_or(bytes: &[u8]) -> u8 {
    bytes.iter().fold(0, |sum, byte| sum ^ byte)
}

/// Judges a block that was not interrupted. `long`: more bytes came than fit; otherwise `body` is
/// what stood between SB and EB. `after` is the byte after EB.
pub fn judge(settings: &Settings, long: bool, body: &[u8], after: u8) -> Judgement {
    if long {
        return Judgement::refused(4, 0);
    }
    if after != CARRIAGE_RETURN {
        return Judgement::refused(5, 0);
    }
    match settings.layer {
        Layer::Hybrid => judge_hybrid(settings, body),
        Layer::Minimal => match first_forbidden(body) {
            Some(offset) => Judgement::refused(3, offset),
            None => Judgement::accepted(b'D', 0..body.len()),
        },
    }
}

fn judge_hybrid(settings: &Settings, body: &[u8]) -> Judgement {
    if body.len() < FRAME || &body[1..4] != b"23\r" {
        return Judgement::refused(5, 0);
    }
    let data_end = body.len() - TRAILER;
    let data = &body[4..data_end];
    match body[0] {
        b'D' => {}
        b'N' if nak_reason(data) => {}
        _ => return Judgement::refused(5, 0),
    }
    if let Some(offset) = first_forbidden(data) {
        return Judgement::refused(3, offset);
    }
    let count = &body[data_end..data_end + 5];
    if count != format!("{:05}", 5 + data.len()).as_bytes() {
        return Judgement::refused(6, 0);
    }
    let sum = settings.start_byte() ^ exclusive_or(&body[..data_end]);
    let digits = &body[data_end + 5..];
    if digits != b"999" && digits != format!("{sum:03}").as_bytes() {
        return Judgement::refused(7, 0);
    }
    Judgement::accepted(body[0], 4..data_end)
}

/// A verdict on the block whose SB stands at `offset`; the byte at index `at` brings it.
#[derive(Clone, Debug, PartialEq, Eq)]
pub struct Verdict {
    pub at: usize,
    pub offset: u64,
    pub number: u64,
    pub forbidden_offset: u64,
    pub block_type: u8,
    pub data: Vec<u8>,
}

impl Verdict {
    fn new(at: usize, offset: u64, judgement: Judgement, body: &[u8]) -> Verdict {
        Verdict {
            at,
            offset,
            number: judgement.number,
            forbidden_offset: judgement.forbidden_offset,
            block_type: judgement.block_type,
            data: body[judgement.data].to_vec(),
        }
    }

    /// The eight words of the C interface. The data begins at `data_offset`.
    pub fn words(&self, data_offset: usize, used: usize) -> [u64; 8] {
        let accepted = self.number == 0;
        [
            1,
            self.offset,
            self.number,
            self.forbidden_offset,
            u64::from(self.block_type),
            if accepted { data_offset as u64 } else { 0 },
            self.data.len() as u64,
            used as u64,
        ]
    }
}

/// A block of the whole input: where its SB stands, where the bytes after SB stop (an EB, an SB,
/// or nothing yet), and the verdict if it has come.
#[derive(Clone, Debug)]
pub struct Block {
    pub start: usize,
    pub stop: Option<usize>,
    pub verdict: Option<Verdict>,
}

/// All blocks of the whole input, in order.
pub fn blocks(settings: &Settings, input: &[u8]) -> Vec<Block> {
    let mut found = Vec::new();
    let mut from = 0;
    while let Some(skipped) = input[from..]
        .iter()
        .position(|&byte| byte == settings.start_byte())
    {
        let block = block_at(settings, input, from + skipped);
        let next = match &block.verdict {
            Some(verdict) if input[verdict.at] == settings.start_byte() => Some(verdict.at),
            Some(verdict) => Some(verdict.at + 1),
            None => None,
        };
        found.push(block);
        match next {
            Some(index) => from = index,
            None => break,
        }
    }
    found
}

fn block_at(settings: &Settings, input: &[u8], start: usize) -> Block {
    let ends = |byte: u8| byte == settings.start_byte() || byte == settings.end_byte();
    let rest = &input[start + 1..];
    let Some(length) = rest.iter().position(|&byte| ends(byte)) else {
        return Block {
            start,
            stop: None,
            verdict: None,
        };
    };
    let stop = start + 1 + length;
    let body = &rest[..length];
    let verdict = if input[stop] == settings.start_byte() {
        let interrupted = Judgement::refused(8, 0);
        Some(Verdict::new(stop, start as u64, interrupted, body))
    } else {
        input.get(stop + 1).map(|&after| {
            let judgement = judge(settings, length > settings.fits(), body, after);
            Verdict::new(stop + 1, start as u64, judgement, body)
        })
    };
    Block {
        start,
        stop: Some(stop),
        verdict,
    }
}

/// The words of a reader that has read the first `count` bytes of an input with these blocks.
pub fn state_after(settings: &Settings, blocks: &[Block], count: usize) -> [u64; 4] {
    let between = [0, 0, 0, count as u64];
    let begun = blocks.partition_point(|block| block.start < count);
    let Some(block) = begun.checked_sub(1).map(|last| &blocks[last]) else {
        return between;
    };
    if block
        .verdict
        .as_ref()
        .is_some_and(|verdict| verdict.at < count)
    {
        return between;
    }
    let ended = block.stop.is_some_and(|stop| stop < count);
    let stop = if ended { block.stop } else { None };
    let length = stop.unwrap_or(count) - block.start - 1;
    let counted = length.min(settings.fits() + 1);
    let phase = if ended { 2 } else { 1 };
    [phase, counted as u64, block.start as u64, count as u64]
}

/// What the bytes of the input at the indices `read` do to the buffer: a byte between SB and EB
/// goes to its own offset if it fits, and nothing else is ever written.
pub fn fill_buffer(
    settings: &Settings,
    input: &[u8],
    blocks: &[Block],
    read: Range<usize>,
    buffer: &mut [u8],
) {
    for block in blocks {
        let first = block.start + 1;
        let from = first.max(read.start);
        let to = block.stop.unwrap_or(input.len()).min(read.end);
        for (index, &byte) in input.iter().enumerate().take(to).skip(from) {
            let offset = index - first;
            if offset < settings.fits() {
                buffer[offset] = byte;
            }
        }
    }
}

/// The check of one whole block: the stream's verdict where the bytes begin with SB and give
/// exactly one, at their last byte; otherwise 5.
pub fn check(settings: &Settings, bytes: &[u8]) -> Verdict {
    let otherwise = Verdict::new(0, 0, Judgement::refused(5, 0), &[]);
    if bytes.first() != Some(&settings.start_byte()) {
        return otherwise;
    }
    let mut verdicts = blocks(settings, bytes)
        .into_iter()
        .filter_map(|block| block.verdict);
    match (verdicts.next(), verdicts.next()) {
        (Some(verdict), None) if verdict.at + 1 == bytes.len() => verdict,
        _ => otherwise,
    }
}

/// The block that a writer makes, or its number and the offset of a forbidden byte (else 0): 4, 5,
/// 3 in this order. A minimal writer has no type.
pub fn written(settings: &Settings, block_type: u64, data: &[u8]) -> Result<Vec<u8>, (u64, u64)> {
    let hybrid = settings.layer == Layer::Hybrid;
    if data.len() as u64 > settings.limit {
        return Err((4, 0));
    }
    let nak = block_type == u64::from(b'N');
    if hybrid && !(block_type == u64::from(b'D') || nak && nak_reason(data)) {
        return Err((5, 0));
    }
    if let Some(offset) = first_forbidden(data) {
        return Err((3, offset as u64));
    }
    let mut block = vec![settings.start_byte()];
    if hybrid {
        block.push(if nak { b'N' } else { b'D' });
        block.extend_from_slice(b"23\r");
    }
    block.extend_from_slice(data);
    if hybrid {
        let sum = exclusive_or(&block);
        block.extend_from_slice(format!("{:05}{:03}", 5 + data.len(), sum).as_bytes());
    }
    block.push(settings.end_byte());
    block.push(CARRIAGE_RETURN);
    Ok(block)
}

/// 1, 2 or 11 of a reading call.
pub fn read_refusal(
    settings: &Settings,
    state: &[u64],
    part_length: usize,
    buffer_length: usize,
    verdict_words: usize,
) -> Option<u64> {
    if settings.refused() {
        return Some(1);
    }
    if state.len() < 4 || verdict_words < 8 || buffer_length < settings.fits() {
        return Some(2);
    }
    let over = state[3].checked_add(part_length as u64).is_none();
    (state[0] > 2 || over).then_some(11)
}

/// 1 or 2 of a check.
pub fn check_refusal(settings: &Settings, verdict_words: usize) -> Option<u64> {
    if settings.refused() {
        Some(1)
    } else {
        (verdict_words < 8).then_some(2)
    }
}

/// 1 or 2 of a writing call. The need is the data's length and the frame, whatever the data is.
pub fn write_refusal(
    settings: &Settings,
    data_length: usize,
    buffer_length: usize,
    start: usize,
    report_words: usize,
) -> Option<u64> {
    if settings.refused() {
        return Some(1);
    }
    let need = start as u128 + data_length as u128 + settings.overhead() as u128;
    (report_words < 2 || need > buffer_length as u128).then_some(2)
}

/// What a reading call answers that starts from any words of phase 0, 1 or 2.
pub struct Resumed {
    pub state: [u64; 4],
    pub verdict: Option<Verdict>,
    pub used: usize,
}

/// The block that is being read: how many bytes it has so far, and its SB's offset.
#[derive(Clone, Copy)]
struct Current {
    length: u64,
    offset: u64,
}

/// Reads a part from any state, up to the first verdict, and changes the buffer. What the block
/// holds so far are the buffer's first bytes, as many as the length says and as fit.
pub fn resume(settings: &Settings, state: [u64; 4], part: &[u8], buffer: &mut [u8]) -> Resumed {
    let current = Current {
        length: state[1],
        offset: state[2],
    };
    match state[0] {
        0 => resume_between(settings, state, part, buffer),
        1 => resume_inside(settings, current, state[3], part, 0, buffer),
        _ => resume_ended(settings, current, state[3], part, 0, buffer),
    }
}

fn resume_between(settings: &Settings, state: [u64; 4], part: &[u8], buffer: &mut [u8]) -> Resumed {
    let start = part.iter().position(|&byte| byte == settings.start_byte());
    if let Some(start) = start {
        let current = Current {
            length: 0,
            offset: state[3] + start as u64,
        };
        return resume_inside(settings, current, state[3], part, start + 1, buffer);
    }
    let kept = SKIPPING_KEEPS_WORDS || part.is_empty();
    let position = state[3] + part.len() as u64;
    Resumed {
        state: if kept {
            [0, state[1], state[2], position]
        } else {
            [0, 0, 0, position]
        },
        verdict: None,
        used: part.len(),
    }
}

fn resume_inside(
    settings: &Settings,
    mut current: Current,
    position: u64,
    part: &[u8],
    from: usize,
    buffer: &mut [u8],
) -> Resumed {
    let fits = settings.fits() as u64;
    for (index, &byte) in part.iter().enumerate().skip(from) {
        if byte == settings.end_byte() {
            return resume_ended(settings, current, position, part, index + 1, buffer);
        }
        if byte == settings.start_byte() {
            let interrupted = Verdict::new(index, current.offset, Judgement::refused(8, 0), &[]);
            return answered(settings, interrupted, position, part);
        }
        if current.length < fits {
            buffer[current.length as usize] = byte;
        }
        if current.length <= fits {
            current.length += 1;
        }
    }
    unfinished(1, current, position, part)
}

fn resume_ended(
    settings: &Settings,
    current: Current,
    position: u64,
    part: &[u8],
    index: usize,
    buffer: &[u8],
) -> Resumed {
    let Some(&after) = part.get(index) else {
        return unfinished(2, current, position, part);
    };
    let fits = settings.fits() as u64;
    let body = &buffer[..current.length.min(fits) as usize];
    let judgement = judge(settings, current.length > fits, body, after);
    let verdict = Verdict::new(index, current.offset, judgement, body);
    answered(settings, verdict, position, part)
}

fn unfinished(phase: u64, current: Current, position: u64, part: &[u8]) -> Resumed {
    let read = position + part.len() as u64;
    Resumed {
        state: [phase, current.length, current.offset, read],
        verdict: None,
        used: part.len(),
    }
}

/// After a verdict the reader is between blocks, unless the byte that brought it is an SB.
fn answered(settings: &Settings, verdict: Verdict, position: u64, part: &[u8]) -> Resumed {
    let at = position + verdict.at as u64;
    let used = verdict.at + 1;
    let state = if part[verdict.at] == settings.start_byte() {
        [1, 0, at, at + 1]
    } else {
        [0, 0, 0, at + 1]
    };
    Resumed {
        state,
        verdict: Some(verdict),
        used,
    }
}
