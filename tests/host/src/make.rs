//! Makes inputs: settings, data, blocks field by field, and damaged ones.

use host::model::{Layer, Settings};
use host::prng::Random;

pub const CARRIAGE_RETURN: u8 = 0x0D;

/// The fields of a hybrid block; each may be made wrong by itself.
#[derive(Clone)]
pub struct Fields {
    pub start: u8,
    pub head: Vec<u8>,
    pub data: Vec<u8>,
    pub count: Vec<u8>,
    pub checksum: Vec<u8>,
    pub end: Vec<u8>,
}

impl Fields {
    pub fn new(settings: &Settings, block_type: u8, data: &[u8]) -> Fields {
        let mut fields = Fields {
            start: settings.start as u8,
            head: vec![block_type, b'2', b'3', CARRIAGE_RETURN],
            data: data.to_vec(),
            count: Vec::new(),
            checksum: Vec::new(),
            end: vec![settings.end as u8, CARRIAGE_RETURN],
        };
        fields.count = decimal(data.len() + 5, 5);
        fields.sum_again();
        fields
    }

    /// Makes the checksum right for the fields before it.
    pub fn sum_again(&mut self) {
        let mut sum = self.start;
        for byte in self.head.iter().chain(&self.data) {
            sum ^= byte;
        }
        self.checksum = decimal(sum as usize, 3);
    }

    pub fn bytes(&self) -> Vec<u8> {
        let mut bytes = vec![self.start];
        for field in [
            &self.head,
            &self.data,
            &self.count,
            &self.checksum,
            &self.end,
        ] {
            bytes.extend_from_slice(field);
        }
        bytes
    }
}

/// The last digits of a number, as many as asked for.
pub fn decimal(number: usize, digits: usize) -> Vec<u8> {
    let mut text = vec![b'0'; digits];
    let mut rest = number;
    for digit in text.iter_mut().rev() {
        *digit = b'0' + (rest % 10) as u8;
        rest /= 10;
    }
    text
}

/// A good block of either layer.
pub fn block(settings: &Settings, block_type: u8, data: &[u8]) -> Vec<u8> {
    if settings.layer == Layer::Hybrid {
        return Fields::new(settings, block_type, data).bytes();
    }
    let mut bytes = vec![settings.start as u8];
    bytes.extend_from_slice(data);
    bytes.extend_from_slice(&[settings.end as u8, CARRIAGE_RETURN]);
    bytes
}

/// Bytes that may be SB or EB, the odd ones more often.
pub fn delimiter(random: &mut Random) -> u8 {
    if random.one_in(3) {
        return random.pick(&[0x00, 0x0A, 0x0B, 0x0C, 0x0E, 0x1C, 0x1F, 0x7F, 0x80, 0xFF]);
    }
    loop {
        let byte = random.byte();
        if byte != CARRIAGE_RETURN && !(0x20..=0x7E).contains(&byte) {
            return byte;
        }
    }
}

pub fn limit(random: &mut Random) -> u64 {
    let limit = match random.below(10) {
        0..=5 => random.between(1, 24),
        6..=8 => random.between(1, 140),
        _ => random.between(128, 600),
    };
    limit as u64
}

/// Good settings of either layer.
pub fn settings(random: &mut Random) -> Settings {
    let limit = limit(random);
    if random.one_in(3) {
        return Settings::minimal(limit);
    }
    hybrid_settings(random, limit)
}

pub fn hybrid_settings(random: &mut Random, limit: u64) -> Settings {
    if random.one_in(3) {
        return Settings::hybrid(0x0B, 0x1C, limit);
    }
    let start = delimiter(random);
    let mut end = delimiter(random);
    while end == start {
        end = delimiter(random);
    }
    Settings::hybrid(start.into(), end.into(), limit)
}

/// Data bytes that are allowed, with some CR.
pub fn data(random: &mut Random, length: usize) -> Vec<u8> {
    let byte = |random: &mut Random| match random.below(12) {
        0 => CARRIAGE_RETURN,
        1 => random.pick(b" ~0|"),
        _ => random.between(0x20, 0x7E) as u8,
    };
    (0..length).map(|_| byte(random)).collect()
}

/// A length of data that is often near the limit.
pub fn length(random: &mut Random, settings: &Settings) -> usize {
    let limit = settings.limit as usize;
    match random.below(4) {
        0 => limit.saturating_sub(random.below(3)),
        _ => random.between(0, limit.min(60)),
    }
}

/// A byte that is not allowed in data and is neither SB nor EB.
pub fn forbidden(random: &mut Random, settings: &Settings) -> u8 {
    loop {
        let byte = delimiter(random);
        if u64::from(byte) != settings.start && u64::from(byte) != settings.end {
            return byte;
        }
    }
}

/// A good block, of any type that the layer has.
pub fn good(random: &mut Random, settings: &Settings) -> Vec<u8> {
    if settings.layer == Layer::Hybrid && random.one_in(4) {
        let reason = random.pick(b"CXBG");
        return block(settings, b'N', &[reason]);
    }
    let length = length(random, settings);
    let data = data(random, length);
    block(settings, b'D', &data)
}

/// One hybrid block with one field made wrong, the others being right for it.
pub fn wrong_field(random: &mut Random, settings: &Settings) -> Vec<u8> {
    let length = length(random, settings);
    let data = data(random, length);
    let mut fields = Fields::new(settings, b'D', &data);
    match random.below(11) {
        0 => fields.head[0] = random.byte(),
        1 => {
            let offset = random.between(1, 3);
            fields.head[offset] = random.byte();
        }
        2 if length > 0 => {
            let offset = random.below(length);
            fields.data[offset] = forbidden(random, settings);
        }
        3 => fields.count = decimal((length + random.between(3, 7)) % 100_000, 5),
        4 => {
            let offset = random.below(5);
            fields.count[offset] = random.byte();
        }
        5 => {
            let offset = random.below(3);
            fields.checksum[offset] = random.byte();
            return fields.bytes();
        }
        6 => fields.end = vec![settings.end as u8, random.byte()],
        7 => fields.head[0] = b'N',
        8 => {
            fields.checksum = decimal(random.below(1000), 3);
            return fields.bytes();
        }
        9 => {
            fields.checksum = b"999".to_vec();
            return fields.bytes();
        }
        _ => fields.end.truncate(1),
    }
    fields.sum_again();
    fields.bytes()
}

/// A block with more data than the limit.
pub fn long(random: &mut Random, settings: &Settings) -> Vec<u8> {
    let length = settings.limit as usize + random.between(1, 16);
    let data = data(random, length);
    block(settings, b'D', &data)
}

/// Bytes between blocks.
pub fn noise(random: &mut Random) -> Vec<u8> {
    let length = random.below(9);
    if random.one_in(2) {
        return data(random, length);
    }
    random.bytes(length)
}

/// A good block with a byte changed, put in or taken out, or shortened.
pub fn spoiled(random: &mut Random, settings: &Settings) -> Vec<u8> {
    let mut bytes = good(random, settings);
    let offset = random.below(bytes.len());
    let special = [
        settings.start as u8,
        settings.end as u8,
        CARRIAGE_RETURN,
        b'0',
    ];
    let byte = if random.one_in(2) {
        random.pick(&special)
    } else {
        random.byte()
    };
    match random.below(4) {
        0 => bytes[offset] = byte,
        1 => bytes.insert(offset, byte),
        2 => {
            bytes.remove(offset);
        }
        _ => bytes.truncate(offset),
    }
    bytes
}

/// Any piece of a stream.
pub fn piece(random: &mut Random, settings: &Settings) -> Vec<u8> {
    match random.below(10) {
        0..=2 => good(random, settings),
        3 => noise(random),
        4 => long(random, settings),
        5 | 6 => spoiled(random, settings),
        7 => {
            let length = random.below(13);
            let mut bytes = vec![settings.start as u8];
            bytes.extend(data(random, length));
            bytes.extend_from_slice(&[settings.end as u8, CARRIAGE_RETURN]);
            bytes
        }
        _ if settings.layer == Layer::Hybrid => wrong_field(random, settings),
        _ => spoiled(random, settings),
    }
}

/// A stream of some pieces.
pub fn stream(random: &mut Random, settings: &Settings, pieces: usize) -> Vec<u8> {
    let mut bytes = Vec::new();
    for _ in 0..pieces {
        bytes.extend(piece(random, settings));
    }
    bytes
}
