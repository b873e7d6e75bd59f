//! The inputs: many blocks with data of one length, made by the plain writer.

use crate::plain;
use host::prng::Random;

/// About so many bytes of blocks in one pass, and so many passes in one timing.
const PASS_BYTES: usize = 480_000;
pub const PASSES: usize = 5;

pub const NUMBERS: plain::Numbers = plain::Numbers {
    start: 0x0B,
    end: 0x1C,
    limit: 99_994,
};

pub struct Input {
    pub size: usize,
    pub contents: Vec<Vec<u8>>,
    pub stream: Vec<u8>,
}

impl Input {
    pub fn new(size: usize) -> Input {
        let mut random = Random::new(size as u64);
        let count = PASS_BYTES / (size + 15);
        let contents: Vec<Vec<u8>> = (0..count).map(|_| content(&mut random, size)).collect();
        let mut stream = vec![0; count * (size + 15)];
        let mut start = 0;
        for content in &contents {
            let written = plain::write(&NUMBERS, b'D', content, &mut stream, start);
            start += written.expect("good data and space enough");
        }
        Input {
            size,
            contents,
            stream,
        }
    }

    /// The bytes of one block.
    pub fn block_length(&self) -> usize {
        self.size + 15
    }

    pub fn timed_bytes(&self) -> usize {
        self.stream.len() * PASSES
    }
}

/// Printable bytes in segments that end in CR.
pub fn content(random: &mut Random, size: usize) -> Vec<u8> {
    let mut bytes = Vec::with_capacity(size);
    for index in 0..size {
        if index + 1 == size || random.one_in(60) {
            bytes.push(0x0D);
        } else {
            bytes.push(random.between(0x20, 0x7E) as u8);
        }
    }
    bytes
}
