//! The two sides of each act: the library through its C interface, and plain Rust. Each works
//! through the whole input some passes long and leaves its verdicts or bytes for comparison.

use crate::inputs::{Input, NUMBERS, PASSES};
use crate::plain::{self, Verdict};
use host::ffi::{self, names, HybridNumbers};
use std::hint::black_box;

pub const ACTS: [&str; 4] = ["read", "read, parts of 1,024", "write", "check"];

const HYBRID: HybridNumbers = HybridNumbers {
    start_block: NUMBERS.start as u64,
    end_block: NUMBERS.end as u64,
    data_limit: NUMBERS.limit as u64,
};

/// Memory that is used again in every pass, and what the last pass gave.
pub struct Side {
    pub verdicts: Vec<Verdict>,
    pub output: Vec<u8>,
    buffer: Vec<u8>,
    reader: plain::Reader,
}

impl Side {
    pub fn new(input: &Input) -> Side {
        Side {
            verdicts: Vec::with_capacity(input.contents.len()),
            output: vec![0; input.stream.len()],
            buffer: vec![0; NUMBERS.limit + 12],
            reader: plain::Reader::new(NUMBERS),
        }
    }

    pub fn library(&mut self, act: &str, input: &Input) {
        for _ in 0..PASSES {
            self.verdicts.clear();
            match act {
                "read" => self.library_read(&input.stream, input.stream.len()),
                "write" => self.library_write(input),
                "check" => self.library_check(input),
                _ => self.library_read(&input.stream, 1024),
            }
        }
    }

    pub fn plain(&mut self, act: &str, input: &Input) {
        for _ in 0..PASSES {
            self.verdicts.clear();
            match act {
                "write" => self.plain_write(input),
                "check" => self.plain_check(input),
                "read" => self.plain_read(&input.stream, input.stream.len()),
                _ => self.plain_read(&input.stream, 1024),
            }
        }
    }

    /// The limit: each block is copied to the start of the buffer, and no more.
    pub fn copy(&mut self, input: &Input) {
        let length = input.block_length();
        for _ in 0..PASSES {
            for block in input.stream.chunks_exact(length) {
                self.buffer[..length].copy_from_slice(black_box(block));
                black_box(&self.buffer);
            }
        }
    }

    fn library_read(&mut self, stream: &[u8], part_length: usize) {
        let mut state = [0; names::READER_WORDS];
        let mut words = [0; names::VERDICT_WORDS];
        for part in stream.chunks(part_length) {
            let mut rest = part;
            while !rest.is_empty() {
                let number =
                    ffi::hybrid_read(HYBRID, &mut state, rest, &mut self.buffer, &mut words);
                assert_eq!(number, names::OK);
                if words[names::FOUND] == 1 {
                    self.verdicts.push(verdict_of(&words));
                }
                rest = &rest[words[names::USED] as usize..];
            }
        }
    }

    fn plain_read(&mut self, stream: &[u8], part_length: usize) {
        self.reader.restart();
        for part in stream.chunks(part_length) {
            self.reader.read(part, &mut self.verdicts);
        }
    }

    fn library_write(&mut self, input: &Input) {
        let mut start = 0;
        let mut report = [0; names::REPORT_WORDS];
        let block_type = u64::from(b'D');
        for content in &input.contents {
            let output = &mut self.output;
            let number = ffi::hybrid_write(HYBRID, block_type, content, output, start, &mut report);
            assert_eq!(number, names::OK);
            start += report[names::BLOCK_LENGTH] as usize;
        }
    }

    fn plain_write(&mut self, input: &Input) {
        let mut start = 0;
        for content in &input.contents {
            let written = plain::write(&NUMBERS, b'D', content, &mut self.output, start);
            start += written.expect("good data and space enough");
        }
    }

    fn library_check(&mut self, input: &Input) {
        let mut words = [0; names::VERDICT_WORDS];
        for block in input.stream.chunks_exact(input.block_length()) {
            let number = ffi::hybrid_check(HYBRID, block, &mut words);
            assert_eq!(number, words[names::NUMBER]);
            self.verdicts.push(verdict_of(&words));
        }
    }

    fn plain_check(&mut self, input: &Input) {
        for block in input.stream.chunks_exact(input.block_length()) {
            self.verdicts.push(plain::check(&NUMBERS, black_box(block)));
        }
    }
}

fn verdict_of(words: &[u64; names::VERDICT_WORDS]) -> Verdict {
    Verdict {
        offset: words[names::OFFSET],
        number: words[names::NUMBER],
        forbidden_offset: words[names::VERDICT_FORBIDDEN_OFFSET],
        block_type: words[names::TYPE],
        data_length: words[names::DATA_LENGTH],
    }
}
