//! The messages of one opening of a master, in the order in which they are started, and their blocks as
//! the rules have them.

use host::master_model::blocks_of;
use host::station_model::{ETB, ETX};

/// The character that ends a block, and where its text lies in the plan's bytes.
#[derive(Clone, Copy, Debug, PartialEq, Eq)]
pub struct PlannedBlock {
    pub ending: u64,
    pub start: usize,
    pub length: usize,
}

/// A message in the plan's bytes, with its block size; and how many blocks there are up to its end.
#[derive(Clone, Copy, Debug)]
pub struct PlannedMessage {
    pub start: usize,
    pub length: usize,
    pub block_size: u64,
    pub blocks_to_end: usize,
}

#[derive(Default)]
pub struct Plan {
    pub bytes: Vec<u8>,
    pub messages: Vec<PlannedMessage>,
    pub blocks: Vec<PlannedBlock>,
}

impl Plan {
    /// Messages of these lengths and block sizes, in which no letter comes twice.
    pub fn of_letters(messages: &[(usize, u64)]) -> Plan {
        let mut plan = Plan::default();
        let mut letters = b'!'..=b'~';
        for &(length, block_size) in messages {
            let message: Vec<u8> = letters.by_ref().take(length).collect();
            plan.add(&message, block_size);
        }
        plan
    }

    /// One more message; the block size is at least 1.
    pub fn add(&mut self, message: &[u8], block_size: u64) {
        let start = self.bytes.len();
        self.bytes.extend_from_slice(message);
        let texts = blocks_of(message, block_size);
        let mut block_start = start;
        for (index, text) in texts.iter().enumerate() {
            let is_last = index + 1 == texts.len();
            self.blocks.push(PlannedBlock {
                ending: if is_last { ETX } else { ETB },
                start: block_start,
                length: text.len(),
            });
            block_start += text.len();
        }
        self.messages.push(PlannedMessage {
            start,
            length: message.len(),
            block_size,
            blocks_to_end: self.blocks.len(),
        });
    }

    /// The blocks of so many messages, the first ones.
    pub fn blocks_of_first(&self, messages: usize) -> usize {
        match messages {
            0 => 0,
            _ => self.messages[messages - 1].blocks_to_end,
        }
    }

    /// How many messages end in so many blocks, the first ones.
    pub fn messages_in_first(&self, blocks: usize) -> usize {
        let ends = self.messages.iter().map(|message| message.blocks_to_end);
        ends.filter(|&end| end <= blocks).count()
    }

    pub fn text(&self, block: &PlannedBlock) -> &[u8] {
        &self.bytes[block.start..][..block.length]
    }

    pub fn message(&self, index: usize) -> &[u8] {
        let message = self.messages[index];
        &self.bytes[message.start..][..message.length]
    }

    /// The text that a slave holds after so many blocks: those since the last ETX.
    pub fn held(&self, blocks: usize) -> &[u8] {
        let complete = self.messages_in_first(blocks);
        let first = self.blocks_of_first(complete);
        let held = &self.blocks[first..blocks];
        let length = held.iter().map(|block| block.length).sum();
        match held.first() {
            None => &[],
            Some(block) => &self.bytes[block.start..][..length],
        }
    }
}
