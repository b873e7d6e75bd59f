//! The yardstick: a straightforward safe Rust reader, byte by byte, with a writer and a check of
//! one whole block. Written plainly from document 01; nothing is tuned.

const CARRIAGE_RETURN: u8 = 0x0D;

pub struct Numbers {
    pub start: u8,
    pub end: u8,
    pub limit: usize,
}

#[derive(Clone, Copy, Debug, PartialEq, Eq)]
pub struct Verdict {
    pub offset: u64,
    pub number: u64,
    pub forbidden_offset: u64,
    pub block_type: u64,
    pub data_length: u64,
}

enum Phase {
    Between,
    Inside,
    Ended,
}

/// Reads a stream byte by byte; the bytes of the current block are the first of `buffer`.
pub struct Reader {
    numbers: Numbers,
    phase: Phase,
    buffer: Vec<u8>,
    length: usize,
    offset: u64,
    position: u64,
}

impl Reader {
    pub fn new(numbers: Numbers) -> Reader {
        let buffer = vec![0; numbers.limit + 12];
        Reader {
            numbers,
            phase: Phase::Between,
            buffer,
            length: 0,
            offset: 0,
            position: 0,
        }
    }

    /// Starts a stream anew, with the buffer it has.
    pub fn restart(&mut self) {
        self.phase = Phase::Between;
        self.position = 0;
    }

    /// Reads a part of the stream and adds its verdicts to the list.
    pub fn read(&mut self, part: &[u8], verdicts: &mut Vec<Verdict>) {
        let position = self.position;
        for (index, &byte) in part.iter().enumerate() {
            match self.phase {
                Phase::Between => {
                    if byte == self.numbers.start {
                        self.open(position + index as u64);
                    }
                }
                Phase::Inside => {
                    if byte == self.numbers.start {
                        verdicts.push(refused(8, 0, self.offset));
                        self.open(position + index as u64);
                    } else if byte == self.numbers.end {
                        self.phase = Phase::Ended;
                    } else if self.length < self.buffer.len() {
                        self.buffer[self.length] = byte;
                        self.length += 1;
                    } else {
                        self.length = self.buffer.len() + 1;
                    }
                }
                Phase::Ended => {
                    verdicts.push(self.ended(byte));
                    self.phase = Phase::Between;
                    if byte == self.numbers.start {
                        self.open(position + index as u64);
                    }
                }
            }
        }
        self.position += part.len() as u64;
    }

    fn open(&mut self, offset: u64) {
        self.phase = Phase::Inside;
        self.length = 0;
        self.offset = offset;
    }

    fn ended(&self, after: u8) -> Verdict {
        let long = self.length > self.buffer.len();
        let body = &self.buffer[..self.length.min(self.buffer.len())];
        judge(&self.numbers, long, body, after, self.offset)
    }
}

fn refused(number: u64, forbidden_offset: usize, offset: u64) -> Verdict {
    Verdict {
        offset,
        number,
        forbidden_offset: forbidden_offset as u64,
        block_type: 0,
        data_length: 0,
    }
}

fn allowed(byte: u8) -> bool {
    byte == CARRIAGE_RETURN || (0x20..=0x7E).contains(&byte)
}

fn nak_reason(data: &[u8]) -> bool {
    matches!(data, [b'C' | b'X' | b'B' | b'G'])
}

/// The value of decimal digits, or nothing.
fn decimal(digits: &[u8]) -> Option<usize> {
    let mut value = 0;
    for digit in digits {
        if !digit.is_ascii_digit() {
            return None;
        }
        value = value * 10 + usize::from(digit - b'0');
    }
    Some(value)
}

/// Judges a block by the bytes between SB and EB and the byte after EB: 4, 5, 3, 6, 7.
fn judge(numbers: &Numbers, long: bool, body: &[u8], after: u8, offset: u64) -> Verdict {
    if long {
        return refused(4, 0, offset);
    }
    if after != CARRIAGE_RETURN || body.len() < 12 || &body[1..4] != b"23\r" {
        return refused(5, 0, offset);
    }
    let data_end = body.len() - 8;
    let data = &body[4..data_end];
    let block_type = body[0];
    if block_type != b'D' && !(block_type == b'N' && nak_reason(data)) {
        return refused(5, 0, offset);
    }
    for (index, &byte) in data.iter().enumerate() {
        if !allowed(byte) {
            return refused(3, index, offset);
        }
    }
    if decimal(&body[data_end..data_end + 5]) != Some(5 + data.len()) {
        return refused(6, 0, offset);
    }
    let mut sum = numbers.start;
    for byte in &body[..data_end] {
        sum ^= byte;
    }
    let given = decimal(&body[data_end + 5..]);
    if given != Some(999) && given != Some(sum.into()) {
        return refused(7, 0, offset);
    }
    Verdict {
        offset,
        number: 0,
        forbidden_offset: 0,
        block_type: block_type.into(),
        data_length: data.len() as u64,
    }
}

/// The check of one whole block: the stream's verdict if it is the only one and comes with the
/// last byte; otherwise 5.
pub fn check(numbers: &Numbers, bytes: &[u8]) -> Verdict {
    let Some((&first, rest)) = bytes.split_first() else {
        return refused(5, 0, 0);
    };
    let stop = rest
        .iter()
        .position(|&byte| byte == numbers.start || byte == numbers.end);
    let (true, Some(length)) = (first == numbers.start, stop) else {
        return refused(5, 0, 0);
    };
    if rest[length] == numbers.start {
        let number = if length + 1 == rest.len() { 8 } else { 5 };
        return refused(number, 0, 0);
    }
    if length + 2 != rest.len() {
        return refused(5, 0, 0);
    }
    let long = length > numbers.limit + 12;
    judge(numbers, long, &rest[..length], rest[length + 1], 0)
}

/// Writes a block from an offset of the buffer on; gives its length, or the number that says no.
pub fn write(
    numbers: &Numbers,
    block_type: u8,
    content: &[u8],
    buffer: &mut [u8],
    start: usize,
) -> Result<usize, u64> {
    let length = content.len() + 15;
    let space = buffer.len().saturating_sub(start);
    if space < length {
        return Err(2);
    }
    if content.len() > numbers.limit {
        return Err(4);
    }
    if block_type != b'D' && !(block_type == b'N' && nak_reason(content)) {
        return Err(5);
    }
    if content.iter().any(|&byte| !allowed(byte)) {
        return Err(3);
    }
    let block = &mut buffer[start..start + length];
    block[..5].copy_from_slice(&[numbers.start, block_type, b'2', b'3', CARRIAGE_RETURN]);
    let data_end = 5 + content.len();
    block[5..data_end].copy_from_slice(content);
    let mut sum = 0;
    for byte in &block[..data_end] {
        sum ^= byte;
    }
    put_decimal(&mut block[data_end..data_end + 5], data_end);
    put_decimal(&mut block[data_end + 5..data_end + 8], sum.into());
    block[data_end + 8..].copy_from_slice(&[numbers.end, CARRIAGE_RETURN]);
    Ok(length)
}

fn put_decimal(digits: &mut [u8], number: usize) {
    let mut rest = number;
    for digit in digits.iter_mut().rev() {
        *digit = b'0' + (rest % 10) as u8;
        rest /= 10;
    }
}
