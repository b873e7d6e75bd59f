//! The reader over a message, from document 01's words and the decided open point H-13. The whole
//! message is split first, at every CR and then at every bar; the next field from a position on is
//! then looked up in the list.

const BAR: u8 = b'|';
const CARRIAGE_RETURN: u8 = 0x0D;

/// Found, offset, length, delimiter and the next position.
pub const NEXT_WORDS: usize = 5;
pub type Next = [u64; NEXT_WORDS];

#[derive(Clone, Copy, Debug, PartialEq, Eq)]
enum Delimiter {
    Separator,
    SegmentEnd,
    MessageEnd,
}

impl Delimiter {
    fn word(self) -> u64 {
        match self {
            Delimiter::Separator => 1,
            Delimiter::SegmentEnd => 2,
            Delimiter::MessageEnd => 3,
        }
    }

    /// The end of a message is no byte of it.
    fn bytes(self) -> usize {
        usize::from(self != Delimiter::MessageEnd)
    }
}

#[derive(Clone, Copy, Debug)]
struct Field {
    offset: usize,
    length: usize,
    delimiter: Delimiter,
}

impl Field {
    fn end(&self) -> usize {
        self.offset + self.length
    }

    /// The words of the field from a position in it on, which may be that of its delimiter.
    fn words_from(&self, position: usize) -> Next {
        [
            1,
            position as u64,
            (self.end() - position) as u64,
            self.delimiter.word(),
            (self.end() + self.delimiter.bytes()) as u64,
        ]
    }
}

/// All fields of a message, in their order.
pub struct Fields {
    message_length: usize,
    list: Vec<Field>,
}

impl Fields {
    pub fn new(message: &[u8]) -> Fields {
        let mut list = Vec::new();
        let mut offset = 0;
        for segment in message.split_inclusive(|&byte| byte == CARRIAGE_RETURN) {
            add_segment(&mut list, segment, offset);
            offset += segment.len();
        }
        Fields {
            message_length: message.len(),
            list,
        }
    }

    /// What each step from the message's start on gives, as long as there is a field.
    pub fn steps(&self) -> Vec<Next> {
        let fields = self.list.iter();
        fields.map(|field| field.words_from(field.offset)).collect()
    }

    /// The last field that begins at the position or before it is the one that the position is in.
    pub fn next(&self, position: usize) -> Next {
        if position >= self.message_length {
            return [0, 0, 0, 0, position as u64];
        }
        let begun = self.list.partition_point(|field| field.offset <= position);
        self.list[begun - 1].words_from(position)
    }
}

/// The fields of one segment, which begins at an offset and ends with its CR or with the message.
fn add_segment(list: &mut Vec<Field>, segment: &[u8], segment_offset: usize) {
    let (body, end) = match segment.split_last() {
        Some((&CARRIAGE_RETURN, body)) => (body, Delimiter::SegmentEnd),
        _ => (segment, Delimiter::MessageEnd),
    };
    let mut offset = segment_offset;
    for piece in body.split(|&byte| byte == BAR) {
        list.push(Field {
            offset,
            length: piece.len(),
            delimiter: Delimiter::Separator,
        });
        offset += piece.len() + 1;
    }
    // The last piece is not ended by a bar; behind a message's last bar nothing is no field.
    if let Some(mut last) = list.pop() {
        last.delimiter = end;
        if end == Delimiter::SegmentEnd || last.length > 0 {
            list.push(last);
        }
    }
}
