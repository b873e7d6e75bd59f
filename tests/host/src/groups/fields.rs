//! The reader over a message: walks through real, damaged, written, short, random and long messages,
//! and every position in them.

use crate::compare::{Compare, Outcome};
use crate::guarded::same;
use crate::make::CARRIAGE_RETURN;
use crate::make_messages::{self, ANSWER_17, BAR, CONTROL_0, CONTROL_MINUS_1};
use crate::real;
use host::ffi;

/// Document 01's answer, and short messages with every way to begin and to end.
const SHORT: [&[u8]; 15] = [
    ANSWER_17,
    b"",
    b"|",
    b"\r",
    b"x",
    b"x|",
    b"x\r",
    b"x|\r",
    b"x\r|",
    b"\r\r",
    b"||x",
    b"x|yz",
    b"x\r\ny",
    b"\n\0^~\\&",
    b"\xFC\x8D|\x7C\x0D\x0D",
];

/// A walk through short messages, and every position in these, in real messages and in document 01's,
/// and far behind.
pub fn field_positions(compare: &mut Compare) -> Outcome {
    SHORT.iter().try_for_each(|message| compare.walk(message))?;
    let real = real::MESSAGES.map(|(message, _)| message);
    let others = [CONTROL_0, CONTROL_MINUS_1, real::SEGMENTS];
    for message in SHORT.into_iter().chain(real).chain(others) {
        compare.every_position(message)?;
    }
    Ok(())
}

/// The real messages and answers made of them: whole, ended at every length, without each delimiter,
/// with others in its stead, and with segments swapped and put in.
pub fn real_walks(compare: &mut Compare) -> Outcome {
    for message in make_messages::corpus() {
        compare.every_position(&message)?;
        for length in 0..=message.len() {
            compare.walk(&message[..length])?;
        }
        for delimiter in [BAR, CARRIAGE_RETURN] {
            for offset in make_messages::offsets(&message, delimiter) {
                let others: [&[u8]; 6] = [b"", b"||", b"\r\r", b"\r|", b"\n", b"\x8C"];
                let other = compare.random.pick(&others);
                let range = offset..offset + 1;
                compare.walk(&make_messages::with_bytes(&message, range, other))?;
            }
        }
        let count = make_messages::segments(&message).len();
        for one in 0..count {
            compare.walk(&make_messages::swapped(&message, one, 0))?;
            compare.walk(&make_messages::with_segment(&message, one, b"\r"))?;
            compare.walk(&make_messages::with_fields(&message, one, Vec::clear))?;
        }
    }
    Ok(())
}

/// Messages of random fields and the real ones, with up to four random changes; some of them from
/// every position on.
pub fn damaged_walks(compare: &mut Compare) -> Outcome {
    let corpus = make_messages::corpus();
    for round in 0..30_000 {
        let mut message = if round % 8 == 0 {
            corpus[compare.random.below(corpus.len())].clone()
        } else {
            make_messages::pieces(&mut compare.random).bytes()
        };
        for _ in 0..compare.random.pick(&[0, 1, 1, 2, 3, 4]) {
            message = make_messages::damaged(&mut compare.random, &message);
        }
        compare.walk(&message)?;
        if round % 16 == 1 {
            compare.every_position(&message)?;
        }
    }
    Ok(())
}

/// The answers and control messages that the library itself writes.
pub fn written_walks(compare: &mut Compare) -> Outcome {
    for round in 0..3_000 {
        let control_id = make_messages::control_id(&mut compare.random);
        let number = compare.random.pick(&[1, 17, 999_999_999_999_999, u64::MAX]);
        let (mut buffer, mut report) = ([0; 100], [0; 2]);
        let code = 1 + round % 3;
        let answer = ffi::answer_write(&control_id, code, number, &mut buffer, 0, &mut report);
        same("answer", &[answer], &[0])?;
        compare.walk(&buffer[..report[0] as usize])?;
    }
    for number in [0, u64::MAX] {
        let (mut buffer, mut report) = ([0; 33], [0; 2]);
        let answer = ffi::control_write(b"ADT", number, &mut buffer, 0, &mut report);
        same("answer", &[answer], &[0])?;
        compare.walk(&buffer[..report[0] as usize])?;
    }
    Ok(())
}

/// Every message of up to six bytes that are a letter, a bar, CR or 00, from every position on.
pub fn every_short_walk(compare: &mut Compare) -> Outcome {
    const ALPHABET: [u8; 4] = [b'A', BAR, CARRIAGE_RETURN, 0x00];
    for length in 0..=6 {
        for index in 0..ALPHABET.len().pow(length) {
            let digit = |power: u32| index / ALPHABET.len().pow(power) % ALPHABET.len();
            let message: Vec<u8> = (0..length).map(|power| ALPHABET[digit(power)]).collect();
            compare.walk(&message)?;
            compare.every_position(&message)?;
        }
    }
    Ok(())
}

/// One delimiter, and two side by side, at every offset among bytes that differ from delimiters by
/// one bit or by one; lengths around those of wide registers.
pub fn delimiter_offsets(compare: &mut Compare) -> Outcome {
    const FILLINGS: [u8; 9] = *b"A\x00\xFF\x7D\x7B\x0C\x0E\x8D\xFC";
    for length in [1, 7, 8, 9, 15, 16, 17, 31, 32, 33, 63, 64, 65, 70] {
        for filling in FILLINGS {
            for offset in 0..length {
                let mut message = vec![filling; length];
                message[offset] = compare.random.pick(&[BAR, CARRIAGE_RETURN]);
                compare.walk(&message)?;
                let beside = (offset + 1).min(length - 1);
                message[beside] = compare.random.pick(&[BAR, CARRIAGE_RETURN, 0x7D, 0x0C]);
                compare.every_position(&message)?;
            }
        }
    }
    Ok(())
}

/// Random bytes, most of them no delimiters, and random mixtures of few bytes, many of them
/// delimiters.
pub fn random_walks(compare: &mut Compare) -> Outcome {
    for round in 0..30_000 {
        let length = compare.random.below(150);
        let any = compare.random.bytes(length);
        let few: Vec<u8> = (0..length)
            .map(|_| {
                compare
                    .random
                    .pick(b"|||\r\rAB\x00\x0A\x7D\x0C\x8D\xFC\xFF")
            })
            .collect();
        compare.walk(&any)?;
        compare.walk(&few)?;
        let position = compare.random.below(length + 3);
        compare.field_with(&any, position, 5)?;
        if round % 40 == 0 {
            compare.every_position(&few)?;
        }
    }
    Ok(())
}

/// A field of very many bytes, and very many delimiters, at the message's start, middle and end.
pub fn long_walks(compare: &mut Compare) -> Outcome {
    for length in [
        255, 256, 257, 4_095, 4_096, 4_097, 65_535, 65_536, 65_537, 99_994,
    ] {
        let field = make_messages::field(&mut compare.random, length);
        for delimiters in [&b"|"[..], b"\r", b"|\r", b"||\r\r"] {
            compare.walk(&[&field, delimiters].concat())?;
            compare.walk(&[delimiters, &field].concat())?;
            compare.walk(&[&field, delimiters, &field].concat())?;
        }
        for delimiter in [BAR, CARRIAGE_RETURN] {
            let mut many = vec![delimiter; length.min(4_097)];
            compare.walk(&many)?;
            many.extend_from_slice(&field);
            compare.walk(&many)?;
        }
    }
    Ok(())
}
