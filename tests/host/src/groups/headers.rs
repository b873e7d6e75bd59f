//! Reading header fields and answers: the real messages whole and damaged, every length of a
//! control ID, every number of digits, every byte everywhere, short messages and random ones.

use crate::compare::{Compare, Outcome};
use crate::make::CARRIAGE_RETURN;
use crate::make_messages::{self, Pieces, ANSWER_17, BAR, CONTROL_0};

/// A group of random messages whose headers or answers are seldom readable tests nothing; one in
/// so many must be.
fn enough(compare: &Compare, one_header_in: u64, one_answer_in: u64) -> Outcome {
    let (messages, headers, answers) = (compare.messages, compare.headers, compare.answers);
    if headers * one_header_in < messages || answers * one_answer_in < messages {
        return Err(format!(
            "of {messages} messages only {headers} have a readable header and {answers} are answers"
        ));
    }
    Ok(())
}

/// The real messages and answers made of them: whole, ended at every length, begun at every
/// offset, without each byte, and with every bar and CR taken out, doubled or replaced.
pub fn real_headers(compare: &mut Compare) -> Outcome {
    for message in make_messages::corpus() {
        compare.message(&message)?;
        for offset in 0..message.len() {
            compare.message(&message[..offset])?;
            compare.message(&message[offset..])?;
            let without = make_messages::with_bytes(&message, offset..offset + 1, b"");
            compare.message(&without)?;
        }
        for delimiter in [BAR, CARRIAGE_RETURN] {
            for offset in make_messages::offsets(&message, delimiter) {
                let others: [&[u8]; 8] =
                    [b"||", b"\r\r", b"|\r", b"\r|", b"\r", b"|", b"\n", b"\r\n"];
                for other in others {
                    let range = offset..offset + 1;
                    let changed = make_messages::with_bytes(&message, range, other);
                    compare.message(&changed)?;
                }
            }
        }
    }
    enough(compare, 8, 16)
}

/// The same messages with each field taken out, emptied or doubled, all behind it taken away, and
/// with segments swapped and put in.
pub fn real_fields(compare: &mut Compare) -> Outcome {
    for message in make_messages::corpus() {
        let segments = make_messages::segments(&message);
        for (index, segment) in segments.iter().enumerate() {
            every_field(compare, &message, index, segment)?;
        }
        for one in 0..segments.len() {
            for other in 0..one {
                compare.message(&make_messages::swapped(&message, one, other))?;
            }
            let segments: [&[u8]; 4] = [b"MSA|AA|17||17\r", b"MSA\r", b"\r", b"MSH|\r"];
            for segment in segments {
                let more = make_messages::with_segment(&message, one, segment);
                compare.message(&more)?;
            }
        }
    }
    enough(compare, 8, 16)
}

/// A change to the fields of a segment at one of them.
type Change = fn(&mut Vec<Vec<u8>>, usize);

fn every_field(compare: &mut Compare, message: &[u8], index: usize, segment: &[u8]) -> Outcome {
    for field in 0..=make_messages::offsets(segment, BAR).len() {
        let changes: [Change; 5] = [
            |fields, field| drop(fields.remove(field)),
            |fields, field| fields[field].clear(),
            |fields, field| fields.insert(field, fields[field].clone()),
            |fields, field| fields.truncate(field),
            |fields, field| fields.truncate(field + 1),
        ];
        for change in changes {
            let changed =
                make_messages::with_fields(message, index, |fields| change(fields, field));
            compare.message(&changed)?;
        }
    }
    Ok(())
}

/// The same messages and ones of random fields, with up to four random changes.
pub fn damaged_messages(compare: &mut Compare) -> Outcome {
    let corpus = make_messages::corpus();
    for _ in 0..250_000 {
        let mut message = if compare.random.one_in(3) {
            corpus[compare.random.below(corpus.len())].clone()
        } else {
            make_messages::pieces(&mut compare.random).bytes()
        };
        for _ in 0..compare.random.pick(&[0, 1, 1, 2, 3, 4]) {
            message = make_messages::damaged(&mut compare.random, &message);
        }
        compare.message(&message)?;
    }
    enough(compare, 3, 6)
}

/// MSH-10 and MSA-2 of every length from 0 to 25, of letters and of any bytes, with fields behind
/// them and without.
pub fn control_id_lengths(compare: &mut Compare) -> Outcome {
    for own in 0..=25 {
        for answered in 0..=25 {
            for round in 0..150 {
                let fill = |compare: &mut Compare, length: usize| match round % 4 {
                    0 => vec![b'A'; length],
                    1 => vec![compare.random.pick(b"\x00 0\n\xFF\x7F^"); length],
                    _ => make_messages::field(&mut compare.random, length),
                };
                let control_id = fill(compare, own);
                let answered_id = fill(compare, answered);
                let answer = [&b"AA"[..], &answered_id, b"7"];
                let mut pieces = Pieces::new(&control_id, b"7", answer);
                pieces.header.truncate(compare.random.pick(&[10, 11, 13]));
                pieces.second.truncate(compare.random.pick(&[3, 4, 5]));
                compare.message(&pieces.bytes())?;
            }
        }
    }
    enough(compare, 2, 2)
}

/// Texts in the field of a number: digits of every length up to 20, with leading zeros, all alike,
/// at the bounds, with signs, and with one byte that is no digit.
fn number_texts(compare: &mut Compare) -> Vec<Vec<u8>> {
    let mut texts: Vec<Vec<u8>> = Vec::new();
    for length in 0..=20 {
        for digit in b'0'..=b'9' {
            texts.push(vec![digit; length]);
        }
        for zeros in 0..=length {
            for _ in 0..3 {
                let rest = make_messages::digits(&mut compare.random, length - zeros);
                texts.push([vec![b'0'; zeros], rest].concat());
            }
        }
    }
    for bound in [0, 10, 1 << 31, 1 << 32, 999_999_999_999_998, 1 << 63] {
        for near in 0..8 {
            let number: u64 = u64::saturating_sub(bound + near, 4);
            for zeros in 0..3 {
                texts.push(format!("{}{number}", "0".repeat(zeros)).into_bytes());
            }
        }
    }
    let signs = [
        "-1",
        "-01",
        "+1",
        "-0",
        "-2",
        "1-",
        "-",
        "+",
        "--1",
        "-1-",
        "-11",
        "- 1",
        "-1 ",
        "01-",
        "+-1",
        "-+1",
        "+0",
        "-9",
        "-999999999999998",
        "\u{2212}1",
        "1\x00",
        "\x00",
        "\x001",
    ];
    texts.extend(signs.map(|sign| sign.as_bytes().to_vec()));
    // Numbers that are small again where 64 bits are too few.
    texts.push(b"18446744073709551616".to_vec());
    texts.push(b"18446744073709551623".to_vec());
    texts.push(b"340282366920938463463374607431768211463".to_vec());
    for text in [
        &b"7"[..],
        b"17",
        b"-1",
        b"999999999999998",
        b"999999999999999",
    ] {
        for index in 0..text.len() {
            for byte in 0..=255 {
                let mut changed = text.to_vec();
                changed[index] = byte;
                texts.push(changed);
            }
        }
    }
    texts
}

/// Each text in MSH-13 and in MSA-4, alone and beside a random one, with CR, a bar and more fields
/// behind it; then random texts.
pub fn field_numbers(compare: &mut Compare) -> Outcome {
    for text in number_texts(compare) {
        let other = make_messages::number(&mut compare.random);
        for (sequence, expected) in [(&text, &text), (&text, &other), (&other, &text)] {
            number_pair(compare, sequence, expected)?;
        }
    }
    for _ in 0..60_000 {
        let sequence = make_messages::number(&mut compare.random);
        let expected = make_messages::number(&mut compare.random);
        number_pair(compare, &sequence, &expected)?;
    }
    enough(compare, 2, 2)
}

/// A bar or CR in a text makes two fields of it, or two segments; that is an input as well.
fn number_pair(compare: &mut Compare, sequence: &[u8], expected: &[u8]) -> Outcome {
    let code = compare.random.pick(&[&b"AA"[..], b"AE", b"AR"]);
    let mut pieces = Pieces::new(b"17", sequence, [code, b"17", expected]);
    compare.message(&pieces.bytes())?;
    pieces.header.push(Vec::new());
    pieces.second.push(b"8".to_vec());
    compare.message(&pieces.bytes())?;
    pieces.fill(&mut compare.random);
    compare.message(&pieces.bytes())
}

/// A short header of nine bars, one of twelve, and answers with them.
const SHORT: [&[u8]; 6] = [
    b"MSH|||||||||A\r",
    b"MSH|||||||||A|||7\r",
    CONTROL_0,
    b"MSH|||||||||A\rMSA|AA|A||7\r",
    b"MSH|||||||||A|||-1\rMSA|AE|A||-1\r",
    ANSWER_17,
];

/// All 256 byte values over and before every byte of short messages; then two special bytes at
/// all pairs of offsets.
pub fn every_byte_in_messages(compare: &mut Compare) -> Outcome {
    for message in SHORT {
        for offset in 0..=message.len() {
            for byte in 0..=255 {
                let before = make_messages::with_bytes(message, offset..offset, &[byte]);
                compare.message(&before)?;
                if offset < message.len() {
                    let mut over = message.to_vec();
                    over[offset] = byte;
                    compare.message(&over)?;
                }
            }
        }
        for first in 0..message.len() {
            for second in 0..first {
                for one in *b"|\r0-\xFF" {
                    for other in *b"|\rA9\n" {
                        let mut over = message.to_vec();
                        over[first] = one;
                        over[second] = other;
                        compare.message(&over)?;
                    }
                }
            }
        }
    }
    enough(compare, 3, 6)
}

/// Gives a beginning with each sequence of up to so many pieces behind it.
fn every_sequence(compare: &mut Compare, begin: &[u8], pieces: &[&[u8]], most: usize) -> Outcome {
    let mut level: Vec<Vec<u8>> = vec![begin.to_vec()];
    for length in 0..=most {
        for message in &level {
            compare.message(message)?;
        }
        if length < most {
            let mut longer = Vec::with_capacity(level.len() * pieces.len());
            for message in &level {
                longer.extend(pieces.iter().map(|piece| [message, *piece].concat()));
            }
            level = longer;
        }
    }
    Ok(())
}

/// Every short sequence of names, bars, CR, letters and digits.
pub fn every_short_message(compare: &mut Compare) -> Outcome {
    let names: [&[u8]; 8] = [
        b"MSH|",
        b"||||||||",
        b"|",
        b"||",
        b"\r",
        b"MSA|",
        b"A",
        b"7",
    ];
    every_sequence(compare, b"", &names, 5)?;
    every_sequence(compare, b"MSH|||||||||", &names[2..], 6)?;
    let fields: [&[u8]; 6] = [b"AA", b"|", b"\r", b"-1", b"7", b"0"];
    every_sequence(compare, b"MSH|||||||||A\rMSA|", &fields, 6)?;
    let ends: [&[u8]; 5] = [b"\r", b"M", b"S", b"A", b"|"];
    every_sequence(compare, b"MSH|||||||||A\r", &ends, 7)?;
    enough(compare, 3, 8)
}

/// Random bytes, and random mixtures of what messages are made of.
pub fn random_messages(compare: &mut Compare) -> Outcome {
    let pieces: [&[u8]; 24] = [
        b"MSH|",
        b"MSH",
        b"MSA|",
        b"MSA",
        b"|",
        b"|",
        b"|",
        b"||",
        b"|||",
        b"\r",
        b"\r",
        b"\rMSA|",
        b"|AA|",
        b"AE",
        b"AR",
        b"-1",
        b"0",
        b"17",
        b"7",
        b"^~\\&",
        b"||||||||",
        b"\n",
        b"-",
        b"999999999999999",
    ];
    for _ in 0..60_000 {
        let length = compare.random.below(60);
        let bytes = compare.random.bytes(length);
        compare.message(&bytes)?;
        compare.message(&[b"MSH|||||||||", &bytes[..]].concat())?;
    }
    for _ in 0..450_000 {
        let begins: [&[u8]; 5] = [
            b"",
            b"MSH|",
            b"MSH|||||||||",
            b"MSH|^~\\&||||||||17",
            b"MSH|||||||||A\rMSA|",
        ];
        let mut message = compare.random.pick(&begins).to_vec();
        for _ in 0..compare.random.below(24) {
            message.extend_from_slice(compare.random.pick(&pieces));
            if compare.random.one_in(12) {
                message.push(compare.random.byte());
            }
        }
        compare.message(&message)?;
    }
    enough(compare, 4, 12)
}

/// Fields that begin far from the start, control IDs and texts of many thousand bytes, and very
/// many bars.
pub fn long_messages(compare: &mut Compare) -> Outcome {
    let lengths = [
        100, 255, 256, 257, 4_095, 4_096, 32_767, 32_768, 65_535, 65_536, 65_537, 99_994, 200_000,
    ];
    for length in lengths {
        for index in 1..=13 {
            long_field(compare, length, index)?;
        }
        let bars = vec![BAR; length];
        for begin in [
            &b"MSH|||||||||A|||7"[..],
            b"MSH|||||||||A\rMSA|AA|A||7",
            b"MSH|",
        ] {
            compare.message(&[begin, &bars].concat())?;
            compare.message(&[begin, &bars, b"\r"].concat())?;
            compare.message(&[begin, b"\r", &bars].concat())?;
        }
    }
    Ok(())
}

fn long_field(compare: &mut Compare, length: usize, index: usize) -> Outcome {
    let long = make_messages::field(&mut compare.random, length);
    let good = Pieces::new(b"17", b"17", [b"AA", b"17", b"17"]);
    let mut pieces = good.clone();
    pieces.header.push(Vec::new());
    pieces.header[index] = long.clone();
    compare.message(&pieces.bytes())?;
    let mut pieces = good;
    pieces.second.resize(14, Vec::new());
    pieces.second[index] = long;
    compare.message(&pieces.bytes())?;
    let message = pieces.bytes();
    let end = compare.random.below(message.len());
    compare.message(&message[..end])
}
