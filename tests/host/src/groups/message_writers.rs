//! The writers of answers and control messages: what they write, what they refuse in which order,
//! and every start; and the number of words of each array.

use crate::compare::{Compare, Outcome};
use crate::compare_messages::{AnswerCall, ControlCall};
use crate::make;
use crate::make_messages::{self, Pieces, ANSWER_17, CONTROL_0};
use host::message_model::{self, ANSWER_FRAME, LARGEST_EXPECTED, MINUS_ONE};

/// What an answer takes, refused or not.
fn need(control_id: &[u8], number: u64) -> usize {
    ANSWER_FRAME + 2 * control_id.len() + message_model::number_text(number).len()
}

/// One call with a buffer that ends so many bytes after the answer.
fn answer_at(
    compare: &mut Compare,
    control_id: &[u8],
    code: u64,
    number: u64,
    start: usize,
    behind: usize,
) -> Outcome {
    let buffer = vec![compare.random.byte(); start + need(control_id, number) + behind];
    let report_words = 2 + compare.random.below(3);
    compare.answer_call(&AnswerCall {
        control_id,
        code,
        number,
        buffer: &buffer,
        start,
        report_words,
    })
}

/// Numbers of every count of digits, at both ends; -1; and those over the largest.
fn numbers() -> Vec<u64> {
    let mut list = vec![0, MINUS_ONE, MINUS_ONE - 1, MINUS_ONE - 2, 1 << 63];
    for digits in 0..20 {
        let power = 10_u64.pow(digits);
        list.extend([power, power - 1, power + 1, power + power / 2]);
    }
    list.extend([LARGEST_EXPECTED - 1, 1 << 31, 1 << 32, (1 << 32) + 7]);
    list
}

/// Answers with control IDs of 1 to 20 bytes, each code, and numbers of every length.
pub fn answers_written(compare: &mut Compare) -> Outcome {
    for number in numbers() {
        for code in 1..=3 {
            for length in 1..=20 {
                let mut id = make_messages::control_id(&mut compare.random);
                id.resize(length, b'~');
                answer_at(compare, &id, code, number, 0, 0)?;
            }
        }
    }
    for _ in 0..90_000 {
        let id = make_messages::control_id(&mut compare.random);
        let code = compare.random.between(1, 3) as u64;
        let shift = compare.random.between(14, 64) as u32;
        let number = compare.random.draw().checked_shr(shift).unwrap_or(0);
        let number = if compare.random.one_in(8) {
            MINUS_ONE
        } else {
            number
        };
        let (start, behind) = (compare.random.below(20), compare.random.below(20));
        answer_at(compare, &id, code, number, start, behind)?;
    }
    Ok(())
}

/// Every byte at each of some offsets of control IDs, and IDs of 0 to 25 bytes.
fn odd_control_ids(compare: &mut Compare) -> Outcome {
    for byte in 0..=255 {
        for length in [1, 2, 8, 20, 21] {
            for offset in [0, 1, length / 2, length - 1] {
                let mut id = vec![b'A'; length];
                if offset < length {
                    id[offset] = byte;
                }
                let number = compare.random.pick(&[17, LARGEST_EXPECTED + 1]);
                answer_at(compare, &id, 1, number, 0, 0)?;
            }
        }
    }
    for length in 0..=25 {
        for first in 0..=length {
            for special in *b"A|\r\x1F\x7F\xFF" {
                for second in *b"A|\r\x00" {
                    let mut id = vec![b'5'; length];
                    for (offset, byte) in [(first, special), (length / 2, second)] {
                        if let Some(found) = id.get_mut(offset) {
                            *found = byte;
                        }
                    }
                    answer_at(compare, &id, 2, 5, 3, 1)?;
                }
            }
        }
    }
    Ok(())
}

const CODES: [u64; 12] = [
    0,
    1,
    2,
    3,
    4,
    256,
    257,
    (1 << 32) + 1,
    (1 << 63) + 2,
    0x4141,
    u64::MAX - 2,
    u64::MAX,
];

/// A control ID of each kind: good, too short or long, with a bar, CR or forbidden byte, and with
/// several of these.
const CONTROL_IDS: [&[u8]; 14] = [
    b"17",
    b"A",
    b"ABCDEFGHIJKLMNOPQRST",
    b"",
    b"ABCDEFGHIJKLMNOPQRSTU",
    b"ABCDEFGHIJKLMNOPQRSTUVWXY",
    b"A|B",
    b"\r",
    b"|\r",
    b"\x01",
    b"A\x7F",
    b"|\x80",
    b"ABCDEFGHIJKLMNOPQRSTU\x00",
    b"ABCDEFGHIJKLMNOPQRSTU|",
];

const NUMBERS: [u64; 9] = [
    0,
    17,
    MINUS_ONE,
    LARGEST_EXPECTED - 1,
    LARGEST_EXPECTED,
    LARGEST_EXPECTED + 1,
    LARGEST_EXPECTED + 2,
    u64::MAX - 1,
    1 << 63,
];

/// All refusals of the answer writer, by themselves and in every mixture, with exactly the bytes
/// needed, one too few and none; then random mixtures.
pub fn answer_refusals(compare: &mut Compare) -> Outcome {
    odd_control_ids(compare)?;
    for code in CODES {
        for control_id in CONTROL_IDS {
            for number in NUMBERS {
                answer_mixture(compare, control_id, code, number)?;
            }
        }
    }
    for _ in 0..160_000 {
        let length = compare.random.below(26);
        let mut id = make::data(&mut compare.random, length);
        if compare.random.one_in(2) {
            id.retain(|&byte| byte != b'|' && byte != b'\r');
        }
        if length > 0 && compare.random.one_in(3) {
            let offset = compare.random.below(length);
            id.resize(length, b'Z');
            id[offset] = make::delimiter(&mut compare.random);
        }
        let any = compare.random.draw();
        let code = compare.random.pick(&[1, 2, 3, 1, 2, 3, 0, 4, any]);
        let near = LARGEST_EXPECTED - 2 + compare.random.below(6) as u64;
        let number = compare.random.pick(&[17, near, any, any >> 14, MINUS_ONE]);
        let need = need(&id, number);
        let start = compare.random.below(9);
        let total = (need + start + 3).saturating_sub(compare.random.pick(&[0, 1, 2, 3, 4, 9]));
        let report_words = compare.random.pick(&[2, 2, 2, 3, 4, 1, 0]);
        compare.answer_call(&AnswerCall {
            control_id: &id,
            code,
            number,
            buffer: &vec![0xEE; total],
            start,
            report_words,
        })?;
    }
    Ok(())
}

fn answer_mixture(compare: &mut Compare, control_id: &[u8], code: u64, number: u64) -> Outcome {
    let need = need(control_id, number);
    for report_words in [0, 1, 2, 3] {
        for (length, start) in [
            (need, 0),
            (need - 1, 0),
            (need + 5, 5),
            (need + 4, 5),
            (need + 5, 4),
            (0, 0),
            (need, need),
            (need, usize::MAX),
        ] {
            compare.answer_call(&AnswerCall {
                control_id,
                code,
                number,
                buffer: &vec![0xEE; length],
                start,
                report_words,
            })?;
        }
    }
    Ok(())
}

/// Starts in and behind a buffer of some length, and near 2^64, where the end of a message of so
/// many bytes is hard to compute.
fn starts(length: usize, need: usize) -> Vec<usize> {
    let mut list: Vec<usize> = (0..=length + 2).collect();
    list.extend([1 << 32, 1 << 63, usize::MAX - length]);
    list.extend((0..=need).map(|less| usize::MAX - less));
    list
}

/// Every start of both writers in buffers of every length around what is needed.
pub fn message_starts(compare: &mut Compare) -> Outcome {
    let answers: [(&[u8], u64); 5] = [
        (b"17", 17),
        (b"7", MINUS_ONE),
        (b"ABCDEFGHIJKLMNOPQRST", LARGEST_EXPECTED),
        (b"A|\x01", 1),
        (b"A", LARGEST_EXPECTED + 1),
    ];
    for (control_id, number) in answers {
        let need = need(control_id, number);
        let lengths = (0..4).chain(need - 4..need + 12);
        for length in lengths {
            for start in starts(length, need) {
                compare.answer_call(&AnswerCall {
                    control_id,
                    code: 1,
                    number,
                    buffer: &vec![0xEE; length],
                    start,
                    report_words: 2,
                })?;
            }
        }
    }
    for number in [0, MINUS_ONE] {
        for length in 0..60 {
            for start in starts(length, if number == 0 { 31 } else { 33 }) {
                compare.control_call(&ControlCall {
                    message_type: b"ADT",
                    number,
                    buffer: &vec![0xEE; length],
                    start,
                    report_words: 2,
                })?;
            }
        }
    }
    Ok(())
}

/// Control messages of all types, at random starts.
pub fn control_messages(compare: &mut Compare) -> Outcome {
    for first in b'A'..=b'Z' {
        for second in b'A'..=b'Z' {
            for third in b'A'..=b'Z' {
                for number in [0, MINUS_ONE] {
                    let start = compare.random.below(20);
                    let length = start + 31 + compare.random.below(20);
                    let buffer = compare.random.bytes(length);
                    let report_words = 2 + compare.random.below(3);
                    compare.control_call(&ControlCall {
                        message_type: &[first, second, third],
                        number,
                        buffer: &buffer,
                        start,
                        report_words,
                    })?;
                }
            }
        }
    }
    Ok(())
}

const CONTROL_NUMBERS: [u64; 9] = [
    0,
    MINUS_ONE,
    1,
    2,
    17,
    u64::MAX - 1,
    1 << 32,
    1 << 63,
    (1 << 32) - 1,
];

/// Types that are not three capital letters, numbers that are neither 0 nor -1, and too little
/// memory, in every mixture.
pub fn control_refusals(compare: &mut Compare) -> Outcome {
    let mut types: Vec<Vec<u8>> = Vec::new();
    for length in 0..=8 {
        types.push(b"ADTORUXY"[..length].to_vec());
    }
    for offset in 0..3 {
        for byte in 0..=255 {
            let mut changed = b"ADT".to_vec();
            changed[offset] = byte;
            types.push(changed);
        }
    }
    for message_type in types {
        for number in CONTROL_NUMBERS {
            for (length, start) in [(31, 0), (30, 0), (33, 0), (32, 0), (40, 7), (9, 10)] {
                let report_words = compare.random.pick(&[2, 2, 3, 1, 0]);
                compare.control_call(&ControlCall {
                    message_type: &message_type,
                    number,
                    buffer: &vec![0xEE; length],
                    start,
                    report_words,
                })?;
            }
        }
    }
    Ok(())
}

/// Arrays of 0 to 12 words for headers, answers and reports: too few change nothing, and those
/// behind the stated ones stay.
pub fn message_words(compare: &mut Compare) -> Outcome {
    let unreadable = [&b""[..], b"MSH|\r", b"MSH|||||||||A", &ANSWER_17[1..]];
    let answer = Pieces::new(b"17", b"999999999999998", [b"AR", b"17", b"-1"]).bytes();
    let readable = [ANSWER_17, CONTROL_0, &answer, b"MSH|||||||||A\rMSA|\r"];
    for words in 0..=12 {
        for _ in 0..30 {
            for message in unreadable.into_iter().chain(readable) {
                compare.message_with(message, words, words)?;
                let (header, answer) = (compare.random.below(13), compare.random.below(13));
                compare.message_with(message, header, answer)?;
            }
            for (code, control_id, number) in [
                (1, &b"17"[..], 17),
                (0, b"17", 17),
                (2, b"\x01", 17),
                (3, b"|", 17),
                (1, b"17", LARGEST_EXPECTED + 1),
            ] {
                for less in [0, 1] {
                    compare.answer_call(&AnswerCall {
                        control_id,
                        code,
                        number,
                        buffer: &vec![0xEE; need(control_id, number) - less],
                        start: 0,
                        report_words: words,
                    })?;
                }
            }
            for (message_type, number) in [(b"ADT", 0), (b"ADT", MINUS_ONE), (b"adt", 0)] {
                compare.control_call(&ControlCall {
                    message_type,
                    number,
                    buffer: &[0xEE; 33],
                    start: 0,
                    report_words: words,
                })?;
            }
        }
    }
    Ok(())
}
