//! The receiver at the C boundary: refusals in their order, words that are no state, and types that no
//! reader gives. Each act is compared with the model in everything.

use super::receiver::{decide, report, two_receivers, DATA, NAK};
use crate::compare::{Compare, Outcome};
use crate::compare_receiver::{expects, Receiver, ReceiverCall};
use crate::guarded::same;
use crate::make_ends;
use host::ends_ffi::names::STORED;
use host::message_model::{LARGEST_EXPECTED, LARGEST_SENT};
use host::model::{Layer, Settings};
use host::receiver_model::{ReceiverAct, RECEIVER_WORDS};

/// Refusals in the order 1, 2, 11: every combination of a wrong setting, limit, verdict, report or
/// number, of words and bytes too few, and of words that are no state or one in which the act does not
/// apply.
pub fn receiver_refusals(compare: &mut Compare) -> Outcome {
    let all_settings = [
        Settings::hybrid(0x0B, 0x1C, 128),
        Settings::hybrid(0x0B, 0x0B, 128),
        Settings::hybrid(0x0D, 0x1C, 128),
        Settings::hybrid(0x0B, 0x41, 128),
        Settings::hybrid(0x10B, 0x1C, 128),
        Settings::hybrid(0x0B, 0x1C, 127),
        Settings::hybrid(0x0B, 0x1C, 99_995),
        Settings::hybrid(0x0B, 0x1C, 0),
        Settings::minimal(128),
        Settings::minimal(127),
        Settings::minimal(99_995),
        Settings::minimal(0),
        Settings::minimal(u64::MAX),
    ];
    for settings in all_settings {
        let good = Settings {
            limit: 128,
            ..settings
        };
        let mut receiver = Receiver::new(compare, &good, 0, 4);
        receiver.state.resize(RECEIVER_WORDS + 1, 9);
        for words in states_and_others() {
            for act in all_acts(&settings) {
                receiver.set_words(words);
                let call = ReceiverCall {
                    act,
                    ..receiver.whole_call(act)
                };
                short_memory(compare, &mut receiver, &call)?;
            }
        }
    }
    Ok(())
}

/// States with and without an open decision, and words that are none.
fn states_and_others() -> [[u64; RECEIVER_WORDS]; 7] {
    let too_large = LARGEST_EXPECTED + 1;
    [
        expects(0),
        expects(LARGEST_EXPECTED),
        [5, 1, 5, 5, 6, 1, 65, 0, 0],
        [5, 3, 5, 0, 5, 1, 65, 0, 0],
        expects(too_large),
        [5, 4, 5, 5, 6, 1, 65, 0, 0],
        [5, 1, 5, 5, 6, 0, 65, 0, 0],
    ]
}

/// Every act with what it takes, right and wrong.
fn all_acts(settings: &Settings) -> Vec<ReceiverAct<'static>> {
    let settings = *settings;
    let data = b"MSH|||||||||A|||5\r";
    let mut acts = Vec::new();
    for application in [0, 1, 2, 3, 257, u64::MAX] {
        for block_type in [DATA, NAK, 0, 256 + DATA, u64::MAX] {
            acts.push(ReceiverAct::Decide {
                application,
                block_type,
                data,
            });
        }
    }
    for stored in [0, 1, 2, 256, u64::MAX] {
        acts.push(ReceiverAct::Report { settings, stored });
    }
    if settings.layer == Layer::Hybrid {
        for number in [0, 1, 2, 3, 8, 9, 10, 11, 259, u64::MAX] {
            acts.push(ReceiverAct::Nak { settings, number });
        }
    }
    acts
}

/// The call as it is, and with each memory too short: words of the state, words of the report, the
/// buffer's length and the start.
fn short_memory(compare: &mut Compare, receiver: &mut Receiver, call: &ReceiverCall) -> Outcome {
    let (length, start, words) = (call.buffer_length, call.start, call.report_words);
    let before = receiver.state.clone();
    for (state_words, report_words, buffer_length, start) in [
        (9, words, length, start),
        (8, words, length, start),
        (0, words, length, start),
        (9, words - 1, length, start),
        (9, 0, length, start),
        (9, words, length - 1, start),
        (9, words, length, start + 1),
        (9, words, length, usize::MAX),
        (9, words, 0, 0),
        (0, 0, 0, start),
    ] {
        receiver.state.clone_from(&before);
        let call = ReceiverCall {
            state_words,
            report_words,
            buffer_length,
            start,
            ..*call
        };
        compare.receiver_act(receiver, &call)?;
    }
    Ok(())
}

/// What stands in the words of a control ID: its length and its bytes.
const IDS: [[u64; 4]; 9] = [
    [1, 65, 0, 0],
    [1, u64::MAX << 8 | 65, u64::MAX, 7],
    [20, SEVENS, SEVENS, SEVENS & 0xFFFF_FFFF],
    [0, 65, 0, 0],
    [21, SEVENS, SEVENS, SEVENS],
    [24, SEVENS, SEVENS, SEVENS],
    [9, SEVENS, 0x7C, 0],
    [17, SEVENS, SEVENS, 0x0D],
    [1 << 32 | 1, 65, 0, 0],
];
const SEVENS: u64 = 0x3737_3737_3737_3737;

/// Every combination of small words, and of the largest: exactly those that a row of the table has are
/// states. Each of the acts is made on each of them.
pub fn receiver_words(compare: &mut Compare) -> Outcome {
    let expected = [0, 1, 2, 5, LARGEST_SENT, LARGEST_EXPECTED, u64::MAX];
    let mut of = [0; 2];
    for mut receiver in two_receivers(compare) {
        for index in 0..expected.len() * 5 * 5 * 5 * 5 * IDS.len() {
            let words = combination(index, &expected);
            of[0] += 1;
            receiver.set_words(words);
            of[1] += u64::from(receiver.is_open());
            let settings = receiver.settings;
            let data = b"MSH|||||||||A|||5\r";
            for act in [
                ReceiverAct::Decide {
                    application: 1,
                    block_type: if index % 2 == 0 { DATA } else { NAK },
                    data,
                },
                ReceiverAct::Report {
                    settings,
                    stored: index as u64 / 2 % 2,
                },
            ] {
                receiver.set_words(words);
                compare.receiver_acts(&mut receiver, act)?;
            }
            if settings.layer == Layer::Hybrid {
                receiver.set_words(words);
                let nak = receiver.nak(3 + index as u64 % 7);
                compare.receiver_acts(&mut receiver, nak)?;
            }
        }
    }
    match of[1] {
        0..=200 => Err(format!(
            "only {} of {} words are open decisions",
            of[1], of[0]
        )),
        _ => Ok(()),
    }
}

/// The combination of words with this index: what is expected, a code up to 4, and a number, a
/// transaction and a new expected number that are none, this one, one near it or far from it.
fn combination(index: usize, expected: &[u64]) -> [u64; RECEIVER_WORDS] {
    let mut rest = index;
    let mut next = |count: usize| {
        let digit = rest % count;
        rest /= count;
        digit
    };
    let number = expected[next(expected.len())];
    let code = next(5) as u64;
    let near = [0, number, number.wrapping_add(1), 5, 6];
    let words = [near[next(5)], near[next(5)], near[next(5)]];
    let id = IDS[next(IDS.len())];
    let [answered, transaction, then] = words;
    let [length, first, second, third] = id;
    [
        number,
        code,
        answered,
        transaction,
        then,
        length,
        first,
        second,
        third,
    ]
}

/// An open decision of each row of the table with each byte of its control ID in turn, and with one word
/// changed in every bit: an answer is given exactly where the words are still a state.
pub fn receiver_corrupt_words(compare: &mut Compare) -> Outcome {
    let sequences: [&[u8]; 6] = [b"-1", b"0", b"5", b"6", b"", b"999999999999998"];
    for mut receiver in two_receivers(compare) {
        for expected in [0, 1, 5, LARGEST_SENT, LARGEST_EXPECTED] {
            for sequence in sequences {
                let length = compare.random.between(1, 20);
                let data =
                    make_ends::request(&mut compare.random, &vec![b'A'; length], Some(sequence));
                receiver.set_words(expects(expected));
                decide(compare, &mut receiver, 2, &data)?;
                changed_bits(compare, &mut receiver)?;
                changed_bytes(compare, &mut receiver, length)?;
            }
        }
    }
    Ok(())
}

/// One bit of one word changed: the report, and a decision.
fn changed_bits(compare: &mut Compare, receiver: &mut Receiver) -> Outcome {
    let before = receiver.state.clone();
    for index in 0..RECEIVER_WORDS {
        for bit in 0..64 {
            receiver.state.clone_from(&before);
            receiver.state[index] ^= 1 << bit;
            decide(compare, receiver, 1, b"MSH|||||||||A|||5\r")?;
            report(compare, receiver, bit % 4 / 3 ^ 1)?;
        }
    }
    receiver.state = before;
    Ok(())
}

/// Every byte in place of one of the control ID, and of one behind it, which counts for nothing.
fn changed_bytes(compare: &mut Compare, receiver: &mut Receiver, length: usize) -> Outcome {
    let before = receiver.state.clone();
    for offset in [0, length - 1, length] {
        for byte in 0..=255_u64 {
            receiver.state.clone_from(&before);
            let word = &mut receiver.state[6 + offset / 8];
            *word &= !(0xFF << (8 * (offset % 8)));
            *word |= byte << (8 * (offset % 8));
            report(compare, receiver, STORED)?;
        }
    }
    receiver.state = before;
    Ok(())
}

/// Types that no reader gives: every byte, and larger numbers. A decision refuses them by 1; to a sender
/// what is not N counts as data.
pub fn other_block_types(compare: &mut Compare) -> Outcome {
    let larger = [256 + DATA, 256 + NAK, NAK << 8, 1 << 32 | NAK, u64::MAX];
    let mut receiver = Receiver::new(compare, &Settings::minimal(128), 0, 3);
    for block_type in (0..=255).chain(larger) {
        for data in [&b"MSH|||||||||A|||5\r"[..], b"C", b"MSH|||||||||A|||-1\r"] {
            for words in states_and_others() {
                receiver.set_words(words);
                let act = ReceiverAct::Decide {
                    application: 1,
                    block_type,
                    data,
                };
                let answer = compare.receiver_acts(&mut receiver, act)?;
                let is_type = block_type == DATA || block_type == NAK;
                same("refused by 1", &[answer.number == 1], &[!is_type])?;
            }
        }
    }
    let answers: [&[u8]; 3] = [b"MSH|||||||||A\rMSA|AA|5||5\r", b"C", b""];
    for block_type in (0..=255).chain(larger) {
        for data in answers {
            let mut state = vec![5, 4, 5, 1, 0, 4, 1];
            let act = make_ends::with_type(3, block_type, data);
            compare.sender_act(&act, &mut state)?;
        }
    }
    Ok(())
}
