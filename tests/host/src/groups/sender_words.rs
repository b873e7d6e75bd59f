//! Words that a sender is given and that encode no state, and refusals in their order.

use super::sender::first_number;
use crate::compare::{Compare, Outcome};
use crate::compare_ends::ControlBlockCall;
use crate::guarded::same;
use crate::make;
use crate::make_ends::{self, data_block, nak_block, refused_block, Plan};
use host::ends_ffi::names::{SENDER_DELIVERED, SENDER_LAST, SENDER_SENDS};
use host::message_model::{LARGEST_EXPECTED, LARGEST_SENT, MINUS_ONE};
use host::model::Settings;
use host::prng::Random;
use host::sender_model::{Act, Sender, ACT_WORDS, SENDER_WORDS};

type Words = [u64; SENDER_WORDS];

/// A state of each kind, small and at the largest numbers.
const STATES: [Words; 20] = [
    [1, 0, 0, 0, 0, 0, 0],
    [1, 0, 0, 0, 1, 0, 0],
    [1, 0, 2, 0, 0, 2, 1],
    [1, 0, 2, 0, 0, 2, 100],
    [17, 16, 18, 0, 0, 0, 0],
    [17, 16, 18, 0, 1, 0, 0],
    [17, 16, 18, 0, 0, 2, 3],
    [LARGEST_SENT, LARGEST_SENT - 1, LARGEST_SENT, 0, 0, 2, 1],
    [1, 0, 2, 1, 0, 3, 1],
    [1, 1, 3, 1, 0, 4, 2],
    [1, 3, 3, 1, 0, 1, 0],
    [5, 4, 4, 1, 0, 1, 0],
    [17, 20, 20, 1, 0, 3, 2],
    [17, 16, 16, 1, 0, 3, 1],
    [17, 20, 21, 1, 1, 0, 0],
    [17, 20, 21, 1, 0, 4, 4],
    [LARGEST_SENT, LARGEST_SENT - 1, LARGEST_SENT, 1, 0, 4, 1],
    [LARGEST_SENT, LARGEST_SENT, LARGEST_SENT, 1, 0, 1, 0],
    [
        LARGEST_SENT - 1,
        LARGEST_SENT - 1,
        LARGEST_SENT,
        1,
        0,
        3,
        99,
    ],
    [1, LARGEST_SENT, LARGEST_SENT, 1, 0, 3, 100],
];

/// What a corrupt word may hold, besides numbers near the others.
const VALUES: [u64; 20] = [
    0,
    1,
    2,
    3,
    4,
    5,
    6,
    99,
    100,
    101,
    255,
    256,
    1 << 32,
    (1 << 32) + 1,
    LARGEST_SENT - 1,
    LARGEST_SENT,
    LARGEST_EXPECTED,
    LARGEST_EXPECTED + 1,
    1 << 63,
    u64::MAX,
];

/// So many words of each kind a group tried.
#[derive(Default)]
struct Seen {
    not_resynchronized: u64,
    resynchronized: u64,
    too_early: u64,
    no_state: u64,
}

/// Words that are no state only because something is delivered and nothing resynchronized.
pub(super) fn delivered_too_early(words: &Words) -> bool {
    let [first, delivered, last, resynchronized, ..] = *words;
    let mut with_none = *words;
    with_none[SENDER_DELIVERED] = first.wrapping_sub(1);
    let in_order = first <= delivered && delivered <= last;
    resynchronized == 0 && in_order && Sender::decode(&with_none).is_some()
}

impl Seen {
    fn count(&mut self, words: &Words) {
        match Sender::decode(words) {
            Some(sender) if sender.resynchronized => self.resynchronized += 1,
            Some(_) => self.not_resynchronized += 1,
            None if delivered_too_early(words) => self.too_early += 1,
            None => self.no_state += 1,
        }
    }

    fn enough(&self, least: u64) -> Outcome {
        let counts = [
            ("states, not resynchronized", self.not_resynchronized),
            ("states, resynchronized", self.resynchronized),
            ("delivered before resynchronizing", self.too_early),
            ("other words that are no state", self.no_state),
        ];
        for (what, count) in counts {
            if count < least {
                return Err(format!("{what}: only {count}"));
            }
        }
        Ok(())
    }
}

/// Each act on these words: right answers to each message, and a right submit where there is one.
fn every_act(compare: &mut Compare, words: &Words) -> Outcome {
    let next = words[SENDER_LAST]
        .saturating_add(1)
        .to_string()
        .into_bytes();
    let submitted = [b"MSH|||||||||", &next[..], b"|||", &next, b"\r"].concat();
    for message in [&submitted[..], b"\x00"] {
        let limit = 128;
        one_act(compare, &Act::Submit { limit, message }, words)?;
    }
    for act in plain_acts() {
        one_act(compare, &act, words)?;
    }
    for answer in right_answers(words) {
        one_act(compare, &data_block(2, &answer), words)?;
    }
    Ok(())
}

/// The acts that need nothing of the state's numbers.
fn plain_acts() -> [Act<'static>; 10] {
    [
        Act::Open,
        Act::Ended,
        Act::Reset,
        Act::Timer { resends: 3 },
        Act::Timer { resends: 99 },
        Act::Timer { resends: 100 },
        nak_block(0, b"G"),
        refused_block(1, 3),
        refused_block(1, 9),
        data_block(3, b""),
    ]
}

/// Answers to each message that could wait; the last one freezes.
fn right_answers(words: &Words) -> [Vec<u8>; 6] {
    let delivered = words[SENDER_DELIVERED];
    let waiting = delivered.saturating_add(1).to_string().into_bytes();
    let after = delivered.saturating_add(2).to_string().into_bytes();
    let answer = |code: &[u8], id: &[u8], number: &[u8]| {
        [b"MSH|||||||||A\rMSA|", code, b"|", id, b"||", number, b"\r"].concat()
    };
    [
        answer(b"AA", b"-1", b"-1"),
        answer(b"AA", b"0", &waiting),
        answer(b"AA", b"0", &after),
        answer(b"AE", &waiting, &waiting),
        answer(b"AR", &waiting, &after),
        answer(b"AR", &waiting, &waiting),
    ]
}

/// One act on these words, sometimes with one more behind them; a refused act changes none.
fn one_act(compare: &mut Compare, act: &Act, words: &Words) -> Outcome {
    let mut state = words.to_vec();
    if compare.random.one_in(8) {
        state.push(compare.random.draw());
    }
    let before = state.clone();
    let answer = compare.sender_act(act, &mut state)?;
    if answer.number != 0 {
        same("state of a refused act", &state, &before)?;
    }
    Ok(())
}

/// States with every word of them corrupted in many ways.
pub fn corrupt_words(compare: &mut Compare) -> Outcome {
    let mut seen = Seen::default();
    for state in STATES {
        if Sender::decode(&state).is_none() {
            return Err(format!("{state:?} is no state"));
        }
        every_act(compare, &state)?;
        for index in 0..SENDER_WORDS {
            let near = state
                .iter()
                .flat_map(|&word| [word.wrapping_sub(1), word, word.wrapping_add(1)]);
            let values: Vec<u64> = VALUES.into_iter().chain(near).collect();
            for value in values {
                let mut words = state;
                words[index] = value;
                seen.count(&words);
                every_act(compare, &words)?;
            }
        }
    }
    if seen.no_state < 1_000 {
        let count = seen.no_state;
        return Err(format!("only {count} words that are no state"));
    }
    seen.enough(50)
}

/// The values of each small word: of the sends 0, 1, 100 and 101, of the others all from 0 on.
const SMALL: [usize; SENDER_WORDS] = [4, 4, 4, 3, 3, 6, 4];

/// The combination of small words with this index.
fn small(mut index: usize) -> Words {
    let mut words = SMALL.map(|values| {
        let value = index % values;
        index /= values;
        value as u64
    });
    words[SENDER_SENDS] = [0, 1, 100, 101][words[SENDER_SENDS] as usize];
    words
}

/// Every combination of small words; how many of them are a state was counted by hand.
pub fn small_words(compare: &mut Compare) -> Outcome {
    let mut seen = Seen::default();
    for index in 0..SMALL.iter().product() {
        let words = small(index);
        seen.count(&words);
        every_act(compare, &words)?;
    }
    let states = [seen.not_resynchronized, seen.resynchronized];
    same("states, not and resynchronized", &states, &[36, 105])?;
    same("delivered too early", &[seen.too_early], &[40])
}

/// Words that are a state unless they are frozen on an open circuit, have a count of sends that is
/// none, or something is delivered and nothing resynchronized.
fn likely_state(random: &mut Random) -> Words {
    let first = first_number(random);
    let submitted = random.below(4) as u64;
    let last = (first - 1 + submitted).min(LARGEST_SENT);
    let resynchronized = random.below(2) as u64;
    let delivered = if resynchronized == 1 || random.one_in(3) {
        (first - 1 + random.below(4) as u64).min(last)
    } else {
        first - 1
    };
    let waiting = match resynchronized {
        0 => random.pick(&[0, 2]),
        _ if delivered == last => random.pick(&[0, 1, 3]),
        _ => random.pick(&[0, 3, 4]),
    };
    let frozen = u64::from(random.one_in(if waiting == 0 { 2 } else { 8 }));
    let sends = if waiting > 1 { random.below(102) } else { 0 };
    let sends = sends as u64;
    [
        first,
        delivered,
        last,
        resynchronized,
        frozen,
        waiting,
        sends,
    ]
}

/// A state with about half of its words changed.
fn changed_words(random: &mut Random) -> Words {
    random.pick(&STATES).map(|word| {
        let shift = random.below(64);
        match random.below(4) {
            0 => random.draw() >> shift,
            1 => random.pick(&VALUES),
            _ => word,
        }
    })
}

/// Random words: such that may well be a state, and such that most often are none.
pub fn random_words(compare: &mut Compare) -> Outcome {
    let mut seen = Seen::default();
    for round in 0..5_000 {
        let words = if round % 2 == 0 {
            likely_state(&mut compare.random)
        } else {
            changed_words(&mut compare.random)
        };
        seen.count(&words);
        every_act(compare, &words)?;
    }
    seen.enough(200)
}

/// Nothing is delivered before the resynchronizing exchange: words that are not resynchronized are a
/// state only with delivered = first - 1. What each must be is said here, not by the model.
pub fn delivered_before_resynchronizing(compare: &mut Compare) -> Outcome {
    for first in [1, 2, 17, LARGEST_SENT - 2, LARGEST_SENT] {
        for last in first - 1..=(first + 2).min(LARGEST_SENT) {
            for delivered in first - 1..=last {
                resynchronized_or_not(compare, first, delivered, last)?;
            }
        }
    }
    Ok(())
}

/// Without a circuit, and waiting on -1.
fn resynchronized_or_not(compare: &mut Compare, first: u64, delivered: u64, last: u64) -> Outcome {
    let none = delivered == first - 1;
    for frozen in [0, 1] {
        let open = none && frozen == 0;
        is_state(compare, &[first, delivered, last, 0, frozen, 0, 0], none)?;
        is_state(compare, &[first, delivered, last, 0, frozen, 2, 1], open)?;
        is_state(compare, &[first, delivered, last, 0, frozen, 2, 100], open)?;
        is_state(compare, &[first, delivered, last, 1, frozen, 0, 0], true)?;
    }
    Ok(())
}

/// On a state exactly one of opening, ending and resetting is done; on other words every act is
/// refused by 11, and its report is nothing.
fn is_state(compare: &mut Compare, words: &Words, expected: bool) -> Outcome {
    let mut done = 0;
    for act in [Act::Open, Act::Ended, Act::Reset] {
        let answer = compare.sender_act(&act, &mut words.to_vec())?;
        done += u64::from(answer.number == 0);
    }
    same("acts done", &[done], &[u64::from(expected)])
        .map_err(|why| format!("{words:?}: {why}"))?;
    if !expected {
        for answer in right_answers(words) {
            let mut state = words.to_vec();
            let answer = compare.sender_act(&data_block(3, &answer), &mut state)?;
            same("number", &[answer.number], &[11])
                .and_then(|()| same("report", &answer.report, &[0; ACT_WORDS]))
                .and_then(|()| same("state", &state, words))
                .map_err(|why| format!("{words:?}: {why}"))?;
        }
    }
    every_act(compare, words)
}

/// Every combination of a setting outside its range, words too few, no state, an act that doesn't
/// apply, and a message that is refused: 1, 2, 11, 4, 3, 9, 10.
pub fn sender_refusals(compare: &mut Compare) -> Outcome {
    let states = [
        [1, 0, 2, 0, 0, 0, 0],
        [1, 0, 2, 1, 1, 0, 0],
        [1, 2, 2, 1, 0, 1, 0],
        [1, 0, 2, 0, 0, 2, 7],
        [1, 0, 2, 1, 0, 4, 9],
        [1, 0, 2, 0, 0, 4, 9],
        [0, 0, 2, 0, 0, 0, 0],
        [1, 1, 2, 0, 0, 0, 0],
        [1, 1, 2, 0, 0, 2, 7],
    ];
    for state in states {
        submit_refusals(compare, &state)?;
        for resends in [0, 3, 99, 100, 256, u64::MAX] {
            with_words(compare, &Act::Timer { resends }, &state)?;
            for number in [0, 1, 2, 3, 8, 9, 10, 11, 256, u64::MAX] {
                with_words(compare, &refused_block(resends, number), &state)?;
            }
            with_words(compare, &nak_block(resends, b"X"), &state)?;
        }
        for act in [Act::Open, Act::Ended, Act::Reset] {
            with_words(compare, &act, &state)?;
        }
    }
    for first in VALUES {
        for words in 0..=9 {
            compare.sender_fresh_with(first, words)?;
        }
    }
    Ok(())
}

/// Every data limit by messages that are right, or wrong in one way or several.
fn submit_refusals(compare: &mut Compare, state: &Words) -> Outcome {
    let right = b"MSH|||||||||3|||3\r".to_vec();
    let messages = [
        right.clone(),
        b"MSH|||||||||3|||4\r".to_vec(),
        b"MSH|||||||||4|||3\r".to_vec(),
        b"MSH|||3|||4\r".to_vec(),
        b"MSH|||3|||4\r\x7F".to_vec(),
        [&[b' '; 128][..], b"\x00"].concat(),
        [&right[..], &[b' '; 128]].concat(),
    ];
    for limit in [0, 127, 128, 129, 99_994, 99_995, u64::MAX] {
        for message in &messages {
            with_words(compare, &Act::Submit { limit, message }, state)?;
        }
    }
    Ok(())
}

/// The act with every number of words from none to some more than needed.
fn with_words(compare: &mut Compare, act: &Act, words: &Words) -> Outcome {
    let mut longer = words.to_vec();
    longer.extend([7, 8]);
    for (state_words, report_words) in [
        (7, 8),
        (9, 10),
        (6, 8),
        (7, 7),
        (0, 8),
        (7, 0),
        (6, 7),
        (0, 0),
    ] {
        let mut state = longer[..state_words].to_vec();
        compare.sender_act_with(act, &mut state, report_words)?;
    }
    Ok(())
}

/// Control blocks for both numbers, read back by the library's check and header reader: every
/// layer, many settings and types, exactly as many bytes as needed and one less.
pub fn control_blocks(compare: &mut Compare) -> Outcome {
    for round in 0..8_000 {
        let any = compare.random.between(128, 99_994) as u64;
        let limit = compare.random.pick(&[128, 128, 129, 4096, 99_994, any]);
        let settings = if round % 3 == 0 {
            Settings::minimal(limit)
        } else {
            make::hybrid_settings(&mut compare.random, limit)
        };
        let letters: Vec<u8> = (0..3)
            .map(|_| compare.random.between(b'A'.into(), b'Z'.into()) as u8)
            .collect();
        let number = compare.random.pick(&[0, MINUS_ONE]);
        let digits = if number == 0 { 1 } else { 2 };
        let need = 29 + 2 * digits + settings.overhead();
        let start = compare.random.pick(&[0, 0, 1, 7, 40]);
        let length = start + need + compare.random.pick(&[0, 0, 1, 30]);
        let less = usize::from(compare.random.one_in(6));
        let buffer = compare.random.bytes(length);
        let report_words = compare.random.pick(&[2, 2, 2, 2, 3, 1, 0]);
        compare.control_block(&ControlBlockCall {
            settings,
            message_type: &letters,
            number,
            buffer: &buffer[..length - less],
            start,
            report_words,
        })?;
    }
    control_block_refusals(compare)
}

/// 1 before 2: every wrong setting, type and number, with memory enough and without.
fn control_block_refusals(compare: &mut Compare) -> Outcome {
    let all_settings = [
        Settings::hybrid(0x0B, 0x1C, 128),
        Settings::hybrid(0x1C, 0x1C, 128),
        Settings::hybrid(0x0B, 0x0D, 128),
        Settings::hybrid(0x20, 0x1C, 128),
        Settings::hybrid(0x0B, 256, 128),
        Settings::hybrid(0x0B, 0x1C, 127),
        Settings::hybrid(0x0B, 0x1C, 99_995),
        Settings::minimal(128),
        Settings::minimal(127),
        Settings::minimal(0),
        Settings::minimal(99_995),
    ];
    let types: [&[u8]; 9] = [
        b"ADT", b"adt", b"AD", b"ADTA", b"", b"A|T", b"AD1", b"AD@", b"[DT",
    ];
    for settings in all_settings {
        for message_type in types {
            for number in [0, MINUS_ONE, 1, 2, MINUS_ONE - 1, 1 << 32] {
                control_block_memories(compare, settings, message_type, number)?;
            }
        }
    }
    Ok(())
}

/// The buffer's length, where the block starts in it, and the words of the report: enough of each,
/// and too few.
const CONTROL_MEMORIES: [(usize, usize, usize); 18] = [
    (60, 0, 2),
    (60, 12, 2),
    (60, 13, 2),
    (60, 15, 2),
    (48, 0, 2),
    (47, 0, 2),
    (46, 0, 2),
    (45, 0, 2),
    (36, 0, 2),
    (35, 0, 2),
    (34, 0, 2),
    (33, 0, 2),
    (0, 0, 2),
    (60, 60, 2),
    (60, usize::MAX, 2),
    (60, 0, 1),
    (60, 0, 0),
    (0, 0, 0),
];

fn control_block_memories(
    compare: &mut Compare,
    settings: Settings,
    message_type: &[u8],
    number: u64,
) -> Outcome {
    for (length, start, report_words) in CONTROL_MEMORIES {
        compare.control_block(&ControlBlockCall {
            settings,
            message_type,
            number,
            buffer: &[0xEE; 60][..length],
            start,
            report_words,
        })?;
    }
    Ok(())
}

/// From every kind of state, acts that make progress: each state is a beginning that a crash or
/// another run could have left.
pub fn any_beginning(compare: &mut Compare) -> Outcome {
    for _ in 0..2_500 {
        let mut state = compare.random.pick(&STATES).to_vec();
        let plan = Plan {
            resends: compare.random.pick(&[0, 1, 3, 99]),
            limit: 128,
        };
        for _ in 0..compare.random.between(1, 40) {
            let Some(sender) = Sender::decode(&state) else {
                return Err(format!("{state:?} is no state"));
            };
            let planned = plan.any(&mut compare.random, &sender, 3);
            compare.sender_act(&planned.act(), &mut state)?;
        }
    }
    Ok(())
}

/// Each message that waits by everything that may stand in MSA-1, MSA-2 and MSA-4.
pub fn every_answer(compare: &mut Compare) -> Outcome {
    let codes: [&[u8]; 12] = [
        b"AA", b"AE", b"AR", b"CA", b"CE", b"CR", b"aa", b"Aa", b"", b"A", b"AAA", b"AA ",
    ];
    for state in STATES {
        let Some(sender) = Sender::decode(&state) else {
            return Err(format!("{state:?} is no state"));
        };
        let ids = control_ids(&sender);
        let numbers = expected_numbers(&sender);
        for code in codes {
            for id in &ids {
                for number in &numbers {
                    let data =
                        make_ends::answer(&mut compare.random, b"A", code, id, number.as_deref());
                    compare.sender_act(&data_block(3, &data), &mut state.to_vec())?;
                }
            }
        }
    }
    Ok(())
}

/// The control IDs of all that could wait, and others like them.
fn control_ids(sender: &Sender) -> Vec<Vec<u8>> {
    let next = sender.delivered + 1;
    let mut ids: Vec<Vec<u8>> = [sender.delivered, next, next + 1]
        .map(|number| number.to_string().into_bytes())
        .into();
    ids.push(format!("0{next}").into_bytes());
    ids.push(format!("{next} ").into_bytes());
    for text in [&b"-1"[..], b"0", b"", b"00", b"-", b"1-"] {
        ids.push(text.to_vec());
    }
    ids
}

/// What MSA-4 may hold; none where it is missing.
fn expected_numbers(sender: &Sender) -> Vec<Option<Vec<u8>>> {
    let delivered = sender.delivered;
    let mut numbers: Vec<Option<Vec<u8>>> = vec![None];
    for number in [
        delivered.saturating_sub(1),
        delivered,
        delivered + 1,
        delivered + 2,
        delivered + 3,
        sender.first.saturating_sub(1),
        sender.first,
        sender.last,
        sender.last + 1,
        sender.last + 2,
        LARGEST_EXPECTED,
        LARGEST_EXPECTED + 1,
    ] {
        numbers.push(Some(number.to_string().into_bytes()));
        numbers.push(Some(format!("{number:0>15}").into_bytes()));
    }
    for text in [&b""[..], b"-1", b"0", b"-01", b"+1", b"A", b"1 "] {
        numbers.push(Some(text.to_vec()));
    }
    numbers
}
