//! Single acts of a station, from any words: all block numbers and endings, texts of every length
//! around the space left, all last replies with and without RINT, words that encode no state, memory that
//! is too short.

use crate::compare::{Compare, Outcome};
use crate::compare_station::{StationCall, StationMemory};
use crate::guarded::same;
use crate::make_station::{
    any_length, any_unit, block, expected_and_left, large_numbers, number_before, open_words,
    REPLY_WORDS,
};
use host::prng::Random;
use host::station_model::{Station, Unit, ETB, ETX, STATION_REPORT_WORDS, STATION_WORDS};

/// The units without a text.
const OTHER_UNITS: [Unit; 6] = [
    Unit::Opened,
    Unit::Bad,
    Unit::Enquiry,
    Unit::End,
    Unit::BareEnq,
    Unit::Interrupt,
];

/// One act, in new memory.
fn act_once(
    compare: &mut Compare,
    words: [u64; STATION_WORDS],
    space: usize,
    unit: &Unit,
) -> Outcome {
    let mut memory = StationMemory::new(compare, words, space);
    compare.station_act(&mut memory, unit).map(|_| ())
}

/// Words of every number below and above those needed.
pub fn station_fresh(compare: &mut Compare) -> Outcome {
    for length in 0..12 {
        for _ in 0..200 {
            let mut state = compare.random.words(length);
            compare.station_fresh(&mut state)?;
        }
    }
    Ok(())
}

/// Every block number of a byte and larger ones, at every expected number and closed, with texts that
/// fit and texts that don't.
pub fn station_numbers(compare: &mut Compare) -> Outcome {
    let mut states: Vec<[u64; STATION_WORDS]> = vec![[0; STATION_WORDS]];
    for expected in 0..8 {
        for [last_reply, interrupt] in [[1, 0], [2, 1], [5, 2]] {
            states.push([1, expected, 0, last_reply, interrupt]);
            states.push([1, expected, 7, last_reply, interrupt]);
        }
    }
    for words in states {
        let mut numbers: Vec<u64> = (0..=255).collect();
        numbers.extend((0..8).flat_map(large_numbers));
        for number in numbers {
            let left = 10 - words[2] as usize;
            for length in [0, 1, left, left + 1] {
                let text = compare.random.bytes(length);
                for ending in [ETB, ETX] {
                    act_once(compare, words, 10, &block(number, ending, &text))?;
                }
            }
        }
    }
    Ok(())
}

/// Every expected number with every number of 0 to 7: there is one duplicate at each expected number,
/// each number is a duplicate once, and all others that are not expected are answered NAK. Where a RINT is
/// pending, the expected block gets it, and no other.
pub fn station_pairs(compare: &mut Compare) -> Outcome {
    for words in REPLY_WORDS {
        pairs_after(compare, words).map_err(|why| format!("reply words {words:?}: {why}"))?;
    }
    Ok(())
}

fn pairs_after(compare: &mut Compare, [last_reply, interrupt]: [u64; 2]) -> Outcome {
    let (mut at_expected, mut of_number) = ([0; 8], [0; 8]);
    let (mut taken, mut others) = (0, 0);
    for (expected, number) in (0..64).map(|pair| (pair / 8, pair % 8)) {
        let words = [1, expected, 3, last_reply, interrupt];
        let mut memory = StationMemory::new(compare, words, 5);
        let answer = compare.station_act(&mut memory, &block(number, ETX, b"AB"))?;
        match answer.report {
            [1, replied, 1, 5] if replied == number && interrupt != 1 => taken += 1,
            [5, 0, 1, 5] if number == expected && interrupt == 1 => taken += 1,
            [1, replied, 0, 0] if replied == number => {
                at_expected[expected as usize] += 1;
                of_number[number as usize] += 1;
            }
            [2, 0, 0, 0] => others += 1,
            report => return Err(format!("{expected} expected, block {number}: {report:?}")),
        }
    }
    same("duplicates at expected", &at_expected, &[1; 8])?;
    same("duplicates of number", &of_number, &[1; 8])?;
    same("taken and others", &[taken, others], &[8, 48])
}

/// Every buffer of up to 24 bytes, every length of text held, and every text up to two bytes over, with
/// the expected number and with the one just before, of which the space is not looked at.
pub fn station_lengths(compare: &mut Compare) -> Outcome {
    for space in 0..=24 {
        for held in 0..=space {
            for length in 0..=space - held + 2 {
                let text = compare.random.bytes(length);
                let expected = compare.random.below(8) as u64;
                for ending in [ETB, ETX] {
                    let words = open_words(&mut compare.random, expected, held as u64);
                    for number in [expected, number_before(expected, 1)] {
                        act_once(compare, words, space, &block(number, ending, &text))?;
                    }
                }
            }
        }
    }
    for _ in 0..40_000 {
        let space = compare.random.below(700);
        let held = compare.random.below(space + 1);
        let length = (space - held + compare.random.below(5)).saturating_sub(2);
        let text = compare.random.bytes(length);
        let expected = compare.random.below(8) as u64;
        let unit = block(expected, compare.random.pick(&[ETB, ETX]), &text);
        let words = open_words(&mut compare.random, expected, held as u64);
        act_once(compare, words, space, &unit)?;
    }
    Ok(())
}

/// Words with one or more of them wrong.
fn corrupt(random: &mut Random, space: usize) -> [u64; STATION_WORDS] {
    let small = |random: &mut Random| random.below(4) as u64;
    let open = match random.below(6) {
        0 | 1 => 1,
        2 => 0,
        3 => small(random),
        4 => random.pick(&[256, 257, (1 << 32) + 1, 1 << 63, u64::MAX]),
        _ => random.draw(),
    };
    let expected = match random.below(6) {
        0 | 1 => random.below(8) as u64,
        2 => 8 + small(random),
        3 => 0,
        4 => random.pick(&[256, (1 << 32) + 1, (1 << 63) + 1, u64::MAX]),
        _ => random.draw(),
    };
    let held = match random.below(6) {
        0 => random.below(space + 1) as u64,
        1 => space as u64 + small(random),
        2 => 0,
        3 => u64::MAX - small(random),
        4 => random.pick(&[1 << 32, 1 << 63, (1 << 32) + 1, u64::MAX - space as u64]),
        _ => random.draw(),
    };
    let [last_reply, interrupt] = any_reply_words(random);
    [open, expected, held, last_reply, interrupt]
}

/// The words of the last reply and of RINT, mostly a pair of a state.
fn any_reply_words(random: &mut Random) -> [u64; 2] {
    let mut words = match random.below(6) {
        0 => [0, 0],
        1 => [0, 1],
        _ => random.pick(&REPLY_WORDS),
    };
    if random.one_in(3) {
        let index = random.below(2);
        words[index] = match random.below(4) {
            0 | 1 => random.below(7) as u64,
            2 => random.pick(&[8, 256, 257, (1 << 32) + 1, (1 << 32) + 5, (1 << 63) + 2]),
            _ => random.draw(),
        };
    }
    words
}

/// Acts on words that need not encode a state, and a history after each opening of such words.
pub fn station_corrupt_words(compare: &mut Compare) -> Outcome {
    for _ in 0..60_000 {
        let space = compare.random.below(60);
        let words = corrupt(&mut compare.random, space);
        let near = Station::decode(&words).unwrap_or(Station::Closed);
        let planned = any_unit(&mut compare.random, &near, space);
        act_once(compare, words, space, &planned.unit())?;
    }
    for _ in 0..4_000 {
        let space = compare.random.below(60);
        let words = corrupt(&mut compare.random, space);
        let mut memory = StationMemory::new(compare, words, space);
        compare.station_act(&mut memory, &Unit::Opened)?;
        for _ in 0..8 {
            let planned = any_unit(&mut compare.random, &memory.station()?, space);
            compare.station_act(&mut memory, &planned.unit())?;
        }
        let words = corrupt(&mut compare.random, space);
        memory.set_words(words);
        let unit = compare.random.pick(&OTHER_UNITS[1..]);
        compare.station_act(&mut memory, &unit)?;
    }
    Ok(())
}

/// Every small content of the words, with each act and every small number of a block.
pub fn station_small_words(compare: &mut Compare) -> Outcome {
    for open in 0..4 {
        for expected in 0..10 {
            for held in 0..6 {
                let [last_reply, interrupt] = compare.random.pick(&REPLY_WORDS);
                let words = [open, expected, held, last_reply, interrupt];
                for unit in OTHER_UNITS {
                    act_once(compare, words, 0, &unit)?;
                }
                for space in 0..6 {
                    for length in 0..4 {
                        let text = compare.random.bytes(length);
                        for number in 0..9 {
                            act_once(compare, words, space, &block(number, ETX, &text))?;
                            act_once(compare, words, space, &block(number, ETB, &text))?;
                        }
                    }
                }
            }
        }
    }
    Ok(())
}

/// The pairs of last reply and interrupt that are of a state, as the header lists them; the first two only
/// before the first block.
const PAIRS_OF_STATES: [[u64; 2]; 8] = [
    [0, 0],
    [0, 1],
    [1, 0],
    [1, 1],
    [2, 0],
    [2, 1],
    [2, 2],
    [5, 2],
];

/// Whether an act other than opening must be refused by 11 for its words.
fn is_no_state([open, expected, held, last_reply, interrupt]: [u64; STATION_WORDS]) -> bool {
    let is_first = expected == 1 && held == 0;
    let is_pair = PAIRS_OF_STATES.contains(&[last_reply, interrupt]);
    match open {
        0 => [expected, held, last_reply, interrupt] != [0; 4],
        1 => expected > 7 || !is_pair || (last_reply == 0 && !is_first),
        _ => true,
    }
}

/// Every small pair of last reply and interrupt and large ones, open and closed, at every expected number
/// and around the text held, with each act: all that are of no state give 11.
pub fn station_reply_words(compare: &mut Compare) -> Outcome {
    let large = [
        255,
        256,
        257,
        261,
        1 << 32,
        (1 << 32) + 1,
        (1 << 63) + 5,
        u64::MAX,
    ];
    let mut pairs: Vec<[u64; 2]> = Vec::new();
    for word in (0..9).chain(large) {
        pairs.extend((0..6).chain(large).map(|other| [word, other]));
    }
    for (open, expected, held) in [0, 1, 2].into_iter().flat_map(|open| {
        (0..9).flat_map(move |expected| [0, 1, 3].map(|held| (open, expected, held)))
    }) {
        for &[last_reply, interrupt] in &pairs {
            let words = [open, expected, held, last_reply, interrupt];
            acts_on_reply_words(compare, words)?;
        }
    }
    Ok(())
}

fn acts_on_reply_words(compare: &mut Compare, words: [u64; STATION_WORDS]) -> Outcome {
    let [_, expected, ..] = words;
    let blocks = [0, 7, 1].map(|more| block((expected + more) % 8, ETB, b"AB"));
    for unit in OTHER_UNITS[1..].iter().chain(&blocks) {
        let mut memory = StationMemory::new(compare, words, 5);
        let answer = compare.station_act(&mut memory, unit)?;
        let is_asking = matches!(unit, Unit::Interrupt);
        let is_refused = is_no_state(words) || (is_asking && (words[0], words[4]) != (1, 0));
        let number = if is_refused { 11 } else { 0 };
        same("number", &[answer.number], &[number])
            .map_err(|why| format!("{unit:?} on {words:?}: {why}"))?;
    }
    act_once(compare, words, 5, &Unit::Opened)
}

/// An ending that a good block may or may not have.
fn any_ending(random: &mut Random) -> u64 {
    match random.below(6) {
        0 => ETX,
        1 => ETB,
        2 => u64::from(random.byte()),
        3 => random.pick(&[0, 1, 2, 4, 5, 22, 24, 256 + ETX, (1 << 32) + ETB]),
        4 => random.pick(&[u64::MAX, (1 << 63) + ETX, !ETX, !ETB]),
        _ => random.draw(),
    }
}

/// 1, 2 and 11 together and apart: every ending of a byte, short state and report, wrong words.
pub fn station_refusals(compare: &mut Compare) -> Outcome {
    for ending in 0..=255 {
        for words in [
            [0, 0, 0, 0, 0],
            [1, 1, 0, 0, 0],
            [1, 1, 0, 0, 1],
            [1, 1, 4, 1, 0],
            [2, 1, 0, 0, 0],
        ] {
            act_once(compare, words, 5, &block(1, ending, b"AB"))?;
        }
    }
    for _ in 0..60_000 {
        refused_call(compare)?;
    }
    Ok(())
}

/// A call that may be refused, for more than one cause.
fn refused_call(compare: &mut Compare) -> Outcome {
    let space = compare.random.below(40);
    let words = match compare.random.below(4) {
        0 => [0; STATION_WORDS],
        1 | 2 => {
            let held = compare.random.below(space + 1) as u64;
            let expected = compare.random.below(8) as u64;
            open_words(&mut compare.random, expected, held)
        }
        _ => corrupt(&mut compare.random, space),
    };
    let near = Station::decode(&words).unwrap_or(Station::Closed);
    let (number, left) = expected_and_left(&near, space);
    let length = any_length(&mut compare.random, left);
    let text = compare.random.bytes(length);
    let ending = any_ending(&mut compare.random);
    let unit = match compare.random.below(12) {
        index @ 0..=5 => OTHER_UNITS[index],
        _ => block(number, ending, &text),
    };
    let mut memory = StationMemory::new(compare, words, space);
    let all = memory.state.len();
    let call = StationCall {
        unit,
        state_words: compare.random.pick(&[0, 1, 3, 4, 5, 5, 5, all]),
        buffer_length: compare.random.below(space + 1),
        report_words: compare.random.pick(&[0, 1, 2, 3, 4, 4, 4, 5, 6]),
    };
    compare.station_call(&mut memory, &call).map(|_| ())
}

/// A report and a state of every length up to two words more than needed, with each act.
pub fn station_short_words(compare: &mut Compare) -> Outcome {
    let units = [
        Unit::Opened,
        Unit::Bad,
        Unit::Enquiry,
        Unit::End,
        Unit::BareEnq,
        Unit::Interrupt,
        block(1, ETX, b"AB"),
        block(1, ETB, b"ABC"),
        block(0, ETX, b"A"),
        block(7, ETB, b"A"),
        block(1, 0, b"A"),
    ];
    for words in [
        [0, 0, 0, 0, 0],
        [1, 1, 0, 0, 0],
        [1, 1, 0, 0, 1],
        [1, 1, 0, 5, 2],
        [1, 9, 0, 1, 0],
    ] {
        for unit in units {
            for state_words in 0..=STATION_WORDS + 2 {
                for report_words in 0..=STATION_REPORT_WORDS + 2 {
                    let mut memory = StationMemory::new(compare, words, 2);
                    memory.state.resize(STATION_WORDS + 2, 77);
                    let call = StationCall {
                        unit,
                        state_words,
                        buffer_length: 2,
                        report_words,
                    };
                    compare.station_call(&mut memory, &call)?;
                }
            }
        }
    }
    Ok(())
}
