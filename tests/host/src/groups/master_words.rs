//! Single acts of a master, from any words: all replies and their numbers, lengths and sizes at the ends of
//! 64 bits, counts at theirs, words that encode no state, memory that is too short.

use crate::compare::{Compare, Outcome};
use crate::compare_master::{MasterCall, MasterMemory};
use crate::guarded::same;
use crate::make_master::{
    ack, any_lengths, any_reply, any_word, idle_words, other_reply, own_number, reply_words,
    sizes_around, waiting_words,
};
use crate::make_station::large_numbers;
use host::master_model::{
    Master, MasterAct, Noted, MASTER_REPORT_WORDS, MASTER_WORDS, REPLY_ACK, REPLY_DAMAGED,
    REPLY_EOT, REPLY_NAK, REPLY_RINT,
};
use host::prng::Random;
use host::station_model::{ETB, ETX};

/// Acts of every kind.
const ACTS: [MasterAct; 12] = [
    MasterAct::Open,
    MasterAct::Timer,
    MasterAct::Close,
    MasterAct::Enquire,
    MasterAct::MayReceive,
    MasterAct::Start {
        message_length: 5,
        block_size: 2,
    },
    MasterAct::Start {
        message_length: 0,
        block_size: 0,
    },
    MasterAct::Reply {
        reply: REPLY_ACK,
        number: 1,
    },
    MasterAct::Reply {
        reply: REPLY_NAK,
        number: 0,
    },
    MasterAct::Reply {
        reply: REPLY_EOT,
        number: 0,
    },
    MasterAct::Reply {
        reply: REPLY_RINT,
        number: 0,
    },
    MasterAct::Reply {
        reply: 0,
        number: 1,
    },
];

/// One act, in new memory.
fn act_once(compare: &mut Compare, words: [u64; MASTER_WORDS], act: &MasterAct) -> Outcome {
    let mut memory = MasterMemory::new(compare, words);
    compare.master_act(&mut memory, act).map(|_| ())
}

/// Words of every number below and above those needed.
pub fn master_fresh(compare: &mut Compare) -> Outcome {
    for length in 0..16 {
        for _ in 0..100 {
            let mut state = compare.random.words(length);
            compare.master_fresh(&mut state)?;
        }
    }
    Ok(())
}

/// Every ACK number of a byte and larger ones, with each reply, at every number of the block out, idle
/// and closed; and every code of a byte.
pub fn master_numbers(compare: &mut Compare) -> Outcome {
    let mut numbers: Vec<u64> = (0..=255).collect();
    numbers.extend((0..8).flat_map(large_numbers));
    for count in (0..18).chain([u64::MAX - 7, u64::MAX - 1, u64::MAX]) {
        for words in [
            [0, 0, 0, 0, 0, count, 0, 0, 0, 0],
            idle_words(&mut compare.random, count),
            waiting_words(&mut compare.random, [9, 3, 0, 0], count),
            waiting_words(&mut compare.random, [9, 3, 0, 4], count),
            waiting_words(&mut compare.random, [9, 3, 3, 5], count),
            waiting_words(&mut compare.random, [9, 3, 6, 2], count),
        ] {
            for &number in &numbers {
                for reply in REPLY_ACK..=REPLY_RINT {
                    act_once(compare, words, &MasterAct::Reply { reply, number })?;
                }
            }
            for reply in 0..=255 {
                act_once(compare, words, &other_reply(reply))?;
            }
        }
    }
    Ok(())
}

/// The number of the block out with every number of 0 to 7: one acknowledges, one has it sent again, and
/// the other six change nothing.
pub fn master_pairs(compare: &mut Compare) -> Outcome {
    let (mut matching, mut just_before, mut others) = ([0; 8], [0; 8], 0);
    for (own, number) in (0..64_usize).map(|pair| (pair / 8, pair % 8)) {
        let count = (own as u64 + 7) % 8;
        let words = [2, 4, 4, 0, 3, count, 1, 0, 0, 0];
        let mut memory = MasterMemory::new(compare, words);
        let answer = compare.master_act(&mut memory, &ack(number as u64))?;
        match answer.report {
            [0, 0, 0, 0, 0, 1, 1, 0, counted, 0] if counted == count + 1 => matching[own] += 1,
            [1, sent, 3, 0, 4, 0, 0, 0, _, 4] if sent == own as u64 => just_before[number] += 1,
            [0, 0, 0, 0, 0, 0, 0, 0, _, 3] => others += 1,
            report => return Err(format!("block {own} out, ACK {number}: {report:?}")),
        }
    }
    same("matching", &matching, &[1; 8])?;
    same("just before", &just_before, &[1; 8])?;
    same("others", &[others], &[48])
}

/// Words of a block out, with lengths, offsets and counts at the ends of 64 bits.
fn large_words(random: &mut Random) -> [u64; MASTER_WORDS] {
    let [length, size, offset] = any_lengths(random);
    let count = match random.below(3) {
        0 => u64::MAX - random.below(3) as u64,
        _ => any_word(random),
    };
    let offset = if random.one_in(8) {
        offset
    } else {
        offset.min(length.saturating_sub(1))
    };
    let out = [length, size.max(1), offset, random.below(6) as u64];
    waiting_words(random, out, count)
}

/// Near the block out of words that may be none: all acts, mostly replies.
fn near_act(random: &mut Random, words: &[u64; MASTER_WORDS]) -> MasterAct {
    let near = Master::decode(words).unwrap_or(Master::Idle(Noted::default(), words[5]));
    match random.below(14) {
        0 => random.pick(&ACTS),
        1 => MasterAct::Timer,
        2 => {
            let [message_length, block_size, _] = any_lengths(random);
            MasterAct::Start {
                message_length,
                block_size,
            }
        }
        3..=7 => ack(own_number(&near)),
        8 => MasterAct::Enquire,
        9 => MasterAct::MayReceive,
        _ => any_reply(random, own_number(&near), 2),
    }
}

/// Messages, sizes, offsets and counts at the ends of 64 bits: single acts, and messages that go on from
/// there block by block.
pub fn master_large_words(compare: &mut Compare) -> Outcome {
    for _ in 0..60_000 {
        let words = large_words(&mut compare.random);
        let act = near_act(&mut compare.random, &words);
        act_once(compare, words, &act)?;
    }
    for _ in 0..30_000 {
        let [message_length, block_size, _] = any_lengths(&mut compare.random);
        let count = any_word(&mut compare.random);
        let words = idle_words(&mut compare.random, count);
        let mut memory = MasterMemory::new(compare, words);
        let start = MasterAct::Start {
            message_length,
            block_size: block_size.max(1),
        };
        compare.master_act(&mut memory, &start)?;
        for _ in 0..6 {
            let words: [u64; MASTER_WORDS] = std::array::from_fn(|index| memory.state[index]);
            let act = near_act(&mut compare.random, &words);
            compare.master_act(&mut memory, &act)?;
        }
    }
    Ok(())
}

/// Every length at an end of 64 bits, started at the sizes around it and at those of its halves.
pub fn master_large_starts(compare: &mut Compare) -> Outcome {
    let ends = [0, 1 << 32, 1 << 63, u64::MAX - 3];
    let lengths = ends.into_iter().flat_map(|end: u64| end..=end + 3);
    for message_length in lengths {
        let halves = [
            message_length / 2,
            message_length / 2 + 1,
            message_length / 3,
        ];
        for block_size in sizes_around(message_length).into_iter().chain(halves) {
            for count in [0, 6, u64::MAX - 2, u64::MAX - 1, u64::MAX] {
                let words = idle_words(&mut compare.random, count);
                let mut memory = MasterMemory::new(compare, words);
                let start = MasterAct::Start {
                    message_length,
                    block_size,
                };
                compare.master_act(&mut memory, &start)?;
                for _ in 0..5 {
                    let own = own_number(&memory.master()?);
                    compare.master_act(&mut memory, &ack(own))?;
                }
            }
        }
    }
    Ok(())
}

/// Lengths at the ends of 64 bits in a few blocks: the parts lie behind one another from the
/// message's start to its end, each has the block size but the last, which has at least a byte, and only
/// the last ends with ETX.
pub fn master_large_parts(compare: &mut Compare) -> Outcome {
    for _ in 0..4_000 {
        let length = any_word(&mut compare.random).max(8);
        let blocks = compare.random.between(1, 8) as u64;
        let more = compare.random.below(2) as u64;
        let block_size = (length / blocks).saturating_add(more);
        let words = idle_words(&mut compare.random, blocks);
        let mut memory = MasterMemory::new(compare, words);
        let start = MasterAct::Start {
            message_length: length,
            block_size,
        };
        let mut answer = compare.master_act(&mut memory, &start)?;
        let mut behind: u128 = 0;
        loop {
            let [_, number, ending, offset, part, ..] = answer.report;
            same("offset", &[u128::from(offset)], &[behind])?;
            behind += u128::from(part);
            let is_last = behind == u128::from(length);
            let ends = if is_last { ETX } else { ETB };
            same("ending", &[ending], &[ends])?;
            if part == 0 || part > block_size || (!is_last && part != block_size) {
                return Err(format!("{length} by {block_size}: a part of {part}"));
            }
            answer = compare.master_act(&mut memory, &ack(number))?;
            same("done", &[answer.report[6]], &[u64::from(is_last)])?;
            if is_last {
                break;
            }
        }
    }
    Ok(())
}

/// Words with one or more of them wrong.
fn corrupt(random: &mut Random) -> [u64; MASTER_WORDS] {
    let mut words = match random.below(4) {
        0 => [0, 0, 0, 0, 0, any_word(random), 0, 0, 0, 0],
        1 => {
            let count = any_word(random);
            idle_words(random, count)
        }
        _ => large_words(random),
    };
    for _ in 0..random.below(3) {
        let index = random.below(MASTER_WORDS);
        words[index] = match random.below(3) {
            0 => random.below(8) as u64,
            1 => random.pick(&[256, 257, (1 << 32) + 1, (1 << 32) + 2, (1 << 63) + 2]),
            _ => any_word(random),
        };
    }
    words
}

/// Acts on words that need not encode a state, and acts after each opening of such words.
pub fn master_corrupt_words(compare: &mut Compare) -> Outcome {
    for _ in 0..120_000 {
        let words = corrupt(&mut compare.random);
        let act = near_act(&mut compare.random, &words);
        act_once(compare, words, &act)?;
    }
    for _ in 0..4_000 {
        let words = corrupt(&mut compare.random);
        let mut memory = MasterMemory::new(compare, words);
        compare.master_act(&mut memory, &MasterAct::Open)?;
        same(
            "words after opening",
            &memory.state[..MASTER_WORDS],
            &[1, 0, 0, 0, 0, 0, 0, 0, 0, 0],
        )?;
        for _ in 0..8 {
            let words: [u64; MASTER_WORDS] = std::array::from_fn(|index| memory.state[index]);
            let act = near_act(&mut compare.random, &words);
            compare.master_act(&mut memory, &act)?;
        }
    }
    Ok(())
}

/// Every small content of the words, with each act and every small number.
pub fn master_small_words(compare: &mut Compare) -> Outcome {
    const BOUNDS: [u64; 6] = [4, 4, 4, 4, 7, 3];
    for content in 0..BOUNDS.iter().product() {
        let [phase, length, size, offset, resends, count] = digits(content, BOUNDS);
        let words = match compare.random.below(4) {
            0 => [0; 4],
            _ => reply_words(&mut compare.random, count, offset),
        };
        let [last_reply, interrupted, enquired, may_receive] = words;
        let words = [
            phase,
            length,
            size,
            offset,
            resends,
            count,
            last_reply,
            interrupted,
            enquired,
            may_receive,
        ];
        for act in ACTS {
            act_once(compare, words, &act)?;
        }
        for number in 0..5 {
            act_once(compare, words, &ack(number))?;
        }
        act_once(compare, words, &other_reply(REPLY_DAMAGED))?;
    }
    Ok(())
}

/// The digits of a number, each below its bound, the lowest first.
fn digits<const DIGITS: usize>(number: u64, bounds: [u64; DIGITS]) -> [u64; DIGITS] {
    let mut rest = number;
    bounds.map(|bound| {
        let digit = rest % bound;
        rest /= bound;
        digit
    })
}

/// Whether the words are of no state, as the header lists them; those before the last four may be.
fn is_no_state(words: [u64; MASTER_WORDS]) -> bool {
    let [phase, _, _, offset, _, count, last_reply, interrupted, enquired, may_receive] = words;
    let go_together = match (last_reply, interrupted) {
        (0, 0) => count == 0 && offset == 0,
        (REPLY_ACK | REPLY_NAK, 0 | 1) | (REPLY_RINT, 1) => true,
        _ => false,
    };
    match phase {
        0 => [last_reply, interrupted, enquired, may_receive] != [0; 4],
        1 => !go_together || [enquired, may_receive] != [0; 2],
        _ => !go_together || enquired > 1 || may_receive > interrupted,
    }
}

/// The act applies to a master with these words, which are a state.
fn applies(act: &MasterAct, words: [u64; MASTER_WORDS]) -> bool {
    let (phase, interrupted) = (words[0], words[7]);
    match act {
        MasterAct::Start { .. } | MasterAct::Close => phase == 1,
        MasterAct::Enquire => phase == 2,
        MasterAct::MayReceive => phase != 0 && interrupted == 1,
        MasterAct::Open | MasterAct::Timer | MasterAct::Reply { .. } => true,
    }
}

/// Every small content of the last four words, and large ones, in each phase, at the first block and at
/// others, with each act: all that are of no state give 11.
pub fn master_reply_words(compare: &mut Compare) -> Outcome {
    const LARGE: [u64; 3] = [256 + 1, (1 << 32) + 5, u64::MAX];
    let word = |digit: u64, bound: u64| match digit.checked_sub(bound) {
        None => digit,
        Some(over) => LARGE[over as usize],
    };
    let outs = [[0, 0, 0, 0], [5, 2, 0, 1], [5, 2, 2, 5]];
    for content in 0..3 * 2 * 12 * 6 * 6 * 6 {
        let [phase, counted, last_reply, interrupted, enquired, may_receive] =
            digits(content, [3, 2, 12, 6, 6, 6]);
        let last_reply = word(last_reply, 9);
        let [interrupted, enquired, may_receive] =
            [interrupted, enquired, may_receive].map(|digit| word(digit, 3));
        for [length, size, offset, resends] in outs {
            if (phase == 2) == (size == 0) {
                continue;
            }
            let words = [
                phase,
                length,
                size,
                offset,
                resends,
                counted,
                last_reply,
                interrupted,
                enquired,
                may_receive,
            ];
            acts_on_reply_words(compare, words)?;
        }
    }
    Ok(())
}

fn acts_on_reply_words(compare: &mut Compare, words: [u64; MASTER_WORDS]) -> Outcome {
    for act in ACTS {
        let mut memory = MasterMemory::new(compare, words);
        let answer = compare.master_act(&mut memory, &act)?;
        let is_refused_by_1 = matches!(
            act,
            MasterAct::Start { block_size: 0, .. } | MasterAct::Reply { reply: 0, .. }
        );
        let is_state = act == MasterAct::Open || !is_no_state(words);
        let number = match () {
            () if is_refused_by_1 => 1,
            () if !is_state || !applies(&act, words) => 11,
            () => 0,
        };
        same("number", &[answer.number], &[number])
            .map_err(|why| format!("{act:?} on {words:?}: {why}"))?;
    }
    Ok(())
}

/// 1, 2 and 11 together and apart.
pub fn master_refusals(compare: &mut Compare) -> Outcome {
    for _ in 0..80_000 {
        let words = match compare.random.below(4) {
            0 => corrupt(&mut compare.random),
            1 if compare.random.one_in(2) => [0, 0, 0, 0, 0, 3, 0, 0, 0, 0],
            1 => idle_words(&mut compare.random, 3),
            _ => large_words(&mut compare.random),
        };
        let mut act = near_act(&mut compare.random, &words);
        if compare.random.one_in(4) {
            act = compare.random.pick(&ACTS);
        }
        let mut memory = MasterMemory::new(compare, words);
        let all = memory.state.len();
        let call = MasterCall {
            act,
            state_words: compare.random.pick(&[0, 1, 6, 9, 10, 10, all, all]),
            report_words: compare.random.pick(&[0, 1, 9, 10, 10, 11, 12]),
        };
        compare.master_call(&mut memory, &call)?;
    }
    Ok(())
}

/// A report and a state of every length up to two words more than needed, with each act.
pub fn master_short_words(compare: &mut Compare) -> Outcome {
    let contents = [
        [0, 0, 0, 0, 0, 4, 0, 0, 0, 0],
        [1, 0, 0, 0, 0, 0, 0, 0, 0, 0],
        [1, 0, 0, 0, 0, 1, 5, 1, 0, 0],
        [2, 5, 2, 2, 5, 0, 2, 1, 1, 1],
        [2, 5, 0, 2, 5, 0, 1, 0, 0, 0],
    ];
    for words in contents {
        for act in ACTS {
            for state_words in 0..=MASTER_WORDS + 2 {
                for report_words in 0..=MASTER_REPORT_WORDS + 2 {
                    let mut memory = MasterMemory::new(compare, words);
                    memory.state.resize(MASTER_WORDS + 2, 77);
                    let call = MasterCall {
                        act,
                        state_words,
                        report_words,
                    };
                    compare.master_call(&mut memory, &call)?;
                }
            }
        }
    }
    Ok(())
}
