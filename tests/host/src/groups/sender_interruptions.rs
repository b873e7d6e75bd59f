//! A sender whose circuit ends, that crashes, or whose words are corrupted, at any time of its
//! history; acts go on from there, and each is compared with the model in everything.

use super::sender::{first_number, plan, History};
use super::sender_words::delivered_too_early;
use crate::compare::{Compare, Outcome};
use crate::guarded::same;
use crate::make_ends::Plan;
use host::ends_ffi::names::{
    ACT_SEND, SENDER_DELIVERED, SENDER_FIRST, SENDER_FROZEN, SENDER_LAST, SENDER_RESYNCHRONIZED,
    SENDER_SENDS, SENDER_WAITING,
};
use host::message_model::LARGEST_EXPECTED;
use host::prng::Random;
use host::sender_model::{Act, Sender, PERSISTED_WORDS, SENDER_WORDS};

/// So many acts are made after an interruption.
const AFTER: usize = 6;

/// A moment of a history: before its last act, and after it.
struct Moment {
    before: History,
    after: History,
    plan: Plan,
}

/// Calls on every moment of some histories.
fn at_every_moment(
    compare: &mut Compare,
    histories: usize,
    check: fn(&mut Compare, &Moment) -> Outcome,
) -> Outcome {
    for _ in 0..histories {
        let first = first_number(&mut compare.random);
        let plan = Plan {
            limit: compare.random.pick(&[128, 129, 700]),
            ..plan(&mut compare.random)
        };
        let one_wild_in = compare.random.pick(&[2, 5, 20]);
        let mut history = History::new(compare, first)?;
        for _ in 0..compare.random.between(10, 60) {
            let before = history.clone();
            next_act(compare, &mut history, &plan, one_wild_in)?;
            let moment = Moment {
                before,
                after: history.clone(),
                plan,
            };
            check(compare, &moment)?;
        }
    }
    Ok(())
}

fn next_act(
    compare: &mut Compare,
    history: &mut History,
    plan: &Plan,
    one_wild_in: usize,
) -> Outcome {
    let sender = history.sender()?;
    let planned = plan.any(&mut compare.random, &sender, one_wild_in);
    history.act(compare, &planned.act())?;
    history.persist();
    Ok(())
}

fn go_on(compare: &mut Compare, history: &mut History, plan: &Plan) -> Outcome {
    for _ in 0..AFTER {
        next_act(compare, history, plan, 4)?;
    }
    Ok(())
}

/// The circuit ends after every act of a history (11 where none is open); what is persisted stays.
pub fn ended_at_any_time(compare: &mut Compare) -> Outcome {
    at_every_moment(compare, 700, |compare, moment| {
        let mut history = moment.after.clone();
        let before = history.state.clone();
        let open = before[SENDER_WAITING] != 0;
        let answer = history.act(compare, &Act::Ended)?;
        same("number", &[answer.number], &[if open { 0 } else { 11 }])?;
        without_circuit(&history.state, &before[..PERSISTED_WORDS])?;
        go_on(compare, &mut history, &moment.plan)
    })
}

/// The five persisted words, and no circuit.
fn without_circuit(state: &[u64], persisted: &[u64]) -> Outcome {
    same("state", &state[..PERSISTED_WORDS], persisted)?;
    same("state", &state[PERSISTED_WORDS..SENDER_WORDS], &[0, 0])
}

/// A crash after every act of a history: with the act's change persisted, and before it was. The
/// words are then a state, and a circuit opens unless the sender is frozen.
pub fn crash_at_any_time(compare: &mut Compare) -> Outcome {
    at_every_moment(compare, 500, |compare, moment| {
        for persisted in [&moment.after, &moment.before] {
            let mut history = persisted.clone();
            let words = history.state[..PERSISTED_WORDS].to_vec();
            history.crash();
            without_circuit(&history.state, &words)?;
            let answer = history.act(compare, &Act::Open)?;
            let frozen = words[SENDER_FROZEN] == 1;
            let sent = match (frozen, words[SENDER_RESYNCHRONIZED]) {
                (true, _) => [11, 0],
                (false, 0) => [0, 1],
                (false, _) => [0, 2],
            };
            same("opened", &[answer.number, answer.report[ACT_SEND]], &sent)?;
            go_on(compare, &mut history, &moment.plan)?;
        }
        Ok(())
    })
}

/// Words that may well be another state: other numbers in order, resynchronized or not, another count
/// of sends, or another thing that waits.
fn shift(random: &mut Random, state: &mut [u64]) {
    match random.below(6) {
        0 => state[SENDER_FIRST] = 1,
        1 => state[SENDER_DELIVERED] = state[SENDER_DELIVERED].saturating_sub(1),
        2 => state[SENDER_LAST] = state[SENDER_LAST].wrapping_add(1 + random.below(3) as u64),
        3 => state[SENDER_SENDS] = random.between(1, 100) as u64,
        4 => state[SENDER_RESYNCHRONIZED] ^= 1,
        _ => {
            state[SENDER_WAITING] = random.below(5) as u64;
            state[SENDER_SENDS] = u64::from(state[SENDER_WAITING] > 1);
        }
    }
}

/// One word, or two, hold something else: a small number, one near another word, a bit flipped, or
/// anything.
fn corrupt(random: &mut Random, state: &mut [u64]) {
    if random.one_in(2) {
        return shift(random, state);
    }
    for _ in 0..random.pick(&[1, 1, 2]) {
        let index = random.below(SENDER_WORDS);
        let other = state[random.below(SENDER_WORDS)];
        let any = random.draw() >> random.below(64);
        state[index] = match random.below(8) {
            0 | 1 => random.below(6) as u64,
            2 | 3 => other.wrapping_add(random.below(3) as u64).wrapping_sub(1),
            4 => random.pick(&[99, 100, 101, u64::MAX]),
            5 => LARGEST_EXPECTED + 1 - random.below(4) as u64,
            6 => state[index] ^ (1 << random.below(64)),
            _ => any,
        };
    }
}

/// What the corrupt histories came to: acts on words that are no state, and of them those that have
/// something delivered before resynchronizing; acts that were done after a corruption, and words
/// corrupted into another state.
#[derive(Default)]
struct Seen {
    no_state: u64,
    too_early: u64,
    done: u64,
    other_state: u64,
}

/// Histories in which words are corrupted at any time; acts go on from whatever they hold then.
pub fn corrupt_histories(compare: &mut Compare) -> Outcome {
    let mut seen = Seen::default();
    for _ in 0..3_500 {
        corrupt_history(compare, &mut seen)?;
    }
    let counts = [
        ("acts on words that are no state", seen.no_state, 5_000),
        ("delivered before resynchronizing", seen.too_early, 400),
        ("acts done after a corruption", seen.done, 5_000),
        ("words corrupted into a state", seen.other_state, 5_000),
    ];
    for (what, count, least) in counts {
        if count < least {
            return Err(format!("{what}: only {count}"));
        }
    }
    Ok(())
}

fn corrupt_history(compare: &mut Compare, seen: &mut Seen) -> Outcome {
    let first = first_number(&mut compare.random);
    let plan = plan(&mut compare.random);
    let mut state = compare.sender_fresh(first)?;
    let mut last_good = Sender::new(first).encode();
    let mut corrupted = false;
    for _ in 0..compare.random.between(10, 100) {
        let is_state = Sender::decode(&state[..SENDER_WORDS]).is_some();
        if !is_state && compare.random.one_in(3) {
            state[..SENDER_WORDS].copy_from_slice(&last_good);
        } else if compare.random.one_in(6) {
            corrupt(&mut compare.random, &mut state);
            corrupted = true;
        }
        let now = Sender::decode(&state[..SENDER_WORDS]);
        let sender = now.or_else(|| Sender::decode(&last_good));
        let sender = sender.ok_or_else(|| format!("{last_good:?} is no state"))?;
        seen.other_state += u64::from(now.is_some() && sender.encode() != last_good);
        seen.no_state += u64::from(now.is_none());
        let words = state.first_chunk::<SENDER_WORDS>();
        seen.too_early += u64::from(words.is_some_and(delivered_too_early));
        let planned = plan.any(&mut compare.random, &sender, 3);
        let before = state.clone();
        let answer = compare.sender_act(&planned.act(), &mut state)?;
        if now.is_none() {
            same("state", &state, &before)?;
            if !matches!(answer.number, 1 | 11) {
                return Err(format!("{before:?} was answered by {}", answer.number));
            }
            continue;
        }
        seen.done += u64::from(corrupted && answer.number == 0);
        last_good.copy_from_slice(&state[..SENDER_WORDS]);
    }
    Ok(())
}
