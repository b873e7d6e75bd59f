//! Histories of acts on one sender: each act is compared with the model in everything, and the
//! sends that it reports with those in the history.

use crate::compare::{Compare, Outcome, RESENDS};
use crate::compare_ends::SenderAnswer;
use crate::guarded::same;
use crate::make_ends::{self, Plan};
use host::ends_ffi::names::{
    ACT_CODE, ACT_EVENT, ACT_SEND, ACT_SENDS, EVENT_ABANDONED, EVENT_DELIVERED, EVENT_DROPPED,
    EVENT_FROZE, SENDER_DELIVERED, SENDER_LAST, SENDER_RESYNCHRONIZED, SENDER_SENDS,
    SENDER_WAITING, SEND_NOTHING, SEND_QUERY, SEND_RESYNCHRONIZE, SEND_TRANSACTION, WAITING_CLOSED,
    WAITING_QUERY, WAITING_RESYNCHRONIZE, WAITING_TRANSACTION,
};
use host::message_model::LARGEST_SENT;
use host::prng::Random;
use host::sender_model::{Act, Sender, PERSISTED_WORDS, SENDER_WORDS};

/// First numbers that every run has.
const FIRST: [u64; 5] = [1, 2, 17, LARGEST_SENT - 1, LARGEST_SENT];

/// What the histories of a group came to; a group in which something hardly happened tests little.
#[derive(Default)]
struct Seen {
    done: u64,
    delivered: u64,
    unknown: u64,
    abandoned: u64,
    froze: u64,
    dropped: u64,
    resynchronized: u64,
    none_left: u64,
    refused: [u64; 12],
}

/// A sender in the middle of its history: its words, those persisted, and the messages sent on this
/// circuit, in order.
#[derive(Clone)]
pub(super) struct History {
    pub(super) state: Vec<u64>,
    persisted: Vec<u64>,
    sent: Vec<[u64; 2]>,
}

pub(super) fn first_number(random: &mut Random) -> u64 {
    match random.below(8) {
        index @ 0..=4 => FIRST[index],
        5 => random.between(1, 2000) as u64,
        6 => 10_u64.pow(random.between(1, 14) as u32) - random.below(3) as u64,
        _ => 1 + random.draw() % LARGEST_SENT,
    }
}

pub(super) fn plan(random: &mut Random) -> Plan {
    let any = random.below(100) as u64;
    let limit = random.between(128, 700) as u64;
    Plan {
        resends: random.pick(&[RESENDS[0], RESENDS[1], RESENDS[2], RESENDS[3], any]),
        limit: random.pick(&[128, 128, 129, 4096, limit, 99_994]),
    }
}

/// The message that waits, as a report names it, with the number of a transaction.
fn waiting(state: &[u64]) -> Option<[u64; 2]> {
    match state[SENDER_WAITING] {
        WAITING_RESYNCHRONIZE => Some([SEND_RESYNCHRONIZE, 0]),
        WAITING_QUERY => Some([SEND_QUERY, 0]),
        WAITING_TRANSACTION => Some([SEND_TRANSACTION, state[SENDER_DELIVERED] + 1]),
        _ => None,
    }
}

impl History {
    pub(super) fn new(compare: &mut Compare, first: u64) -> Result<History, String> {
        compare.sender_fresh(first).map(History::from_words)
    }

    /// From words without a circuit.
    fn from_words(state: Vec<u64>) -> History {
        History {
            persisted: state[..PERSISTED_WORDS].to_vec(),
            state,
            sent: Vec::new(),
        }
    }

    pub(super) fn sender(&self) -> Result<Sender, String> {
        let state = &self.state;
        Sender::decode(&state[..SENDER_WORDS]).ok_or_else(|| format!("{state:?} is no state"))
    }

    /// One act; the sends that it reports are those in the history since the message began to wait.
    pub(super) fn act(&mut self, compare: &mut Compare, act: &Act) -> Result<SenderAnswer, String> {
        let before = waiting(&self.state);
        let answer = compare.sender_act(act, &mut self.state)?;
        if matches!(answer.number, 1 | 2) {
            return Ok(answer);
        }
        let report = answer.report;
        if answer.number == 0 && matches!(act, Act::Open) {
            self.sent.clear();
        }
        if report[ACT_SEND] != SEND_NOTHING {
            self.sent.push([report[0], report[1]]);
        }
        let abandoned = report[ACT_EVENT] == EVENT_ABANDONED;
        let counted = waiting(&self.state).or(if abandoned { before } else { None });
        let sends = self.sent.iter().filter(|&&sent| Some(sent) == counted);
        if sends.count() as u64 != report[ACT_SENDS] {
            let (state, sent) = (&self.state, &self.sent);
            return Err(format!(
                "the report says {} sends; sent on this circuit {sent:?}, state {state:?}",
                report[ACT_SENDS]
            ));
        }
        Ok(answer)
    }

    /// Loses what is not persisted.
    pub(super) fn crash(&mut self) {
        self.state[..PERSISTED_WORDS].copy_from_slice(&self.persisted);
        self.state[SENDER_WAITING] = WAITING_CLOSED;
        self.state[SENDER_SENDS] = 0;
        self.sent.clear();
    }

    pub(super) fn persist(&mut self) {
        self.persisted
            .copy_from_slice(&self.state[..PERSISTED_WORDS]);
    }
}

impl Seen {
    fn count(&mut self, before: &Sender, act: &Act, answer: &SenderAnswer, after: &[u64]) {
        self.refused[answer.number as usize] += 1;
        if answer.number != 0 {
            let last = before.last == LARGEST_SENT && answer.number == 10;
            self.none_left += u64::from(last && matches!(act, Act::Submit { .. }));
            return;
        }
        self.done += 1;
        self.resynchronized += u64::from(!before.resynchronized && after[3] == 1);
        match answer.report[ACT_EVENT] {
            EVENT_DELIVERED => {
                self.delivered += 1;
                self.unknown += u64::from(answer.report[ACT_CODE] == 0);
            }
            EVENT_ABANDONED => self.abandoned += 1,
            EVENT_FROZE => self.froze += 1,
            EVENT_DROPPED => self.dropped += 1,
            _ => {}
        }
    }

    /// Each thing must have happened at least so often.
    fn enough(&self, least: u64) -> Outcome {
        let counts = [
            ("done", self.done),
            ("delivered", self.delivered),
            ("delivered with unknown verdict", self.unknown),
            ("abandoned", self.abandoned),
            ("frozen", self.froze),
            ("dropped", self.dropped),
            ("resynchronized", self.resynchronized),
            ("none left", self.none_left),
            ("refused by 1", self.refused[1]),
            ("refused by 2", self.refused[2]),
            ("refused by 3", self.refused[3]),
            ("refused by 4", self.refused[4]),
            ("refused by 9", self.refused[9]),
            ("refused by 10", self.refused[10]),
            ("refused by 11", self.refused[11]),
        ];
        for (what, count) in counts {
            if count < least {
                return Err(format!("{what}: only {count}"));
            }
        }
        Ok(())
    }
}

/// An act with too few words in the state or the report: nothing changes.
fn short_words(compare: &mut Compare, history: &mut History, act: &Act) -> Outcome {
    let words = compare.random.below(SENDER_WORDS);
    if compare.random.one_in(2) {
        compare.sender_act(act, &mut history.state[..words])?;
    } else {
        compare.sender_act_with(act, &mut history.state, words)?;
    }
    Ok(())
}

fn run(compare: &mut Compare, seen: &mut Seen, acts: usize, one_wild_in: usize) -> Outcome {
    let first = first_number(&mut compare.random);
    let history = History::new(compare, first)?;
    go_on(compare, seen, history, acts, one_wild_in)
}

/// Goes on with acts of any kind, now and then with other resends or after a crash.
fn go_on(
    compare: &mut Compare,
    seen: &mut Seen,
    mut history: History,
    acts: usize,
    one_wild_in: usize,
) -> Outcome {
    let first = history.state[0];
    let mut plan = plan(&mut compare.random);
    for _ in 0..acts {
        let sender = history.sender()?;
        let planned = plan.any(&mut compare.random, &sender, one_wild_in);
        let act = planned.act();
        if compare.random.one_in(60) {
            short_words(compare, &mut history, &act)?;
            seen.refused[2] += 1;
        }
        let answer = history
            .act(compare, &act)
            .map_err(|why| format!("first {first}: {why}"))?;
        seen.count(&sender, &act, &answer, &history.state);
        match compare.random.below(100) {
            0 => history.crash(),
            1 => plan.resends = compare.random.pick(&RESENDS),
            2..=60 => history.persist(),
            _ => {}
        }
    }
    Ok(())
}

/// Acts in random order, right and wrong ones alike.
pub fn sender_histories(compare: &mut Compare) -> Outcome {
    let mut seen = Seen::default();
    for _ in 0..6_500 {
        let acts = compare.random.between(1, 120);
        let one_wild_in = compare.random.pick(&[1, 2, 3]);
        run(compare, &mut seen, acts, one_wild_in)?;
    }
    seen.enough(500)
}

/// Long runs that deliver much, with some acts that don't belong.
pub fn sender_progress(compare: &mut Compare) -> Outcome {
    let mut seen = Seen::default();
    for _ in 0..800 {
        let acts = compare.random.between(100, 900);
        let one_wild_in = compare.random.pick(&[8, 20, 60]);
        run(compare, &mut seen, acts, one_wild_in)?;
    }
    if seen.delivered < 60_000 {
        return Err(format!("only {} transactions delivered", seen.delivered));
    }
    seen.enough(50)
}

/// Words without a circuit whose last number is one of the largest; before the resynchronizing
/// exchange nothing is delivered.
fn near_largest(random: &mut Random) -> Vec<u64> {
    let last = LARGEST_SENT - random.below(20) as u64;
    let delivered = last - random.below(4) as u64;
    if random.one_in(3) {
        let first = delivered.min(LARGEST_SENT - 1) + 1;
        return vec![first, first - 1, last.max(first - 1), 0, 0, 0, 0];
    }
    let first = random.pick(&[1, 17, delivered, delivered + 1]);
    vec![first.min(LARGEST_SENT), delivered, last, 1, 0, 0, 0]
}

/// Histories whose last numbers are the largest ones: from a first number near them, or from words
/// that many acts have led there. Most of them come to where none is left.
pub fn sender_largest_numbers(compare: &mut Compare) -> Outcome {
    let mut seen = Seen::default();
    for _ in 0..2_500 {
        let random = &mut compare.random;
        let words = near_largest(random);
        let acts = random.between(20, 120);
        let one_wild_in = random.pick(&[2, 4, 12]);
        let history = History::from_words(words);
        go_on(compare, &mut seen, history, acts, one_wild_in)?;
    }
    if seen.none_left < 5_000 {
        return Err(format!("only {} submits with none left", seen.none_left));
    }
    seen.enough(200)
}

/// The circuit ends after exactly r + 1 sends: every r, on each message, by timer, N block, refused
/// block and data that is no answer.
pub fn sender_sends(compare: &mut Compare) -> Outcome {
    for resends in 0..=99 {
        for message in 0..3 {
            for way in 0..5 {
                ends_after(compare, resends, message, way)?;
            }
        }
    }
    Ok(())
}

fn ends_after(compare: &mut Compare, resends: u64, message: u64, way: usize) -> Outcome {
    let mut history = waits_on(compare, resends, message)?;
    for sends in 1..=resends + 1 {
        let state = &history.state;
        let found = [state[SENDER_WAITING], state[SENDER_SENDS]];
        same("waiting and sends", &found, &[2 + message, sends])?;
        let number = compare.random.between(3, 8) as u64;
        let answer = history.act(compare, &due(resends, way, sends, number))?;
        let expected = if sends <= resends {
            [sends + 1, 0, 2 + message]
        } else {
            [sends, EVENT_ABANDONED, 0]
        };
        let found = [
            answer.report[ACT_SENDS],
            answer.report[ACT_EVENT],
            history.state[SENDER_WAITING],
        ];
        same("sends, event and waiting", &found, &expected)
            .map_err(|why| format!("r={resends}, act {sends}: {why}"))?;
    }
    Ok(())
}

/// A sender that has sent a message once: 0 for -1, 1 for 0, 2 for a transaction.
fn waits_on(compare: &mut Compare, resends: u64, message: u64) -> Result<History, String> {
    let first = first_number(&mut compare.random);
    let mut history = History::new(compare, first)?;
    history.state[SENDER_RESYNCHRONIZED] = u64::from(message > 0);
    history.state[SENDER_LAST] += u64::from(message == 2);
    history.act(compare, &Act::Open)?;
    if message == 2 {
        let expected = first.to_string().into_bytes();
        let data = make_ends::answer(&mut compare.random, b"0", b"AA", b"0", Some(&expected));
        history.act(compare, &make_ends::data_block(resends, &data))?;
    }
    Ok(history)
}

/// An act by which a resend is due, in one of five ways.
fn due(resends: u64, way: usize, sends: u64, number: u64) -> Act<'static> {
    match way {
        0 => Act::Timer { resends },
        1 => make_ends::nak_block(resends, b"X"),
        2 => make_ends::refused_block(resends, number),
        3 => make_ends::data_block(resends, b""),
        _ if sends % 2 == 0 => Act::Timer { resends },
        _ => make_ends::data_block(resends, b"MSH|"),
    }
}
