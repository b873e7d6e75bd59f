//! The receiver: histories of its acts, its whole table, reports of every kind, N replies, and data that
//! no reader gives. Each act is compared with the model in everything.

use crate::compare::{Compare, Outcome};
use crate::compare_receiver::{expects, needed, Receiver, ReceiverAnswer, ReceiverCall};
use crate::guarded::same;
use crate::make;
use crate::make_ends;
use crate::make_messages;
use host::ends_ffi::names::{
    DECISION_CHANGES, DECISION_EXPECTED, DECISION_OPENED, DECISION_TRANSACTION, NOT_STORED, STORED,
};
use host::message_model::{self, LARGEST_EXPECTED, LARGEST_SENT};
use host::model::{Layer, Settings};
use host::prng::Random;
use host::receiver_model::{self, ReceiverAct, RECEIVER_WORDS};

pub(super) const DATA: u64 = b'D' as u64;
pub(super) const NAK: u64 = b'N' as u64;

/// An expected number of each kind: none, small, and the two largest.
const STATES: [u64; 8] = [
    0,
    1,
    2,
    5,
    6,
    LARGEST_SENT - 1,
    LARGEST_SENT,
    LARGEST_EXPECTED,
];

/// What the histories of a group came to, by what each act answered.
#[derive(Default)]
struct Seen {
    transactions: u64,
    unchanging: u64,
    answers: u64,
    failures: u64,
    naks: u64,
    refused: [u64; 12],
}

impl Seen {
    fn count(&mut self, act: &ReceiverAct, answer: &ReceiverAnswer) {
        self.refused[answer.number as usize] += 1;
        if answer.number != 0 {
            return;
        }
        let report = &answer.report;
        match act {
            ReceiverAct::Decide { .. } => {
                self.transactions += u64::from(report[DECISION_TRANSACTION] != 0);
                let opened = report[DECISION_OPENED] == 1;
                self.unchanging += u64::from(opened && report[DECISION_CHANGES] == 0);
            }
            ReceiverAct::Report { stored: 0, .. } => self.failures += 1,
            ReceiverAct::Report { .. } => self.answers += 1,
            ReceiverAct::Nak { .. } => self.naks += 1,
        }
    }

    fn enough(&self, least: u64) -> Outcome {
        let counts = [
            ("transactions", self.transactions),
            ("decisions that change nothing", self.unchanging),
            ("answers", self.answers),
            ("failures", self.failures),
            ("N replies", self.naks),
            ("refused by 1", self.refused[1]),
            ("refused by 2", self.refused[2]),
            ("refused by 11", self.refused[11]),
        ];
        for (what, count) in counts {
            if count < least {
                return Err(format!("{what}: only {count}"));
            }
        }
        Ok(())
    }
}

fn settings(random: &mut Random, limit: u64) -> Settings {
    if random.one_in(3) {
        Settings::minimal(limit)
    } else {
        make::hybrid_settings(random, limit)
    }
}

/// The data of a block near what is expected: a request or something unreadable, seldom as long as
/// the limit allows.
fn data(random: &mut Random, expected: u64, limit: u64) -> Vec<u8> {
    let sequence = match random.below(8) {
        0..=2 if expected > 0 => Some(make_ends::decimal(random, expected)),
        _ => make_ends::near(random, expected),
    };
    if random.one_in(8) {
        let sequence = sequence.unwrap_or_default();
        return make_ends::without_header(random, &sequence);
    }
    let id = match (&sequence, random.below(3)) {
        (Some(sequence), 1 | 2) if (1..=20).contains(&sequence.len()) => sequence.clone(),
        _ => make_messages::control_id(random),
    };
    let mut message = make_ends::request(random, &id, sequence.as_deref());
    let few = (limit / 1000) as usize + 8;
    if message.len() < limit as usize && random.one_in(few) {
        message.resize(limit as usize, b'~');
    }
    message
}

/// A decision: most often on a data block.
fn decision<'a>(random: &mut Random, data: &'a [u8]) -> ReceiverAct<'a> {
    ReceiverAct::Decide {
        application: random.pick(&[1, 1, 2]),
        block_type: random.pick(&[DATA, DATA, DATA, DATA, DATA, DATA, DATA, NAK]),
        data,
    }
}

/// What may come in this state: where a decision is open most often its report, stored or failed, and
/// else a decision; a report with none open, a decision and an N reply while one is.
fn any_act<'a>(random: &mut Random, receiver: &Receiver, data: &'a [u8]) -> ReceiverAct<'a> {
    let is_hybrid = receiver.settings.layer == Layer::Hybrid;
    let stored = random.pick(&[STORED, STORED, NOT_STORED]);
    let report = receiver.report(stored);
    let nak = receiver.nak(random.between(3, 9) as u64);
    match random.below(10) {
        0 | 1 => decision(random, data),
        2 => report,
        3 if is_hybrid => nak,
        _ if receiver.is_open() => report,
        _ => decision(random, data),
    }
}

/// The same with one thing outside its range.
fn spoiled<'a>(random: &mut Random, act: ReceiverAct<'a>) -> ReceiverAct<'a> {
    let code = random.pick(&[0, 3, 4, 256, u64::MAX]);
    let other = random.pick(&[2, 3, 10, 11, 12, 257, 259, u64::MAX]);
    match act {
        ReceiverAct::Decide {
            application, data, ..
        } if random.one_in(2) => ReceiverAct::Decide {
            application,
            block_type: random.pick(&[0, 1, 256 + DATA, 256 + NAK, u64::MAX]),
            data,
        },
        ReceiverAct::Decide {
            block_type, data, ..
        } => ReceiverAct::Decide {
            application: code,
            block_type,
            data,
        },
        ReceiverAct::Report { settings, .. } => ReceiverAct::Report {
            settings,
            stored: other,
        },
        ReceiverAct::Nak { settings, .. } => ReceiverAct::Nak {
            settings,
            number: random.pick(&[0, 1, 2, 10, 11, 256 + 3, u64::MAX]),
        },
    }
}

/// Where a reply goes: most often into a buffer that is exactly long enough from there on.
fn memory(random: &mut Random, receiver: &Receiver) -> (usize, usize) {
    let need = needed(&receiver.settings);
    let most = receiver.buffer_length();
    let start = random.below(most - need + 1);
    match random.below(40) {
        0 => (start + need - 1, start),
        1 => (start, start),
        2 => (
            most,
            random.pick(&[most, most + 1, usize::MAX - need, usize::MAX]),
        ),
        3 => (0, start),
        4..=11 => (random.between(start + need, most), start),
        _ => (start + need, start),
    }
}

/// A call, seldom one that is refused by 1 or for its words by 2.
fn any_call<'a>(
    random: &mut Random,
    receiver: &Receiver,
    act: ReceiverAct<'a>,
) -> ReceiverCall<'a> {
    let (buffer_length, start) = memory(random, receiver);
    let mut call = ReceiverCall {
        act,
        state_words: random.between(RECEIVER_WORDS, receiver.state.len()),
        buffer_length,
        start,
        report_words: act.report_words() + random.below(3),
    };
    match random.below(80) {
        0 => call.act = spoiled(random, act),
        1 => call.state_words = random.below(RECEIVER_WORDS),
        2 => call.report_words = random.below(act.report_words()),
        _ => {}
    }
    call
}

/// One act that a history makes; an answer is sometimes read back.
fn act(compare: &mut Compare, receiver: &mut Receiver, seen: &mut Seen) -> Outcome {
    let expected = receiver.state[0] % (LARGEST_EXPECTED + 1);
    let limit = receiver.settings.limit;
    let data = data(&mut compare.random, expected, limit);
    let open = receiver.decoded().and_then(|state| state.open);
    let act = any_act(&mut compare.random, receiver, &data);
    let call = any_call(&mut compare.random, receiver, act);
    let answer = compare.receiver_act(receiver, &call)?;
    seen.count(&call.act, &answer);
    if !answer.reply.is_empty() && compare.random.one_in(8) {
        let id = open.map_or(Vec::new(), |open| open.control_id);
        compare.reply_reads_back(&receiver.settings, &answer.reply, &id)?;
    }
    Ok(())
}

/// The expected number that a history begins with.
fn any_expected(random: &mut Random) -> u64 {
    let any = random.draw() % (LARGEST_EXPECTED + 1);
    match random.below(12) {
        index @ 0..=7 => STATES[index],
        8 => any,
        _ => 0,
    }
}

/// What happens to the words before an act of a history, other than by acts.
type Change = fn(&mut Random, &mut [u64]);

/// A crash: what is persisted stays, and the open decision is lost.
fn crash(state: &mut [u64]) {
    state[1..RECEIVER_WORDS].fill(0);
}

fn crashes(random: &mut Random, state: &mut [u64]) {
    if random.one_in(40) {
        crash(state);
    }
}

fn histories(
    compare: &mut Compare,
    limits: &[u64],
    runs: usize,
    most: usize,
    change: Change,
) -> Result<Seen, String> {
    let mut seen = Seen::default();
    for _ in 0..runs {
        let limit = compare.random.pick(limits);
        let settings = settings(&mut compare.random, limit);
        let expected = any_expected(&mut compare.random);
        let more = compare.random.pick(&[0, 1, 7, 40]);
        let mut receiver = Receiver::new(compare, &settings, expected, more);
        for _ in 0..compare.random.between(1, most) {
            change(&mut compare.random, &mut receiver.state);
            act(compare, &mut receiver, &mut seen)?;
        }
    }
    seen.enough(runs as u64 / 8)?;
    Ok(seen)
}

/// Histories with small data limits, and crashes.
pub fn receiver_histories(compare: &mut Compare) -> Outcome {
    histories(compare, &[128, 128, 128, 129, 200], 8_000, 140, crashes)?;
    Ok(())
}

/// The same with large data limits, up to the largest.
pub fn receiver_large_limits(compare: &mut Compare) -> Outcome {
    histories(compare, &[4096], 300, 120, crashes)?;
    histories(compare, &[99_994], 100, 60, crashes)?;
    Ok(())
}

/// The same on the largest numbers: where a history leaves them with no decision open it is brought back.
pub fn receiver_largest_numbers(compare: &mut Compare) -> Outcome {
    histories(compare, &[128, 129], 2_000, 120, |random, state| {
        if state[0] < LARGEST_SENT - 40 && state[1] == 0 {
            state[0] = LARGEST_EXPECTED - random.below(20) as u64;
        }
    })?;
    Ok(())
}

/// Something else in one word of a state: a bit changed, or any number, or one near another word.
fn corrupted(random: &mut Random, state: &mut [u64]) {
    let index = random.below(RECEIVER_WORDS);
    let other = state[random.below(5)];
    let any = random.draw() >> random.below(64);
    let bit = 1 << random.below(64);
    let near = other.wrapping_add(random.below(3) as u64).wrapping_sub(1);
    let odd = random.pick(&[LARGEST_EXPECTED + 1, u64::MAX, 0, 1, 2, 3, 4, 20, 21]);
    state[index] = random.pick(&[any, state[index] ^ bit, near, near, odd]);
}

/// Histories in which words are corrupted at any time; acts go on from whatever they hold then.
pub fn receiver_corrupt_histories(compare: &mut Compare) -> Outcome {
    let seen = histories(compare, &[128, 129], 3_000, 140, |random, state| {
        let is_state = receiver_model::Receiver::decode(&state[..RECEIVER_WORDS]).is_some();
        if !is_state && random.one_in(3) {
            state[0] = any_expected(random);
            crash(state);
        } else if random.one_in(6) {
            corrupted(random, state);
        }
    })?;
    if seen.refused[11] < 20_000 {
        return Err(format!("refused by 11: only {}", seen.refused[11]));
    }
    Ok(())
}

/// A fresh state, from any words and any number of them.
pub fn receiver_fresh(compare: &mut Compare) -> Outcome {
    for round in 0..1_300 {
        let mut state = compare.random.words(round % 13);
        compare.receiver_fresh(&mut state)?;
    }
    Ok(())
}

/// What may stand in MSH-13; none where it is missing.
fn sequences() -> Vec<Option<Vec<u8>>> {
    let numbers = STATES
        .iter()
        .flat_map(|&state| [state, state + 1, state + 2]);
    let mut list: Vec<Option<Vec<u8>>> = vec![None];
    for number in numbers {
        let plain = number.to_string();
        list.push(Some(plain.clone().into_bytes()));
        list.push(Some(format!("0{plain}").into_bytes()));
        list.push(Some(format!("{plain:0>15}").into_bytes()));
    }
    let others: [&[u8]; 16] = [
        b"",
        b"-1",
        b"-01",
        b"-0",
        b"+5",
        b"-5",
        b"5 ",
        b" 5",
        b"5.",
        b"5^",
        b"\"\"",
        b"A",
        b"-",
        b"00000000000000000005",
        b"1-1",
        b"--1",
    ];
    list.extend(others.map(|text| Some(text.to_vec())));
    list
}

/// The decision on an accepted data block, with all memory as needed.
pub(super) fn decide(
    compare: &mut Compare,
    receiver: &mut Receiver,
    application: u64,
    data: &[u8],
) -> Result<ReceiverAnswer, String> {
    let block_type = DATA;
    let act = ReceiverAct::Decide {
        application,
        block_type,
        data,
    };
    compare.receiver_acts(receiver, act)
}

/// The report on the decision that is open, with all memory as needed.
pub(super) fn report(
    compare: &mut Compare,
    receiver: &mut Receiver,
    stored: u64,
) -> Result<ReceiverAnswer, String> {
    let act = receiver.report(stored);
    compare.receiver_acts(receiver, act)
}

/// A receiver on either kind of link, with the least data limit.
pub(super) fn two_receivers(compare: &mut Compare) -> [Receiver; 2] {
    let kinds = [Settings::hybrid(0x0B, 0x1C, 128), Settings::minimal(128)];
    kinds.map(|settings| Receiver::new(compare, &settings, 0, 3))
}

/// Every expected number by everything that may stand in MSH-13, with both verdicts, on both layers, and
/// with control IDs of every length: the decision and a report of success are the row of the table.
pub fn receiver_table(compare: &mut Compare) -> Outcome {
    let list = sequences();
    for mut receiver in two_receivers(compare) {
        for expected in STATES {
            for sequence in &list {
                for length in 1..=20 {
                    let mut id = make_messages::control_id(&mut compare.random);
                    id.resize(length, b'7');
                    let data = make_ends::request(&mut compare.random, &id, sequence.as_deref());
                    receiver.set_words(expects(expected));
                    let application = 1 + length as u64 % 2;
                    let said = decide(compare, &mut receiver, application, &data)?;
                    same("decision opened", &[said.report[DECISION_OPENED]], &[1])?;
                    let answer = report(compare, &mut receiver, STORED)?;
                    compare.reply_reads_back(&receiver.settings, &answer.reply, &id)?;
                    let then = said.report[DECISION_EXPECTED];
                    same("state", &receiver.state[..RECEIVER_WORDS], &expects(then))?;
                }
            }
        }
    }
    Ok(())
}

/// What must not happen while a decision is open, and what happens once it is reported, for each row of
/// the table: a second decision, also on data that cannot be read and on an N block, and an N reply are
/// refused; a report with a short buffer leaves it open; of failure it gives nothing and leaves the
/// state of before; a second report is refused, and so is one that comes after a crash.
pub fn receiver_reports(compare: &mut Compare) -> Outcome {
    for mut receiver in two_receivers(compare) {
        for expected in STATES {
            for sequence in sequences() {
                let id = make_messages::control_id(&mut compare.random);
                let data = make_ends::request(&mut compare.random, &id, sequence.as_deref());
                receiver.set_words(expects(expected));
                decide(compare, &mut receiver, 1, &data)?;
                while_open(compare, &mut receiver, &data)?;
                short_reports(compare, &mut receiver)?;
                let failed = report(compare, &mut receiver, NOT_STORED)?;
                same("bytes to send", &[failed.reply.len()], &[0])?;
                let before = expects(expected);
                same("state", &receiver.state[..RECEIVER_WORDS], &before)?;
                none_open(compare, &mut receiver)?;
                decide(compare, &mut receiver, 2, &data)?;
                crash(&mut receiver.state);
                none_open(compare, &mut receiver)?;
                decide(compare, &mut receiver, 2, &data)?;
                report(compare, &mut receiver, STORED)?;
                none_open(compare, &mut receiver)?;
            }
        }
    }
    Ok(())
}

/// Whether the answer of an act has this number.
fn numbered(answer: &ReceiverAnswer, number: u64) -> Outcome {
    same("number", &[answer.number], &[number])
}

/// Refused while a decision is open; it stays open.
fn while_open(compare: &mut Compare, receiver: &mut Receiver, data: &[u8]) -> Outcome {
    let before = receiver.state.clone();
    for data in [data, b"hello", b""] {
        numbered(&decide(compare, receiver, 1, data)?, 11)?;
        let nak_block = ReceiverAct::Decide {
            application: 2,
            block_type: NAK,
            data,
        };
        numbered(&compare.receiver_acts(receiver, nak_block)?, 11)?;
    }
    if receiver.settings.layer == Layer::Hybrid {
        for number in 3..=9 {
            let nak = receiver.nak(number);
            numbered(&compare.receiver_acts(receiver, nak)?, 11)?;
        }
    }
    same("state", &receiver.state, &before)
}

/// A buffer, or words, one too short: 2, whatever is reported, and the decision stays open.
fn short_reports(compare: &mut Compare, receiver: &mut Receiver) -> Outcome {
    for stored in [NOT_STORED, STORED] {
        let whole = receiver.whole_call(receiver.report(stored));
        for (state, buffer, report) in [(1, 0, 0), (0, 1, 0), (0, 0, 1), (9, 0, 2), (0, 9, 0)] {
            let call = ReceiverCall {
                state_words: whole.state_words - state,
                buffer_length: whole.buffer_length - buffer,
                report_words: whole.report_words - report,
                ..whole
            };
            numbered(&compare.receiver_act(receiver, &call)?, 2)?;
        }
    }
    Ok(())
}

/// With none open a report is refused, of success and of failure.
fn none_open(compare: &mut Compare, receiver: &mut Receiver) -> Outcome {
    for stored in [STORED, NOT_STORED] {
        numbered(&report(compare, receiver, stored)?, 11)?;
    }
    Ok(())
}

/// Data that no reader gives: longer than any limit, or with bytes that no block may hold, in the
/// control ID and elsewhere.
pub fn data_of_no_block(compare: &mut Compare) -> Outcome {
    for round in 0..12_000 {
        let limit = compare.random.pick(&[128, 129]);
        let settings = settings(&mut compare.random, limit);
        let expected = compare.random.pick(&STATES);
        let mut receiver = Receiver::new(compare, &settings, expected, 3);
        let sequence = make_ends::near(&mut compare.random, expected);
        let id = if round % 2 == 0 {
            let length = compare.random.between(1, 20);
            make_messages::field(&mut compare.random, length)
        } else {
            make_messages::control_id(&mut compare.random)
        };
        let mut data = make_ends::request(&mut compare.random, &id, sequence.as_deref());
        let more = compare.random.pick(&[0, 1, 40, 400]);
        data.extend(compare.random.bytes(more));
        let application = compare.random.pick(&[1, 2]);
        let said = decide(compare, &mut receiver, application, &data)?;
        let answer = report(compare, &mut receiver, STORED)?;
        if said.report[DECISION_OPENED] == 1 {
            let header = message_model::header(&data);
            let id = header.map_or(&b""[..], |header| header.control_id.bytes);
            compare.reply_reads_back(&receiver.settings, &answer.reply, id)?;
        }
    }
    Ok(())
}

/// Each number of a refused block has its reason, whatever is expected; no other number has one.
pub fn refused_numbers(compare: &mut Compare) -> Outcome {
    let reasons = [b'G', b'B', b'G', b'C', b'X', b'G', b'G'];
    for _ in 0..2_000 {
        let settings = make::hybrid_settings(&mut compare.random, 128);
        let expected = compare.random.pick(&STATES);
        let mut receiver = Receiver::new(compare, &settings, expected, 3);
        for number in 0..=12 {
            let nak = receiver.nak(number);
            let answer = compare.receiver_acts(&mut receiver, nak)?;
            let reason = number
                .checked_sub(3)
                .and_then(|at| reasons.get(at as usize));
            same("reason", &[answer.reply.get(5)], &[reason])?;
        }
        let state = &receiver.state[..RECEIVER_WORDS];
        same("state", state, &expects(expected))?;
    }
    Ok(())
}
