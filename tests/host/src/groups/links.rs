//! Links of the library's two ends, under what demand 3 allows; and with something else, which must
//! be found.

use crate::compare::{Compare, Outcome};
use crate::link::{Beginning, Link};
use crate::link_counts::{Counts, Kind};
use crate::link_deviation::{same_duties, Deviation, Duty, DUTIES};
use crate::link_lines::old_request;
use crate::link_schedule::Weather;
use crate::make;
use crate::make_ends;
use host::message_model::{LARGEST_EXPECTED, LARGEST_SENT};
use host::model::{Layer, Settings};
use host::prng::Random;

/// How many link runs a group of links makes.
const RUNS: usize = 400_000;

/// A log from a first number on.
fn log(random: &mut Random, first: u64, limit: u64) -> Vec<Vec<u8>> {
    let most = if random.one_in(40) { 40 } else { 6 };
    let left = (LARGEST_SENT - first + 1).min(most) as usize;
    let length = random.between(1, left);
    (first..)
        .take(length)
        .map(|number| {
            let id = number.to_string().into_bytes();
            let sequence = make_ends::decimal(random, number);
            let mut message = make_ends::request(random, &id, Some(&sequence));
            message.extend_from_slice(b"OBX|");
            message.extend((0..random.below(5)).map(|_| random.between(0x20, 0x7E) as u8));
            message.truncate(limit as usize);
            message
        })
        .collect()
}

fn settings(random: &mut Random) -> Settings {
    let limit = match random.below(100) {
        0 => 99_994,
        1..=20 => 4096,
        _ => random.pick(&[128, 129, 200]),
    };
    if random.one_in(3) {
        Settings::minimal(limit)
    } else {
        make::hybrid_settings(random, limit)
    }
}

pub fn beginning(random: &mut Random, deviation: Deviation) -> Beginning {
    let first = match random.below(6) {
        0 => 1,
        1 => 2,
        2 => random.between(3, 60) as u64,
        3 => LARGEST_SENT - random.below(6) as u64,
        4 => LARGEST_SENT - random.below(60) as u64,
        _ => 1 + random.draw() % LARGEST_SENT,
    };
    let settings = settings(random);
    let near = first + random.below(4) as u64;
    let any = 1 + random.draw() % LARGEST_EXPECTED;
    let old_expected = match deviation {
        Deviation::Without(Duty::Exchanges) => random.pick(&[near, any]),
        Deviation::WithoutBoth(Duty::Exchanges, _) => random.pick(&[0, first]),
        _ => random.pick(&[0, 0, near - 1, near, any, 1, LARGEST_SENT, LARGEST_EXPECTED]),
    };
    Beginning {
        settings,
        first,
        resends: random.pick(&[0, 1, 1, 3, 3, 99]),
        log: log(random, first, settings.limit),
        old_expected: old_expected.min(LARGEST_EXPECTED),
        deviation,
    }
}

/// The acts of a link run; in the end it may be brought to its end over good lines.
pub fn acts(link: &mut Link, random: &mut Random, weather: &Weather) -> Outcome {
    let steps = random.pick(&[20, 100, 300, 300, 600]);
    for _ in 0..random.below(steps) {
        if link.is_done() && random.one_in(8) {
            break;
        }
        link.step(random, weather)?;
    }
    if random.one_in(4) {
        return Ok(());
    }
    link.deliver_all(random)?;
    link.counts.add(Kind::Delivered);
    Ok(())
}

/// What kind of link run it was.
fn count_run(link: &mut Link, old_expected: u64) {
    const LOSS: [Kind; 2] = [Kind::LostBlock, Kind::LostLine];
    const DAMAGE: [Kind; 4] = [
        Kind::OneRefusal,
        Kind::SeveralRefusals,
        Kind::UntilNextStart,
        Kind::Vanished,
    ];
    let counts = &link.counts;
    let both_crashed = counts.has(&[Kind::SenderCrash]) && counts.has(&[Kind::ReceiverCrash]);
    let is_delivered = counts.has(&[Kind::Delivered]);
    let after_all = is_delivered && both_crashed && counts.has(&LOSS) && counts.has(&DAMAGE);
    let is_minimal = link.settings.layer == Layer::Minimal;
    let kinds = [
        (Kind::Run, true),
        (Kind::HybridRun, !is_minimal),
        (Kind::MinimalRun, is_minimal),
        (Kind::NoResends, link.resends == 0),
        (Kind::OneResend, link.resends == 1),
        (Kind::ThreeResends, link.resends == 3),
        (Kind::MostResends, link.resends == 99),
        (Kind::SmallNumbers, link.first <= 100),
        (Kind::LargestNumbers, link.first > LARGEST_SENT - 100),
        (Kind::OldExpected, old_expected != 0),
        (Kind::LongRun, link.log.len() > 6),
        (Kind::BothCrashed, both_crashed),
        (Kind::DeliveredAfterAll, after_all),
    ];
    link.count_all(&kinds);
}

/// What an earlier run left. No circuit can drop a request that the receiver acts on before the first:
/// where one is left, the first circuit comes at once, except with that deviation.
fn leave_old_blocks(link: &mut Link, random: &mut Random) -> Outcome {
    match link.deviation {
        Deviation::Without(Duty::Exchanges) => return Ok(()),
        Deviation::OldRequest => return link.leave_old_request(false),
        Deviation::Without(Duty::DropsDecision) => {
            let first = link.first.to_string();
            let old = old_request(random.pick(&["-1", &first]));
            return link.leave_old_decision(old);
        }
        Deviation::ReceiverKeepsVerdicts => {
            link.leave_old_request(true)?;
            return link.open();
        }
        _ => {}
    }
    link.leave_old_answers(random)?;
    if link.deviation == Deviation::Faithful && random.one_in(2) {
        link.leave_old_request(random.one_in(2))?;
        return link.open();
    }
    Ok(())
}

/// One link run: a numbered log from its first act to its last. A failure has what is wrong, and how
/// the link stands.
fn link_run(random: &mut Random, deviation: Deviation) -> Result<Counts, [String; 2]> {
    let beginning = beginning(random, deviation);
    let old_expected = beginning.old_expected;
    let mut link = Link::new(beginning).map_err(|why| [why, String::new()])?;
    let mut outcome = Ok(());
    if deviation != Deviation::Faithful || random.one_in(3) {
        outcome = leave_old_blocks(&mut link, random);
    }
    let weather = Weather::any(random, deviation);
    outcome
        .and_then(|()| acts(&mut link, random, &weather))
        .map_err(|why| [why, link.text()])?;
    count_run(&mut link, old_expected);
    Ok(link.counts)
}

/// Many link runs under what demand 3 allows.
pub fn links(compare: &mut Compare) -> Outcome {
    let mut counts = Counts::new();
    for number in 1..=RUNS {
        let run = link_run(&mut compare.random, Deviation::Faithful)
            .map_err(|[why, link]| format!("link run {number}: {why}; {link}"))?;
        counts.add_all(&run);
    }
    compare.link_acts += counts.acts();
    compare.link_runs += counts.get(Kind::Run);
    counts.print();
    counts.enough()
}

/// How many link runs may pass before what is wrong is found.
const RUNS_TO_FIND: usize = 100_000;

/// What is done otherwise beside the duties of the hosts, each by itself.
const MORE: [(Deviation, &str); 17] = [
    (
        Deviation::WithoutBoth(Duty::Exchanges, Duty::EmptiesLines),
        "exchanges and empties_lines off",
    ),
    (Deviation::OldRequest, "an old request on the line"),
    (
        Deviation::ReceiverKeepsVerdicts,
        "drops_verdicts off at the receiver alone",
    ),
    (
        Deviation::SenderKeepsVerdicts,
        "drops_verdicts off at the sender alone",
    ),
    (
        Deviation::ReceiverFindsUndurable,
        "a restarted receiver goes on from what is not durable",
    ),
    (
        Deviation::SenderFindsUndurable,
        "a restarted sender goes on from what is not durable",
    ),
    (
        Deviation::OldNumberStored,
        "the state's word stored in place of the decision's number",
    ),
    (Deviation::RequestsTwice, "requests that come again later"),
    (
        Deviation::RequestsDisordered,
        "requests in any order and repeatedly",
    ),
    (
        Deviation::ControlIdIgnored,
        "answers taken whatever their MSA-2",
    ),
    (Deviation::AbandonsEarly, "abandoned one send early"),
    (Deviation::AbandonsLate, "abandoned one send late"),
    (Deviation::CountsWrongly, "a wrong count of sends"),
    (Deviation::SendForgotten, "a send that is not named"),
    (Deviation::AnswerForgotten, "an answer that is not taken"),
    (
        Deviation::RefusedSubmitted,
        "a refused message that counts as submitted",
    ),
    (
        Deviation::ReplyFromBeginning,
        "replies sent from the buffer's beginning",
    ),
];

/// Link runs until one fails: which, and what is wrong.
fn found(random: &mut Random, deviation: Deviation, what: &str) -> Outcome {
    let failure = (1..=RUNS_TO_FIND).find_map(|number| {
        let failure = link_run(random, deviation).err();
        failure.map(|[why, _]| (number, why))
    });
    let Some((number, why)) = failure else {
        return Err(format!("{what}: not found in {RUNS_TO_FIND} link runs"));
    };
    println!("  {what}: found in link run {number} ({why})");
    Ok(())
}

/// A duty of the hosts that is neglected, and whatever else is done otherwise than demand 3 has it or
/// wrongly reported, is found by the same link runs.
pub fn link_deviations(compare: &mut Compare) -> Outcome {
    same_duties()?;
    for (duty, name) in DUTIES {
        let deviation = Deviation::Without(duty);
        found(&mut compare.random, deviation, &format!("{name} off"))?;
    }
    for (deviation, what) in MORE {
        found(&mut compare.random, deviation, what)?;
    }
    Ok(())
}
