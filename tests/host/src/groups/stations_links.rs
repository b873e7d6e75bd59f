//! Links of the library's two X3.28 stations, under what document 02, §3 and §14, allow; and with a premise
//! broken or a station that reads §14 wrongly, which must be found.

use crate::compare::{Compare, Outcome};
use crate::make_master::sizes_around;
use crate::stations_counts::{StationsCounts, StationsKind as Kind};
use crate::stations_link::{Beginning, Link, MasterOf};
use crate::stations_plan::Plan;
use crate::stations_readings::Reading;
use crate::stations_units::{Back, LinkAct, Way, FORWARD_NOISE};
use host::master_model::Numbering;
use host::prng::Random;

/// How many calls of the two stations a group of links makes.
const CALLS: u64 = 36_000_000;

/// How many units a line holds.
const CAPACITY: usize = 12;

/// The most acts of one run.
const MOST_ACTS: usize = 4_000;

/// A premise of the statement that does not hold.
#[derive(Clone, Copy, Debug, PartialEq, Eq)]
enum Broken {
    None,
    Order,
    EmptyLine,
    OneOpening,
    Numbers,
    /// A NAK that the slave did not give comes in after a RINT that it gave.
    NakAfterRint,
}

/// How often what happens, each once in so many acts.
struct Weather {
    loss: usize,
    damage: usize,
    noise: usize,
    repetition: usize,
    enquiry: usize,
    asking: usize,
    leave: usize,
    /// An EOT of a driver that no station gave.
    own_eot: usize,
    early_timer: usize,
    slave_opens: usize,
    eot_instead: usize,
    timer_d: usize,
    close: usize,
    /// How soon the driver starts a message while units are still on a line.
    start: usize,
}

const NEVER: usize = usize::MAX;

impl Weather {
    fn any(random: &mut Random) -> Weather {
        Weather {
            loss: random.pick(&[6, 12, 30, 100, NEVER]),
            damage: random.pick(&[6, 12, 30, 100, NEVER]),
            noise: random.pick(&[8, 20, 60, NEVER]),
            repetition: random.pick(&[8, 20, 60, NEVER]),
            enquiry: random.pick(&[3, 6, 20, 60, 200, NEVER]),
            asking: random.pick(&[3, 10, 40, NEVER]),
            leave: random.pick(&[20, 100, 400, NEVER, NEVER]),
            own_eot: random.pick(&[100, 400, NEVER, NEVER, NEVER]),
            early_timer: random.pick(&[3, 6, 20, 60, 300, NEVER]),
            slave_opens: random.pick(&[1, 1, 1, 6, 20]),
            eot_instead: random.pick(&[80, 400, NEVER, NEVER]),
            timer_d: random.pick(&[300, NEVER, NEVER, NEVER]),
            close: random.pick(&[4, 12, NEVER]),
            start: random.pick(&[1, 2, 8]),
        }
    }

    /// Nothing is lost or damaged, and nothing ends but by the driver.
    fn calm() -> Weather {
        Weather {
            loss: NEVER,
            damage: NEVER,
            noise: NEVER,
            repetition: NEVER,
            enquiry: NEVER,
            asking: NEVER,
            leave: NEVER,
            own_eot: NEVER,
            early_timer: NEVER,
            slave_opens: 1,
            eot_instead: NEVER,
            timer_d: NEVER,
            close: NEVER,
            start: 2,
        }
    }
}

/// Some messages, each with a block size of its own.
fn any_plan(random: &mut Random) -> Plan {
    let mut plan = Plan::default();
    for _ in 0..random.between(1, 12) {
        let length = match random.below(8) {
            0 => 0,
            1 => random.between(20, 60),
            _ => random.below(16),
        };
        let message = random.bytes(length);
        let size = match random.below(4) {
            0 => random.pick(&sizes_around(length as u64)),
            1 => 1,
            _ => random.between(1, 7) as u64,
        };
        plan.add(&message, size.max(1));
    }
    plan
}

/// A buffer in which every message fits, or a short one.
fn any_beginning(random: &mut Random, plan: &Plan, master_of: MasterOf) -> Beginning {
    let lengths = plan.messages.iter().map(|message| message.length);
    let longest = lengths.max().unwrap_or(0);
    let buffer_length = match random.below(8) {
        0 => random.below(longest + 1),
        1 => longest,
        _ => longest + random.below(20),
    };
    Beginning {
        master_of,
        reading: Reading::Right,
        capacity: CAPACITY,
        buffer_length,
        answers_bids: random.one_in(2),
        with_corollaries: true,
    }
}

/// Which unit comes next: the oldest, where the line keeps order.
fn next_index(random: &mut Random, units: usize, broken: Broken) -> usize {
    match broken {
        Broken::Order => random.below(units),
        _ => 0,
    }
}

/// A unit of a line, any of it.
fn any_unit(link: &Link, random: &mut Random) -> Option<(Way, usize)> {
    let (forward, back) = (link.forward.len(), link.back.len());
    match random.below((forward + back).max(1)) {
        index if index < forward => Some((Way::Forward, index)),
        index if index < forward + back => Some((Way::Back, index - forward)),
        _ => None,
    }
}

/// What a reply that is damaged, or noise on its line, looks like. A NAK that the slave did not give does
/// no harm as long as it has given no RINT.
fn back_noise(link: &Link, random: &mut Random, broken: Broken) -> Back {
    let may_be_nak = !link.progress.was_rint_given || broken == Broken::NakAfterRint;
    match may_be_nak && random.one_in(2) {
        true => Back::Nak,
        false => Back::Damaged,
    }
}

/// What the lines do.
fn line_act(
    link: &Link,
    random: &mut Random,
    weather: &Weather,
    broken: Broken,
) -> Option<LinkAct> {
    if random.one_in(weather.loss) {
        return any_unit(link, random).map(|(way, index)| LinkAct::Lose(way, index));
    }
    if random.one_in(weather.repetition) {
        return any_unit(link, random).map(|(way, index)| LinkAct::Repeat(way, index));
    }
    if random.one_in(weather.damage) {
        return any_unit(link, random).map(|(way, index)| match way {
            Way::Forward => LinkAct::DamageUnit(index, random.pick(&FORWARD_NOISE)),
            Way::Back => LinkAct::DamageReply(index, back_noise(link, random, broken)),
        });
    }
    if random.one_in(weather.noise) {
        return Some(if random.one_in(2) {
            let index = random.below(link.forward.len() + 1);
            LinkAct::UnitNoise(index, random.pick(&FORWARD_NOISE))
        } else {
            let index = random.below(link.back.len() + 1);
            LinkAct::ReplyNoise(index, back_noise(link, random, broken))
        });
    }
    None
}

/// What the drivers wish at any moment, or do too early.
fn wish(link: &Link, random: &mut Random, weather: &Weather) -> Option<LinkAct> {
    if !link.was_slave_open && random.one_in(weather.slave_opens) {
        return Some(LinkAct::SlaveOpens);
    }
    if random.one_in(weather.early_timer) {
        return Some(LinkAct::TimerA);
    }
    if random.one_in(weather.enquiry) {
        return Some(LinkAct::Enquire);
    }
    if random.one_in(weather.asking) {
        return Some(LinkAct::Ask);
    }
    if random.one_in(weather.leave) {
        return Some(LinkAct::MayReceive);
    }
    if link.is_slave_open() && random.one_in(weather.timer_d) {
        return Some(LinkAct::TimerD);
    }
    let is_own_eot = random.one_in(weather.own_eot);
    match is_own_eot && random.one_in(2) {
        true if link.is_slave_open() => Some(LinkAct::SlaveEot),
        _ => (is_own_eot && !link.is_closed()).then_some(LinkAct::MasterEot),
    }
}

/// What happens next; nothing where the master is closed and the lines are empty.
fn next_act(
    link: &Link,
    random: &mut Random,
    weather: &Weather,
    broken: Broken,
) -> Option<LinkAct> {
    let disturbance = wish(link, random, weather);
    let disturbance = disturbance.or_else(|| line_act(link, random, weather, broken));
    if disturbance.is_some() {
        return disturbance;
    }
    if link.is_idle() && (link.are_lines_empty() || random.one_in(weather.start)) {
        let is_last = link.progress.started == link.plan.messages.len();
        let closes = is_last || random.one_in(weather.close);
        return Some(if closes {
            LinkAct::Close
        } else {
            LinkAct::Start
        });
    }
    let (forward, back) = (link.forward.len(), link.back.len());
    if forward > 0 && (back == 0 || random.one_in(2)) {
        return Some(LinkAct::UnitComes {
            index: next_index(random, forward, broken),
            eot_instead: random.one_in(weather.eot_instead),
        });
    }
    if back > 0 {
        return Some(LinkAct::ReplyComes(0));
    }
    (!link.is_closed()).then_some(LinkAct::TimerA)
}

fn acts(link: &mut Link, random: &mut Random, weather: &Weather, broken: Broken) -> Outcome {
    for _ in 0..MOST_ACTS {
        let Some(act) = next_act(link, random, weather, broken) else {
            break;
        };
        link.act(&act)
            .map_err(|why| format!("{act:?}: {why}; {}", link_text(link)))?;
    }
    Ok(())
}

fn link_text(link: &Link) -> String {
    format!(
        "master {:?}, slave {:?}, {:?}, forward {:?}, back {:?}",
        link.master, link.slave, link.progress, link.forward, link.back
    )
}

/// One run: an opening of each station, from its first act to its last.
fn run(random: &mut Random, master_of: MasterOf) -> Result<StationsCounts, String> {
    let plan = any_plan(random);
    let beginning = any_beginning(random, &plan, master_of);
    let mut link = Link::new(&plan, beginning)?;
    let weather = Weather::any(random);
    acts(&mut link, random, &weather, Broken::None)?;
    let (progress, messages) = (link.progress, plan.messages.len());
    let is_delivered = progress.done == messages && link.counts.get(Kind::ClosedByDriver) == 1;
    let counts = &mut link.counts;
    counts.add(Kind::Run);
    counts.add_if(Kind::SeveralMessages, progress.done > 1);
    counts.add_if(Kind::LongOpening, progress.accepted > 16);
    let one_more = progress.handed_over > progress.done;
    counts.add_if(Kind::OneMoreHandedOver, one_more);
    counts.add_if(Kind::AllDelivered, is_delivered);
    let rints = counts.get(Kind::RintGiven);
    counts.add_if(Kind::SeveralRints, rints > 1);
    Ok(link.counts)
}

/// Many runs under what the statement allows.
pub fn stations_links(compare: &mut Compare) -> Outcome {
    let mut counts = StationsCounts::new();
    while counts.get(Kind::MasterCall) + counts.get(Kind::SlaveCall) < CALLS {
        let number = counts.get(Kind::Run) + 1;
        let one = run(&mut compare.random, MasterOf::Library)
            .map_err(|why| format!("run {number}: {why}"))?;
        counts.add_all(&one);
    }
    compare.stations_acts += counts.acts();
    compare.stations_runs += counts.get(Kind::Run);
    counts.print();
    counts.enough()
}

/// The same with the model's master in place of the library's, so that what is wrong with a changed one
/// is the change.
fn model_links(random: &mut Random) -> Outcome {
    let master_of = MasterOf::Model(Numbering::OverTheOpening);
    for number in 1..=2_000 {
        run(random, master_of).map_err(|why| format!("the model's master, run {number}: {why}"))?;
    }
    Ok(())
}

/// How many runs may pass before what is wrong is found.
const RUNS_TO_FIND: usize = 100_000;

const PREMISES: [(Broken, &str); 5] = [
    (Broken::Order, "order not kept"),
    (Broken::EmptyLine, "an old ACK on the line at the start"),
    (
        Broken::OneOpening,
        "the master opened again and the slave not",
    ),
    (Broken::Numbers, "numbers that restart with each message"),
    (
        Broken::NakAfterRint,
        "a NAK that is none, after a RINT was given",
    ),
];

const READINGS: [(Reading, &str); 6] = [
    (Reading::NakIsNoReply, "no NAK is given again on ENQ"),
    (
        Reading::NakToEnqIsNoReply,
        "a NAK to a damaged ENQ is not given again",
    ),
    (
        Reading::RintForDuplicate,
        "a duplicate of a block that got RINT gets it again",
    ),
    (
        Reading::AskedWithoutAck,
        "RINT is asked for with no ACK since the last",
    ),
    (
        Reading::DoubtOnlyAfterEnq,
        "a RINT after a RINT is refused only after ENQ",
    ),
    (
        Reading::DamagedIsReply,
        "a damaged reply counts as the reply before",
    ),
];

/// One run with a premise broken or a wrong reading, in which only the sentences are looked at.
fn broken_run(random: &mut Random, broken: Broken, reading: Reading) -> Outcome {
    let (first, plan) = (any_plan(random), any_plan(random));
    let master_of = match broken {
        Broken::Numbers => MasterOf::Model(Numbering::AnewWithEachMessage),
        _ => MasterOf::Library,
    };
    let beginning = Beginning {
        with_corollaries: false,
        reading,
        ..any_beginning(random, &plan, master_of)
    };
    let mut link = Link::new(&plan, beginning)?;
    match broken {
        Broken::EmptyLine => link.back.push(Back::Ack(random.below(8) as u64)),
        Broken::OneOpening => {
            link.open_again(&first)?;
            one_opening(&mut link, random)?;
            link.open_again(&plan)?;
        }
        Broken::None | Broken::Order | Broken::Numbers | Broken::NakAfterRint => {}
    }
    let weather = Weather::any(random);
    acts(&mut link, random, &weather, broken)
}

/// A whole opening on a good line up to the master's closing EOT, which is lost.
fn one_opening(link: &mut Link, random: &mut Random) -> Outcome {
    let weather = Weather::calm();
    while !link.is_closed() {
        let Some(act) = next_act(link, random, &weather, Broken::None) else {
            break;
        };
        link.act(&act)?;
    }
    link.forward.clear();
    link.back.clear();
    Ok(())
}

/// The sentences find a run that breaks them.
fn is_found(random: &mut Random, broken: Broken, reading: Reading, what: &str) -> Outcome {
    let failure = (1..=RUNS_TO_FIND).find_map(|number| {
        let failure = broken_run(random, broken, reading).err();
        failure.map(|why| (number, why))
    });
    match failure {
        Some((number, why)) if why.contains("sentence (") => {
            let why = why.split("; ").next().unwrap_or_default();
            println!("  {what}: found in run {number} ({why})");
            Ok(())
        }
        other => Err(format!("{what}: {other:?}")),
    }
}

/// Each premise is needed: without it the sentences find a run that breaks them.
pub fn broken_premises(compare: &mut Compare) -> Outcome {
    model_links(&mut compare.random)?;
    for (broken, what) in PREMISES {
        is_found(&mut compare.random, broken, Reading::Right, what)?;
    }
    Ok(())
}

/// So it is with each wrong reading of §14 in one of the stations, all premises kept.
pub fn wrong_readings(compare: &mut Compare) -> Outcome {
    for (reading, what) in READINGS {
        is_found(&mut compare.random, Broken::None, reading, what)?;
    }
    Ok(())
}
