//! Runs the groups of tests: `hosttests [SEED] [GROUP]`. The seed is a decimal number. A group that takes
//! long runs only where it is named. `hosttests --cases FILE..` runs the cases of these files alone.

mod case_model;
mod case_text;
mod cases;
mod compare;
mod compare_ends;
mod compare_fields;
mod compare_master;
mod compare_messages;
mod compare_receiver;
mod compare_station;
mod faults;
mod groups;
mod guarded;
mod library;
mod line;
mod link;
mod link_checks;
mod link_counts;
mod link_deviation;
mod link_ends;
mod link_lines;
mod link_receiving;
mod link_schedule;
mod link_sending;
mod make;
mod make_ends;
mod make_master;
mod make_messages;
mod make_station;
mod real;
mod stations_checks;
mod stations_counts;
mod stations_lines;
mod stations_link;
mod stations_plan;
mod stations_readings;
mod stations_units;

use compare::Compare;
use compare_master::{LEAST_OF_MASTERS, MASTER_KINDS};
use compare_receiver::{LEAST_OF_RECEIVERS, RECEIVER_KINDS};
use compare_station::{LEAST_OF_STATIONS, STATION_KINDS};
use std::process::ExitCode;
use std::time::Instant;

const SEED: u64 = 20_261_115;

const COUNTS_BEFORE_KINDS: usize = 27;
const COUNTS: usize = COUNTS_BEFORE_KINDS + RECEIVER_KINDS + STATION_KINDS + MASTER_KINDS;

/// How many inputs a whole run compares at least: calls of the functions for blocks; messages read
/// or written; of the messages read, those whose header can be read, and those that are answers;
/// acts of the receiver and the sender compared with the model; acts on simulated links, and runs of
/// such links; of the acts compared, those of each kind; calls of the field reader, with what they gave,
/// and headers and answers found by its steps; calls of the cases by hand; and acts on links of the two
/// X3.28 stations, runs of such links, and walks of them.
const LEAST: [(&str, u64); COUNTS_BEFORE_KINDS] = [
    ("inputs", 1_000_000),
    ("messages", 2_000_000),
    ("readable headers", 500_000),
    ("readable answers", 250_000),
    ("acts", 1_000_000),
    ("acts on links", 20_000_000),
    ("link runs", 100_000),
    ("acts of hybrid receivers", 200_000),
    ("acts of minimal receivers", 100_000),
    ("acts with r of 0", 50_000),
    ("acts with r of 1", 50_000),
    ("acts with r of 3", 50_000),
    ("acts with r of 99", 50_000),
    ("acts on numbers up to 100", 200_000),
    ("acts on the last 100 numbers", 200_000),
    ("calls of the field reader", 1_000_000),
    ("empty fields", 200_000),
    ("fields ended by CR", 100_000),
    ("fields ended by the message's end", 100_000),
    ("calls that found no field", 100_000),
    ("headers found by steps", 20_000),
    ("answers found by steps", 10_000),
    ("calls of cases by hand", 650_000),
    ("acts on links of stations", 30_000_000),
    ("runs of links of stations", 100_000),
    ("acts in walks of links of stations", 100_000_000),
    ("states in walks of links of stations", 6_000_000),
];

/// The least counts, those of acts of receivers, of stations and of masters behind the others.
fn least_counts() -> impl Iterator<Item = (&'static str, u64)> {
    let stations = LEAST_OF_STATIONS.into_iter().chain(LEAST_OF_MASTERS);
    LEAST.into_iter().chain(LEAST_OF_RECEIVERS).chain(stations)
}

/// What a group compared, in the order of `least_counts`.
fn counts(compare: &Compare) -> [u64; COUNTS] {
    let (kinds, fields) = (&compare.kinds, &compare.fields);
    let [none, one, three, most] = kinds.resends;
    let before_kinds = [
        compare.inputs,
        compare.messages,
        compare.headers,
        compare.answers,
        compare.acts,
        compare.link_acts,
        compare.link_runs,
        kinds.hybrid,
        kinds.minimal,
        none,
        one,
        three,
        most,
        kinds.small,
        kinds.large,
        fields.calls,
        fields.empty,
        fields.segment_ends,
        fields.message_ends,
        fields.none,
        fields.headers,
        fields.answers,
        compare.cases,
        compare.stations_acts,
        compare.stations_runs,
        compare.walk_acts,
        compare.walk_states,
    ];
    let receivers = compare.receiver.all();
    let (stations, masters) = (compare.station.all(), compare.master.all());
    let all = [&before_kinds[..], &receivers, &stations, &masters].concat();
    all.try_into().expect("a count for each of `least_counts`")
}

/// A seed of its own for each group, so that one group can be run alone.
fn group_seed(seed: u64, name: &str) -> u64 {
    name.bytes().fold(seed, |mixed, byte| {
        (mixed.rotate_left(9) ^ u64::from(byte)).wrapping_mul(0x0000_0100_0000_01B3)
    })
}

/// A run that compared fewer of something than promised has failed, whatever they gave.
fn too_few(compared: &[u64; COUNTS]) -> bool {
    let mut fewer = false;
    for ((what, least), &found) in least_counts().zip(compared) {
        if found < least {
            println!("FAIL {what}: {found}, and {least} are promised");
            fewer = true;
        }
    }
    fewer
}

/// What a group compared.
fn tally(compare: &Compare) -> String {
    let counts = [
        (compare.inputs, "inputs"),
        (compare.messages, "messages"),
        (compare.acts, "acts"),
        (compare.receiver.acts(), "of receivers"),
        (compare.link_acts, "acts on links"),
        (compare.station.acts, "acts of stations"),
        (compare.master.acts, "acts of masters"),
        (compare.stations_acts, "acts on links of stations"),
        (compare.walk_acts, "acts in walks"),
        (compare.walk_states, "states"),
        (compare.fields.calls, "calls of the field reader"),
        (compare.cases, "calls of cases"),
    ];
    let counted = counts.iter().filter(|(count, _)| *count > 0);
    let texts: Vec<String> = counted
        .map(|(count, what)| format!("{count} {what}"))
        .collect();
    texts.join(", ")
}

/// What a whole run compared besides inputs.
fn print_counts(compared: &[u64; COUNTS]) {
    let [_, messages, headers, answers, acts, link_acts, link_runs, kinds @ ..] = compared;
    println!("{messages} messages, of them {headers} readable headers, {answers} readable answers");
    println!(
        "{acts} acts of the receiver and the sender, and {link_acts} in {link_runs} link runs"
    );
    for (count, (what, _)) in kinds.iter().zip(least_counts().skip(COUNTS - kinds.len())) {
        println!("  {count} {what}");
    }
}

/// The cases of these files alone, each a group.
fn run_files(paths: &[String]) -> ExitCode {
    let (mut passed, mut failed) = (0, 0);
    faults::install();
    for path in paths {
        let mut compare = Compare::new(SEED);
        faults::enter("cases", passed, failed);
        match cases::file_at(&mut compare, path) {
            Ok(()) => passed += 1,
            Err(why) => {
                println!("FAIL {why}");
                failed += 1;
            }
        }
    }
    println!("host: {passed} passed, {failed} failed");
    ExitCode::from(u8::from(failed > 0 || passed == 0))
}

/// The groups, or the one of this name: how many passed and failed, and what they compared.
fn run_groups(seed: u64, only: Option<&str>) -> (u64, u64, [u64; COUNTS]) {
    let (mut passed, mut failed) = (0, 0);
    let mut compared = [0; COUNTS];
    for (name, group) in groups::named(only) {
        faults::enter(name, passed, failed);
        if groups::is_apart(name) {
            faults::allow_long();
        }
        let mut compare = Compare::new(group_seed(seed, name));
        match group(&mut compare) {
            Ok(()) => {
                println!("ok {name} ({})", tally(&compare));
                passed += 1;
            }
            Err(why) => {
                println!("FAIL {name}: {why}");
                failed += 1;
            }
        }
        for (sum, count) in compared.iter_mut().zip(counts(&compare)) {
            *sum += count;
        }
    }
    (passed, failed, compared)
}

fn main() -> ExitCode {
    let arguments: Vec<String> = std::env::args().skip(1).collect();
    if arguments.first().is_some_and(|word| word == "--cases") {
        return run_files(&arguments[1..]);
    }
    let seed = match arguments.first().map(|text| text.parse::<u64>()) {
        None => SEED,
        Some(Ok(seed)) => seed,
        Some(Err(_)) => {
            eprintln!("usage: hosttests [SEED] [GROUP]");
            return ExitCode::from(2);
        }
    };
    let only = arguments.get(1).map(String::as_str);
    let begun = Instant::now();
    faults::install();
    let (passed, mut failed, compared) = run_groups(seed, only);
    failed += u64::from(only.is_none() && too_few(&compared));
    print_counts(&compared);
    let (inputs, seconds) = (compared[0], begun.elapsed().as_secs_f64());
    println!("{inputs} inputs in {seconds:.1} s, seed {seed}");
    println!("host: {passed} passed, {failed} failed");
    ExitCode::from(u8::from(failed > 0 || passed == 0))
}
