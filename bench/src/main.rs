//! Times the library against other Rust on the same inputs, side by side, and prints tables in
//! Markdown: blocks read, written and checked, against plain Rust; messages read and written and the
//! acts of both ends, against the model of tests/host; the master's acts on long messages, against the
//! same on a short one. Both sides are release builds; verdicts, words and bytes are compared in every
//! round.
//!
//! `bench [PART]`: without a part all four, otherwise `blocks`, `messages`, `acts` or `master` alone.

mod act_checks;
mod act_inputs;
mod act_tables;
mod acts;
mod fields;
mod inputs;
mod master;
mod messages;
mod model_side;
mod plain;
mod sides;
mod timing;

use fields::Walking;
use host::ffi::names::MINUS_ONE;
use inputs::Input;
use messages::{Reader, Writing, BEHIND, HEADERS};
use std::process::ExitCode;
use timing::{Row, Work};

const SIZES: [usize; 4] = [16, 200, 4_000, 60_000];
const ROUNDS: usize = 25;

/// The most that the reader may take of the plain reader's time, by data bytes.
const LIMITS: [(usize, f64); 4] = [(16, 1.0), (200, 0.3), (4_000, 0.12), (60_000, 0.12)];

const HEADING: &str = "| act | data bytes | library ns/byte | plain Rust ns/byte \
| memcpy ns/byte | ratio | spread | limit |";

fn limit_of(row: &Row) -> Option<f64> {
    let found = LIMITS.iter().find(|(size, _)| *size == row.size);
    found.filter(|_| row.act == "read").map(|(_, limit)| *limit)
}

fn print_row(row: &Row) {
    let verdict = match limit_of(row) {
        Some(limit) if row.ratio.median <= limit => format!("{limit:.2}, holds"),
        Some(limit) => format!("{limit:.2}, broken"),
        None => "-".to_string(),
    };
    println!(
        "| {} | {} | {:.3} | {:.3} | {:.3} | {} | {verdict} |",
        row.act,
        row.size,
        row.library,
        row.plain,
        row.copy,
        row.ratio.text(),
    );
}

fn processor() -> String {
    let text = std::fs::read_to_string("/proc/cpuinfo").unwrap_or_default();
    let line = text.lines().find(|line| line.starts_with("model name"));
    let name = line.and_then(|line| line.split(": ").nth(1));
    name.unwrap_or("unknown processor").to_string()
}

fn block_table() {
    println!(
        "ns per byte of the blocks, SB to CR; medians. Ratio: library by plain Rust, round by"
    );
    println!(
        "round. Buffers are used again as they are, not cleared. Data limit 99,994. The clock"
    );
    println!("is the thread's processor time, not wall time.");
    println!();
    println!("{HEADING}");
    println!("|---|---|---|---|---|---|---|---|");
    let mut broken = 0;
    for act in sides::ACTS {
        for size in SIZES {
            let input = Input::new(size);
            let row = timing::measure(act, &input, ROUNDS);
            print_row(&row);
            broken += usize::from(limit_of(&row).is_some_and(|limit| row.ratio.median > limit));
        }
    }
    println!();
    match broken {
        0 => println!("limits of the reader: all {} hold", LIMITS.len()),
        _ => println!("limits of the reader: {broken} of {} broken", LIMITS.len()),
    }
}

/// The rows of one reading function on messages with the same first bytes. Gives the medians of
/// the time with bytes behind by that with none.
fn print_reader(reader: &Reader) -> Vec<f64> {
    let mut readings = BEHIND.map(|behind| reader.with_behind(behind));
    let mut works: Vec<&mut dyn Work> = Vec::new();
    for reading in &mut readings {
        works.push(reading);
    }
    let times = timing::rounds(&mut works, ROUNDS);
    let mut medians = Vec::new();
    for (behind, rounds) in BEHIND.iter().zip(&times) {
        let growth = timing::ratio(&rounds.library, &times[0].library);
        medians.push(growth.median);
        let growth = match behind {
            0 => "1 | -".to_string(),
            _ => growth.text(),
        };
        println!(
            "| {} | {} | {behind} | {:.2} | {:.2} | {} | {growth} |",
            reader.act,
            reader.length(),
            timing::median(&rounds.library),
            timing::median(&rounds.model),
            timing::ratio(&rounds.library, &rounds.model).text(),
        );
    }
    medians.split_off(1)
}

fn reader_table() {
    println!(
        "Messages read: ns per call; medians. To read: the bytes of the first segment, or of an"
    );
    println!("answer's two. Behind: the bytes of further segments. Ratio: library by the model of");
    println!(
        "tests/host. Last: library by library on the same first bytes with nothing behind, round"
    );
    println!("by round.");
    println!();
    println!(
        "| act | to read | behind | library ns | model ns | ratio | spread \
         | by nothing behind | spread |"
    );
    println!("|---|---|---|---|---|---|---|---|---|");
    let mut medians = Vec::new();
    for length in HEADERS {
        medians.extend(print_reader(&Reader::header(length)));
    }
    medians.extend(print_reader(&Reader::answer()));
    let all = timing::spread(medians);
    println!();
    println!(
        "with bytes behind by nothing behind: medians from {:.3} to {:.3}",
        all.least, all.most
    );
}

fn writer_table() {
    println!("Messages written: ns per call; medians.");
    println!();
    println!("| act | message bytes | library ns | model ns | ratio | spread |");
    println!("|---|---|---|---|---|---|");
    let writings = [
        Writing::answers(2, 2),
        Writing::answers(20, 15),
        Writing::controls(0),
        Writing::controls(MINUS_ONE),
    ];
    for mut writing in writings {
        let times = timing::rounds(&mut [&mut writing], ROUNDS);
        println!(
            "| {} | {} | {:.2} | {:.2} | {} |",
            writing.act,
            writing.length,
            timing::median(&times[0].library),
            timing::median(&times[0].model),
            timing::ratio(&times[0].library, &times[0].model).text(),
        );
    }
}

fn field_table() {
    println!(
        "Messages read field by field with gmv_field_next: ns per call, which gives one field;"
    );
    println!("medians. Fields: of the messages, on average.");
    println!();
    println!("| act | message bytes | fields | library ns | model ns | ratio | spread |");
    println!("|---|---|---|---|---|---|---|");
    for length in fields::LENGTHS {
        let mut walking = Walking::new(length);
        let times = timing::rounds(&mut [&mut walking], ROUNDS);
        println!(
            "| gmv_field_next | {length} | {:.0} | {:.2} | {:.2} | {} |",
            walking.fields(),
            timing::median(&times[0].library),
            timing::median(&times[0].model),
            timing::ratio(&times[0].library, &times[0].model).text(),
        );
    }
}

fn message_tables() {
    messages::compare_sides();
    fields::compare_sides();
    reader_table();
    println!();
    field_table();
    println!();
    writer_table();
}

fn end_tables() {
    act_checks::compare_sides();
    act_tables::print(ROUNDS);
}

fn master_table() {
    master::print(ROUNDS);
}

/// The parts, in the order in which they run.
const PARTS: [(&str, fn()); 4] = [
    ("blocks", block_table),
    ("messages", message_tables),
    ("acts", end_tables),
    ("master", master_table),
];

fn main() -> ExitCode {
    let only = std::env::args().nth(1);
    let wanted = |name: &str| only.as_deref().is_none_or(|only| only == name);
    if !PARTS.iter().any(|(name, _)| wanted(name)) {
        eprintln!("usage: bench [blocks|messages|acts|master]");
        return ExitCode::from(2);
    }
    println!(
        "Processor: {}. {ROUNDS} rounds after a warm-up, the two sides in turn.",
        processor()
    );
    let parts = PARTS.into_iter().filter(|(name, _)| wanted(name));
    for (index, (_, print)) in parts.enumerate() {
        if index > 0 {
            println!();
        }
        print();
    }
    ExitCode::SUCCESS
}
