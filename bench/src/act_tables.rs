//! The tables of the acts of both ends: against the model, each act by the same act in a first
//! state, and submitting by the length of the message.

use crate::act_inputs::{
    self, data_block, perform, SenderState, CALLS, FEWEST, LARGEST_SENT, LIMIT, MIDDLE,
};
use crate::acts::{
    ControlWork, ReceiverCall, ReceiverStep, ReceiverWork, SenderCall, SenderWork, Step,
};
use crate::timing::{self, Work};
use host::ends_ffi::names::{RESENDS_DEFAULT, SENDER_DELIVERED, SENDER_LAST};
use host::ffi::names::MINUS_ONE;
use host::model::{Layer, Settings};
use host::prng::Random;
use host::sender_model::Act;

/// How many acts come before the timed one, besides the fewest.
const HISTORIES: [usize; 3] = [10, 1_000, 100_000];

/// Message lengths; the first is that of a request with its header and little more.
const LENGTHS: [usize; 4] = [60, 600, 6_000, 60_000];

/// r, and the sends made before the timed act.
const RESENDS: [(u64, usize); 5] = [(0, 1), (3, 1), (99, 1), (99, 99), (99, 100)];

const STEPS: [(Step, &str); 7] = [
    (Step::Submit, "gmv_sender_submit"),
    (Step::Open, "gmv_sender_open"),
    (Step::Ended, "gmv_sender_ended"),
    (Step::Reset, "gmv_sender_reset"),
    (Step::Timer, "gmv_sender_timer"),
    (Step::Answer, "gmv_sender_block, an answer"),
    (Step::Nak, "gmv_sender_block, an N block"),
];

/// Calls of one act from states of one kind: what the states are, the bytes that an act is given, how
/// many of them the act has to look at, and how many it writes.
struct Variant {
    label: String,
    given: usize,
    read: usize,
    written: usize,
    work: Box<dyn Work>,
}

fn hybrid(limit: u64) -> Settings {
    Settings::hybrid(0x0B, 0x1C, limit)
}

/// The receiver's act on a kind of link.
fn receiver_name(step: ReceiverStep, settings: &Settings) -> &'static str {
    match (step, settings.layer) {
        (ReceiverStep::Decide, _) => "gmv_receiver_decide",
        (ReceiverStep::Answer, Layer::Hybrid) => "gmv_hybrid_answer",
        (ReceiverStep::Answer, Layer::Minimal) => "gmv_minimal_answer",
        (ReceiverStep::Nak, _) => "gmv_hybrid_nak",
        (ReceiverStep::Both, Layer::Hybrid) => "decision and report, hybrid",
        (ReceiverStep::Both, Layer::Minimal) => "decision and report, minimal",
    }
}

/// First numbers of histories that are apart by a step.
fn firsts(from: u64, step: u64) -> Vec<u64> {
    (0..CALLS).map(|index| from + index * step).collect()
}

/// First numbers by where in the range they lie.
fn first_numbers() -> [(&'static str, Vec<u64>); 2] {
    [
        ("numbers from 1", firsts(1, 1)),
        (
            "numbers to 999,999,999,999,998",
            firsts(LARGEST_SENT - CALLS, 1),
        ),
    ]
}

/// States in which a transaction waits and was sent once, and what they are.
struct Beginning {
    label: String,
    states: Vec<SenderState>,
}

/// A timed act has so many acts before it, of which its own kind makes the last.
fn beginning(label: String, firsts: &[u64], acts: usize) -> Beginning {
    let states = firsts
        .iter()
        .map(|&first| act_inputs::sender_after(first, acts - 1));
    Beginning {
        label,
        states: states.collect(),
    }
}

fn beginnings() -> Vec<Beginning> {
    let middle = firsts(MIDDLE, 1_000_000);
    let mut list = vec![beginning("first state".to_string(), &middle, FEWEST)];
    for acts in HISTORIES {
        list.push(beginning(format!("{acts} acts before"), &middle, acts));
    }
    for (label, firsts) in first_numbers() {
        list.push(beginning(label.to_string(), &firsts, FEWEST));
    }
    list
}

/// The last act before the timed one: it brings about a state in which that one applies.
fn prepare(step: Step, state: &SenderState) -> SenderState {
    let mut state = *state;
    match step {
        Step::Submit => {
            let data = act_inputs::right_answer(&state, 0);
            perform(&mut state, &data_block(RESENDS_DEFAULT, &data));
        }
        Step::Open => perform(&mut state, &Act::Ended),
        Step::Reset => {
            let number = (state[SENDER_DELIVERED] + 1).to_string();
            let data = act_inputs::answer(&number, "AR", "-1", 0);
            perform(&mut state, &data_block(RESENDS_DEFAULT, &data));
        }
        Step::Ended | Step::Timer | Step::Answer | Step::Nak => {
            let resends = RESENDS_DEFAULT;
            perform(&mut state, &Act::Timer { resends });
        }
    }
    state
}

/// What an act is given in this state: a message of so many bytes, an answer with segments behind it
/// up to so many, or the data of an N block.
fn bytes(step: Step, state: &SenderState, length: usize) -> Vec<u8> {
    match step {
        Step::Submit => act_inputs::request(state[SENDER_LAST] + 1, length),
        Step::Answer => act_inputs::right_answer(state, length),
        Step::Nak => b"X".to_vec(),
        Step::Open | Step::Ended | Step::Reset | Step::Timer => Vec::new(),
    }
}

/// How many bytes an act looks at: the two segments of an answer; all of a submitted message, and its
/// first segment once more.
fn read_bytes(step: Step, bytes: &[u8]) -> usize {
    match step {
        Step::Answer => segments(bytes, 2),
        Step::Submit => bytes.len() + segments(bytes, 1),
        _ => 0,
    }
}

/// The bytes of the first so many segments.
fn segments(bytes: &[u8], count: usize) -> usize {
    let ends = bytes.iter().enumerate().filter(|(_, &byte)| byte == 0x0D);
    ends.map(|(index, _)| index + 1).nth(count - 1).unwrap_or(0)
}

/// The calls of one act from states that are ready for it.
fn sender_variant(
    label: String,
    step: Step,
    resends: u64,
    states: Vec<SenderState>,
    length: usize,
) -> Variant {
    let calls = states.into_iter().map(|state| SenderCall {
        step,
        resends,
        bytes: bytes(step, &state, length),
        state,
    });
    let calls: Vec<SenderCall> = calls.collect();
    let read = read_bytes(step, &calls[0].bytes);
    let work = SenderWork::new(calls);
    Variant {
        label,
        given: work.length(),
        read,
        written: 0,
        work: Box::new(work),
    }
}

fn prepared(step: Step, beginning: &Beginning) -> Vec<SenderState> {
    let states = beginning.states.iter();
    states.map(|state| prepare(step, state)).collect()
}

/// The same states after so many sends in all of what waits.
fn with_sends(beginning: &Beginning, sends: usize) -> Vec<SenderState> {
    let mut states = beginning.states.clone();
    for state in &mut states {
        for _ in 1..sends {
            perform(state, &Act::Timer { resends: 99 });
        }
    }
    states
}

/// All variants of one of the sender's acts; the first state comes first.
fn sender_variants(step: Step, beginnings: &[Beginning]) -> Vec<Variant> {
    let mut variants = Vec::new();
    let length = if step == Step::Submit { LENGTHS[0] } else { 0 };
    for beginning in beginnings {
        let states = prepared(step, beginning);
        let label = beginning.label.clone();
        variants.push(sender_variant(label, step, RESENDS_DEFAULT, states, length));
    }
    if matches!(step, Step::Timer | Step::Answer | Step::Nak) {
        for (resends, sends) in RESENDS {
            let label = format!("r of {resends}, {sends} sent before");
            let states = with_sends(&beginnings[0], sends);
            variants.push(sender_variant(label, step, resends, states, length));
        }
    }
    if step == Step::Answer {
        for length in &LENGTHS[1..] {
            let states = prepared(step, &beginnings[0]);
            let label = "further segments".to_string();
            variants.push(sender_variant(
                label,
                step,
                RESENDS_DEFAULT,
                states,
                *length,
            ));
        }
    }
    variants
}

/// Acts on requests of so many bytes that are due after so many others.
#[derive(Clone, Copy)]
struct Receiving {
    step: ReceiverStep,
    settings: Settings,
    acts: usize,
    length: usize,
}

/// A receiver's calls: a decision is made from a state with none open, a report with the one on the
/// request that is due.
fn receiver_variant(label: String, firsts: &[u64], receiving: Receiving) -> Variant {
    let Receiving {
        step,
        settings,
        acts,
        length,
    } = receiving;
    let calls = firsts.iter().map(|&first| {
        let state = act_inputs::receiver_after(&settings, first, acts);
        let data = act_inputs::request(state[0], length);
        let state = match step {
            ReceiverStep::Answer => act_inputs::receiver_decided(&state, &data),
            _ => state,
        };
        ReceiverCall { state, data }
    });
    let calls: Vec<ReceiverCall> = calls.collect();
    let is_deciding = matches!(step, ReceiverStep::Decide | ReceiverStep::Both);
    let (given, read) = match is_deciding {
        true => (calls[0].data.len(), segments(&calls[0].data, 1)),
        false => (0, 0),
    };
    let mut work = ReceiverWork::new(settings, step, calls);
    work.library();
    Variant {
        label,
        given,
        read,
        written: work.reply_length() as usize,
        work: Box::new(work),
    }
}

/// The receiver's act in a first state.
fn first_receiving(step: ReceiverStep, settings: Settings) -> Receiving {
    Receiving {
        step,
        settings,
        acts: 1,
        length: LENGTHS[0],
    }
}

/// All variants of one of the receiver's acts; the first state comes first.
fn receiver_variants(step: ReceiverStep, settings: Settings) -> Vec<Variant> {
    let middle = firsts(MIDDLE, 1_000_000);
    let first = first_receiving(step, settings);
    let mut variants = vec![receiver_variant("first state".to_string(), &middle, first)];
    for acts in HISTORIES {
        let label = format!("{acts} acts before");
        variants.push(receiver_variant(
            label,
            &middle,
            Receiving { acts, ..first },
        ));
    }
    for (label, firsts) in first_numbers() {
        variants.push(receiver_variant(label.to_string(), &firsts, first));
    }
    if step == ReceiverStep::Decide {
        for length in LENGTHS.into_iter().skip(1) {
            let label = "further segments".to_string();
            variants.push(receiver_variant(
                label,
                &middle,
                Receiving { length, ..first },
            ));
        }
        return variants;
    }
    let settings = Settings {
        limit: 128,
        ..settings
    };
    let label = "data limit 128".to_string();
    variants.push(receiver_variant(
        label,
        &middle,
        Receiving { settings, ..first },
    ));
    variants
}

fn measure(variants: &mut [Variant], rounds: usize) -> Vec<timing::Rounds> {
    let mut works: Vec<&mut dyn Work> = Vec::new();
    for variant in variants {
        works.push(variant.work.as_mut());
    }
    timing::rounds(&mut works, rounds)
}

/// Medians of the ratio to the first state: of acts that read and write as many bytes as there; and of
/// the others, divided by the ratio of those bytes.
#[derive(Default)]
struct Growth {
    same_bytes: Vec<f64>,
    by_bytes: Vec<f64>,
}

impl Growth {
    fn add(&mut self, median: f64, bytes: f64) {
        if bytes == 1.0 {
            self.same_bytes.push(median);
        } else {
            self.by_bytes.push(median / bytes);
        }
    }

    fn print(self) {
        let parts = [
            ("as many bytes", self.same_bytes),
            ("other bytes, divided by bytes by the first", self.by_bytes),
        ];
        for (what, medians) in parts {
            let count = medians.len();
            let all = timing::spread(medians);
            let (least, most) = (all.least, all.most);
            println!("by the first, {what}: {count} medians from {least:.3} to {most:.3}");
        }
    }
}

/// The bytes that an act reads and writes by those of another.
fn bytes_ratio(variant: &Variant, first: &Variant) -> f64 {
    match first.read + first.written {
        0 => 1.0,
        bytes => (variant.read + variant.written) as f64 / bytes as f64,
    }
}

/// The rows of one act, measured in the same rounds.
fn print_variants(act: &str, mut variants: Vec<Variant>, rounds: usize, growth: &mut Growth) {
    let times = measure(&mut variants, rounds);
    for (index, (variant, rounds)) in variants.iter().zip(&times).enumerate() {
        let by_first = timing::ratio(&rounds.library, &times[0].library);
        let bytes = bytes_ratio(variant, &variants[0]);
        let mut text = "1 | -".to_string();
        if index > 0 {
            text = by_first.text();
            growth.add(by_first.median, bytes);
        }
        println!(
            "| {act} | {} | {} | {} | {} | {:.2} | {:.2} | {text} | {bytes:.3} |",
            variant.label,
            variant.given,
            variant.read,
            variant.written,
            timing::median(&rounds.library),
            timing::median(&rounds.model),
        );
    }
}

const GROWTH_TEXT: &str = "\
Each act by the same act of the library in a first state: ns per call; medians. Given: the bytes
of the message or of the block's data; read: those that the act has to look at (submitting: all, and
the first segment again); written: those of the reply. First state: the fewest acts before it (4; a
receiver: 1 transaction stored), numbers of 12 digits, r of 3, data limit 99,994. Each other row
changes one thing.

| act | state | given | read | written | library ns | model ns | by the first | spread \
| bytes by the first |
|---|---|---|---|---|---|---|---|---|---|";

fn growth_table(rounds: usize) {
    println!("{GROWTH_TEXT}");
    let mut growth = Growth::default();
    let minimal = Settings::minimal(LIMIT);
    for (step, settings) in [
        (ReceiverStep::Decide, hybrid(LIMIT)),
        (ReceiverStep::Answer, hybrid(LIMIT)),
        (ReceiverStep::Answer, minimal),
        (ReceiverStep::Nak, hybrid(LIMIT)),
    ] {
        let variants = receiver_variants(step, settings);
        print_variants(
            receiver_name(step, &settings),
            variants,
            rounds,
            &mut growth,
        );
    }
    let beginnings = beginnings();
    for (step, name) in STEPS {
        let variants = sender_variants(step, &beginnings);
        print_variants(name, variants, rounds, &mut growth);
    }
    println!();
    growth.print();
}

/// One row against the model.
fn print_ratio(act: &str, variant: Variant, rounds: usize) {
    let mut variants = [variant];
    let times = measure(&mut variants, rounds);
    let variant = &variants[0];
    println!(
        "| {act} | {} | {} | {:.2} | {:.2} | {} |",
        variant.given,
        variant.written,
        timing::median(&times[0].library),
        timing::median(&times[0].model),
        timing::ratio(&times[0].library, &times[0].model).text(),
    );
}

fn control_variant(settings: Settings, number: u64) -> Variant {
    let mut random = Random::new(number);
    let mut letter = || random.between(b'A'.into(), b'Z'.into()) as u8;
    let types = (0..CALLS).map(|_| [letter(), letter(), letter()]);
    let work = ControlWork::new(settings, number, types.collect());
    Variant {
        label: String::new(),
        given: 3,
        read: 3,
        written: work.length as usize,
        work: Box::new(work),
    }
}

const RATIO_TEXT: &str = "\
Acts of both ends: ns per call; medians. Ratio: library by the model of tests/host. Given: the bytes
of the message, of the block's data or of the type; written: those of the block that is written. Each
call begins from words that are copied anew, which is timed on both sides.

| act | given | written | library ns | model ns | ratio | spread |
|---|---|---|---|---|---|---|";

fn ratio_table(rounds: usize) {
    println!("{RATIO_TEXT}");
    let (middle, minimal) = (firsts(MIDDLE, 1_000_000), Settings::minimal(LIMIT));
    for (step, settings) in [
        (ReceiverStep::Decide, hybrid(LIMIT)),
        (ReceiverStep::Answer, hybrid(LIMIT)),
        (ReceiverStep::Answer, minimal),
        (ReceiverStep::Nak, hybrid(LIMIT)),
        (ReceiverStep::Both, hybrid(LIMIT)),
        (ReceiverStep::Both, minimal),
    ] {
        let variant = receiver_variant(String::new(), &middle, first_receiving(step, settings));
        print_ratio(receiver_name(step, &settings), variant, rounds);
    }
    let first = beginning(String::new(), &firsts(MIDDLE, 1_000_000), FEWEST);
    for (step, name) in STEPS {
        let length = if step == Step::Submit { LENGTHS[0] } else { 0 };
        let states = prepared(step, &first);
        let variant = sender_variant(String::new(), step, RESENDS_DEFAULT, states, length);
        print_ratio(name, variant, rounds);
    }
    for number in [0, MINUS_ONE] {
        let variant = control_variant(hybrid(LIMIT), number);
        print_ratio("gmv_hybrid_control_block", variant, rounds);
        let variant = control_variant(Settings::minimal(LIMIT), number);
        print_ratio("gmv_minimal_control_block", variant, rounds);
    }
}

const SUBMIT_TEXT: &str = "\
Submitting looks at each byte of the message: ns per call and per byte; medians.

| message bytes | library ns | library ns/byte | model ns/byte | ratio | spread |
|---|---|---|---|---|---|";

fn submit_table(rounds: usize) {
    println!("{SUBMIT_TEXT}");
    let first = beginning(String::new(), &firsts(MIDDLE, 1_000_000), FEWEST);
    for length in LENGTHS {
        let states = prepared(Step::Submit, &first);
        let label = String::new();
        let variant = sender_variant(label, Step::Submit, RESENDS_DEFAULT, states, length);
        let times = measure(&mut [variant], rounds);
        let library = timing::median(&times[0].library);
        println!(
            "| {length} | {library:.2} | {:.3} | {:.3} | {} |",
            library / length as f64,
            timing::median(&times[0].model) / length as f64,
            timing::ratio(&times[0].library, &times[0].model).text(),
        );
    }
}

pub fn print(rounds: usize) {
    ratio_table(rounds);
    println!();
    growth_table(rounds);
    println!();
    submit_table(rounds);
}
