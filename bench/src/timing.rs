//! Rounds of timing, the two sides in turn.

use crate::inputs::Input;
use crate::sides::Side;

const WARM_UP: usize = 3;

/// A median and how far the rounds lie apart.
pub struct Spread {
    pub median: f64,
    pub least: f64,
    pub most: f64,
}

impl Spread {
    /// The median and the spread, as two cells of a table.
    pub fn text(&self) -> String {
        let Spread {
            median,
            least,
            most,
        } = self;
        format!("{median:.3} | {least:.3} to {most:.3}")
    }
}

/// One row of the table of blocks: medians in ns per byte, and the ratio of library and plain Rust.
pub struct Row {
    pub act: &'static str,
    pub size: usize,
    pub library: f64,
    pub plain: f64,
    pub copy: f64,
    pub ratio: Spread,
}

pub fn spread(mut values: Vec<f64>) -> Spread {
    values.sort_by(f64::total_cmp);
    Spread {
        median: values[values.len() / 2],
        least: values[0],
        most: values[values.len() - 1],
    }
}

/// Seconds and nanoseconds, as C has them.
#[repr(C)]
struct Timespec {
    seconds: i64,
    nanoseconds: i64,
}

extern "C" {
    fn clock_gettime(clock: i32, time: *mut Timespec) -> i32;
}

/// The clock of the time that this thread has had on a processor. On a shared machine it leaves
/// out the time of others.
const THREAD_CLOCK: i32 = 3;

fn now() -> f64 {
    let mut time = Timespec {
        seconds: 0,
        nanoseconds: 0,
    };
    // SAFETY: the pointer has memory for one time.
    let status = unsafe { clock_gettime(THREAD_CLOCK, &mut time) };
    assert_eq!(status, 0, "no clock");
    time.seconds as f64 * 1e9 + time.nanoseconds as f64
}

fn nanoseconds(work: impl FnOnce()) -> f64 {
    let begun = now();
    work();
    now() - begun
}

/// Times one act on one input. Which side begins changes from round to round.
pub fn measure(act: &'static str, input: &Input, rounds: usize) -> Row {
    let mut library_side = Side::new(input);
    let mut plain_side = Side::new(input);
    let (mut library, mut plain, mut copy) = (Vec::new(), Vec::new(), Vec::new());
    for round in 0..WARM_UP + rounds {
        let library_first = round % 2 == 0;
        let mut library_time = 0.0;
        if library_first {
            library_time = nanoseconds(|| library_side.library(act, input));
        }
        let plain_time = nanoseconds(|| plain_side.plain(act, input));
        if !library_first {
            library_time = nanoseconds(|| library_side.library(act, input));
        }
        compare(act, input, &library_side, &plain_side);
        let copy_time = nanoseconds(|| plain_side.copy(input));
        if round >= WARM_UP {
            library.push(library_time / input.timed_bytes() as f64);
            plain.push(plain_time / input.timed_bytes() as f64);
            copy.push(copy_time / input.timed_bytes() as f64);
        }
    }
    Row {
        act,
        size: input.size,
        ratio: ratio(&library, &plain),
        library: median(&library),
        plain: median(&plain),
        copy: median(&copy),
    }
}

/// Something that both sides do, so many calls long; each side leaves its results for comparison.
pub trait Work {
    fn calls(&self) -> usize;
    fn library(&mut self);
    fn model(&mut self);
    fn compare(&self);
}

/// ns per call of both sides, round by round.
#[derive(Clone, Default)]
pub struct Rounds {
    pub library: Vec<f64>,
    pub model: Vec<f64>,
}

/// So many turns of each work make a round: the machine's speed changes, and works are compared.
const TURNS: usize = 20;

/// Times some works in the same rounds, turn by turn. Which side begins, and which work, changes
/// from turn to turn.
pub fn rounds(works: &mut [&mut dyn Work], rounds: usize) -> Vec<Rounds> {
    let mut times = vec![Rounds::default(); works.len()];
    for round in 0..WARM_UP + rounds {
        let mut sums = vec![[0.0; 2]; works.len()];
        for turn in 0..TURNS {
            for index in 0..works.len() {
                let index = (index + turn) % works.len();
                let [library, model] = one_turn(works[index], turn % 2 == 0);
                sums[index][0] += library / TURNS as f64;
                sums[index][1] += model / TURNS as f64;
            }
        }
        if round >= WARM_UP {
            for (times, [library, model]) in times.iter_mut().zip(sums) {
                times.library.push(library);
                times.model.push(model);
            }
        }
    }
    times
}

fn one_turn(work: &mut dyn Work, library_first: bool) -> [f64; 2] {
    let calls = work.calls() as f64;
    let mut library = 0.0;
    if library_first {
        library = nanoseconds(|| work.library());
    }
    let model = nanoseconds(|| work.model());
    if !library_first {
        library = nanoseconds(|| work.library());
    }
    work.compare();
    [library / calls, model / calls]
}

pub fn median(values: &[f64]) -> f64 {
    spread(values.to_vec()).median
}

/// The ratio of two lists of times, round by round.
pub fn ratio(times: &[f64], others: &[f64]) -> Spread {
    let ratios = times.iter().zip(others).map(|(left, right)| left / right);
    spread(ratios.collect())
}

/// Both sides must have given the same verdicts, one accepted one for each block, or the same
/// bytes.
fn compare(act: &str, input: &Input, library: &Side, plain: &Side) {
    if act == "write" {
        assert!(
            library.output == input.stream,
            "the library writes other bytes"
        );
        assert!(
            plain.output == input.stream,
            "plain Rust writes other bytes"
        );
        return;
    }
    assert_eq!(library.verdicts, plain.verdicts, "the verdicts differ");
    assert_eq!(library.verdicts.len(), input.contents.len());
    let good = |verdict: &crate::plain::Verdict| {
        verdict.number == 0 && verdict.data_length == input.size as u64
    };
    assert!(library.verdicts.iter().all(good), "a good block is refused");
}
