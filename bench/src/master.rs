//! The master's acts on long messages by the same acts on a short one: an act's time does not depend on
//! the message's length. Both sides are the library.

use crate::timing::{self, Work};
use std::hint::black_box;

/// The short message, and the long ones.
const SHORT: u64 = 1_000;
const LENGTHS: [u64; 3] = [1_000_000, 1 << 40, u64::MAX];

/// The most that an act on a long message may take of its time on the short one.
const LIMIT: f64 = 2.0;

const BLOCK_SIZE: u64 = 245;
const CALLS: usize = 5_000;

const STATE_WORDS: usize = 10;
const REPORT_WORDS: usize = 10;
const REPORT_SEND: usize = 0;
const REPORT_DONE: usize = 6;
const REPORT_END: usize = 7;
const IDLE: u64 = 1;
const WAITING: u64 = 2;
const ACK: u64 = 1;
const NAK: u64 = 2;
const RINT: u64 = 5;

/// The last four words: the last reply, whether a RINT came, whether ENQ was sent last, whether the
/// driver may receive.
const AFTER_ACK: [u64; 4] = [ACK, 0, 0, 0];
const AFTER_RINT: [u64; 4] = [RINT, 1, 0, 0];
const MAY_RECEIVE: [u64; 4] = [ACK, 1, 0, 1];

mod raw {
    extern "C" {
        pub fn gmv_master_start(
            message_length: usize,
            block_size: u64,
            state: *mut u64,
            state_words: usize,
            report: *mut u64,
            report_words: usize,
        ) -> u64;
        pub fn gmv_master_reply(
            reply: u64,
            number: u64,
            state: *mut u64,
            state_words: usize,
            report: *mut u64,
            report_words: usize,
        ) -> u64;
        pub fn gmv_master_timer(
            state: *mut u64,
            state_words: usize,
            report: *mut u64,
            report_words: usize,
        ) -> u64;
        pub fn gmv_master_enquire(
            state: *mut u64,
            state_words: usize,
            report: *mut u64,
            report_words: usize,
        ) -> u64;
        pub fn gmv_master_may_receive(
            state: *mut u64,
            state_words: usize,
            report: *mut u64,
            report_words: usize,
        ) -> u64;
    }
}

#[derive(Clone, Copy, PartialEq, Eq)]
enum Step {
    Start,
    Acknowledged,
    Done,
    Nak,
    Rint,
    Refused,
    Reversed,
    Timer,
    Failed,
    Enquiry,
    Leave,
}

const STEPS: [(Step, &str); 11] = [
    (Step::Start, "gmv_master_start"),
    (Step::Acknowledged, "gmv_master_reply, an ACK"),
    (Step::Done, "gmv_master_reply, the last ACK"),
    (Step::Nak, "gmv_master_reply, a NAK"),
    (Step::Rint, "gmv_master_reply, a RINT"),
    (Step::Refused, "gmv_master_reply, a RINT after a RINT"),
    (Step::Reversed, "gmv_master_reply, an ACK that reverses"),
    (Step::Timer, "gmv_master_timer"),
    (Step::Failed, "gmv_master_timer, the sixth"),
    (Step::Enquiry, "gmv_master_enquire"),
    (Step::Leave, "gmv_master_may_receive"),
];

/// An act on a message of one length: the words it begins from, and those it left.
#[repr(align(64))]
struct Side {
    step: Step,
    length: u64,
    before: [u64; STATE_WORDS],
    state: [u64; STATE_WORDS],
    report: [u64; REPORT_WORDS],
}

impl Side {
    fn new(step: Step, length: u64) -> Side {
        let first = match step {
            Step::Start => [IDLE, 0, 0, 0, 0, 2],
            Step::Done => [WAITING, length, BLOCK_SIZE, length - 1, 0, 2],
            Step::Failed => [WAITING, length, BLOCK_SIZE, 0, 5, 2],
            _ => [WAITING, length, BLOCK_SIZE, 0, 0, 2],
        };
        let last = match step {
            Step::Refused | Step::Leave => AFTER_RINT,
            Step::Reversed => MAY_RECEIVE,
            _ => AFTER_ACK,
        };
        let mut before = [0; STATE_WORDS];
        before[..first.len()].copy_from_slice(&first);
        before[first.len()..].copy_from_slice(&last);
        Side {
            step,
            length,
            before,
            state: before,
            report: [0; REPORT_WORDS],
        }
    }

    fn act(&mut self) -> u64 {
        let length = black_box(self.length) as usize;
        let state = self.state.as_mut_ptr();
        let report = self.report.as_mut_ptr();
        // SAFETY: both pointers have memory for the words that are passed with them.
        unsafe {
            match self.step {
                Step::Start => raw::gmv_master_start(
                    length,
                    BLOCK_SIZE,
                    state,
                    STATE_WORDS,
                    report,
                    REPORT_WORDS,
                ),
                Step::Acknowledged | Step::Done | Step::Reversed => {
                    raw::gmv_master_reply(ACK, 3, state, STATE_WORDS, report, REPORT_WORDS)
                }
                Step::Nak => {
                    raw::gmv_master_reply(NAK, 0, state, STATE_WORDS, report, REPORT_WORDS)
                }
                Step::Rint | Step::Refused => {
                    raw::gmv_master_reply(RINT, 0, state, STATE_WORDS, report, REPORT_WORDS)
                }
                Step::Timer | Step::Failed => {
                    raw::gmv_master_timer(state, STATE_WORDS, report, REPORT_WORDS)
                }
                Step::Enquiry => raw::gmv_master_enquire(state, STATE_WORDS, report, REPORT_WORDS),
                Step::Leave => {
                    raw::gmv_master_may_receive(state, STATE_WORDS, report, REPORT_WORDS)
                }
            }
        }
    }

    fn act_all(&mut self) {
        for _ in 0..CALLS {
            self.state = black_box(self.before);
            assert_eq!(self.act(), 0);
        }
    }

    /// What the act is to leave: a block, EOT or ENQ to send, the message done, or the opening ended.
    fn did_its_work(&self) -> bool {
        let sends = match self.step {
            Step::Done | Step::Leave => 0,
            Step::Failed | Step::Reversed => 2,
            Step::Enquiry => 3,
            _ => 1,
        };
        let end = match self.step {
            Step::Failed => 1,
            Step::Reversed => 4,
            _ => 0,
        };
        self.report[REPORT_SEND] == sends
            && (self.report[REPORT_DONE] == 1) == (self.step == Step::Done)
            && self.report[REPORT_END] == end
    }
}

struct TwoLengths {
    long: Side,
    short: Side,
}

impl Work for TwoLengths {
    fn calls(&self) -> usize {
        CALLS
    }

    fn library(&mut self) {
        self.long.act_all();
    }

    fn model(&mut self) {
        self.short.act_all();
    }

    fn compare(&self) {
        assert!(self.long.did_its_work() && self.short.did_its_work());
    }
}

const TEXT: &str = "\
The master's acts on messages of so many bytes, in blocks of 245, by the same act on a short one of
1,000: ns per call; medians. Each call begins from words that are copied anew, which is timed on both
sides.

| act of the master | message bytes | library ns | short ns | ratio | spread | limit |
|---|---|---|---|---|---|---|";

pub fn print(rounds: usize) {
    println!("{TEXT}");
    let mut broken = 0;
    for (step, name) in STEPS {
        for length in LENGTHS {
            let mut work = TwoLengths {
                long: Side::new(step, length),
                short: Side::new(step, SHORT),
            };
            let times = timing::rounds(&mut [&mut work], rounds);
            let ratio = timing::ratio(&times[0].library, &times[0].model);
            let holds = ratio.median <= LIMIT;
            broken += usize::from(!holds);
            println!(
                "| {name} | {length} | {:.2} | {:.2} | {} | {LIMIT:.2}, {} |",
                timing::median(&times[0].library),
                timing::median(&times[0].model),
                ratio.text(),
                if holds { "holds" } else { "broken" },
            );
        }
    }
    println!();
    match broken {
        0 => println!(
            "limits of the master: all {} hold",
            STEPS.len() * LENGTHS.len()
        ),
        _ => println!(
            "limits of the master: {broken} of {} broken",
            STEPS.len() * LENGTHS.len()
        ),
    }
}
