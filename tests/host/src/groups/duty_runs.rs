//! The runs of crates/link_duties on the built library: for each duty of the hosts one that breaks what
//! demand 3 says without it, and with it does not.

use crate::compare::{Compare, Outcome};
use crate::link::{Beginning, Link};
use crate::link_deviation::{Deviation, Duty, DUTIES};
use crate::link_receiving::{Part, ReplyBuffer};
use host::ends_ffi::names::SENDER_DELIVERED;
use host::ffi::names::{CODE_AA, MINUS_ONE};
use host::model::Settings;

/// How many transactions the receiver has stored, and the last number that the sender holds and has
/// persisted as delivered: `ends` in crates/link_duties/proofs/Counterexamples.antt.
type Seen = [u64; 3];

fn seen(link: &Link) -> Seen {
    let (sending, receiving) = (&link.sending, &link.receiving);
    [
        receiving.transactions.len() as u64,
        sending.state[SENDER_DELIVERED],
        sending.persisted[SENDER_DELIVERED],
    ]
}

fn message(number: u64) -> Vec<u8> {
    format!("MSH|^~\\&|||||||ADT|{number}|P|2.3.1|{number}\r").into_bytes()
}

fn beginning(settings: Settings, duty: Duty, deviation: Deviation) -> Beginning {
    let expects_two = matches!(
        duty,
        Duty::Exchanges | Duty::DropsReplies | Duty::DropsVerdicts
    );
    Beginning {
        settings,
        first: 1,
        resends: 3,
        log: vec![message(1), message(2)],
        old_expected: if expects_two { 2 } else { 0 },
        deviation,
    }
}

impl Link {
    fn sends(&mut self) -> Outcome {
        self.sender_persists()?;
        self.sender_writes(0)
    }

    fn loses(&mut self) -> Outcome {
        self.sends()?;
        self.forward.clear();
        self.check()
    }

    fn reads(&mut self) -> Outcome {
        while !self.forward.is_empty() {
            self.receiver_reads(usize::MAX)?;
        }
        Ok(())
    }

    fn whole_buffer(&self) -> ReplyBuffer {
        let length = self.reply_need();
        ReplyBuffer { length, start: 0 }
    }

    fn decides(&mut self, index: usize) -> Outcome {
        let buffer = self.whole_buffer();
        self.receiver_takes(index, CODE_AA, buffer)
    }

    fn reports(&mut self, is_success: bool) -> Outcome {
        let buffer = self.whole_buffer();
        self.receiver_reports(is_success, buffer)
    }

    /// A block is decided on, and what the decision says is stored.
    fn stores(&mut self, index: usize) -> Outcome {
        self.decides(index)?;
        self.receiver_persists(Part::Both)
    }

    fn sends_and_decides(&mut self) -> Outcome {
        self.sends()?;
        self.reads()?;
        self.decides(0)
    }

    fn sends_and_stores(&mut self) -> Outcome {
        self.sends_and_decides()?;
        self.receiver_persists(Part::Both)
    }

    /// The report of success, and the answer is sent, read and taken.
    fn answers(&mut self) -> Outcome {
        self.reports(true)?;
        self.replies()?;
        self.takes_answer()
    }

    fn exchanges(&mut self) -> Outcome {
        self.sends_and_stores()?;
        self.answers()
    }

    /// A circuit on which the exchange for -1 was made and the first transaction is named.
    fn begins(&mut self) -> Outcome {
        self.submit()?;
        self.submit()?;
        self.open()?;
        self.exchanges()
    }

    /// Number 1 is submitted, and the message that opens the first circuit is named so many times.
    fn opens(&mut self, times: usize) -> Outcome {
        self.submit()?;
        self.open()?;
        (1..times).try_for_each(|_| self.timer())
    }
}

/// What an earlier run left, and what is late, and the acts after it.
fn run_of_lines(link: &mut Link, duty: Duty) -> Outcome {
    let to_minus_one = link.old_answer("-1", MINUS_ONE)?;
    let to_one = link.old_answer("1", 1)?;
    match duty {
        Duty::Exchanges => {
            link.opens(1)?;
            link.exchanges()
        }
        Duty::EmptiesLines => {
            link.back = [to_minus_one, to_one].concat();
            link.opens(1)?;
            link.loses()?;
            link.takes_answer()?;
            link.loses()?;
            link.takes_answer()
        }
        Duty::DropsReplies => {
            link.receiving.pending.push_back(to_minus_one);
            link.opens(1)?;
            link.loses()?;
            link.replies()?;
            link.takes_answer()?;
            link.exchanges()
        }
        Duty::DropsVerdicts => {
            link.back = to_minus_one;
            link.sender_reads(usize::MAX)?;
            link.opens(1)?;
            link.loses()?;
            link.sender_acts(0)?;
            link.exchanges()
        }
        _ => {
            link.begins()?;
            link.loses()?;
            if !link.keeps(duty) {
                link.back.extend(to_one);
            }
            link.takes_answer()
        }
    }
}

/// The order of requests: a second -1 comes behind 1, and 1 is stored again.
fn run_of_order(link: &mut Link, duty: Duty) -> Outcome {
    link.opens(2)?;
    let mut first = 0;
    if duty == Duty::WritesInOrder {
        link.exchanges()?;
        link.sender_persists()?;
        link.sender_writes(1)?;
        link.sender_writes(0)?;
    } else {
        // the second is refused while the first is open, and held
        link.sends()?;
        link.sends_and_decides()?;
        link.decides(0)?;
        link.receiver_persists(Part::Both)?;
        link.answers()?;
        link.sends()?;
        first = 1;
    }
    link.reads()?;
    link.stores(first)?;
    link.reports(true)?;
    link.stores(0)?;
    link.reports(true)?;
    link.timer()?;
    link.sends_and_stores()
}

/// What the sender persists, and what is dropped where it did not.
fn run_of_sender(link: &mut Link, duty: Duty) -> Outcome {
    link.begins()?;
    link.exchanges()?;
    if duty == Duty::DropsNamed {
        link.sender_crashes()?;
    }
    link.sender_writes(0)?;
    link.reads()?;
    link.stores(0)
}

/// What the receiver's host stores and what it reports, of 1.
fn run_of_reports(link: &mut Link, duty: Duty) -> Outcome {
    link.begins()?;
    if duty == Duty::Survives {
        link.exchanges()?;
        return if link.keeps(duty) {
            Ok(())
        } else {
            link.reverts(0)
        };
    }
    link.sends_and_decides()?;
    match duty {
        Duty::ReportsPersisted => return link.answers(),
        Duty::ReportsFailed => {
            link.receiver_persists(Part::Both)?;
            link.reports(false)?;
        }
        Duty::SettlesWrites => {
            link.reports(false)?;
            link.lands_late(0)?;
        }
        _ => {
            if !link.keeps(duty) {
                link.receiver_persists(Part::Transaction)?;
            }
            link.receiver_crashes()?;
        }
    }
    link.timer()?;
    link.sends_and_stores()
}

/// The report of -1, which came twice, when 1 is open.
fn run_of_report_kept(link: &mut Link) -> Outcome {
    link.opens(2)?;
    link.exchanges()?;
    link.sends_and_stores()?;
    link.receiver_crashes()?;
    link.sends_and_decides()?;
    link.answers()
}

/// A decision on the earlier run's 1, left open.
fn run_of_decision_kept(link: &mut Link) -> Outcome {
    if !link.keeps(Duty::DropsDecision) {
        link.leave_old_decision(message(1))?;
    }
    link.receiver_persists(Part::Both)?;
    link.reports(true)?;
    link.begins()?;
    link.sends_and_stores()
}

fn is_of_lines(duty: Duty) -> bool {
    matches!(
        duty,
        Duty::Exchanges
            | Duty::EmptiesLines
            | Duty::DropsReplies
            | Duty::DropsVerdicts
            | Duty::BringsNothingLate
    )
}

/// In the end 1 counts as delivered, and nobody has it.
fn ends_delivered(duty: Duty) -> bool {
    is_of_lines(duty) || matches!(duty, Duty::ReportsPersisted | Duty::DropsReports)
}

/// A check that finds the fault ends the run. Where 1 counts as delivered the sender then stores that.
fn run_of(link: &mut Link, duty: Duty) -> Outcome {
    let found = match duty {
        _ if is_of_lines(duty) => run_of_lines(link, duty),
        Duty::WritesInOrder | Duty::OffersInOrder => run_of_order(link, duty),
        Duty::SenderPersistsFirst | Duty::DropsNamed => run_of_sender(link, duty),
        Duty::DropsReports => run_of_report_kept(link),
        Duty::DropsDecision => run_of_decision_kept(link),
        _ => run_of_reports(link, duty),
    };
    if !ends_delivered(duty) {
        return found;
    }
    let stored = link.sender_persists();
    found.and(stored)
}

/// Where the run ends without the duty.
fn end_of(duty: Duty) -> Seen {
    match duty {
        _ if ends_delivered(duty) => [0, 1, 1],
        Duty::SenderPersistsFirst => [2, 1, 0],
        Duty::Survives => [0, 1, 0],
        _ => [2, 0, 0],
    }
}

/// Each run ends on the library where it ends in the model, and the checks find it; the same acts
/// break nothing where the duty is kept.
pub fn duty_runs(_: &mut Compare) -> Outcome {
    let kinds = [Settings::hybrid(0x0B, 0x1C, 128), Settings::minimal(128)];
    for (duty, name) in DUTIES {
        for settings in kinds {
            let without = Deviation::Without(duty);
            let mut link = Link::new(beginning(settings, duty, without))?;
            match run_of(&mut link, duty) {
                Err(why) if seen(&link) == end_of(duty) => println!("  {name} off: {why}"),
                other => return Err(format!("{name} off: {other:?}; {}", link.text())),
            }
            let mut link = Link::new(beginning(settings, duty, Deviation::Faithful))?;
            run_of(&mut link, duty).map_err(|why| format!("{name} on: {why}; {}", link.text()))?;
        }
    }
    Ok(())
}
