//! The night of slot 7: answers that an earlier run's receiver gave, and that reach the next run's
//! sender at its first circuit, or late.

use super::links::{acts, beginning};
use crate::compare::{Compare, Outcome};
use crate::link::{Beginning, Link};
use crate::link_deviation::{Deviation, Duty};
use crate::link_schedule::Weather;
use host::ends_ffi::names::{SENDER_DELIVERED, SEND_TRANSACTION};
use host::ffi::names::MINUS_ONE;
use host::model::Settings;
use host::prng::Random;

const NOT_EMPTIED: Deviation = Deviation::Without(Duty::EmptiesLines);
const LATE: Deviation = Deviation::Without(Duty::BringsNothingLate);
const NEITHER: Deviation = Deviation::WithoutBoth(Duty::Exchanges, Duty::EmptiesLines);
const NEITHER_LATE: Deviation = Deviation::WithoutBoth(Duty::Exchanges, Duty::BringsNothingLate);

/// An answer: the control ID that it answers, and MSA-4.
type Answer = (&'static str, u64);

const TO_MINUS_ONE: Answer = ("-1", MINUS_ONE);
const TO_ZERO: Answer = ("0", MINUS_ONE);
const TO_ONE: Answer = ("1", 1);

/// One result to be sent, under number 1, on either kind of line.
fn potassium(minimal: bool, old_expected: u64, deviation: Deviation) -> Result<Link, String> {
    Link::new(Beginning {
        settings: if minimal {
            Settings::minimal(4096)
        } else {
            Settings::hybrid(0x0B, 0x1C, 4096)
        },
        first: 1,
        resends: 3,
        log: vec![b"MSH|^~\\&|||||||ORU|1|P|2.3.1|1\rOBX|1|NM|K||6.1\r".to_vec()],
        old_expected,
        deviation,
    })
}

/// What the sender has named is written, and the line loses it.
fn write_and_lose(link: &mut Link) -> Outcome {
    link.sender_persists()?;
    link.sender_writes(0)?;
    link.forward.clear();
    Ok(())
}

/// 1 counts as delivered, and nobody has it; or it is delivered when it is received.
fn expect(link: &Link, old: &[Answer], outcome: &Outcome, holds: bool) -> Outcome {
    let delivered = link.sending.state[SENDER_DELIVERED];
    let received = link.receiving.transactions.len();
    if outcome.is_ok() != holds || delivered != 1 || received != usize::from(holds) {
        return Err(format!("{outcome:?}; {}", link.text()));
    }
    let ids: Vec<&str> = old.iter().map(|(id, _)| *id).collect();
    let deviation = link.deviation;
    println!("  {deviation:?}, old answers to {ids:?}: {received} received, 1 delivered");
    Ok(())
}

/// The exchange is made and number 1 is sent, and the line loses it. Then an earlier run's answer to
/// its own number 1 comes late. In the end the lines are good.
fn answered_late(link: &mut Link, random: &mut Random) -> Outcome {
    let answer = link.old_answer("1", 1)?;
    link.submit()?;
    link.open()?;
    while link.sending.waiting() != Some([SEND_TRANSACTION, 1]) {
        link.exchange(random)?;
    }
    write_and_lose(link)?;
    if !link.keeps(Duty::BringsNothingLate) {
        link.back.extend(answer);
    }
    link.takes_answer()?;
    link.deliver_all(random)
}

/// A late answer to number 1 delivers what nobody has received, whether the exchange was made or not;
/// where none comes late, all is delivered.
pub fn late_answer(compare: &mut Compare) -> Outcome {
    let cases = [
        (NEITHER_LATE, 0, false),
        (LATE, 2, false),
        (Deviation::Faithful, 2, true),
    ];
    for minimal in [false, true] {
        for (deviation, old_expected, holds) in cases {
            let mut link = potassium(minimal, old_expected, deviation)?;
            let outcome = answered_late(&mut link, &mut compare.random);
            expect(&link, &[TO_ONE], &outcome, holds)?;
        }
    }
    Ok(())
}

/// Old answers are on the line when the first circuit is opened. Each message that the sender names is
/// lost, as long as such an answer comes. In the end the lines are good.
fn answered_at_once(link: &mut Link, old: &[Answer], random: &mut Random) -> Outcome {
    for &(id, number) in old {
        let block = link.old_answer(id, number)?;
        link.back.extend(block);
    }
    link.submit()?;
    link.open()?;
    for _ in old {
        write_and_lose(link)?;
        link.takes_answer()?;
    }
    link.deliver_all(random)
}

/// One old answer to 1 is on the line when the first circuit is opened, and both it and the answer to
/// the message that opens the circuit are read. The sender is told of the newer one first; 1 is lost.
fn answered_out_of_order(link: &mut Link, random: &mut Random) -> Outcome {
    link.back = link.old_answer("1", 1)?;
    link.submit()?;
    link.open()?;
    link.sender_reads(usize::MAX)?;
    link.request(random)?;
    link.sender_reads(usize::MAX)?;
    link.sender_acts(1)?;
    write_and_lose(link)?;
    link.sender_acts(0)?;
    link.deliver_all(random)
}

/// A first circuit that does not empty the line: two old answers, to the message that opens the circuit
/// and then to 1, deliver what nobody has received; so does one to -1 where the receiver expects the
/// earlier run's 2. One old answer to 1 alone does not where order is kept: it comes while the message
/// that opens the circuit waits. Where the line is emptied, all is delivered.
pub fn answer_of_earlier_run(compare: &mut Compare) -> Outcome {
    let cases: [(Deviation, u64, &[Answer], bool); 7] = [
        (NOT_EMPTIED, 0, &[TO_MINUS_ONE, TO_ONE], false),
        (NEITHER, 0, &[TO_ZERO, TO_ONE], false),
        (NOT_EMPTIED, 2, &[TO_MINUS_ONE], false),
        (NOT_EMPTIED, 0, &[TO_ONE], true),
        (NOT_EMPTIED, 2, &[TO_ONE], true),
        (NEITHER, 0, &[TO_ONE], true),
        (Deviation::Faithful, 2, &[TO_MINUS_ONE, TO_ONE], true),
    ];
    let random = &mut compare.random;
    for minimal in [false, true] {
        for (deviation, old_expected, old, holds) in cases {
            let mut link = potassium(minimal, old_expected, deviation)?;
            let outcome = answered_at_once(&mut link, old, random);
            expect(&link, old, &outcome, holds)?;
        }
        for deviation in [NOT_EMPTIED, NEITHER] {
            let mut link = potassium(minimal, 0, deviation)?;
            let outcome = answered_out_of_order(&mut link, random);
            expect(&link, &[TO_ONE], &outcome, false)?;
        }
    }
    Ok(())
}

/// In how many link runs one old answer does no harm, and in how many two are found.
const RUNS: usize = 20_000;

/// An old answer to the first number is on the line back, perhaps with one to the message that opens
/// the circuit in front of it.
fn leave(link: &mut Link, is_alone: bool) -> Outcome {
    if !is_alone {
        let is_fresh = link.keeps(Duty::Exchanges);
        let (id, number) = if is_fresh { TO_MINUS_ONE } else { TO_ZERO };
        link.back = link.old_answer(id, number)?;
    }
    let block = link.old_answer(&link.first.to_string(), link.first)?;
    link.back.extend(block);
    Ok(())
}

/// A link run that begins with old answers, and on which order is kept.
fn old_run(random: &mut Random, deviation: Deviation, is_alone: bool) -> Outcome {
    let mut link = Link::new(beginning(random, deviation))?;
    let weather = Weather::any(random, deviation).in_order();
    leave(&mut link, is_alone)?;
    acts(&mut link, random, &weather).map_err(|why| format!("{why}; {}", link.text()))
}

/// One old answer to the first number does no harm where order is kept, with and without the exchange:
/// no link run breaks what demand 3 says, though no circuit empties the line. With an old answer to the
/// message that opens the circuit in front of it, some do.
pub fn one_old_answer(compare: &mut Compare) -> Outcome {
    for (deviation, is_alone) in [
        (NOT_EMPTIED, true),
        (NEITHER, true),
        (NOT_EMPTIED, false),
        (NEITHER, false),
    ] {
        let failure = (1..=RUNS).find_map(|number| {
            let failure = old_run(&mut compare.random, deviation, is_alone).err();
            failure.map(|why| format!("link run {number}: {why}"))
        });
        println!("  {deviation:?}, one answer: {is_alone}: {failure:?}");
        if failure.is_none() != is_alone {
            return Err(format!("{deviation:?}: {failure:?}"));
        }
    }
    Ok(())
}
