//! For each premise of the statement of document 02, §3 and §14, one run that breaks the sentences without
//! it, and for each wrong reading of §14 the shortest run that shows it; with the premise, or read rightly,
//! the same acts break nothing. Both stations are the built ones; where numbers restart, the master is the
//! model's, and a wrong reading is put over what the built one does.

use crate::compare::{Compare, Outcome};
use crate::stations_link::{Beginning, Link, MasterOf};
use crate::stations_plan::Plan;
use crate::stations_readings::Reading;
use crate::stations_units::{Back, Forward, LinkAct, Way};
use host::master_model::Numbering;

/// Where the premise is kept, what follows from the sentences is looked at too.
fn beginning(is_kept: bool) -> Beginning {
    Beginning {
        master_of: MasterOf::Library,
        reading: Reading::Right,
        capacity: 4,
        buffer_length: 16,
        answers_bids: false,
        with_corollaries: is_kept,
    }
}

/// The oldest unit comes to the slave.
const UNIT: LinkAct = LinkAct::UnitComes {
    index: 0,
    eot_instead: false,
};

/// The oldest reply comes to the master.
const REPLY: LinkAct = LinkAct::ReplyComes(0);

/// The oldest unit is lost.
const LOSS: LinkAct = LinkAct::Lose(Way::Forward, 0);

impl Link<'_> {
    /// The unit of this index comes to the slave, and the oldest reply to the master.
    fn exchange(&mut self, index: usize) -> Outcome {
        self.act(&LinkAct::UnitComes {
            index,
            eot_instead: false,
        })?;
        self.act(&REPLY)
    }

    /// The next message is started, and its first block acknowledged.
    fn start_and_exchange(&mut self) -> Outcome {
        self.act(&LinkAct::Start)?;
        self.exchange(0)
    }
}

/// The copy of block 1 that an early timer put on the line is overtaken by blocks 2 to 8 and then
/// accepted as block 9.
fn order(is_kept: bool) -> Outcome {
    let plan = Plan::of_letters(&[(9, 1)]);
    let mut link = Link::new(&plan, beginning(is_kept))?;
    for act in [LinkAct::SlaveOpens, LinkAct::Start, LinkAct::TimerA] {
        link.act(&act)?;
    }
    link.exchange(0)?;
    for _ in 2..=8 {
        link.exchange(usize::from(!is_kept))?;
    }
    link.exchange(0)
}

/// An old ACK 1 acknowledges a new block 1 that was lost.
fn empty_line(is_kept: bool) -> Outcome {
    let plan = Plan::of_letters(&[(1, 1)]);
    let mut link = Link::new(&plan, beginning(is_kept))?;
    link.back.extend((!is_kept).then_some(Back::Ack(1)));
    for act in [LinkAct::SlaveOpens, LinkAct::Start, LOSS] {
        link.act(&act)?;
    }
    match link.back.len() {
        0 => link.act(&LinkAct::TimerA),
        _ => link.act(&REPLY),
    }
}

/// A message of one block, whose closing EOT is lost; then block 1 of a new opening is a duplicate for a
/// slave that was not opened with it.
fn one_opening(is_kept: bool) -> Outcome {
    let plan = Plan::of_letters(&[(1, 1)]);
    let mut link = Link::new(&plan, beginning(is_kept))?;
    link.act(&LinkAct::SlaveOpens)?;
    link.start_and_exchange()?;
    link.act(&LinkAct::Close)?;
    link.act(&LOSS)?;
    link.open_again(&plan)?;
    if is_kept {
        link.act(&LinkAct::SlaveOpens)?;
    }
    link.start_and_exchange()
}

/// Two messages of one block are one message for the slave if both blocks have number 1.
fn numbers(is_kept: bool) -> Outcome {
    let plan = Plan::of_letters(&[(1, 1), (1, 1)]);
    let numbering = match is_kept {
        true => Numbering::OverTheOpening,
        false => Numbering::AnewWithEachMessage,
    };
    let beginning = Beginning {
        master_of: MasterOf::Model(numbering),
        ..beginning(is_kept)
    };
    let mut link = Link::new(&plan, beginning)?;
    link.act(&LinkAct::SlaveOpens)?;
    link.start_and_exchange()?;
    link.start_and_exchange()
}

/// A message of two blocks, the first of which gets RINT: these acts, with both stations opened, RINT asked
/// for and block 1 sent. The master's count is then 2 where a RINT for block 1 was taken for one of block 2.
fn after_asking(beginning: Beginning, acts: &[LinkAct]) -> Outcome {
    let plan = Plan::of_letters(&[(2, 1)]);
    let mut link = Link::new(&plan, beginning)?;
    for act in [LinkAct::SlaveOpens, LinkAct::Ask, LinkAct::Start] {
        link.act(&act)?;
    }
    acts.iter().try_for_each(|act| link.act(act))
}

/// A line on which a reply becomes a NAK after a RINT was given: block 1 gets RINT, and two ENQs get it
/// again, the first damaged into a NAK. So the second is taken for a RINT of block 2.
fn nak_after_rint(is_kept: bool) -> Outcome {
    let into = if is_kept { Back::Damaged } else { Back::Nak };
    let acts = [
        LinkAct::Enquire,
        LinkAct::Enquire,
        UNIT,
        UNIT,
        UNIT,
        LinkAct::DamageReply(1, into),
        REPLY,
        LOSS,
        REPLY,
        REPLY,
    ];
    after_asking(beginning(is_kept), &acts)
}

/// With a wrong reading where it is not the right one.
fn read_as(reading: Reading, is_right: bool, acts: &[LinkAct]) -> Outcome {
    let beginning = beginning(is_right);
    let reading = if is_right { Reading::Right } else { reading };
    after_asking(
        Beginning {
            reading,
            ..beginning
        },
        acts,
    )
}

/// Block 2 is damaged, an early ENQ behind it; after the NAK block 2 is lost, and the ENQ gets the RINT of
/// block 1 again.
fn nak_is_no_reply(is_right: bool) -> Outcome {
    let acts = [
        UNIT,
        REPLY,
        LinkAct::DamageUnit(0, Forward::Damaged),
        LinkAct::Enquire,
        UNIT,
        REPLY,
        LinkAct::Lose(Way::Forward, 1),
        UNIT,
        REPLY,
    ];
    read_as(Reading::NakIsNoReply, is_right, &acts)
}

/// Two ENQs behind block 1, the first damaged: RINT, NAK, RINT. Block 2 is lost twice.
fn nak_to_enq_is_no_reply(is_right: bool) -> Outcome {
    let acts = [
        LinkAct::Enquire,
        LinkAct::DamageUnit(1, Forward::Damaged),
        LinkAct::Enquire,
        UNIT,
        UNIT,
        UNIT,
        REPLY,
        LOSS,
        REPLY,
        LOSS,
        REPLY,
    ];
    read_as(Reading::NakToEnqIsNoReply, is_right, &acts)
}

/// Block 1 three times by early timers, the second damaged: RINT, NAK, RINT. Block 2 is lost twice.
fn rint_for_duplicate(is_right: bool) -> Outcome {
    let acts = [
        LinkAct::TimerA,
        LinkAct::DamageUnit(1, Forward::Damaged),
        LinkAct::TimerA,
        UNIT,
        UNIT,
        UNIT,
        REPLY,
        LOSS,
        REPLY,
        LOSS,
        REPLY,
    ];
    read_as(Reading::RintForDuplicate, is_right, &acts)
}

/// Asked again right after the RINT for block 1, the slave gives RINT for block 2 as well.
fn asked_without_ack(is_right: bool) -> Outcome {
    let acts = [UNIT, REPLY, LinkAct::Ask, UNIT];
    read_as(Reading::AskedWithoutAck, is_right, &acts)
}

/// An early ENQ behind block 1: RINT, RINT. Block 2, sent after the first, is lost.
fn doubt_only_after_enq(is_right: bool) -> Outcome {
    let acts = [LinkAct::Enquire, UNIT, UNIT, REPLY, LOSS, REPLY];
    read_as(Reading::DoubtOnlyAfterEnq, is_right, &acts)
}

/// Two ENQs behind block 1: RINT, RINT damaged, RINT. Block 2 is lost.
fn damaged_is_reply(is_right: bool) -> Outcome {
    let acts = [
        LinkAct::Enquire,
        LinkAct::Enquire,
        UNIT,
        UNIT,
        UNIT,
        LinkAct::DamageReply(1, Back::Damaged),
        REPLY,
        LOSS,
        REPLY,
        REPLY,
    ];
    read_as(Reading::DamagedIsReply, is_right, &acts)
}

/// A run with its premise kept or not.
type Run = fn(bool) -> Outcome;

/// The premises, and the sentence that each run breaks.
const PREMISE_RUNS: [(&str, Run, &str); 5] = [
    ("order not kept", order, "sentence (a)"),
    (
        "an old ACK on the line at the start",
        empty_line,
        "sentence (b)",
    ),
    (
        "the master opened again and the slave not",
        one_opening,
        "sentence (b)",
    ),
    (
        "numbers that restart with each message",
        numbers,
        "sentence (b)",
    ),
    (
        "a NAK that is none, after a RINT was given",
        nak_after_rint,
        "sentence (b)",
    ),
];

/// The wrong readings, and the sentence that each run breaks.
const READING_RUNS: [(&str, Run, &str); 6] = [
    (
        "no NAK is given again on ENQ",
        nak_is_no_reply,
        "sentence (b)",
    ),
    (
        "a NAK to a damaged ENQ is not given again",
        nak_to_enq_is_no_reply,
        "sentence (b)",
    ),
    (
        "a duplicate of a block that got RINT gets it again",
        rint_for_duplicate,
        "sentence (b)",
    ),
    (
        "RINT is asked for with no ACK since the last",
        asked_without_ack,
        "sentence (d)",
    ),
    (
        "a RINT after a RINT is refused only after ENQ",
        doubt_only_after_enq,
        "sentence (b)",
    ),
    (
        "a damaged reply counts as the reply before",
        damaged_is_reply,
        "sentence (b)",
    ),
];

fn each_breaks(runs: &[(&str, Run, &str)]) -> Outcome {
    for (what, run, sentence) in runs {
        match run(false) {
            Err(why) if why.starts_with(sentence) => println!("  {what}: {why}"),
            other => return Err(format!("{what}: {other:?}")),
        }
        run(true).map_err(|why| format!("not {what}: {why}"))?;
    }
    Ok(())
}

pub fn premise_runs(_: &mut Compare) -> Outcome {
    each_breaks(&PREMISE_RUNS)
}

pub fn reading_runs(_: &mut Compare) -> Outcome {
    each_breaks(&READING_RUNS)
}
