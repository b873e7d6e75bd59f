//! The master at the C boundary: memory at the edge of what may be touched.

use super::memory::Pages;
use crate::compare::{Compare, Outcome};
use crate::guarded::same;
use crate::make_master::any_told;
use host::master_ffi;
use host::master_model::{self, Master, MasterAct, MasterActed, MASTER_REPORT_WORDS, MASTER_WORDS};

/// One set of pages for each kind of memory.
struct GuardPages {
    state: Pages,
    report: Pages,
}

/// Acts with all memory at the edge of what may be touched, from before the first opening.
pub fn master_guard_pages(compare: &mut Compare) -> Outcome {
    let mut guarded = GuardPages {
        state: Pages::new(1),
        report: Pages::new(1),
    };
    for round in 0..6_000 {
        let at_end = round % 4 != 0;
        let mut words = [0; MASTER_WORDS];
        let state = guarded.state.words(MASTER_WORDS, at_end);
        state.fill(77);
        same("number", &[master_ffi::master_fresh(state)], &[0])?;
        same("state", state, &words)?;
        for _ in 0..12 {
            let master = Master::decode(&words).ok_or_else(|| format!("no state: {words:?}"))?;
            let planned = any_told(&mut compare.random, &master, 40);
            guarded_act(
                compare,
                &mut guarded,
                &mut words,
                &planned.told().act(),
                at_end,
            )?;
        }
        for act in [MasterAct::Enquire, MasterAct::MayReceive] {
            guarded_act(compare, &mut guarded, &mut words, &act, at_end)?;
        }
    }
    Ok(())
}

fn guarded_act(
    compare: &mut Compare,
    guarded: &mut GuardPages,
    words: &mut [u64; MASTER_WORDS],
    act: &MasterAct,
    at_end: bool,
) -> Outcome {
    compare.master.acts += 1;
    let state = guarded.state.words(MASTER_WORDS, at_end);
    state.copy_from_slice(words);
    let report = guarded.report.words(MASTER_REPORT_WORDS, at_end);
    report.fill(77);
    let found = master_ffi::master_act(act, state, report);
    let (number, then, reported) = match master_model::act_on_words(act, words, MASTER_REPORT_WORDS)
    {
        MasterActed::Refused(number) => (number, *words, [77; MASTER_REPORT_WORDS]),
        MasterActed::Done(master, reported) => (0, master.words(), reported.words()),
    };
    same("number", &[found], &[number])
        .and_then(|()| same("state", state, &then))
        .and_then(|()| same("report", report, &reported))
        .map_err(|why| format!("{act:?}, state {words:?}: {why}"))?;
    *words = then;
    Ok(())
}
