//! The station at the C boundary: memory at the edge of what may be touched.

use super::memory::Pages;
use crate::compare::{Compare, Outcome};
use crate::compare_station::{text_of, unit_text, with_text};
use crate::guarded::same;
use crate::make_station::{any_unit, block, open_words};
use host::station_ffi;
use host::station_model::{
    self, Acted, Lengths, Station, Unit, ETX, STATION_REPORT_WORDS, STATION_WORDS,
};

/// One set of pages for each kind of memory.
struct GuardPages {
    text: Pages,
    buffer: Pages,
    state: Pages,
    report: Pages,
}

/// Acts with all memory at the edge of what may be touched, from a closed station or at any expected
/// number.
pub fn station_guard_pages(compare: &mut Compare) -> Outcome {
    let mut guarded = GuardPages {
        text: Pages::new(2),
        buffer: Pages::new(1),
        state: Pages::new(1),
        report: Pages::new(1),
    };
    for round in 0..6_000 {
        let at_end = round % 4 != 0;
        let space = match compare.random.below(4) {
            0 => compare.random.below(5),
            1 => 4096,
            _ => compare.random.below(300),
        };
        let mut words = match compare.random.below(2) {
            0 => [0; STATION_WORDS],
            _ => {
                let expected = compare.random.below(8) as u64;
                open_words(&mut compare.random, expected, 0)
            }
        };
        for _ in 0..8 {
            let station = Station::decode(&words).ok_or_else(|| format!("no state: {words:?}"))?;
            let planned = any_unit(&mut compare.random, &station, space);
            let unit = planned.unit();
            guarded_act(compare, &mut guarded, &mut words, space, &unit, at_end)?;
        }
        let (number, text) = (words[1], compare.random.bytes(space));
        let last = block(number, ETX, &text);
        for unit in [Unit::Interrupt, Unit::BareEnq, last] {
            guarded_act(compare, &mut guarded, &mut words, space, &unit, at_end)?;
        }
    }
    Ok(())
}

fn guarded_act(
    compare: &mut Compare,
    guarded: &mut GuardPages,
    words: &mut [u64; STATION_WORDS],
    space: usize,
    unit: &Unit,
    at_end: bool,
) -> Outcome {
    compare.station.acts += 1;
    let state = guarded.state.words(STATION_WORDS, at_end);
    state.copy_from_slice(words);
    let report = guarded.report.words(STATION_REPORT_WORDS, at_end);
    report.fill(77);
    let buffer = guarded.buffer.bytes(space, at_end);
    let mut bytes = buffer.to_vec();
    let text = text_of(unit);
    let copied = guarded.text.bytes(text.len(), at_end);
    copied.copy_from_slice(text);
    let found = station_ffi::station_act(&with_text(unit, copied), buffer, state, report);
    let lengths = Lengths {
        buffer: space,
        report: STATION_REPORT_WORDS,
    };
    let (number, then, reported) = match station_model::act_on_words(unit, words, &lengths) {
        Acted::Refused(number) => (number, *words, [77; STATION_REPORT_WORDS]),
        Acted::Done(then, reported, offset) => {
            if let Some(offset) = offset {
                bytes[offset..][..text.len()].copy_from_slice(text);
            }
            (0, then, reported)
        }
    };
    same("number", &[found], &[number])
        .and_then(|()| same("state", state, &then))
        .and_then(|()| same("report", report, &reported))
        .and_then(|()| same("buffer", buffer, &bytes))
        .map_err(|why| format!("{}, state {words:?}: {why}", unit_text(unit)))?;
    *words = then;
    Ok(())
}
