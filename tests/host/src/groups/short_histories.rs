//! Every short history of one station and of one master: all sequences of so many acts, each act compared
//! with the model, and each history with what the rules say of it as a whole.

use super::{master, station};
use crate::compare::{Compare, Outcome};
use crate::make_master::{own_number, PlannedTold};
use crate::make_station::{number_before, Planned};
use host::master_model::{number_just_before, REPLY_ACK, REPLY_DAMAGED, REPLY_NAK, REPLY_RINT};
use host::station_model::{ETB, ETX};

/// How many acts a history has after its first ones.
const ACTS: usize = 5;

fn reply(reply: u64, number: u64) -> PlannedTold {
    PlannedTold::Reply { reply, number }
}

/// What may be told to a master whose block out, or next one, has this number.
fn master_acts(own: u64) -> [PlannedTold; 10] {
    [
        reply(REPLY_ACK, own),
        reply(REPLY_ACK, number_just_before(own)),
        reply(REPLY_ACK, (own + 3) % 8),
        reply(REPLY_NAK, 0),
        reply(REPLY_RINT, 0),
        reply(REPLY_DAMAGED, 0),
        PlannedTold::Timer,
        PlannedTold::Enquire,
        PlannedTold::MayReceive,
        PlannedTold::Start {
            message: b"DE".to_vec(),
            block_size: 2,
        },
    ]
}

fn master_histories(compare: &mut Compare, history: &master::History, acts: usize) -> Outcome {
    if acts == 0 {
        return history.end();
    }
    for planned in master_acts(own_number(&history.memory.master()?)) {
        let mut longer = history.clone();
        longer.act(compare, planned)?;
        master_histories(compare, &longer, acts - 1)?;
    }
    Ok(())
}

/// From the first block of a message of two blocks on.
pub fn master_short_histories(compare: &mut Compare) -> Outcome {
    let mut history = master::History::new(compare)?;
    history.act(compare, PlannedTold::Open)?;
    let started = PlannedTold::Start {
        message: b"ABC".to_vec(),
        block_size: 2,
    };
    history.act(compare, started)?;
    master_histories(compare, &history, ACTS)
}

/// What may be reported to a station that expects this number, or asked of it.
fn station_units(expected: u64) -> [Planned; 9] {
    let block = |number, ending| Planned::Block {
        number,
        ending,
        text: b"A".to_vec(),
    };
    [
        block(expected, ETB),
        block(expected, ETX),
        block(number_before(expected, 1), ETX),
        block((expected + 3) % 8, ETB),
        Planned::Bad,
        Planned::BareEnq,
        Planned::Interrupt,
        Planned::Opened,
        Planned::End,
    ]
}

fn station_histories(compare: &mut Compare, history: &station::History, acts: usize) -> Outcome {
    if acts == 0 {
        return history.end();
    }
    for planned in station_units(history.memory.state[1] % 8) {
        let mut longer = history.clone();
        longer.act(compare, planned)?;
        station_histories(compare, &longer, acts - 1)?;
    }
    Ok(())
}

/// From the opening on, with space for three texts.
pub fn station_short_histories(compare: &mut Compare) -> Outcome {
    let mut history = station::History::new(compare, 3)?;
    history.act(compare, Planned::Opened)?;
    station_histories(compare, &history, ACTS)
}
