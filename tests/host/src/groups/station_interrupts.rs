//! Two stations with the same history, but that one of them is asked for RINT, or gets ENQs between: what
//! that must change, and what it must not.

use super::station::{good_unit, History};
use crate::compare::{Compare, Outcome};
use crate::guarded::same;
use crate::make_station::{number_before, Planned};
use host::prng::Random;
use host::station_model::{Reply, Station, STATION_WORDS};

/// A unit of a line that works well, on which the driver asks for RINT now and then and the master
/// enquires.
fn turning_unit(random: &mut Random, station: &Station, space: usize) -> Planned {
    match random.below(24) {
        0..=3 => Planned::Interrupt,
        4..=7 => Planned::BareEnq,
        8 => Planned::End,
        _ => good_unit(random, station, space),
    }
}

fn is_over(history: &History, planned: &Planned) -> bool {
    history.memory.state[0] == 0 || matches!(planned, Planned::Opened)
}

/// A station that is asked for RINT, and one that is not.
struct AskedAndPlain {
    asked: History,
    plain: History,
    is_pending: bool,
    was_given: bool,
    given: u64,
}

impl AskedAndPlain {
    /// Asks the one for RINT: taken unless one is pending or no ACK came since the last.
    fn ask(&mut self, compare: &mut Compare) -> Outcome {
        self.asked.act(compare, Planned::Interrupt)?;
        if matches!(self.asked.said.last(), Some(Ok(_))) {
            same("pending", &[self.is_pending], &[false])?;
            self.is_pending = true;
            if self.was_given {
                compare.station.asked_again();
            }
        }
        Ok(())
    }

    /// Reports the same to both. Where the one says RINT, the other says ACK with the number of the block
    /// that it took last.
    fn report(&mut self, compare: &mut Compare, planned: &Planned) -> Outcome {
        let expected_before = self.plain.memory.state[1];
        self.asked.act(compare, planned.clone())?;
        self.plain.act(compare, planned.clone())?;
        let [is_open, expected, ..] = self.plain.memory.state[..] else {
            return Err("no state".to_string());
        };
        let reply = self.asked.last_reply();
        let without_rint = match reply {
            Some(Reply::Rint) => Some(Reply::Ack(number_before(expected, 1))),
            other => other,
        };
        same("reply", &[self.plain.last_reply()], &[without_rint])?;
        if matches!(planned, Planned::Block { .. }) {
            let is_taken = is_open == 1 && expected != expected_before;
            let is_due = self.is_pending && is_taken;
            same("RINT given", &[reply == Some(Reply::Rint)], &[is_due])?;
            self.is_pending &= !is_due;
            self.was_given |= is_due;
            self.given += u64::from(is_due);
        }
        if is_over(&self.plain, planned) {
            (self.is_pending, self.was_given) = (false, false);
        }
        Ok(())
    }
}

/// But for RINT in place of ACK both say the same, and their texts are the same. A RINT is given for the
/// first block that is taken after it was asked for, and for no other.
pub fn station_interrupts(compare: &mut Compare) -> Outcome {
    let mut given = 0;
    for _ in 0..4_000 {
        let space = compare.random.between(0, 200);
        let asked = History::new(compare, space)?;
        let mut both = AskedAndPlain {
            plain: asked.clone(),
            asked,
            is_pending: false,
            was_given: false,
            given: 0,
        };
        for _ in 0..compare.random.between(10, 80) {
            let station = both.plain.memory.station()?;
            match turning_unit(&mut compare.random, &station, space) {
                Planned::Interrupt => both.ask(compare)?,
                planned => both.report(compare, &planned)?,
            }
            let AskedAndPlain { asked, plain, .. } = &both;
            same("words", &asked.memory.state[..3], &plain.memory.state[..3])?;
            same("buffer", asked.memory.buffer(), plain.memory.buffer())?;
        }
        both.asked.end()?;
        same("message", &both.asked.messages(), &both.plain.messages())?;
        given += both.given;
    }
    if given < 10_000 {
        return Err(format!("only {given} RINTs were given"));
    }
    Ok(())
}

/// A station that gets ENQs, and one that does not; and what both replied last to all else.
struct EnquiredAndPlain {
    enquired: History,
    plain: History,
    last_reply: Option<Reply>,
    is_enquired: bool,
}

impl EnquiredAndPlain {
    fn report(&mut self, compare: &mut Compare, planned: &Planned) -> Outcome {
        self.plain.act(compare, planned.clone())?;
        self.enquired.act(compare, planned.clone())?;
        let [enquired, plain] = [&self.enquired, &self.plain].map(|history| history.said.last());
        same("answer", &[enquired], &[plain])?;
        let given = self.plain.last_reply();
        let reply = given.filter(|reply| *reply != Reply::Nothing);
        self.last_reply = reply.or(self.last_reply);
        if is_over(&self.plain, planned) {
            (self.last_reply, self.is_enquired) = (None, false);
        }
        Ok(())
    }

    fn enquire(&mut self, compare: &mut Compare) -> Outcome {
        self.enquired.act(compare, Planned::BareEnq)?;
        let is_open = self.plain.memory.state[0] == 1;
        let again = match is_open {
            true => self.last_reply.unwrap_or(Reply::Nak),
            false => Reply::Nothing,
        };
        self.is_enquired |= is_open;
        same("reply", &[self.enquired.last_reply()], &[Some(again)])
    }

    /// The words are the same, but where the only replies are those NAKs.
    fn compare(&self) -> Outcome {
        let (enquired, plain) = (&self.enquired.memory, &self.plain.memory);
        let mut words = plain.state[..STATION_WORDS].to_vec();
        if self.is_enquired && self.last_reply.is_none() {
            words[3] = 2;
        }
        same("words", &enquired.state[..STATION_WORDS], &words)?;
        same("buffer", enquired.buffer(), plain.buffer())
    }
}

/// Each ENQ is answered by the last reply, and changes nothing of what is said to all else.
pub fn station_enquiries(compare: &mut Compare) -> Outcome {
    for _ in 0..4_000 {
        let space = compare.random.between(0, 200);
        let enquired = History::new(compare, space)?;
        let mut both = EnquiredAndPlain {
            plain: enquired.clone(),
            enquired,
            last_reply: None,
            is_enquired: false,
        };
        for _ in 0..compare.random.between(10, 60) {
            let station = both.plain.memory.station()?;
            let planned = turning_unit(&mut compare.random, &station, space);
            if !matches!(planned, Planned::BareEnq) {
                both.report(compare, &planned)?;
            }
            for _ in 0..compare.random.below(3) {
                both.enquire(compare)?;
            }
            both.compare()?;
        }
        both.enquired.end()?;
    }
    Ok(())
}
