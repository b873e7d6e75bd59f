//! Histories of units reported to one station: each act is compared with the model in everything, and
//! what the station said in all of the history with what the rules say of it as a whole.

use crate::compare::{Compare, Outcome};
use crate::compare_station::{StationAnswer, StationCall, StationMemory};
use crate::guarded::same;
use crate::make_station::{self, Planned};
use host::prng::Random;
use host::station_model::{self, Answer, Reply, Said, Station, Unit, ETB, STATION_REPORT_WORDS};

/// A station in the middle of its history, and what it said so far.
#[derive(Clone)]
pub struct History {
    pub memory: StationMemory,
    units: Vec<Planned>,
    pub said: Vec<Said>,
}

/// What the histories of a group came to; a group in which something hardly happened tests little.
#[derive(Default)]
struct Seen {
    replies: [u64; 5],
    messages: u64,
    in_several_blocks: u64,
    most_in_one_opening: u64,
    most_blocks_in_one_opening: u64,
    most_blocks_in_one_message: u64,
}

impl History {
    /// Before the first opening.
    pub fn new(compare: &mut Compare, space: usize) -> Result<History, String> {
        Ok(History {
            memory: StationMemory::fresh(compare, space)?,
            units: Vec::new(),
            said: Vec::new(),
        })
    }

    fn space(&self) -> usize {
        self.memory.buffer().len()
    }

    /// Only asking for RINT may be refused, by 11.
    pub fn act(&mut self, compare: &mut Compare, planned: Planned) -> Outcome {
        let answer = compare.station_act(&mut self.memory, &planned.unit())?;
        let is_asking = matches!(planned, Planned::Interrupt);
        if answer.number != 0 && !(is_asking && answer.number == 11) {
            let unit = planned.unit();
            return Err(format!("{unit:?} was refused by {}", answer.number));
        }
        self.said.push(said(&answer, &self.memory));
        self.units.push(planned);
        Ok(())
    }

    pub fn messages(&self) -> Vec<&[u8]> {
        let answers = self.said.iter().flatten();
        answers
            .flat_map(|answer| answer.message.as_deref())
            .collect()
    }

    pub fn last_reply(&self) -> Option<Reply> {
        let said = self.said.last()?.as_ref();
        said.ok().map(|answer| answer.reply)
    }

    /// The whole history gives what was said, unit by unit.
    pub fn end(&self) -> Outcome {
        let units: Vec<Unit> = self.units.iter().map(Planned::unit).collect();
        let expected = station_model::answers(&units, self.space());
        same("answer of a history", &self.said, &expected)
    }
}

/// What a report says: the reply, and the message that stands at the buffer's start.
fn said(answer: &StationAnswer, memory: &StationMemory) -> Said {
    if answer.number != 0 {
        return Err(answer.number);
    }
    let [reply, number, complete, length] = answer.report;
    let message = &memory.buffer()[..length as usize];
    Ok(Answer {
        reply: match reply {
            0 => Reply::Nothing,
            1 => Reply::Ack(number),
            2 => Reply::Nak,
            3 => Reply::Eot,
            _ => Reply::Rint,
        },
        message: (complete == 1).then(|| message.to_vec()),
    })
}

impl Seen {
    fn count(&mut self, history: &History) {
        let (mut messages, mut blocks, mut held, mut newest) = (0, 0, 0, 0);
        for (planned, said) in history.units.iter().zip(&history.said) {
            let Ok(answer) = said else {
                continue;
            };
            self.replies[reply_index(answer.reply)] += 1;
            if matches!(planned, Planned::Opened) {
                (messages, blocks, held, newest) = (0, 0, 0, 0);
            }
            let is_block = matches!(planned, Planned::Block { .. });
            let acknowledged = match answer.reply {
                Reply::Ack(number) => number,
                Reply::Rint if is_block => (newest + 1) % 8,
                _ => newest,
            };
            let taken = u64::from(acknowledged != newest);
            (blocks, held, newest) = (blocks + taken, held + taken, acknowledged);
            if answer.message.is_some() {
                messages += 1;
                self.messages += 1;
                self.in_several_blocks += u64::from(held > 1);
                self.most_blocks_in_one_message = self.most_blocks_in_one_message.max(held);
                held = 0;
            }
            self.most_in_one_opening = self.most_in_one_opening.max(messages);
            self.most_blocks_in_one_opening = self.most_blocks_in_one_opening.max(blocks);
        }
    }

    fn enough(&self, least: u64) -> Outcome {
        let counts = [
            ("units without reply", self.replies[0], least),
            ("replies ACK", self.replies[1], least),
            ("replies NAK", self.replies[2], least),
            ("replies EOT", self.replies[3], least),
            ("replies RINT", self.replies[4], least),
            ("messages", self.messages, least),
            ("messages in several blocks", self.in_several_blocks, least),
            ("messages in one opening", self.most_in_one_opening, 8),
            ("blocks in one opening", self.most_blocks_in_one_opening, 24),
        ];
        for (what, count, least) in counts {
            if count < least {
                return Err(format!("only {count} {what}, and {least} are due"));
            }
        }
        Ok(())
    }
}

fn reply_index(reply: Reply) -> usize {
    match reply {
        Reply::Nothing => 0,
        Reply::Ack(_) => 1,
        Reply::Nak => 2,
        Reply::Eot => 3,
        Reply::Rint => 4,
    }
}

/// The lengths of message buffers in histories.
fn any_space(random: &mut Random) -> usize {
    match random.below(8) {
        0 => random.below(4),
        1 | 2 => random.below(20),
        3..=5 => random.between(20, 100),
        _ => random.between(100, 400),
    }
}

/// Any units at any time, with buffers of 0 to 400 bytes.
pub fn station_histories(compare: &mut Compare) -> Outcome {
    let mut seen = Seen::default();
    for _ in 0..20_000 {
        let space = any_space(&mut compare.random);
        let mut history = History::new(compare, space)?;
        for _ in 0..compare.random.between(1, 120) {
            let station = history.memory.station()?;
            let planned = make_station::any_unit(&mut compare.random, &station, space);
            history.act(compare, planned)?;
        }
        history.end()?;
        seen.count(&history);
    }
    seen.enough(5_000)
}

/// A unit of a line that works well: short blocks, and now and then one sent twice, damaged or out of
/// order.
pub fn good_unit(random: &mut Random, station: &Station, space: usize) -> Planned {
    let (expected, left) = make_station::expected_and_left(station, space);
    if *station == Station::Closed {
        return Planned::Opened;
    }
    let number = match random.below(40) {
        0 => return Planned::Bad,
        1 => return Planned::Enquiry,
        2 | 3 => make_station::number_before(expected, 1),
        4 => make_station::number_before(expected, random.between(2, 7) as u64),
        _ => expected,
    };
    let length = random.below(left.min(24) + 1);
    let ending = if left < 40 || random.one_in(4) {
        station_model::ETX
    } else {
        ETB
    };
    Planned::Block {
        number,
        ending,
        text: random.bytes(length),
    }
}

/// Many messages in one opening, so that the numbers go round often.
pub fn station_progress(compare: &mut Compare) -> Outcome {
    let mut seen = Seen::default();
    for _ in 0..600 {
        let space = compare.random.between(60, 300);
        let mut history = History::new(compare, space)?;
        for _ in 0..compare.random.between(200, 500) {
            let station = history.memory.station()?;
            let planned = good_unit(&mut compare.random, &station, space);
            history.act(compare, planned)?;
        }
        history.end()?;
        seen.count(&history);
    }
    if seen.most_in_one_opening < 80 || seen.in_several_blocks < 5_000 {
        let (most, several) = (seen.most_in_one_opening, seen.in_several_blocks);
        return Err(format!(
            "only {most} messages in one opening, and {several} messages in several blocks"
        ));
    }
    Ok(())
}

/// A block that fits the space left; one in so many is the last of its message.
fn fitting_block(random: &mut Random, number: u64, left: usize, last: usize) -> Planned {
    let length = random.below(left.min(24) + 1);
    let ending = if random.one_in(last) {
        station_model::ETX
    } else {
        ETB
    };
    Planned::Block {
        number,
        ending,
        text: random.bytes(length),
    }
}

/// A block reported once to one station and so many times in a row to another: each time the reply is
/// ACK with its number, and the words and buffers of the two are the same then.
fn report_to_both(
    compare: &mut Compare,
    [once, repeated]: [&mut History; 2],
    number: u64,
    last: usize,
) -> Outcome {
    let (_, left) = make_station::expected_and_left(&once.memory.station()?, once.space());
    let planned = fitting_block(&mut compare.random, number, left, last);
    once.act(compare, planned.clone())?;
    for _ in 0..compare.random.between(1, 5) {
        repeated.act(compare, planned.clone())?;
        same(
            "reply",
            &[repeated.last_reply()],
            &[Some(Reply::Ack(number))],
        )?;
        same("word", &repeated.memory.state, &once.memory.state)?;
        same("buffer", repeated.memory.buffer(), once.memory.buffer())?;
    }
    Ok(())
}

/// Blocks in order, over many turns of the numbers, each reported once to five times in a row: all is
/// as at a station to which each was reported once.
pub fn station_repeats(compare: &mut Compare) -> Outcome {
    let mut seen = Seen::default();
    for _ in 0..600 {
        let space = compare.random.between(0, 300);
        let last = compare.random.pick(&[1, 2, 6, 40]);
        let mut once = History::new(compare, space)?;
        once.act(compare, Planned::Opened)?;
        let mut repeated = once.clone();
        for blocks in 0..compare.random.between(20, 100) {
            let number = (1 + blocks as u64) % 8;
            report_to_both(compare, [&mut once, &mut repeated], number, last)
                .map_err(|why| format!("block {number} after {blocks} others: {why}"))?;
        }
        once.end()?;
        repeated.end()?;
        same("message", &repeated.messages(), &once.messages())?;
        seen.count(&repeated);
    }
    let in_one_block = seen.messages - seen.in_several_blocks;
    let most = seen.most_blocks_in_one_message;
    if in_one_block < 5_000 || seen.in_several_blocks < 2_000 || most < 40 {
        let several = seen.in_several_blocks;
        return Err(format!(
            "only {in_one_block} messages in one block, {several} in several, in at most {most}"
        ));
    }
    Ok(())
}

/// Buffers of up to 200,000 bytes, with texts as long.
pub fn station_large_buffers(compare: &mut Compare) -> Outcome {
    for &space in &[4_095, 4_096, 4_097, 65_535, 65_536, 99_999, 200_000] {
        for _ in 0..6 {
            let mut history = History::new(compare, space)?;
            history.act(compare, Planned::Opened)?;
            for _ in 0..12 {
                let station = history.memory.station()?;
                let (number, left) = make_station::expected_and_left(&station, space);
                let length = match compare.random.below(6) {
                    0 => left,
                    1 => left + 1,
                    2 => left.saturating_sub(1),
                    _ => compare.random.below(left / 3 + 1),
                };
                let planned = Planned::Block {
                    number,
                    ending: compare.random.pick(&[station_model::ETX, ETB]),
                    text: compare.random.bytes(length),
                };
                history.act(compare, planned)?;
                if history.memory.station()? == Station::Closed {
                    history.act(compare, Planned::Opened)?;
                }
            }
            history.end()?;
        }
    }
    Ok(())
}

/// Opened in the middle of any history: what comes after is what comes after a first opening.
pub fn station_opened_again(compare: &mut Compare) -> Outcome {
    for _ in 0..3_000 {
        let space = any_space(&mut compare.random);
        let mut history = History::new(compare, space)?;
        for _ in 0..compare.random.below(20) {
            let station = history.memory.station()?;
            let planned = make_station::any_unit(&mut compare.random, &station, space);
            history.act(compare, planned)?;
        }
        let before = history.units.len();
        history.act(compare, Planned::Opened)?;
        for _ in 0..20 {
            let station = history.memory.station()?;
            let planned = make_station::any_unit(&mut compare.random, &station, space);
            history.act(compare, planned)?;
        }
        history.end()?;
        let after: Vec<Unit> = history.units[before..].iter().map(Planned::unit).collect();
        let afresh = station_model::answers(&after, space);
        same("answer after opening", &history.said[before..], &afresh)?;
    }
    Ok(())
}

/// The driver lends a shorter or a longer part of its buffer than before: each call is answered by its
/// own words and lengths, and none refused but asking for RINT.
pub fn station_other_lengths(compare: &mut Compare) -> Outcome {
    let mut too_long = 0;
    for _ in 0..4_000 {
        let space = any_space(&mut compare.random);
        let mut memory = StationMemory::fresh(compare, space)?;
        compare.station_act(&mut memory, &Unit::Opened)?;
        for _ in 0..20 {
            let length = compare.random.below(space + 1);
            let station = memory.station()?;
            let planned = make_station::any_unit(&mut compare.random, &station, length);
            let call = StationCall {
                unit: planned.unit(),
                state_words: memory.state.len(),
                buffer_length: length,
                report_words: STATION_REPORT_WORDS,
            };
            let block = matches!(call.unit, Unit::Block { .. });
            too_long += u64::from(block && memory.state[2] > length as u64);
            let is_asking = matches!(call.unit, Unit::Interrupt);
            let answer = compare.station_call(&mut memory, &call)?;
            if !is_asking {
                same("number", &[answer.number], &[0])?;
            }
        }
    }
    if too_long < 2_000 {
        return Err(format!("only {too_long} texts held did not fit the buffer"));
    }
    Ok(())
}
