//! What the lines of a simulated link do to what is on them, and what an earlier run left there and at
//! both ends.

use crate::compare::Outcome;
use crate::guarded::same;
use crate::library;
use crate::line::{damaged, disordered, replace, without_block, Arrived, Effect, Order};
use crate::link::Link;
use crate::link_counts::Kind;
use crate::link_deviation::{Deviation, Duty};
use crate::link_ends::Decided;
use host::ends_ffi;
use host::ends_ffi::names::DECISION_WORDS;
use host::ffi;
use host::ffi::names::{CODE_AA, MINUS_ONE};
use host::prng::Random;

/// The answer AA to a request.
fn answer(id: &str, number: u64) -> Result<Vec<u8>, String> {
    let (mut message, mut report) = (vec![0; 128], [0; 2]);
    let found = ffi::answer_write(id.as_bytes(), CODE_AA, number, &mut message, 0, &mut report);
    message.truncate(report[0] as usize);
    match found {
        0 => Ok(message),
        _ => Err(format!("the answer to {id} was refused by {found}")),
    }
}

/// A request of an earlier run, for a number or -1.
pub fn old_request(number: &str) -> Vec<u8> {
    format!("MSH|^~\\&|||||||ADT|{number}|P|2.3.1|{number}\rOLD|").into_bytes()
}

/// A data block that a reader has accepted.
fn accepted(data: Vec<u8>) -> Arrived {
    Arrived {
        number: 0,
        block_type: u64::from(b'D'),
        data,
    }
}

/// Where what an earlier run left is found.
#[derive(Clone, Copy)]
enum Left {
    OnTheLine,
    Owed,
    Read,
}

impl Link {
    /// Other bytes come in place of those on a line, towards the receiver or back.
    fn change_line(
        &mut self,
        is_forward: bool,
        order: Order,
        change: impl FnOnce(&[u8]) -> Vec<u8>,
    ) -> Result<Kind, String> {
        let (reader, line) = if is_forward {
            (&self.receiving.reader, &mut self.forward)
        } else {
            (&self.sending.reader, &mut self.back)
        };
        let bytes = change(line);
        let effect = replace(reader, line, bytes, order)?;
        Ok(match effect {
            Effect::Undone => Kind::AcceptedByChance,
            Effect::Same => Kind::SameVerdicts,
            Effect::OneRefusal => Kind::OneRefusal,
            Effect::SeveralRefusals => Kind::SeveralRefusals,
            Effect::UntilNextStart => Kind::UntilNextStart,
            Effect::Vanished => Kind::Vanished,
            Effect::OtherOrder => Kind::OtherOrder,
            Effect::Repeated => Kind::Repeated,
        })
    }

    fn is_silent(&self, is_forward: bool) -> bool {
        if is_forward {
            self.forward.is_empty()
        } else {
            self.back.is_empty()
        }
    }

    /// A line loses a block, or all that is on it.
    pub fn lose(&mut self, random: &mut Random) -> Outcome {
        let (is_forward, is_all) = (random.one_in(2), random.one_in(8));
        if self.is_silent(is_forward) {
            return Ok(());
        }
        let settings = self.settings;
        let kind = self.change_line(is_forward, Order::Kept, |line| match is_all {
            true => Vec::new(),
            false => without_block(random, &settings, line),
        })?;
        self.counts.add(match kind {
            Kind::AcceptedByChance | Kind::SameVerdicts => kind,
            _ if is_all => Kind::LostLine,
            _ => Kind::LostBlock,
        });
        self.check()
    }

    /// A line is damaged; seldom one on which nothing is.
    pub fn damage(&mut self, random: &mut Random) -> Outcome {
        let is_forward = random.one_in(2);
        if self.is_silent(is_forward) && !random.one_in(8) {
            return Ok(());
        }
        let settings = self.settings;
        let kind = self.change_line(is_forward, Order::Kept, |line| {
            damaged(random, &settings, line)
        })?;
        self.counts.add(kind);
        self.check()
    }

    /// The line back brings its blocks in another order, or repeatedly, and may damage them too; the
    /// line to the receiver does so only with that deviation.
    pub fn disorder(&mut self, random: &mut Random) -> Outcome {
        let is_forward = self.deviation == Deviation::RequestsDisordered && random.one_in(2);
        if self.is_silent(is_forward) {
            return Ok(());
        }
        let settings = self.settings;
        let kind = self.change_line(is_forward, Order::Any, |line| {
            let bytes = disordered(random, &settings, line);
            match random.below(4) {
                0 => damaged(random, &settings, &bytes),
                _ => bytes,
            }
        })?;
        self.counts.add(kind);
        self.check()
    }

    /// Where the deviation has what an earlier run left; else anywhere.
    fn left(&self, random: &mut Random) -> Left {
        match self.deviation {
            Deviation::Without(Duty::EmptiesLines) | Deviation::WithoutBoth(..) => Left::OnTheLine,
            Deviation::Without(Duty::DropsReplies) => Left::Owed,
            Deviation::Without(Duty::DropsVerdicts) | Deviation::SenderKeepsVerdicts => Left::Read,
            _ => random.pick(&[Left::OnTheLine, Left::Owed, Left::Read]),
        }
    }

    /// What an earlier run left to the sender: its answers to -1 or 0, to the first number or to both,
    /// in this order.
    pub fn leave_old_answers(&mut self, random: &mut Random) -> Outcome {
        let is_fresh = self.keeps(Duty::Exchanges);
        let (control, first) = (if is_fresh { "-1" } else { "0" }, self.first.to_string());
        let answers = [(control, MINUS_ONE), (&first[..], self.first)];
        let left = self.left(random);
        for &(id, number) in random.pick(&[&answers[..], &answers, &answers[..1], &answers[1..]]) {
            match left {
                Left::OnTheLine => self.back.extend(self.old_answer(id, number)?),
                Left::Owed => self
                    .receiving
                    .pending
                    .push_back(self.old_answer(id, number)?),
                Left::Read => self
                    .sending
                    .arrived
                    .push_back(accepted(answer(id, number)?)),
            }
        }
        Ok(())
    }

    /// What an earlier run left to the receiver: its first transaction, on the line or read.
    pub fn leave_old_request(&mut self, is_read: bool) -> Outcome {
        let request = old_request(&self.first.to_string());
        if is_read {
            self.receiving.arrived.push_back(accepted(request));
        } else {
            self.forward = self.block(&request)?;
        }
        Ok(())
    }

    /// The decision on this message that an earlier run left open.
    pub fn leave_old_decision(&mut self, message: Vec<u8>) -> Outcome {
        let end = &mut self.receiving;
        let (mut report, kind) = ([0; DECISION_WORDS], u64::from(b'D'));
        let number = ends_ffi::decide(CODE_AA, kind, &message, &mut end.state, &mut report);
        end.decided = Decided {
            message,
            application: CODE_AA,
            report,
        };
        same("decision", &[number], &[0])
    }

    /// An earlier run's answer, as a block.
    pub fn old_answer(&self, id: &str, number: u64) -> Result<Vec<u8>, String> {
        self.block(&answer(id, number)?)
    }

    fn block(&self, data: &[u8]) -> Result<Vec<u8>, String> {
        let mut block = vec![0; data.len() + self.settings.overhead()];
        let kind = u64::from(b'D');
        match library::write(&self.settings, kind, data, &mut block, 0, &mut [0; 2]) {
            0 => Ok(block),
            number => Err(format!("a block was refused by {number}")),
        }
    }
}
