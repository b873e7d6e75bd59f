//! The statement of document 02, §3, with an accepted RINT counted as an acknowledgment (§14), on a link of
//! the two X3.28 stations, held after every act. Blocks and messages are compared when they are sent,
//! accepted and handed over. What was compared stays as it is, so that after each act only the numbers of
//! them need be looked at.

use crate::compare::Outcome;
use crate::stations_link::Link;
use crate::stations_units::{Back, BlockUnit};
use host::master_model::MasterAct;

/// What happened since the opening: messages started, blocks first sent, blocks the slave accepted,
/// messages it handed over, messages reported done, the resends of the block out, and whether the slave gave
/// a RINT.
#[derive(Clone, Copy, Debug, Default, PartialEq, Eq)]
pub struct Progress {
    pub started: usize,
    pub sent: usize,
    pub accepted: usize,
    pub handed_over: usize,
    pub done: usize,
    pub resends: u64,
    pub was_rint_given: bool,
}

/// What the slave's station gave since it was opened: its last reply; the block that got RINT, if no ACK was
/// given since; and whether a RINT is asked for and not yet given.
#[derive(Clone, Copy, Debug, Default, PartialEq, Eq)]
pub struct Given {
    pub last: Option<Back>,
    pub rinted: Option<usize>,
    pub is_asked: bool,
}

/// What came to the master since it was opened, and what its driver wished: the code of the last undamaged
/// reply, whether a RINT came, whether it sent ENQ last, and whether it may receive.
#[derive(Clone, Copy, Debug, Default, PartialEq, Eq)]
pub struct Heard {
    pub last: u64,
    pub was_interrupted: bool,
    pub is_enquired: bool,
    pub may_receive: bool,
}

fn sentence(letter: char, why: String) -> Outcome {
    Err(format!("sentence ({letter}): {why}"))
}

impl Link<'_> {
    /// The numbers of the sentences, after each act.
    pub fn check(&self) -> Outcome {
        let Progress {
            started,
            sent,
            accepted,
            handed_over,
            done,
            ..
        } = self.progress;
        let count = self.count();
        if accepted > sent {
            return sentence('a', format!("{accepted} accepted, {sent} sent"));
        }
        if sent > self.plan.blocks_of_first(started) {
            return sentence('a', format!("{sent} sent of {started} messages"));
        }
        if count != accepted as u64 && count.checked_add(1) != Some(accepted as u64) {
            return sentence('b', format!("the count is {count}, {accepted} accepted"));
        }
        if handed_over > started || (handed_over != done && handed_over != done + 1) {
            let why = format!("{handed_over} handed over, {done} done, {started} started");
            return sentence('c', why);
        }
        match self.with_corollaries {
            true => self.check_words(),
            false => Ok(()),
        }
    }

    /// The words of open stations say what was given and what came.
    fn check_words(&self) -> Outcome {
        let Given {
            last,
            rinted,
            is_asked,
        } = self.given;
        let [_, expected, _, last_reply, interrupt] = self.slave;
        let is_last = match last {
            None => last_reply == 0,
            Some(Back::Ack(number)) => last_reply == 1 && (number + 1) % 8 == expected,
            Some(Back::Nak) => last_reply == 2,
            Some(_) => last_reply == 5,
        };
        let told = match (is_asked, rinted) {
            (true, _) => 1,
            (false, None) => 0,
            (false, Some(_)) => 2,
        };
        if self.is_slave_open() && (!is_last || interrupt != told) {
            return Err(format!("{:?}, but {:?}", self.slave, self.given));
        }
        let Heard {
            last,
            was_interrupted,
            is_enquired,
            may_receive,
        } = self.heard;
        let [.., noted, interrupted, enquired, leave] = self.master;
        let is_heard = noted == last && interrupted == u64::from(was_interrupted);
        let is_wished = enquired == u64::from(is_enquired) && leave == u64::from(may_receive);
        if !self.is_closed() && !(is_heard && (is_wished || self.is_idle())) {
            return Err(format!("{:?}, but {:?}", self.master, self.heard));
        }
        Ok(())
    }

    /// A leave to receive ends the opening with the next block that is acknowledged, or at once.
    fn check_reversed(&self, act: &MasterAct, acknowledged: u64, end: u64) -> Outcome {
        let may_receive = self.heard.may_receive;
        let is_at_once = *act == MasterAct::MayReceive && acknowledged == 0;
        let is_due = may_receive && (acknowledged == 1 || (is_at_once && !self.is_waiting()));
        if self.with_corollaries && (end == 4) != is_due {
            return Err(format!("{act:?}: end {end}, {:?}", self.heard));
        }
        Ok(())
    }

    /// A RINT is for one block, and for no other until an ACK was given. It is given exactly where one is
    /// asked for and a block is accepted.
    pub fn check_rint(&mut self, reply: u64, is_accepted: bool) -> Outcome {
        let block = self.progress.accepted.wrapping_sub(1);
        let given = self.given;
        if reply == 5 && given.rinted.is_some_and(|rinted| rinted != block) {
            return sentence('d', format!("RINT for block {block}, {given:?}"));
        }
        let is_due = is_accepted && given.is_asked;
        if self.with_corollaries && (reply == 5) != is_due {
            return Err(format!("reply {reply} to block {block}, {given:?}"));
        }
        match reply {
            1 => self.given.rinted = None,
            5 => {
                self.given.rinted = Some(block);
                self.given.is_asked = false;
                self.progress.was_rint_given = true;
            }
            _ => {}
        }
        Ok(())
    }

    /// A bare ENQ is answered by the last reply, or by NAK if there was none.
    pub fn check_again(&self, report: &[u64; 4]) -> Outcome {
        let expected = match (self.is_slave_open(), self.given.last) {
            (false, _) => [0; 4],
            (true, Some(Back::Ack(number))) => [1, number, 0, 0],
            (true, Some(Back::Rint)) => [5, 0, 0, 0],
            (true, _) => [2, 0, 0, 0],
        };
        if self.with_corollaries && *report != expected {
            return Err(format!("ENQ answered by {report:?}, {:?}", self.given));
        }
        Ok(())
    }

    /// A block that the master sends: the next of the messages started, or again the newest.
    pub fn check_sent(&mut self, unit: &BlockUnit, is_first: bool) -> Outcome {
        if is_first {
            self.progress.sent += 1;
            self.progress.resends = 0;
        } else {
            self.progress.resends += 1;
        }
        let index = self.progress.sent.wrapping_sub(1);
        let planned = self.plan.blocks.get(index);
        if planned != Some(&unit.block) {
            let why = format!("sent {unit:?}, block {index} of the messages is {planned:?}");
            return sentence('a', why);
        }
        if self.progress.resends > 5 {
            return Err(format!("sent {} times", self.progress.resends + 1));
        }
        Ok(())
    }

    /// A block that the slave appended to the text held: the next of those first sent.
    pub fn check_accepted(&mut self, unit: &BlockUnit, held: u64) -> Outcome {
        let index = self.progress.accepted;
        self.progress.accepted += 1;
        if index >= self.progress.sent {
            return sentence('a', format!("{index} accepted before, and as many sent"));
        }
        let first_sent = &self.plan.blocks[index];
        let expected = self.plan.text(first_sent);
        let appended = self.buffer.get(held as usize..);
        let appended = appended.and_then(|rest| rest.get(..unit.block.length));
        if unit.block.ending != first_sent.ending || appended != Some(expected) {
            let why = format!("accepted {unit:?}, block {index} sent is {first_sent:?}");
            return sentence('a', why);
        }
        Ok(())
    }

    /// A message that the slave reported complete, as it stands in the buffer.
    pub fn check_handed_over(&mut self, length: u64) -> Outcome {
        let index = self.progress.handed_over;
        self.progress.handed_over += 1;
        let message = self.buffer.get(..length as usize);
        if index >= self.progress.started || message != Some(self.plan.message(index)) {
            return sentence('c', format!("message {index} handed over is {message:?}"));
        }
        Ok(())
    }

    /// What the master reported beside what is to be sent. The resends that it tells are those of the
    /// history, and it fails after five of them. Done, or closed with no block out, the count is k; and so
    /// it is after it was reversed.
    pub fn check_report(&mut self, act: &MasterAct, report: &[u64; 10]) -> Outcome {
        let [_, _, _, _, _, acknowledged, done, end, count, resends] = *report;
        let is_out = self.master[0] == 2;
        let told = if is_out { self.progress.resends } else { 0 };
        if resends != told || count != self.count() || (done == 1 && acknowledged == 0) {
            return Err(format!("{act:?}: {report:?}, {:?}", self.progress));
        }
        if end == 1 && self.progress.resends != 5 {
            return Err(format!("failed with {} resends", self.progress.resends));
        }
        self.progress.done += done as usize;
        if !is_out {
            self.progress.resends = 0;
        }
        self.check_reversed(act, acknowledged, end)?;
        let accepted = self.progress.accepted;
        if end == 4 && count != accepted as u64 {
            return sentence('b', format!("reversed: {count}, {accepted} accepted"));
        }
        if done == 1 || end == 3 {
            return self.check_exact("done, or closed by the driver");
        }
        Ok(())
    }

    /// Where the count must be k.
    pub fn check_exact(&self, when: &str) -> Outcome {
        let (count, accepted) = (self.count(), self.progress.accepted);
        if self.with_corollaries && count != accepted as u64 {
            return Err(format!("{when}: the count is {count}, {accepted} accepted"));
        }
        Ok(())
    }

    /// The slave answers no good block with NAK.
    pub fn check_reply(&self, unit: &BlockUnit, reply: u64) -> Outcome {
        if self.with_corollaries && reply == 2 {
            return Err(format!("NAK to the good block {unit:?}"));
        }
        Ok(())
    }

    /// While a block is out no ACK comes but with its number or the one just before.
    pub fn check_ack(&self, number: u64) -> Outcome {
        let count = self.count();
        let is_near = number == (count % 8 + 1) % 8 || number == count % 8;
        if self.with_corollaries && self.master[0] == 2 && !is_near {
            return Err(format!("ACK {number} came with {count} acknowledged"));
        }
        Ok(())
    }
}
