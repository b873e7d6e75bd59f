//! The acts of the receiving end of a simulated link, and of its host: decide, store, report, send.

use crate::compare::Outcome;
use crate::guarded::same;
use crate::line::Arrived;
use crate::link::Link;
use crate::link_counts::Kind;
use crate::link_deviation::{Deviation, Duty};
use crate::link_ends::Decided;
use host::ends_ffi;
use host::ends_ffi::names::{
    DECISION_BLOCK, DECISION_CHANGES, DECISION_EXPECTED, DECISION_OPENED, DECISION_TRANSACTION,
    DECISION_WORDS, NOT_STORED, RECEIVER_EXPECTED, STORED,
};
use host::model::Layer;

/// A buffer for a reply: its length, and the offset at which the reply is to begin.
#[derive(Clone, Copy)]
pub struct ReplyBuffer {
    pub length: usize,
    pub start: usize,
}

/// What the receiver's host stores in one act.
#[derive(Clone, Copy, PartialEq, Eq, Debug)]
pub enum Part {
    Both,
    Number,
    Transaction,
}

const UNTOUCHED: [u64; DECISION_WORDS] = [u64::MAX; DECISION_WORDS];

impl Link {
    /// The receiver's reader reads at most so many bytes; what it finds waits behind what it found
    /// before, also while a decision is open.
    pub fn receiver_reads(&mut self, most: usize) -> Outcome {
        if self.forward.is_empty() {
            return Ok(());
        }
        self.counts.add(Kind::ReceiverReads);
        let part = &self.forward[..most.clamp(1, self.forward.len())];
        let (used, arrived) = self.receiving.reader.read(part)?;
        self.forward.drain(..used);
        self.receiving.arrived.extend(arrived);
        self.check()
    }

    /// The oldest block that was read: it is decided on where it was accepted. A refused one is answered
    /// by an N block on a hybrid link, and dropped.
    pub fn receiver_takes(
        &mut self,
        index: usize,
        application: u64,
        buffer: ReplyBuffer,
    ) -> Outcome {
        let index = self.oldest(Duty::OffersInOrder, index);
        let Some(arrived) = self.receiving.arrived.remove(index) else {
            return Ok(());
        };
        let is_refused = if self.receiving.is_open() {
            self.refused_while_open(&arrived, application, buffer)?
        } else {
            self.takes(&arrived, application, buffer)?;
            false
        };
        if is_refused {
            self.receiving.arrived.insert(index, arrived);
        }
        self.receiving.was_refused = is_refused;
        self.check()
    }

    /// No decision is open: a decision, or an N reply.
    fn takes(&mut self, arrived: &Arrived, application: u64, buffer: ReplyBuffer) -> Outcome {
        self.count_receiving();
        if arrived.number != 0 {
            return self.naks(arrived.number, buffer);
        }
        let mut report = UNTOUCHED;
        let (data, state) = (&arrived.data, &mut self.receiving.state);
        let number = ends_ffi::decide(application, arrived.block_type, data, state, &mut report);
        same("decision", &[number], &[0])?;
        if report[DECISION_BLOCK] != 0 {
            return self.naks(report[DECISION_BLOCK], buffer);
        }
        if report[DECISION_OPENED] == 1 {
            self.counts.add(Kind::Decides);
            if !self.sending.has_circuit() {
                self.counts.add(Kind::DecidedWithoutCircuit);
            }
            self.receiving.decided = Decided {
                message: data.clone(),
                application,
                report,
            };
        }
        Ok(())
    }

    /// The N reply of a hybrid link; on a minimal one there is none.
    fn naks(&mut self, number: u64, buffer: ReplyBuffer) -> Outcome {
        if self.settings.layer == Layer::Minimal {
            return Ok(());
        }
        self.counts.add(Kind::Naks);
        let mut report = [0; 2];
        let (settings, state) = (&self.settings, &self.receiving.state);
        let bytes = &mut self.buffer[..buffer.length];
        let found = ends_ffi::nak(settings, number, state, bytes, buffer.start, &mut report);
        same("N reply", &[found], &[0])?;
        self.owe(buffer, report[0] as usize);
        Ok(())
    }

    /// A decision is open: another is refused by 11, and so is an N reply, and nothing changes. The block
    /// stays the oldest, and may be dropped; a refused one of a minimal link is dropped at once.
    fn refused_while_open(
        &mut self,
        arrived: &Arrived,
        application: u64,
        buffer: ReplyBuffer,
    ) -> Result<bool, String> {
        let mut state = self.receiving.state;
        let (settings, kind, data) = (&self.settings, arrived.block_type, &arrived.data);
        let mut report = UNTOUCHED;
        let bytes = &mut self.buffer[..buffer.length];
        let number = match (arrived.number, settings.layer) {
            (0, _) => ends_ffi::decide(application, kind, data, &mut state, &mut report),
            (_, Layer::Minimal) => return Ok(false),
            (number, Layer::Hybrid) => {
                ends_ffi::nak(settings, number, &state, bytes, buffer.start, &mut report)
            }
        };
        self.counts.add(if arrived.number == 0 {
            Kind::RefusedBlock
        } else {
            Kind::RefusedNak
        });
        if number != 11 || state != self.receiving.state || report != UNTOUCHED {
            return Err(format!(
                "while a decision is open a block was answered by {number}"
            ));
        }
        Ok(true)
    }

    /// What was written from the offset on waits to be sent.
    fn owe(&mut self, buffer: ReplyBuffer, length: usize) {
        let from = match self.deviation {
            Deviation::ReplyFromBeginning => 0,
            _ => buffer.start,
        };
        if buffer.start > 0 {
            self.counts.add(Kind::ReplyAtOffset);
        }
        let reply = self.buffer[from..][..length].to_vec();
        self.receiving.pending.push_back(reply);
    }

    /// One of the blocks that were read is dropped.
    pub fn receiver_discards(&mut self, index: usize) -> Outcome {
        if self.receiving.arrived.remove(index).is_some() {
            self.counts.add(Kind::ReceiverDiscards);
            if index == 0 && self.receiving.was_refused {
                self.counts.add(Kind::RefusedAndDropped);
            }
        }
        self.receiving.was_refused &= index > 0;
        self.check()
    }

    /// What the open decision says is stored, once: its transaction and the expected number as one act,
    /// unless the host does not.
    pub fn receiver_persists(&mut self, part: Part) -> Outcome {
        let end = &mut self.receiving;
        if !end.is_open() || end.is_persisted {
            return Ok(());
        }
        self.counts.add(Kind::ReceiverPersists);
        end.older.push(end.stored());
        let Decided {
            message,
            application,
            report,
        } = &end.decided;
        let has_number = end.half == Some(Part::Number);
        let has_transaction = end.half == Some(Part::Transaction);
        let is_transaction = report[DECISION_TRANSACTION] != 0;
        if part != Part::Number && !has_transaction && is_transaction {
            end.transactions.push((message.clone(), *application));
        }
        if part != Part::Transaction && !has_number {
            end.expected = match self.deviation {
                Deviation::OldNumberStored => end.state[RECEIVER_EXPECTED],
                _ => report[DECISION_EXPECTED],
            };
        }
        end.is_persisted = part == Part::Both || end.half.is_some_and(|half| half != part);
        end.half = (!end.is_persisted).then_some(part);
        // a decision that changes nothing has nothing written
        if report[DECISION_CHANGES] == 1 {
            end.durable = end.stored();
        }
        self.check()
    }

    /// Whether the host says so: success once the open decision is stored, failure where it is not.
    pub fn may_report(&self, is_success: bool) -> bool {
        let end = &self.receiving;
        let is_true = match is_success {
            true => end.is_persisted || !self.keeps(Duty::ReportsPersisted),
            false => !end.is_persisted && end.half.is_none() || !self.keeps(Duty::ReportsFailed),
        };
        end.is_open() && is_true
    }

    /// The report on the open decision. Of success it gives the answer; of failure nothing, and the state
    /// of before. A buffer that is too short is refused by 2, and the decision stays open.
    pub fn receiver_reports(&mut self, is_success: bool, buffer: ReplyBuffer) -> Outcome {
        if !self.may_report(is_success) {
            return Ok(());
        }
        let is_short = buffer.length.saturating_sub(buffer.start) < self.reply_need();
        let before = self.receiving.state;
        let (number, length) = self.calls_answer(is_success, buffer);
        if is_short {
            self.counts.add(Kind::ShortReport);
            return match (number, self.receiving.state == before) {
                (2, true) => self.check(),
                _ => Err(format!("a buffer too short was answered by {number}")),
            };
        }
        same("report", &[number], &[0])?;
        self.receiving.is_persisted = false;
        self.receiving.half = None;
        if is_success {
            self.counts.add(Kind::Successes);
            self.owe(buffer, length);
        } else {
            self.count_failure();
            self.leaves_write();
            same("length of nothing to send", &[length], &[0])?;
        }
        self.check()
    }

    fn calls_answer(&mut self, is_success: bool, buffer: ReplyBuffer) -> (u64, usize) {
        let stored = if is_success { STORED } else { NOT_STORED };
        let mut report = [0; 2];
        let (settings, state) = (&self.settings, &mut self.receiving.state);
        let bytes = &mut self.buffer[..buffer.length];
        let number = ends_ffi::answer(settings, stored, state, bytes, buffer.start, &mut report);
        (number, report[0] as usize)
    }

    /// A report with no decision open: 11, and nothing changes.
    pub fn reports_late(&mut self, is_success: bool, buffer: ReplyBuffer) -> Outcome {
        if self.receiving.is_open() {
            return Ok(());
        }
        self.counts.add(Kind::LateReport);
        let before = self.receiving.state;
        let (number, length) = self.calls_answer(is_success, buffer);
        if number != 11 || length != 0 || self.receiving.state != before {
            return Err(format!(
                "a report with no decision open was answered by {number}"
            ));
        }
        self.check()
    }

    /// Sends the oldest reply, whatever is stored.
    pub fn replies(&mut self) -> Outcome {
        let Some(reply) = self.receiving.pending.pop_front() else {
            return Ok(());
        };
        self.counts.add(Kind::Replies);
        self.back.extend_from_slice(&reply);
        if !self.keeps(Duty::BringsNothingLate) {
            self.sent.push(reply);
        }
        self.check()
    }

    /// The receiver is what is stored, with no decision open; a report that is under way ends.
    fn restore_receiver(&mut self) {
        if self.receiving.is_open() && !self.receiving.is_persisted {
            self.leaves_write();
        }
        let keeps_report = !self.keeps(Duty::DropsReports) && self.receiving.is_persisted;
        self.receiving.restore();
        self.receiving.is_persisted = keeps_report;
    }

    /// The host cannot tell whether it stored. It reports nothing, and goes on from what is stored, on the
    /// same circuit.
    pub fn receiver_restores(&mut self) -> Outcome {
        self.count_receiver_restore();
        self.restore_receiver();
        self.check()
    }

    /// The receiver crashes: an open decision is lost, what is stored stands. The sender's circuit stays
    /// open: it does not know.
    pub fn receiver_crashes(&mut self) -> Outcome {
        self.count_crash(Kind::ReceiverCrash);
        self.receiver_finds();
        self.restore_receiver();
        self.receiving.pending.clear();
        self.receiving.drop_verdicts();
        self.receiving.reader.restart()?;
        self.forward.clear();
        self.back.clear();
        self.check()
    }
}
