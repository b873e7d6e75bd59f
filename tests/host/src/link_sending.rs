//! The acts of the sending end of a simulated link, and of its host.

use crate::compare::Outcome;
use crate::library;
use crate::link::{incoming, Link};
use crate::link_counts::Kind;
use crate::link_deviation::{Deviation, Duty};
use crate::link_ends::{named, Entry, Message, Report};
use host::ends_ffi;
use host::ends_ffi::names::{
    ACT_WORDS, SENDER_LAST, SENDER_PERSISTED_WORDS, SEND_RESYNCHRONIZE, SEND_TRANSACTION,
};
use host::ffi::names::MINUS_ONE;
use host::message_model;
use host::sender_model::{self, Act, Acted};

impl Link {
    /// An act of the sender. A resend is due if a timer ran out, or an N block or a refused one came.
    fn sender_act(&mut self, act: &Act, kind: Kind, due: bool) -> Report {
        let before = self.sending.state;
        let waited = self.sending.waiting();
        let mut report = [0; ACT_WORDS];
        let number = ends_ffi::sender_act(act, &mut self.sending.state, &mut report);
        self.report_otherwise(before, &mut report);
        let sent = named(&report);
        let done = Report {
            kind,
            number,
            before,
            waited,
            made: self.sending.sends_made(waited),
            due: waited.filter(|_| due),
            words: report,
        };
        let waits = self.sending.waiting();
        self.sending.history.push(Entry { sent, waits });
        self.sending.named.extend(sent);
        if !self.sending.has_circuit() {
            self.sending.named.clear();
        }
        self.counts
            .add(if number == 0 { kind } else { Kind::RefusedAct });
        self.count_report(&done);
        done
    }

    /// An act of the sender that applies.
    fn applied(&mut self, act: &Act, kind: Kind, due: bool) -> Result<Report, String> {
        let report = self.sender_act(act, kind, due);
        self.check_act(&report)?;
        Ok(report)
    }

    /// What a new circuit finds: empty lines, no block half read, no answer to send and no verdict
    /// that was not acted on. A decision that is open stays open.
    fn new_circuit(&mut self) -> Outcome {
        if self.keeps(Duty::EmptiesLines) {
            self.forward.clear();
            self.back.clear();
            self.sending.reader.restart()?;
            self.receiving.reader.restart()?;
        }
        if self.keeps(Duty::DropsReplies) {
            self.receiving.pending.clear();
        }
        if self.deviation.sender_drops_verdicts() {
            self.sending.arrived.clear();
        }
        if self.deviation.receiver_drops_verdicts() {
            self.receiving.drop_verdicts();
        }
        self.sending.named.clear();
        self.earlier.append(&mut self.sent);
        Ok(())
    }

    pub fn open(&mut self) -> Outcome {
        self.count_circuit();
        self.new_circuit()?;
        self.applied(&Act::Open, Kind::Open, false).map(|_| ())
    }

    pub fn end(&mut self) -> Outcome {
        self.applied(&Act::Ended, Kind::Ended, false).map(|_| ())
    }

    pub fn timer(&mut self) -> Outcome {
        let resends = self.told_resends();
        let act = Act::Timer { resends };
        self.applied(&act, Kind::Timer, true).map(|_| ())
    }

    pub fn can_submit(&self) -> bool {
        self.index(self.sending.state[SENDER_LAST].wrapping_add(1)) < self.log.len()
    }

    /// The next message of the log, if there is one.
    pub fn submit(&mut self) -> Outcome {
        let index = self.index(self.sending.state[SENDER_LAST].wrapping_add(1));
        let Some(message) = self.log.get(index).cloned() else {
            return Ok(());
        };
        let (limit, message) = (self.settings.limit, &message);
        let act = Act::Submit { limit, message };
        self.applied(&act, Kind::Submit, false).map(|_| ())
    }

    /// Any bytes, under any limit. What is sent under their number, if they are taken, is the log's
    /// message; a log that is at its end takes no more.
    pub fn submit_bytes(&mut self, limit: u64, message: &[u8]) -> Outcome {
        let act = Act::Submit { limit, message };
        let state = &self.sending.state;
        let number = match sender_model::act_on_words(&act, state, ACT_WORDS) {
            Acted::Unchanged(number) | Acted::Reported(number, _, _) => number,
        };
        if number != 0 {
            let report = self.sender_act(&act, Kind::RefusedAct, false);
            self.submit_otherwise();
            self.count_submission(number);
            return self.check_refused(number, &report);
        }
        if !self.can_submit() {
            return Ok(());
        }
        self.counts.add(Kind::OtherSubmission);
        self.applied(&act, Kind::Submit, false).map(|_| ())
    }

    /// An act that does not apply now.
    pub fn refused_act(&mut self, choice: usize) -> Outcome {
        let resends = self.resends;
        let act = match (choice, self.sending.has_circuit()) {
            (0, _) => Act::Reset,
            (_, true) => Act::Open,
            (1, false) => Act::Ended,
            (_, false) => Act::Timer { resends },
        };
        let report = self.sender_act(&act, Kind::RefusedAct, false);
        self.check_refused(11, &report)
    }

    pub fn sender_persists(&mut self) -> Outcome {
        self.counts.add(Kind::SenderPersists);
        let words = &self.sending.state[..SENDER_PERSISTED_WORDS];
        self.sending.persisted.copy_from_slice(words);
        self.sending.durable = self.sending.persisted;
        self.check()
    }

    pub fn can_write(&self) -> bool {
        let early = !self.keeps(Duty::SenderPersistsFirst);
        (early || self.sending.is_persisted()) && !self.sending.named.is_empty()
    }

    /// Writes the oldest message that was named, once all is persisted.
    pub fn sender_writes(&mut self, index: usize) -> Outcome {
        if !self.can_write() {
            return Ok(());
        }
        let index = self.oldest(Duty::WritesInOrder, index);
        let Some(message) = self.sending.named.remove(index) else {
            return Ok(());
        };
        self.counts.add(Kind::SenderWrites);
        let length = self.write(message)?;
        self.forward.extend_from_slice(&self.buffer[..length]);
        if self.deviation == Deviation::RequestsTwice {
            self.forward.extend(self.earlier.drain(..).flatten());
            self.earlier.push(self.buffer[..length].to_vec());
        }
        self.check()
    }

    /// Writes a message as a block into the buffer.
    fn write(&mut self, message: Message) -> Result<usize, String> {
        let mut report = [0; 2];
        let (settings, index) = (&self.settings, self.index(message[1]));
        let number = match message {
            [SEND_TRANSACTION, number] => {
                let kind = u64::from(b'D');
                let Some(data) = self.log.get(index) else {
                    return Err(format!("{number} is to be sent, and is not in the log"));
                };
                library::write(settings, kind, data, &mut self.buffer, 0, &mut report)
            }
            [kind, _] => {
                let minus_one = kind == SEND_RESYNCHRONIZE;
                let number = if minus_one { MINUS_ONE } else { 0 };
                ends_ffi::control_block(settings, b"ADT", number, &mut self.buffer, 0, &mut report)
            }
        };
        match number {
            0 => Ok(report[0] as usize),
            _ => Err(format!("writing {message:?} was refused by {number}")),
        }
    }

    /// The sender's reader reads at most so many bytes; what it finds waits behind what it found
    /// before.
    pub fn sender_reads(&mut self, most: usize) -> Outcome {
        if self.back.is_empty() {
            return Ok(());
        }
        self.counts.add(Kind::SenderReads);
        let part = &self.back[..most.clamp(1, self.back.len())];
        let (used, arrived) = self.sending.reader.read(part)?;
        self.back.drain(..used);
        self.sending.arrived.extend(arrived);
        self.check()
    }

    /// One of the blocks that were read, not always the oldest, is reported to the sender.
    pub fn sender_acts(&mut self, index: usize) -> Outcome {
        let Some(mut arrived) = self.sending.arrived.remove(index) else {
            return Ok(());
        };
        if index > 0 {
            self.counts.add(Kind::BeforeOlder);
        }
        self.answer_otherwise(&mut arrived);
        let block = incoming(&arrived);
        let resends = self.told_resends();
        let act = Act::Block { resends, block };
        if !self.sending.has_circuit() {
            self.counts.add(Kind::BlockWithoutCircuit);
            let report = self.sender_act(&act, Kind::Block, false);
            return self.check_refused(11, &report);
        }
        let accepted = arrived.number == 0 && arrived.block_type == u64::from(b'D');
        let due = !accepted || message_model::answer(&arrived.data).is_none();
        if arrived.number == 0 && !accepted {
            self.counts.add(Kind::NakBlock);
        }
        let report = self.applied(&act, Kind::Block, due)?;
        if due {
            return Ok(());
        }
        self.check_answer(&arrived.data, &report)
    }

    /// One of the messages that were named and not written is dropped.
    pub fn sender_forgets(&mut self, index: usize) -> Outcome {
        if self.sending.named.remove(index).is_some() {
            self.counts.add(Kind::SenderForgets);
        }
        self.check()
    }

    /// One of the blocks that were read is dropped.
    pub fn sender_discards(&mut self, index: usize) -> Outcome {
        if self.sending.arrived.remove(index).is_some() {
            self.counts.add(Kind::SenderDiscards);
        }
        self.check()
    }

    /// The sender goes on from what is persisted, without a circuit and with nothing named.
    fn restore_sender(&mut self) {
        self.sending.restore();
        if self.keeps(Duty::DropsNamed) {
            self.sending.named.clear();
        }
    }

    /// Storing failed. The lines, and what was read, are as they were.
    pub fn sender_restores(&mut self) -> Outcome {
        self.count_restore();
        self.restore_sender();
        self.check()
    }

    /// The sender crashes: what is not persisted is lost, and the lines are empty.
    pub fn sender_crashes(&mut self) -> Outcome {
        self.count_crash(Kind::SenderCrash);
        self.sender_finds();
        self.restore_sender();
        self.sending.arrived.clear();
        self.sending.reader.restart()?;
        self.forward.clear();
        self.back.clear();
        self.check()
    }
}
