//! What demand 3 says of a link, asserted after every act.

use crate::compare::Outcome;
use crate::library;
use crate::link::Link;
use crate::link_counts::Kind;
use crate::link_deviation::Deviation;
use crate::link_ends::{control_id, named, Report};
use host::ends_ffi::names::{
    ACT_CODE, ACT_DELIVERED, ACT_EVENT, ACT_SEND, ACT_SENDS, ACT_SEND_NUMBER, DECISION_CHANGES,
    DECISION_TRANSACTION, EVENT_DELIVERED, EVENT_DROPPED, EVENT_FROZE, EVENT_NONE,
    RECEIVER_EXPECTED, RECEIVER_NEW_EXPECTED, SENDER_DELIVERED, SENDER_FIRST, SENDER_FROZEN,
    SENDER_LAST, SENDER_RESYNCHRONIZED, SENDER_SENDS, SENDER_WAITING, SEND_NOTHING,
    SEND_TRANSACTION, WAITING_CLOSED, WAITING_IDLE,
};
use host::message_model;

impl Link {
    /// At every moment: what the receiver has stored is the first of the log, byte for byte; what the
    /// sender takes as delivered covers that or one less, as it is held and as it is persisted; the
    /// sender is not frozen; and on an open circuit something waits, or all is delivered. Where the hosts
    /// keep their duties the receiver holds what is stored, or is behind it as long as that is not reported.
    pub fn check(&self) -> Outcome {
        let (sending, receiving) = (&self.sending, &self.receiving);
        for (index, (data, _)) in receiving.transactions.iter().enumerate() {
            if self.log.get(index) != Some(data) {
                let text = library::text(data);
                return Err(format!(
                    "after {index} transactions the receiver has {text}"
                ));
            }
        }
        let k = receiving.transactions.len() as u64;
        for words in [&sending.state[..], &sending.persisted[..]] {
            let covered = words[SENDER_DELIVERED]
                .wrapping_add(1)
                .wrapping_sub(self.first);
            if covered != k && covered.wrapping_add(1) != k {
                return Err(format!("{k} transactions stored, {covered} delivered"));
            }
        }
        if sending.state[SENDER_FROZEN] != 0 || sending.persisted[SENDER_FROZEN] != 0 {
            return Err("the sender froze".to_string());
        }
        let is_idle = sending.state[SENDER_WAITING] == WAITING_IDLE;
        if is_idle && sending.state[SENDER_DELIVERED] != sending.state[SENDER_LAST] {
            return Err(format!("nothing waits: {:?}", sending.state));
        }
        let holds = match receiving.is_persisted {
            true => receiving.state[RECEIVER_NEW_EXPECTED],
            false => receiving.state[RECEIVER_EXPECTED],
        };
        if self.deviation == Deviation::Faithful && holds != receiving.expected {
            let expected = receiving.expected;
            return Err(format!("the receiver holds {holds}, {expected} is stored"));
        }
        Ok(())
    }

    /// After an act of the sender that applies.
    pub fn check_act(&mut self, report: &Report) -> Outcome {
        if report.number != 0 {
            let number = report.number;
            return Err(format!("an act that applies was refused by {number}"));
        }
        if report.words[ACT_EVENT] == EVENT_FROZE {
            return Err("the sender froze".to_string());
        }
        self.check_words(report)?;
        self.check_resend(report)?;
        self.check_sends(report)?;
        self.check_named(report)?;
        self.check_delivered(report)?;
        self.check()
    }

    /// A circuit begins and ends where the act says so, and only a submit changes what is submitted.
    fn check_words(&self, report: &Report) -> Outcome {
        let (before, state) = (&report.before, &self.sending.state);
        let is_open = match report.kind {
            Kind::Open => true,
            Kind::Ended => false,
            _ => before[SENDER_WAITING] != WAITING_CLOSED && !report.is_abandoned(),
        };
        let submitted = u64::from(report.kind == Kind::Submit);
        if self.sending.has_circuit() != is_open
            || state[SENDER_FIRST] != self.first
            || state[SENDER_LAST] != before[SENDER_LAST].wrapping_add(submitted)
        {
            return Err(format!("{before:?} before, {state:?}"));
        }
        Ok(())
    }

    /// What is due is sent again, and abandoned exactly if r + 1 sends were made of it.
    fn check_resend(&self, report: &Report) -> Outcome {
        let (made, sent) = (report.made, named(&report.words));
        let is_abandoned = report.is_abandoned();
        if is_abandoned != (report.due.is_some() && made > self.resends) {
            return Err(format!("{made} sends made, abandoned: {is_abandoned}"));
        }
        if is_abandoned && self.sending.has_circuit() {
            return Err("abandoned, and the circuit did not end".to_string());
        }
        if report.due.is_some() && !is_abandoned && sent != report.due {
            let due = report.due;
            return Err(format!("a resend of {due:?} was due, sent {sent:?}"));
        }
        Ok(())
    }

    /// The report counts the sends of what waits or was abandoned, at most r + 1.
    fn check_sends(&self, report: &Report) -> Outcome {
        let (reported, state) = (report.words[ACT_SENDS], self.sending.state[SENDER_SENDS]);
        let waits = self.sending.sends_made(self.sending.waiting());
        let made = if report.is_abandoned() {
            report.made
        } else {
            waits
        };
        if reported != made || state != waits || made > self.resends + 1 {
            return Err(format!(
                "{made} sends made, reported {reported}, in the state {state}"
            ));
        }
        Ok(())
    }

    /// What is sent waits, what begins to wait is sent at once, and nothing is named again that is
    /// known to be delivered.
    fn check_named(&self, report: &Report) -> Outcome {
        let (sent, waits) = (named(&report.words), self.sending.waiting());
        if sent.is_some() && sent != waits {
            return Err(format!("sent {sent:?}, and {waits:?} waits"));
        }
        if waits.is_some() && waits != report.waited && sent != waits {
            return Err(format!("{waits:?} began to wait and was not sent"));
        }
        let words = [&self.sending.persisted[..], &self.sending.state[..]];
        for delivered in words.map(|words| words[SENDER_DELIVERED]) {
            if report.words[ACT_SEND] == SEND_TRANSACTION
                && report.words[ACT_SEND_NUMBER] <= delivered
            {
                return Err(format!("named {sent:?}, and {delivered} is delivered"));
            }
        }
        Ok(())
    }

    /// Transactions are delivered one after the other, with the verdict that the receiver gave.
    fn check_delivered(&mut self, report: &Report) -> Outcome {
        let (state, words) = (&self.sending.state, &report.words);
        let is_event = words[ACT_EVENT] == EVENT_DELIVERED;
        let after = report.before[SENDER_DELIVERED].wrapping_add(is_event.into());
        let number = if is_event { after } else { 0 };
        if state[SENDER_DELIVERED] != after || words[ACT_DELIVERED] != number {
            let before = report.before;
            return Err(format!("{before:?} before, {state:?}, report {words:?}"));
        }
        if !is_event {
            return Ok(());
        }
        let code = words[ACT_CODE];
        let received = self.receiving.transactions.get(self.index(after));
        if !received.is_some_and(|(_, verdict)| code == 0 || code == *verdict) {
            let verdict = received.map(|(_, verdict)| verdict);
            return Err(format!(
                "{after} delivered with code {code}, the receiver's is {verdict:?}"
            ));
        }
        self.counts.add(match code {
            0 => Kind::UnknownVerdict,
            1 => Kind::Accepted,
            _ => Kind::ApplicationError,
        });
        Ok(())
    }

    /// An intact answer to what waits is taken, to a transaction as its delivery; any other is dropped.
    pub fn check_answer(&self, data: &[u8], report: &Report) -> Outcome {
        let Some(waited) = report.waited else {
            return Ok(());
        };
        let answer = message_model::answer(data);
        let id = answer.map_or(&b""[..], |answer| answer.control_id.bytes);
        let is_intact = id == control_id(waited).as_bytes();
        let words = &report.words;
        let is_delivered = words[ACT_EVENT] == EVENT_DELIVERED && words[ACT_DELIVERED] == waited[1];
        if is_intact && waited[0] == SEND_TRANSACTION && !is_delivered {
            return Err(format!("an answer to {waited:?} came, report {words:?}"));
        }
        if (self.sending.waiting() == Some(waited)) == is_intact {
            return Err(format!("{id:?} answered {waited:?}, report {words:?}"));
        }
        Ok(())
    }

    /// After an act that is refused: the state is equal, and nothing is to be sent.
    pub fn check_refused(&self, refusal: u64, report: &Report) -> Outcome {
        let (number, words) = (report.number, &report.words);
        if number != refusal || self.sending.state != report.before {
            return Err(format!(
                "an act that does not apply was answered by {number}"
            ));
        }
        if words[ACT_SEND] != SEND_NOTHING || words[ACT_EVENT] != EVENT_NONE {
            return Err(format!("{number}, and report {words:?}"));
        }
        // 1 leaves the report as it was
        if refusal != 1 {
            self.check_sends(report)?;
        }
        self.check()
    }

    pub fn count_report(&mut self, report: &Report) {
        let sent = named(&report.words);
        if report.is_abandoned() {
            self.counts.add(Kind::Abandoned);
        }
        if report.due.is_some() && sent == report.due {
            self.counts.add(Kind::Resend);
        }
        if report.words[ACT_EVENT] == EVENT_DROPPED {
            self.counts.add(Kind::DroppedAnswer);
        }
    }

    pub fn count_submission(&mut self, number: u64) {
        self.counts.add(match number {
            1 => Kind::SubmissionSetting,
            3 => Kind::SubmissionByte,
            4 => Kind::SubmissionLong,
            9 => Kind::SubmissionHead,
            _ => Kind::SubmissionNumber,
        });
    }

    /// What an act of the receiver on a block comes upon.
    pub fn count_receiving(&mut self) {
        let kinds = [
            (Kind::WhileOthersWait, !self.receiving.arrived.is_empty()),
            (Kind::OfferedAgain, self.receiving.was_refused),
        ];
        self.count_all(&kinds);
    }

    /// A report of failure.
    pub fn count_failure(&mut self) {
        let report = &self.receiving.decided.report;
        let kinds = [
            (Kind::Failures, true),
            (Kind::FailedTransaction, report[DECISION_TRANSACTION] != 0),
            (Kind::FailedNothing, report[DECISION_CHANGES] == 0),
        ];
        self.count_all(&kinds);
    }

    /// What a restart of the receiver on the same circuit comes upon.
    pub fn count_receiver_restore(&mut self) {
        let end = &self.receiving;
        let kinds = [
            (Kind::ReceiverRestores, true),
            (
                Kind::RestoreBeforeStoring,
                end.is_open() && !end.is_persisted,
            ),
            (Kind::RestoreBeforeReport, end.is_persisted),
            (Kind::RestorePending, !end.pending.is_empty()),
        ];
        self.count_all(&kinds);
    }

    /// What storing at the sender comes upon that fails.
    pub fn count_restore(&mut self) {
        let kinds = [
            (Kind::SenderRestores, true),
            (Kind::SenderRestoreUnstored, !self.sending.is_persisted()),
            (Kind::SenderRestoreWithCircuit, self.sending.has_circuit()),
        ];
        self.count_all(&kinds);
    }

    /// What a new circuit comes upon.
    pub fn count_circuit(&mut self) {
        let end = &self.receiving;
        let kinds = [
            (Kind::CircuitWhileOpen, end.is_open() && !end.is_persisted),
            (Kind::CircuitBeforeReport, end.is_persisted),
        ];
        self.count_all(&kinds);
    }

    /// Counts those that are so.
    pub fn count_all(&mut self, kinds: &[(Kind, bool)]) {
        for (kind, _) in kinds.iter().filter(|(_, is)| *is) {
            self.counts.add(*kind);
        }
    }

    /// What a crash comes upon.
    pub fn count_crash(&mut self, kind: Kind) {
        let is_sender = kind == Kind::SenderCrash;
        let end = &self.receiving;
        let is_open = !is_sender && end.is_open();
        let has_bytes = !self.forward.is_empty() || !self.back.is_empty();
        let is_first = self.sending.persisted[SENDER_RESYNCHRONIZED] == 0;
        let is_unstored = is_sender && !self.sending.is_persisted();
        let kinds = [
            (kind, true),
            (Kind::SenderCrashUnstored, is_unstored),
            (Kind::CrashBeforeStoring, is_open && !end.is_persisted),
            (Kind::CrashBeforeReport, is_open && end.is_persisted),
            (
                Kind::CrashBeforeSending,
                !is_sender && !end.pending.is_empty(),
            ),
            (Kind::CrashWithBytes, has_bytes),
            (Kind::CrashInFirstExchange, is_first),
        ];
        self.count_all(&kinds);
    }
}
