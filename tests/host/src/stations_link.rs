//! A link of the two X3.28 stations of the library: a master, a slave, and a line each way that loses,
//! detectably damages and repeats units, brings noise, and keeps their order. The state of each station is
//! its words.

use crate::compare::Outcome;
use crate::stations_checks::{Given, Heard, Progress};
use crate::stations_counts::{StationsCounts, StationsKind as Kind};
use crate::stations_plan::{Plan, PlannedBlock};
use crate::stations_readings::{Reading, SlaveCall};
use crate::stations_units::{Back, BlockUnit, Forward, LinkAct};
use host::master_ffi;
use host::master_model::{
    self, MasterAct, MasterActed, Numbering, MASTER_REPORT_WORDS, MASTER_WORDS, REPLY_ACK,
    REPLY_DAMAGED, REPLY_EOT, REPLY_NAK, REPLY_RINT,
};
use host::station_ffi;
use host::station_model::{Unit, STATION_REPORT_WORDS, STATION_WORDS};

/// Whose acts the master's are.
#[derive(Clone, Copy, Debug, PartialEq, Eq)]
pub enum MasterOf {
    Library,
    Model(Numbering),
}

/// What a link begins with.
#[derive(Clone, Copy)]
pub struct Beginning {
    pub master_of: MasterOf,
    pub reading: Reading,
    /// How many units a line holds; what is sent onto a full one is lost.
    pub capacity: usize,
    pub buffer_length: usize,
    /// Whether the slave's driver takes an ENQ before the first block for a bid, opens its station anew and
    /// answers ACK 0 itself.
    pub answers_bids: bool,
    /// Whether what follows from the sentences is looked at too.
    pub with_corollaries: bool,
}

pub struct Link<'a> {
    pub plan: &'a Plan,
    pub beginning: Beginning,
    pub master: [u64; MASTER_WORDS],
    pub slave: [u64; STATION_WORDS],
    pub was_slave_open: bool,
    pub buffer: Vec<u8>,
    pub forward: Vec<Forward>,
    pub back: Vec<Back>,
    pub progress: Progress,
    pub given: Given,
    pub heard: Heard,
    pub with_corollaries: bool,
    pub counts: StationsCounts,
}

type SlaveReport = [u64; STATION_REPORT_WORDS];
type MasterReport = [u64; MASTER_REPORT_WORDS];

impl<'a> Link<'a> {
    /// An opened master, a slave that is not yet open, and empty lines.
    pub fn new(plan: &'a Plan, beginning: Beginning) -> Result<Link<'a>, String> {
        let mut link = Link {
            plan,
            beginning,
            master: [0; MASTER_WORDS],
            slave: [0; STATION_WORDS],
            was_slave_open: false,
            buffer: vec![0xEE; beginning.buffer_length],
            forward: Vec::with_capacity(beginning.capacity),
            back: Vec::with_capacity(beginning.capacity),
            progress: Progress::default(),
            given: Given::default(),
            heard: Heard::default(),
            with_corollaries: beginning.with_corollaries,
            counts: StationsCounts::new(),
        };
        if master_ffi::master_fresh(&mut link.master) != 0
            || station_ffi::station_fresh(&mut link.slave) != 0
        {
            return Err("no fresh stations".to_string());
        }
        link.master_acts(&MasterAct::Open)?;
        Ok(link)
    }

    /// The master's driver opens it again, and the slave's does not: what was sent and accepted counts
    /// from here.
    pub fn open_again(&mut self, plan: &'a Plan) -> Outcome {
        self.plan = plan;
        self.progress = Progress::default();
        self.heard = Heard::default();
        self.master_acts(&MasterAct::Open)
    }

    pub fn count(&self) -> u64 {
        self.master[5]
    }

    pub fn is_idle(&self) -> bool {
        self.master[0] == 1
    }

    pub fn is_waiting(&self) -> bool {
        self.master[0] == 2
    }

    pub fn is_closed(&self) -> bool {
        self.master[0] == 0
    }

    pub fn is_slave_open(&self) -> bool {
        self.slave[0] == 1
    }

    pub fn are_lines_empty(&self) -> bool {
        self.forward.is_empty() && self.back.is_empty()
    }

    pub fn act(&mut self, act: &LinkAct) -> Outcome {
        match *act {
            LinkAct::Start => self.starts()?,
            LinkAct::Close => self.master_acts(&MasterAct::Close)?,
            LinkAct::TimerA => {
                let is_early = !self.are_lines_empty();
                self.counts.add_if(Kind::EarlyTimer, is_early);
                self.master_acts(&MasterAct::Timer)?;
            }
            LinkAct::Enquire => self.enquires()?,
            LinkAct::MayReceive => self.may_receive()?,
            LinkAct::MasterEot => {
                self.counts.add(Kind::MasterEot);
                self.put_forward(Forward::Eot);
            }
            LinkAct::SlaveOpens => {
                let dropped = self.counts.get(Kind::DroppedWhileClosed) > 0;
                self.counts.add_if(Kind::OpenedAfterDrop, dropped);
                self.was_slave_open = true;
                self.slave_acts(&Unit::Opened)?;
            }
            LinkAct::Ask => self.asks()?,
            LinkAct::SlaveEot => {
                self.counts.add(Kind::SlaveEot);
                self.slave_acts(&Unit::End)?;
                self.put_back(Back::EotByDriver);
            }
            LinkAct::TimerD => {
                self.counts.add(Kind::TimerD);
                self.slave_acts(&Unit::End)?;
            }
            LinkAct::UnitComes { index, eot_instead } => self.unit_comes(index, eot_instead)?,
            LinkAct::ReplyComes(index) => self.reply_comes(index)?,
            _ => self.line_acts(act),
        }
        self.check()
    }

    fn starts(&mut self) -> Outcome {
        let Some(message) = self.plan.messages.get(self.progress.started) else {
            return Err("no message is left".to_string());
        };
        self.progress.started += 1;
        self.counts.add_if(Kind::EmptyMessage, message.length == 0);
        self.master_acts(&MasterAct::Start {
            message_length: message.length as u64,
            block_size: message.block_size,
        })
    }

    fn enquires(&mut self) -> Outcome {
        let is_out = self.is_waiting();
        let is_early = is_out && !self.are_lines_empty();
        self.counts.add_if(Kind::Enquiry, is_out);
        self.counts.add_if(Kind::EarlyEnquiry, is_early);
        self.counts.add_if(Kind::EnquiryRefused, !is_out);
        self.wishes(&MasterAct::Enquire, is_out)
    }

    fn may_receive(&mut self) -> Outcome {
        let applies = !self.is_closed() && self.heard.was_interrupted;
        let is_out = self.is_waiting();
        self.counts.add_if(Kind::LeaveBlockOut, applies && is_out);
        self.counts.add_if(Kind::LeaveNoneOut, applies && !is_out);
        self.counts.add_if(Kind::LeaveRefused, !applies);
        self.heard.may_receive |= applies;
        self.wishes(&MasterAct::MayReceive, applies)
    }

    /// Refused exactly when one is pending, no ACK was given since the last, or the slave is closed.
    fn asks(&mut self) -> Outcome {
        let Given {
            is_asked, rinted, ..
        } = self.given;
        let applies = self.is_slave_open() && !is_asked && rinted.is_none();
        self.counts.add_if(Kind::Asked, applies);
        self.counts.add_if(Kind::AskRefused, !applies);
        let before = self.slave;
        let is_read_so = applies || !self.with_corollaries;
        match self.slave_call(&Unit::Interrupt, false) {
            (0, report) if is_read_so && report == [0; STATION_REPORT_WORDS] => {
                self.given.is_asked = true;
                Ok(())
            }
            (11, _) if !applies && self.slave == before => Ok(()),
            answered => Err(format!("RINT asked for: {answered:?}, {:?}", self.given)),
        }
    }

    /// What the master's driver wishes is refused by 11, and nothing changed, exactly where it does not
    /// apply.
    fn wishes(&mut self, act: &MasterAct, applies: bool) -> Outcome {
        let before = self.master;
        match self.master_call(act) {
            (0, report) if applies => self.reported(act, &report),
            (11, _) if !applies && self.master == before => Ok(()),
            answered => Err(format!("{act:?}: {answered:?}, applies: {applies}")),
        }
    }

    fn master_acts(&mut self, act: &MasterAct) -> Outcome {
        self.wishes(act, true)
    }

    /// One call of the master's.
    fn master_call(&mut self, act: &MasterAct) -> (u64, MasterReport) {
        self.counts.add(Kind::MasterCall);
        let mut report = [0; MASTER_REPORT_WORDS];
        let reading = self.beginning.reading;
        reading.master_before(act, &mut self.master);
        let number = match self.beginning.master_of {
            MasterOf::Library => master_ffi::master_act(act, &mut self.master, &mut report),
            MasterOf::Model(numbering) => self.model_acts(act, &mut report, numbering),
        };
        reading.master_after(act, &mut self.master);
        (number, report)
    }

    /// What a report says is put on the line.
    fn reported(&mut self, act: &MasterAct, report: &MasterReport) -> Outcome {
        let [send, _, _, _, _, acknowledged, done, end, ..] = *report;
        match send {
            1 => {
                let is_first = acknowledged == 1 || matches!(act, MasterAct::Start { .. });
                self.block_is_sent(report, is_first)?;
            }
            2 => self.put_forward(Forward::Eot),
            3 => {
                self.heard.is_enquired = true;
                self.put_forward(Forward::Enq);
            }
            _ => {}
        }
        self.check_report(act, report)?;
        let is_short = self.count() != self.progress.accepted as u64;
        let counts = &mut self.counts;
        counts.add_if(Kind::Done, done == 1);
        counts.add_if(Kind::Failed, end == 1);
        counts.add_if(Kind::FailedOneShort, end == 1 && is_short);
        counts.add_if(Kind::ClosedByDriver, end == 3);
        counts.add_if(Kind::ReversedDone, end == 4 && done == 1);
        let is_not_done = acknowledged == 1 && done == 0;
        counts.add_if(Kind::ReversedNotDone, end == 4 && is_not_done);
        counts.add_if(Kind::ReversedNoneOut, end == 4 && acknowledged == 0);
        Ok(())
    }

    fn model_acts(
        &mut self,
        act: &MasterAct,
        report: &mut MasterReport,
        numbering: Numbering,
    ) -> u64 {
        match master_model::numbered_act(act, &self.master, MASTER_REPORT_WORDS, numbering) {
            MasterActed::Refused(number) => number,
            MasterActed::Done(master, said) => {
                (self.master, *report) = (master.words(), said.words());
                0
            }
        }
    }

    fn put_forward(&mut self, unit: Forward) {
        if self.forward.len() < self.beginning.capacity {
            self.forward.push(unit);
        }
    }

    fn put_back(&mut self, unit: Back) {
        if self.back.len() < self.beginning.capacity {
            self.back.push(unit);
        }
    }

    /// The driver frames the part of the message that the report names.
    fn block_is_sent(&mut self, report: &MasterReport, is_first: bool) -> Outcome {
        let [_, number, ending, offset, length, ..] = *report;
        let kind = if is_first {
            Kind::FirstSend
        } else {
            Kind::Resend
        };
        self.counts.add(kind);
        let Some(newest) = self.progress.started.checked_sub(1) else {
            return Err(format!("{report:?} with no message started"));
        };
        let message = self.plan.messages[newest];
        if offset.saturating_add(length) > message.length as u64 {
            return Err(format!("{report:?}: not a part of the message"));
        }
        let block = PlannedBlock {
            ending,
            start: message.start + offset as usize,
            length: length as usize,
        };
        let sent = self.progress.sent + usize::from(is_first);
        let unit = BlockUnit {
            number,
            block,
            index: sent.wrapping_sub(1),
        };
        self.check_sent(&unit, is_first)?;
        self.heard.is_enquired = false;
        self.put_forward(Forward::Block(unit));
        Ok(())
    }

    /// One call of the slave's station.
    fn slave_call(&mut self, unit: &Unit, was_enq: bool) -> (u64, SlaveReport) {
        self.counts.add(Kind::SlaveCall);
        let mut report = [0; STATION_REPORT_WORDS];
        let before = self.slave;
        let buffer = &mut self.buffer;
        let number = station_ffi::station_act(unit, buffer, &mut self.slave, &mut report);
        let call = SlaveCall {
            unit,
            was_enq,
            before,
        };
        let reading = self.beginning.reading;
        match number {
            0 => reading.slave(&call, &mut self.slave, &mut report),
            _ if reading.takes_asking(&call, &mut self.slave) => return (0, report),
            _ => {}
        }
        (number, report)
    }

    /// A call that must not be refused. An opening, and an end, forget what was given.
    fn slave_acts(&mut self, unit: &Unit) -> Result<SlaveReport, String> {
        match self.slave_call(unit, false) {
            (0, report) => {
                if matches!(unit, Unit::Opened | Unit::End) {
                    self.given = Given::default();
                }
                Ok(report)
            }
            (number, _) => Err(format!("{unit:?} refused by {number}")),
        }
    }

    fn unit_comes(&mut self, index: usize, eot_instead: bool) -> Outcome {
        let unit = self.forward.remove(index);
        let is_open = self.is_slave_open();
        self.counts.add_if(Kind::DroppedWhileClosed, !is_open);
        let is_bid = unit == Forward::Enq && self.progress.accepted == 0;
        if is_bid && is_open && self.beginning.answers_bids {
            self.counts.add(Kind::BidAnswered);
            self.slave_acts(&Unit::Opened)?;
            self.put_back(Back::Ack(0));
            return Ok(());
        }
        let report = match unit {
            Forward::Block(block) => self.block_comes(&block)?,
            Forward::Enq => self.enq_comes()?,
            Forward::Eot => self.slave_acts(&Unit::End)?,
            Forward::Damaged | Forward::DamagedEnq | Forward::BlockEndedByEnq => {
                self.counts.add_if(Kind::NakToDamaged, is_open);
                self.damaged_unit_comes(&unit)?
            }
        };
        self.replies(report, eot_instead)
    }

    /// The slave's reply is put on the line, or its driver sends EOT.
    fn replies(&mut self, report: SlaveReport, eot_instead: bool) -> Outcome {
        let [reply, number, ..] = report;
        let unit = match reply {
            0 => return Ok(()),
            1 => Back::Ack(number),
            2 => Back::Nak,
            3 => Back::EotByStation,
            _ => Back::Rint,
        };
        if unit == Back::EotByStation {
            self.given = Given::default();
            self.put_back(unit);
        } else if eot_instead {
            self.slave_acts(&Unit::End)?;
            self.put_back(Back::EotByDriver);
        } else {
            self.given.last = Some(unit);
            self.put_back(unit);
        }
        Ok(())
    }

    fn damaged_unit_comes(&mut self, unit: &Forward) -> Result<SlaveReport, String> {
        let reported = match unit {
            Forward::BlockEndedByEnq => Unit::Enquiry,
            _ => Unit::Bad,
        };
        match self.slave_call(&reported, *unit == Forward::DamagedEnq) {
            (0, report) => Ok(report),
            (number, _) => Err(format!("{reported:?} refused by {number}")),
        }
    }

    fn enq_comes(&mut self) -> Result<SlaveReport, String> {
        let report = self.slave_acts(&Unit::BareEnq)?;
        self.check_again(&report)?;
        let counts = &mut self.counts;
        counts.add_if(Kind::AckAgain, report[0] == 1);
        let is_first = self.given.last.is_none();
        counts.add_if(Kind::NakAgain, report[0] == 2 && !is_first);
        counts.add_if(Kind::NakToFirstEnq, report[0] == 2 && is_first);
        counts.add_if(Kind::RintAgain, report[0] == 5);
        Ok(report)
    }

    /// A good block comes to the slave. It was accepted if the slave expects another number then.
    fn block_comes(&mut self, unit: &BlockUnit) -> Result<SlaveReport, String> {
        let before = self.slave;
        let plan = self.plan;
        let report = self.slave_acts(&Unit::Block {
            number: unit.number,
            ending: unit.block.ending,
            text: plan.text(&unit.block),
        })?;
        let [reply, _, complete, length] = report;
        self.check_reply(unit, reply)?;
        let is_acknowledged = reply == 1 || reply == 5;
        let is_accepted = is_acknowledged && self.slave[1] != before[1];
        self.counts.add_if(Kind::RintGiven, reply == 5);
        if is_accepted {
            self.counts.add(Kind::Accepted);
            self.check_accepted(unit, before[2])?;
        } else {
            let was_rinted = self.given.rinted.is_some();
            self.counts.add_if(Kind::Duplicate, is_acknowledged);
            self.counts
                .add_if(Kind::RintedDuplicate, reply == 1 && was_rinted);
        }
        self.check_rint(reply, is_accepted)?;
        if complete == 1 {
            self.counts.add(Kind::HandedOver);
            self.check_handed_over(length)?;
        }
        if reply == 3 {
            self.check_exact("the station gave EOT")?;
        }
        Ok(report)
    }

    fn reply_comes(&mut self, index: usize) -> Outcome {
        let reply = self.back.remove(index);
        let before = self.master;
        let phase = before[0];
        let (code, number) = match reply {
            Back::Ack(number) => {
                self.check_ack(number)?;
                let is_before = phase == 2 && number == self.count() % 8;
                self.counts.add_if(Kind::AckJustBefore, is_before);
                (REPLY_ACK, number)
            }
            Back::Nak => (REPLY_NAK, 0),
            Back::Rint => (REPLY_RINT, 0),
            Back::EotByStation | Back::EotByDriver => (REPLY_EOT, 0),
            Back::Damaged => (REPLY_DAMAGED, 0),
        };
        self.counts.add_if(Kind::ReplyWithNoneOut, phase == 1);
        self.counts
            .add_if(Kind::DamagedReply, code == REPLY_DAMAGED);
        if phase != 0 && code != REPLY_DAMAGED && code != REPLY_EOT {
            self.heard.last = code;
            self.heard.was_interrupted |= code == REPLY_RINT;
        }
        self.master_acts(&MasterAct::Reply {
            reply: code,
            number,
        })?;
        if reply == Back::Rint {
            self.count_rint(&before);
        }
        if phase == 0 {
            return Ok(());
        }
        self.eot_came(&reply, phase)
    }

    /// What a RINT did to a master with these words.
    fn count_rint(&mut self, before: &[u64; MASTER_WORDS]) {
        let (phase, count, noted, is_enquired) = (before[0], before[5], before[6], before[8] == 1);
        let is_accepted = self.count() != count;
        let is_refused = phase == 2 && !is_accepted;
        let is_last_rint = noted == REPLY_RINT;
        let counts = &mut self.counts;
        counts.add_if(Kind::RintAccepted, is_accepted);
        counts.add_if(Kind::RintNoneOut, phase == 1);
        counts.add_if(Kind::RintAfterRint, is_refused && is_last_rint);
        let is_after_enq = noted == REPLY_NAK && is_enquired;
        counts.add_if(Kind::RintAfterNakAndEnq, is_refused && is_after_enq);
    }

    /// An EOT of the slave ended an open master.
    fn eot_came(&mut self, reply: &Back, phase: u64) -> Outcome {
        let is_short = self.count() != self.progress.accepted as u64;
        let by_driver = *reply == Back::EotByDriver;
        self.counts.add_if(Kind::EotByDriver, by_driver);
        self.counts
            .add_if(Kind::EotByDriverNoneOut, by_driver && phase == 1);
        self.counts
            .add_if(Kind::EotByDriverOneShort, by_driver && is_short);
        if *reply == Back::EotByStation {
            self.counts.add(Kind::EotByStation);
            return self.check_exact("ended by an EOT that the station gave");
        }
        Ok(())
    }
}
