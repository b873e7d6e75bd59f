//! The order of the acts on a simulated link: any, from a seed, with loss, damage, crashes and storing
//! that fails; and over good lines to the end.

use crate::compare::Outcome;
use crate::link::{Link, MOST_OFFSET};
use crate::link_deviation::{Deviation, Duty};
use crate::link_receiving::{Part, ReplyBuffer};
use crate::make;
use crate::make_ends;
use host::ends_ffi::names::SENDER_LAST;
use host::prng::Random;

/// What comes between the acts that bring a link on.
#[derive(Clone, Copy)]
enum Trouble {
    Loss,
    Damage,
    Disorder,
    SenderCrash,
    ReceiverCrash,
    SenderRestore,
    ReceiverRestore,
    Failure,
    RefusedAct,
    ShortBuffer,
    WhileOpen,
    LateReport,
    Submission,
    SenderForget,
    SenderDiscard,
    ReceiverDiscard,
    Timer,
    Ended,
    /// What only a host does that neglects a duty.
    Neglect,
}

/// How often there is trouble, once in so many acts; how slow the sender is to read and to act on what
/// it has read, and how slow the receiver, to store what it decided and to report it; how many bytes a
/// part has at most; and whether the sender is told of answers in the order in which they were sent.
pub struct Weather {
    troubles: [(Trouble, usize); TROUBLES],
    slow: [usize; 6],
    part: usize,
    is_in_order: bool,
}

const NEVER: usize = usize::MAX;
const TROUBLES: usize = 19;

/// Data limits that a message may be submitted under, beside the link's own; half of them are refused.
const OTHER_LIMITS: [u64; 8] = [128, 129, 4096, 99_994, 0, 127, 99_995, u64::MAX];

impl Weather {
    pub fn any(random: &mut Random, deviation: Deviation) -> Weather {
        let neglect = match deviation {
            Deviation::Faithful => NEVER,
            _ => 10,
        };
        let mut once_in = |trouble: Trouble, choices: &[usize]| (trouble, random.pick(choices));
        let troubles = [
            once_in(Trouble::Loss, &[NEVER, 40, 20, 8]),
            once_in(Trouble::Damage, &[NEVER, 40, 20, 8]),
            once_in(Trouble::Disorder, &[NEVER, 20, 8, 4]),
            once_in(Trouble::SenderCrash, &[NEVER, 100, 40, 20]),
            once_in(Trouble::ReceiverCrash, &[NEVER, 100, 40, 20]),
            once_in(Trouble::SenderRestore, &[NEVER, NEVER, 150, 60]),
            once_in(Trouble::ReceiverRestore, &[NEVER, NEVER, 60, 20]),
            once_in(Trouble::Failure, &[NEVER, 40, 15, 6]),
            once_in(Trouble::RefusedAct, &[NEVER, 100, 40]),
            once_in(Trouble::ShortBuffer, &[NEVER, 40, 10]),
            once_in(Trouble::WhileOpen, &[NEVER, 40, 10]),
            once_in(Trouble::LateReport, &[NEVER, 100, 40]),
            once_in(Trouble::Submission, &[NEVER, 60, 20]),
            once_in(Trouble::SenderForget, &[NEVER, NEVER, 80, 30]),
            once_in(Trouble::SenderDiscard, &[NEVER, NEVER, 80, 30]),
            once_in(Trouble::ReceiverDiscard, &[NEVER, NEVER, 80, 30]),
            once_in(Trouble::Timer, &[200, 60, 25, 10]),
            once_in(Trouble::Ended, &[NEVER, 300, 80]),
            (Trouble::Neglect, neglect),
        ];
        let slow = [0; 6].map(|_| random.pick(&[1, 1, 3, 10, 30]));
        Weather {
            troubles,
            slow,
            part: random.pick(&[1, 8, 64, 64, NEVER, NEVER, NEVER, NEVER]),
            is_in_order: random.one_in(4),
        }
    }

    /// The same, but answers come and are taken in the order in which they were sent, and once.
    pub fn in_order(mut self) -> Weather {
        let disorder = |trouble: &Trouble| matches!(trouble, Trouble::Disorder);
        for (_, once_in) in self.troubles.iter_mut().filter(|(one, _)| disorder(one)) {
            *once_in = NEVER;
        }
        self.is_in_order = true;
        self
    }

    fn trouble(&self, random: &mut Random) -> Option<Trouble> {
        let mut troubles = self.troubles.iter();
        let found = troubles.find(|(_, once_in)| *once_in != NEVER && random.one_in(*once_in));
        found.map(|(trouble, _)| *trouble)
    }

    /// How many bytes the next part has.
    fn next_part(&self, random: &mut Random) -> usize {
        match self.part {
            NEVER => random.pick(&[1, 20, NEVER, NEVER, NEVER, NEVER]),
            most => random.between(1, most),
        }
    }
}

/// One of so many; 0 where there is none.
fn any_of(random: &mut Random, count: usize) -> usize {
    random.below(count.max(1))
}

impl Link {
    /// One act of either end or of the lines.
    pub fn step(&mut self, random: &mut Random, weather: &Weather) -> Outcome {
        let needs_circuit = |one: &Trouble| matches!(one, Trouble::Timer | Trouble::Ended);
        let has_circuit = self.sending.has_circuit();
        let trouble = weather.trouble(random);
        match trouble.filter(|one| has_circuit || !needs_circuit(one)) {
            Some(trouble) => self.trouble(random, trouble),
            None => self.useful(random, weather),
        }
    }

    fn trouble(&mut self, random: &mut Random, trouble: Trouble) -> Outcome {
        let read_by_sender = self.sending.arrived.len();
        let read_by_receiver = self.receiving.arrived.len();
        match trouble {
            Trouble::Loss => self.lose(random),
            Trouble::Damage => self.damage(random),
            Trouble::Disorder => self.disorder(random),
            Trouble::SenderCrash => self.sender_crashes(),
            Trouble::ReceiverCrash => self.receiver_crashes(),
            Trouble::SenderRestore => self.sender_restores(),
            Trouble::ReceiverRestore => self.receiver_restores(),
            Trouble::Failure => {
                let buffer = self.any_buffer(random);
                self.receiver_reports(false, buffer)
            }
            Trouble::RefusedAct => self.refused_act(random.below(3)),
            Trouble::ShortBuffer => {
                let buffer = self.short_buffer(random);
                self.receiver_reports(random.one_in(2), buffer)
            }
            Trouble::WhileOpen => self.takes_while_open(random),
            Trouble::LateReport => {
                let buffer = self.any_buffer(random);
                self.reports_late(random.one_in(2), buffer)
            }
            Trouble::Submission => {
                let (message, other) = (self.submission(random), random.pick(&OTHER_LIMITS));
                self.submit_bytes(random.pick(&[self.settings.limit, other]), &message)
            }
            Trouble::SenderForget => self.sender_forgets(any_of(random, self.sending.named.len())),
            Trouble::SenderDiscard => self.sender_discards(any_of(random, read_by_sender)),
            Trouble::ReceiverDiscard => self.receiver_discards(any_of(random, read_by_receiver)),
            Trouble::Timer => self.timer(),
            Trouble::Ended => self.end(),
            Trouble::Neglect => self.neglect(random),
        }
    }

    fn neglect(&mut self, random: &mut Random) -> Outcome {
        if !self.keeps(Duty::Survives) {
            return self.reverts(random.below(NEVER));
        }
        if !self.keeps(Duty::BringsNothingLate) {
            return self.brings_late(random.below(NEVER));
        }
        if !self.keeps(Duty::PersistsAsOne) {
            return self.receiver_persists(random.pick(&[Part::Number, Part::Transaction]));
        }
        if !self.keeps(Duty::SettlesWrites) {
            return self.lands_late(random.below(NEVER));
        }
        if !self.keeps(Duty::ReportsPersisted) || !self.keeps(Duty::ReportsFailed) {
            let buffer = self.any_buffer(random);
            return self.receiver_reports(!self.keeps(Duty::ReportsPersisted), buffer);
        }
        Ok(())
    }

    /// A message that may be the next one or not: of the log, another with the next number or one
    /// near it, one that is too long, has a forbidden byte or no header, or any bytes.
    fn submission(&self, random: &mut Random) -> Vec<u8> {
        let next = self.sending.state[SENDER_LAST].wrapping_add(1);
        let id = next.to_string().into_bytes();
        let other = next.wrapping_add(random.below(5) as u64).saturating_sub(2);
        let sequence = make_ends::decimal(random, next);
        let mut message = make_ends::request(random, &id, Some(&sequence));
        match random.below(8) {
            0 => return self.log[random.below(self.log.len())].clone(),
            1 => {
                let id = other.to_string().into_bytes();
                return make_ends::request(random, &id, Some(&id));
            }
            2 => {
                let sequence = make_ends::near(random, next);
                return make_ends::request(random, &id, sequence.as_deref());
            }
            3 => message.resize(self.settings.limit as usize + random.below(3), b'X'),
            4 => message.insert(
                any_of(random, message.len()),
                random.pick(&[0x0A, 0x1F, 0x7F, 0xFF]),
            ),
            5 => return make_ends::without_header(random, &sequence),
            6 => return make::data(random, 40),
            _ => {}
        }
        message
    }

    /// A buffer that is too short by a byte or more, from whatever offset.
    fn short_buffer(&self, random: &mut Random) -> ReplyBuffer {
        let need = self.reply_need();
        let start = random.pick(&[0, 0, 1, MOST_OFFSET, need, NEVER]);
        let most = start.saturating_add(need - 1).min(self.buffer.len());
        let length = random.pick(&[most, most, most / 2, 0]);
        ReplyBuffer { length, start }
    }

    /// A block is offered while a decision is open; then it may be dropped, or it is offered again.
    fn takes_while_open(&mut self, random: &mut Random) -> Outcome {
        if !self.receiving.is_open() {
            return Ok(());
        }
        let (buffer, count) = (self.any_buffer(random), self.receiving.arrived.len());
        self.receiver_takes(any_of(random, count), random.pick(&[1, 2]), buffer)?;
        if random.one_in(3) {
            return self.receiver_discards(0);
        }
        Ok(())
    }

    /// A buffer that is long enough, with any offset and something behind the reply.
    fn any_buffer(&self, random: &mut Random) -> ReplyBuffer {
        let any = random.below(MOST_OFFSET + 1);
        let start = random.pick(&[0, 1, MOST_OFFSET, any]);
        let more = random.pick(&[0, 1, MOST_OFFSET]).min(MOST_OFFSET - start);
        let length = start + self.reply_need() + more;
        ReplyBuffer { length, start }
    }

    /// Which of the useful acts can do something now.
    fn possible(&self) -> [bool; 11] {
        let is_open = self.receiving.is_open();
        [
            self.can_submit(),
            !self.sending.has_circuit(),
            !self.sending.is_persisted(),
            self.can_write(),
            !self.back.is_empty(),
            !self.sending.arrived.is_empty(),
            !self.forward.is_empty(),
            !self.receiving.arrived.is_empty() && !is_open,
            is_open && !self.receiving.is_persisted,
            is_open && self.receiving.is_persisted,
            !self.receiving.pending.is_empty(),
        ]
    }

    /// One of the acts that can do something now; with none the timer runs out. What is slow comes
    /// seldom before the others, and before the timer.
    fn useful(&mut self, random: &mut Random, weather: &Weather) -> Outcome {
        let possible = self.possible();
        let mut can = possible;
        for (act, slow) in (4..10).zip(weather.slow) {
            can[act] &= random.one_in(slow);
        }
        let has_circuit = self.sending.has_circuit();
        if !can.contains(&true) && !(has_circuit && random.one_in(6)) {
            can = possible;
        }
        let count = can.iter().filter(|&&can| can).count();
        if count == 0 {
            return self.timer();
        }
        let index = random.below(count);
        let mut acts = (0..can.len()).filter(|&act| can[act]);
        match acts.nth(index).unwrap_or_default() {
            0 => self.submit(),
            1 => self.open(),
            2 => self.sender_persists(),
            3 => self.sender_writes(any_of(random, self.sending.named.len())),
            4 => self.sender_reads(weather.next_part(random)),
            5 if weather.is_in_order => self.sender_acts(0),
            5 => self.sender_acts(any_of(random, self.sending.arrived.len())),
            6 => self.receiver_reads(weather.next_part(random)),
            7 => {
                let (buffer, count) = (self.any_buffer(random), self.receiving.arrived.len());
                self.receiver_takes(any_of(random, count), random.pick(&[1, 2]), buffer)
            }
            8 => self.receiver_persists(self.rest_to_store()),
            9 => {
                let buffer = self.any_buffer(random);
                self.receiver_reports(true, buffer)
            }
            _ => self.replies(),
        }
    }

    /// All that the open decision says, or the half that is not stored yet.
    fn rest_to_store(&self) -> Part {
        match self.receiving.half {
            None | Some(Part::Both) => Part::Both,
            Some(Part::Number) => Part::Transaction,
            Some(Part::Transaction) => Part::Number,
        }
    }

    fn is_quiet(&self) -> bool {
        !self.receiving.is_open()
            && self.forward.is_empty()
            && self.back.is_empty()
            && self.sending.named.is_empty()
            && self.sending.arrived.is_empty()
            && self.receiving.arrived.is_empty()
            && self.receiving.pending.is_empty()
    }

    /// What is named is written, read, decided, stored, reported and answered.
    pub fn request(&mut self, random: &mut Random) -> Outcome {
        self.sender_persists()?;
        self.sender_writes(0)?;
        self.receiver_reads(NEVER)?;
        let buffer = self.any_buffer(random);
        self.receiver_takes(0, random.pick(&[1, 2]), buffer)?;
        self.receiver_persists(self.rest_to_store())?;
        self.receiver_reports(true, buffer)?;
        self.replies()
    }

    /// The same, and the answer is read and taken.
    pub fn exchange(&mut self, random: &mut Random) -> Outcome {
        self.request(random)?;
        self.takes_answer()
    }

    /// What is on the line back is read as far as one block, and the oldest block that was read is taken.
    pub fn takes_answer(&mut self) -> Outcome {
        self.sender_reads(NEVER)?;
        self.sender_acts(0)
    }

    /// How many blocks are still to be written, read, acted on or answered, at most.
    fn unfinished(&self) -> usize {
        let is_start = |byte: &&u8| **byte == self.settings.start_byte();
        let on_lines = self.forward.iter().chain(&self.back).filter(is_start);
        let (sending, receiving) = (&self.sending, &self.receiving);
        let read = sending.arrived.len() + receiving.arrived.len();
        sending.named.len() + receiving.pending.len() + read + on_lines.count()
    }

    /// Over good lines from now on, all of the log is delivered.
    pub fn deliver_all(&mut self, random: &mut Random) -> Outcome {
        for _ in 0..60 + 20 * self.log.len() + 3 * self.unfinished() {
            self.submit()?;
            if !self.sending.has_circuit() {
                self.open()?;
            }
            if self.is_quiet() {
                if self.is_done() {
                    return self.all_received();
                }
                self.timer()?;
            }
            self.exchange(random)?;
        }
        Err("over good lines not all is delivered".to_string())
    }

    fn all_received(&self) -> Outcome {
        let count = self.receiving.transactions.len();
        if count == self.log.len() {
            self.check()
        } else {
            Err(format!("{count} were received, and all are delivered"))
        }
    }
}
