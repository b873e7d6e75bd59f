//! A link of the library's own two ends over lines of bytes, as crates/link/specs/System.antt has it:
//! each act is one call of the library or one act of storage, and a crash may come between any two.
//! The acts of the ends are in `link_sending` and `link_receiving`, those of the lines in
//! `link_lines`. What demand 3 says is asserted after every act (`link_checks`), from the log, the
//! lines and the sends made, without the model of the ends.

use crate::library;
use crate::line::Arrived;
use crate::link_counts::Counts;
use crate::link_deviation::{Deviation, Duty};
use crate::link_ends::{ReceivingEnd, SendingEnd};
use host::ends_ffi;
use host::ends_ffi::names::{SENDER_DELIVERED, SENDER_RESYNCHRONIZED, SENDER_WORDS};
use host::model::Settings;
use host::receiver_model::Incoming;

/// The largest offset in a buffer at which a reply begins.
pub const MOST_OFFSET: usize = 40;

pub struct Link {
    pub settings: Settings,
    pub first: u64,
    pub resends: u64,
    pub log: Vec<Vec<u8>>,
    pub sending: SendingEnd,
    pub receiving: ReceivingEnd,
    pub forward: Vec<u8>,
    pub back: Vec<u8>,
    pub deviation: Deviation,
    pub counts: Counts,
    pub buffer: Vec<u8>,
    /// Blocks that may come again where the deviation has it: those of this circuit, and those of
    /// earlier ones.
    pub sent: Vec<Vec<u8>>,
    pub earlier: Vec<Vec<u8>>,
}

/// What a link begins with.
pub struct Beginning {
    pub settings: Settings,
    pub first: u64,
    pub resends: u64,
    pub log: Vec<Vec<u8>>,
    pub old_expected: u64,
    pub deviation: Deviation,
}

/// A block as an end is told of it.
pub fn incoming(arrived: &Arrived) -> Incoming<'_> {
    Incoming {
        number: arrived.number,
        block_type: arrived.block_type,
        data: &arrived.data,
    }
}

impl Link {
    /// A sender with nothing submitted, and a receiver with nothing of the log, whatever number it
    /// still expects.
    pub fn new(beginning: Beginning) -> Result<Link, String> {
        let (settings, deviation) = (beginning.settings, beginning.deviation);
        let mut state = [0; SENDER_WORDS];
        if ends_ffi::sender_fresh(beginning.first, &mut state) != 0 {
            return Err(format!("no fresh sender for {}", beginning.first));
        }
        state[SENDER_RESYNCHRONIZED] = u64::from(!deviation.keeps(Duty::Exchanges));
        let need = settings.limit as usize + settings.overhead();
        Ok(Link {
            settings,
            first: beginning.first,
            resends: beginning.resends,
            log: beginning.log,
            sending: SendingEnd::new(state, &settings),
            receiving: ReceivingEnd::new(beginning.old_expected, &settings),
            forward: Vec::new(),
            back: Vec::new(),
            deviation,
            counts: Counts::new(),
            buffer: vec![0; need + MOST_OFFSET],
            sent: Vec::new(),
            earlier: Vec::new(),
        })
    }

    /// Whether the hosts see to a duty.
    pub fn keeps(&self, duty: Duty) -> bool {
        self.deviation.keeps(duty)
    }

    /// The index of what a host takes that is to take the oldest.
    pub fn oldest(&self, duty: Duty, index: usize) -> usize {
        if self.keeps(duty) {
            0
        } else {
            index
        }
    }

    /// The index of a number in the log; far outside for one that is not of the log.
    pub fn index(&self, number: u64) -> usize {
        number.wrapping_sub(self.first) as usize
    }

    /// How many bytes a buffer has behind the offset of a reply, at least.
    pub fn reply_need(&self) -> usize {
        self.settings.limit as usize + self.settings.overhead()
    }

    /// All of the log is delivered, and the sender has persisted it.
    pub fn is_done(&self) -> bool {
        let delivered = self.sending.persisted[SENDER_DELIVERED];
        self.index(delivered.wrapping_add(1)) == self.log.len()
    }

    pub fn text(&self) -> String {
        format!(
            "{}, {:?}, r={}, {} in the log; sender {:?}, persisted {:?}; receiver {:?}, {} expected \
             and {} transactions stored, the open decision: {}",
            library::settings_text(&self.settings),
            self.deviation,
            self.resends,
            self.log.len(),
            self.sending.state,
            self.sending.persisted,
            self.receiving.state,
            self.receiving.expected,
            self.receiving.transactions.len(),
            self.receiving.is_persisted
        )
    }
}
