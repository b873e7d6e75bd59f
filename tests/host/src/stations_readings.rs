//! Wrong readings of document 02, §14, put over what the library's stations do, so that the words after a
//! call are those of a station that reads so. All else is the library's.

use host::master_model::{MasterAct, MASTER_WORDS, REPLY_ACK, REPLY_DAMAGED, REPLY_RINT};
use host::station_model::{Unit, STATION_REPORT_WORDS, STATION_WORDS};

#[derive(Clone, Copy, Debug, PartialEq, Eq)]
pub enum Reading {
    Right,
    /// "its last reply" is the last one to a good block in order: no NAK is given again.
    NakIsNoReply,
    /// A NAK to a damaged ENQ is not given again.
    NakToEnqIsNoReply,
    /// A duplicate of a block that got RINT gets RINT again.
    RintForDuplicate,
    /// RINT may be asked for with no ACK since the last.
    AskedWithoutAck,
    /// "and the master last sent ENQ" belongs to "was a RINT" too.
    DoubtOnlyAfterEnq,
    /// A damaged reply is the reply before.
    DamagedIsReply,
}

const LAST_REPLY: usize = 3;
const INTERRUPT: usize = 4;
const INTERRUPT_PENDING: u64 = 1;
const INTERRUPT_GIVEN: u64 = 2;
const REPLY_NAK: u64 = 2;

const NOTED_REPLY: usize = 6;
const ENQUIRED: usize = 8;

/// A call of the slave's station: the unit, whether it was an ENQ before it was damaged, and the words
/// before the call.
pub struct SlaveCall<'a> {
    pub unit: &'a Unit<'a>,
    pub was_enq: bool,
    pub before: [u64; STATION_WORDS],
}

impl Reading {
    /// Whether the slave takes an asking that was refused. No words have a RINT as the last reply with
    /// another pending, so that it is a NAK then.
    pub fn takes_asking(self, call: &SlaveCall, words: &mut [u64; STATION_WORDS]) -> bool {
        let is_asking = matches!(call.unit, Unit::Interrupt);
        let was_given = call.before[INTERRUPT] == INTERRUPT_GIVEN;
        let is_taken = self == Reading::AskedWithoutAck && is_asking && was_given;
        if is_taken {
            (words[LAST_REPLY], words[INTERRUPT]) = (REPLY_NAK, INTERRUPT_PENDING);
        }
        is_taken
    }

    /// What the slave keeps and says after a call that was not refused.
    pub fn slave(
        self,
        call: &SlaveCall,
        words: &mut [u64; STATION_WORDS],
        report: &mut [u64; STATION_REPORT_WORDS],
    ) {
        let is_nak = report[0] == REPLY_NAK;
        let is_enq = matches!(call.unit, Unit::BareEnq);
        let is_forgotten = match self {
            Reading::NakIsNoReply => is_nak && !is_enq,
            Reading::NakToEnqIsNoReply => is_nak && call.was_enq,
            _ => false,
        };
        if is_forgotten {
            words[LAST_REPLY] = call.before[LAST_REPLY];
        }
        let is_block = matches!(call.unit, Unit::Block { .. });
        let is_duplicate = is_block && report[0] == REPLY_ACK && words[1] == call.before[1];
        let was_rint = call.before[INTERRUPT] == INTERRUPT_GIVEN;
        if self == Reading::RintForDuplicate && is_duplicate && was_rint {
            (words[LAST_REPLY], words[INTERRUPT]) = (REPLY_RINT, INTERRUPT_GIVEN);
            (report[0], report[1]) = (REPLY_RINT, 0);
        }
    }

    /// What the master has noted when a reply comes: an ACK puts no RINT in doubt.
    pub fn master_before(self, act: &MasterAct, words: &mut [u64; MASTER_WORDS]) {
        let is_rint = matches!(act, MasterAct::Reply { reply, .. } if *reply == REPLY_RINT);
        let is_doubted = words[NOTED_REPLY] == REPLY_RINT && words[ENQUIRED] == 0;
        if self == Reading::DoubtOnlyAfterEnq && is_rint && is_doubted {
            words[NOTED_REPLY] = REPLY_ACK;
        }
    }

    /// What the master has noted after a reply.
    pub fn master_after(self, act: &MasterAct, words: &mut [u64; MASTER_WORDS]) {
        let is_damaged = matches!(act, MasterAct::Reply { reply, .. } if *reply == REPLY_DAMAGED);
        if self == Reading::DamagedIsReply && is_damaged && words[NOTED_REPLY] != 0 {
            words[NOTED_REPLY] = REPLY_ACK;
        }
    }
}
