//! What is on the two lines between the X3.28 stations of a link, and what may happen there.

use crate::stations_plan::PlannedBlock;

/// A block on the line: its number, what ends it and its text; and which block it is of those first sent.
#[derive(Clone, Copy, Debug, PartialEq, Eq)]
pub struct BlockUnit {
    pub number: u64,
    pub block: PlannedBlock,
    pub index: usize,
}

/// A unit on the way to the slave. A damaged ENQ comes as a bad block, as any damaged unit does; it is told
/// apart for a slave that would keep no NAK to it.
#[derive(Clone, Copy, Debug, PartialEq, Eq)]
pub enum Forward {
    Block(BlockUnit),
    Eot,
    Enq,
    /// A block ended by ENQ, which only damage or noise makes here.
    BlockEndedByEnq,
    Damaged,
    DamagedEnq,
}

/// A unit on the way to the master; an EOT was given by the station itself or sent by its driver.
#[derive(Clone, Copy, Debug, PartialEq, Eq)]
pub enum Back {
    Ack(u64),
    Nak,
    Rint,
    EotByStation,
    EotByDriver,
    Damaged,
}

/// What noise on the way to the slave may look like, and a unit that is damaged.
pub const FORWARD_NOISE: [Forward; 3] = [Forward::Damaged, Forward::BlockEndedByEnq, Forward::Enq];

/// Which line.
#[derive(Clone, Copy, Debug, PartialEq, Eq)]
pub enum Way {
    Forward,
    Back,
}

/// What may happen on a link.
#[derive(Clone, Copy, Debug, PartialEq, Eq)]
pub enum LinkAct {
    /// The master's driver starts the next message.
    Start,
    Close,
    TimerA,
    /// The master's driver enquires.
    Enquire,
    /// The master's driver says that it may receive.
    MayReceive,
    /// The master's driver sends an EOT of its own; the master is not told.
    MasterEot,
    SlaveOpens,
    /// The slave's driver asks for RINT.
    Ask,
    /// The slave's driver sends an EOT of its own.
    SlaveEot,
    /// Timer D runs out at the slave.
    TimerD,
    /// The unit of this index comes to the slave. Its driver may send EOT instead of the reply.
    UnitComes {
        index: usize,
        eot_instead: bool,
    },
    ReplyComes(usize),
    Lose(Way, usize),
    /// The unit of this index comes twice, the second right behind the first.
    Repeat(Way, usize),
    /// The unit of this index becomes this one.
    DamageUnit(usize, Forward),
    DamageReply(usize, Back),
    /// Noise comes in before this index.
    UnitNoise(usize, Forward),
    ReplyNoise(usize, Back),
}
