//! What happened on links of the two X3.28 stations, and how often each kind must happen in a group.

/// What is counted. Up to `MasterEot` each is an act of a link.
#[derive(Clone, Copy, PartialEq, Eq)]
pub enum StationsKind {
    MasterCall,
    SlaveCall,
    Loss,
    Damage,
    Noise,
    Repetition,
    MasterEot,
    LossBehindHead,
    DamageBehindHead,
    EarlyTimer,
    FirstSend,
    Resend,
    Accepted,
    Duplicate,
    DroppedWhileClosed,
    OpenedAfterDrop,
    NakToDamaged,
    AckJustBefore,
    ReplyWithNoneOut,
    DamagedReply,
    HandedOver,
    Done,
    Failed,
    FailedOneShort,
    EotByStation,
    EotByDriver,
    EotByDriverNoneOut,
    EotByDriverOneShort,
    ClosedByDriver,
    TimerD,
    SlaveEot,
    Enquiry,
    EarlyEnquiry,
    EnquiryRefused,
    EnqLost,
    EnqDamaged,
    EnqRepeated,
    EnqNoise,
    DamagedIntoEnq,
    BidAnswered,
    AckAgain,
    NakAgain,
    NakToFirstEnq,
    RintAgain,
    Asked,
    AskRefused,
    RintGiven,
    RintedDuplicate,
    RintLost,
    RintDamaged,
    RintRepeated,
    NakNoise,
    DamagedIntoNak,
    RintAccepted,
    RintNoneOut,
    RintAfterRint,
    RintAfterNakAndEnq,
    LeaveBlockOut,
    LeaveNoneOut,
    LeaveRefused,
    ReversedDone,
    ReversedNotDone,
    ReversedNoneOut,
    Run,
    SeveralMessages,
    LongOpening,
    OneMoreHandedOver,
    EmptyMessage,
    AllDelivered,
    SeveralRints,
    Last,
}

const KINDS: usize = StationsKind::Last as usize;

/// The name of each kind, and how many of it a group of links has at least.
const LEAST: [(&str, u64); KINDS] = [
    ("acts of the master", 5_000_000),
    ("acts of the slave", 5_000_000),
    ("losses", 500_000),
    ("damages", 500_000),
    ("noise on a line", 500_000),
    ("repetitions on a line", 500_000),
    ("EOTs of the master's driver", 5_000),
    ("losses behind the head of a line", 50_000),
    ("damages behind the head of a line", 50_000),
    ("timers with a unit on a line", 500_000),
    ("blocks first sent", 2_000_000),
    ("blocks sent again", 1_500_000),
    ("blocks accepted", 2_000_000),
    ("duplicates", 500_000),
    ("units that a closed slave dropped", 200_000),
    ("slaves opened after they dropped a unit", 20_000),
    ("replies NAK to a damaged unit", 200_000),
    ("replies ACK with the number just before", 400_000),
    ("replies with no block out", 20_000),
    ("damaged replies", 100_000),
    ("messages handed over", 400_000),
    ("messages done", 400_000),
    ("failures", 50_000),
    ("failures with the count one short", 20_000),
    ("ends by an EOT that the station gave", 10_000),
    ("ends by an EOT of the slave's driver", 8_000),
    ("such ends with no block out", 20),
    ("such ends with the count one short", 5_000),
    ("ends by the master's driver", 100_000),
    ("slaves closed by Timer D", 4_000),
    ("EOTs of the slave's driver at any moment", 4_000),
    ("enquiries", 500_000),
    ("enquiries with a unit on a line", 400_000),
    ("enquiries refused", 20_000),
    ("ENQs lost", 20_000),
    ("ENQs damaged", 20_000),
    ("ENQs repeated", 20_000),
    ("ENQs that are noise", 100_000),
    ("units damaged into ENQ", 50_000),
    ("ENQs taken for a bid", 20_000),
    ("ACKs given again on ENQ", 200_000),
    ("NAKs given again on ENQ", 100_000),
    ("NAKs to an ENQ before any reply", 10_000),
    ("RINTs given again on ENQ", 50_000),
    ("RINTs asked for", 200_000),
    ("RINTs asked for and refused", 200_000),
    ("RINTs given for a block", 100_000),
    ("duplicates of a block that got RINT: ACK", 20_000),
    ("RINTs lost", 10_000),
    ("RINTs damaged", 10_000),
    ("RINTs repeated", 10_000),
    ("NAKs that are noise, before any RINT", 20_000),
    ("replies damaged into a NAK, before any RINT", 20_000),
    ("RINTs that acknowledged", 80_000),
    ("RINTs with no block out", 2_000),
    ("RINTs refused after a RINT", 20_000),
    ("RINTs refused after a NAK, ENQ sent last", 200),
    ("leaves to receive with a block out", 10_000),
    ("leaves to receive with none out", 1_000),
    ("leaves to receive refused", 50_000),
    ("reversed with the message done", 2_000),
    ("reversed with the message not done", 5_000),
    ("reversed with no block out", 1_000),
    ("runs", 100_000),
    ("runs of several messages", 50_000),
    ("openings of over 16 blocks", 30_000),
    (
        "openings with one message more handed over than done",
        10_000,
    ),
    ("empty messages", 50_000),
    ("runs that delivered all", 50_000),
    ("runs with several RINTs", 20_000),
];

#[derive(Clone)]
pub struct StationsCounts {
    kinds: [u64; KINDS],
}

impl StationsCounts {
    pub fn new() -> StationsCounts {
        StationsCounts { kinds: [0; KINDS] }
    }

    pub fn add(&mut self, kind: StationsKind) {
        self.kinds[kind as usize] += 1;
    }

    pub fn add_if(&mut self, kind: StationsKind, happened: bool) {
        self.kinds[kind as usize] += u64::from(happened);
    }

    pub fn get(&self, kind: StationsKind) -> u64 {
        self.kinds[kind as usize]
    }

    pub fn add_all(&mut self, others: &StationsCounts) {
        for (sum, count) in self.kinds.iter_mut().zip(others.kinds) {
            *sum += count;
        }
    }

    /// Calls of the library's stations, what the lines do, and EOTs that no station knows of.
    pub fn acts(&self) -> u64 {
        self.kinds[..=StationsKind::MasterEot as usize].iter().sum()
    }

    pub fn print(&self) {
        for (count, (what, _)) in self.kinds.iter().zip(LEAST) {
            println!("  {count} {what}");
        }
    }

    /// A group in which something hardly happened tests little.
    pub fn enough(&self) -> Result<(), String> {
        for (count, (what, least)) in self.kinds.iter().zip(LEAST) {
            if *count < least {
                return Err(format!("only {count} {what}, and {least} are due"));
            }
        }
        Ok(())
    }
}
