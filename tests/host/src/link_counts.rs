//! What happened on simulated links, and how often each kind must happen in a group.

/// What is counted. Up to `RefusedAct` each is an act of an end, and most are calls of the library.
#[derive(Clone, Copy, PartialEq, Eq)]
pub enum Kind {
    Submit,
    Open,
    Ended,
    Timer,
    Block,
    SenderPersists,
    SenderWrites,
    SenderReads,
    ReceiverReads,
    Decides,
    ReceiverPersists,
    Successes,
    Failures,
    Naks,
    Replies,
    SenderCrash,
    ReceiverCrash,
    SenderRestores,
    ReceiverRestores,
    SenderForgets,
    SenderDiscards,
    ReceiverDiscards,
    RefusedBlock,
    RefusedNak,
    ShortReport,
    LateReport,
    RefusedAct,
    SenderCrashUnstored,
    CrashBeforeStoring,
    CrashBeforeReport,
    CrashBeforeSending,
    CrashWithBytes,
    CrashInFirstExchange,
    SenderRestoreUnstored,
    SenderRestoreWithCircuit,
    RestoreBeforeStoring,
    RestoreBeforeReport,
    RestorePending,
    FailedTransaction,
    FailedNothing,
    CircuitWhileOpen,
    CircuitBeforeReport,
    BlockWithoutCircuit,
    DecidedWithoutCircuit,
    BeforeOlder,
    WhileOthersWait,
    OfferedAgain,
    RefusedAndDropped,
    ReplyAtOffset,
    OtherSubmission,
    SubmissionSetting,
    SubmissionByte,
    SubmissionLong,
    SubmissionHead,
    SubmissionNumber,
    LostBlock,
    LostLine,
    OneRefusal,
    SeveralRefusals,
    UntilNextStart,
    Vanished,
    SameVerdicts,
    AcceptedByChance,
    OtherOrder,
    Repeated,
    Resend,
    Abandoned,
    DroppedAnswer,
    NakBlock,
    UnknownVerdict,
    Accepted,
    ApplicationError,
    Run,
    HybridRun,
    MinimalRun,
    NoResends,
    OneResend,
    ThreeResends,
    MostResends,
    SmallNumbers,
    LargestNumbers,
    OldExpected,
    LongRun,
    BothCrashed,
    Delivered,
    DeliveredAfterAll,
    Last,
}

const KINDS: usize = Kind::Last as usize;

/// The name of each kind, and how many of it a group of links has at least.
const LEAST: [(&str, u64); KINDS] = [
    ("submits", 500_000),
    ("circuits opened", 500_000),
    ("circuits ended by the driver", 50_000),
    ("timers that ran out", 500_000),
    ("blocks reported to the sender", 1_000_000),
    ("stores of the sender", 1_000_000),
    ("blocks written by the sender", 1_000_000),
    ("parts read by the sender", 2_000_000),
    ("parts read by the receiver", 2_000_000),
    ("decisions", 1_000_000),
    ("stores of the receiver", 500_000),
    ("reports of success", 500_000),
    ("reports of failure", 100_000),
    ("N replies", 30_000),
    ("replies sent", 1_000_000),
    ("crashes of the sender", 100_000),
    ("crashes of the receiver", 100_000),
    ("stores of the sender that fail", 100_000),
    ("restarts of the receiver on the same circuit", 100_000),
    ("messages named that the sender's host drops", 30_000),
    ("verdicts that the sender's host drops", 10_000),
    ("verdicts that the receiver's host drops", 30_000),
    ("blocks refused while a decision is open", 20_000),
    ("N replies refused while a decision is open", 1_000),
    ("reports refused by 2", 50_000),
    ("reports refused with no decision open", 50_000),
    ("acts that are refused", 100_000),
    ("crashes of the sender with something not stored", 10_000),
    ("crashes between a decision and its storing", 10_000),
    ("crashes between storing and report", 10_000),
    ("crashes between a report and sending", 10_000),
    ("crashes with bytes on a line", 50_000),
    ("crashes before resynchronizing", 50_000),
    (
        "failed stores of the sender with something not stored",
        5_000,
    ),
    ("failed stores of the sender on a circuit", 50_000),
    ("such restarts between a decision and its storing", 5_000),
    ("such restarts between storing and report", 5_000),
    ("such restarts with replies not yet sent", 5_000),
    ("failures of a decision that has a transaction", 10_000),
    ("failures of a decision that changes nothing", 10_000),
    ("circuits opened while a decision is not yet stored", 10_000),
    ("circuits opened between storing and report", 10_000),
    ("blocks that reach the sender without a circuit", 5_000),
    ("decisions without a circuit", 5_000),
    ("blocks reported to the sender before an older one", 15_000),
    ("blocks taken by the receiver while others wait", 50_000),
    (
        "blocks that were refused while a decision was open and are taken",
        10_000,
    ),
    (
        "blocks that were refused while a decision was open and are dropped",
        5_000,
    ),
    ("replies with an offset in the buffer", 500_000),
    ("submissions of other bytes with the right number", 3_000),
    ("submissions refused by 1", 100_000),
    ("submissions refused by 3", 10_000),
    ("submissions refused by 4", 5_000),
    ("submissions refused by 9", 20_000),
    ("submissions refused by 10", 50_000),
    ("blocks lost", 100_000),
    ("lines emptied", 10_000),
    ("damages with one refusal", 50_000),
    ("damages with several refusals", 10_000),
    ("damages with no refusal until the next SB", 50_000),
    ("damages with no refusal at all", 2_000),
    ("damages that change no verdict", 20_000),
    ("damages accepted by chance and undone", 5_000),
    ("answers in another order", 2_000),
    ("answers repeated", 50_000),
    ("resends", 500_000),
    ("circuits abandoned", 100_000),
    ("answers dropped", 50_000),
    ("N blocks read by the sender", 30_000),
    ("deliveries with unknown verdict", 30_000),
    ("deliveries accepted", 100_000),
    ("deliveries with an error", 100_000),
    ("link runs", 100_000),
    ("hybrid link runs", 50_000),
    ("minimal link runs", 25_000),
    ("link runs with r of 0", 10_000),
    ("link runs with r of 1", 10_000),
    ("link runs with r of 3", 10_000),
    ("link runs with r of 99", 10_000),
    ("link runs on numbers up to 100", 10_000),
    ("link runs on the last 100 numbers", 10_000),
    ("link runs with an old expected number", 10_000),
    ("link runs with more than 6 transactions", 1_000),
    ("link runs with crashes at both ends", 20_000),
    ("link runs delivered", 50_000),
    (
        "link runs delivered after loss, damage and crashes at both ends",
        10_000,
    ),
];

#[derive(Clone)]
pub struct Counts([u64; KINDS]);

impl Counts {
    pub fn new() -> Counts {
        Counts([0; KINDS])
    }

    pub fn add(&mut self, kind: Kind) {
        self.0[kind as usize] += 1;
    }

    pub fn get(&self, kind: Kind) -> u64 {
        self.0[kind as usize]
    }

    pub fn has(&self, kinds: &[Kind]) -> bool {
        kinds.iter().any(|&kind| self.get(kind) > 0)
    }

    pub fn add_all(&mut self, counts: &Counts) {
        for (sum, count) in self.0.iter_mut().zip(counts.0) {
            *sum += count;
        }
    }

    /// The acts of both ends.
    pub fn acts(&self) -> u64 {
        self.0[..=Kind::RefusedAct as usize].iter().sum()
    }

    pub fn print(&self) {
        for (count, (what, _)) in self.0.iter().zip(LEAST) {
            println!("  {count} {what}");
        }
    }

    /// Too few of one kind is a failure.
    pub fn enough(&self) -> Result<(), String> {
        for (&count, (what, least)) in self.0.iter().zip(LEAST) {
            if count < least {
                return Err(format!("{what}: {count}, and {least} are promised"));
            }
        }
        Ok(())
    }
}
