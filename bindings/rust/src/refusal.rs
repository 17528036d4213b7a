use std::fmt;

/// A refusal, with its number in the build paper. A refused call has changed nothing.
#[derive(Clone, Copy, PartialEq, Eq, Hash, Debug)]
#[repr(u8)]
pub enum Refusal {
    /// A plan number is out of range.
    PlanNumber = 1,
    /// A link end is n or more, a ≥ b, or a pair repeats.
    PlanLink = 2,
    /// Some fault set leaves survivors not connected.
    Parted = 3,
    /// The lent state is not sound.
    Unsound = 9,
    /// U is out of range, or on a start above the largest stamp.
    ReadingRange = 10,
    /// U is less than the last reading.
    ReadingFalls = 11,
    /// A start at the reading of the last start.
    SameReading = 12,
    /// U < T' + W, where T' is the fourth last start, if there were four.
    Window = 13,
    /// 32 orders are held.
    Full = 14,
    /// A host, own link or source that the plan lacks.
    Lacking = 15,
    /// Second rules: U + hε ≤ T.
    Early = 16,
    /// Second rules: U ≥ T + h(δ+ε).
    Late = 17,
    /// U ≥ T + Δ.
    PastBound = 18,
    /// The same order is held under (T, source).
    SameHeld = 19,
    /// Another order is held under (T, source).
    OtherHeld = 20,
    /// The source is this host, and (T, source) is not held.
    NotOurs = 21,
    /// The lent buffer is too short for all that is due or written.
    Short = 22,
    /// A rule set other than 1 or 2, a stamp, hop or share out of range, or in writing a source
    /// above 7.
    Range = 23,
    /// Bytes that are not one message.
    NoMessage = 30,
    /// Bytes that are not a schedule. It stands in a replay's text only.
    NoSchedule = 31,
    /// A schedule outside the rules. It stands in a replay's text only, with the record's index.
    Record = 32,
}

pub type Result<T> = std::result::Result<T, Refusal>;

impl Refusal {
    pub const ALL: [Refusal; 21] = {
        use Refusal::*;
        [
            PlanNumber,
            PlanLink,
            Parted,
            Unsound,
            ReadingRange,
            ReadingFalls,
            SameReading,
            Window,
            Full,
            Lacking,
            Early,
            Late,
            PastBound,
            SameHeld,
            OtherHeld,
            NotOurs,
            Short,
            Range,
            NoMessage,
            NoSchedule,
            Record,
        ]
    };

    /// The number in the build paper.
    pub fn number(self) -> u8 {
        self as u8
    }

    /// The refusal with that number; none for a number that the build paper lacks, and for 0.
    pub fn of(number: u8) -> Option<Refusal> {
        Refusal::ALL
            .into_iter()
            .find(|refusal| refusal.number() == number)
    }

    fn words(self) -> &'static str {
        match self {
            Refusal::PlanNumber => "a plan number is out of range",
            Refusal::PlanLink => "a link of the plan is none, or is there twice",
            Refusal::Parted => "some fault set parts the survivors",
            Refusal::Unsound => "the state is not sound",
            Refusal::ReadingRange => "the reading is out of range",
            Refusal::ReadingFalls => "the reading is less than the last one",
            Refusal::SameReading => "a start at the reading of the last start",
            Refusal::Window => "a fifth start within the starting window",
            Refusal::Full => "32 orders are held",
            Refusal::Lacking => "a host, own link or source that the plan lacks",
            Refusal::Early => "the copy came too early for its hop",
            Refusal::Late => "the copy came too late for its hop",
            Refusal::PastBound => "the copy came at or past its delivery",
            Refusal::SameHeld => "the same order is held",
            Refusal::OtherHeld => "another order is held under that stamp and source",
            Refusal::NotOurs => "an order of this host that it does not hold",
            Refusal::Short => "the lent buffer is too short",
            Refusal::Range => "a rule set, stamp, source, hop or share out of range",
            Refusal::NoMessage => "bytes that are not one message",
            Refusal::NoSchedule => "bytes that are not a schedule",
            Refusal::Record => "a schedule outside the rules",
        }
    }
}

impl fmt::Display for Refusal {
    fn fmt(&self, to: &mut fmt::Formatter) -> fmt::Result {
        write!(to, "refused {}: {}", self.number(), self.words())
    }
}

impl std::error::Error for Refusal {}

/// Takes an answer apart: the refusal is its lowest byte, and what else is answered stands above.
pub(crate) fn taken_apart(answer: u64) -> Result<u64> {
    match answer & 0xff {
        0 => Ok(answer >> 8),
        number => {
            Err(Refusal::of(number as u8).expect("the calls answer the build paper's numbers"))
        }
    }
}
