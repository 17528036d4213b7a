//! The refusal numbers, by their rows.

/// A plan number is out of range.
pub const PLAN_NUMBER: u8 = 1;
/// A link end is n or more, a ≥ b, or a pair repeats.
pub const PLAN_LINK: u8 = 2;
/// Some fault set leaves survivors not connected.
pub const PARTED: u8 = 3;
/// The lent state is not sound.
pub const UNSOUND: u8 = 9;
/// U is out of range, or on a start above the largest stamp.
pub const READING: u8 = 10;
/// U is less than the last reading.
pub const FALLING: u8 = 11;
/// A start at the reading of the last start.
pub const SAME_READING: u8 = 12;
/// U < T' + W, where T' is the fourth last start, if there were four.
pub const WINDOW: u8 = 13;
/// 32 orders are held.
pub const FULL: u8 = 14;
/// A host, own link or source that the plan lacks.
pub const LACKING: u8 = 15;
/// Second rules: U + hε ≤ T.
pub const EARLY: u8 = 16;
/// Second rules: U ≥ T + h(δ+ε).
pub const LATE: u8 = 17;
/// U ≥ T + Δ.
pub const PAST_BOUND: u8 = 18;
/// The same order is held under (T, source).
pub const SAME_HELD: u8 = 19;
/// Another order is held under (T, source).
pub const OTHER_HELD: u8 = 20;
/// The source is this host, and (T, source) is not held.
pub const NOT_OURS: u8 = 21;
/// The lent buffer is too short for all that is due or written.
pub const SHORT: u8 = 22;
/// A rule set other than 1 or 2, a stamp, hop or share out of range, or in writing a source above
/// 7.
pub const RANGE: u8 = 23;
/// Bytes that are not one message.
pub const NO_MESSAGE: u8 = 30;
/// Bytes that are not a schedule.
pub const NO_SCHEDULE: u8 = 31;
/// A schedule outside the rules; the answer has the record's index.
pub const RECORD: u8 = 32;
