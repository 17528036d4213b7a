/// A clock reading. A stamp is a reading too: that of its source's clock at the start.
#[derive(Clone, Copy, PartialEq, Eq, PartialOrd, Ord, Debug, Default)]
pub struct Reading(pub u64);

/// A real tick.
#[derive(Clone, Copy, PartialEq, Eq, PartialOrd, Ord, Debug, Default)]
pub struct Tick(pub u64);

pub const LARGEST_READING: Reading = Reading(1_099_511_627_775);
pub const LARGEST_STAMP: Reading = Reading(1_099_511_623_679);

impl Reading {
    /// Only for readings in range: there no sum with δ, ε, Δ or W can pass 64 bits.
    pub(crate) fn plus(self, ticks: u64) -> Reading {
        Reading(self.0 + ticks)
    }
}

impl Tick {
    /// "A reading is a real tick plus that host's offset": the one way from the one to the other.
    pub fn read_with(self, offset: u8) -> Reading {
        Reading(self.0 + u64::from(offset))
    }
}
