/// A host's clock reading. A stamp is one too: that of its source's clock at the start.
#[derive(Clone, Copy, PartialEq, Eq, PartialOrd, Ord, Hash, Debug, Default)]
pub struct Reading(pub u64);

pub const LARGEST_READING: Reading = Reading(1_099_511_627_775);
pub const LARGEST_STAMP: Reading = Reading(1_099_511_623_679);
