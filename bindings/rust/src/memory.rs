//! The flat memory that the calls are lent. Every byte is some field's, and any bytes are allowed:
//! what is not the memory of a sound state is refused 9 and stays as it was.

pub const LINKS: usize = 12;
pub const HISTORY: usize = 32;
pub const STARTS: usize = 4;
pub const IMAGES: usize = 16;

#[repr(C)]
#[derive(Clone, Copy, PartialEq, Eq, Debug, Default)]
pub struct Link {
    pub a: u8,
    pub b: u8,
}

/// A plan as it is given: every number may be out of range.
#[repr(C)]
#[derive(Clone, Copy, PartialEq, Eq, Debug, Default)]
pub struct PlanFields {
    /// n
    pub hosts: u8,
    /// π
    pub faulty_hosts: u8,
    /// m: how many of the link places are used
    pub link_count: u8,
    /// L
    pub faulty_links: u8,
    /// δ
    pub delay: u8,
    /// ε
    pub skew: u8,
    pub links: [Link; LINKS],
}

/// Δ and W under one rule set.
#[repr(C)]
#[derive(Clone, Copy, PartialEq, Eq, Debug, Default)]
pub struct Timing {
    /// Δ
    pub bound: u64,
    /// W
    pub window: u64,
}

/// A plan, and what planning finds of it.
#[repr(C)]
#[derive(Clone, Copy, PartialEq, Eq, Debug, Default)]
pub struct PlanMemory {
    pub first: Timing,
    pub second: Timing,
    pub plan: PlanFields,
    pub d: u16,
}

/// A place of the history: all zero where it is unused.
#[repr(C)]
#[derive(Clone, Copy, PartialEq, Eq, Debug, Default)]
pub struct HeldMemory {
    /// T
    pub stamp: u64,
    pub image: u32,
    pub source: u8,
    /// 1 publish, 2 halt, 3 resume, 4 withdraw
    pub kind: u8,
    /// 1..100 of a publish, else 0
    pub share: u16,
}

/// A host's state.
#[repr(C)]
#[derive(Clone, Copy, PartialEq, Eq, Debug, Default)]
pub struct HostMemory {
    /// Δ
    pub bound: u64,
    /// The last reading.
    pub last: u64,
    /// The host's own number.
    pub own: u64,
    /// How many of the starts' places are used, the oldest first.
    pub started: u64,
    /// How many places of the history are used.
    pub held: u64,
    pub starts: [u64; STARTS],
    pub history: [HeldMemory; HISTORY],
    pub plan: PlanFields,
    /// 1 the first rules, 2 the second
    pub rules: u8,
    pub d: u8,
}

/// A place of a board: all zero where it is unused.
#[repr(C)]
#[derive(Clone, Copy, PartialEq, Eq, Debug, Default)]
pub struct PlaceMemory {
    pub image: u32,
    /// 1 offered, 2 halted
    pub stand: u16,
    pub share: u16,
}

#[repr(C)]
#[derive(Clone, Copy, PartialEq, Eq, Debug, Default)]
pub struct BoardMemory {
    /// How many places are used.
    pub count: u64,
    pub places: [PlaceMemory; IMAGES],
}

// The sizes are the sums of the fields' sizes, so there is no padding.
const _: () = assert!(size_of::<PlanFields>() == 6 + LINKS * 2);
const _: () = assert!(size_of::<PlanMemory>() == 64);
const _: () = assert!(size_of::<HeldMemory>() == 16);
const _: () = assert!(size_of::<HostMemory>() == 72 + HISTORY * 16 + 32);
const _: () = assert!(size_of::<PlaceMemory>() == 8);
const _: () = assert!(size_of::<BoardMemory>() == 8 + IMAGES * 8);
