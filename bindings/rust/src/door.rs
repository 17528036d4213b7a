//! The exported calls as they are: flat memory and numbers. Use [`Host`](crate::Host),
//! [`Board`](crate::Board) and [`Message`](crate::Message) instead, unless every byte matters, as in
//! a test.
//!
//! Each call answers one number. Its lowest byte is the refusal, 0 for an accepted call; what else
//! is answered stands above it.
//!
//! This module has the only unsafe code. What it rests on: a call reads and writes the one memory
//! and the one buffer lent to it and keeps neither; any bytes are allowed in both; and the memory
//! has no padding, so that its bytes can be looked at.
#![allow(unsafe_code)]

use crate::memory::{BoardMemory, HostMemory, PlanMemory};

extern "C" {
    fn loom_plan(memory: *mut PlanMemory) -> u64;
    fn loom_make(memory: *mut HostMemory, rules: u8, own: u8) -> u64;
    fn loom_start(memory: *mut HostMemory, u: u64, kind: u8, image: u32, share: u16) -> u64;
    fn loom_receive(
        memory: *mut HostMemory,
        u: u64,
        link: u8,
        hop: u8,
        stamp: u64,
        source: u8,
        kind: u8,
        image: u32,
        share: u16,
    ) -> u64;
    fn loom_tick(memory: *mut HostMemory, u: u64, out: *mut u8, room: usize) -> u64;
    fn loom_write(
        rules: u8,
        stamp: u64,
        source: u8,
        hop: u8,
        kind: u8,
        image: u32,
        share: u16,
        out: *mut u8,
        room: usize,
    ) -> u64;
    fn loom_read(rules: u8, bytes: *const u8, size: usize, out: *mut u64, room: usize) -> u64;
    fn loom_apply(memory: *mut BoardMemory, kind: u8, image: u32, share: u16) -> u64;
    fn loom_replay(bytes: *const u8, size: usize, out: *mut u8, room: usize) -> u64;
}

/// An order as three numbers, which need not be any order's.
#[derive(Clone, Copy, PartialEq, Eq, Debug)]
pub struct OrderNumbers {
    pub kind: u8,
    pub image: u32,
    pub share: u16,
}

/// A copy as numbers, each of which may be out of range.
#[derive(Clone, Copy, PartialEq, Eq, Debug)]
pub struct CopyNumbers {
    pub stamp: u64,
    pub source: u8,
    pub hop: u8,
    pub order: OrderNumbers,
}

/// Planning: refusals 1, 2, 3.
pub fn plan(memory: &mut PlanMemory) -> u64 {
    unsafe { loom_plan(memory) }
}

/// Makes a host of the plan that stands in the memory: refusals 1, 2, 3, 23, 15.
pub fn make(memory: &mut HostMemory, rules: u8, own: u8) -> u64 {
    unsafe { loom_make(memory, rules, own) }
}

/// Refusals 9, 23, 10, 11, 12, 13, 14; above the refusal the hop, and above that the links.
pub fn start(memory: &mut HostMemory, u: u64, order: OrderNumbers) -> u64 {
    unsafe { loom_start(memory, u, order.kind, order.image, order.share) }
}

/// Refusals 9, 15, 23, 10, 11, 16, 17, 18, 19, 20, 21, 14; the answer as a start's.
pub fn receive(memory: &mut HostMemory, u: u64, link: u8, copy: CopyNumbers) -> u64 {
    let CopyNumbers {
        stamp,
        source,
        hop,
        order,
    } = copy;
    let OrderNumbers { kind, image, share } = order;
    unsafe { loom_receive(memory, u, link, hop, stamp, source, kind, image, share) }
}

/// Refusals 9, 10, 11, 22; above the refusal the number of entries written.
pub fn tick(memory: &mut HostMemory, u: u64, out: &mut [u8]) -> u64 {
    unsafe { loom_tick(memory, u, out.as_mut_ptr(), out.len()) }
}

/// Refusals 23, 22; above the refusal the length.
pub fn write(rules: u8, copy: CopyNumbers, out: &mut [u8]) -> u64 {
    let CopyNumbers {
        stamp,
        source,
        hop,
        order,
    } = copy;
    let OrderNumbers { kind, image, share } = order;
    let (room, out) = (out.len(), out.as_mut_ptr());
    unsafe { loom_write(rules, stamp, source, hop, kind, image, share, out, room) }
}

/// Refusals 23, 30, and 22 where `out` has fewer than eight numbers. They become stamp, source, hop,
/// kind, image, share, and the place and size of the order's bytes.
pub fn read(rules: u8, bytes: &[u8], out: &mut [u64]) -> u64 {
    unsafe {
        loom_read(
            rules,
            bytes.as_ptr(),
            bytes.len(),
            out.as_mut_ptr(),
            out.len(),
        )
    }
}

/// Refusals 9, 23.
pub fn apply(memory: &mut BoardMemory, order: OrderNumbers) -> u64 {
    unsafe { loom_apply(memory, order.kind, order.image, order.share) }
}

/// Refusal 22; above it the length of the report's text.
pub fn replay(bytes: &[u8], out: &mut [u8]) -> u64 {
    unsafe { loom_replay(bytes.as_ptr(), bytes.len(), out.as_mut_ptr(), out.len()) }
}

macro_rules! bytes_of_memory {
    ($($memory:ty),*) => {$(
        impl $memory {
            /// Every byte of the memory, in its order.
            pub fn bytes(&self) -> [u8; size_of::<Self>()] {
                unsafe { std::mem::transmute(*self) }
            }

            /// Memory of any bytes.
            pub fn from_bytes(bytes: [u8; size_of::<Self>()]) -> Self {
                unsafe { std::mem::transmute(bytes) }
            }
        }
    )*};
}

bytes_of_memory!(PlanMemory, HostMemory, BoardMemory);
