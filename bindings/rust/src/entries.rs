use crate::clock::Reading;
use crate::memory::HISTORY;
use crate::order::Order;

pub const ENTRY: usize = 16;

/// An order with the name under which it is held and delivered.
#[derive(Clone, Copy, PartialEq, Eq, Hash, Debug)]
pub struct Held {
    pub stamp: Reading,
    pub source: u8,
    pub order: Order,
}

impl Held {
    /// An entry: stamp 8, source 1, kind 1, image 4, share 1, one zero. None for a kind that no
    /// order has.
    pub fn from_entry(entry: &[u8; ENTRY]) -> Option<Held> {
        let [s0, s1, s2, s3, s4, s5, s6, s7, source, kind, i0, i1, i2, i3, share, _] = *entry;
        Some(Held {
            stamp: Reading(u64::from_be_bytes([s0, s1, s2, s3, s4, s5, s6, s7])),
            source,
            order: Order::of(kind, u32::from_be_bytes([i0, i1, i2, i3]), share)?,
        })
    }
}

/// What one tick delivers, in its order.
#[derive(Clone, Debug)]
pub struct Entries {
    list: [u8; HISTORY * ENTRY],
    next: usize,
    count: usize,
}

impl Entries {
    pub(crate) fn new(list: [u8; HISTORY * ENTRY], count: usize) -> Entries {
        Entries {
            list,
            next: 0,
            count,
        }
    }
}

impl Iterator for Entries {
    type Item = Held;

    fn next(&mut self) -> Option<Held> {
        if self.next == self.count {
            return None;
        }
        let entry = self.list[self.next * ENTRY..][..ENTRY].try_into().ok()?;
        self.next += 1;
        Held::from_entry(&entry)
    }

    fn size_hint(&self) -> (usize, Option<usize>) {
        let left = self.count - self.next;
        (left, Some(left))
    }
}

impl ExactSizeIterator for Entries {}
