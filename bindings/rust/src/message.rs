use crate::clock::Reading;
use crate::door::{self, CopyNumbers};
use crate::order::Order;
use crate::plan::Rules;
use crate::refusal::{taken_apart, Result};

/// A publish under the second rules.
pub const LONGEST_MESSAGE: usize = 28;

/// What one host sends to another.
#[derive(Clone, Copy, PartialEq, Eq, Hash, Debug)]
pub struct Message {
    /// T: the source's clock reading at the start.
    pub stamp: Reading,
    pub source: u8,
    /// 1..8 under the second rules, 0 under the first.
    pub hop: u8,
    pub order: Order,
}

/// What reading answers.
#[derive(Clone, Copy, PartialEq, Eq, Debug)]
pub struct Read<'a> {
    pub message: Message,
    /// The order field's value: that part of the bytes that were lent, and no copy of it.
    pub part: &'a [u8],
}

impl Message {
    /// Writes the message into the front of `out` and answers its length: refusals 23, 22. What lies
    /// behind it stays as it was.
    pub fn write(&self, rules: Rules, out: &mut [u8]) -> Result<usize> {
        let length = taken_apart(door::write(rules.number(), self.numbers(), out))?;
        Ok(length as usize)
    }

    /// Reads bytes that are exactly one message: refusal 30.
    pub fn read(rules: Rules, bytes: &[u8]) -> Result<Read<'_>> {
        let mut found = [0; 8];
        taken_apart(door::read(rules.number(), bytes, &mut found))?;
        let [stamp, source, hop, kind, image, share, place, size] = found;
        let order = Order::of(kind as u8, image as u32, share as u8);
        let message = Message {
            stamp: Reading(stamp),
            source: source as u8,
            hop: hop as u8,
            order: order.expect("what is read is an order"),
        };
        let part = &bytes[place as usize..][..size as usize];
        Ok(Read { message, part })
    }

    pub(crate) fn numbers(&self) -> CopyNumbers {
        CopyNumbers {
            stamp: self.stamp.0,
            source: self.source,
            hop: self.hop,
            order: self.order.numbers(),
        }
    }
}
