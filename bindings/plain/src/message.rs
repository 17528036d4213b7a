use crate::clock::{Reading, LARGEST_STAMP};
use crate::fields::Reader;
use crate::orders::Order;
use crate::plan::{FIRST, SECOND};
use crate::refusal;

/// A publish under the second rules.
pub const LONGEST_MESSAGE: usize = 28;

#[derive(Clone, Copy, PartialEq, Eq, Debug)]
pub struct Message {
    pub stamp: Reading,
    pub source: u8,
    pub hop: u8,
    pub order: Order,
}

/// What a reader answers. `part` is field 4's value, in the message that was lent.
#[derive(Clone, Copy, PartialEq, Eq, Debug)]
pub struct Read<'a> {
    pub message: Message,
    pub part: &'a [u8],
}

impl Message {
    /// Stamp, hop and share in range under a rule set that is 1 or 2.
    pub(crate) fn is_in_range(&self, rules: u8) -> bool {
        let hop_fits = match rules {
            FIRST => self.hop == 0,
            SECOND => (1..=8).contains(&self.hop),
            _ => false,
        };
        hop_fits && self.stamp <= LARGEST_STAMP && self.order.is_in_range()
    }
}

/// Writing: refusals 23, 22. The answer is the number of bytes written.
pub fn write(rules: u8, message: &Message, buffer: &mut [u8]) -> Result<usize, u8> {
    if !message.is_in_range(rules) || message.source > 7 {
        return Err(refusal::RANGE);
    }
    let hop_field: &[u8] = if rules == SECOND {
        &[3, 0, 1, message.hop]
    } else {
        &[]
    };
    let order_at = 18 + hop_field.len();
    let length = order_at + message.order.length();
    let bytes = buffer.get_mut(..length).ok_or(refusal::SHORT)?;
    bytes[..3].copy_from_slice(&[1, 0, 8]);
    bytes[3..11].copy_from_slice(&message.stamp.0.to_be_bytes());
    bytes[11..15].copy_from_slice(&[2, 0, 1, message.source]);
    bytes[15..order_at - 3].copy_from_slice(hop_field);
    bytes[order_at - 3..order_at].copy_from_slice(&[4, 0, message.order.length() as u8]);
    message.order.write(&mut bytes[order_at..]);
    Ok(length)
}

/// Reading: refusals 23, 30.
pub fn read(rules: u8, bytes: &[u8]) -> Result<Read<'_>, u8> {
    if rules != FIRST && rules != SECOND {
        return Err(refusal::RANGE);
    }
    read_fields(rules, bytes).ok_or(refusal::NO_MESSAGE)
}

fn read_fields(rules: u8, bytes: &[u8]) -> Option<Read<'_>> {
    let mut reader = Reader::new(bytes);
    let stamp = Reading(u64::from_be_bytes(reader.array(1)?));
    let [source] = reader.array(2)?;
    let [hop] = if rules == SECOND {
        reader.array(3)?
    } else {
        [0]
    };
    let part = reader.field(4)?;
    let order = Order::read(part)?;
    let message = Message {
        stamp,
        source,
        hop,
        order,
    };
    let is_good = reader.is_at_end() && source <= 7 && message.is_in_range(rules);
    is_good.then_some(Read { message, part })
}
