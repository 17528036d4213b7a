use crate::clock::Reading;
use crate::host::Held;
use crate::orders::Order;

pub const ENTRY: usize = 16;

/// "stamp 8, source 1, kind 1, image 4, share 1 (0 unless publish), one zero", into 16 bytes.
pub fn write_entry(held: &Held, entry: &mut [u8]) {
    entry[..8].copy_from_slice(&held.stamp.0.to_be_bytes());
    entry[8] = held.source;
    entry[9] = held.order.kind();
    entry[10..14].copy_from_slice(&held.order.image().to_be_bytes());
    entry[14] = held.order.share();
    entry[15] = 0;
}

/// What was written, for those who were lent the list. Nothing for a kind that no order has.
pub fn read_entry(entry: &[u8; ENTRY]) -> Option<Held> {
    let [s0, s1, s2, s3, s4, s5, s6, s7, source, kind, i0, i1, i2, i3, share, _] = *entry;
    let image = u32::from_be_bytes([i0, i1, i2, i3]);
    Some(Held {
        stamp: Reading(u64::from_be_bytes([s0, s1, s2, s3, s4, s5, s6, s7])),
        source,
        order: Order::of(kind, image, share)?,
    })
}
