//! Damage to a host's memory: one field, or some bytes of it.

use crate::dice::Dice;
use crate::plans;
use crate::states::plan_from;
use currentloom::memory::{HostMemory, HISTORY, LINKS};
use currentloom::LARGEST_STAMP;

/// A number close by, or one that a shorter or signed number would take for it.
fn off(dice: &mut Dice, number: u64) -> u64 {
    let any = dice.number();
    let (up, down) = (number.wrapping_add(1), number.wrapping_sub(1));
    let wide = number | 1 << dice.pick(&[8, 16, 31, 32, 63]);
    dice.pick(&[up, down, wide, 0, u64::MAX, 1 << 63, any])
}

/// Some of it leaves the state sound. Often Δ is made to fit, so that it is not Δ that is refused.
pub fn damage_field(dice: &mut Dice, memory: &mut HostMemory) {
    damage_one(dice, memory);
    if dice.one_in(2) {
        memory.bound = plain::bound(memory.rules, &plan_from(&memory.plan), memory.d);
    }
}

fn damage_one(dice: &mut Dice, memory: &mut HostMemory) {
    let (any, close) = (dice.byte(), dice.pick(&[1, 255]));
    match dice.below(16) {
        0 => memory.rules = dice.pick(&[0, 3, 255, memory.rules ^ 3, any]),
        1 => memory.d = dice.pick(&[0, 8, 255, memory.d.wrapping_add(1), any]),
        2 => memory.bound = off(dice, memory.bound),
        3 => {
            let hosts = u64::from(memory.plan.hosts);
            memory.own = match dice.below(3) {
                0 => off(dice, memory.own),
                _ => dice.pick(&[0, hosts - 1, hosts, 7, 8, 255, 256]),
            };
        }
        4 => {
            let off = off(dice, memory.started);
            memory.started = dice.pick(&[0, 1, 4, 5, off]);
        }
        5 => {
            let off = off(dice, memory.held);
            memory.held = dice.pick(&[0, 31, 32, 33, off]);
        }
        6 | 7 => {
            let place = dice.place(memory.starts.len());
            memory.starts[place] = off(dice, memory.starts[place]);
        }
        8 => memory.last = off(dice, memory.last),
        9 => memory.plan = plans::changed(dice, &memory.plan),
        10 => {
            let place = dice.place(LINKS);
            memory.plan.links[place].b = memory.plan.links[place].b.wrapping_add(close);
        }
        _ => damage_history(dice, memory),
    }
}

fn damage_history(dice: &mut Dice, memory: &mut HostMemory) {
    let held = (memory.held as usize).clamp(1, HISTORY);
    let (any, used) = (dice.place(HISTORY), dice.place(held));
    let place = dice.pick(&[any, used, held - 1, held.min(HISTORY - 1)]);
    let (hosts, byte) = (memory.plan.hosts, dice.byte());
    let next = memory.history[(place + 1) % HISTORY];
    let entry = &mut memory.history[place];
    match dice.below(8) {
        0 => entry.stamp = off(dice, entry.stamp),
        1 => entry.stamp = dice.pick(&[0, LARGEST_STAMP.0, LARGEST_STAMP.0 + 1, next.stamp]),
        2 => entry.source = dice.pick(&[0, hosts - 1, hosts, 8, byte, memory.own as u8]),
        3 => entry.kind = dice.pick(&[0, 1, 2, 4, 5, 255, byte]),
        4 => entry.share = dice.pick(&[0, 1, 100, 101, 256, 257, u16::MAX]),
        5 => entry.image = dice.number() as u32,
        6 => *entry = next,
        _ => memory.history.swap(place, any),
    }
}

pub fn damage_bytes(dice: &mut Dice, memory: &mut HostMemory) {
    let mut bytes = memory.bytes();
    for _ in 0..1 + dice.below(3) {
        let place = dice.place(bytes.len());
        bytes[place] = match dice.below(3) {
            0 => bytes[place] ^ 1 << dice.below(8),
            _ => dice.byte() >> dice.below(8),
        };
    }
    *memory = HostMemory::from_bytes(bytes);
}
