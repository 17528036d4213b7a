//! Sound states of every kind, also such as no run gets to.

use crate::dice::Dice;
use crate::networks::{accepted, network};
use crate::orders::formed;
use crate::states::plan_from;
use currentloom::memory::{HeldMemory, HostMemory, HISTORY, STARTS};
use currentloom::{LARGEST_READING, LARGEST_STAMP};
use std::collections::BTreeSet;

/// "Sound means", by the letter: neither the true d nor the last reading's range is asked.
pub fn sound(dice: &mut Dice) -> HostMemory {
    let plan = if dice.one_in(3) {
        network(dice)
    } else {
        accepted(dice)
    };
    let rules = 1 + dice.below(2) as u8;
    let d = 1 + dice.below(7) as u8;
    let mut memory = HostMemory {
        bound: plain::bound(rules, &plan_from(&plan), d),
        last: last(dice),
        own: dice.below(u64::from(plan.hosts)),
        plan,
        rules,
        d,
        ..HostMemory::default()
    };
    keep_starts(dice, &mut memory);
    hold(dice, &mut memory);
    memory
}

fn last(dice: &mut Dice) -> u64 {
    let (near, far) = (dice.below(300), dice.below(1 << 40));
    match dice.below(16) {
        0 => 0,
        1 => LARGEST_STAMP.0 - near,
        2 => LARGEST_STAMP.0 + near,
        3 => LARGEST_READING.0 - near,
        4 => LARGEST_READING.0 + near,
        5 => u64::MAX - near,
        6..=9 => far,
        _ => near,
    }
}

/// Up to four, strictly rising, none above the last reading.
fn keep_starts(dice: &mut Dice, memory: &mut HostMemory) {
    let wide = dice.pick(&[4, 40, 400]);
    let some = |dice: &mut Dice| memory.last.saturating_sub(dice.below(wide));
    let count = dice.place(STARTS + 1);
    let starts: BTreeSet<u64> = (0..count).map(|_| some(dice)).collect();
    for (place, start) in memory.starts.iter_mut().zip(&starts) {
        *place = *start;
    }
    memory.started = starts.len() as u64;
}

fn hold(dice: &mut Dice, memory: &mut HostMemory) {
    let last_start = memory.starts[..memory.started as usize].last().copied();
    let any = dice.place(HISTORY + 1);
    let count = dice.pick(&[0, 1, 31, 32, any]);
    let mut names = BTreeSet::new();
    // Names repeat or are left out, so some more are tried than are wanted.
    for _ in 0..4 * count {
        let stamp = stamp_near(dice, memory, memory.last);
        let source = dice.below(u64::from(memory.plan.hosts));
        let is_good = source != memory.own || last_start.is_some_and(|start| stamp <= start);
        if is_good && stamp <= LARGEST_STAMP.0 && names.len() < count {
            names.insert((stamp, source as u8));
        }
    }
    for (place, (stamp, source)) in memory.history.iter_mut().zip(&names) {
        let order = formed(dice);
        *place = HeldMemory {
            stamp: *stamp,
            image: order.image,
            source: *source,
            kind: order.kind,
            share: order.share,
        };
    }
    memory.held = names.len() as u64;
}

/// A stamp that was given, is due, or lies ahead at that reading.
pub fn stamp_near(dice: &mut Dice, memory: &HostMemory, reading: u64) -> u64 {
    let back = dice.below(memory.bound.clamp(1, 2_000) + 20);
    let ahead = dice.below(u64::from(memory.plan.skew) * 9 + 2);
    let edge = dice.pick(&[
        0,
        LARGEST_STAMP.0 - back,
        LARGEST_STAMP.0,
        LARGEST_STAMP.0 + 1,
    ]);
    let near = reading.saturating_sub(back);
    dice.pick(&[
        near,
        near,
        near,
        near,
        reading.saturating_add(ahead),
        reading,
        edge,
    ])
}
