//! Calls on hosts: walks from fresh ones, and single calls on states of every kind.

use crate::damage::{damage_bytes, damage_field};
use crate::dice::Dice;
use crate::networks::accepted;
use crate::orders::order;
use crate::sound::{sound, stamp_near};
use crate::trial::{Difference, Trial};
use currentloom::door::{CopyNumbers, OrderNumbers};
use currentloom::memory::HostMemory;
use currentloom::{LARGEST_READING, LARGEST_STAMP};

/// A fresh host and calls on it, one after another, as its clock runs.
pub fn walk(trial: &mut Trial) -> Result<(), Difference> {
    let plan = accepted(&mut trial.dice);
    let (rules, own) = (
        1 + trial.dice.below(2) as u8,
        trial.dice.below(u64::from(plan.hosts)),
    );
    let mut memory = HostMemory {
        plan,
        ..HostMemory::default()
    };
    trial.make(&mut memory, rules, own as u8)?;
    let any = trial.dice.below(LARGEST_READING.0);
    let mut now = trial.dice.pick(&[0, 0, 5, any, LARGEST_STAMP.0 - 1_000]);
    trial.tally.input("hosts: walks of 60 calls");
    let stride = trial.dice.pick(&[1, 3, 20, 200]);
    for _ in 0..60 {
        now += trial.dice.pick(&[0, 0, 1]) * trial.dice.below(stride + 1);
        let stray = reading_near(&mut trial.dice, &memory);
        let u = if trial.dice.one_in(8) { stray } else { now };
        some_call(trial, &mut memory, u)?;
        now = now.max(memory.last);
        if trial.dice.one_in(16) {
            let mut damaged = memory;
            damage_field(&mut trial.dice, &mut damaged);
            trial
                .tally
                .input("hosts: states of a walk, one field damaged");
            some_call(trial, &mut damaged, u)?;
        }
    }
    Ok(())
}

/// A call on a sound state, and on the same state damaged in each way.
pub fn state(trial: &mut Trial) -> Result<(), Difference> {
    let memory = sound(&mut trial.dice);
    trial.tally.input("hosts: sound states");
    near_call(trial, memory)?;
    let mut damaged = memory;
    damage_field(&mut trial.dice, &mut damaged);
    trial.tally.input("hosts: states with one field damaged");
    near_call(trial, damaged)?;
    let mut damaged = memory;
    damage_bytes(&mut trial.dice, &mut damaged);
    trial
        .tally
        .input("hosts: states with up to three bytes damaged");
    near_call(trial, damaged)?;
    if trial.dice.one_in(16) {
        let mut bytes = memory.bytes();
        trial.dice.fill(&mut bytes);
        trial.tally.input("hosts: states of random bytes");
        near_call(trial, HostMemory::from_bytes(bytes))?;
    }
    Ok(())
}

/// Each of the three calls upon one state.
fn near_call(trial: &mut Trial, memory: HostMemory) -> Result<(), Difference> {
    let u = reading_near(&mut trial.dice, &memory);
    for call in 0..3 {
        call_of(trial, &mut memory.clone(), u, call)?;
    }
    Ok(())
}

fn some_call(trial: &mut Trial, memory: &mut HostMemory, u: u64) -> Result<(), Difference> {
    let call = trial.dice.pick(&[0, 1, 1, 1, 2]);
    call_of(trial, memory, u, call)
}

fn call_of(trial: &mut Trial, memory: &mut HostMemory, u: u64, call: u8) -> Result<(), Difference> {
    match call {
        0 => {
            let order = order(&mut trial.dice);
            trial.start(memory, u, order)?;
        }
        1 => {
            let (link, copy) = some_copy(&mut trial.dice, memory, u);
            trial.receive(memory, u, link, copy)?;
        }
        _ => {
            let any = trial.dice.place(600);
            let room = trial.dice.pick(&[512, 512, 512, 528, 496, 16, 15, 0, any]);
            trial.tick(memory, u, room)?;
        }
    }
    Ok(())
}

/// At the edges of all that is compared with a reading.
fn reading_near(dice: &mut Dice, memory: &HostMemory) -> u64 {
    let (last, near) = (memory.last, dice.pick(&[0, 0, 1, 2]));
    let held = memory.history[dice.place((memory.held as usize).clamp(1, 32))].stamp;
    let starts = &memory.starts;
    let window = memory
        .bound
        .wrapping_add(u64::from(memory.plan.skew) * dice.pick(&[1, 8]));
    let (soon, any) = (dice.below(memory.bound.clamp(1, 2_000) + 10), dice.number());
    let middle = match dice.below(10) {
        0 => held.wrapping_add(memory.bound),
        1 => starts[dice.place(4)],
        2 => starts[0].wrapping_add(window),
        3 => dice.pick(&[0, LARGEST_STAMP.0, LARGEST_READING.0, u64::MAX, any]),
        4 => held,
        5 | 6 => last.wrapping_add(soon),
        _ => last,
    };
    if dice.one_in(2) {
        middle.wrapping_add(near)
    } else {
        middle.wrapping_sub(near)
    }
}

/// A copy of an order that is held, of another under its name, or of a new one.
fn some_copy(dice: &mut Dice, memory: &HostMemory, u: u64) -> (u8, CopyNumbers) {
    let held = memory.history[dice.place((memory.held as usize).clamp(1, 32))];
    let mut copy = CopyNumbers {
        stamp: stamp_near(dice, memory, u),
        source: dice.below(u64::from(memory.plan.hosts.max(1))) as u8,
        hop: hop(dice, memory.rules),
        order: order(dice),
    };
    if dice.one_in(3) {
        (copy.stamp, copy.source) = (held.stamp, held.source);
        if dice.one_in(2) {
            copy.order = OrderNumbers {
                kind: held.kind,
                image: held.image,
                share: held.share,
            };
        }
    } else if memory.rules == 2 && dice.one_in(3) {
        copy.stamp = at_hop_edge(dice, memory, u, copy.hop);
    }
    if dice.one_in(16) {
        copy.source = dice.pick(&[memory.plan.hosts, memory.own as u8, 7, 8, 255]);
    }
    (link(dice, memory), copy)
}

fn hop(dice: &mut Dice, rules: u8) -> u8 {
    let good = if rules == 2 {
        1 + dice.below(8) as u8
    } else {
        0
    };
    if dice.one_in(20) {
        dice.pick(&[0, 1, 8, 9, 255])
    } else {
        good
    }
}

/// A stamp for which the reading is at either end of what the hop allows.
fn at_hop_edge(dice: &mut Dice, memory: &HostMemory, u: u64, hop: u8) -> u64 {
    let (delay, skew) = (u64::from(memory.plan.delay), u64::from(memory.plan.skew));
    let (hop, near) = (u64::from(hop), dice.below(3));
    if dice.one_in(2) {
        u.saturating_add(hop * skew).saturating_sub(near)
    } else {
        u.saturating_sub(hop * (delay + skew)).saturating_add(near)
    }
}

/// Mostly one of the host's own.
fn link(dice: &mut Dice, memory: &HostMemory) -> u8 {
    let plan = &memory.plan;
    let own = |i: &u8| {
        let link = plan.links[usize::from(*i)];
        [link.a, link.b].map(u64::from).contains(&memory.own)
    };
    let links: Vec<u8> = (0..plan.link_count.min(12)).filter(own).collect();
    if links.is_empty() || dice.one_in(16) {
        let any = dice.byte();
        return dice.pick(&[0, 1, 11, 12, 15, 16, 31, 64, 255, any, plan.link_count]);
    }
    dice.pick(&links)
}
