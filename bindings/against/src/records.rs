//! Schedules as records, written by the build paper's rules and then changed.

use crate::dice::Dice;
use crate::networks::accepted;
use crate::orders::formed;
use currentloom::memory::PlanFields;

/// A tag and its value.
pub type Record = (u8, Vec<u8>);

pub fn bytes(records: &[Record]) -> Vec<u8> {
    let mut bytes = Vec::new();
    for (tag, value) in records {
        bytes.push(*tag);
        bytes.extend((value.len() as u16).to_be_bytes());
        bytes.extend(value);
    }
    bytes
}

/// Up to so many of the first bits.
fn some_bits(dice: &mut Dice, most: u8, among: u8) -> u16 {
    let mut bits = 0;
    for _ in 0..dice.below(u64::from(most) + 1) {
        bits |= 1 << dice.below(u64::from(among));
    }
    bits
}

/// A schedule within the rules. Most ends are near, for time's sake.
pub fn schedule(dice: &mut Dice) -> Vec<Record> {
    let plan = accepted(dice);
    let mut records = vec![(
        16,
        vec![
            plan.hosts,
            plan.faulty_hosts,
            plan.faulty_links,
            plan.delay,
            plan.skew,
        ],
    )];
    let links = &plan.links[..usize::from(plan.link_count)];
    records.extend(links.iter().map(|link| (17, vec![link.a, link.b])));
    let hosts = some_bits(dice, plan.faulty_hosts, plan.hosts) as u8;
    let cut = some_bits(dice, plan.faulty_links, plan.link_count);
    records.push((18, vec![hosts, (cut >> 8) as u8, cut as u8]));
    let offset = |_| dice.below(u64::from(plan.skew)) as u8;
    records.push((19, (0..plan.hosts).map(offset).collect()));
    let (near, far) = (dice.below(200) as u16, dice.below(4_097) as u16);
    let end = if dice.one_in(40) {
        dice.pick(&[far, 4_096])
    } else {
        near
    };
    records.push((20, end.to_be_bytes().to_vec()));
    let starts = starts(dice, &plan, end);
    let count = starts.len() as u8;
    records.extend(starts);
    records.extend(fates(dice, &plan, count, hosts, cut));
    records
}

/// In non-falling ticks. Often some of one host within its window, so that some are refused.
fn starts(dice: &mut Dice, plan: &PlanFields, end: u16) -> Vec<Record> {
    let count = dice.place(17);
    let wide = dice.pick(&[8, u64::from(end) + 1]).min(u64::from(end) + 1);
    let mut ticks: Vec<u16> = (0..count).map(|_| dice.below(wide) as u16).collect();
    ticks.sort_unstable();
    let few = dice.pick(&[1, plan.hosts]);
    let start = |tick: u16| {
        let order = formed(dice);
        let mut value = tick.to_be_bytes().to_vec();
        value.push(dice.below(u64::from(few)) as u8);
        value.push(order.kind);
        value.extend(order.image.to_be_bytes());
        value.extend((order.kind == 1).then_some(order.share as u8));
        (21, value)
    };
    ticks.into_iter().map(start).collect()
}

/// Strictly rising by start, link, direction; lost only where something is faulty.
fn fates(dice: &mut Dice, plan: &PlanFields, starts: u8, hosts: u8, cut: u16) -> Vec<Record> {
    let mut fates = Vec::new();
    let rare = dice.pick(&[1, 2, 6]);
    for start in 0..starts {
        for link in 0..plan.link_count {
            for direction in 0..2 {
                if !dice.one_in(rare) {
                    continue;
                }
                let ends = plan.links[usize::from(link)];
                let is_faulty =
                    (hosts >> ends.a | hosts >> ends.b) & 1 == 1 || cut >> link & 1 == 1;
                let any = 1 + dice.below(u64::from(plan.delay)) as u8;
                let lost = if is_faulty { 0 } else { any };
                let delay = dice.pick(&[lost, any, plan.delay]);
                fates.push((22, vec![start, link, direction, delay]));
            }
        }
    }
    fates
}

/// One record changed, moved, doubled or taken out.
pub fn changed(dice: &mut Dice, records: &mut Vec<Record>) {
    let (i, j) = (dice.place(records.len()), dice.place(records.len()));
    let place = dice.place(records[i].1.len().max(1));
    let near = dice.pick(&[1, 255]);
    match dice.below(10) {
        0 => records.swap(i, j),
        1 => records.insert(j, records[i].clone()),
        2 => {
            records.remove(i);
        }
        3 => records[i].0 = dice.pick(&[15, 16, 17, 18, 19, 20, 21, 22, 23]),
        4 => {
            records[i].1.pop();
        }
        5 => records[i].1.push(dice.byte()),
        6 | 7 => {
            if let Some(byte) = records[i].1.get_mut(place) {
                *byte = byte.wrapping_add(near);
            }
        }
        _ => {
            if let Some(byte) = records[i].1.get_mut(place) {
                *byte = dice.pick(&[0, 1, 16, 64, 65, 255]);
            }
        }
    }
}
