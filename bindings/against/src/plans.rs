//! Plans, sound and not, and the making of hosts.

use crate::dice::Dice;
use crate::networks::{network, pairs, shapes, with_links};
use crate::trial::{Difference, Trial};
use currentloom::memory::{HostMemory, Link, PlanFields, PlanMemory, LINKS};

/// The plan with one thing changed, for good or bad.
pub fn changed(dice: &mut Dice, plan: &PlanFields) -> PlanFields {
    let mut plan = *plan;
    let (any, hosts) = (dice.byte(), plan.hosts.max(2));
    let used = usize::from(plan.link_count).clamp(1, LINKS);
    let (i, j) = (dice.place(used), dice.place(used));
    match dice.below(11) {
        0 => plan.hosts = dice.pick(&[0, 1, 2, 3, 7, 8, 9, 255, any]),
        1 => plan.faulty_hosts = dice.pick(&[0, 1, hosts - 2, hosts - 1, 255, any]),
        2 => plan.faulty_links = dice.pick(&[0, 1, 3, 12, 13, 255, any]),
        3 => plan.link_count = dice.pick(&[0, 1, used as u8 - 1, 12, 13, 255, any]),
        4 => plan.delay = dice.pick(&[0, 1, 64, 65, 255, any]),
        5 => plan.skew = dice.pick(&[0, 1, 64, 65, 255, any]),
        6 => plan.links[i].b = dice.pick(&[hosts - 1, hosts, 255, any]),
        7 => plan.links[i].a = dice.pick(&[0, plan.links[i].b, hosts, 255, any]),
        8 => plan.links[i] = plan.links[j],
        9 => {
            plan.links[i] = Link {
                a: plan.links[j].b,
                b: plan.links[j].a,
            }
        }
        // Mostly a place that is not used: planning does not look at it.
        _ => {
            plan.links[dice.place(LINKS)] = Link {
                a: any % 16,
                b: any / 16,
            }
        }
    }
    plan
}

fn wild(dice: &mut Dice) -> PlanFields {
    let mut memory = [0; size_of::<PlanMemory>()];
    dice.fill(&mut memory);
    let mut plan = PlanMemory::from_bytes(memory).plan;
    // Small numbers, so that not all are refused by the first of them.
    plan.hosts %= 10;
    plan.link_count %= 14;
    plan
}

/// Planning and a making. What the memory holds beside the plan may be any bytes.
fn plan_and_make(trial: &mut Trial, plan: PlanFields) -> Result<(), Difference> {
    let mut bytes = [0; size_of::<PlanMemory>()];
    trial.dice.fill(&mut bytes);
    trial.plan(&mut PlanMemory {
        plan,
        ..PlanMemory::from_bytes(bytes)
    })?;
    let mut bytes = [0; size_of::<HostMemory>()];
    trial.dice.fill(&mut bytes);
    let (any, within) = (trial.dice.byte(), trial.dice.below(8) as u8);
    let rules = trial.dice.pick(&[1, 1, 2, 2, 0, 3, any]);
    let own = trial
        .dice
        .pick(&[0, within, plan.hosts.wrapping_sub(1), plan.hosts, any]);
    trial.make(
        &mut HostMemory {
            plan,
            ..HostMemory::from_bytes(bytes)
        },
        rules,
        own,
    )?;
    Ok(())
}

pub fn some(trial: &mut Trial) -> Result<(), Difference> {
    let plan = network(&mut trial.dice);
    trial.tally.input("plans: networks");
    plan_and_make(trial, plan)?;
    let plan = changed(&mut trial.dice, &plan);
    trial.tally.input("plans: networks with one thing changed");
    plan_and_make(trial, plan)?;
    let plan = wild(&mut trial.dice);
    trial.tally.input("plans: random bytes");
    plan_and_make(trial, plan)
}

/// A plan of these links with that many faults planned for.
fn plan_faults(
    trial: &mut Trial,
    hosts: u8,
    links: &[Link],
    faulty_hosts: u8,
    faulty_links: u8,
) -> Result<(), Difference> {
    let plan = PlanFields {
        hosts,
        faulty_hosts,
        link_count: links.len() as u8,
        faulty_links,
        delay: 10,
        skew: 3,
        links: with_links(links),
    };
    trial.plan(&mut PlanMemory {
        plan,
        ..PlanMemory::default()
    })?;
    Ok(())
}

/// Every network of so many hosts, with every number of faulty hosts and up to so many faulty links.
pub fn every(trial: &mut Trial, hosts: u8, most_links: u8) -> Result<(), Difference> {
    let pairs = pairs(hosts);
    for set in 1..1u32 << pairs.len() {
        let chosen = (0..pairs.len()).filter(|i| set >> i & 1 == 1);
        let links: Vec<_> = chosen.map(|i| pairs[i]).collect();
        for faulty_hosts in 0..=hosts - 2 {
            for faulty_links in 0..=most_links {
                trial.tally.input("plans: every network of 2 to 5 hosts");
                plan_faults(trial, hosts, &links, faulty_hosts, faulty_links)?;
            }
        }
    }
    Ok(())
}

/// Lines, rings, stars, the cube and so on, with every number of faulty hosts.
pub fn shaped(trial: &mut Trial, most_links: u8) -> Result<(), Difference> {
    for (hosts, links) in shapes() {
        for faulty_hosts in 0..=hosts - 2 {
            for faulty_links in 0..=most_links {
                trial.tally.input("plans: lines, rings, cube and so on");
                plan_faults(trial, hosts, &links, faulty_hosts, faulty_links)?;
            }
        }
    }
    Ok(())
}
