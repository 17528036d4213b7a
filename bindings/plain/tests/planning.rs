mod common;

use common::*;
use plain::*;

fn bounds(plan: &Plan) -> Result<(u8, u64, u64), u8> {
    plain::plan(plan).map(|planned| (planned.d, planned.first.bound, planned.second.bound))
}

#[test]
fn the_rows_of_the_paper() {
    assert_eq!(bounds(&network(2, 0, 0, PAIR)), Ok((1, 13, 13)));
    assert_eq!(bounds(&network(2, 0, 1, PAIR)), Err(3));
    assert_eq!(bounds(&network(3, 1, 0, TRIANGLE)), Ok((1, 23, 26)));
    assert_eq!(bounds(&network(3, 0, 1, TRIANGLE)), Ok((2, 23, 23)));
    assert_eq!(bounds(&network(3, 1, 1, TRIANGLE)), Err(3));
    assert_eq!(bounds(&network(4, 1, 0, RING)), Ok((2, 33, 36)));
    assert_eq!(bounds(&network(4, 2, 0, RING)), Err(3));
    assert_eq!(bounds(&network(8, 0, 0, CUBE)), Ok((3, 33, 33)));
}

#[test]
fn the_windows() {
    let planned = plain::plan(&triangle()).unwrap();
    assert_eq!((planned.first.window, planned.second.window), (26, 50));
}

#[test]
fn numbers_out_of_range() {
    let good = triangle();
    let bad = [
        Plan { hosts: 0, ..good },
        Plan {
            hosts: 1,
            faulty_hosts: 255,
            ..good
        },
        Plan { hosts: 9, ..good },
        Plan { links: 0, ..good },
        Plan { links: 13, ..good },
        Plan { links: 255, ..good },
        Plan {
            faulty_hosts: 2,
            ..good
        },
        Plan {
            faulty_links: 13,
            ..good
        },
        Plan { delay: 0, ..good },
        Plan { delay: 65, ..good },
        Plan { skew: 0, ..good },
        Plan { skew: 65, ..good },
    ];
    for plan in bad {
        assert_eq!(bounds(&plan), Err(1), "{plan:?}");
    }
    assert_eq!(
        bounds(&Plan {
            faulty_links: 12,
            ..good
        }),
        Err(3)
    );
    let longest = Plan {
        delay: 64,
        skew: 64,
        ..good
    };
    assert_eq!(bounds(&longest), Ok((1, 192, 256)));
}

#[test]
fn links_that_do_not_fit() {
    for links in [
        &[(0, 3)][..],
        &[(1, 0)],
        &[(1, 1)],
        &[(0, 1), (0, 1)],
        &[(0, 255)],
        &[(255, 0)],
    ] {
        assert_eq!(bounds(&network(3, 0, 0, links)), Err(2), "{links:?}");
    }
    let bad_number_too = Plan {
        skew: 0,
        ..network(3, 0, 0, &[(1, 0)])
    };
    assert_eq!(bounds(&bad_number_too), Err(1));
}

#[test]
fn unused_link_places_are_not_looked_at() {
    let mut plan = triangle();
    plan.ends[5] = Link { a: 9, b: 9 };
    assert_eq!(bounds(&plan), Ok((1, 23, 26)));
}

/// The paper's own words, one by one: every fault set, and reach within k links by k falling.
fn by_definition(plan: &Plan) -> Option<u8> {
    let mut worst = 0;
    for hosts in 0u32..1 << plan.hosts {
        for links in 0u32..1 << plan.links {
            let fits = hosts.count_ones() <= plan.faulty_hosts.into()
                && links.count_ones() <= plan.faulty_links.into();
            if fits {
                worst = worst.max(diameter(plan, hosts, links)?);
            }
        }
    }
    Some(worst)
}

fn diameter(plan: &Plan, hosts: u32, links: u32) -> Option<u8> {
    let survivors: Vec<u8> = (0..plan.hosts).filter(|h| hosts >> h & 1 == 0).collect();
    let mut largest = 0;
    for &from in &survivors {
        for &to in &survivors {
            let distance = (0..=7).find(|&k| is_within(plan, hosts, links, k, from, to))?;
            largest = largest.max(distance);
        }
    }
    Some(largest)
}

fn is_within(plan: &Plan, hosts: u32, links: u32, k: u8, from: u8, to: u8) -> bool {
    from == to
        || k > 0
            && (0..usize::from(plan.links)).any(|i| {
                let Link { a, b } = plan.ends[i];
                let survives = links >> i & 1 == 0 && (hosts >> a | hosts >> b) & 1 == 0;
                let next = if a == from { b } else { a };
                survives
                    && (a == from || b == from)
                    && is_within(plan, hosts, links, k - 1, next, to)
            })
}

#[test]
fn d_by_its_definition_on_networks_by_chance() {
    let mut dice = Dice(0x9e37_79b9_7f4a_7c15);
    let mut accepted = 0;
    for _ in 0..400 {
        let hosts = 2 + dice.below(5) as u8;
        let mut links: Vec<(u8, u8)> = (0..hosts)
            .flat_map(|b| (0..b).map(move |a| (a, b)))
            .filter(|_| dice.below(4) > 0)
            .collect();
        links.truncate(8);
        if links.is_empty() {
            continue;
        }
        let faulty_hosts = dice.below(u64::from(hosts - 1).min(3)) as u8;
        let plan = network(hosts, faulty_hosts, dice.below(3) as u8, &links);
        let d = plain::plan(&plan).map(|planned| planned.d);
        assert_eq!(d, by_definition(&plan).ok_or(3), "{plan:?}");
        accepted += u32::from(d.is_ok());
    }
    assert!(accepted > 40, "{accepted}");
}

/// A ring of 7 or 8 hosts with links across it, 12 in all.
#[test]
fn d_by_its_definition_on_large_networks() {
    let mut dice = Dice(0x853c_49e6_748f_ea9b);
    let mut largest = 0;
    for round in 0..60 {
        let hosts = 7 + round % 2;
        let mut links: Vec<(u8, u8)> = (1..hosts).map(|b| (b - 1, b)).collect();
        links.push((0, hosts - 1));
        while links.len() < 12 {
            let [a, b] = [(); 2].map(|_| dice.below(hosts.into()) as u8);
            if a < b && !links.contains(&(a, b)) {
                links.insert(dice.below(5) as usize, (a, b));
            }
        }
        let plan = network(hosts, dice.below(2) as u8, dice.below(2) as u8, &links);
        let d = plain::plan(&plan).map(|planned| planned.d);
        assert_eq!(d, by_definition(&plan).ok_or(3), "{plan:?}");
        largest = largest.max(d.unwrap_or(0));
    }
    assert!(largest >= 5, "{largest}");
}
