//! d: the largest diameter over all fault sets.
//!
//! Only fault sets of exactly π hosts and exactly L links are tried. Fewer faults give no larger
//! distance: take any two survivors, and let fail what else may. As π is at most n−2, both can be
//! spared, and a failure never brings two survivors nearer.
//!
//! A relation between hosts is one number: a byte for each host, in it a bit for each host.

use crate::plan::{Link, Plan, HOSTS, LINKS};

type Relation = u64;

const EACH_HOST: Relation = 0x0101_0101_0101_0101;
const ITSELF: Relation = 0x8040_2010_0804_0201;

/// None if some fault set leaves survivors not connected.
pub(crate) fn worst_diameter(plan: &Plan) -> Option<u8> {
    let all = (1u32 << plan.hosts) - 1;
    let of_size = |failed: &u32| failed.count_ones() == u32::from(plan.faulty_hosts);
    let mut worst = 0;
    for failed in (0..=all).filter(of_size) {
        worst = worst.max(worst_of_survivors(plan, (all & !failed) as u8)?);
    }
    Some(worst)
}

fn worst_of_survivors(plan: &Plan, survivors: u8) -> Option<u8> {
    let everyone = bytes_of(survivors) & (u64::from(survivors) * EACH_HOST);
    let mut links = [0; LINKS];
    let mut count = 0;
    let mut neighbours = 0;
    for pair in plan.used().iter().map(both_ways) {
        if pair & everyone != 0 {
            links[count] = pair;
            count += 1;
            neighbours |= pair;
        }
    }
    // A survivor with no more links than may fail can be cut off at once.
    let links_at = |host: usize| neighbours.to_le_bytes()[host].count_ones();
    let may_fail = u32::from(plan.faulty_links);
    if (0..HOSTS).any(|host| survivors >> host & 1 == 1 && links_at(host) <= may_fail) {
        return None;
    }
    worst_of_links(everyone, neighbours, &links[..count], plan.faulty_links)
}

/// The largest diameter when so many of these links fail: each in turn as the first of them.
fn worst_of_links(everyone: Relation, near: Relation, links: &[u64], failing: u8) -> Option<u8> {
    if failing == 0 {
        return diameter(everyone, near);
    }
    let mut worst = 0;
    for (i, link) in links.iter().enumerate() {
        let later = &links[i + 1..];
        worst = worst.max(worst_of_links(everyone, near & !link, later, failing - 1)?);
    }
    Some(worst)
}

/// The least k with every survivor within k links of every other.
fn diameter(everyone: Relation, neighbours: Relation) -> Option<u8> {
    let mut within = ITSELF & everyone;
    for k in 1..=7 {
        let farther = one_link_more(within, neighbours);
        if farther == everyone {
            return Some(k);
        }
        if farther == within {
            return None;
        }
        within = farther;
    }
    None
}

/// "a host is within k links of another if it is that host, or a neighbour is within k−1"
fn one_link_more(within: Relation, neighbours: Relation) -> Relation {
    (0..HOSTS).fold(within, |farther, host| {
        let of_its_neighbours = (neighbours >> host & EACH_HOST) * 0xff;
        let within_of_it = (within >> (8 * host) & 0xff) * EACH_HOST;
        farther | of_its_neighbours & within_of_it
    })
}

/// All bits in the byte of each of these hosts.
fn bytes_of(hosts: u8) -> Relation {
    let byte = |host| if hosts >> host & 1 == 1 { 0xff } else { 0 };
    Relation::from_le_bytes(std::array::from_fn(byte))
}

fn both_ways(link: &Link) -> Relation {
    1 << (8 * link.a + link.b) | 1 << (8 * link.b + link.a)
}
