//! Networks, and plans of them.

use crate::dice::Dice;
use crate::states::plan_from;
use currentloom::memory::{Link, PlanFields, LINKS};

/// All pairs a < b of so many hosts.
pub fn pairs(hosts: u8) -> Vec<Link> {
    let ends = |b| (0..b).map(move |a| Link { a, b });
    (0..hosts).flat_map(ends).collect()
}

pub fn with_links(links: &[Link]) -> [Link; LINKS] {
    let mut places = [Link::default(); LINKS];
    places[..links.len()].copy_from_slice(links);
    places
}

/// The pairs for which it holds, if there are some, and places for them.
fn where_linked(hosts: u8, linked: impl Fn(u8, u8) -> bool) -> Option<(u8, Vec<Link>)> {
    let mut links = pairs(hosts);
    links.retain(|link| linked(link.a, link.b));
    (1..=LINKS).contains(&links.len()).then_some((hosts, links))
}

/// Networks that chance would seldom give: the longest distances, and the most faults that can be
/// borne.
pub fn shapes() -> Vec<(u8, Vec<Link>)> {
    let of_hosts = |n: u8| {
        [
            where_linked(n, |a, b| b == a + 1),
            where_linked(n, |a, b| b == a + 1 || (a == 0 && b == n - 1)),
            where_linked(n, |a, _| a == 0),
            where_linked(n, |_, _| true),
            // All but opposite ones, two sides, and the cube.
            where_linked(n, |a, b| b != a + n / 2),
            where_linked(n, |a, b| a % 2 != b % 2),
            where_linked(n, |a, b| (a ^ b).count_ones() == 1),
            // A ring with one host in its middle.
            where_linked(n, |a, b| b == n - 1 || b == a + 1 || (a == 0 && b == n - 2)),
        ]
    };
    (2..=8).flat_map(of_hosts).flatten().collect()
}

/// Links by chance, or one of the shapes with its hosts named anew.
fn links(dice: &mut Dice) -> (u8, Vec<Link>) {
    if dice.one_in(2) {
        let hosts = 2 + dice.below(7) as u8;
        let mut links = pairs(hosts);
        dice.shuffle(&mut links);
        let most = links.len().min(LINKS);
        let any = 1 + dice.place(most);
        links.truncate(dice.pick(&[most, most, any]));
        return (hosts, links);
    }
    let shapes = shapes();
    let (hosts, mut links) = shapes[dice.place(shapes.len())].clone();
    let mut names: Vec<u8> = (0..hosts).collect();
    dice.shuffle(&mut names);
    for link in &mut links {
        let ends = [link.a, link.b].map(|end| names[usize::from(end)]);
        (link.a, link.b) = (ends[0].min(ends[1]), ends[0].max(ends[1]));
    }
    dice.shuffle(&mut links);
    (hosts, links)
}

/// A plan clear of 1 and 2. Few faults are more common, so that many are clear of 3, too.
pub fn network(dice: &mut Dice) -> PlanFields {
    let (hosts, links) = links(dice);
    let (some_hosts, some_links) = (dice.below(u64::from(hosts) - 1), dice.below(13));
    let time = |dice: &mut Dice| {
        let any = 1 + dice.below(64) as u8;
        dice.pick(&[1, 3, 10, 64, any])
    };
    PlanFields {
        hosts,
        faulty_hosts: dice.pick(&[0, 0, 1.min(hosts - 2), some_hosts as u8]),
        link_count: links.len() as u8,
        faulty_links: dice.pick(&[0, 0, 0, 1, 2, some_links as u8]),
        delay: time(dice),
        skew: time(dice),
        links: with_links(&links),
    }
}

/// A plan that planning accepts.
pub fn accepted(dice: &mut Dice) -> PlanFields {
    loop {
        let plan = network(dice);
        if plan.faulty_links <= 2 && plain::plan(&plan_from(&plan)).is_ok() {
            return plan;
        }
    }
}
