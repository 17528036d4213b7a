use crate::refusal;
use crate::survivors::worst_diameter;

pub const HOSTS: usize = 8;
pub const LINKS: usize = 12;

/// The first rules and the second, by the number of the rule set.
pub const FIRST: u8 = 1;
pub const SECOND: u8 = 2;

#[derive(Clone, Copy, PartialEq, Eq, Debug, Default)]
pub struct Link {
    pub a: u8,
    pub b: u8,
}

/// A plan as it is given: every number may be out of range.
#[derive(Clone, Copy, PartialEq, Eq, Debug, Default)]
pub struct Plan {
    /// n
    pub hosts: u8,
    /// m: how many of the link places are used
    pub links: u8,
    /// π
    pub faulty_hosts: u8,
    /// L
    pub faulty_links: u8,
    /// δ
    pub delay: u8,
    /// ε
    pub skew: u8,
    pub ends: [Link; LINKS],
}

/// Δ and W under one rule set.
#[derive(Clone, Copy, PartialEq, Eq, Debug)]
pub struct Bounds {
    pub bound: u64,
    pub window: u64,
}

#[derive(Clone, Copy, PartialEq, Eq, Debug)]
pub struct Planned {
    pub d: u8,
    pub first: Bounds,
    pub second: Bounds,
}

impl Plan {
    /// The link places in use. Only for m up to 12.
    pub(crate) fn used(&self) -> &[Link] {
        &self.ends[..usize::from(self.links)]
    }

    /// Refusal 1 does not hold. n is asked before π, which is at most n−2.
    pub(crate) fn numbers_fit(&self) -> bool {
        (2..=8).contains(&self.hosts)
            && (1..=12).contains(&self.links)
            && self.faulty_hosts <= self.hosts - 2
            && self.faulty_links <= 12
            && (1..=64).contains(&self.delay)
            && (1..=64).contains(&self.skew)
    }

    /// Refusal 2 does not hold, given that 1 does not.
    pub(crate) fn links_fit(&self) -> bool {
        let mut seen = 0u64;
        self.used().iter().all(|link| {
            if link.a >= link.b || link.b >= self.hosts {
                return false;
            }
            let pair = 1 << (link.a * 8 + link.b);
            let is_new = seen & pair == 0;
            seen |= pair;
            is_new
        })
    }

    /// The host's own links, a bit for each link of the plan.
    pub(crate) fn links_of(&self, host: u8) -> u16 {
        let own = |link: &Link| link.a == host || link.b == host;
        let bits = self.used().iter().enumerate();
        bits.fold(0, |set, (i, link)| set | u16::from(own(link)) << i)
    }
}

/// Δ by the rule set's formula. Any other rule set gets the second's: who asks has refused it.
pub fn bound(rules: u8, plan: &Plan, d: u8) -> u64 {
    let [hosts, delay, skew, d] = [plan.faulty_hosts, plan.delay, plan.skew, d].map(u64::from);
    let each_faulty = if rules == FIRST { delay } else { delay + skew };
    hosts * each_faulty + d * delay + skew
}

/// W for that Δ.
pub fn window(rules: u8, plan: &Plan, bound: u64) -> u64 {
    let skews = if rules == FIRST { 1 } else { 8 };
    bound + skews * u64::from(plan.skew)
}

/// Planning: refusals 1, 2, 3, in that order.
pub fn plan(plan: &Plan) -> Result<Planned, u8> {
    if !plan.numbers_fit() {
        return Err(refusal::PLAN_NUMBER);
    }
    if !plan.links_fit() {
        return Err(refusal::PLAN_LINK);
    }
    let d = worst_diameter(plan).ok_or(refusal::PARTED)?;
    let bounds = |rules| {
        let bound = bound(rules, plan, d);
        let window = window(rules, plan, bound);
        Bounds { bound, window }
    };
    let (first, second) = (bounds(FIRST), bounds(SECOND));
    Ok(Planned { d, first, second })
}
