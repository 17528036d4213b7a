use crate::clock::Reading;
use crate::orders::Order;
use crate::plan::{bound, plan, Link, Plan, FIRST, SECOND};
use crate::refusal;

pub const HISTORY: usize = 32;
pub const STARTS: usize = 4;

#[derive(Clone, Copy, PartialEq, Eq, Debug)]
pub struct Held {
    pub stamp: Reading,
    pub source: u8,
    pub order: Order,
}

/// A host's state. Every value of it can be built, sound or not.
#[derive(Clone, Copy, PartialEq, Eq, Debug)]
pub struct Host {
    pub plan: Plan,
    pub rules: u8,
    pub d: u8,
    /// Δ
    pub bound: u64,
    pub own: u8,
    pub last: Reading,
    /// How many of the starts' places are used, the oldest first.
    pub started: usize,
    pub starts: [Reading; STARTS],
    /// How many places of the history are used.
    pub held: usize,
    pub history: [Held; HISTORY],
}

/// What a start or an accepted copy has the service send: a set of the plan's links, and the hop.
#[derive(Clone, Copy, PartialEq, Eq, Debug)]
pub struct Sends {
    pub links: u16,
    pub hop: u8,
}

impl Held {
    /// What an unused place holds: zeros, with a share that no held order has.
    pub const UNUSED: Held = Held {
        stamp: Reading(0),
        source: 0,
        order: Order::Publish { image: 0, share: 0 },
    };
}

impl Host {
    /// "A fresh state has no starts, an empty history and last reading 0." Unused link places are
    /// zero in it, so that it is sound.
    pub(crate) fn fresh(rules: u8, plan: &Plan, d: u8, own: u8) -> Host {
        let mut plan = *plan;
        plan.ends[usize::from(plan.links)..].fill(Link::default());
        Host {
            plan,
            rules,
            d,
            bound: bound(rules, &plan, d),
            own,
            last: Reading(0),
            started: 0,
            starts: [Reading(0); STARTS],
            held: 0,
            history: [Held::UNUSED; HISTORY],
        }
    }

    /// Where (stamp, source) is held, or else its place in the rising history.
    pub(crate) fn find(&self, stamp: Reading, source: u8) -> Result<usize, usize> {
        let held = &self.history[..self.held];
        held.binary_search_by(|held| (held.stamp, held.source).cmp(&(stamp, source)))
    }

    /// Only with room for one more, and at the place that `find` gives.
    pub(crate) fn hold(&mut self, place: usize, held: Held) {
        self.history.copy_within(place..self.held, place + 1);
        self.history[place] = held;
        self.held += 1;
    }
}

/// Making a host: refusals 1, 2, 3, 23, 15, in that order.
pub fn make(rules: u8, from: &Plan, own: u8) -> Result<Host, u8> {
    let planned = plan(from)?;
    if rules != FIRST && rules != SECOND {
        return Err(refusal::RANGE);
    }
    if own >= from.hosts {
        return Err(refusal::LACKING);
    }
    Ok(Host::fresh(rules, from, planned.d, own))
}
