use crate::door;
use crate::memory::{Link, PlanFields, PlanMemory, Timing, LINKS};
use crate::refusal::{taken_apart, Result};

/// The rule set that a host keeps.
#[derive(Clone, Copy, PartialEq, Eq, Hash, Debug)]
pub enum Rules {
    /// Faulty hosts and links lose copies. A message has no hop.
    First,
    /// Faulty hosts and links may also be early or late. A message has a hop, 1..8.
    Second,
}

impl Rules {
    pub fn number(self) -> u8 {
        match self {
            Rules::First => 1,
            Rules::Second => 2,
        }
    }
}

/// A network and the faults it is planned for.
#[derive(Clone, PartialEq, Eq, Debug)]
pub struct Plan {
    /// n, 2..8: hosts are numbered from 0.
    pub hosts: u8,
    /// 1..12 pairs a < b, no pair twice. A link's number is its place in this list.
    pub links: Vec<(u8, u8)>,
    /// π, 0..n−2
    pub faulty_hosts: u8,
    /// L, 0..12
    pub faulty_links: u8,
    /// δ, 1..64 ticks: the longest that a copy not lost may take.
    pub delay: u8,
    /// ε, 1..64 ticks: clocks are less than this apart.
    pub skew: u8,
}

/// What planning finds: the worst surviving diameter, and Δ and W under both rule sets.
#[derive(Clone, Copy, PartialEq, Eq, Debug)]
pub struct Bounds {
    pub d: u8,
    pub first: Timing,
    pub second: Timing,
}

impl Bounds {
    pub fn under(&self, rules: Rules) -> Timing {
        match rules {
            Rules::First => self.first,
            Rules::Second => self.second,
        }
    }
}

impl Plan {
    /// Planning: refusals 1, 2, 3, in that order.
    pub fn bounds(&self) -> Result<Bounds> {
        let mut memory = PlanMemory {
            plan: self.fields(),
            ..PlanMemory::default()
        };
        taken_apart(door::plan(&mut memory))?;
        // d is 1..7.
        Ok(Bounds {
            d: memory.d as u8,
            first: memory.first,
            second: memory.second,
        })
    }

    /// A list with more links than the memory has places for gets a number of links that is out of
    /// range, too, and so refusal 1.
    pub(crate) fn fields(&self) -> PlanFields {
        let mut links = [Link::default(); LINKS];
        for (place, &(a, b)) in links.iter_mut().zip(&self.links) {
            *place = Link { a, b };
        }
        PlanFields {
            hosts: self.hosts,
            faulty_hosts: self.faulty_hosts,
            link_count: u8::try_from(self.links.len()).unwrap_or(u8::MAX),
            faulty_links: self.faulty_links,
            delay: self.delay,
            skew: self.skew,
            links,
        }
    }
}
