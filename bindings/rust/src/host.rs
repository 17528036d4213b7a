use crate::clock::Reading;
use crate::door;
use crate::entries::{Entries, Held, ENTRY};
use crate::memory::{HeldMemory, HostMemory, HISTORY};
use crate::message::Message;
use crate::order::Order;
use crate::plan::{Plan, Rules};
use crate::refusal::{taken_apart, Result};

/// A host: it is told a clock reading and answers which links to send on; the service sends.
///
/// An accepted call sets the last reading to U. A refused one sets nothing.
#[derive(Clone, PartialEq, Eq, Debug)]
pub struct Host {
    memory: HostMemory,
}

/// What a start or an accepted copy has the service send, at once: a copy on each of these links,
/// with this hop.
#[derive(Clone, Copy, PartialEq, Eq, Hash, Debug)]
pub struct Sends {
    links: u16,
    pub hop: u8,
}

impl Sends {
    /// The plan's numbers of the links, rising.
    pub fn links(self) -> impl Iterator<Item = u8> {
        (0..16).filter(move |link| self.links >> link & 1 == 1)
    }

    /// The set: bit i for the plan's link i.
    pub fn set(self) -> u16 {
        self.links
    }

    fn of(answer: u64) -> Sends {
        Sends {
            links: (answer >> 8) as u16,
            hop: answer as u8,
        }
    }
}

impl Host {
    /// A fresh host: refusals 1, 2, 3, 23, 15, in that order.
    pub fn make(rules: Rules, plan: &Plan, own: u8) -> Result<Host> {
        let mut memory = HostMemory {
            plan: plan.fields(),
            ..HostMemory::default()
        };
        taken_apart(door::make(&mut memory, rules.number(), own))?;
        Ok(Host { memory })
    }

    /// Starts an order at reading U, which becomes its stamp: refusals 9, 23, 10, 11, 12, 13, 14.
    pub fn start(&mut self, at: Reading, order: Order) -> Result<Sends> {
        let answer = door::start(&mut self.memory, at.0, order.numbers());
        taken_apart(answer).map(Sends::of)
    }

    /// Receives a copy at reading U over the plan's link of that number: refusals 9, 15, 23, 10, 11,
    /// 16, 17, 18, 19, 20, 21, 14.
    pub fn receive(&mut self, at: Reading, link: u8, copy: &Message) -> Result<Sends> {
        let answer = door::receive(&mut self.memory, at.0, link, copy.numbers());
        taken_apart(answer).map(Sends::of)
    }

    /// All that is due at reading U, in rising stamp and source: refusals 9, 10, 11. There is always
    /// room for it.
    pub fn tick(&mut self, at: Reading) -> Result<Entries> {
        let mut list = [0; HISTORY * ENTRY];
        let count = self.tick_into(at, &mut list)?;
        Ok(Entries::new(list, count))
    }

    /// The same into a lent list, with the number of entries of 16 bytes: refusals 9, 10, 11, 22.
    /// Bytes after the last entry stay as they were.
    pub fn tick_into(&mut self, at: Reading, list: &mut [u8]) -> Result<usize> {
        let count = taken_apart(door::tick(&mut self.memory, at.0, list))?;
        Ok(count as usize)
    }

    pub fn own(&self) -> u8 {
        self.memory.own as u8
    }

    /// Δ: what is started at T is due at T + Δ.
    pub fn bound(&self) -> u64 {
        self.memory.bound
    }

    pub fn last(&self) -> Reading {
        Reading(self.memory.last)
    }

    /// The orders held, in rising stamp and source.
    pub fn held(&self) -> impl Iterator<Item = Held> + '_ {
        let count = usize::try_from(self.memory.held).unwrap_or(usize::MAX);
        self.memory.history.iter().take(count).filter_map(held)
    }

    /// The flat memory, for tests and for keeping a host.
    pub fn memory(&self) -> &HostMemory {
        &self.memory
    }

    /// A host of any memory. If it is not sound, every call is refused 9.
    pub fn from_memory(memory: HostMemory) -> Host {
        Host { memory }
    }
}

/// None where no order stands, which is so in unsound memory only.
fn held(place: &HeldMemory) -> Option<Held> {
    let order = Order::of(place.kind, place.image, place.share as u8)?;
    Some(Held {
        stamp: Reading(place.stamp),
        source: place.source,
        order,
    })
}
