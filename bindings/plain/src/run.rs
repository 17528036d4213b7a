//! The run of a schedule by the hosts' own calls.

use crate::clock::{Reading, Tick};
use crate::entry::{read_entry, ENTRY};
use crate::host::{Held, Host, HISTORY};
use crate::message::Message;
use crate::orders::Order;
use crate::plan::{FIRST, HOSTS};
use crate::receive::receive;
use crate::schedule::{Schedule, MOST_STARTS};
use crate::start::start;
use crate::tick::tick;

/// No delay is longer, so copies of this many ticks ahead are all that can be under way.
const LONGEST_DELAY: u64 = 64;

#[derive(Clone, Copy, PartialEq, Eq, Debug)]
pub struct Delivery {
    pub at: Reading,
    pub held: Held,
}

/// What a run shows.
#[derive(Clone, Copy, PartialEq, Eq, Debug)]
pub struct Run {
    /// Δ
    pub bound: u64,
    /// By start: its refusal number, 0 if it was accepted.
    pub refused: [u8; MOST_STARTS],
    /// By host: how many of its deliveries there are. No host delivers a start twice.
    pub delivered: [usize; HOSTS],
    pub deliveries: [[Delivery; MOST_STARTS]; HOSTS],
    /// Copies sent, lost ones too.
    pub copies: u32,
}

struct Play<'a> {
    schedule: &'a Schedule,
    hosts: [Host; HOSTS],
    /// What each start sends. Before its tick no copy of it is under way.
    messages: [Message; MOST_STARTS],
    /// By tick of arrival and start, the copies under way: bit 2 × link + direction, so that rising
    /// bits are in order of arrival. A copy is sent at most once, since a host holds an order once.
    under_way: [[u32; MOST_STARTS]; LONGEST_DELAY as usize],
    run: Run,
}

pub fn run(schedule: &Schedule) -> Run {
    let mut play = Play::new(schedule);
    let mut next = 0;
    for now in (0..=schedule.end.0).map(Tick) {
        play.tick_all(now);
        play.arrive(now);
        while next < schedule.started && schedule.starts[next].tick == now {
            play.start(next, now);
            next += 1;
        }
    }
    play.run
}

impl<'a> Play<'a> {
    fn new(schedule: &'a Schedule) -> Play<'a> {
        let order = Order::Publish { image: 0, share: 0 };
        let nothing = Message {
            stamp: Reading(0),
            source: 0,
            hop: 0,
            order,
        };
        let never = Delivery {
            at: Reading(0),
            held: Held::UNUSED,
        };
        let fresh = |own| Host::fresh(FIRST, &schedule.plan, schedule.planned.d, own as u8);
        Play {
            schedule,
            hosts: std::array::from_fn(fresh),
            messages: [nothing; MOST_STARTS],
            under_way: [[0; MOST_STARTS]; LONGEST_DELAY as usize],
            run: Run {
                bound: schedule.planned.first.bound,
                refused: [0; MOST_STARTS],
                delivered: [0; HOSTS],
                deliveries: [[never; MOST_STARTS]; HOSTS],
                copies: 0,
            },
        }
    }

    fn tick_all(&mut self, now: Tick) {
        let mut list = [0; HISTORY * ENTRY];
        for number in 0..self.schedule.plan.hosts {
            let at = self.schedule.reading(number, now);
            let host = usize::from(number);
            let due = tick(&mut self.hosts[host], at, &mut list).unwrap_or(0);
            for entry in list[..due * ENTRY].chunks_exact(ENTRY) {
                let held = entry.try_into().ok().and_then(read_entry);
                if let Some(held) = held {
                    self.run.deliveries[host][self.run.delivered[host]] = Delivery { at, held };
                    self.run.delivered[host] += 1;
                }
            }
        }
    }

    /// "then copies arrive, by start, link, direction"
    fn arrive(&mut self, now: Tick) {
        let place = (now.0 % LONGEST_DELAY) as usize;
        // Taken out first: a copy sent now with the longest delay goes to the same place.
        let arriving = std::mem::take(&mut self.under_way[place]);
        for (start, mut copies) in arriving.into_iter().enumerate() {
            while copies != 0 {
                let copy = copies.trailing_zeros() as u8;
                copies &= copies - 1;
                let (link, direction) = (copy / 2, copy % 2);
                let ends = self.schedule.plan.ends[usize::from(link)];
                let receiver = if direction == 0 { ends.b } else { ends.a };
                let at = self.schedule.reading(receiver, now);
                let host = &mut self.hosts[usize::from(receiver)];
                if let Ok(sends) = receive(host, at, link, &self.messages[start]) {
                    self.send(start, receiver, sends.links, now);
                }
            }
        }
    }

    fn start(&mut self, number: usize, now: Tick) {
        let from = self.schedule.starts[number];
        let stamp = self.schedule.reading(from.host, now);
        match start(&mut self.hosts[usize::from(from.host)], stamp, from.order) {
            Ok(sends) => {
                self.messages[number] = Message {
                    stamp,
                    source: from.host,
                    hop: sends.hop,
                    order: from.order,
                };
                self.send(number, from.host, sends.links, now);
            }
            Err(refused) => self.run.refused[number] = refused,
        }
    }

    fn send(&mut self, start: usize, sender: u8, links: u16, now: Tick) {
        self.run.copies += links.count_ones();
        let mut left = links;
        while left != 0 {
            let link = left.trailing_zeros() as usize;
            left &= left - 1;
            let direction = usize::from(self.schedule.plan.ends[link].b == sender);
            let delay = u64::from(self.schedule.delays[start][link][direction]);
            if delay > 0 {
                let place = (now.0 + delay) % LONGEST_DELAY;
                self.under_way[place as usize][start] |= 1 << (2 * link + direction);
            }
        }
    }
}
