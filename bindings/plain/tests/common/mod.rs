#![allow(dead_code)]

use plain::*;

/// A plan with δ 10 and ε 3, as in the build paper's rows.
pub fn network(hosts: u8, faulty_hosts: u8, faulty_links: u8, links: &[(u8, u8)]) -> Plan {
    let mut ends = [Link::default(); LINKS];
    for (place, &(a, b)) in ends.iter_mut().zip(links) {
        *place = Link { a, b };
    }
    Plan {
        hosts,
        links: links.len() as u8,
        faulty_hosts,
        faulty_links,
        delay: 10,
        skew: 3,
        ends,
    }
}

pub const PAIR: &[(u8, u8)] = &[(0, 1)];
pub const TRIANGLE: &[(u8, u8)] = &[(0, 1), (0, 2), (1, 2)];
pub const RING: &[(u8, u8)] = &[(0, 1), (0, 3), (1, 2), (2, 3)];
pub const CUBE: &[(u8, u8)] = &[
    (0, 1),
    (0, 2),
    (0, 4),
    (1, 3),
    (1, 5),
    (2, 3),
    (2, 6),
    (3, 7),
    (4, 5),
    (4, 6),
    (5, 7),
    (6, 7),
];

pub fn triangle() -> Plan {
    network(3, 1, 0, TRIANGLE)
}

/// The triangle's host 1, whose own links are 0 and 2.
pub fn host(rules: u8) -> Host {
    make(rules, &triangle(), 1).unwrap()
}

pub fn copy(stamp: u64, source: u8, hop: u8) -> Message {
    Message {
        stamp: Reading(stamp),
        source,
        hop,
        order: Order::Halt(7),
    }
}

pub fn held(stamp: u64, source: u8) -> Held {
    Held {
        stamp: Reading(stamp),
        source,
        order: Order::Halt(7),
    }
}

/// Numbers that repeat from run to run.
pub struct Dice(pub u64);

impl Dice {
    pub fn below(&mut self, limit: u64) -> u64 {
        self.0 ^= self.0 << 13;
        self.0 ^= self.0 >> 7;
        self.0 ^= self.0 << 17;
        self.0 % limit
    }
}
