//! What is timed. Each side gets its own form of the same state: no side pays for the other's.
//! Where a call alters the state, a copy of the state is part of the time, on both sides.

mod hosts;

use crate::incidents;
use crate::states::{board_from, plan_from};
use crate::times::{Contest, Side};
use currentloom::door::{self, CopyNumbers, OrderNumbers};
use currentloom::memory::{BoardMemory, Link, PlaceMemory, PlanFields, PlanMemory};
use plain::{Message, Order, Reading};
use std::hint::black_box;

const HALT: OrderNumbers = OrderNumbers {
    kind: 2,
    image: 7,
    share: 0,
};

const CUBE: [(u8, u8); 12] = [
    (0, 1),
    (0, 2),
    (0, 4),
    (1, 3),
    (1, 5),
    (2, 3),
    (2, 6),
    (3, 7),
    (4, 5),
    (4, 6),
    (5, 7),
    (6, 7),
];

fn network(hosts: u8, faulty_hosts: u8, faulty_links: u8, links: &[(u8, u8)]) -> PlanFields {
    let mut plan = PlanFields {
        hosts,
        faulty_hosts,
        link_count: links.len() as u8,
        faulty_links,
        delay: 10,
        skew: 3,
        ..PlanFields::default()
    };
    for (place, &(a, b)) in plan.links.iter_mut().zip(links) {
        *place = Link { a, b };
    }
    plan
}

/// A call over and over, with its answer kept from being left out.
fn over<T>(mut call: impl FnMut() -> T + 'static) -> Side {
    Box::new(move |times| {
        for _ in 0..times {
            black_box(call());
        }
    })
}

fn planning(name: &'static str, plan: PlanFields) -> Contest {
    let mut memory = PlanMemory {
        plan,
        ..PlanMemory::default()
    };
    let plan = plan_from(&plan);
    Contest {
        name,
        ours: over(move || door::plan(black_box(&mut memory))),
        plain: over(move || plain::plan(black_box(&plan))),
    }
}

fn copy(stamp: u64) -> CopyNumbers {
    let (source, hop, order) = (0, 0, HALT);
    CopyNumbers {
        stamp,
        source,
        hop,
        order,
    }
}

fn message(stamp: u64) -> Message {
    Message {
        stamp: Reading(stamp),
        source: 0,
        hop: 0,
        order: Order::Halt(7),
    }
}

fn write() -> Contest {
    let (mut out, mut other) = ([0; 28], [0; 28]);
    let ours = move || door::write(1, black_box(copy(100)), black_box(&mut out));
    let plain = move || plain::write_message(1, &black_box(message(100)), black_box(&mut other));
    Contest {
        name: "write",
        ours: over(ours),
        plain: over(plain),
    }
}

fn read() -> Contest {
    let mut bytes = [0; 23];
    assert_eq!(door::write(1, copy(100), &mut bytes), 256 * 23);
    let mut out = [0; 8];
    let ours = move || door::read(1, black_box(&bytes), black_box(&mut out));
    // Its answer is a part of the bytes, so what is kept of it is the message.
    let plain = move || plain::read_message(1, black_box(&bytes)).map(|read| read.message);
    Contest {
        name: "read",
        ours: over(ours),
        plain: over(plain),
    }
}

/// A halt of the ninth image of sixteen.
fn board() -> Contest {
    let mut memory = BoardMemory {
        count: 16,
        ..BoardMemory::default()
    };
    for (image, place) in (0..).zip(&mut memory.places) {
        let (stand, share) = (1, 25);
        *place = PlaceMemory {
            image,
            stand,
            share,
        };
    }
    let plain = board_from(&memory).expect("the board is sound");
    let order = OrderNumbers { image: 8, ..HALT };
    Contest {
        name: "board of 16",
        ours: over(move || door::apply(&mut black_box(memory), order)),
        plain: over(move || plain::apply(&mut black_box(plain), Order::Halt(8))),
    }
}

fn replay(name: &'static str, incident: &str) -> Contest {
    let (bytes, other_bytes) = (incidents::one(incident), incidents::one(incident));
    let (mut out, mut other) = ([0; 16_384], [0; 16_384]);
    Contest {
        name,
        ours: over(move || door::replay(black_box(&bytes), &mut out)),
        plain: over(move || plain::replay(black_box(&other_bytes), &mut other)),
    }
}

pub fn all() -> Vec<Contest> {
    let triangle = &[(0, 1), (0, 2), (1, 2)];
    let ring = &[(0, 1), (0, 3), (1, 2), (2, 3)];
    vec![
        planning("plan, triangle, π 1", network(3, 1, 0, triangle)),
        planning("plan, ring of four, π 1", network(4, 1, 0, ring)),
        planning("plan, cube", network(8, 0, 0, &CUBE)),
        planning("plan, cube, π 2", network(8, 2, 0, &CUBE)),
        planning("plan, cube, L 2", network(8, 0, 2, &CUBE)),
        planning("plan, cube, π 1, L 1", network(8, 1, 1, &CUBE)),
        planning("plan, cube, π 3: refused 3", network(8, 3, 0, &CUBE)),
        hosts::start(),
        hosts::receive(),
        hosts::receive_held(),
        hosts::idle_tick("tick, 0 held", 0),
        hosts::idle_tick("tick, 32 held, none due", 32),
        hosts::tick("tick, 32 held, 1 due", 1),
        hosts::tick("tick, 32 held, all due", 32),
        write(),
        read(),
        board(),
        replay("replay, the paper's case", "case.schedule"),
        replay("replay, largest schedule", "largest.schedule"),
    ]
}
