//! The calls of a host.

use super::{copy, message, network, over, CUBE, HALT};
use crate::states::host_from;
use crate::times::Contest;
use currentloom::door;
use currentloom::memory::HostMemory;
use plain::{Order, Reading};
use std::hint::black_box;

/// Host 1 of a cube at reading 100, with so many orders held: stamp 90 and up, all of source 0.
fn host(held: u64) -> (HostMemory, plain::Host) {
    let mut memory = HostMemory {
        plan: network(8, 1, 0, &CUBE),
        ..HostMemory::default()
    };
    assert_eq!(door::make(&mut memory, 1, 1), 0);
    assert_eq!(door::tick(&mut memory, 100, &mut []), 0);
    for stamp in 90..90 + held {
        assert_eq!(door::receive(&mut memory, 100, 0, copy(stamp)) & 0xff, 0);
    }
    let plain = host_from(&memory).expect("the state is sound");
    (memory, plain)
}

pub fn start() -> Contest {
    let (memory, plain) = host(16);
    let ours = move || door::start(&mut black_box(memory), 110, HALT);
    let theirs = move || plain::start(&mut black_box(plain), Reading(110), Order::Halt(7));
    Contest {
        name: "start, 16 held",
        ours: over(ours),
        plain: over(theirs),
    }
}

pub fn receive() -> Contest {
    let (memory, plain) = host(16);
    let (ours, theirs) = (copy(106), message(106));
    let answer = door::receive(&mut memory.clone(), 110, 0, ours);
    assert_eq!(answer & 0xff, 0);
    Contest {
        name: "receive, accepted, 16 held",
        ours: over(move || door::receive(&mut black_box(memory), 110, 0, ours)),
        plain: over(move || plain::receive(&mut black_box(plain), Reading(110), 0, &theirs)),
    }
}

/// The state stays as it is.
pub fn receive_held() -> Contest {
    let (mut memory, mut plain) = host(16);
    let (ours, theirs) = (copy(95), message(95));
    assert_eq!(door::receive(&mut memory, 110, 0, ours), 19);
    let ours = move || door::receive(black_box(&mut memory), 110, 0, ours);
    let theirs = move || plain::receive(black_box(&mut plain), Reading(110), 0, &theirs);
    Contest {
        name: "receive, refused 19, 16 held",
        ours: over(ours),
        plain: over(theirs),
    }
}

/// The state stays as it is, but for a last reading that is set anew.
pub fn idle_tick(name: &'static str, held: u64) -> Contest {
    let (mut memory, mut plain) = host(held);
    let (mut list, mut other) = ([0; 512], [0; 512]);
    let ours = move || door::tick(black_box(&mut memory), 100, &mut list);
    let theirs = move || plain::tick(black_box(&mut plain), Reading(100), &mut other);
    Contest {
        name,
        ours: over(ours),
        plain: over(theirs),
    }
}

pub fn tick(name: &'static str, due: u64) -> Contest {
    let (memory, plain) = host(32);
    let u = 90 + memory.bound + due - 1;
    let (mut list, mut other) = ([0; 512], [0; 512]);
    let answer = door::tick(&mut memory.clone(), u, &mut list);
    assert_eq!(answer, 256 * due);
    Contest {
        name,
        ours: over(move || door::tick(&mut black_box(memory), u, &mut list)),
        plain: over(move || plain::tick(&mut black_box(plain), Reading(u), &mut other)),
    }
}
