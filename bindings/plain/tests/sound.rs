mod common;

use common::*;
use plain::*;

fn changed(change: impl Fn(&mut Host)) -> Host {
    let mut host = host(1);
    change(&mut host);
    host
}

fn hold(host: &mut Host, orders: &[Held]) {
    host.history[..orders.len()].copy_from_slice(orders);
    host.held = orders.len();
}

fn kept(host: &mut Host, starts: &[u64], last: u64) {
    for (place, start) in host.starts.iter_mut().zip(starts) {
        *place = Reading(*start);
    }
    host.started = starts.len();
    host.last = Reading(last);
}

fn publish(share: u8) -> Held {
    Held {
        order: Order::Publish { image: 0, share },
        ..held(0, 0)
    }
}

type Change = fn(&mut Host);

#[test]
fn sound_by_the_letter() {
    let sound: [Change; 10] = [
        |_| {},
        |h| (h.d, h.bound) = (7, 83),
        |h| h.plan.faulty_links = 1,
        |h| h.last = Reading(u64::MAX),
        |h| kept(h, &[1, 2, 3, 4], 4),
        |h| kept(h, &[u64::MAX - 1, u64::MAX], u64::MAX),
        |h| kept(h, &[0], 0),
        |h| hold(h, &[held(LARGEST_STAMP.0, 0), held(LARGEST_STAMP.0, 2)]),
        |h| hold(h, &[publish(100)]),
        |h| {
            kept(h, &[5, 9], 9);
            hold(h, &[held(7, 1), held(9, 1)]);
        },
    ];
    for (i, change) in sound.into_iter().enumerate() {
        assert!(is_sound(&changed(change)), "{i}");
    }
}

const UNSOUND: [Change; 31] = [
    |h| h.plan.hosts = 9,
    |h| h.plan.links = 13,
    |h| h.plan.links = 255,
    |h| h.plan.skew = 0,
    |h| h.plan.ends[2] = Link { a: 0, b: 1 },
    |h| h.plan.ends[1] = Link { a: 2, b: 0 },
    |h| h.plan.ends[11].b = 1,
    |h| h.rules = 0,
    |h| h.rules = 3,
    |h| h.rules = 2,
    |h| (h.d, h.bound) = (0, 13),
    |h| (h.d, h.bound) = (8, 93),
    |h| h.d = 2,
    |h| h.bound = 24,
    |h| h.own = 3,
    |h| h.started = 5,
    |h| h.started = usize::MAX,
    |h| kept(h, &[5, 5], 9),
    |h| kept(h, &[6, 5], 9),
    |h| kept(h, &[5, 10], 9),
    |h| h.starts[0] = Reading(1),
    |h| h.starts[3] = Reading(1),
    |h| h.held = 1,
    |h| h.held = 33,
    |h| hold(h, &[publish(101)]),
    |h| hold(h, &[held(LARGEST_STAMP.0 + 1, 0)]),
    |h| hold(h, &[held(8, 3)]),
    |h| hold(h, &[held(8, 0), held(8, 0)]),
    |h| hold(h, &[held(8, 2), held(8, 0)]),
    |h| hold(h, &[held(0, 1)]),
    |h| {
        kept(h, &[5, 9], 9);
        hold(h, &[held(10, 1)]);
    },
];

#[test]
fn unsound_states_get_9_before_all_else() {
    for (i, change) in UNSOUND.into_iter().enumerate() {
        let before = changed(change);
        assert!(!is_sound(&before), "{i}");
        let mut host = before;
        let far = Reading(u64::MAX);
        assert_eq!(
            start(&mut host, far, Order::Publish { image: 0, share: 0 }),
            Err(9)
        );
        assert_eq!(
            receive(&mut host, far, 255, &copy(u64::MAX, 255, 255)),
            Err(9)
        );
        assert_eq!(tick(&mut host, far, &mut []), Err(9));
        assert_eq!(host, before);
    }
}

#[test]
fn a_far_last_reading_is_refused_by_10_or_11() {
    let mut host = changed(|h| h.last = Reading(1 << 40));
    assert_eq!(tick(&mut host, Reading(5), &mut []), Err(11));
    assert_eq!(tick(&mut host, Reading(1 << 40), &mut []), Err(10));
    let mut far = changed(|h| kept(h, &[3, 2, 1, 0].map(|i| u64::MAX - i), u64::MAX));
    assert!(is_sound(&far));
    assert_eq!(start(&mut far, Reading(u64::MAX), Order::Halt(1)), Err(10));
    assert_eq!(start(&mut far, Reading(5), Order::Halt(1)), Err(11));
}

/// What is accepted leaves a sound state, what is refused leaves the state as it was.
#[test]
fn calls_by_chance_keep_a_state_sound() {
    let mut dice = Dice(0x2545_f491_4f6c_dd1d);
    for round in 0..200 {
        let mut host = make(1 + round % 2, &triangle(), 1).unwrap();
        let mut now = 0;
        for _ in 0..300 {
            now += dice.below(4);
            let (at, before) = (Reading(now), host);
            let mut list = [0; 512];
            let stamp = (now + 8).saturating_sub(dice.below(40));
            let copy = copy(
                stamp,
                dice.below(3) as u8,
                dice.below(9) as u8 * (round % 2),
            );
            let refused = match dice.below(4) {
                0 => start(&mut host, at, Order::Halt(7)).is_err(),
                1 => tick(&mut host, at, &mut list).is_err(),
                _ => receive(&mut host, at, dice.below(3) as u8, &copy).is_err(),
            };
            assert!(is_sound(&host));
            assert!(!refused || host == before);
            assert!(refused || host.last == at);
        }
    }
}
