mod common;

use common::*;
use plain::*;

/// A refused call must leave the state as it was.
fn answer(host: &mut Host, at: u64, link: u8, copy: Message) -> Result<(u16, u8), u8> {
    let before = *host;
    let answer = receive(host, Reading(at), link, &copy);
    if answer.is_err() {
        assert_eq!(*host, before);
    } else {
        assert!(is_sound(host));
        assert_eq!((host.last, host.held), (Reading(at), before.held + 1));
    }
    answer.map(|sends| (sends.links, sends.hop))
}

fn fresh(rules: u8, at: u64, copy: Message) -> Result<(u16, u8), u8> {
    answer(&mut host(rules), at, 0, copy)
}

#[test]
fn the_cases_of_the_paper() {
    assert_eq!((host(2).bound, host(1).bound), (26, 23));
    assert_eq!(fresh(2, 97, copy(100, 0, 1)), Err(16));
    assert_eq!(fresh(2, 98, copy(100, 0, 1)), Ok((0b100, 2)));
    assert_eq!(fresh(2, 112, copy(100, 0, 1)), Ok((0b100, 2)));
    assert_eq!(fresh(2, 113, copy(100, 0, 1)), Err(17));
    assert_eq!(fresh(2, 126, copy(100, 0, 2)), Err(17));
    assert_eq!(fresh(2, 126, copy(100, 0, 3)), Err(18));
    assert_eq!(fresh(1, 122, copy(100, 0, 0)), Ok((0b100, 0)));
    assert_eq!(fresh(1, 123, copy(100, 0, 0)), Err(18));
}

#[test]
fn hops() {
    assert_eq!(fresh(2, 100, copy(100, 0, 7)), Ok((0b100, 8)));
    assert_eq!(fresh(2, 100, copy(100, 0, 8)), Ok((0, 0)));
    assert_eq!(fresh(2, 0, copy(3, 0, 8)), Ok((0, 0)));
    assert_eq!(fresh(2, 0, copy(24, 0, 8)), Err(16));
    let mut leaf = make(2, &network(2, 0, 0, PAIR), 1).unwrap();
    assert_eq!(answer(&mut leaf, 5, 0, copy(5, 0, 1)), Ok((0, 2)));
    for (rules, hop) in [(1, 1), (2, 0), (2, 9), (2, 255)] {
        assert_eq!(fresh(rules, 100, copy(100, 0, hop)), Err(23));
    }
}

#[test]
fn what_the_plan_lacks() {
    for link in [1, 3, 12, 15, 16, 17, 32, 255] {
        assert_eq!(
            answer(&mut host(1), 100, link, copy(u64::MAX, 0, 0)),
            Err(15),
            "{link}"
        );
    }
    assert_eq!(fresh(1, 100, copy(100, 3, 0)), Err(15));
    assert_eq!(
        answer(&mut host(1), 100, 2, copy(100, 0, 0)),
        Ok((0b001, 0))
    );
}

#[test]
fn ranges_and_readings() {
    let publish = |share| Message {
        order: Order::Publish { image: 1, share },
        ..copy(100, 0, 0)
    };
    assert_eq!(fresh(1, u64::MAX, publish(0)), Err(23));
    assert_eq!(fresh(1, 100, publish(101)), Err(23));
    assert_eq!(fresh(1, 100, publish(100)), Ok((0b100, 0)));
    assert_eq!(fresh(1, 100, copy(LARGEST_STAMP.0 + 1, 0, 0)), Err(23));
    assert_eq!(fresh(1, LARGEST_READING.0 + 1, copy(100, 0, 0)), Err(10));
    assert_eq!(
        fresh(1, LARGEST_STAMP.0 + 1, copy(LARGEST_STAMP.0, 0, 0)),
        Ok((0b100, 0))
    );
    assert_eq!(fresh(1, 0, copy(LARGEST_STAMP.0, 0, 0)), Ok((0b100, 0)));
    let mut late = host(1);
    late.last = Reading(101);
    assert_eq!(answer(&mut late, 100, 0, copy(100, 0, 0)), Err(11));
    assert_eq!(answer(&mut late, 101, 0, copy(100, 0, 0)), Ok((0b100, 0)));
}

#[test]
fn what_is_held_already() {
    let mut host = host(1);
    assert_eq!(answer(&mut host, 100, 0, copy(100, 0, 0)), Ok((0b100, 0)));
    assert_eq!(answer(&mut host, 101, 2, copy(100, 0, 0)), Err(19));
    let other = Message {
        order: Order::Halt(8),
        ..copy(100, 0, 0)
    };
    assert_eq!(answer(&mut host, 101, 2, other), Err(20));
    assert_eq!(answer(&mut host, 123, 2, other), Err(18));
    assert_eq!(answer(&mut host, 101, 2, copy(99, 1, 0)), Err(21));
    assert!(start(&mut host, Reading(102), Order::Halt(7)).is_ok());
    assert_eq!(answer(&mut host, 103, 0, copy(102, 1, 0)), Err(19));
    assert_eq!(
        answer(
            &mut host,
            103,
            0,
            Message {
                source: 1,
                stamp: Reading(102),
                ..other
            }
        ),
        Err(20)
    );
}

#[test]
fn a_full_history() {
    let mut host = host(1);
    for stamp in 0..32 {
        assert_eq!(
            answer(&mut host, 50, 0, copy(100 - 2 * stamp, 0, 0)),
            Ok((0b100, 0))
        );
    }
    assert_eq!(answer(&mut host, 50, 0, copy(51, 0, 0)), Err(14));
    assert_eq!(answer(&mut host, 50, 0, copy(51, 1, 0)), Err(21));
    assert_eq!(answer(&mut host, 50, 0, copy(100, 0, 0)), Err(19));
    assert_eq!(start(&mut host, Reading(50), Order::Halt(1)), Err(14));
    let stamps: Vec<u64> = host.history.iter().map(|held| held.stamp.0).collect();
    assert_eq!(stamps, (0..32).map(|i| 38 + 2 * i).collect::<Vec<_>>());
}
