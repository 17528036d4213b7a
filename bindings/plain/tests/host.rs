mod common;

use common::*;
use plain::*;

#[test]
fn making() {
    let good = triangle();
    let bad_links = network(3, 1, 0, &[(1, 0)]);
    assert_eq!(
        make(
            9,
            &Plan {
                skew: 0,
                ..bad_links
            },
            200
        ),
        Err(1)
    );
    assert_eq!(make(9, &bad_links, 200), Err(2));
    assert_eq!(make(9, &network(3, 1, 1, TRIANGLE), 200), Err(3));
    assert_eq!(make(9, &good, 200), Err(23));
    assert_eq!(make(0, &good, 0), Err(23));
    assert_eq!(make(1, &good, 3), Err(15));
    let mut untidy = good;
    untidy.ends[5] = Link { a: 9, b: 9 };
    let host = make(2, &untidy, 2).unwrap();
    assert!(is_sound(&host));
    assert_eq!((host.plan, host.d, host.bound, host.own), (good, 1, 26, 2));
    assert_eq!((host.last, host.started, host.held), (Reading(0), 0, 0));
}

fn starts(host: &mut Host, at: u64) -> Result<(u16, u8), u8> {
    let before = *host;
    let answer = start(host, Reading(at), Order::Halt(7));
    assert!(answer.is_ok() || *host == before);
    answer.map(|sends| (sends.links, sends.hop))
}

#[test]
fn starting() {
    assert_eq!(starts(&mut host(1), 0), Ok((0b101, 0)));
    assert_eq!(starts(&mut host(2), 0), Ok((0b101, 1)));
    assert_eq!(starts(&mut host(1), LARGEST_STAMP.0), Ok((0b101, 0)));
    assert_eq!(starts(&mut host(1), LARGEST_STAMP.0 + 1), Err(10));
    for share in [0, 101] {
        let order = Order::Publish { image: 1, share };
        assert_eq!(start(&mut host(1), Reading(1 << 40), order), Err(23));
    }
    let mut host = host(1);
    assert_eq!(starts(&mut host, 5), Ok((0b101, 0)));
    assert_eq!(host.history[0], held(5, 1));
    assert_eq!(starts(&mut host, 4), Err(11));
    assert_eq!(starts(&mut host, 5), Err(12));
}

#[test]
fn five_starts_in_a_window() {
    for (rules, window) in [(1, 26), (2, 50)] {
        let mut host = host(rules);
        for at in 5..9 {
            assert!(starts(&mut host, at).is_ok());
        }
        assert_eq!(starts(&mut host, 8), Err(12));
        assert_eq!(starts(&mut host, 9), Err(13));
        assert_eq!(starts(&mut host, 5 + window - 1), Err(13));
        assert!(starts(&mut host, 5 + window).is_ok());
        assert_eq!(host.starts, [6, 7, 8, 5 + window].map(Reading));
        assert!(is_sound(&host));
    }
}

#[test]
fn ticking() {
    let mut host = host(1);
    for (stamp, source) in [(102, 0), (100, 2), (100, 0), (101, 2)] {
        assert!(receive(&mut host, Reading(100), 0, &copy(stamp, source, 0)).is_ok());
    }
    let before = host;
    let mut list = [0xaa; 53];
    assert_eq!(tick(&mut host, Reading(99), &mut list), Err(11));
    assert_eq!(tick(&mut host, Reading(1 << 40), &mut list), Err(10));
    assert_eq!(tick(&mut host, Reading(124), &mut list[..47]), Err(22));
    assert_eq!((host, list), (before, [0xaa; 53]));
    assert_eq!(tick(&mut host, Reading(122), &mut []), Ok(0));
    assert_eq!(tick(&mut host, Reading(124), &mut list), Ok(3));
    let entry = |stamp, source| [0, 0, 0, 0, 0, 0, 0, stamp, source, 2, 0, 0, 0, 7, 0, 0];
    let written = [entry(100, 0), entry(100, 2), entry(101, 2)];
    assert_eq!(list[..48], written.concat());
    assert_eq!(list[48..], [0xaa; 5]);
    assert_eq!(host.history[..2], [held(102, 0), Held::UNUSED]);
    assert!(is_sound(&host) && host.held == 1 && host.last == Reading(124));
    assert_eq!(tick(&mut host, LARGEST_READING, &mut list[..16]), Ok(1));
    assert_eq!(
        receive(&mut host, LARGEST_READING, 0, &copy(102, 0, 0)),
        Err(18)
    );
}

#[test]
fn a_publish_in_an_entry() {
    let mut host = host(1);
    let order = Order::Publish {
        image: 0x0102_0304,
        share: 100,
    };
    assert!(start(&mut host, LARGEST_STAMP, order).is_ok());
    let mut list = [0xaa; 16];
    assert_eq!(tick(&mut host, LARGEST_READING, &mut list), Ok(1));
    assert_eq!(
        list,
        [0, 0, 0, 0xff, 0xff, 0xff, 0xef, 0xff, 1, 1, 1, 2, 3, 4, 100, 0]
    );
    let held = Held {
        stamp: LARGEST_STAMP,
        source: 1,
        order,
    };
    assert_eq!(read_entry(&list), Some(held));
}
