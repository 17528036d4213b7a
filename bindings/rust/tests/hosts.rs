//! The build paper's worked cases of plans and hosts.

use currentloom::*;

fn network(hosts: u8, faulty_hosts: u8, faulty_links: u8, links: &[(u8, u8)]) -> Plan {
    let links = links.to_vec();
    let (delay, skew) = (10, 3);
    Plan {
        hosts,
        links,
        faulty_hosts,
        faulty_links,
        delay,
        skew,
    }
}

const PAIR: &[(u8, u8)] = &[(0, 1)];
const TRIANGLE: &[(u8, u8)] = &[(0, 1), (0, 2), (1, 2)];
const RING: &[(u8, u8)] = &[(0, 1), (0, 3), (1, 2), (2, 3)];

/// The triangle's host 1, whose own links are 0 and 2.
fn host(rules: Rules) -> Host {
    Host::make(rules, &network(3, 1, 0, TRIANGLE), 1).unwrap()
}

fn copy(stamp: u64, source: u8, hop: u8) -> Message {
    Message {
        stamp: Reading(stamp),
        source,
        hop,
        order: Order::Halt(7),
    }
}

#[test]
fn the_rows_of_planning() {
    let row = |plan: Plan| {
        plan.bounds()
            .map(|found| (found.d, found.first.bound, found.second.bound))
    };
    assert_eq!(row(network(2, 0, 0, PAIR)), Ok((1, 13, 13)));
    assert_eq!(row(network(2, 0, 1, PAIR)), Err(Refusal::Parted));
    assert_eq!(row(network(3, 1, 0, TRIANGLE)), Ok((1, 23, 26)));
    assert_eq!(row(network(3, 0, 1, TRIANGLE)), Ok((2, 23, 23)));
    assert_eq!(row(network(4, 1, 0, RING)), Ok((2, 33, 36)));
    assert_eq!(row(network(4, 2, 0, RING)), Err(Refusal::Parted));
    assert_eq!(row(network(3, 0, 0, &[(1, 0)])), Err(Refusal::PlanLink));
    assert_eq!(row(network(3, 2, 0, TRIANGLE)), Err(Refusal::PlanNumber));
    let bounds = network(3, 1, 0, TRIANGLE).bounds().unwrap();
    assert_eq!(bounds.under(Rules::First).window, 26);
    assert_eq!(bounds.under(Rules::Second).window, 50);
}

#[test]
fn more_links_than_there_are_places_for() {
    for count in [13, 255, 256, 257, 300] {
        let plan = network(8, 0, 0, &vec![(0, 1); count]);
        assert_eq!(plan.bounds(), Err(Refusal::PlanNumber));
    }
}

#[test]
fn making() {
    let plan = network(3, 1, 0, TRIANGLE);
    assert_eq!(Host::make(Rules::First, &plan, 3), Err(Refusal::Lacking));
    let host = Host::make(Rules::Second, &plan, 2).unwrap();
    assert_eq!((host.own(), host.bound(), host.last()), (2, 26, Reading(0)));
    assert_eq!(host.held().count(), 0);
}

#[test]
fn timeliness() {
    let second = |at, hop| host(Rules::Second).receive(Reading(at), 0, &copy(100, 0, hop));
    assert_eq!(second(97, 1), Err(Refusal::Early));
    assert_eq!(
        second(98, 1).map(|sends| (sends.set(), sends.hop)),
        Ok((4, 2))
    );
    assert!(second(112, 1).is_ok());
    assert_eq!(second(113, 1), Err(Refusal::Late));
    assert_eq!(second(126, 2), Err(Refusal::Late));
    assert_eq!(second(126, 3), Err(Refusal::PastBound));
    let first = |at| host(Rules::First).receive(Reading(at), 0, &copy(100, 0, 0));
    assert_eq!(first(122).map(|sends| sends.links().collect()), Ok(vec![2]));
    assert_eq!(first(123), Err(Refusal::PastBound));
}

#[test]
fn starts_within_a_window() {
    let mut host = host(Rules::First);
    for at in 5..9 {
        let sends = host.start(Reading(at), Order::Halt(7)).unwrap();
        assert_eq!((sends.set(), sends.hop), (0b101, 0));
    }
    let mut start = |at, share| host.start(Reading(at), Order::Publish { image: 7, share });
    assert_eq!(start(4, 1), Err(Refusal::ReadingFalls));
    assert_eq!(start(8, 1), Err(Refusal::SameReading));
    assert_eq!(start(30, 1), Err(Refusal::Window));
    assert_eq!(start(30, 101), Err(Refusal::Range));
    assert!(start(31, 100).is_ok());
    assert_eq!(start(LARGEST_STAMP.0 + 1, 1), Err(Refusal::ReadingRange));
}

#[test]
fn a_tick_delivers_by_stamp_and_source() {
    let mut host = host(Rules::First);
    for (stamp, source) in [(102, 0), (100, 2), (100, 0)] {
        let copy = copy(stamp, source, 0);
        assert!(host.receive(Reading(100), 0, &copy).is_ok());
    }
    let names = |entries: Entries| {
        entries
            .map(|held| (held.stamp.0, held.source))
            .collect::<Vec<_>>()
    };
    assert_eq!(host.held().count(), 3);
    assert_eq!(host.tick(Reading(122)).map(names), Ok(vec![]));
    let before = host.clone();
    assert_eq!(
        host.tick_into(Reading(123), &mut [0; 31]),
        Err(Refusal::Short)
    );
    assert_eq!(host, before);
    assert_eq!(
        host.tick(Reading(123)).map(names),
        Ok(vec![(100, 0), (100, 2)])
    );
    assert_eq!(host.tick(Reading(125)).map(names), Ok(vec![(102, 0)]));
    assert_eq!(host.held().next(), None);
}

#[test]
fn memory_that_is_no_sound_state() {
    let mut memory = *host(Rules::First).memory();
    memory.bound += 1;
    let mut host = Host::from_memory(memory);
    assert_eq!(
        host.start(Reading(5), Order::Halt(7)),
        Err(Refusal::Unsound)
    );
    assert_eq!(host.tick(Reading(5)).err(), Some(Refusal::Unsound));
    assert_eq!(*host.memory(), memory);
    let bytes = memory.bytes();
    assert_eq!(memory::HostMemory::from_bytes(bytes), memory);
}
