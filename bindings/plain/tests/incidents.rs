//! Every incident against its text, byte for byte, and the cases of schedules against their answers.

use plain::*;
use std::fmt::Write;
use std::fs;
use std::path::PathBuf;

fn at_root(path: &str) -> PathBuf {
    PathBuf::from(env!("CARGO_MANIFEST_DIR"))
        .join("../..")
        .join(path)
}

#[test]
fn every_incident_has_its_text() {
    let mut count = 0;
    for entry in fs::read_dir(at_root("incidents")).unwrap() {
        let path = entry.unwrap().path();
        if path
            .extension()
            .is_some_and(|extension| extension == "schedule")
        {
            let bytes = fs::read(&path).unwrap();
            let expected = fs::read(path.with_extension("txt")).unwrap();
            let mut buffer = [0; 16_384];
            let length = replay(&bytes, &mut buffer).unwrap();
            assert_eq!(
                String::from_utf8_lossy(&buffer[..length]),
                String::from_utf8_lossy(&expected),
                "{path:?}"
            );
            count += 1;
        }
    }
    assert!(count >= 70, "{count}");
}

/// One line, in the form of the cases: only delays other than 1 are listed, by their place.
fn line(schedule: &Schedule) -> String {
    let plan = &schedule.plan;
    let mut line = format!(
        "plan {} {} {} {} {} links {}",
        plan.hosts, plan.faulty_hosts, plan.faulty_links, plan.delay, plan.skew, plan.links
    );
    for link in plan.ends {
        write!(line, " {} {}", link.a, link.b).unwrap();
    }
    let Bounds { bound, window } = schedule.planned.first;
    write!(line, " d {} {bound} {window}", schedule.planned.d).unwrap();
    write!(
        line,
        " faults {} {}",
        schedule.faulty_hosts, schedule.faulty_links
    )
    .unwrap();
    line += " offsets";
    for offset in schedule.offsets {
        write!(line, " {offset}").unwrap();
    }
    write!(line, " end {} starts {}", schedule.end.0, schedule.started).unwrap();
    for start in &schedule.starts[..schedule.started] {
        let order = start.order;
        let (kind, image, share) = (order.kind(), order.image(), order.share());
        write!(
            line,
            " {} {} {kind} {image} {share}",
            start.tick.0, start.host
        )
        .unwrap();
    }
    line += " delays";
    let delays = schedule.delays.as_flattened().as_flattened();
    for (place, delay) in delays.iter().enumerate().filter(|(_, delay)| **delay != 1) {
        write!(line, " {place} {delay}").unwrap();
    }
    line
}

#[test]
fn every_case_of_a_schedule() {
    let cases = fs::read(at_root("crates/schedule_cases/stdin")).unwrap();
    let expected = fs::read_to_string(at_root("crates/schedule_cases/stdout")).unwrap();
    let mut left = &cases[..];
    for (number, expected) in expected.lines().enumerate() {
        let (length, rest) = left.split_at(2);
        let length = usize::from(u16::from_be_bytes([length[0], length[1]]));
        let (bytes, rest) = rest.split_at(length);
        left = rest;
        let answer = match read_schedule(bytes) {
            Ok(schedule) => line(&schedule),
            Err(Refused { number: 32, record }) => format!("refused 32 {record}"),
            Err(Refused { number, .. }) => format!("refused {number}"),
        };
        assert_eq!(answer, expected, "case {number}");
    }
    assert!(left.is_empty());
}
