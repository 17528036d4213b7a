//! The differential test: `against` tries millions of calls, `against --short` takes a minute at
//! most. The seeds are fixed, so that two runs try the same.

use against::tally::Tally;
use against::trial::{Difference, Trial};
use against::{boards, hosts, incidents, messages, plans, schedules};
use std::process::ExitCode;
use std::time::Instant;

/// How many times the rounds that `all` names.
const SHORT: u64 = 6;
const LONG: u64 = 100;

type Round<'a> = &'a mut dyn FnMut(&mut Trial) -> Result<(), Difference>;

/// Rounds of one kind. Each has a seed of its own, which a difference is printed with.
fn rounds(tally: &mut Tally, kind: &str, count: u64, round: Round) -> Result<(), String> {
    let began = Instant::now();
    let before = tally.calls();
    for i in 0..count {
        let seed = seed_of(kind, i);
        let mut trial = Trial::new(std::mem::take(tally), seed);
        let judged = round(&mut trial);
        *tally = trial.tally;
        judged.map_err(|Difference(text)| format!("{kind}, round {i}, seed {seed:#x}\n{text}"))?;
    }
    let (calls, time) = (tally.calls() - before, began.elapsed().as_secs_f64());
    println!("{kind}: {count} rounds, {calls} calls, all the same ({time:.1} s)");
    Ok(())
}

/// The kind's letters and the round's number, mixed.
fn seed_of(kind: &str, round: u64) -> u64 {
    let mix = |seed: u64, byte| seed.wrapping_mul(31).wrapping_add(u64::from(byte));
    kind.bytes().fold(round << 8, mix)
}

fn all(tally: &mut Tally, times: u64) -> Result<(), String> {
    let is_long = times > SHORT;
    rounds(tally, "every network", 1, &mut |trial| {
        for (hosts, faulty_links) in [(2, 12), (3, 12), (4, 6)] {
            plans::every(trial, hosts, faulty_links)?;
        }
        if is_long {
            plans::every(trial, 5, 4)?;
        }
        plans::shaped(trial, 3)
    })?;
    rounds(tally, "plans", 2_000 * times, &mut plans::some)?;
    rounds(tally, "host walks", 2_000 * times, &mut hosts::walk)?;
    rounds(tally, "host states", 10_000 * times, &mut hosts::state)?;
    rounds(tally, "messages", 20_000 * times, &mut messages::some)?;
    rounds(tally, "board walks", 1_000 * times, &mut boards::walk)?;
    rounds(tally, "board states", 10_000 * times, &mut boards::state)?;
    let kept = incidents::all();
    rounds(tally, "incidents", 1, &mut |trial| {
        kept.iter()
            .try_for_each(|schedule| schedules::kept(trial, schedule))
    })?;
    rounds(tally, "damaged incidents", 10 * times, &mut |trial| {
        kept.iter()
            .try_for_each(|schedule| schedules::kept_damaged(trial, schedule))
    })?;
    rounds(tally, "schedules", 1_000 * times, &mut schedules::written)
}

fn main() -> ExitCode {
    let arguments: Vec<String> = std::env::args().skip(1).collect();
    let times = match arguments.iter().map(String::as_str).collect::<Vec<_>>()[..] {
        [] => LONG,
        ["--short"] => SHORT,
        _ => {
            eprintln!("usage: against [--short]");
            return ExitCode::from(2);
        }
    };
    let mut tally = Tally::default();
    if let Err(difference) = all(&mut tally, times) {
        println!("a difference: {difference}");
        return ExitCode::FAILURE;
    }
    tally.print();
    let faults = tally.faults();
    for fault in &faults {
        println!("{fault}");
    }
    if !faults.is_empty() {
        return ExitCode::FAILURE;
    }
    println!(
        "{} calls, no difference, every refusal reached",
        tally.calls()
    );
    ExitCode::SUCCESS
}
