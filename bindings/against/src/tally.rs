//! What was tried and what was answered.

use std::collections::BTreeMap;

/// A call whose refusals are counted, or a part of a replay's text that shows one.
#[derive(Clone, Copy, PartialEq, Eq, Debug)]
pub enum Call {
    Plan,
    Make,
    Start,
    Receive,
    Tick,
    Write,
    Read,
    Apply,
    Replay,
    /// The refusal of the file, in the text.
    File,
    /// The refusals of its starts, in the text.
    FileStart,
}

/// Each call, its name, and every number that it can answer, in its order of checks.
pub const CALLS: [(Call, &str, &[u8]); 11] = [
    (Call::Plan, "plan", &[0, 1, 2, 3]),
    (Call::Make, "make", &[0, 1, 2, 3, 23, 15]),
    (Call::Start, "start", &[0, 9, 23, 10, 11, 12, 13, 14]),
    (
        Call::Receive,
        "receive",
        &[0, 9, 15, 23, 10, 11, 16, 17, 18, 19, 20, 21, 14],
    ),
    (Call::Tick, "tick", &[0, 9, 10, 11, 22]),
    (Call::Write, "write", &[0, 23, 22]),
    (Call::Read, "read", &[0, 23, 30, 22]),
    (Call::Apply, "apply", &[0, 9, 23]),
    (Call::Replay, "replay", &[0, 22]),
    (Call::File, "  file", &[0, 31, 1, 2, 3, 32]),
    (Call::FileStart, "  start", &[12, 13]),
];

#[derive(Default)]
pub struct Tally {
    inputs: BTreeMap<&'static str, u64>,
    answers: [BTreeMap<u8, u64>; CALLS.len()],
}

impl Tally {
    pub fn input(&mut self, kind: &'static str) {
        *self.inputs.entry(kind).or_default() += 1;
    }

    pub fn answer(&mut self, call: Call, refusal: u8) {
        *self.answers[call as usize].entry(refusal).or_default() += 1;
    }

    /// Calls, not counting what is read out of a text.
    pub fn calls(&self) -> u64 {
        let made = &self.answers[..Call::File as usize];
        made.iter().flat_map(BTreeMap::values).sum()
    }

    pub fn print(&self) {
        println!("inputs");
        for (kind, count) in &self.inputs {
            println!("  {count:>9} {kind}");
        }
        println!("answers, by call: refusal × times, 0 for an accepted one");
        for (call, name, can) in CALLS {
            let times = |refusal: &u8| self.times(call, *refusal);
            let line = can
                .iter()
                .map(|refusal| format!("{refusal} × {}", times(refusal)));
            println!("  {name:<8} {}", line.collect::<Vec<_>>().join(", "));
        }
    }

    fn times(&self, call: Call, refusal: u8) -> u64 {
        self.answers[call as usize]
            .get(&refusal)
            .copied()
            .unwrap_or(0)
    }

    /// What a call can answer and did not, and what it answered and cannot.
    pub fn faults(&self) -> Vec<String> {
        let mut faults = Vec::new();
        for (call, name, can) in CALLS {
            for refusal in can
                .iter()
                .filter(|refusal| self.times(call, **refusal) == 0)
            {
                faults.push(format!("{}: {refusal} was never reached", name.trim()));
            }
            for refusal in self.answers[call as usize].keys() {
                if !can.contains(refusal) {
                    faults.push(format!("{}: {refusal} was answered", name.trim()));
                }
            }
        }
        faults
    }
}
