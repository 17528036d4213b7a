//! Replays of schedules: kept, written, changed and damaged.

use crate::records;
use crate::tally::Call;
use crate::trial::{Difference, Trial};

const ROOM: usize = 16_384;

/// A replay with room for all, and sometimes one with less or just enough.
pub fn replay(trial: &mut Trial, bytes: &[u8]) -> Result<(), Difference> {
    let mut out = vec![trial.dice.byte(); ROOM];
    let answer = trial.replay(bytes, &mut out)?;
    let length = (answer >> 8) as usize;
    count_refusals(trial, &out[..length]);
    if trial.dice.one_in(4) {
        let any = trial.dice.place(ROOM);
        let room = trial.dice.pick(&[length, length - 1, length + 1, 0, any]);
        let mut out = trial.dice.bytes(room);
        trial.replay(bytes, &mut out)?;
    }
    Ok(())
}

/// `refused r`, or a run with lines `start k refused r`.
fn count_refusals(trial: &mut Trial, text: &[u8]) {
    let text = String::from_utf8_lossy(text);
    let mut of_file = 0;
    for line in text.lines() {
        let words: Vec<&str> = line.split(' ').collect();
        match words[..] {
            ["refused", number, ..] => of_file = number.parse().unwrap_or(u8::MAX),
            ["start", _, "refused", number] => {
                trial
                    .tally
                    .answer(Call::FileStart, number.parse().unwrap_or(u8::MAX));
            }
            _ => {}
        }
    }
    trial.tally.answer(Call::File, of_file);
    if text.contains("\nhost ") {
        trial
            .tally
            .input("schedules: of all these, runs that deliver");
    }
}

/// A schedule within the rules, then one or two records of it changed, then some bytes.
pub fn written(trial: &mut Trial) -> Result<(), Difference> {
    let mut records = records::schedule(&mut trial.dice);
    let whole = records::bytes(&records);
    trial.tally.input("schedules: within the rules");
    replay(trial, &whole)?;
    for _ in 0..2 {
        records::changed(&mut trial.dice, &mut records);
        trial.tally.input("schedules: with records changed");
        replay(trial, &records::bytes(&records))?;
        if records.is_empty() {
            break;
        }
    }
    trial.tally.input("schedules: with bytes damaged");
    damaged(trial, &whole)
}

pub fn kept(trial: &mut Trial, schedule: &[u8]) -> Result<(), Difference> {
    trial.tally.input("schedules: incidents");
    replay(trial, schedule)
}

pub fn kept_damaged(trial: &mut Trial, schedule: &[u8]) -> Result<(), Difference> {
    trial.tally.input("schedules: incidents with bytes damaged");
    damaged(trial, schedule)
}

fn damaged(trial: &mut Trial, whole: &[u8]) -> Result<(), Difference> {
    let mut bytes = whole.to_vec();
    let dice = &mut trial.dice;
    for _ in 0..1 + dice.below(2) {
        let place = dice.place(bytes.len().max(1));
        match dice.below(8) {
            0 => bytes.truncate(place),
            1 => bytes.insert(place.min(bytes.len()), dice.byte() >> dice.below(8)),
            _ => {
                if let Some(byte) = bytes.get_mut(place) {
                    *byte = dice.byte() >> dice.below(8);
                }
            }
        }
    }
    if dice.one_in(500) {
        // Around the longest file, whatever stands in it.
        bytes.resize(dice.pick(&[8_191, 8_192, 8_193, 9_000]), dice.byte());
    }
    replay(trial, &bytes)
}
