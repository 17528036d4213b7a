//! Messages written, read back, damaged and read again.

use crate::dice::Dice;
use crate::orders::order;
use crate::trial::{Difference, Trial};
use currentloom::door::CopyNumbers;
use currentloom::LARGEST_STAMP;

fn some_copy(dice: &mut Dice, rules: u8) -> CopyNumbers {
    let (near, any, byte) = (dice.below(300), dice.number(), dice.byte());
    let far = any % (LARGEST_STAMP.0 + 1);
    let good = if rules == 2 {
        1 + dice.below(8) as u8
    } else {
        0
    };
    let edge = dice.pick(&[LARGEST_STAMP.0, LARGEST_STAMP.0 + 1, u64::MAX, any]);
    let hop = if dice.one_in(12) {
        dice.pick(&[0, 1, 8, 9, 255, byte])
    } else {
        good
    };
    let source = if dice.one_in(16) {
        dice.pick(&[8, 255, byte])
    } else {
        byte % 8
    };
    let stamp = dice.pick(&[near, near, far, far, far, far, LARGEST_STAMP.0, edge]);
    CopyNumbers {
        stamp,
        source,
        hop,
        order: order(dice),
    }
}

fn rules(dice: &mut Dice) -> u8 {
    let any = dice.byte();
    dice.pick(&[1, 1, 1, 1, 1, 2, 2, 2, 2, 2, 0, 3, any])
}

/// Reads under a rule set, with room for some numbers, which may be any.
fn read(trial: &mut Trial, rules: u8, bytes: &[u8]) -> Result<(), Difference> {
    let room = trial.dice.pick(&[8, 8, 8, 8, 8, 10, 9, 7, 1, 0]);
    let mut out: Vec<u64> = (0..room).map(|_| trial.dice.number()).collect();
    trial.read(rules, bytes, &mut out)?;
    Ok(())
}

pub fn some(trial: &mut Trial) -> Result<(), Difference> {
    let rules = rules(&mut trial.dice);
    let copy = some_copy(&mut trial.dice, rules);
    let any = trial.dice.place(40);
    let room = trial.dice.pick(&[28, 28, 28, 40, 22, 23, 24, 27, any]);
    let mut out = trial.dice.bytes(room);
    trial.tally.input("messages: written");
    let answer = trial.write(rules, copy, &mut out)?;
    if answer & 0xff == 0 {
        let message = &out[..(answer >> 8) as usize];
        trial.tally.input("messages: read as written");
        read(trial, rules, message)?;
        read(trial, rules ^ 3, message)?;
        for _ in 0..3 {
            let damaged = damaged(&mut trial.dice, message);
            trial.tally.input("messages: damaged");
            read(trial, rules, &damaged)?;
        }
    } else {
        trial.tally.input("messages: random bytes");
        read(trial, rules, &out)?;
    }
    Ok(())
}

fn damaged(dice: &mut Dice, message: &[u8]) -> Vec<u8> {
    let mut bytes = message.to_vec();
    let place = dice.place(bytes.len());
    match dice.below(8) {
        0 => bytes.truncate(place),
        1 => bytes.push(dice.byte() >> dice.below(8)),
        2 => bytes.insert(place, dice.byte() >> dice.below(8)),
        3 => {
            bytes.remove(place);
        }
        // The share or the kind, the hop, a length.
        4 => *bytes.last_mut().expect("no message is empty") = dice.byte() >> dice.below(8),
        5 => bytes[place & !3] = dice.byte() >> dice.below(8),
        6 => bytes[place] ^= 1 << dice.below(8),
        _ => bytes[place] = dice.byte() >> dice.below(8),
    }
    bytes
}
