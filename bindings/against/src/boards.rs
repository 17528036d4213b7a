//! Orders upon boards, sound and not.

use crate::dice::Dice;
use crate::orders::order;
use crate::trial::{Difference, Trial};
use currentloom::memory::{BoardMemory, PlaceMemory, IMAGES};
use std::collections::BTreeSet;

/// An empty board and orders upon it, one after another.
pub fn walk(trial: &mut Trial) -> Result<(), Difference> {
    let mut memory = BoardMemory::default();
    trial.tally.input("boards: walks of 60 orders");
    for _ in 0..60 {
        let order = order(&mut trial.dice);
        trial.apply(&mut memory, order)?;
    }
    Ok(())
}

/// An order upon a sound board, and upon the same damaged in each way.
pub fn state(trial: &mut Trial) -> Result<(), Difference> {
    let memory = sound(&mut trial.dice);
    trial.tally.input("boards: sound boards");
    near_order(trial, memory)?;
    let damaged = damaged_place(&mut trial.dice, memory);
    trial.tally.input("boards: one field damaged");
    near_order(trial, damaged)?;
    let mut bytes = memory.bytes();
    for _ in 0..1 + trial.dice.below(2) {
        let place = trial.dice.place(bytes.len());
        bytes[place] = trial.dice.byte() >> trial.dice.below(8);
    }
    trial.tally.input("boards: up to two bytes damaged");
    near_order(trial, BoardMemory::from_bytes(bytes))
}

fn near_order(trial: &mut Trial, mut memory: BoardMemory) -> Result<(), Difference> {
    let mut order = order(&mut trial.dice);
    let image = memory.places[trial.dice.place(IMAGES)].image;
    let beside = image.wrapping_add(1);
    order.image = trial.dice.pick(&[image, image, image, beside, order.image]);
    trial.apply(&mut memory, order)?;
    Ok(())
}

fn sound(dice: &mut Dice) -> BoardMemory {
    let any = dice.place(IMAGES + 1);
    let count = dice.pick(&[0, 1, 15, 16, any]);
    let wide = dice.pick(&[24, 1 << 32]);
    let images: BTreeSet<u32> = (0..count).map(|_| dice.below(wide) as u32).collect();
    let mut memory = BoardMemory {
        count: images.len() as u64,
        ..BoardMemory::default()
    };
    for (place, image) in memory.places.iter_mut().zip(&images) {
        let stand = 1 + dice.below(2) as u16;
        let least = 2 - stand;
        let any = least + dice.below(100) as u16;
        *place = PlaceMemory {
            image: *image,
            stand,
            share: dice.pick(&[least, 100, any]),
        };
    }
    memory
}

fn damaged_place(dice: &mut Dice, mut memory: BoardMemory) -> BoardMemory {
    let (any, other) = (dice.place(IMAGES), dice.place(IMAGES));
    let used = dice.place((memory.count as usize).max(1));
    let place = dice.pick(&[any, used]);
    let (next, entry) = (memory.places[other], &mut memory.places[place]);
    match dice.below(6) {
        0 => memory.count = dice.pick(&[0, 15, 16, 17, memory.count + 1, 1 << 32, u64::MAX]),
        1 => entry.stand = dice.pick(&[0, 1, 2, 3, 256, 257, u16::MAX]),
        2 => entry.share = dice.pick(&[0, 1, 100, 101, 256, 257, u16::MAX]),
        3 => entry.image = dice.pick(&[0, 1, next.image, u32::MAX]),
        4 => *entry = next,
        _ => memory.places.swap(place, other),
    }
    memory
}
