//! Orders as three numbers.

use crate::dice::Dice;
use currentloom::door::OrderNumbers;

/// Most are orders. The others have a kind or a share that no order has.
pub fn order(dice: &mut Dice) -> OrderNumbers {
    if dice.one_in(12) {
        return no_order(dice);
    }
    formed(dice)
}

pub fn formed(dice: &mut Dice) -> OrderNumbers {
    let kind = 1 + dice.below(4) as u8;
    let any = 1 + dice.below(100) as u16;
    let share = if kind == 1 {
        dice.pick(&[1, 2, 99, 100, any])
    } else {
        0
    };
    OrderNumbers {
        kind,
        image: image(dice),
        share,
    }
}

fn image(dice: &mut Dice) -> u32 {
    let (few, any) = (dice.below(20) as u32, dice.number() as u32);
    dice.pick(&[few, few, few, 0, u32::MAX, any])
}

/// Shares whose low byte is in range are among them.
fn no_order(dice: &mut Dice) -> OrderNumbers {
    let any = dice.number() as u16;
    let (kind, share) = match dice.below(4) {
        0 => (
            1,
            dice.pick(&[0, 101, 255, 256, 257, 356, 0x8001, u16::MAX]),
        ),
        1 => (
            dice.pick(&[2, 3, 4]),
            dice.pick(&[1, 100, 256, 0x8000, any | 1]),
        ),
        2 => (
            dice.pick(&[0, 5, 6, 128, 129, 255]),
            dice.pick(&[0, 1, 100]),
        ),
        _ => (dice.byte(), any),
    };
    OrderNumbers {
        kind,
        image: image(dice),
        share,
    }
}
