mod common;

use common::Dice;
use plain::Stand::*;
use plain::*;

fn with(places: &[(u32, Stand, u8)]) -> Board {
    let mut board = Board::EMPTY;
    for &(image, stand, share) in places {
        board.places[board.images] = Place {
            image,
            stand,
            share,
        };
        board.images += 1;
    }
    board
}

fn after(mut board: Board, order: Order) -> Board {
    assert_eq!(apply(&mut board, order), Ok(()));
    board
}

#[test]
fn the_table_of_the_paper() {
    let publish = Order::Publish {
        image: 7,
        share: 45,
    };
    let (absent, offered) = (with(&[]), with(&[(7, Offered, 30)]));
    let (halted, halted_0) = (with(&[(7, Halted, 30)]), with(&[(7, Halted, 0)]));
    for (order, rows) in [
        (
            publish,
            [
                with(&[(7, Offered, 45)]),
                with(&[(7, Offered, 45)]),
                halted,
                halted_0,
            ],
        ),
        (Order::Halt(7), [halted_0, halted, halted, halted_0]),
        (Order::Resume(7), [absent, offered, offered, absent]),
        (Order::Withdraw(7), [absent; 4]),
    ] {
        for (before, expected) in [absent, offered, halted, halted_0].into_iter().zip(rows) {
            assert_eq!(after(before, order), expected, "{order:?} on {before:?}");
        }
    }
}

#[test]
fn a_full_board() {
    let places: Vec<_> = (0..16).map(|i| (10 * i, Offered, 5)).collect();
    let full = with(&places);
    assert_eq!(after(full, Order::Halt(7)), full);
    assert_eq!(after(full, Order::Publish { image: 7, share: 1 }), full);
    let room = after(full, Order::Withdraw(150));
    assert_eq!(room.images, 15);
    assert_eq!(after(room, Order::Halt(7)).places[1].image, 7);
    assert_eq!(after(full, Order::Halt(70)).places[7].stand, Halted);
}

#[test]
fn unsound_boards() {
    let mut too_many = Board::EMPTY;
    too_many.images = 17;
    let mut unused = Board::EMPTY;
    unused.places[15].share = 1;
    let mut absent_in_use = Board::EMPTY;
    absent_in_use.images = 1;
    for mut board in [
        too_many,
        unused,
        absent_in_use,
        with(&[(7, Offered, 0)]),
        with(&[(7, Offered, 101)]),
        with(&[(7, Halted, 101)]),
        with(&[(7, Halted, 1), (7, Halted, 1)]),
        with(&[(8, Halted, 1), (7, Halted, 1)]),
    ] {
        let before = board;
        assert_eq!(
            apply(&mut board, Order::Publish { image: 1, share: 0 }),
            Err(9),
            "{before:?}"
        );
        assert_eq!(board, before);
    }
    assert_eq!(
        apply(&mut with(&[(7, Halted, 100)]), Order::Halt(7)),
        Ok(())
    );
}

#[test]
fn a_share_out_of_range_is_refused_even_where_nothing_would_change() {
    for share in [0, 101, 255] {
        let mut board = with(&[(5, Halted, 1)]);
        assert_eq!(
            apply(&mut board, Order::Publish { image: 5, share }),
            Err(23)
        );
        assert_eq!(board, with(&[(5, Halted, 1)]));
    }
}

type Map = std::collections::BTreeMap<u32, (Stand, u8)>;

/// The table again, on a map from images to what stands there.
fn on_map(map: &mut Map, order: Order) {
    let image = order.image();
    let old = map.get(&image).copied();
    let has_room = old.is_some() || map.len() < 16;
    match (order, old) {
        (Order::Publish { share, .. }, None | Some((Offered, _))) if has_room => {
            map.insert(image, (Offered, share));
        }
        (Order::Halt(_), None) if has_room => drop(map.insert(image, (Halted, 0))),
        (Order::Halt(_), Some((_, share))) => drop(map.insert(image, (Halted, share))),
        (Order::Resume(_), Some((Halted, 1..))) => map.get_mut(&image).unwrap().0 = Offered,
        (Order::Resume(_), Some((Halted, 0))) | (Order::Withdraw(_), _) => drop(map.remove(&image)),
        _ => {}
    }
}

#[test]
fn orders_by_chance() {
    let mut dice = Dice(88_172_645_463_325_252);
    let mut board = Board::EMPTY;
    let mut map = Map::new();
    for _ in 0..20_000 {
        let image = dice.below(24) as u32;
        let share = 1 + dice.below(100) as u8;
        let order = match dice.below(9) {
            0..=2 => Order::Publish { image, share },
            3..=5 => Order::Halt(image),
            6 | 7 => Order::Resume(image),
            _ => Order::Withdraw(image),
        };
        assert_eq!(apply(&mut board, order), Ok(()));
        on_map(&mut map, order);
        let places: Vec<_> = map
            .iter()
            .map(|(&image, &(stand, share))| (image, stand, share))
            .collect();
        assert_eq!(board, with(&places));
    }
}
