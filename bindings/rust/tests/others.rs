//! Messages, boards, replays and the refusals' numbers.

use currentloom::*;

const HALT: [u8; 23] = [
    1, 0, 8, 0, 0, 0, 0, 0, 0, 0, 0x64, 2, 0, 1, 0, 4, 0, 5, 2, 0, 0, 0, 7,
];

#[test]
fn the_halt_of_the_paper() {
    let message = Message {
        stamp: Reading(100),
        source: 0,
        hop: 0,
        order: Order::Halt(7),
    };
    let mut out = [0xaa; LONGEST_MESSAGE];
    assert_eq!(message.write(Rules::First, &mut out), Ok(23));
    assert_eq!(out[..23], HALT);
    assert_eq!(out[23..], [0xaa; 5]);
    let read = Message::read(Rules::First, &HALT).unwrap();
    assert_eq!(read.message, message);
    assert!(std::ptr::eq(read.part, &HALT[18..]));
    assert_eq!(Message::read(Rules::Second, &HALT), Err(Refusal::NoMessage));
    assert_eq!(Message::read(Rules::First, &[]), Err(Refusal::NoMessage));
    assert_eq!(message.write(Rules::Second, &mut out), Err(Refusal::Range));
    assert_eq!(message.write(Rules::First, &mut []), Err(Refusal::Short));
}

#[test]
fn reading_undoes_writing() {
    let publish = |image, share| Order::Publish { image, share };
    for order in [publish(u32::MAX, 100), Order::Resume(5), Order::Withdraw(6)] {
        for (rules, hop) in [(Rules::First, 0), (Rules::Second, 8)] {
            let message = Message {
                stamp: LARGEST_STAMP,
                source: 7,
                hop,
                order,
            };
            let mut out = [0; LONGEST_MESSAGE];
            let length = message.write(rules, &mut out).unwrap();
            let read = Message::read(rules, &out[..length]).unwrap();
            assert_eq!(read.message, message);
        }
    }
}

#[test]
fn the_table_of_the_board() {
    let mut board = Board::new();
    let image = 7;
    board.apply(Order::Resume(image)).unwrap();
    assert_eq!(board.stand(image), Stand::Absent);
    board.apply(Order::Publish { image, share: 25 }).unwrap();
    assert_eq!(board.stand(image), Stand::Offered { share: 25 });
    board.apply(Order::Halt(image)).unwrap();
    board.apply(Order::Publish { image, share: 50 }).unwrap();
    assert_eq!(board.stand(image), Stand::Halted { share: 25 });
    board.apply(Order::Resume(image)).unwrap();
    assert_eq!(board.stand(image), Stand::Offered { share: 25 });
    board.apply(Order::Halt(3)).unwrap();
    let images: Vec<_> = board.images().collect();
    let halted = Stand::Halted { share: 0 };
    assert_eq!(images, [(3, halted), (7, Stand::Offered { share: 25 })]);
    board.apply(Order::Withdraw(image)).unwrap();
    assert_eq!(board.stand(image), Stand::Absent);
    let refused = board.apply(Order::Publish { image, share: 0 });
    assert_eq!(refused, Err(Refusal::Range));
}

#[test]
fn a_board_of_any_memory() {
    let mut memory = *Board::new().memory();
    memory.count = u64::MAX;
    let mut board = Board::from_memory(memory);
    assert_eq!(board.apply(Order::Halt(7)), Err(Refusal::Unsound));
    assert_eq!(board.images().count(), memory::IMAGES);
    assert_eq!(*board.memory(), memory);
}

/// Every incident against its text, byte for byte.
#[test]
fn incidents() {
    let folder = std::path::Path::new(env!("CARGO_MANIFEST_DIR")).join("../../incidents");
    let mut count = 0;
    for entry in std::fs::read_dir(folder).unwrap() {
        let path = entry.unwrap().path();
        if path.extension().is_some_and(|end| end == "schedule") {
            let text = std::fs::read_to_string(path.with_extension("txt")).unwrap();
            assert_eq!(replay(&std::fs::read(&path).unwrap()), text, "{path:?}");
            count += 1;
        }
    }
    assert!(count >= 70, "{count}");
    assert_eq!(replay_into(&[], &mut [0; 10]), Err(Refusal::Short));
    assert_eq!(replay_into(&[], &mut [0; 11]), Ok(11));
}

#[test]
fn numbers_of_refusals() {
    let numbers: Vec<u8> = Refusal::ALL
        .iter()
        .map(|refusal| refusal.number())
        .collect();
    let expected = [1..=3, 9..=23, 30..=32];
    assert_eq!(numbers, expected.into_iter().flatten().collect::<Vec<u8>>());
    for number in 0..=255 {
        let named = Refusal::of(number).map(Refusal::number);
        assert_eq!(named, numbers.contains(&number).then_some(number));
    }
    assert_eq!(Refusal::Full.to_string(), "refused 14: 32 orders are held");
}
