mod common;

use common::*;
use plain::*;

const HALT: [u8; 23] = [
    0x01, 0, 8, 0, 0, 0, 0, 0, 0, 0, 0x64, 0x02, 0, 1, 0, 0x04, 0, 5, 2, 0, 0, 0, 7,
];

#[test]
fn the_halt_of_the_paper() {
    let mut buffer = [0xaa; 30];
    assert_eq!(write_message(1, &copy(100, 0, 0), &mut buffer), Ok(23));
    assert_eq!(buffer[..23], HALT);
    assert_eq!(buffer[23..], [0xaa; 7]);
    let read = read_message(1, &HALT).unwrap();
    assert_eq!(read.message, copy(100, 0, 0));
    assert_eq!(read.part, &HALT[18..]);
    assert!(std::ptr::eq(read.part, &HALT[18..]));
}

#[test]
fn writing_is_refused() {
    let good = copy(100, 0, 0);
    let publish = |share| Message {
        order: Order::Publish { image: 1, share },
        ..good
    };
    let mut buffer = [0xaa; 23];
    for (rules, message) in [
        (0, good),
        (3, good),
        (1, copy(LARGEST_STAMP.0 + 1, 0, 0)),
        (1, copy(u64::MAX, 0, 0)),
        (1, copy(100, 0, 1)),
        (2, copy(100, 0, 0)),
        (2, copy(100, 0, 9)),
        (1, copy(100, 8, 0)),
        (1, publish(0)),
        (1, publish(101)),
    ] {
        assert_eq!(
            write_message(rules, &message, &mut buffer),
            Err(23),
            "{message:?}"
        );
        assert_eq!(
            write_message(rules, &message, &mut []),
            Err(23),
            "{message:?}"
        );
    }
    assert_eq!(write_message(1, &good, &mut buffer[..22]), Err(22));
    assert_eq!(write_message(2, &copy(100, 0, 1), &mut buffer), Err(22));
    assert_eq!(buffer, [0xaa; 23]);
}

#[test]
fn reading_undoes_writing() {
    let orders = [
        Order::Publish { image: 0, share: 1 },
        Order::Publish {
            image: u32::MAX,
            share: 100,
        },
        Order::Halt(0x0102_0304),
        Order::Resume(5),
        Order::Withdraw(6),
    ];
    for order in orders {
        for (rules, hop) in [(1, 0), (2, 1), (2, 8)] {
            let message = Message {
                stamp: LARGEST_STAMP,
                source: 7,
                hop,
                order,
            };
            let mut buffer = [0; LONGEST_MESSAGE];
            let length = write_message(rules, &message, &mut buffer).unwrap();
            let read = read_message(rules, &buffer[..length]).unwrap();
            assert_eq!(
                (read.message, Order::read(read.part)),
                (message, Some(order))
            );
            assert_eq!(read_message(3 - rules, &buffer[..length]), Err(30));
        }
    }
}

/// Whatever is read writes back to the same bytes; each message with one byte changed.
#[test]
fn damaged_messages() {
    let mut good = 0;
    for place in 0..HALT.len() {
        for byte in 0..=255 {
            let mut bytes = HALT;
            bytes[place] = byte;
            match read_message(1, &bytes) {
                Ok(read) => {
                    let mut back = [0; 23];
                    assert_eq!(write_message(1, &read.message, &mut back), Ok(23));
                    assert_eq!(back, bytes);
                    good += 1;
                }
                Err(refused) => assert_eq!(refused, 30),
            }
        }
    }
    assert!(good > HALT.len());
}

#[test]
fn bytes_that_are_not_one_message() {
    for end in 0..HALT.len() {
        assert_eq!(read_message(1, &HALT[..end]), Err(30));
    }
    let mut longer = HALT.to_vec();
    longer.push(0);
    assert_eq!(read_message(1, &longer), Err(30));
    assert_eq!(read_message(2, &HALT), Err(30));
    assert_eq!(read_message(0, &[]), Err(23));
    assert_eq!(read_message(3, &HALT), Err(23));
}
