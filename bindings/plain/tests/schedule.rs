mod common;

use common::network;
use plain::*;

/// Fields one after another: a tag and its value.
fn file(fields: &[(u8, &[u8])]) -> Vec<u8> {
    let mut bytes = Vec::new();
    for (tag, value) in fields {
        bytes.push(*tag);
        bytes.extend((value.len() as u16).to_be_bytes());
        bytes.extend(*value);
    }
    bytes
}

type Fields = Vec<(u8, &'static [u8])>;

/// The build paper's case.
fn case() -> Fields {
    vec![
        (16, &[3, 1, 0, 10, 3]),
        (17, &[0, 1]),
        (17, &[0, 2]),
        (17, &[1, 2]),
        (18, &[1, 0, 0]),
        (19, &[0, 0, 2]),
        (20, &[0, 40]),
        (21, &[0, 5, 0, 2, 0, 0, 0, 7]),
        (22, &[0, 0, 0, 10]),
        (22, &[0, 1, 0, 0]),
        (22, &[0, 2, 0, 10]),
    ]
}

fn text(bytes: &[u8]) -> String {
    let mut buffer = [0; 16_384];
    let length = replay(bytes, &mut buffer).unwrap();
    String::from_utf8(buffer[..length].to_vec()).unwrap()
}

fn with(record: usize, value: &'static [u8]) -> String {
    let mut fields = case();
    fields[record].1 = value;
    text(&file(&fields))
}

#[test]
fn the_case_of_the_paper() {
    let expected = "delta 23\n\
        host 0 at 28 stamp 5 from 0 halt 7\n\
        host 1 at 28 stamp 5 from 0 halt 7\n\
        host 2 at 28 stamp 5 from 0 halt 7\n\
        copies 4\n";
    assert_eq!(text(&file(&case())), expected);
    let schedule = read_schedule(&file(&case())).unwrap();
    assert_eq!(schedule.plan, network(3, 1, 0, common::TRIANGLE));
    assert_eq!((schedule.end, schedule.started), (Tick(40), 1));
    assert_eq!(schedule.delays[0][..3], [[10, 1], [0, 1], [10, 1]]);
}

#[test]
fn a_short_buffer_stays_as_it_was() {
    let bytes = file(&case());
    let length = text(&bytes).len();
    let mut buffer = vec![0xaa; length - 1];
    assert_eq!(replay(&bytes, &mut buffer), Err(22));
    assert!(buffer.iter().all(|byte| *byte == 0xaa));
    assert_eq!(replay(&[], &mut [0; 10]), Err(22));
    assert_eq!(text(&[]), "refused 31\n");
    let mut longer = vec![0xaa; length + 3];
    assert_eq!(replay(&bytes, &mut longer), Ok(length));
    assert_eq!(longer[length..], [0xaa; 3]);
}

#[test]
fn outside_the_rules() {
    assert_eq!(with(4, &[2 | 4, 0, 0]), "refused 32 4\n");
    assert_eq!(with(4, &[8, 0, 0]), "refused 32 4\n");
    assert_eq!(with(4, &[1, 0x80, 0]), "refused 32 4\n");
    assert_eq!(with(4, &[1, 0, 1]), "refused 32 4\n");
    assert_eq!(with(4, &[2, 0, 0]), "refused 32 9\n");
    assert_eq!(with(5, &[3, 0, 0]), "refused 32 5\n");
    assert_eq!(with(6, &[0x10, 1]), "refused 32 6\n");
    assert_eq!(with(6, &[0, 4]), "refused 32 7\n");
    assert_eq!(with(8, &[0, 0, 0, 11]), "refused 32 8\n");
    assert_eq!(with(8, &[0, 1, 0, 0]), "refused 32 9\n");
    assert_eq!(with(10, &[0, 0, 1, 1]), "refused 32 10\n");
}

#[test]
fn not_a_schedule() {
    for (record, value) in [
        (0, &[3, 1, 0, 10][..]),
        (1, &[0]),
        (4, &[1, 0]),
        (5, &[0, 0]),
        (6, &[40]),
        (7, &[0, 5, 0, 2, 0, 0, 0]),
        (7, &[0, 5, 3, 2, 0, 0, 0, 7]),
        (7, &[0, 5, 0, 5, 0, 0, 0, 7]),
        (7, &[0, 5, 0, 1, 0, 0, 0, 7]),
        (7, &[0, 5, 0, 1, 0, 0, 0, 7, 101]),
        (7, &[0, 5]),
        (8, &[1, 0, 0, 10]),
        (8, &[0, 3, 0, 10]),
        (8, &[0, 0, 2, 10]),
        (8, &[]),
    ] {
        assert_eq!(with(record, value), "refused 31\n", "{record} {value:?}");
    }
    let whole = file(&case());
    for end in 0..whole.len() {
        let fields_left = [65, 58, 51].contains(&end) || end == 40;
        assert_eq!(text(&whole[..end]) == "refused 31\n", !fields_left, "{end}");
    }
}

#[test]
fn the_order_of_refusals() {
    assert_eq!(with(0, &[3, 1, 0, 0, 3]), "refused 1\n");
    assert_eq!(with(0, &[3, 1, 1, 10, 3]), "refused 3\n");
    assert_eq!(with(2, &[0, 1]), "refused 2\n");
    let nine = file(&[
        (16, &[9, 0, 0, 1, 1]),
        (18, &[0; 3]),
        (19, &[0; 9]),
        (20, &[0; 2]),
    ]);
    assert_eq!(text(&nine), "refused 1\n");
    let three = file(&[
        (16, &[9, 0, 0, 1, 1]),
        (18, &[0; 3]),
        (19, &[0; 3]),
        (20, &[0; 2]),
    ]);
    assert_eq!(text(&three), "refused 31\n");
    let none = file(&[(16, &[0; 5]), (18, &[0; 3]), (19, &[]), (20, &[0; 2])]);
    assert_eq!(text(&none), "refused 1\n");
    assert_eq!(text(&[0; LONGEST_SCHEDULE + 1]), "refused 31\n");
}

/// Any bytes end in a text: those of the case with one or two of them changed.
#[test]
fn damaged_files() {
    let whole = file(&case());
    let mut dice = common::Dice(0x1234_5678_9abc_def1);
    let mut accepted = 0;
    for _ in 0..5_000 {
        let mut bytes = whole.clone();
        for _ in 0..2 {
            let place = dice.below(whole.len() as u64) as usize;
            bytes[place] = dice.below(256) as u8 >> dice.below(8);
        }
        let text = text(&bytes);
        assert!(text.starts_with("refused ") || text.starts_with("delta "));
        accepted += u32::from(text.starts_with("delta "));
    }
    assert!(accepted > 100, "{accepted}");
}
