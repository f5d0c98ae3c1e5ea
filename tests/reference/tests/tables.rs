//! The house's own table of classes: which are accepted, and what they do.

mod common;

use common::*;
use reference::exported::{check_table, record, record_by};

/// What becomes of a table in a call that is right otherwise.
fn loaded(table: &[u8]) -> u32 {
    let (mut marks, mut classes) = ([0xa5], [0xa5]);
    let result = record_by(&hex("01ff"), table, &[0], &mut marks, &mut classes);
    let left = if result == 0 { ([0], [0]) } else { ([0xa5], [0xa5]) };
    assert_eq!((marks, classes), left);
    assert_eq!(check_table(table), result, "the check alone");
    result
}

/// A table with these classes.
fn table_of(classes: [u8; 6]) -> Vec<u8> {
    (0..).zip(classes).flat_map(|(mark, class)| [mark, class]).collect()
}

#[test]
fn any_classes_of_the_marks_in_order() {
    let mut accepted = 0;
    for number in 0..5usize.pow(6) {
        let classes = std::array::from_fn(|mark| (number / 5usize.pow(mark as u32) % 5) as u8);
        let right = classes[0] == 0 && classes.iter().all(|&class| class <= 3);
        assert_eq!(loaded(&table_of(classes)), if right { 0 } else { 21 }, "{classes:?}");
        accepted += usize::from(right);
    }
    assert_eq!(accepted, 4usize.pow(5));
}

/// Every byte at every place.
#[test]
fn one_byte_changed() {
    for place in 0..12 {
        for byte in 0..=255 {
            let mut table = COMMON_TABLE;
            table[place] = byte;
            let right = if place % 2 == 1 {
                place > 1 && byte <= 3 || byte == 0
            } else {
                byte == COMMON_TABLE[place]
            };
            assert_eq!(loaded(&table), if right { 0 } else { 21 }, "place {place} byte {byte}");
        }
    }
}

#[test]
fn other_lengths_and_orders() {
    for length in (0..=24).filter(|&length| length != 12) {
        let long = [COMMON_TABLE, COMMON_TABLE].concat();
        assert_eq!(loaded(&long[..length]), 21, "{length} bytes");
    }
    let frames: Vec<[u8; 2]> = COMMON_TABLE.chunks(2).map(|frame| [frame[0], frame[1]]).collect();
    for (one, two) in (0..6).flat_map(|one| (0..one).map(move |two| (one, two))) {
        let mut frames = frames.clone();
        frames.swap(one, two);
        assert_eq!(loaded(&frames.concat()), 21, "frames {two} and {one} changed places");
        frames[one] = frames[two];
        assert_eq!(loaded(&frames.concat()), 21, "frame {two} twice");
    }
}

#[test]
fn without_a_table_the_common_one() {
    let plan = hex(P);
    let mut state = [0u8; 36];
    for round in 0..=255u8 {
        for (place, byte) in state.iter_mut().enumerate() {
            *byte = round.wrapping_mul(31) ^ (place as u8).wrapping_mul(round);
        }
        let (mut one, mut two) = (([0; 6], [0; 6]), ([1; 6], [1; 6]));
        assert_eq!(record(&plan, &state, &mut one.0, &mut one.1), 0);
        assert_eq!(record_by(&plan, &COMMON_TABLE, &state, &mut two.0, &mut two.1), 0);
        assert_eq!(one, two);
    }
}

/// A job in which every mark occurs, classed by a table of its own.
#[test]
fn each_mark_has_its_class_and_blocks_have_none() {
    let mut job = Simulation::new("03ff 0500 0101 0101 0101 0101 0101");
    let events = [
        (START, 0),
        (START, 1),
        (START, 2),
        (START, 3),
        (START, 4),
        (START, 5),
        (OFFER, 2),
        (OFFER, 3),
        (ABORT, 4),
        (PICK, 2),
        (COMMIT, 2),
    ];
    for (code, node) in events {
        job.all_know(code, node);
    }
    assert_eq!(job.marks(), [1, 1, 3, 2, 4, 1, 0]);
    assert_eq!(job.classes_by(&table_of([0, 1, 2, 3, 0, 1])), [0, 0, 2, 2, 0, 1, 0]);
    assert_eq!(job.classes_by(&table_of([0, 3, 1, 0, 2, 1])), [0, 0, 1, 1, 2, 3, 0]);
    job.all_know(TURNED_DOWN, 3);
    assert_eq!(job.classes_by(&table_of([0, 1, 2, 3, 0, 1])), [0, 0, 2, 1, 0, 1, 0]);
    assert_eq!(job.record().1, [0, 0, 3, 2, 2, 3, 0], "the tables before are forgotten");
    for (code, node) in [(ABORT, 5), (START, 6), (ABORT, 6), (COMMIT, 1), (COMMIT, 0)] {
        job.all_know(code, node);
    }
    assert_eq!(job.classes_by(&table_of([0, 1, 2, 3, 0, 1])), [0, 0, 3, 1, 0, 0, 0], "all has gone through");
}
