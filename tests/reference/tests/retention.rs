//! What counts as aired: a committed task's class goes by the blocks above.

mod common;

use common::*;
use reference::exported::{record, record_by};

/// A table that tells marks 2, 3 and 5 apart, and 5 from 4.
const TELLING: [u8; 12] = [0, 0, 1, 0, 2, 1, 3, 2, 4, 0, 5, 3];

/// A state in which the nodes have these marks.
fn state_of(marks: &[u8]) -> Vec<u8> {
    const HEARD: [u8; 6] = [0, 0x01, 0x03, 0x05, 0x09, 0x83];
    let mut state = vec![0; marks.len() * marks.len()];
    for (node, &mark) in marks.iter().enumerate() {
        state[node * marks.len() + node] = HEARD[usize::from(mark)];
    }
    state
}

/// The classes of these marks by a table.
fn classes(plan: &str, table: &[u8], marks: &[u8]) -> Vec<u8> {
    let (mut read, mut classes) = (vec![0xee; marks.len()], vec![0xee; marks.len()]);
    let result = record_by(&hex(plan), table, &state_of(marks), &mut read, &mut classes);
    assert_eq!((result, &read[..]), (0, marks), "marks don't change");
    classes
}

/// The case that joins P9, by the pass and by a simulation.
#[test]
fn a_draft_inside_a_block_that_was_turned_down() {
    let plan = hex("05ff 0200 0101 0100");
    let marks = pass_marks(&plan, &[2, 0, 1, 1]).expect("the answers fit");
    assert_eq!(marks, [3, 5, 3, 3]);
    let record = Ok((marks, vec![0, 0, 2, 1]));
    assert_eq!(record_of_pass(&plan, &COMMON_TABLE, &[2, 0, 1, 1]), record);
    let mut job = Simulation::new("05ff 0200 0101 0100");
    let events = [
        (START, 0),
        (START, 1),
        (START, 2),
        (COMMIT, 2),
        (OFFER, 1),
        (START, 3),
        (OFFER, 3),
        (PICK, 3),
        (TURNED_DOWN, 1),
        (COMMIT, 3),
        (COMMIT, 0),
    ];
    for (code, node) in events {
        job.all_know(code, node);
    }
    assert_eq!(job.record(), (vec![3, 5, 3, 3], vec![0, 0, 2, 1]));
}

/// The pass's marks, each with its class by a table that tells all apart.
#[test]
fn the_record_of_a_pass() {
    let by = |plan: &str, answers: &[u8]| record_of_pass(&hex(plan), &TELLING, answers);
    let both = |marks: &[u8], classes: &[u8]| Ok((marks.to_vec(), classes.to_vec()));
    assert_eq!(by(P, &[0, 1, 1, 1, 1, 1]), both(&[3, 3, 3, 3, 5, 3], &[0, 2, 0, 2, 3, 2]));
    assert_eq!(by(P, &[0, 2, 1, 1, 1, 1]), both(&[4, 4, 0, 0, 0, 0], &[0, 0, 0, 0, 0, 0]));
    assert_eq!(by(P, &[0, 1, 0, 2, 2, 1]), both(&[4, 3, 4, 4, 4, 0], &[0, 3, 0, 0, 0, 0]));
    assert_eq!(by(P, &[0, 1, 0, 1, 1, 1]), Err(14));
    assert_eq!(by("01ff", &[1]), both(&[3], &[2]));
    assert_eq!(by("01ff", &[3]), Err(13));
}

/// Three blocks above a task, every mark at each of the four.
#[test]
fn every_block_above_counts() {
    for number in 0..6usize.pow(4) {
        let marks: [u8; 4] = std::array::from_fn(|node| (number / 6usize.pow(node as u32) % 6) as u8);
        let blocks = &marks[..3];
        let by_mark = if marks[3] != 3 {
            marks[3]
        } else if blocks.contains(&4) || blocks.contains(&5) {
            5
        } else if blocks == [3, 3, 3] {
            3
        } else {
            2
        };
        let class = TELLING[2 * usize::from(by_mark) + 1];
        assert_eq!(classes("02ff 0200 0301 0102", &TELLING, &marks), [0, 0, 0, class], "{marks:?}");
    }
}

/// Only blocks above count: not siblings, and not blocks elsewhere.
#[test]
fn what_is_beside_does_not_count() {
    let plan = "03ff 0200 0400 0101 0101 0102";
    assert_eq!(classes(plan, &TELLING, &[3, 3, 5, 3, 4, 3]), [0, 0, 0, 2, 0, 3]);
    assert_eq!(classes(plan, &TELLING, &[3, 1, 3, 3, 4, 3]), [0, 0, 0, 1, 0, 2]);
    assert_eq!(classes(plan, &TELLING, &[4, 3, 1, 3, 3, 3]), [0, 0, 0, 3, 3, 3]);
    assert_eq!(classes("01ff", &TELLING, &[3]), [2], "nothing is above");
}

/// Children may stand anywhere after their parent.
#[test]
fn blocks_above_are_found_through_the_parents() {
    let plan = "03ff 0400 0200 0102 0101 0800 0105 0102";
    assert_eq!(classes(plan, &TELLING, &[3, 4, 3, 3, 3, 1, 3, 3]), [0, 0, 0, 2, 3, 0, 1, 2]);
}

/// As a job goes on, a committed task is first not through, then aired, or
/// lost as soon as a block above is.
#[test]
fn the_class_along_a_job() {
    let mut job = Simulation::new("03ff 0200 0101 0100");
    for (code, node) in [(START, 0), (START, 1), (START, 2), (COMMIT, 2)] {
        job.all_know(code, node);
    }
    assert_eq!(job.record().1, [0, 0, 3, 0]);
    job.all_know(COMMIT, 1);
    assert_eq!(job.record().1, [0, 0, 3, 0]);
    job.all_know(START, 3);
    let mut lost = Simulation { plan: job.plan.clone(), state: job.state.clone() };
    job.all_know(COMMIT, 3);
    assert_eq!(job.record().1, [0, 0, 3, 3]);
    job.all_know(COMMIT, 0);
    assert_eq!(job.record().1, [0, 0, 1, 1]);
    lost.all_know(ABORT, 3);
    assert_eq!(lost.record().1, [0, 0, 3, 2]);
    lost.all_know(ABORT, 0);
    assert_eq!(lost.record().1, [0, 0, 2, 2]);
}

/// Without a table, by the common one.
#[test]
fn by_the_common_table() {
    let plan = hex("02ff 0100 0100 0100");
    let by_root = |root: u8| {
        let (mut marks, mut classes) = ([0; 4], [0; 4]);
        assert_eq!(record(&plan, &state_of(&[root, 3, 4, 1]), &mut marks, &mut classes), 0);
        classes
    };
    assert_eq!(by_root(3), [0, 1, 2, 3]);
    assert_eq!(by_root(1), [0, 3, 2, 3]);
    assert_eq!(by_root(2), [0, 3, 2, 3]);
    assert_eq!(by_root(0), [0, 3, 2, 3]);
    assert_eq!(by_root(4), [0, 2, 2, 3]);
    assert_eq!(by_root(5), [0, 2, 2, 3]);
}
