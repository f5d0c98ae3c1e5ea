//! Where the document leaves room: the readings agreed on, one test each.

mod common;

use common::*;
use reference::exported::{central, guard, hear, number, site, step, value};

fn bit(code: u32) -> u8 {
    1 << (code - 1)
}

/// Whether the central rule allows it on these marks and notes.
fn allows(plan: &str, code: u32, node: u32, marks: &[u8], notes: &[u8]) -> bool {
    let (mut after_marks, mut after_notes) = (marks.to_vec(), notes.to_vec());
    let result = central(&hex(plan), code, node, &mut after_marks, &mut after_notes);
    assert_eq!(number(result), 0);
    assert_eq!(site(result), 0);
    let allowed = value(result) == 1;
    assert_eq!(allowed, (after_marks, after_notes) != (marks.to_vec(), notes.to_vec()));
    allowed
}

#[test]
fn r1_order_of_lengths_and_numbers() {
    let plan = hex("05ff 0100");
    assert_eq!(guard(&plan, 9, 0, &mut []), 8);
    assert_eq!(guard(&plan, YES, 1, &mut []), 9);
    assert_eq!(step(&plan, 9, 0, &mut []), 7);
    assert_eq!(hear(&plan, YES, 1, &mut []), 7);
    let mut job = Simulation::new("05ff 0100");
    assert_eq!(job.message(YES, 1, 2), 8);
    assert_eq!(job.message(YES, 0xff, 1), 8);
    assert_eq!(job.message(YES, 1, 1), 9);
    assert_eq!(job.message(START, 1, 1), 12);
}

#[test]
fn r2_pick_of_the_root_is_9_and_the_row_is_believed() {
    let plan = hex("05ff 0100");
    assert_eq!(step(&plan, PICK, 0, &mut [0, 0]), 9);
    let mut any_row = [0, bit(OFFER)];
    assert_eq!(step(&plan, PICK, 1, &mut any_row), passed(0, 0x57));
    assert_eq!(any_row, [0, bit(OFFER) | bit(PICK)]);
}

#[test]
fn r3_bars_go_by_the_letter() {
    let plan = hex("01ff");
    assert_eq!(step(&plan, ABORT, 0, &mut [bit(START)]), passed(0, 0x14));
    assert_eq!(step(&plan, ABORT, 0, &mut [bit(START) | bit(OFFER)]), 10);
    assert_eq!(step(&plan, COMMIT, 0, &mut [bit(START) | bit(OFFER)]), passed(0, 0x13));
}

#[test]
fn r4_after_being_turned_down() {
    let mut job = Simulation::new("05ff 0100 0100");
    for (code, node) in
        [(START, 0), (START, 1), (START, 2), (OFFER, 1), (OFFER, 2), (PICK, 1), (TURNED_DOWN, 2)]
    {
        job.all_know(code, node);
    }
    assert_eq!(job.event(COMMIT, 2), 11 | 2 << 8);
    assert_eq!(job.event(ABORT, 2), 10 | 2 << 8);
    assert_eq!(job.event(TURNED_DOWN, 1), 11 | 1 << 8, "the picked one has no picked sibling");
    assert_eq!(job.event(ABORT, 1), 10 | 1 << 8, "it has offered");
    job.all_know(COMMIT, 1);
    assert_eq!(job.event(PICK, 2), 10, "barred although its guard holds");
    job.all_know(COMMIT, 0);
}

#[test]
fn r5_a_late_offer_is_turned_down_too() {
    let mut job = Simulation::new("05ff 0100 0100");
    for (code, node) in [(START, 0), (START, 1), (START, 2), (OFFER, 1), (PICK, 1), (COMMIT, 1)] {
        job.all_know(code, node);
    }
    assert_eq!(number(job.event(TURNED_DOWN, 2)), 11);
    for (code, node) in [(OFFER, 2), (TURNED_DOWN, 2), (COMMIT, 0)] {
        job.all_know(code, node);
    }
    assert_eq!(job.record(), (vec![3, 3, 5], vec![0, 1, 2]));
    let plan = "07ff 0100 0100";
    let answered = |code| [bit(code), 0, 0];
    assert!(allows(plan, START, 1, &[1, 0, 0], &answered(YES)));
    assert!(!allows(plan, START, 2, &[1, 0, 0], &answered(YES)));
    assert!(!allows(plan, START, 1, &[1, 0, 0], &answered(NO)));
    assert!(allows(plan, START, 2, &[1, 0, 0], &answered(NO)));
}

#[test]
fn r6_first_fault_in_settling_order() {
    let plan = hex("03ff 0500 0100 0101");
    assert_eq!(pass_marks(&plan, &[0, 9, 0, 1]), Err(14));
    assert_eq!(pass_marks(&plan, &[0, 9, 0, 0]), Err(13), "an xor's own fault comes after its children's");
    assert_eq!(pass_marks(&plan, &[0, 1, 0, 1]), Err(13));
    assert_eq!(pass_marks(&plan, &[0, 1, 2, 1]), Ok(vec![4, 3, 4, 3]));
    let conditional = hex("07ff 0500 0100 0101");
    assert_eq!(pass_marks(&conditional, &[0, 9, 1, 1]), Err(13), "its own before its branch");
    assert_eq!(pass_marks(&conditional, &[1, 9, 1, 1]), Err(14));
    assert_eq!(pass_marks(&conditional, &[1, 0, 1, 2]), Ok(vec![4, 4, 0, 4]));
    assert_eq!(pass_marks(&conditional, &[1, 1, 1, 2]), Err(14), "nothing offers");
}

/// Inner marks of a block that loses stay; only its own becomes 5.
#[test]
fn r6_inside_a_block_that_is_turned_down() {
    let plan = hex("05ff 0200 0100 0101 0101");
    assert_eq!(pass_marks(&plan, &[2, 0, 1, 1, 1]), Ok(vec![3, 5, 3, 3, 3]));
    assert_eq!(pass_marks(&plan, &[1, 0, 1, 1, 1]), Ok(vec![3, 3, 5, 3, 3]));
    assert_eq!(pass_marks(&plan, &[2, 0, 1, 1, 2]), Ok(vec![3, 4, 3, 3, 4]));
}

#[test]
fn r7_free_bytes_have_any_value() {
    let plan = hex("02ff 0600 0500 0101 0101 0102");
    for free in 0..=255 {
        assert_eq!(pass_marks(&plan, &[free, free, 1, 1, free, 1]), Ok(vec![3, 3, 3, 3, 0, 3]));
        assert_eq!(pass_marks(&plan, &[free, free, free, 2, 2, free]), Ok(vec![4, 4, 0, 4, 4, 0]));
    }
}

#[test]
fn r8_task_with_children_block_without() {
    assert_eq!(reference::exported::check(&hex("01ff 0100")), 4);
    assert_eq!(reference::exported::check(&hex("02ff")), 5);
}

#[test]
fn r10_numbers_are_not_cut() {
    let plan = hex("01ff");
    let mut row = [0];
    assert_eq!(step(&plan, 257, 0, &mut row), 8);
    assert_eq!(step(&plan, 1, 256, &mut row), 8);
    assert_eq!(Simulation::new("01ff").message(1, 0, 256), 8);
    assert_eq!(Simulation::new("01ff").message(1, 0, 0x1ff), 8);
    assert_eq!(step(&plan, 1, 0, &mut row), passed(0, 0x01));
}

#[test]
fn r11_hear_believes_its_caller() {
    let plan = hex(P);
    let mut row = [0; 6];
    for _ in 0..2 {
        assert_eq!(hear(&plan, COMMIT, 1, &mut row), 0);
        assert_eq!(row, [0, bit(COMMIT), 0, 0, 0, 0]);
    }
    assert_eq!(hear(&plan, TURNED_DOWN, 4, &mut row), 0);
    assert_eq!(row, [0, bit(COMMIT), 0, 0, bit(TURNED_DOWN), 0]);
}

#[test]
fn central_marks_above_5_count_as_5() {
    let plan = "05ff 0100 0100";
    for high in 5..=255 {
        assert!(allows(plan, COMMIT, 0, &[1, 3, high], &[0, 0, 0]));
        assert!(allows(plan, START, 1, &[high, 0, 0], &[0, 0, 0]), "the parent is started");
        assert!(!allows(plan, START, 1, &[1, high, 0], &[0, 0, 0]));
        assert!(!allows(plan, COMMIT, 0, &[1, high, high], &[0, 0, 0]));
        assert!(!allows(plan, ABORT, 0, &[1, high, 4], &[0, 0, 0]));
    }
}

#[test]
fn central_takes_both_answers_as_yes() {
    let plan = "07ff 0100 0100";
    let both = [bit(YES) | bit(NO), 0, 0];
    assert!(allows(plan, START, 1, &[1, 0, 0], &both));
    assert!(!allows(plan, START, 2, &[1, 0, 0], &both));
    assert!(allows(plan, COMMIT, 0, &[1, 3, 0], &both));
    assert!(!allows(plan, COMMIT, 0, &[1, 0, 3], &both));
    assert!(allows(plan, ABORT, 0, &[1, 4, 3], &both));
    assert!(!allows(plan, YES, 0, &[1, 0, 0], &both));
}

/// Each kind's ends by its children's marks.
#[test]
fn central_ends_of_each_kind() {
    let ends = |kind: &str, marks: [u8; 2]| {
        let plan = format!("{kind}ff 0100 0100");
        let marks = [1, marks[0], marks[1]];
        (allows(&plan, COMMIT, 0, &marks, &[0; 3]), allows(&plan, ABORT, 0, &marks, &[0; 3]))
    };
    let (finish, fail, neither) = ((true, false), (false, true), (false, false));
    assert_eq!(ends("02", [3, 3]), finish);
    assert_eq!(ends("02", [3, 1]), neither);
    assert_eq!(ends("02", [3, 4]), fail);
    assert_eq!(ends("02", [4, 0]), fail);
    assert_eq!(ends("03", [3, 3]), finish);
    assert_eq!(ends("03", [3, 1]), neither);
    assert_eq!(ends("03", [4, 1]), fail, "one that failed is enough");
    assert_eq!(ends("03", [0, 4]), fail);
    assert_eq!(ends("03", [4, 3]), fail);
    assert_eq!(ends("03", [4, 4]), fail);
    assert_eq!(ends("08", [3, 3]), finish);
    assert_eq!(ends("08", [4, 1]), neither, "it waits for the running one");
    assert_eq!(ends("08", [0, 4]), neither);
    assert_eq!(ends("08", [4, 3]), fail);
    assert_eq!(ends("08", [4, 4]), fail);
    assert_eq!(ends("04", [3, 1]), neither);
    assert_eq!(ends("04", [3, 4]), finish);
    assert_eq!(ends("04", [4, 4]), fail);
    assert_eq!(ends("05", [3, 2]), neither);
    assert_eq!(ends("05", [3, 5]), finish);
    assert_eq!(ends("05", [4, 3]), finish);
    assert_eq!(ends("05", [4, 4]), fail);
    assert_eq!(ends("05", [5, 4]), neither);
    assert_eq!(ends("06", [4, 3]), finish);
    assert_eq!(ends("06", [3, 0]), finish);
    assert_eq!(ends("06", [4, 0]), neither);
    assert_eq!(ends("06", [4, 4]), fail);
    assert_eq!(ends("07", [3, 0]), neither, "nothing is answered");
}

/// The central rule below an xor: offer, pick, then commit or turned down.
#[test]
fn central_below_an_xor() {
    let plan = "05ff 0100 0100";
    let picked = [0, bit(PICK), 0];
    assert!(allows(plan, OFFER, 1, &[1, 1, 0], &[0; 3]));
    assert!(!allows(plan, COMMIT, 1, &[1, 1, 0], &[0; 3]));
    assert!(!allows(plan, ABORT, 1, &[1, 2, 0], &[0; 3]), "no failing after an offer");
    assert!(!allows(plan, OFFER, 1, &[1, 2, 0], &[0; 3]));
    assert!(allows(plan, PICK, 1, &[1, 2, 0], &[0; 3]));
    assert!(!allows(plan, PICK, 2, &[1, 2, 2], &picked));
    assert!(!allows(plan, PICK, 1, &[1, 2, 2], &picked));
    assert!(allows(plan, COMMIT, 1, &[1, 2, 2], &picked));
    assert!(!allows(plan, COMMIT, 2, &[1, 2, 2], &picked));
    assert!(allows(plan, TURNED_DOWN, 2, &[1, 2, 2], &picked));
    assert!(!allows(plan, TURNED_DOWN, 1, &[1, 2, 2], &picked));
    assert!(!allows(plan, TURNED_DOWN, 2, &[1, 2, 1], &picked));
}
