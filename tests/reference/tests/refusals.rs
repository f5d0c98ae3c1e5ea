//! Every refusal number of every function, the order among them, and that a
//! refused call leaves what it was lent.

mod common;

use common::*;
use reference::exported::*;

/// Numbers that are no code and, in a small plan, no node.
const STRANGE: [u32; 8] = [9, 10, 128, 255, 256, 257, 1 << 31, u32::MAX];

/// A plan for each of 1 to 6.
fn refused_plans() -> Vec<(u32, Vec<u8>)> {
    let mut plans = vec![
        (1, vec![]),
        (1, hex("02")),
        (1, hex("02ff01")),
        (1, plan_of(161)),
        (1, plan_of(170)),
        (2, hex("00ff")),
        (2, hex("09ff")),
        (2, hex("02ff ff00")),
        (3, hex("0100")),
        (3, hex("0101")),
        (3, hex("02ff 0101")),
        (3, hex("02ff 0102 0100")),
        (3, hex("02ff 01ff")),
        (4, hex("01ff 0100")),
        (4, hex("02ff 0100 0101")),
        (5, hex("02ff")),
        (5, hex("07ff 0100")),
        (5, hex("07ff 0100 0100 0100")),
        (5, hex("03ff 0200")),
        (5, hex("08ff")),
        (5, [hex("08ff"), serial_of(33)[2..].to_vec()].concat()),
        (5, serial_of(33)),
        (6, chain(33)),
        (6, chain(160)),
    ];
    plans.push((1, [plan_of(160), vec![1]].concat()));
    plans
}

/// Lower numbers win, over the whole plan: the later fault stands first.
#[test]
fn order_among_plan_refusals() {
    assert_eq!(check(&hex("0001 09ff 01")), 1);
    assert_eq!(check(&hex("0200 0000")), 2, "kind of the last before the root's parent");
    assert_eq!(check(&hex("01ff 0100 0105")), 3, "parent of the last before a task as parent");
    assert_eq!(check(&hex("02ff 0200 0100 0102")), 4, "a task as parent before an empty block");
    assert_eq!(check(&[chain(33), hex("0300")].concat()), 5, "an empty block before depth");
    assert_eq!(check(&[serial_of(32), hex("0200 0121")].concat()), 5);
    assert_eq!(check(&[plan_of(160), hex("0900")].concat()), 1);
}

#[test]
fn plan_refusals_come_first_everywhere() {
    for (expected, plan) in refused_plans() {
        assert_eq!(check(&plan), expected);
        let nodes = plan.len() / 2;
        for length in [nodes, 0, nodes + 1, nodes * nodes] {
            for (code, node) in [(1, 0), (0, 0), (9, 300), (2, 0)] {
                let mut lent = vec![LEFT; length];
                let mut other = vec![LEFT; length];
                assert_eq!(rewrite(&plan, &mut lent), expected);
                assert_eq!(guard(&plan, code, node, &mut lent), expected);
                assert_eq!(rule(&plan, code, node), expected);
                assert_eq!(step(&plan, code, node, &mut lent), expected);
                assert_eq!(hear(&plan, code, node, &mut lent), expected);
                assert_eq!(simulate(&plan, code, node, HAPPENS, &mut lent), expected);
                assert_eq!(simulate(&plan, code, node, 0, &mut lent), expected);
                assert_eq!(simulate(&plan, code, node, 400, &mut lent), expected);
                assert_eq!(keep(&plan, code, node, 0, &mut lent, &mut [], &mut 1), expected);
                assert_eq!(undo(&plan, &mut lent, &[], &mut 0), expected);
                assert_eq!(point_undo(&plan, &mut lent, &[], &mut 0, &mut [], &mut []), expected);
                assert_eq!(point_back(&plan, &[], &mut lent, &[], &mut 0, &mut [], &mut []), expected);
                assert_eq!(pass(&plan, &[1], &mut lent), expected);
                assert_eq!(record(&plan, &[1], &mut lent, &mut other), expected);
                assert_eq!(record_by(&plan, &COMMON_TABLE, &[1], &mut lent, &mut other), expected);
                assert_eq!(record_by(&plan, &[1], &[1], &mut lent, &mut other), 21, "the table first");
                assert_eq!(pass_record(&plan, &COMMON_TABLE, &[1], &mut lent, &mut other), expected);
                assert_eq!(pass_record(&plan, &[], &[1], &mut lent, &mut other), 21);
                assert_eq!(central(&plan, code, node, &mut lent, &mut other), expected);
                assert!(lent.iter().chain(&other).all(|&byte| byte == LEFT));
            }
        }
    }
}

#[test]
fn guard_tries_8_and_9_before_7() {
    let plan = hex(P);
    let mut none = [];
    for number in [&[0][..], &STRANGE].concat() {
        assert_eq!(guard(&plan, number, 0, &mut none), 8);
    }
    for number in STRANGE {
        assert_eq!(guard(&plan, START, number, &mut none), 8);
    }
    assert_eq!(guard(&plan, YES, 6, &mut none), 8);
    assert_eq!(guard(&plan, OFFER, 1, &mut none), 9);
    assert_eq!(guard(&plan, START, 0, &mut none), 7);
    let mut short = [LEFT; 19];
    assert_eq!(guard(&plan, COMMIT, 2, &mut short), 7);
    assert_eq!(short, [LEFT; 19]);
    assert_eq!(guard(&plan, COMMIT, 2, &mut [LEFT; 20]), 20 << 16 | 0x53 << 8);
}

#[test]
fn row_length_comes_before_8_and_9() {
    let plan = hex(P);
    for length in [0, 5, 7, 12, 36] {
        for (code, node) in [(START, 0), (0, 0), (START, 6), (OFFER, 0)] {
            let mut row = vec![LEFT; length];
            assert_eq!(step(&plan, code, node, &mut row), 7);
            assert_eq!(hear(&plan, code, node, &mut row), 7);
            assert!(row.iter().all(|&byte| byte == LEFT));
        }
    }
}

#[test]
fn strange_numbers_are_8_and_nothing_is_cut() {
    let plan = hex(P);
    let lent = || ([LEFT; 6], [LEFT; 6], [LEFT; 36]);
    let (mut row, mut notes, mut state) = lent();
    for number in STRANGE {
        for (code, node) in [(number, 0), (START, number), (number, number), (0, 1)] {
            assert_eq!(rule(&plan, code, node), 8);
            assert_eq!(step(&plan, code, node, &mut row), 8);
            assert_eq!(hear(&plan, code, node, &mut row), 8);
            assert_eq!(central(&plan, code, node, &mut row, &mut notes), 8);
            assert_eq!(simulate(&plan, code, node, HAPPENS, &mut state), 8);
            assert_eq!(simulate(&plan, code, node, 1, &mut state), 8);
        }
        if number != HAPPENS {
            assert_eq!(simulate(&plan, START, 0, number, &mut state), 8);
            assert_eq!(simulate(&plan, OFFER, 0, number, &mut state), 8, "8 before 9");
        }
    }
    assert_eq!(simulate(&plan, START, 6, HAPPENS, &mut state), 8);
    assert_eq!(simulate(&plan, START, 0, 6, &mut state), 8);
    assert_eq!((row, notes, state), lent());
}

#[test]
fn events_that_do_not_apply_are_9() {
    let plan = hex("05ff 0700 0101 0101");
    let applies = |code, node| match code {
        OFFER | PICK | TURNED_DOWN => node == 1,
        YES | NO => node == 1,
        _ => true,
    };
    for (code, node) in (1..=8).flat_map(|code| (0..4).map(move |node| (code, node))) {
        let nine = |result| number(result) == 9;
        assert_eq!(nine(guard(&plan, code, node, &mut [0; 300])), !applies(code, node));
        assert_eq!(nine(rule(&plan, code, node)), !applies(code, node));
        assert_eq!(nine(step(&plan, code, node, &mut [0; 4])), !applies(code, node));
        assert_eq!(nine(hear(&plan, code, node, &mut [0; 4])), !applies(code, node));
        assert_eq!(nine(central(&plan, code, node, &mut [0; 4], &mut [0; 4])), !applies(code, node));
        assert_eq!(nine(simulate(&plan, code, node, HAPPENS, &mut [0; 16])), !applies(code, node));
        assert_eq!(nine(simulate(&plan, code, node, 2, &mut [0; 16])), !applies(code, node));
    }
}

/// Every bar: an event is refused with 10 for each bit that bars it, even
/// where its guard doesn't hold, and by no other bit of its node.
#[test]
fn bars() {
    let plan = hex("05ff 0700 0101 0101");
    let bar = |codes: &[u32]| codes.iter().fold(0u8, |bits, code| bits | 1 << (code - 1));
    let table = [
        (START, bar(&[START])),
        (OFFER, bar(&[OFFER, ABORT])),
        (COMMIT, bar(&[COMMIT, ABORT])),
        (ABORT, bar(&[OFFER, COMMIT, ABORT])),
        (YES, bar(&[YES, NO])),
        (NO, bar(&[YES, NO])),
        (TURNED_DOWN, bar(&[TURNED_DOWN])),
        (PICK, bar(&[PICK])),
    ];
    for (code, bars) in table {
        for byte in 0..=255u8 {
            let mut row = [0, byte, 0, 0];
            let result = step(&plan, code, 1, &mut row);
            assert_eq!(number(result) == 10, byte & bars != 0, "code {code} byte {byte:02x}");
            assert_eq!(row == [0, byte, 0, 0], number(result) != 0);
            assert_eq!(site(result), if code == PICK { 0 } else { 1 });
        }
    }
}

#[test]
fn a_pick_is_barred_by_the_pick_of_any_sibling() {
    let plan = hex("02ff 0500 0500 0101 0102 0101");
    let picked = 1 << (PICK - 1);
    let offered = 1 << (OFFER - 1);
    let mut row = [0, 0, 0, offered, 0, picked];
    assert_eq!(step(&plan, PICK, 3, &mut row), 10 | 1 << 8);
    let mut row = [picked, picked, picked, offered, picked, 0];
    assert_eq!(step(&plan, PICK, 3, &mut row), passed(1, 0x57), "others' picks don't count");
    assert_eq!(row[3], offered | picked);
}

#[test]
fn step_10_and_11_name_the_site_and_leave_the_row() {
    let plan = hex(P);
    let mut row = [0; 6];
    assert_eq!(step(&plan, START, 3, &mut row), 11 | 3 << 8);
    assert_eq!(step(&plan, PICK, 3, &mut row), 11 | 2 << 8);
    assert_eq!(row, [0; 6]);
    assert_eq!(hear(&plan, START, 2, &mut row), 0);
    assert_eq!(step(&plan, START, 3, &mut row), passed(3, 0x51));
    assert_eq!(row, [0, 0, 1, 1, 0, 0]);
    assert_eq!(step(&plan, START, 3, &mut row), 10 | 3 << 8);
    assert_eq!(row, [0, 0, 1, 1, 0, 0]);
}

#[test]
fn a_false_message_is_12() {
    let mut job = Simulation::new(P);
    assert_eq!(job.message(START, 0, 1), 12);
    assert_eq!(job.message(START, 0, 0), 12);
    assert_eq!(job.state, [0; 36]);
    assert_eq!(job.event(START, 0), passed(0, 0x01));
    assert_eq!(job.message(START, 0, 1), 0);
    let before = job.state.clone();
    assert_eq!(job.message(START, 0, 1), 0, "a repeat");
    assert_eq!(job.message(START, 0, 0), 0, "to its own site");
    assert_eq!(job.state, before);
}

/// What a site has only heard of is no proof: the event's own row decides.
#[test]
fn a_message_is_judged_by_the_events_own_row() {
    let plan = hex("05ff 0100 0100");
    let mut state = [0; 9];
    state[4] = 1 << (PICK - 1);
    assert_eq!(simulate(&plan, PICK, 1, 2, &mut state), 12, "a pick is at the parent's");
    state[1] = 1 << (PICK - 1);
    assert_eq!(simulate(&plan, PICK, 1, 2, &mut state), 0);
    assert_eq!(state[7], 1 << (PICK - 1));
}

#[test]
fn state_length_is_7() {
    let plan = hex(P);
    for length in [0, 6, 35, 37, 72] {
        let mut state = vec![LEFT; length];
        for (code, node, site) in [(1, 0, HAPPENS), (1, 0, 0), (0, 99, 99), (2, 0, 0)] {
            assert_eq!(simulate(&plan, code, node, site, &mut state), 7);
        }
        assert!(state.iter().all(|&byte| byte == LEFT));
        let (mut marks, mut classes) = ([LEFT; 6], [LEFT; 6]);
        assert_eq!(record(&plan, &state, &mut marks, &mut classes), 7);
        assert_eq!(record_by(&plan, &COMMON_TABLE, &state, &mut marks, &mut classes), 7);
        assert_eq!((marks, classes), ([LEFT; 6], [LEFT; 6]));
    }
}

#[test]
fn record_central_and_pass_lengths_are_7() {
    let plan = hex(P);
    for (first, second) in [(0, 6), (5, 6), (7, 6), (6, 0), (6, 5), (6, 7), (12, 12)] {
        let (mut one, mut two) = (vec![LEFT; first], vec![LEFT; second]);
        assert_eq!(record(&plan, &[0; 36], &mut one, &mut two), 7);
        assert_eq!(record_by(&plan, &COMMON_TABLE, &[0; 36], &mut one, &mut two), 7);
        assert_eq!(record_by(&plan, &[], &[0; 36], &mut one, &mut two), 21);
        assert_eq!(central(&plan, START, 0, &mut one, &mut two), 7);
        assert_eq!(central(&plan, 99, 99, &mut one, &mut two), 7, "7 before 8");
        assert_eq!(pass(&plan, &one, &mut two), 7);
        assert_eq!(pass_record(&plan, &COMMON_TABLE, &[1; 6], &mut one, &mut two), 7);
        assert_eq!(pass_record(&plan, &[], &[1; 6], &mut one, &mut two), 21);
        let answers = vec![1; first];
        let mut six = [LEFT; 6];
        let result = pass_record(&plan, &COMMON_TABLE, &answers, &mut six, &mut two);
        assert_eq!((result, six), (7, [LEFT; 6]), "7 before 13 and 14");
        assert!(one.iter().chain(&two).all(|&byte| byte == LEFT));
    }
}

#[test]
fn pass_faults() {
    let refusal = |plan: &str, answers: &[u8]| pass_marks(&hex(plan), answers);
    for answer in [0, 3, 255] {
        assert_eq!(refusal("01ff", &[answer]), Err(13));
        assert_eq!(refusal("07ff 0100 0100", &[answer, 1, 1]), Err(13));
    }
    for pick in [0, 3, 4, 33, 255] {
        assert_eq!(refusal("05ff 0100 0100", &[pick, 1, 1]), Err(14));
    }
    assert_eq!(refusal("05ff 0100 0100", &[1, 2, 1]), Err(14), "a child that failed");
    assert_eq!(refusal("05ff 0100 0100", &[1, 2, 2]), Err(14), "none offers, yet one is picked");
    assert_eq!(refusal("05ff 0100 0100", &[0, 2, 2]), Ok(vec![4, 4, 4]));
    assert_eq!(refusal("05ff 0100 0100", &[2, 1, 1]), Ok(vec![3, 5, 3]));
}

/// The record of the pass has the pass's faults, after all lengths.
#[test]
fn pass_record_faults() {
    let by = |plan: &str, table: &[u8], answers: &[u8]| record_of_pass(&hex(plan), table, answers);
    for answers in [[1, 1, 0], [9, 1, 1], [1, 2, 1], [0, 1, 2], [0, 2, 2]] {
        let plan = "05ff 0100 0100";
        let marks = by(plan, &COMMON_TABLE, &answers).map(|record| record.0);
        assert_eq!(marks, pass_marks(&hex(plan), &answers), "{answers:?}");
        assert_eq!(by(plan, &COMMON_TABLE[..11], &answers), Err(21));
    }
    assert_eq!(by("05ff 0100 0100", &COMMON_TABLE, &[1, 1, 0]), Err(13));
    assert_eq!(by("05ff 0100 0100", &COMMON_TABLE, &[9, 1, 1]), Err(14));
    assert_eq!(by("01ff", &COMMON_TABLE, &[]), Err(7));
    assert_eq!(by("01ff", &COMMON_TABLE, &[0, 0]), Err(7));
    assert_eq!(by("01ff", &[], &[]), Err(21), "no table is none, not the common one");
}

/// Answers are read only at nodes that are reached.
#[test]
fn pass_does_not_read_elsewhere() {
    assert_eq!(pass_marks(&hex("02ff 0100 0100"), &[9, 2, 9]), Ok(vec![4, 4, 0]));
    assert_eq!(pass_marks(&hex("06ff 0100 0100"), &[9, 1, 9]), Ok(vec![3, 3, 0]));
    assert_eq!(pass_marks(&hex("07ff 0100 0100"), &[1, 2, 9]), Ok(vec![4, 4, 0]));
    assert_eq!(pass_marks(&hex("07ff 0100 0100"), &[2, 9, 1]), Ok(vec![3, 0, 3]));
    assert_eq!(pass_marks(&hex("03ff 0100 0100"), &[9, 2, 1]), Ok(vec![4, 4, 3]));
    assert_eq!(pass_marks(&hex("04ff 0100 0100"), &[9, 2, 1]), Ok(vec![3, 4, 3]));
    assert_eq!(pass_marks(&hex("04ff 0100 0100"), &[9, 2, 2]), Ok(vec![4, 4, 4]));
    assert_eq!(pass_marks(&hex("06ff 0100 0100"), &[9, 2, 2]), Ok(vec![4, 4, 4]));
}

/// The second form of the check: the same numbers, then 7; depths on 0 only.
#[test]
fn depths_come_with_the_check() {
    let mut depths = [LEFT; 6];
    assert_eq!(check_depths(&hex(P), &mut depths), 0);
    assert_eq!(depths, [1, 2, 2, 3, 3, 2]);
    for (number, plan) in refused_plans() {
        for length in [0, plan.len() / 2, plan.len()] {
            let mut depths = vec![LEFT; length];
            assert_eq!(check_depths(&plan, &mut depths), number);
            assert!(depths.iter().all(|&depth| depth == LEFT));
        }
    }
    for length in [0, 5, 7, 12] {
        let mut depths = vec![LEFT; length];
        assert_eq!(check_depths(&hex(P), &mut depths), 7);
        assert!(depths.iter().all(|&depth| depth == LEFT));
    }
    let mut depths = [LEFT; 32];
    assert_eq!(check_depths(&chain(32), &mut depths), 0);
    assert!((1..).zip(depths).all(|(depth, written)| depth == written));
}
