//! The cases the document gives: P1 to P10 and the limits.

mod common;

use common::*;
use reference::exported::{check, guard, number, simulate, version};

fn written(code: u32, node: u32) -> Vec<u8> {
    guard_bytes(&hex(P), code, node)
}

#[test]
fn p1_start_of_the_root_needs_nothing() {
    assert_eq!(written(START, 0), hex("00"));
}

#[test]
fn p2_start_after_the_sibling_before() {
    assert_eq!(written(START, 2), hex("01010301"));
}

#[test]
fn p3_commit_of_an_xor() {
    assert_eq!(written(COMMIT, 2), hex("0303030304030803030304040408040203030304"));
}

#[test]
fn p4_abort_of_an_xor() {
    assert_eq!(written(ABORT, 2), hex("02010403010404"));
}

#[test]
fn p5_turned_down() {
    assert_eq!(written(TURNED_DOWN, 3), hex("02010203010704"));
}

#[test]
fn p6_commit_below_an_xor_is_by_its_pick() {
    assert_eq!(written(COMMIT, 3), hex("01010703"));
}

#[test]
fn p7_abort_of_a_serial() {
    assert_eq!(written(ABORT, 0), hex("0103040104020405"));
}

#[test]
fn p8_offer_of_a_task() {
    assert_eq!(written(OFFER, 3), hex("01010103"));
}

#[test]
fn p9_pass_with_everything_working() {
    assert_eq!(pass_marks(&hex(P), &[0, 1, 1, 1, 1, 1]), Ok(vec![3, 3, 3, 3, 5, 3]));
}

#[test]
fn p10_pass_with_the_first_task_failing() {
    assert_eq!(pass_marks(&hex(P), &[0, 2, 1, 1, 1, 1]), Ok(vec![4, 4, 0, 0, 0, 0]));
}

#[test]
fn p9_with_pick_0_is_14() {
    assert_eq!(pass_marks(&hex(P), &[0, 1, 0, 1, 1, 1]), Err(14));
}

#[test]
fn the_version_is_1_9_0() {
    assert_eq!(version(), 67_840);
}

#[test]
fn nodes_160_pass_161_do_not() {
    assert_eq!(plan_of(160).len(), 320);
    assert_eq!(check(&plan_of(160)), 0);
    assert_eq!(check(&plan_of(161)), 1);
}

#[test]
fn children_32_pass_33_do_not() {
    assert_eq!(check(&serial_of(32)), 0);
    assert_eq!(check(&serial_of(33)), 5);
}

#[test]
fn depth_32_passes_33_does_not() {
    assert_eq!(check(&chain(32)), 0);
    assert_eq!(check(&chain(33)), 6);
}

#[test]
fn an_only_child_of_an_xor_is_never_turned_down() {
    assert_eq!(guard_bytes(&hex("05ff 0100"), TURNED_DOWN, 1), hex("0201020100"));
    assert_eq!(guard_bytes(&hex("02ff 0100 0500 0102"), TURNED_DOWN, 3), hex("0201020300"));
    let mut job = Simulation::new("05ff 0100");
    for (code, node) in [(START, 0), (START, 1), (OFFER, 1), (PICK, 1), (COMMIT, 1), (COMMIT, 0)] {
        assert_eq!(number(job.event(TURNED_DOWN, 1)), 11);
        job.all_know(code, node);
    }
    assert_eq!(number(job.event(TURNED_DOWN, 1)), 11);
    assert_eq!(job.marks(), [3, 3]);
}

#[test]
fn the_longest_guard_has_290_bytes() {
    let mut plan = serial_of(32);
    plan[0] = 5;
    assert_eq!(guard_bytes(&plan, COMMIT, 0).len(), 290);
    let mut buffer = [0xee; 289];
    assert_eq!(guard(&plan, COMMIT, 0, &mut buffer), 7);
    assert_eq!(buffer, [0xee; 289]);
}

/// Every other guard, one plan a kind.
#[test]
fn guards_of_each_kind() {
    let block = |kind: &str| hex(&format!("{kind}ff 0100 0100"));
    let table = [
        ("02", START, 1, "01010100"),
        ("02", START, 2, "01010301"),
        ("02", COMMIT, 0, "01010302"),
        ("02", ABORT, 0, "010204010402"),
        ("03", START, 2, "01010100"),
        ("03", COMMIT, 0, "02010301010302"),
        ("03", ABORT, 0, "010204010402"),
        ("04", START, 2, "01010100"),
        ("04", COMMIT, 0, "0302030104010203020402 0203010302"),
        ("04", ABORT, 0, "02010401010402"),
        ("05", START, 2, "01010100"),
        ("05", ABORT, 0, "02010401010402"),
        ("05", PICK, 2, "01010202"),
        ("05", ABORT, 2, "01010102"),
        ("06", START, 1, "01010100"),
        ("06", START, 2, "01010401"),
        ("06", COMMIT, 0, "010203010302"),
        ("06", ABORT, 0, "01010402"),
        ("07", START, 1, "01010500"),
        ("07", START, 2, "01010600"),
        ("07", YES, 0, "01010100"),
        ("07", NO, 0, "01010100"),
        ("07", COMMIT, 0, "010203010302"),
        ("07", ABORT, 0, "010204010402"),
        ("08", START, 2, "01010100"),
        ("08", COMMIT, 0, "02010301010302"),
        ("08", ABORT, 0, "030203010401020302040202 04010402"),
    ];
    for (kind, code, node, bytes) in table {
        assert_eq!(guard_bytes(&block(kind), code, node), hex(bytes), "kind {kind} code {code} node {node}");
    }
}

/// Children of one block need not stand together.
#[test]
fn children_may_be_scattered() {
    let plan = hex("03ff 0200 0200 0101 0102 0101 0102");
    assert_eq!(guard_bytes(&plan, START, 5), hex("01010303"));
    assert_eq!(guard_bytes(&plan, START, 6), hex("01010304"));
    assert_eq!(guard_bytes(&plan, COMMIT, 1), hex("01010305"));
    assert_eq!(guard_bytes(&plan, COMMIT, 2), hex("01010306"));
}

/// A job of plan P from beginning to end, and the pass for it.
#[test]
fn a_job_of_plan_p() {
    let mut job = Simulation::new(P);
    let events = [
        (START, 0),
        (START, 1),
        (COMMIT, 1),
        (START, 2),
        (START, 4),
        (START, 3),
        (OFFER, 4),
        (OFFER, 3),
        (PICK, 3),
        (TURNED_DOWN, 4),
        (COMMIT, 3),
        (COMMIT, 2),
        (START, 5),
        (COMMIT, 5),
        (COMMIT, 0),
    ];
    for (code, node) in events {
        job.all_know(code, node);
    }
    for (code, node) in (1..=8).flat_map(|code| (0..6).map(move |node| (code, node))) {
        let refused = number(simulate(&job.plan.clone(), code, node, HAPPENS, &mut job.state));
        assert!([9, 10, 11].contains(&refused), "over: code {code} node {node} gives {refused}");
    }
    assert_eq!(job.record(), (vec![3, 3, 3, 3, 5, 3], vec![0, 1, 0, 1, 2, 1]));
    assert_eq!(pass_marks(&job.plan, &[9, 1, 1, 1, 1, 1]), Ok(job.marks()));
}
