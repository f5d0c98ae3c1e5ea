//! The and that fails early (03), the one that waits (08), and plans from
//! before there were two.

mod common;

use common::*;
use reference::exported::{check, guard, number, rewrite};

fn rewritten(plan: &[u8]) -> Vec<u8> {
    let mut out = vec![0xee; plan.len()];
    assert_eq!(rewrite(plan, &mut out), 0);
    out
}

/// The abort guard that kind 03 had: each child ended, and one of them failed.
fn old_abort_of_an_and(plan: &[u8], node: usize) -> Vec<u8> {
    let is_child = |&child: &usize| child > 0 && usize::from(plan[2 * child + 1]) == node;
    let children: Vec<u8> = (0..plan.len() / 2).filter(is_child).map(|child| child as u8).collect();
    let mut bytes = vec![children.len() as u8 + 1];
    children.iter().for_each(|&child| bytes.extend([2, 3, child, 4, child]));
    bytes.push(children.len() as u8);
    children.iter().for_each(|&child| bytes.extend([4, child]));
    bytes
}

/// A rewritten plan has the guards that the plan had when it was made: only
/// the abort of an and is written otherwise today.
fn has_its_old_guards(plan: &[u8]) {
    let after = rewritten(plan);
    for (code, node) in (1..=8).flat_map(|code| (0..plan.len() / 2).map(move |node| (code, node))) {
        let what = format!("plan {plan:02x?} code {code} node {node}");
        let today = guard(plan, code, node as u32, &mut [0; 300]);
        if number(today) != 0 {
            assert_eq!(guard(&after, code, node as u32, &mut [0; 300]), today, "{what}");
        } else if code == ABORT && plan[2 * node] == 3 {
            assert_eq!(guard_bytes(&after, code, node as u32), old_abort_of_an_and(plan, node), "{what}");
        } else {
            assert_eq!(
                guard_bytes(&after, code, node as u32),
                guard_bytes(plan, code, node as u32),
                "{what}"
            );
        }
    }
}

#[test]
fn the_guards_of_a_rewritten_plan_are_the_old_ones() {
    let old = (1..=4).flat_map(plans).filter(|plan| !plan.iter().step_by(2).any(|&kind| kind == 8));
    let mut count = 0;
    for plan in old {
        has_its_old_guards(&plan);
        count += 1;
    }
    assert!(count > 200, "{count}");
    has_its_old_guards(&plan_of(160));
    has_its_old_guards(&[hex("03ff"), serial_of(32)[2..].to_vec()].concat());
    assert_eq!(old_abort_of_an_and(&hex("03ff 0100 0100"), 0), hex("03020301040102030204020204010402"));
}

/// Parents that happen to be 03 stay, and so does every other kind.
#[test]
fn a_rewrite_changes_03_to_08_and_nothing_else() {
    let plan = hex("02ff 0300 0400 0301 0101 0103 0803 0106 0602 0108 0500 010a 0700 010c 010c");
    let after = hex("02ff 0800 0400 0801 0101 0103 0803 0106 0602 0108 0500 010a 0700 010c 010c");
    assert_eq!(check(&plan), 0);
    assert_eq!(rewritten(&plan), after);
    assert_eq!(rewritten(&after), after, "a second time changes nothing");
    for plan in (1..=4).flat_map(plans) {
        let after = rewritten(&plan);
        for (place, (&before, &after)) in plan.iter().zip(&after).enumerate() {
            let is_and = place % 2 == 0 && before == 3;
            assert_eq!(after, if is_and { 8 } else { before }, "plan {plan:02x?} place {place}");
        }
    }
}

#[test]
fn a_refused_rewrite_leaves_its_bytes() {
    let plan = hex("03ff 0100 0100");
    for length in [0, 1, 3, 5, 7, 12, 320] {
        let mut out = vec![0xa5; length];
        assert_eq!(rewrite(&plan, &mut out), 7);
        assert_eq!(out, vec![0xa5; length]);
    }
    let mut out = [0xa5; 2];
    assert_eq!(rewrite(&hex("03ff"), &mut out), 5, "the plan is checked first");
    assert_eq!(rewrite(&hex("03ff"), &mut []), 5);
    assert_eq!(rewrite(&hex("09ff"), &mut out), 2);
    assert_eq!(out, [0xa5; 2]);
}

#[test]
fn kind_08_is_a_kind_and_09_is_none() {
    assert_eq!(check(&hex("08ff 0100")), 0);
    assert_eq!(check(&hex("09ff 0100")), 2);
    assert_eq!(check(&hex("08ff")), 5);
    assert_eq!(check(&[hex("08ff"), serial_of(32)[2..].to_vec()].concat()), 0);
    assert_eq!(check(&[hex("08ff"), serial_of(33)[2..].to_vec()].concat()), 5);
}

/// The root fails while one child runs and another hasn't begun; both still
/// start and end, and the record is the pass's.
#[test]
fn children_of_a_failed_and_go_on() {
    let mut job = Simulation::new("03ff 0100 0100 0200 0103");
    for (code, node) in [(START, 0), (START, 1), (START, 2), (ABORT, 1), (ABORT, 0)] {
        job.all_know(code, node);
    }
    assert_eq!(job.marks(), [4, 4, 1, 0, 0]);
    assert_eq!(number(job.event(COMMIT, 0)), 10);
    for (code, node) in [(COMMIT, 2), (START, 3), (START, 4), (COMMIT, 4), (COMMIT, 3)] {
        job.all_know(code, node);
    }
    assert_eq!(job.marks(), [4, 4, 3, 3, 3]);
    assert_eq!(pass_marks(&job.plan, &[0, 2, 1, 0, 1]), Ok(job.marks()));
}

#[test]
fn a_waiting_and_waits() {
    let mut job = Simulation::new("08ff 0100 0100");
    for (code, node) in [(START, 0), (START, 1), (START, 2), (ABORT, 1)] {
        job.all_know(code, node);
    }
    assert_eq!(number(job.event(ABORT, 0)), 11);
    job.all_know(COMMIT, 2);
    job.all_know(ABORT, 0);
    assert_eq!(job.marks(), [4, 4, 3]);
}

/// The pass comes to the same for both, whatever the answers are.
#[test]
fn the_pass_treats_both_alike() {
    for plan in (1..=4).flat_map(plans) {
        let after = rewritten(&plan);
        for answers in answer_lists(plan.len() / 2) {
            assert_eq!(pass_marks(&plan, &answers), pass_marks(&after, &answers), "{plan:02x?} {answers:?}");
        }
    }
}

/// Every list of 0 to 3 for so many nodes.
fn answer_lists(nodes: usize) -> impl Iterator<Item = Vec<u8>> {
    (0..4usize.pow(nodes as u32))
        .map(move |list| (0..nodes).map(|node| (list >> (2 * node) & 3) as u8).collect())
}
