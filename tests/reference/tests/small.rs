//! All small plans: the first ones, the ends of each size and the last one by hand, the
//! order of refusals, and the whole walk against every plan that the check accepts.

mod common;

use common::*;
use reference::exported::{check, next_plan};
use std::collections::HashSet;

/// The bytes of the largest small plan.
const MOST: usize = 10;

/// The last small plan.
const LAST: &str = "08ff 0800 0801 0802 0103";

/// The next plan, over other bytes, which stay behind it; or the refusal, which leaves
/// all.
fn next(plan: &[u8]) -> Result<Vec<u8>, u32> {
    into_bytes(plan, MOST)
}

/// The same into so many bytes.
fn into_bytes(plan: &[u8], length: usize) -> Result<Vec<u8>, u32> {
    let mut out = vec![LEFT; length];
    let result = next_plan(plan, &mut out);
    front(result, &out)
}

/// Each plan is followed by the one behind it.
fn follow_one_another(plans: &[&str]) {
    for pair in plans.windows(2) {
        assert_eq!(next(&hex(pair[0])), Ok(hex(pair[1])), "after {}", pair[0]);
    }
}

/// All plans from the single task on, until one has no next.
fn walk() -> Vec<Vec<u8>> {
    let mut all = vec![hex("01ff")];
    loop {
        match next(&all[all.len() - 1]) {
            Ok(plan) => all.push(plan),
            Err(refused) => {
                assert_eq!(refused, 26);
                return all;
            }
        }
        assert!(all.len() < 10_000, "it ends");
    }
}

#[test]
fn all_of_one_and_two_nodes() {
    follow_one_another(&[
        "01ff",
        "02ff 0100",
        "03ff 0100",
        "04ff 0100",
        "05ff 0100",
        "06ff 0100",
        "08ff 0100",
        "02ff 0100 0100",
    ]);
}

#[test]
fn some_of_three_nodes() {
    follow_one_another(&[
        "02ff 0100 0100",
        "02ff 0200 0101",
        "02ff 0300 0101",
        "02ff 0400 0101",
        "02ff 0500 0101",
        "02ff 0600 0101",
        "02ff 0800 0101",
        "03ff 0100 0100",
        "03ff 0200 0101",
    ]);
    // a conditional has two tasks here, and nothing else
    follow_one_another(&["06ff 0600 0101", "06ff 0800 0101", "07ff 0100 0100", "08ff 0100 0100"]);
    follow_one_another(&["08ff 0600 0101", "08ff 0800 0101", "02ff 0100 0100 0100"]);
}

#[test]
fn some_of_four_nodes() {
    follow_one_another(&[
        "02ff 0100 0100 0100",
        "02ff 0100 0200 0102",
        "02ff 0100 0300 0102",
        "02ff 0100 0400 0102",
        "02ff 0100 0500 0102",
        "02ff 0100 0600 0102",
        "02ff 0100 0800 0102",
        "02ff 0200 0100 0101",
        "02ff 0200 0101 0100",
        "02ff 0200 0101 0101",
        "02ff 0200 0201 0102",
    ]);
    follow_one_another(&["02ff 0600 0801 0102", "02ff 0700 0101 0101", "02ff 0800 0100 0101"]);
    follow_one_another(&[
        "06ff 0800 0801 0102",
        "07ff 0100 0200 0102",
        "07ff 0100 0300 0102",
        "07ff 0100 0400 0102",
        "07ff 0100 0500 0102",
        "07ff 0100 0600 0102",
        "07ff 0100 0800 0102",
        "07ff 0200 0100 0101",
        "07ff 0200 0101 0100",
        "07ff 0300 0100 0101",
    ]);
    follow_one_another(&["08ff 0800 0601 0102", "08ff 0800 0801 0102", "02ff 0100 0100 0100 0100"]);
}

#[test]
fn some_of_five_nodes() {
    follow_one_another(&[
        "02ff 0100 0100 0100 0100",
        "02ff 0100 0100 0200 0103",
        "02ff 0100 0100 0300 0103",
        "02ff 0100 0100 0400 0103",
        "02ff 0100 0100 0500 0103",
        "02ff 0100 0100 0600 0103",
        "02ff 0100 0100 0800 0103",
        "02ff 0100 0200 0100 0102",
        "02ff 0100 0200 0102 0100",
        "02ff 0100 0200 0102 0102",
        "02ff 0100 0200 0202 0103",
    ]);
    follow_one_another(&["06ff 0800 0801 0802 0103", "07ff 0100 0200 0102 0102", "07ff 0100 0200 0202 0103"]);
    follow_one_another(&[
        "07ff 0600 0801 0102 0100",
        "07ff 0700 0100 0101 0101",
        "07ff 0700 0101 0100 0101",
        "07ff 0700 0101 0101 0100",
        "07ff 0800 0100 0101 0101",
    ]);
    follow_one_another(&["08ff 0800 0801 0602 0103", LAST]);
    assert_eq!(next(&hex(LAST)), Err(26));
}

/// The walk has every accepted plan of up to five nodes once, and nothing else.
#[test]
fn the_walk_is_complete() {
    let all = walk();
    let of_size = |nodes: usize| all.iter().filter(|plan| plan.len() == 2 * nodes).count();
    assert_eq!([1, 2, 3, 4, 5].map(of_size), [1, 6, 43, 390, 4522]);
    assert_eq!(all.len(), 4962);
    assert_eq!((&all[0], &all[4961]), (&hex("01ff"), &hex(LAST)));
    assert!(all.iter().all(|plan| check(plan) == 0));
    assert!(all.iter().map(|plan| (plan.len(), plan)).is_sorted_by(|one, two| one < two), "it rises");
    assert_eq!(all, (1..=5).flat_map(plans).collect::<Vec<_>>());
}

/// Whatever byte takes the place of another, the check accepts no plan that the walk
/// doesn't have: trying kinds 1 to 8 and lower parents alone leaves nothing out.
#[test]
fn no_other_byte_makes_a_plan() {
    let all: HashSet<Vec<u8>> = walk().into_iter().collect();
    let mut accepted = 0;
    for mut plan in all.clone() {
        for place in 0..plan.len() {
            let before = plan[place];
            for byte in 0..=255 {
                plan[place] = byte;
                let is_plan = check(&plan) == 0;
                assert_eq!(is_plan, all.contains(&plan), "{plan:02x?}");
                accepted += u32::from(is_plan);
            }
            plan[place] = before;
        }
    }
    assert!(accepted > 100_000, "{accepted}");
}

/// Plans of six nodes and more in which one thing is wrong, with its number, and plans in
/// which nothing is.
fn larger_plans() -> Vec<(Vec<u8>, u32)> {
    let tasks = |parents: &[u8]| parents.iter().flat_map(|&parent| [1, parent]).collect::<Vec<u8>>();
    vec![
        ([hex("02ff 0900"), tasks(&[0; 4])].concat(), 2),
        ([hex("02ff 0102"), tasks(&[0; 4])].concat(), 3),
        ([hex("02ff 0100"), tasks(&[0, 0, 0, 1])].concat(), 4),
        ([hex("02ff 0700"), tasks(&[0, 0, 0, 1])].concat(), 5),
        (chain(33), 6),
        ([serial_of(5), vec![1]].concat(), 1),
        (serial_of(5), 27),
        (chain(6), 27),
        (chain(32), 27),
        (hex(P), 27),
        (plan_of(160), 27),
        (plan_of(161), 1),
    ]
}

/// Each number, with all that come after it in the same call.
#[test]
fn refusals_in_order() {
    let refused = refused_plans().into_iter().map(|(plan, number)| (hex(&plan), number));
    for (plan, refused) in refused.chain(larger_plans()).chain([(hex(LAST), 26)]) {
        for length in [0, 1, 2, 8, 9, MOST, 11, 12, 320] {
            assert_eq!(into_bytes(&plan, length), Err(refused), "{plan:02x?} into {length}");
        }
    }
}

/// Only ten bytes do, whatever the next plan has.
#[test]
fn other_lengths() {
    for plan in walk().iter().rev().skip(1) {
        for length in (0..24).filter(|&length| length != MOST) {
            assert_eq!(into_bytes(plan, length), Err(7), "{plan:02x?} into {length}");
        }
    }
}
