//! One block for each channel: worked cases, the order of refusals, the limits, and
//! every small template by a definition that is plain and slow.

mod common;

use common::*;
use reference::exported::{check, renumber, repeat, to_depths};

/// The bytes of the largest plan.
const MOST: usize = 320;

/// The repeated plan, over other bytes, which stay behind it; or the refusal, which
/// leaves all.
fn repeated(plan: &[u8], node: u32, count: u32) -> Result<Vec<u8>, u32> {
    into_bytes(plan, node, count, MOST)
}

/// The same into so many bytes.
fn into_bytes(plan: &[u8], node: u32, count: u32, length: usize) -> Result<Vec<u8>, u32> {
    let mut out = vec![LEFT; length];
    let result = repeat(plan, node, count, &mut out);
    front(result, &out)
}

fn gives(plan: &str, node: u32, count: u32, result: &str) {
    assert_eq!(repeated(&hex(plan), node, count), Ok(hex(result)), "{plan}, node {node}, {count} times");
}

#[test]
fn templates() {
    gives("03ff 0100", 0, 1, "03ff 0100");
    gives("03ff 0100", 0, 3, "03ff 0100 0100 0100");
    gives("04ff 0100", 0, 2, "04ff 0100 0100");
    gives("05ff 0100", 0, 2, "05ff 0100 0100");
    gives("08ff 0100", 0, 2, "08ff 0100 0100");
    // a subtree, with a task before the marked block and one behind it
    gives("02ff 0100 0300 0202 0103 0103 0100", 2, 2, "02ff 0100 0300 0202 0103 0103 0202 0106 0106 0100");
    // what stands behind has a subtree of its own
    gives("02ff 0400 0101 0300 0103 0103", 1, 3, "02ff 0400 0101 0101 0101 0300 0105 0105");
    // a block below the marked one that could be marked too, and the other way round
    gives("03ff 0400 0101", 0, 2, "03ff 0400 0101 0400 0103");
    gives("03ff 0400 0101", 1, 2, "03ff 0400 0101 0101");
}

#[test]
fn templates_in_other_numberings() {
    // the task of the second block stands before that of the first
    gives("02ff 0300 0400 0102 0101", 1, 2, "02ff 0300 0101 0101 0400 0104");
    gives("02ff 0300 0400 0102 0101", 2, 2, "02ff 0300 0101 0400 0103 0103");
    gives("02ff 0300 0400 0102 0101", 1, 1, "02ff 0300 0101 0400 0103");
    // node 3 has number 2 in the fixed numbering
    gives("02ff 0200 0100 0301 0103", 3, 2, "02ff 0200 0301 0102 0102 0100");
}

/// Each number, with all that come after it in the same call.
#[test]
fn refusals_in_order() {
    for (plan, refused) in refused_plans() {
        for length in [0, 319, MOST, 321] {
            assert_eq!(into_bytes(&hex(&plan), 999, 0, length), Err(refused), "{plan}");
        }
    }
    let plan = hex("02ff 0300 0101 0600 0103 0500 0105 0105");
    for length in (0..700).filter(|&length| length != MOST) {
        assert_eq!(into_bytes(&plan, 999, 0, length), Err(7));
        assert_eq!(into_bytes(&plan, 1, 1, length), Err(7));
    }
    for node in [8, 9, 160, 255, 256, 257, 0x1_0001, 0x8000_0001, u32::MAX] {
        assert_eq!(repeated(&plan, node, 0), Err(8));
        assert_eq!(repeated(&plan, node, 1), Err(8));
    }
    for node in [0, 2, 3, 4, 5, 6, 7] {
        for count in [0, 1, 33, u32::MAX] {
            assert_eq!(repeated(&plan, node, count), Err(23));
        }
    }
    let large = template(20, 33);
    for count in [0, 33, 34, 255, 256, 257, 288, 0x1_0001, 0x8000_0001, u32::MAX] {
        assert_eq!(repeated(&plan, 1, count), Err(24));
        assert_eq!(repeated(&large, 20, count), Err(24));
    }
    assert_eq!(repeated(&large, 20, 5), Err(25));
}

/// A serial with a marked block as the last of its children, which is node number
/// `marked` and has so many nodes below it: a serial of tasks.
fn template(marked: usize, below: usize) -> Vec<u8> {
    let mut plan = serial_of(marked - 1);
    plan.extend([3, 0, 2, marked as u8]);
    plan.extend([1, marked as u8 + 1].repeat(below - 1));
    plan
}

#[test]
fn every_kind_with_one_child_and_two() {
    for kind in 1..=8 {
        let one = [2, 0xff, kind, 0, 1, 1];
        let two = [2, 0xff, kind, 0, 1, 1, 1, 1];
        let is_repeatable = matches!(kind, 3 | 4 | 5 | 8);
        if check(&one) == 0 {
            let result = [&one[..], &[1, 1]].concat();
            assert_eq!(repeated(&one, 1, 2), if is_repeatable { Ok(result) } else { Err(23) }, "{kind}");
        }
        if check(&two) == 0 {
            assert_eq!(repeated(&two, 1, 2), Err(23), "{kind}");
        }
        assert_eq!(repeated(&[2, 0xff, 1, 0], 1, 2), Err(23), "a task");
    }
}

#[test]
fn limits() {
    // as many children as there may be
    let star = repeated(&hex("03ff 0100"), 0, 32).unwrap();
    assert_eq!(star, [hex("03ff"), [1, 0].repeat(32)].concat());
    // 160 nodes and 161
    assert_eq!(repeated(&template(9, 30), 9, 5).map(|plan| plan.len()), Ok(MOST));
    assert_eq!(repeated(&template(10, 30), 10, 5), Err(25));
    assert_eq!(repeated(&template(10, 30), 10, 4).map(|plan| plan.len()), Ok(262));
    // a plan that is full stands once
    let below = plan_of(159);
    let line = |node: &[u8]| [node[0], node[1].wrapping_add(1)];
    let full = [hex("03ff"), below.chunks(2).flat_map(line).collect()].concat();
    assert_eq!(repeated(&full, 0, 1), Ok(full.clone()));
    assert_eq!(repeated(&full, 0, 2), Err(25));
    // the marked block at depth 31, a task below it
    let mut deep = chain(32);
    deep[2 * 30] = 4;
    let repeated_deep = repeated(&deep, 30, 32).unwrap();
    assert_eq!(repeated_deep, [deep, [1, 30].repeat(31)].concat());
    assert_eq!(check(&repeated_deep), 0);
}

/// The tree below a node as the fixed numbering writes it, with the children of the
/// marked node so many times.
fn write(plan: &[u8], node: usize, parent: u8, template: (usize, usize), out: &mut Vec<u8>) {
    let number = (out.len() / 2) as u8;
    out.extend([plan[2 * node], parent]);
    let (marked, count) = template;
    for _ in 0..if node == marked { count } else { 1 } {
        for child in (node + 1..plan.len() / 2).filter(|child| usize::from(plan[2 * child + 1]) == node) {
            write(plan, child, number, template, out);
        }
    }
}

/// How many children a node has, by looking at every other.
fn children(plan: &[u8], node: usize) -> usize {
    (1..plan.len() / 2).filter(|child| usize::from(plan[2 * child + 1]) == node).count()
}

/// One call by the definition; answers whether it passed.
fn is_by_definition(plan: &[u8], node: usize, count: usize) -> bool {
    let is_template = matches!(plan[2 * node], 3 | 4 | 5 | 8) && children(plan, node) == 1;
    let mut tree = vec![];
    if is_template {
        write(plan, 0, 0xff, (node, count), &mut tree);
    }
    let expected = match count {
        _ if !is_template => Err(23),
        0 | 33.. => Err(24),
        _ if tree.len() > MOST => Err(25),
        _ => Ok(tree),
    };
    let result = repeated(plan, node as u32, count as u32);
    assert_eq!(result, expected, "{plan:02x?}, node {node}, {count} times");
    let Ok(written) = result else {
        return false;
    };
    let mut other = vec![LEFT; written.len()];
    assert_eq!(check(&written), 0);
    assert_eq!((renumber(&written, &mut other), &other), (0, &written), "it is in the fixed numbering");
    assert_eq!(to_depths(&written, &mut other), 0);
    if count == 1 {
        let mut renumbered = vec![LEFT; plan.len()];
        assert_eq!((renumber(plan, &mut renumbered), renumbered), (0, written));
    }
    true
}

#[test]
fn every_template_of_up_to_five_nodes() {
    let mut passed = 0;
    for plan in (1..=5).flat_map(plans) {
        for node in 0..plan.len() / 2 {
            for count in [0, 1, 2, 3, 4, 32, 33] {
                passed += u32::from(is_by_definition(&plan, node, count));
            }
        }
    }
    assert!(passed > 10_000, "{passed}");
}

#[test]
fn some_larger_templates() {
    let mut numbers = Numbers(7);
    let mut passed = 0;
    for round in 0..2000 {
        let plan = any_plan(&mut numbers, 6 + round % 40);
        for node in 0..plan.len() / 2 {
            let count = numbers.below(36) as usize;
            passed += u32::from(is_by_definition(&plan, node, count));
        }
    }
    assert!(passed > 2000, "{passed}");
}
