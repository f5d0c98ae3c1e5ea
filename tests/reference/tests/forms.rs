//! Forms of a plan: worked cases, the order of refusals, the limits, and every
//! small plan and every small depth form by definitions that are plain and slow.

mod common;

use common::*;
use reference::exported::{check, check_depths, from_depths, renumber, to_depths};
use std::collections::{HashMap, HashSet};

/// A call that writes one form from another.
type Conversion = fn(&[u8], &mut [u8]) -> u32;

/// What a call writes over other bytes, as many as it is handed; or its refusal,
/// which leaves them.
fn converted(call: Conversion, bytes: &[u8]) -> Result<Vec<u8>, u32> {
    into_bytes(call, bytes, bytes.len())
}

/// The same into so many bytes.
fn into_bytes(call: Conversion, bytes: &[u8], length: usize) -> Result<Vec<u8>, u32> {
    let mut out = vec![LEFT; length];
    match call(bytes, &mut out) {
        0 => Ok(out),
        refused => {
            assert!(out.iter().all(|&byte| byte == LEFT), "a refused call leaves the bytes");
            Err(refused)
        }
    }
}

/// A plan, its renumbered plan and its depth form.
fn has_forms(plan: &str, fixed: &str, depths: &str) {
    let (plan, fixed, depths) = (hex(plan), hex(fixed), hex(depths));
    assert_eq!(converted(renumber, &plan), Ok(fixed.clone()), "{plan:02x?}");
    assert_eq!(converted(renumber, &fixed), Ok(fixed.clone()), "{plan:02x?} twice");
    let own = if plan == fixed { Ok(depths.clone()) } else { Err(18) };
    assert_eq!(converted(to_depths, &plan), own, "{plan:02x?}");
    assert_eq!(converted(to_depths, &fixed), Ok(depths.clone()), "{plan:02x?}");
    assert_eq!(converted(from_depths, &depths), Ok(fixed), "{depths:02x?}");
}

#[test]
fn plans_in_the_fixed_numbering() {
    has_forms("01ff", "01ff", "0101");
    has_forms("02ff 0100", "02ff 0100", "0201 0102");
    has_forms(P, P, "0201 0102 0502 0103 0103 0102");
    // down three levels and up again by one, by two and by three
    let stairs = "03ff 0400 0601 0102 0102 0101 0200 0806 0107 0100";
    has_forms(stairs, stairs, "0301 0402 0603 0104 0104 0103 0202 0803 0104 0102");
}

#[test]
fn plans_in_other_numberings() {
    // the second block's task stands before the first block's
    has_forms("02ff 0300 0400 0102 0101", "02ff 0300 0101 0400 0103", "0201 0302 0103 0402 0103");
    // a task for an earlier block at the end
    has_forms("02ff 0300 0101 0100 0101", "02ff 0300 0101 0101 0100", "0201 0302 0103 0103 0102");
    // level by level
    has_forms(
        "07ff 0600 0500 0101 0101 0802 0105",
        "07ff 0600 0101 0101 0500 0804 0105",
        "0701 0602 0103 0103 0502 0803 0104",
    );
    // down to the third level, up, and down again behind what was left
    has_forms("02ff 0300 0401 0100 0102", "02ff 0300 0401 0102 0100", "0201 0302 0403 0104 0102");
    // P's last task before those of its xor
    has_forms("02ff 0100 0500 0100 0102 0102", P, "0201 0102 0502 0103 0103 0102");
}

/// One tree in all of its numberings, and trees that are nearly it.
#[test]
fn one_tree_has_one_plan() {
    let fixed = hex("02ff 0300 0101 0101 0400 0104");
    for other in [
        "02ff 0300 0101 0400 0101 0103",
        "02ff 0300 0101 0400 0103 0101",
        "02ff 0300 0400 0101 0101 0102",
        "02ff 0300 0400 0101 0102 0101",
        "02ff 0300 0400 0102 0101 0101",
    ] {
        assert_eq!(converted(renumber, &hex(other)), Ok(fixed.clone()), "{other}");
    }
    for different in [
        "02ff 0400 0101 0101 0300 0104",
        "02ff 0400 0101 0300 0103 0103",
        "02ff 0300 0101 0400 0103 0103",
        "02ff 0300 0101 0101 0800 0104",
        "02ff 0300 0101 0101 0101 0100",
    ] {
        let other = converted(renumber, &hex(different)).unwrap();
        assert_ne!(other, fixed, "{different}");
    }
}

#[test]
fn refused_plans_come_first() {
    for (plan, number) in refused_plans() {
        let plan = hex(&plan);
        for length in [plan.len(), 0, 3, 400] {
            assert_eq!(into_bytes(renumber, &plan, length), Err(number), "{plan:02x?}");
            assert_eq!(into_bytes(to_depths, &plan, length), Err(number), "{plan:02x?}");
        }
    }
    // each together with a numbering that is not the fixed one
    let out_of_order = [
        ("02ff 0300 0400 0102 0101 01", 1),
        ("02ff 0300 0400 0102 0901", 2),
        ("02ff 0300 0400 0102 0101 0106", 3),
        ("02ff 0300 0400 0102 0101 0104", 4),
        ("02ff 0700 0400 0102 0101", 5),
    ];
    for (plan, number) in out_of_order {
        assert_eq!(into_bytes(to_depths, &hex(plan), 1), Err(number), "{plan}");
        assert_eq!(into_bytes(renumber, &hex(plan), 1), Err(number), "{plan}");
    }
    let mut deep = chain(33);
    deep.extend([1, 0, 1, 1]);
    assert_eq!(into_bytes(to_depths, &deep, 1), Err(6));
    assert_eq!(into_bytes(renumber, &deep, 1), Err(6));
}

#[test]
fn lengths_and_numberings() {
    let mixed = hex("02ff 0300 0400 0102 0101");
    for length in (0..24).filter(|&length| length != 10) {
        assert_eq!(into_bytes(renumber, &mixed, length), Err(7));
        assert_eq!(into_bytes(to_depths, &mixed, length), Err(18), "18 before 7");
        let fixed = converted(renumber, &mixed).unwrap();
        assert_eq!(into_bytes(renumber, &fixed, length), Err(7));
        assert_eq!(into_bytes(to_depths, &fixed, length), Err(7));
        let depths = converted(to_depths, &fixed).unwrap();
        assert_eq!(into_bytes(from_depths, &depths, length), Err(7));
    }
    assert_eq!(into_bytes(to_depths, &mixed, 10), Err(18));
}

/// Depth forms and their numbers, whatever the length of the bytes lent.
#[test]
fn refused_depth_forms() {
    let wide: String = "0102 ".repeat(33);
    let cases = [
        // 1 before all others
        ("", 1),
        ("02", 1),
        ("0900 0109 01", 1),
        // 2 before 17 and before 4, wherever it stands
        ("0001", 2),
        ("0901", 2),
        ("0900", 2),
        ("02ff 0109 ff01", 2),
        ("0101 0102 0002", 2),
        // the first depth
        ("0100", 17),
        ("0102", 17),
        ("01ff", 17),
        ("0200 0101", 17),
        ("0202 0103", 17),
        // a later one below 2
        ("0201 0101", 17),
        ("0201 0100", 17),
        ("0201 0102 0101", 17),
        ("0201 0102 0200 0101", 17),
        // one more than one above the line before
        ("0201 0103", 17),
        ("0201 01ff", 17),
        ("0201 0202 0104", 17),
        ("0201 0202 0103 0102 0104", 17),
        ("0201 02fe 01ff", 17),
        // 17 before 4, 5 and 6, also where these stand before it
        ("0101 0102 0104", 17),
        ("0101 0100", 17),
        ("0701 0102 0101", 17),
        ("0201 0202 0101", 17),
        (&format!("0201 {wide} 0101"), 17),
        // no 3: what would be a wrong parent is a depth as any other
        ("0201 0202 0702", 5),
        ("0101 0102", 4),
        ("0201 0102 0103", 4),
        ("0101 0202", 4),
        ("0201", 5),
        ("0701 0102", 5),
        ("0701 0102 0102 0102", 5),
        ("0201 0202 0102", 5),
        (&format!("0201 {wide}"), 5),
    ];
    for (form, number) in cases {
        for length in [hex(form).len(), 0, 1, 400] {
            assert_eq!(into_bytes(from_depths, &hex(form), length), Err(number), "{form}");
        }
    }
    let depths = |levels: u8| (1..=levels).flat_map(|depth| [2, depth]).collect::<Vec<u8>>();
    let too_deep = |levels: u8| [depths(levels - 1), vec![1, levels]].concat();
    assert_eq!(converted(from_depths, &too_deep(33)), Err(6));
    assert_eq!(converted(from_depths, &too_deep(160)), Err(6));
    assert_eq!(converted(from_depths, &depths(33)), Err(5), "5 before 6");
    assert_eq!(converted(from_depths, &[too_deep(33), vec![1, 34]].concat()), Err(4), "4 before 6");
    assert_eq!(converted(from_depths, &[too_deep(33), vec![1, 1]].concat()), Err(17), "17 before 6");
    assert_eq!(converted(from_depths, &too_deep(161)), Err(1));
}

#[test]
fn depths_of_every_byte() {
    for depth in 0..=255 {
        let first = if depth == 1 { Ok(vec![1, 0xff]) } else { Err(17) };
        assert_eq!(converted(from_depths, &[1, depth]), first);
        let second = match depth {
            2 => Ok(hex("02ff 0100")),
            _ => Err(17),
        };
        assert_eq!(converted(from_depths, &[2, 1, 1, depth]), second);
        let last = match depth {
            2 => Ok(hex("02ff 0300 0101 0100")),
            3 => Ok(hex("02ff 0300 0101 0101")),
            4 => Err(4),
            _ => Err(17),
        };
        assert_eq!(converted(from_depths, &[2, 1, 3, 2, 1, 3, 1, depth]), last);
    }
    for kind in 0..=255 {
        let number = match kind {
            1 => Ok(vec![1, 0xff]),
            2..=8 => Err(5),
            _ => Err(2),
        };
        assert_eq!(converted(from_depths, &[kind, 1]), number);
    }
}

/// There and back: what is accepted, and what is one too much.
#[test]
fn limits() {
    for plan in [plan_of(160), serial_of(32), chain(32)] {
        let depths = converted(to_depths, &plan).unwrap();
        assert_eq!(converted(renumber, &plan), Ok(plan.clone()));
        assert_eq!(converted(from_depths, &depths), Ok(plan));
    }
    for (plan, number) in [(plan_of(161), 1), (serial_of(33), 5), (chain(33), 6)] {
        assert_eq!(converted(renumber, &plan), Err(number));
        assert_eq!(converted(to_depths, &plan), Err(number));
    }
    let too_long = [converted(to_depths, &plan_of(160)).unwrap(), vec![1, 2]].concat();
    assert_eq!(converted(from_depths, &too_long), Err(1));
    let too_wide = [converted(to_depths, &serial_of(32)).unwrap(), vec![1, 2]].concat();
    assert_eq!(converted(from_depths, &too_wide), Err(5));

    // 160 nodes, five blocks whose tasks stand in turn
    let mut plan = hex("02ff 0300 0400 0500 0600 0800");
    (0..154).for_each(|task| plan.extend([1, 1 + task % 5]));
    assert_eq!(converted(to_depths, &plan), Err(18));
    let fixed = converted(renumber, &plan).unwrap();
    is_same_tree_together(&plan, &fixed);
    // the last block has 30 tasks, the first four 31
    assert_eq!(fixed[2 * 129..], [vec![8, 0], [1, 129].repeat(30)].concat());
}

/// The children of a node, by looking at every other.
fn children(plan: &[u8], node: usize) -> Vec<usize> {
    (1..plan.len() / 2).filter(|&child| usize::from(plan[2 * child + 1]) == node).collect()
}

/// Whether two nodes have the same tree below them: equal kinds, and equal trees
/// child by child.
fn are_same(one: &[u8], node: usize, two: &[u8], other: usize) -> bool {
    let (below, below_other) = (children(one, node), children(two, other));
    one[2 * node] == two[2 * other]
        && below.len() == below_other.len()
        && below.iter().zip(&below_other).all(|(&node, &other)| are_same(one, node, two, other))
}

/// A node and all below it.
fn subtree(plan: &[u8], node: usize) -> Vec<usize> {
    let below = children(plan, node).into_iter().flat_map(|child| subtree(plan, child));
    std::iter::once(node).chain(below).collect()
}

/// Whether every subtree has its numbers together: none is left out between its
/// lowest and its highest.
fn is_together(plan: &[u8]) -> bool {
    (0..plan.len() / 2).all(|node| {
        let mut numbers = subtree(plan, node);
        numbers.sort_unstable();
        numbers.windows(2).all(|pair| pair[1] == pair[0] + 1)
    })
}

/// What the renumbered plan has to be.
fn is_same_tree_together(plan: &[u8], fixed: &[u8]) {
    assert_eq!((check(fixed), fixed.len()), (0, plan.len()), "{plan:02x?}");
    assert!(are_same(plan, 0, fixed, 0), "{plan:02x?} {fixed:02x?}");
    assert!(is_together(fixed), "{plan:02x?} {fixed:02x?}");
    assert_eq!(fixed == plan, is_together(plan), "{plan:02x?} {fixed:02x?}");
    assert_eq!(converted(renumber, fixed).as_deref(), Ok(fixed));
    let own = if is_together(plan) { converted(to_depths, fixed) } else { Err(18) };
    assert_eq!(converted(to_depths, plan), own, "{plan:02x?}");
    let depths = converted(to_depths, fixed).unwrap();
    let mut alone = vec![LEFT; plan.len() / 2];
    assert_eq!(check_depths(fixed, &mut alone), 0);
    let lines: Vec<u8> =
        fixed.iter().step_by(2).zip(&alone).flat_map(|(&kind, &depth)| [kind, depth]).collect();
    assert_eq!(depths, lines, "{plan:02x?}");
    assert_eq!(converted(from_depths, &depths).as_deref(), Ok(fixed));
}

/// Every plan of up to five nodes: two become the same bytes just if they are the
/// same tree. There are as many trees as the sizes of their children allow: six
/// kinds of block have any number of children, and a seventh has two.
#[test]
fn every_plan_of_up_to_five_nodes() {
    let mut trees = vec![];
    for nodes in 1..=5 {
        let plans = plans(nodes);
        let fixed: Vec<Vec<u8>> = plans.iter().map(|plan| converted(renumber, plan).unwrap()).collect();
        for (plan, fixed) in plans.iter().zip(&fixed) {
            is_same_tree_together(plan, fixed);
        }
        for one in 0..plans.len() {
            for two in 0..one {
                let same = are_same(&plans[one], 0, &plans[two], 0);
                assert_eq!(fixed[one] == fixed[two], same, "{:02x?} {:02x?}", plans[one], plans[two]);
            }
        }
        trees.push(fixed.into_iter().collect::<HashSet<_>>().len());
    }
    let three = 6 * 6 + 7;
    let four = 6 * three + 7 * (2 * 6) + 6;
    let five = 6 * four + 7 * (2 * three + 6 * 6) + 6 * (3 * 6) + 6;
    assert_eq!(trees, [1, 6, three, four, five]);
}

/// Larger plans in any numbering.
#[test]
fn some_larger_plans() {
    let mut numbers = Numbers(3);
    let mut others = 0;
    for round in 0..3000 {
        let plan = any_plan(&mut numbers, 6 + round % 40);
        let fixed = converted(renumber, &plan).unwrap();
        is_same_tree_together(&plan, &fixed);
        others += u32::from(plan != fixed);
    }
    assert!(others > 2000, "{others}");
}

/// What a depth form comes to by the rules, line by line.
fn by_rules(form: &[u8]) -> Result<Vec<u8>, u32> {
    let lines: Vec<&[u8]> = form.chunks(2).collect();
    if lines.iter().any(|line| line[0] == 0 || line[0] > 8) {
        return Err(2);
    }
    let fits = |place: usize| match place {
        0 => lines[0][1] == 1,
        _ => lines[place][1] >= 2 && u32::from(lines[place][1]) <= u32::from(lines[place - 1][1]) + 1,
    };
    if !(0..lines.len()).all(fits) {
        return Err(17);
    }
    let parent = |place: usize| lines[..place].iter().rposition(|line| line[1] + 1 == lines[place][1]);
    let plan: Vec<u8> = (0..lines.len())
        .flat_map(|place| [lines[place][0], parent(place).map_or(0xff, |parent| parent as u8)])
        .collect();
    match check(&plan) {
        0 => Ok(plan),
        number => Err(number),
    }
}

/// Tries every form with so many of these lines; answers how many are accepted.
/// One is accepted just if it is the depth form of an accepted plan in the fixed
/// numbering, and then becomes that plan.
fn every_form(lines: usize, kinds: &[u8], depths: &[u8]) -> usize {
    let of_plans: HashMap<Vec<u8>, Vec<u8>> = plans(lines)
        .into_iter()
        .filter(|plan| is_together(plan))
        .map(|plan| (converted(to_depths, &plan).unwrap(), plan))
        .collect();
    let each: Vec<[u8; 2]> =
        kinds.iter().flat_map(|&kind| depths.iter().map(move |&depth| [kind, depth])).collect();
    let mut accepted = 0;
    for number in 0..each.len().pow(lines as u32) {
        let mut rest = number;
        let mut form = Vec::with_capacity(2 * lines);
        for _ in 0..lines {
            form.extend(each[rest % each.len()]);
            rest /= each.len();
        }
        let plan = converted(from_depths, &form);
        assert_eq!(plan.as_ref().ok(), of_plans.get(&form), "{form:02x?}");
        assert_eq!(plan, by_rules(&form), "{form:02x?}");
        accepted += usize::from(plan.is_ok());
    }
    assert_eq!(accepted, of_plans.len());
    accepted
}

#[test]
fn every_small_depth_form() {
    let kinds: Vec<u8> = (0..=9).chain([0x80, 0xff]).collect();
    let depths: Vec<u8> = (0..=5).chain([32, 33, 0x80, 0x81, 0xfe, 0xff]).collect();
    let all =
        [every_form(1, &kinds, &depths), every_form(2, &kinds, &depths), every_form(3, &kinds, &depths)];
    assert_eq!(all, [1, 6, 43]);
    assert_eq!(every_form(4, &[1, 2, 3, 4, 5, 6, 7, 8], &[0, 1, 2, 3, 4, 5]), 348);
}
