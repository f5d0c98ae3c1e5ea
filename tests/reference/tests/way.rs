//! A way there: worked cases, the order of refusals, and every small plan by
//! trying every list.

mod common;

use common::*;
use reference::exported::way;
use reference::lists::{ways, ways_up_to};
use reference::plan::{Kind, Plan};
use reference::way::Target;

/// The marks and the ends that can be wanted.
const MARKS: [u8; 4] = [0, 3, 4, 5];
const ENDS: [u8; 2] = [3, 4];

/// The way over answers that hold other bytes; or the refusal, which leaves
/// them.
fn found(plan: &[u8], node: u32, mark: u32, end: u32) -> Result<Vec<u8>, u32> {
    let mut answers = vec![LEFT; plan.len() / 2];
    match way(plan, node, mark, end, &mut answers) {
        0 => Ok(answers),
        refused => {
            assert!(answers.iter().all(|&byte| byte == LEFT), "a refused call leaves the answers");
            Err(refused)
        }
    }
}

fn to(plan: &[u8], target: Target) -> Result<Vec<u8>, u32> {
    found(plan, target.node as u32, target.mark.into(), target.end.into())
}

/// All targets of a plan with so many nodes.
fn targets(nodes: usize) -> impl Iterator<Item = Target> {
    let marks = || MARKS.into_iter().flat_map(|mark| ENDS.into_iter().map(move |end| (mark, end)));
    (0..nodes).flat_map(move |node| marks().map(move |(mark, end)| Target { node, mark, end }))
}

/// A node, its mark, the end and the way.
type Way<'a> = (usize, u8, u8, &'a [u8]);

/// These are all targets of a plan that have a way.
fn are_all(plan: &str, all: &[Way]) {
    let plan = hex(plan);
    for target in targets(plan.len() / 2) {
        let wanted = (target.node, target.mark, target.end);
        let known = all.iter().find(|&&(node, mark, end, _)| (node, mark, end) == wanted);
        let expected = known.map_or(Err(30), |(_, _, _, answers)| Ok(answers.to_vec()));
        assert_eq!(to(&plan, target), expected, "{plan:02x?} {target:?}");
    }
}

#[test]
fn a_task_alone() {
    are_all("01ff", &[(0, 3, 3, &[1]), (0, 4, 4, &[2])]);
}

/// Every target of each kind of block with two tasks.
#[test]
fn each_kind_above() {
    are_all(
        "02ff 0100 0100",
        &[
            (0, 3, 3, &[0, 1, 1]),
            (0, 4, 4, &[0, 1, 2]),
            (1, 3, 3, &[0, 1, 1]),
            (1, 3, 4, &[0, 1, 2]),
            (1, 4, 4, &[0, 2, 0]),
            (2, 0, 4, &[0, 2, 0]),
            (2, 3, 3, &[0, 1, 1]),
            (2, 4, 4, &[0, 1, 2]),
        ],
    );
    for and in ["03ff 0100 0100", "08ff 0100 0100"] {
        are_all(
            and,
            &[
                (0, 3, 3, &[0, 1, 1]),
                (0, 4, 4, &[0, 1, 2]),
                (1, 3, 3, &[0, 1, 1]),
                (1, 3, 4, &[0, 1, 2]),
                (1, 4, 4, &[0, 2, 1]),
                (2, 3, 3, &[0, 1, 1]),
                (2, 3, 4, &[0, 2, 1]),
                (2, 4, 4, &[0, 1, 2]),
            ],
        );
    }
    are_all(
        "04ff 0100 0100",
        &[
            (0, 3, 3, &[0, 1, 1]),
            (0, 4, 4, &[0, 2, 2]),
            (1, 3, 3, &[0, 1, 1]),
            (1, 4, 3, &[0, 2, 1]),
            (1, 4, 4, &[0, 2, 2]),
            (2, 3, 3, &[0, 1, 1]),
            (2, 4, 3, &[0, 1, 2]),
            (2, 4, 4, &[0, 2, 2]),
        ],
    );
    are_all(
        "05ff 0100 0100",
        &[
            (0, 3, 3, &[1, 1, 1]),
            (0, 4, 4, &[0, 2, 2]),
            (1, 3, 3, &[1, 1, 1]),
            (1, 4, 3, &[2, 2, 1]),
            (1, 4, 4, &[0, 2, 2]),
            (1, 5, 3, &[2, 1, 1]),
            (2, 3, 3, &[2, 1, 1]),
            (2, 4, 3, &[1, 1, 2]),
            (2, 4, 4, &[0, 2, 2]),
            (2, 5, 3, &[1, 1, 1]),
        ],
    );
    are_all(
        "06ff 0100 0100",
        &[
            (0, 3, 3, &[0, 1, 0]),
            (0, 4, 4, &[0, 2, 2]),
            (1, 3, 3, &[0, 1, 0]),
            (1, 4, 3, &[0, 2, 1]),
            (1, 4, 4, &[0, 2, 2]),
            (2, 0, 3, &[0, 1, 0]),
            (2, 3, 3, &[0, 2, 1]),
            (2, 4, 4, &[0, 2, 2]),
        ],
    );
    are_all(
        "07ff 0100 0100",
        &[
            (0, 3, 3, &[1, 1, 0]),
            (0, 4, 4, &[1, 2, 0]),
            (1, 0, 3, &[2, 0, 1]),
            (1, 0, 4, &[2, 0, 2]),
            (1, 3, 3, &[1, 1, 0]),
            (1, 4, 4, &[1, 2, 0]),
            (2, 0, 3, &[1, 1, 0]),
            (2, 0, 4, &[1, 2, 0]),
            (2, 3, 3, &[2, 0, 1]),
            (2, 4, 4, &[2, 0, 2]),
        ],
    );
}

/// Every target of plan P. Where the job fails, the xor that fails has the
/// smallest answer, 0; the task before it can't have it.
#[test]
fn plan_p() {
    are_all(
        P,
        &[
            (0, 3, 3, &[0, 1, 1, 1, 1, 1]),
            (0, 4, 4, &[0, 1, 0, 2, 2, 0]),
            (1, 3, 3, &[0, 1, 1, 1, 1, 1]),
            (1, 3, 4, &[0, 1, 0, 2, 2, 0]),
            (1, 4, 4, &[0, 2, 0, 0, 0, 0]),
            (2, 0, 4, &[0, 2, 0, 0, 0, 0]),
            (2, 3, 3, &[0, 1, 1, 1, 1, 1]),
            (2, 3, 4, &[0, 1, 1, 1, 1, 2]),
            (2, 4, 4, &[0, 1, 0, 2, 2, 0]),
            (3, 0, 4, &[0, 2, 0, 0, 0, 0]),
            (3, 3, 3, &[0, 1, 1, 1, 1, 1]),
            (3, 3, 4, &[0, 1, 1, 1, 1, 2]),
            (3, 4, 3, &[0, 1, 2, 2, 1, 1]),
            (3, 4, 4, &[0, 1, 0, 2, 2, 0]),
            (3, 5, 3, &[0, 1, 2, 1, 1, 1]),
            (3, 5, 4, &[0, 1, 2, 1, 1, 2]),
            (4, 0, 4, &[0, 2, 0, 0, 0, 0]),
            (4, 3, 3, &[0, 1, 2, 1, 1, 1]),
            (4, 3, 4, &[0, 1, 2, 1, 1, 2]),
            (4, 4, 3, &[0, 1, 1, 1, 2, 1]),
            (4, 4, 4, &[0, 1, 0, 2, 2, 0]),
            (4, 5, 3, &[0, 1, 1, 1, 1, 1]),
            (4, 5, 4, &[0, 1, 1, 1, 1, 2]),
            (5, 0, 4, &[0, 1, 0, 2, 2, 0]),
            (5, 3, 3, &[0, 1, 1, 1, 1, 1]),
            (5, 4, 4, &[0, 1, 1, 1, 1, 2]),
        ],
    );
}

/// An xor that fails first has a smaller answer than one that commits at once;
/// an xor below an xor; and below a block that isn't reached, nothing is.
#[test]
fn blocks_below_blocks() {
    let known = |plan: &str, (node, mark, end, answers): Way| {
        assert_eq!(to(&hex(plan), Target { node, mark, end }), Ok(answers.to_vec()), "{plan} {node} {mark}");
    };
    known("06ff 0500 0101 0100", (0, 3, 3, &[0, 0, 2, 1]));
    known("06ff 0500 0101 0100", (3, 0, 3, &[0, 1, 1, 0]));
    known("06ff 0500 0101 0100", (0, 4, 4, &[0, 0, 2, 2]));
    let nested = "05ff 0500 0101 0101 0100";
    known(nested, (3, 3, 3, &[1, 2, 1, 1, 1]));
    known(nested, (2, 5, 3, &[1, 2, 1, 1, 1]));
    known(nested, (1, 5, 3, &[2, 1, 1, 1, 1]));
    known(nested, (1, 4, 3, &[2, 0, 2, 2, 1]));
    assert_eq!(found(&hex(nested), 2, 3, 4), Err(30), "what commits there lets the root commit");
    let left_out = "06ff 0100 0200 0302 0103 0103";
    known(left_out, (5, 0, 3, &[0, 1, 0, 0, 0, 0]));
    known(left_out, (4, 4, 4, &[0, 2, 0, 0, 2, 1]));
    known(left_out, (5, 3, 3, &[0, 2, 0, 0, 1, 1]));
    assert_eq!(found(&hex(left_out), 5, 0, 4), Err(30));
}

/// Lists are compared by the numbers of the nodes, not by subtrees: 4 stands
/// below 1, and 3 below 2.
#[test]
fn subtrees_may_stand_among_each_other() {
    let plan = hex("03ff 0200 0200 0102 0101");
    assert_eq!(found(&plan, 0, 4, 4), Ok(vec![0, 0, 0, 1, 2]));
    assert_eq!(found(&plan, 1, 3, 4), Ok(vec![0, 0, 0, 2, 1]));
}

/// An xor with as many children as may be.
#[test]
fn places_up_to_32() {
    let plan = [vec![5, 0xff], [1, 0].repeat(32)].concat();
    let picked = |place: u8| [vec![place], vec![1; 32]].concat();
    assert_eq!(found(&plan, 32, 3, 3), Ok(picked(32)));
    assert_eq!(found(&plan, 32, 5, 3), Ok(picked(1)));
    assert_eq!(found(&plan, 1, 5, 3), Ok(picked(2)));
    assert_eq!(found(&plan, 31, 3, 3), Ok(picked(31)));
    assert_eq!(found(&plan, 7, 4, 4), Ok([vec![0], vec![2; 32]].concat()));
    assert_eq!(found(&plan, 7, 5, 4), Err(30));
    let mut one_fails = picked(2);
    one_fails[1] = 2;
    assert_eq!(found(&plan, 1, 4, 3), Ok(one_fails));
}

/// As deep as may be: xors in a row, each with a task before the next. A node
/// commits if its own xor picks it, whatever becomes of those above; they only
/// work.
#[test]
fn as_deep_as_may_be() {
    let mut plan = vec![];
    for level in 0..30 {
        plan.extend([5, if level == 0 { 0xff } else { 2 * (level - 1) }, 1, 2 * level]);
    }
    plan.extend([5, 58, 1, 60]);
    assert_eq!(found(&plan, 61, 3, 3), Ok(vec![1; 62]));
    assert_eq!(found(&plan, 60, 5, 3), Ok(vec![1; 62]));
    assert_eq!(found(&plan, 60, 3, 3), Ok([vec![1; 58], vec![2, 1, 1, 1]].concat()));
    assert_eq!(found(&plan, 59, 5, 3), Ok([vec![1; 58], vec![2, 1, 1, 1]].concat()));
    assert_eq!(found(&plan, 59, 3, 3), Ok([vec![1; 60], vec![0, 2]].concat()));
    assert_eq!(found(&plan, 0, 3, 3), Ok([vec![1, 1], [0, 2].repeat(30)].concat()));
    assert_eq!(found(&plan, 61, 5, 3), Err(30), "an only child");
    assert_eq!(found(&plan, 61, 3, 4), Err(30));
    assert_eq!(found(&plan, 61, 4, 4), Ok([0, 2].repeat(31)));
    let serials = chain(32);
    assert_eq!(found(&serials, 31, 3, 3), Ok([vec![0; 31], vec![1]].concat()));
    assert_eq!(found(&serials, 31, 4, 4), Ok([vec![0; 31], vec![2]].concat()));
    assert_eq!(found(&serials, 31, 0, 4), Err(30));
}

/// Five xors below an or, 160 nodes.
#[test]
fn as_many_nodes_as_may_be() {
    let mut plan = hex("04ff 0500 0500 0500 0500 0500");
    (0..154).for_each(|task| plan.extend([1, 1 + task % 5]));
    assert_eq!(plan.len(), 320);
    let wanted = |picks: [u8; 5]| {
        let tasks = (0..154).map(|task| if picks[task % 5] == 0 { 2 } else { 1 });
        [0].into_iter().chain(picks).chain(tasks).collect::<Vec<u8>>()
    };
    assert_eq!(found(&plan, 0, 3, 3), Ok(wanted([0, 0, 0, 0, 1])));
    assert_eq!(found(&plan, 0, 4, 4), Ok(wanted([0; 5])));
    assert_eq!(found(&plan, 6 + 150, 3, 3), Ok(wanted([31, 0, 0, 0, 0])));
    assert_eq!(found(&plan, 6 + 153, 5, 3), Ok(wanted([0, 0, 0, 1, 0])));
    assert_eq!(found(&plan, 159, 5, 4), Err(30));
    assert_eq!(found(&plan, 159, 0, 3), Err(30));
    assert_eq!(found(&plan, 160, 3, 3), Err(8));
}

/// What the answers were before doesn't matter.
#[test]
fn old_answers_are_not_read() {
    for before in [0, 1, 2, 3, 0x7f, 0xff] {
        let mut answers = [before; 6];
        assert_eq!(way(&hex(P), 3, 5, 3, &mut answers), 0);
        assert_eq!(answers, [0, 1, 2, 1, 1, 1]);
    }
}

/// The number of a call; a refused one leaves the answers.
fn number_of(plan: &str, node: u32, mark: u32, end: u32, length: usize) -> u32 {
    let mut answers = vec![LEFT; length];
    let result = way(&hex(plan), node, mark, end, &mut answers);
    assert!(result == 0 || answers == vec![LEFT; length], "a refused call leaves the answers");
    result
}

/// Each number comes before the next, whatever else is wrong.
#[test]
fn refusals_come_in_order() {
    for (plan, number) in refused_plans() {
        assert_eq!(number_of(&plan, 300, 1, 5, 9), number, "{plan}");
    }
    for length in [0, 1, 5, 7, 12] {
        assert_eq!(number_of(P, 6, 1, 5, length), 7);
        assert_eq!(number_of(P, 5, 3, 3, length), 7);
    }
    for node in [6, 7, 255, 256, 257, 0x8000_0001, u32::MAX] {
        assert_eq!(number_of(P, node, 1, 5, 6), 8);
        assert_eq!(number_of(P, node, 3, 3, 6), 8);
    }
    assert_eq!(number_of(P, 1, 1, 3, 6), 29);
    assert_eq!(number_of(P, 1, 5, 5, 6), 29, "though no list leads there either");
    assert_eq!(number_of(P, 1, 5, 4, 6), 30);
    assert_eq!(number_of(P, 0, 0, 3, 6), 30);
    assert_eq!(number_of(P, 0, 3, 3, 6), 0);
}

/// Numbers are not cut.
#[test]
fn marks_and_ends_that_cannot_be_wanted() {
    for strange in [1, 2, 6, 7, 255, 256, 258, 259, 260, 261, 0x103, 0x1_0003, 0x8000_0004, u32::MAX] {
        assert_eq!(number_of(P, 3, strange, 3, 6), 29, "mark {strange}");
        assert_eq!(number_of(P, 3, 3, strange, 6), 29, "end {strange}");
    }
    for end in [0, 5] {
        assert_eq!(number_of(P, 3, 3, end, 6), 29, "end {end}");
    }
}

/// The ways of a plan are those that trying every list finds.
fn are_those_of_all_lists(plan: &[u8]) -> usize {
    let known = ways(plan);
    for target in targets(plan.len() / 2) {
        let expected = known.get(&target).cloned().ok_or(30);
        assert_eq!(to(plan, target), expected, "{plan:02x?} {target:?}");
        let both = target.mark == target.end;
        assert!(!both || expected.is_ok(), "{plan:02x?} {target:?}: every node can commit and fail");
    }
    known.len()
}

#[test]
fn every_plan_of_up_to_four_nodes() {
    let found: usize = (1..=4).flat_map(plans).map(|plan| are_those_of_all_lists(&plan)).sum();
    println!("{found} ways");
    assert!(found > 4000, "{found}");
}

#[test]
fn every_plan_of_five_nodes() {
    let found: usize = plans(5).iter().map(|plan| are_those_of_all_lists(plan)).sum();
    println!("{found} ways");
    assert!(found > 40_000, "{found}");
}

/// Some plans of six and seven nodes too, where subtrees stand among each other.
#[test]
fn some_plans_of_six_and_seven_nodes() {
    let mut numbers = Numbers(14);
    for round in 0..400 {
        are_those_of_all_lists(&any_plan(&mut numbers, 6 + round % 2));
    }
}

/// Bytes that mean nothing are alike: trying all 256 finds the same ways.
#[test]
fn higher_bytes_lead_nowhere_else() {
    for plan in (1..=2).flat_map(plans) {
        assert_eq!(ways(&plan), ways_up_to(&plan, 255), "{plan:02x?}");
    }
    for plan in plans(3).into_iter().chain([hex("05ff 0100 0100 0100")]) {
        assert_eq!(ways(&plan), ways_up_to(&plan, 9), "{plan:02x?}");
    }
}

/// In plans up to the largest: the pass accepts a way and leaves both marks, it
/// doesn't read answers but those that must be there, and no way is larger than
/// one that leads to its target too.
#[test]
fn ways_of_large_plans() {
    let mut numbers = Numbers(15);
    let mut passes = 0;
    for nodes in [8, 12, 20, 40, 80, 160] {
        let plan = any_plan(&mut numbers, nodes);
        for target in targets(nodes) {
            let Ok(answers) = to(&plan, target) else {
                assert_ne!(target.mark, target.end, "{plan:02x?} {target:?}");
                continue;
            };
            let marks = pass_marks(&plan, &answers).expect("the pass accepts a way");
            assert_eq!((marks[target.node], marks[0]), (target.mark, target.end), "{plan:02x?} {target:?}");
            unread_are_zero(&plan, &answers, &marks);
            let other = numbers.below(nodes as u32) as usize;
            let also = Target { node: other, mark: marks[other], end: marks[0] };
            assert!(to(&plan, also).unwrap() <= answers, "{plan:02x?} {target:?} {also:?}");
            passes += 1;
        }
    }
    assert!(passes > 1000, "{passes}");
}

fn unread_are_zero(plan: &[u8], answers: &[u8], marks: &[u8]) {
    let checked = Plan::check(plan).unwrap();
    for node in 0..answers.len() {
        let is_read =
            marks[node] != 0 && matches!(checked.kind(node), Kind::Task | Kind::Conditional | Kind::Xor);
        assert!(is_read || answers[node] == 0, "{plan:02x?} {answers:?} {node}");
    }
}
