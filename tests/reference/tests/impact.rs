//! One answer changed: worked cases, the order of refusals, and what the rules
//! say of every small plan.

mod common;

use common::*;
use reference::exported::impact;
use reference::impact::reaches;
use reference::plan::{Kind, Plan};

/// The marks after a change, from the marks of the pass over the answers; or
/// the refusal, which leaves them.
fn changed(plan: &str, answers: &[u8], task: u32, answer: u32) -> Result<Vec<u8>, u32> {
    let plan = hex(plan);
    let before = pass_marks(&plan, answers).unwrap_or(vec![LEFT; answers.len()]);
    let mut marks = before.clone();
    match impact(&plan, answers, &mut marks, task, answer) {
        0 => Ok(marks),
        refused => {
            assert_eq!(marks, before, "a refused change leaves the marks");
            Err(refused)
        }
    }
}

#[test]
fn plan_p() {
    let all_work = [0, 1, 1, 1, 1, 1];
    assert_eq!(pass_marks(&hex(P), &all_work), Ok(vec![3, 3, 3, 3, 5, 3]));
    assert_eq!(changed(P, &all_work, 1, 2), Ok(vec![4, 4, 0, 0, 0, 0]));
    assert_eq!(changed(P, &[0, 2, 1, 1, 1, 1], 1, 1), Ok(vec![3, 3, 3, 3, 5, 3]));
    assert_eq!(changed(P, &all_work, 4, 2), Ok(vec![3, 3, 3, 3, 4, 3]));
    assert_eq!(changed(P, &all_work, 5, 2), Ok(vec![4, 3, 3, 3, 5, 4]));
    assert_eq!(changed(P, &all_work, 3, 2), Err(14), "the picked one offers no more");
    assert_eq!(changed(P, &all_work, 5, 1), Ok(vec![3, 3, 3, 3, 5, 3]), "the answer that is there");
}

/// The marks of three nodes, or a refusal.
type Marks = Result<[u8; 3], u32>;

/// A block with two tasks: what becomes of it when one of them ends otherwise.
#[test]
fn each_kind_above() {
    let cases: [(&str, [u8; 3], u32, u32, Marks); 26] = [
        ("02ff 0100 0100", [9, 1, 1], 1, 2, Ok([4, 4, 0])),
        ("02ff 0100 0100", [9, 1, 1], 2, 2, Ok([4, 3, 4])),
        ("02ff 0100 0100", [9, 2, 1], 1, 1, Ok([3, 3, 3])),
        ("02ff 0100 0100", [9, 2, 2], 1, 1, Ok([4, 3, 4])),
        ("02ff 0100 0100", [9, 2, 7], 1, 1, Err(13)),
        ("03ff 0100 0100", [9, 1, 1], 1, 2, Ok([4, 4, 3])),
        ("03ff 0100 0100", [9, 2, 1], 2, 2, Ok([4, 4, 4])),
        ("08ff 0100 0100", [9, 1, 1], 1, 2, Ok([4, 4, 3])),
        ("08ff 0100 0100", [9, 1, 2], 2, 1, Ok([3, 3, 3])),
        ("04ff 0100 0100", [9, 1, 1], 1, 2, Ok([3, 4, 3])),
        ("04ff 0100 0100", [9, 2, 1], 2, 2, Ok([4, 4, 4])),
        ("05ff 0100 0100", [2, 1, 1], 1, 2, Ok([3, 4, 3])),
        ("05ff 0100 0100", [2, 2, 1], 1, 1, Ok([3, 5, 3])),
        ("05ff 0100 0100", [2, 1, 1], 2, 2, Err(14)),
        ("05ff 0100 0100", [0, 2, 2], 1, 1, Err(14)),
        ("05ff 0100 0100", [0, 2, 2], 1, 2, Ok([4, 4, 4])),
        ("06ff 0100 0100", [9, 1, 1], 1, 2, Ok([3, 4, 3])),
        ("06ff 0100 0100", [9, 1, 2], 1, 2, Ok([4, 4, 4])),
        ("06ff 0100 0100", [9, 1, 7], 1, 2, Err(13)),
        ("06ff 0100 0100", [9, 2, 1], 1, 1, Ok([3, 3, 0])),
        ("06ff 0100 0100", [9, 2, 1], 2, 2, Ok([4, 4, 4])),
        ("07ff 0100 0100", [1, 1, 9], 1, 2, Ok([4, 4, 0])),
        ("07ff 0100 0100", [2, 9, 1], 2, 2, Ok([4, 0, 4])),
        ("07ff 0100 0100", [1, 1, 9], 2, 200, Ok([3, 3, 0])),
        ("07ff 0100 0100", [1, 1, 9], 1, 0, Err(13)),
        ("07ff 0100 0100", [2, 1, 1], 1, 255, Ok([3, 0, 3])),
    ];
    for (plan, answers, task, answer, expected) in cases {
        let expected = expected.map(|marks| marks.to_vec());
        assert_eq!(changed(plan, &answers, task, answer), expected, "{plan} {answers:?} {task} {answer}");
    }
}

/// A later sibling of a block above comes into reach, with all below it.
#[test]
fn later_subtrees_change_whole() {
    let plan = "06ff 0200 0101 0300 0103 0103";
    assert_eq!(changed(plan, &[0, 0, 1, 0, 1, 2], 2, 2), Ok(vec![4, 4, 4, 4, 3, 4]));
    assert_eq!(changed(plan, &[0, 0, 2, 0, 1, 2], 2, 1), Ok(vec![3, 3, 3, 0, 0, 0]));
    assert_eq!(changed(plan, &[0, 0, 2, 0, 9, 2], 2, 1), Err(13), "of the answers that were there");
    assert_eq!(changed(plan, &[0, 0, 1, 0, 9, 2], 2, 2), Err(13), "of the new ones");
}

/// An answer of one byte is free where the pass doesn't come; one that is no
/// byte is refused there too.
#[test]
fn tasks_that_are_not_reached() {
    let answers = [0, 2, 1, 1, 1, 1];
    for answer in [0, 1, 2, 3, 99, 255] {
        assert_eq!(changed(P, &answers, 5, answer), Ok(vec![4, 4, 0, 0, 0, 0]));
    }
    for answer in [256, 257, 258, 0x8000_0001, u32::MAX] {
        assert_eq!(changed(P, &answers, 5, answer), Err(13));
        assert_eq!(changed(P, &answers, 1, answer), Err(13));
    }
    assert_eq!(changed("01ff", &[1], 0, 255), Err(13));
}

/// The number of a call; a refused one leaves the marks.
fn number_of(plan: &str, answers: &[u8], marks: &[u8], task: u32, answer: u32) -> u32 {
    let mut left = marks.to_vec();
    let result = impact(&hex(plan), answers, &mut left, task, answer);
    assert!(result == 0 || left == marks, "a refused change leaves the marks");
    result
}

/// An xor with two tasks.
const XOR: &str = "05ff 0100 0100";

/// Whatever else is wrong, the lower number is found: that of the plan, of the
/// lengths, of the task.
#[test]
fn plan_lengths_and_task_come_first() {
    for (plan, number) in refused_plans() {
        assert_eq!(number_of(&plan, &[], &[LEFT; 3], 300, 300), number, "{plan}");
    }
    for length in [0, 1, 2, 4, 6] {
        assert_eq!(number_of(XOR, &vec![9; length], &[LEFT; 3], 300, 300), 7);
        assert_eq!(number_of(XOR, &[9; 3], &vec![LEFT; length], 300, 300), 7);
    }
    for node in [3, 4, 255, 256, 257, 0x8000_0001, u32::MAX] {
        assert_eq!(number_of(XOR, &[9; 3], &[LEFT; 3], node, 300), 8);
    }
    assert_eq!(number_of(XOR, &[9; 3], &[LEFT; 3], 0, 300), 9);
}

/// 13 and 14 of the answers that were there, of an answer that is no byte, of
/// the new answers, and then 28.
#[test]
fn faults_come_in_the_order_of_the_lists() {
    let number = |answers: [u8; 3], task, answer| number_of(XOR, &answers, &[LEFT; 3], task, answer);
    assert_eq!(number([3, 0, 1], 1, 300), 13, "of the answers");
    assert_eq!(number([3, 1, 1], 1, 300), 14, "of the answers, before an answer that is no byte");
    assert_eq!(number([3, 1, 1], 1, 0), 14, "of the answers, before 13 of the new ones");
    assert_eq!(number([3, 0, 1], 1, 1), 13, "of the answers, before 14 of the new ones");
    assert_eq!(number([2, 2, 3], 2, 1), 13, "of the answers, though the new ones are right");
    assert_eq!(number([1, 1, 1], 1, 258), 13, "no byte, before 14 of the new ones");
    assert_eq!(number([1, 1, 1], 1, 0), 13, "of the new ones, before 28");
    assert_eq!(number([1, 1, 1], 1, 2), 14, "of the new ones, before 28");
    assert_eq!(number([1, 1, 1], 2, 2), 28);
    assert_eq!(number([1, 1, 1], 2, 1), 28, "for the answer that is there too");
}

/// Every byte of the marks counts, and they are those of the answers that were
/// there.
#[test]
fn marks_are_compared_whole() {
    let right = [3, 3, 5];
    let number = |marks: [u8; 3]| number_of(XOR, &[1, 1, 1], &marks, 2, 2);
    assert_eq!(number(right), 0);
    assert_eq!(number([3, 3, 4]), 28, "the marks of the new ones");
    for place in 0..3 {
        let mut marks = right;
        marks[place] ^= 0x80;
        assert_eq!(number(marks), 28, "byte {place}");
    }
}

/// What a task reaches in plan P, in a contingency of blocks, and below blocks
/// that let nothing out.
#[test]
fn reach_by_the_plan() {
    let reach = |plan: &str, task: usize| {
        let plan = hex(plan);
        let plan = Plan::check(&plan).unwrap();
        (0..plan.size()).filter(|&node| reaches(&plan, task, node)).collect::<Vec<_>>()
    };
    assert_eq!(reach(P, 1), [0, 1, 2, 3, 4, 5]);
    assert_eq!(reach(P, 3), [0, 2, 3, 5]);
    assert_eq!(reach(P, 4), [0, 2, 4, 5]);
    assert_eq!(reach(P, 5), [0, 5]);
    assert_eq!(reach("06ff 0200 0101 0300 0103 0103", 2), [0, 1, 2, 3, 4, 5]);
    assert_eq!(reach("06ff 0200 0101 0300 0103 0103", 4), [0, 3, 4]);
    assert_eq!(reach("03ff 0100 0100", 1), [0, 1]);
    assert_eq!(reach("07ff 0100 0100", 1), [0, 1]);
    assert_eq!(
        reach("02ff 0400 0101 0100 0101", 4),
        [0, 1, 3, 4],
        "3 is a later sibling of 1, and stands before the task"
    );
    assert_eq!(reach("01ff", 0), [0]);
}

/// All lists over 0 to 3.
fn lists(nodes: usize) -> impl Iterator<Item = Vec<u8>> {
    (0..4_usize.pow(nodes as u32))
        .map(move |n| (0..nodes).map(|place| (n >> (2 * place) & 3) as u8).collect())
}

/// Every plan of up to four nodes, all lists of answers over 0 to 3, every task
/// and every new answer there: the marks are those of the pass over the changed
/// list, they differ only in the reach, nothing differs outside of a node on the
/// way up that keeps its mark, an xor keeps it, and all can be changed back.
#[test]
fn every_small_plan() {
    let mut passes = 0;
    for plan in (1..=4).flat_map(plans) {
        let checked = Plan::check(&plan).unwrap();
        for answers in lists(checked.size()) {
            let Ok(before) = pass_marks(&plan, &answers) else {
                continue;
            };
            for task in (0..checked.size()).filter(|&node| checked.kind(node) == Kind::Task) {
                for answer in 0..4 {
                    passes += u32::from(one_change(&checked, &plan, &answers, &before, task, answer));
                }
            }
        }
    }
    assert!(passes > 80_000, "{passes}");
}

fn one_change(checked: &Plan, plan: &[u8], answers: &[u8], before: &[u8], task: usize, answer: u8) -> bool {
    let what = || format!("{plan:02x?} {answers:?} {task} {answer}");
    let mut new = answers.to_vec();
    new[task] = answer;
    let mut marks = before.to_vec();
    let result = impact(plan, answers, &mut marks, task as u32, answer.into());
    match pass_marks(plan, &new) {
        Err(refused) => assert_eq!((result, &marks[..]), (refused, before), "{}", what()),
        Ok(after) => assert_eq!((result, &marks), (0, &after), "{}", what()),
    }
    if result != 0 {
        return false;
    }
    let differs = |node: usize| before[node] != marks[node];
    let nodes = 0..checked.size();
    assert!(nodes.clone().all(|node| !differs(node) || reaches(checked, task, node)), "{}", what());
    let up = |node: usize| std::iter::successors(Some(node), |&node| checked.parent(node));
    for block in up(task) {
        let outside = |node: usize| up(node).all(|above| above != block);
        let is_left = nodes.clone().filter(|&node| outside(node)).all(|node| !differs(node));
        assert!(differs(block) || is_left, "{}", what());
        assert!(checked.kind(block) != Kind::Xor || !differs(block), "{}", what());
    }
    assert_eq!(impact(plan, &new, &mut marks, task as u32, answers[task].into()), 0, "{}", what());
    assert_eq!(marks, before, "{}", what());
    true
}
