//! One answer changed: single changes of any task to anything, some that follow
//! each other, and all changes of all small plans.

use super::{any_node, fitting_answers, length};
use crate::codes::TASK;
use crate::driver::Tree;
use crate::implementation::{Change, Implementation};
use crate::plans;
use crate::random::Random;
use crate::tables;
use crate::trial::{Trial, hex};

/// New answers: those that a task has, others that are bytes, and none.
const ANSWERS: [u32; 15] = [1, 1, 1, 1, 2, 2, 2, 2, 0, 3, 255, 256, 257, 258, u32::MAX];

/// What stands for marks where there are none.
const LEFT: u8 = 0xa5;

/// Changes over answers that fit, nearly fit or don't fit at all; in the plan, and
/// in one that has more blocks that take their children in turn.
pub fn impacts<S: Implementation, R: Implementation>(
    trial: &mut Trial<S, R>,
    random: &mut Random,
    plan: &[u8],
) {
    let mut in_turn = plan.to_vec();
    plans::favour_turns(random, &mut in_turn);
    for plan in [plan, &in_turn] {
        let tree = Tree::new(plan);
        for _ in 0..15 {
            let answers = any_answers(random, &tree);
            changes(trial, random, plan, &tree, answers);
        }
    }
}

/// Changes over one list of answers, and over those that come of it.
fn changes<S: Implementation, R: Implementation>(
    trial: &mut Trial<S, R>,
    random: &mut Random,
    plan: &[u8],
    tree: &Tree,
    mut answers: Vec<u8>,
) {
    for _ in 0..8 {
        let right = trial.marks_of_pass(plan, &answers);
        let reached = right.as_deref().unwrap_or_default();
        let change = any_change(random, tree, &answers, reached);
        let marks = any_marks(trial, random, (plan, &answers, change), reached);
        trial.impact(plan, &answers, &marks, change);
        if let Ok(right) = right {
            follow(trial, random, plan, &mut answers, &right, change);
        }
    }
}

/// Answers that mostly fit.
fn any_answers(random: &mut Random, tree: &Tree) -> Vec<u8> {
    let mut answers = fitting_answers(random, tree);
    let nodes = answers.len();
    match random.below(10) {
        0 => answers = (0..nodes).map(|_| random.one_of(&[0, 1, 1, 2, 2, 3, 9])).collect(),
        1 | 2 => answers[random.below(nodes)] = random.one_of(&[0, 1, 2, 3, 4, 33, 255]),
        _ => {}
    }
    answers
}

/// A change over the right marks. If it passes, the classes of both lists are
/// compared, it is changed back, and now and then it is stored.
fn follow<S: Implementation, R: Implementation>(
    trial: &mut Trial<S, R>,
    random: &mut Random,
    plan: &[u8],
    answers: &mut [u8],
    marks: &[u8],
    change: Change,
) {
    let (result, left) = trial.impact(plan, answers, marks, change);
    let left = left.to_vec();
    let task = change.task as usize;
    if result != 0 || task >= answers.len() {
        return;
    }
    let mut new = answers.to_vec();
    let old = std::mem::replace(&mut new[task], change.answer as u8);
    let back = Change { answer: old.into(), ..change };
    let (result, again) = trial.impact(plan, &new, &left, back);
    let is_back = result == 0 && again == marks;
    trial.tally.compare(is_back, || format!("{} {} {change:?}: not changed back", hex(plan), hex(answers)));
    let (result, same) = trial.impact(plan, answers, marks, back);
    let is_left = result == 0 && same == marks;
    trial.tally.compare(is_left, || format!("{} {} {back:?}: not left", hex(plan), hex(answers)));
    classes(trial, random, plan, [answers, &new]);
    if random.chance(50) {
        answers[task] = new[task];
    }
}

/// Classes of two lists by one table: they differ only at tasks whose own mark
/// differs, or that of a block above.
fn classes<S: Implementation, R: Implementation>(
    trial: &mut Trial<S, R>,
    random: &mut Random,
    plan: &[u8],
    lists: [&[u8]; 2],
) {
    let table = tables::sound(random);
    let [one, two] = lists.map(|answers| {
        let (marks, classes) = (random.bytes(answers.len()), random.bytes(answers.len()));
        let (_, marks, classes) = trial.pass_record(plan, &table, answers, &marks, &classes);
        (marks.to_vec(), classes.to_vec())
    });
    let tree = Tree::new(plan);
    let may_differ = |node: usize| {
        let differs = |&node: &usize| one.0[node] != two.0[node];
        tree.kind(node) == TASK && (differs(&node) || tree.above(node).iter().any(differs))
    };
    let right = (0..one.1.len()).all(|node| one.1[node] == two.1[node] || may_differ(node));
    trial.tally.compare(right, || format!("classes of {}: {} and {}", hex(plan), hex(&one.1), hex(&two.1)));
}

/// A change, mostly of a task, often of one that is reached by its mark and that
/// then ends the other way.
fn any_change(random: &mut Random, tree: &Tree, answers: &[u8], marks: &[u8]) -> Change {
    let tasks: Vec<usize> = (0..answers.len()).filter(|&node| tree.kind(node) == TASK).collect();
    let is_reached = |&task: &usize| marks.get(task).is_some_and(|&mark| mark != 0);
    let reached: Vec<usize> = tasks.iter().copied().filter(is_reached).collect();
    let any = random.one_of(&tasks) as u32;
    match random.below(20) {
        0 => Change { task: any_node(random, answers.len()), answer: random.one_of(&ANSWERS) },
        1 => {
            Change { task: any | random.one_of(&[1 << 8, 1 << 16, 1 << 31]), answer: random.one_of(&ANSWERS) }
        }
        2..=9 if !reached.is_empty() => {
            let task = random.one_of(&reached);
            Change { task: task as u32, answer: if answers[task] == 1 { 2 } else { 1 } }
        }
        _ => Change { task: any, answer: random.one_of(&ANSWERS) },
    }
}

/// Marks from the right ones, if there are any: the same, one byte wrong, another
/// length, those of the new answers, or any.
fn any_marks<S: Implementation, R: Implementation>(
    trial: &mut Trial<S, R>,
    random: &mut Random,
    (plan, answers, change): (&[u8], &[u8], Change),
    right: &[u8],
) -> Vec<u8> {
    let nodes = answers.len();
    let mut marks = if right.is_empty() { vec![LEFT; nodes] } else { right.to_vec() };
    match random.below(6) {
        0 | 1 => marks[random.below(nodes)] ^= random.one_of(&[1, 2, 4, 7, 0x80]),
        2 => {
            let length = length(random, nodes);
            marks.resize(length, LEFT);
        }
        3 | 4 => {
            let mut new = answers.to_vec();
            let task = new.get_mut(change.task as usize);
            task.into_iter().for_each(|answer| *answer = change.answer as u8);
            marks = trial.marks_of_pass(plan, &new).unwrap_or(marks);
        }
        _ => marks = (0..nodes).map(|_| random.one_of(&[0, 3, 4, 5])).collect(),
    }
    marks
}

/// Every plan of up to four nodes, all answers over 0 to 3, every node for a
/// task, and new answers over 0 to 3 and above 255, over the right marks.
pub fn every_small_plan<S: Implementation, R: Implementation>(trial: &mut Trial<S, R>) {
    for plan in (1..=4).flat_map(plans::all) {
        let nodes = plan.len() / 2;
        for list in 0..1_usize << (2 * nodes) {
            let answers: Vec<u8> = (0..nodes).map(|place| (list >> (2 * place) & 3) as u8).collect();
            let marks = trial.marks_of_pass(&plan, &answers).unwrap_or(vec![LEFT; nodes]);
            for task in (0..=nodes as u32).filter(|&node| node == nodes as u32 || is_task(&plan, node)) {
                for answer in [0, 1, 2, 3, 257] {
                    trial.impact(&plan, &answers, &marks, Change { task, answer });
                }
            }
        }
    }
}

fn is_task(plan: &[u8], node: u32) -> bool {
    plan[2 * node as usize] == TASK
}
