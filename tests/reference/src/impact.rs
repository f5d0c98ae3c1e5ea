//! One answer changed: what it can reach, and what the pass leaves with it.

use crate::pass::settle;
use crate::plan::{Kind, MAX_NODES, Plan};
use crate::refusal::Refusal;

/// Changes the answer of one task: the marks, which must be those of the pass
/// over the answers, become those of the pass over the answers with the new
/// one. 1 to 9; 13 and 14 of the answers; 13 for a new answer that is no byte;
/// 13 and 14 of the new answers; 28. The answers stay.
pub fn impact(plan: &[u8], answers: &[u8], marks: &mut [u8], task: u32, answer: u32) -> Result<(), Refusal> {
    let plan = Plan::check(plan)?;
    let size = plan.size();
    if answers.len() != size || marks.len() != size {
        return Err(Refusal::Length);
    }
    let task = usize::try_from(task).ok().filter(|&task| task < size).ok_or(Refusal::Unknown)?;
    if plan.kind(task) != Kind::Task {
        return Err(Refusal::NotApplicable);
    }
    let before = passed(plan, answers)?;
    let mut changed = [0; MAX_NODES];
    changed[..size].copy_from_slice(answers);
    changed[task] = u8::try_from(answer).map_err(|_| Refusal::Answer)?;
    let after = passed(plan, &changed[..size])?;
    if *marks != before[..size] {
        return Err(Refusal::Marks);
    }
    marks.copy_from_slice(&after[..size]);
    Ok(())
}

/// The marks of the pass over these answers: 13, 14.
fn passed(plan: Plan, answers: &[u8]) -> Result<[u8; MAX_NODES], Refusal> {
    let mut marks = [0; MAX_NODES];
    settle(plan, answers, &mut marks[..answers.len()])?;
    Ok(marks)
}

/// Whether a node is in the reach of a task, by the plan alone: it is the task
/// or a block above it, or it lies in the subtree of a later sibling of one of
/// these whose parent is a serial or a contingency. Nothing else can have
/// another mark when the answer of this task alone changes.
pub fn reaches(plan: &Plan, task: usize, node: usize) -> bool {
    let mut path = up(plan, task);
    path.clone().any(|block| block == node)
        || path.any(|block| up(plan, node).any(|other| is_later_in_turn(plan, block, other)))
}

/// Whether two nodes are siblings, the second later than the first, in a block
/// that takes its children in turn.
fn is_later_in_turn(plan: &Plan, first: usize, second: usize) -> bool {
    let parent = plan.parent(first);
    let in_turn = |block: usize| matches!(plan.kind(block), Kind::Serial | Kind::Contingency);
    second > first && parent == plan.parent(second) && parent.is_some_and(in_turn)
}

/// A node and all blocks above it.
fn up<'a>(plan: &'a Plan, node: usize) -> impl Iterator<Item = usize> + Clone + use<'a> {
    std::iter::successors(Some(node), |&node| plan.parent(node))
}
