//! One answer changed, with one mistake each.

use super::Mistake;
use crate::codes::{CONTINGENCY, SERIAL, TASK};
use crate::driver::Tree;
use crate::implementation::{Change, Implementation, Reference};
use reference::impact::reaches;
use reference::plan::Plan;

/// Changes one answer.
pub fn impact(mistake: Mistake, plan: &[u8], answers: &mut [u8], marks: &mut [u8], change: Change) -> u32 {
    let checked = Reference.check(plan);
    if checked != 0 {
        return checked;
    }
    let nodes = plan.len() / 2;
    let is_short = answers.len() != nodes || marks.len() != nodes;
    if is_short && mistake != Mistake::TaskBeforeLengths {
        return 7;
    }
    let task = if mistake == Mistake::TaskCut { change.task & 0xff } else { change.task } as usize;
    let swapped = mistake == Mistake::TaskNumbersSwapped;
    if task >= nodes {
        return if swapped { 9 } else { 8 };
    }
    if plan[2 * task] != TASK && mistake != Mistake::AnyNodeChanges {
        return if swapped { 8 } else { 9 };
    }
    if is_short {
        return 7;
    }
    let passes = Passes::new(mistake, plan, answers, task, change.answer);
    let result = passes.number(mistake, plan, answers, marks);
    let Ok(after) = &passes.after else {
        return result;
    };
    match (mistake, result) {
        (_, 0) => passes.leave(mistake, plan, answers, marks, after),
        (Mistake::RefusedChangeWrites, 28) => {
            marks.copy_from_slice(after);
            28
        }
        _ => result,
    }
}

/// The passes over the answers and over the new ones.
struct Passes {
    task: usize,
    answer: u32,
    before: Result<Vec<u8>, u32>,
    after: Result<Vec<u8>, u32>,
}

impl Passes {
    fn new(mistake: Mistake, plan: &[u8], answers: &[u8], task: usize, answer: u32) -> Passes {
        let before = pass(plan, answers);
        let mut new = answers.to_vec();
        new[task] = answer as u8;
        let is_free = before.as_ref().is_ok_and(|marks| marks[task] == 0);
        let refuses = mistake == Mistake::UnreachedAnswerRefused && is_free && !matches!(answer, 1 | 2);
        let after = if refuses { Err(13) } else { pass(plan, &new) };
        Passes { task, answer, before, after }
    }

    /// What is found first.
    fn number(&self, mistake: Mistake, plan: &[u8], answers: &[u8], marks: &[u8]) -> u32 {
        let is_free = self.before.as_ref().is_ok_and(|before| before[self.task] == 0);
        let may_be_large = match mistake {
            Mistake::AnswerCut => true,
            Mistake::LargeAnswerFreeWhereUnreached => is_free,
            _ => false,
        };
        let of_answers = self.before.as_ref().err().copied();
        let of_answer = (self.answer > 255 && !may_be_large).then_some(13);
        let of_new_answers = self.after.as_ref().err().copied();
        let of_marks = (!self.are_right(mistake, plan, answers, marks)).then_some(28);
        let order = match mistake {
            Mistake::MarksBeforeFaults => [of_marks, of_answers, of_answer, of_new_answers],
            Mistake::MarksBeforeNewFaults => [of_answers, of_marks, of_answer, of_new_answers],
            Mistake::NewAnswersFirst => [of_answer, of_new_answers, of_answers, of_marks],
            Mistake::LargeAnswerFirst => [of_answer, of_answers, of_new_answers, of_marks],
            Mistake::LargeAnswerLast => [of_answers, of_new_answers, of_answer, of_marks],
            _ => [of_answers, of_answer, of_new_answers, of_marks],
        };
        order.into_iter().flatten().next().unwrap_or(0)
    }

    /// Whether the marks are good enough.
    fn are_right(&self, mistake: Mistake, plan: &[u8], answers: &[u8], marks: &[u8]) -> bool {
        let wanted = if mistake == Mistake::MarksOfTheNewAnswers { &self.after } else { &self.before };
        let Ok(wanted) = wanted else {
            return false;
        };
        let same = |node: usize| marks[node] == wanted[node];
        match mistake {
            Mistake::MarksNotCompared => true,
            Mistake::MarksComparedAtTheTask => same(self.task),
            Mistake::MarksComparedInTheReach => {
                (0..marks.len()).all(|node| same(node) || !is_reached(plan, self.task, node))
            }
            Mistake::SameAnswerUnchecked if u32::from(answers[self.task]) == self.answer => true,
            _ => marks == wanted,
        }
    }

    /// Writes the marks of a change that passes.
    fn leave(
        &self,
        mistake: Mistake,
        plan: &[u8],
        answers: &mut [u8],
        marks: &mut [u8],
        after: &[u8],
    ) -> u32 {
        let tree = Tree::new(plan);
        let before = marks.to_vec();
        for node in 0..marks.len() {
            if !self.stays(mistake, &tree, node, after[node]) {
                marks[node] = after[node];
            }
            if mistake == Mistake::NewOffersCommit && after[node] == 5 && before[node] != 5 {
                marks[node] = 3;
            }
        }
        if mistake == Mistake::AnswerStored {
            answers[self.task] = self.answer as u8;
        }
        let others = marks.iter().zip(&before).filter(|(after, before)| after != before).count() as u32;
        if mistake == Mistake::ChangeAnswersACount { others << 16 } else { 0 }
    }

    /// Whether a node wrongly keeps its mark.
    fn stays(&self, mistake: Mistake, tree: &Tree, node: usize, after: u8) -> bool {
        let above = tree.above(self.task);
        let on_path = node == self.task || above.contains(&node);
        let below = tree.above(node);
        let branches = below.iter().position(|block| above.contains(block));
        let in_later = |kind: u8| !on_path && branches.is_some_and(|place| tree.kind(below[place]) == kind);
        match mistake {
            Mistake::OnlyThePathChanges => !on_path,
            Mistake::ContingencyForgotten => in_later(CONTINGENCY),
            Mistake::SerialForgotten => in_later(SERIAL),
            Mistake::SubtreesForgotten => !on_path && branches.is_some_and(|place| place > 0),
            Mistake::StopsAtTheParent => above.iter().skip(1).any(|&block| block == node),
            Mistake::NewlyUnreachedStay => after == 0,
            _ => false,
        }
    }
}

fn is_reached(plan: &[u8], task: usize, node: usize) -> bool {
    Plan::check(plan).is_ok_and(|plan| reaches(&plan, task, node))
}

/// The marks of the honest pass, or its number.
fn pass(plan: &[u8], answers: &[u8]) -> Result<Vec<u8>, u32> {
    let mut marks = vec![0; answers.len()];
    match Reference.pass(plan, answers, &mut marks) {
        0 => Ok(marks),
        number => Err(number),
    }
}
