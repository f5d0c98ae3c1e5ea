//! The pass with one answer changed. Beside the reference it is held against
//! the subject's own passes, and against what the rules say of its reach.

use super::{Call, Trial};
use crate::codes::{TASK, XOR, number};
use crate::driver::Tree;
use crate::implementation::{Change, Implementation};
use crate::tally::Function;
use reference::impact::reaches;
use reference::plan::Plan;

impl<S: Implementation, R: Implementation> Trial<S, R> {
    /// Changes one answer, over marks that hold these bytes; answers the
    /// subject's marks too.
    pub fn impact(&mut self, plan: &[u8], answers: &[u8], marks: &[u8], change: Change) -> (u32, &[u8]) {
        self.plan.load(plan);
        self.two.load(answers);
        self.one.load(marks);
        let (their_answers, their_marks) = (&mut self.two.subject, &mut self.one.subject);
        let theirs = self.subject.impact(
            self.plan.bytes(),
            their_answers.bytes_mut(),
            their_marks.bytes_mut(),
            change,
        );
        let (our_answers, our_marks) = (&mut self.two.reference, &mut self.one.reference);
        let ours = self.reference.impact(plan, our_answers, our_marks, change);
        let right = match self.impact_by_passes(plan, answers, marks, change) {
            Ok(left) => {
                let kept = self.keeps_to_its_reach(plan, change.task as usize, marks, &left);
                theirs == 0 && self.one.holds(&left) && kept
            }
            Err(refused) => theirs == refused && self.one.is_untouched(),
        };
        let same = right && self.two.is_untouched();
        let numbers = &[change.task, change.answer];
        let call = Call { function: Function::Impact, plan, numbers, lent: &[answers, marks] };
        self.judge(call, ours, theirs, same);
        (ours, self.one.subject.bytes())
    }

    /// What must be left of the marks, or the number: by the subject's own check
    /// and its own passes over the answers and the new ones.
    fn impact_by_passes(
        &mut self,
        plan: &[u8],
        answers: &[u8],
        marks: &[u8],
        change: Change,
    ) -> Result<Vec<u8>, u32> {
        let checked = self.subject.check(plan);
        if checked != 0 {
            return Err(checked);
        }
        let (nodes, task) = (plan.len() / 2, change.task as usize);
        if answers.len() != nodes || marks.len() != nodes {
            return Err(7);
        }
        if task >= nodes {
            return Err(8);
        }
        if plan[2 * task] != TASK {
            return Err(9);
        }
        let before = self.marks_of_pass(plan, answers)?;
        let mut new = answers.to_vec();
        new[task] = u8::try_from(change.answer).map_err(|_| 13_u32)?;
        let after = self.marks_of_pass(plan, &new)?;
        if marks == before { Ok(after) } else { Err(28) }
    }

    /// The marks of the subject's own pass, or its number.
    pub fn marks_of_pass(&mut self, plan: &[u8], answers: &[u8]) -> Result<Vec<u8>, u32> {
        let mut marks = vec![0; answers.len()];
        match number(self.subject.pass(plan, answers, &mut marks)) {
            0 => Ok(marks),
            refused => Err(refused.into()),
        }
    }

    /// Whether marks differ only in the task's reach; nowhere outside of the
    /// task or a block above it that keeps its mark; and at no xor above.
    fn keeps_to_its_reach(&mut self, plan: &[u8], task: usize, before: &[u8], after: &[u8]) -> bool {
        let Ok(checked) = Plan::check(plan) else {
            return false;
        };
        let tree = Tree::new(plan);
        let path = [vec![task], tree.above(task)].concat();
        let others: Vec<usize> = (0..before.len()).filter(|&node| before[node] != after[node]).collect();
        let behind = others.iter().any(|node| !path.contains(node));
        self.tally.jobs.changes += 1;
        self.tally.jobs.with_other_marks += u64::from(!others.is_empty());
        self.tally.jobs.in_later_subtrees += u64::from(behind);
        let is_inside = |node: usize, block: usize| node == block || tree.above(node).contains(&block);
        let is_kept = |&block: &usize| match others.contains(&block) {
            true => tree.kind(block) != XOR,
            false => others.iter().all(|&node| is_inside(node, block)),
        };
        others.iter().all(|&node| reaches(&checked, task, node)) && path.iter().all(is_kept)
    }
}
