//! Ways there. Beside the reference they are held against the subject's own
//! passes, and against what the rules say of every target.

use super::{Call, Trial};
use crate::codes::{CONDITIONAL, TASK, XOR};
use crate::implementation::{Implementation, Wanted};
use crate::tally::Function;

impl<S: Implementation, R: Implementation> Trial<S, R> {
    /// Looks for the way to a target, over answers that hold these bytes;
    /// answers the subject's bytes too.
    pub fn way(&mut self, plan: &[u8], wanted: Wanted, answers: &[u8]) -> (u32, &[u8]) {
        self.plan.load(plan);
        self.one.load(answers);
        let theirs = self.subject.way(self.plan.bytes(), wanted, self.one.subject.bytes_mut());
        let ours = self.reference.way(plan, wanted, &mut self.one.reference);
        let found = self.one.subject.bytes().to_vec();
        let right = match (self.refusal_of_target(plan, wanted, answers), theirs) {
            (0, 0) => self.leads(plan, wanted, &found),
            (0, 30) => wanted.mark != wanted.end && self.one.is_untouched(),
            (refused, _) => theirs == refused && self.one.is_untouched(),
        };
        self.tally.jobs.ways += u64::from(theirs == 0);
        self.tally.jobs.without_way += u64::from(theirs == 30);
        let same = self.one.agrees() && right;
        let numbers = &[wanted.node, wanted.mark, wanted.end];
        let call = Call { function: Function::Way, plan, numbers, lent: &[answers] };
        self.judge(call, ours, theirs, same);
        (ours, self.one.subject.bytes())
    }

    /// What is wrong with the plan, by the subject's own check, with the length,
    /// or with the target; 0 if a way is to be looked for.
    fn refusal_of_target(&mut self, plan: &[u8], wanted: Wanted, answers: &[u8]) -> u32 {
        let nodes = plan.len() / 2;
        match self.subject.check(plan) {
            0 if answers.len() != nodes => 7,
            0 if wanted.node as usize >= nodes => 8,
            0 if !matches!((wanted.mark, wanted.end), (0 | 3 | 4 | 5, 3 | 4)) => 29,
            checked => checked,
        }
    }

    /// Whether the subject's own pass accepts the answers and leaves what is
    /// wanted, and all answers that it doesn't read are 0.
    fn leads(&mut self, plan: &[u8], wanted: Wanted, answers: &[u8]) -> bool {
        self.marks_of_pass(plan, answers).is_ok_and(|marks| {
            let has_both =
                (u32::from(marks[wanted.node as usize]), u32::from(marks[0])) == (wanted.mark, wanted.end);
            has_both && without_unread(plan, answers, &marks) == answers
        })
    }
}

/// Answers with 0 wherever the pass that left these marks doesn't read them.
pub fn without_unread(plan: &[u8], answers: &[u8], marks: &[u8]) -> Vec<u8> {
    let is_read = |node: usize| marks[node] != 0 && matches!(plan[2 * node], TASK | XOR | CONDITIONAL);
    (0..answers.len()).map(|node| if is_read(node) { answers[node] } else { 0 }).collect()
}
