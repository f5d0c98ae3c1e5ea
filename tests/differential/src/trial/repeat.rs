//! Templates that are repeated. Beside the reference they are held against the tree
//! as it is read here, and against the subject's own check and renumbering.

use super::{Call, Trial};
use crate::implementation::Implementation;
use crate::plans;
use crate::tally::Function;

/// The bytes that must be lent: those of the largest plan.
const MOST_BYTES: usize = 320;

impl<S: Implementation, R: Implementation> Trial<S, R> {
    /// Repeats a template, whose marked node and count may be any numbers, into bytes
    /// that hold these; answers the subject's bytes too.
    pub fn repeat(&mut self, plan: &[u8], node: u32, count: u32, out: &[u8]) -> (u32, &[u8]) {
        let expected = self.expected_of_template(plan, node, count, out.len());
        self.plan.load(plan);
        self.one.load(out);
        let theirs = self.subject.repeat(self.plan.bytes(), node, count, self.one.subject.bytes_mut());
        let ours = self.reference.repeat(plan, node, count, &mut self.one.reference);
        let right = match expected {
            Ok(written) => {
                let nodes = written.len() as u32 / 2;
                let all = [&written, &out[written.len()..]].concat();
                theirs == nodes << 16 && self.one.holds(&all) && self.is_renumbered(&written, plan, count)
            }
            Err(refused) => theirs == refused && self.one.is_untouched(),
        };
        let numbers = &[node, count, out.len() as u32];
        let call = Call { function: Function::Repeat, plan, numbers, lent: &[out] };
        self.judge(call, ours, theirs, right);
        (ours, self.one.subject.bytes())
    }

    /// The repeated plan by the tree, or what is wrong: with the plan, by the subject's
    /// own check, with the length, or with the template.
    fn expected_of_template(
        &mut self,
        plan: &[u8],
        node: u32,
        count: u32,
        length: usize,
    ) -> Result<Vec<u8>, u32> {
        match self.subject.check(plan) {
            0 => {}
            refused => return Err(refused),
        }
        match node as usize {
            _ if length != MOST_BYTES => Err(7),
            node if node >= plan.len() / 2 => Err(8),
            node if !plans::is_template(plan, node) => Err(23),
            _ if !(1..=32).contains(&count) => Err(24),
            node => {
                let written = plans::repeated(plan, node, count as usize);
                self.count_template(written.len() / 2);
                if written.len() <= MOST_BYTES { Ok(written) } else { Err(25) }
            }
        }
    }

    fn count_template(&mut self, nodes: usize) {
        let jobs = &mut self.tally.jobs;
        jobs.repeated += u64::from(nodes <= 160);
        jobs.just_full += u64::from(nodes == 160);
        jobs.one_too_many += u64::from(nodes == 161);
    }

    /// Whether the subject accepts what it wrote, and its renumbering leaves it as it
    /// is; and with a count of 1 makes it of the template.
    fn is_renumbered(&mut self, written: &[u8], template: &[u8], count: u32) -> bool {
        let mut is_made_of = |plan: &[u8]| {
            let mut out = vec![0; written.len()];
            self.subject.renumber(plan, &mut out) == 0 && out == written
        };
        let right = is_made_of(written) && (count != 1 || is_made_of(template));
        right && self.subject.check(written) == 0
    }
}
