//! Small plans, one after another. Beside the reference the next is held against a list
//! of all that the check accepts, and against the subject's own check.

use super::{Call, Trial, hex};
use crate::codes::{TASK, number, value};
use crate::implementation::Implementation;
use crate::plans::{self, MOST_SMALL_BYTES};
use crate::tally::Function;

impl<S: Implementation, R: Implementation> Trial<S, R> {
    /// Asks for the plan that comes next, into bytes that hold these.
    pub fn next_plan(&mut self, plan: &[u8], out: &[u8]) -> u32 {
        let expected = self.expected_next(plan, out.len());
        self.plan.load(plan);
        self.one.load(out);
        let theirs = self.subject.next_plan(self.plan.bytes(), self.one.subject.bytes_mut());
        let ours = self.reference.next_plan(plan, &mut self.one.reference);
        let right = match expected {
            Ok(next) => {
                let all = [next, &out[next.len()..]].concat();
                let nodes = next.len() as u32 / 2;
                theirs == nodes << 16 && self.one.holds(&all) && self.subject.check(next) == 0
            }
            Err(refused) => theirs == refused && self.one.is_untouched(),
        };
        let numbers = &[out.len() as u32];
        let call = Call { function: Function::NextPlan, plan, numbers, lent: &[out] };
        self.judge(call, ours, theirs, right);
        ours
    }

    /// The next plan by the list, or what is wrong: with the plan, by the subject's own
    /// check, with its place in the list, or with the length.
    fn expected_next(&mut self, plan: &[u8], length: usize) -> Result<&'static [u8], u32> {
        match self.subject.check(plan) {
            0 => {}
            refused => return Err(refused),
        }
        if plan.len() > MOST_SMALL_BYTES {
            return Err(27);
        }
        let next = plans::after(plan).ok_or(26_u32)?;
        if length != MOST_SMALL_BYTES {
            return Err(7);
        }
        self.tally.jobs.next_plans += 1;
        self.tally.jobs.of_new_size += u64::from(next.len() > plan.len());
        Ok(next)
    }

    /// The subject's own walk: from the single task on, and each time from what it wrote.
    /// It must come by every small plan in order, and end with 26.
    pub fn walk(&mut self) {
        let mut plan = vec![TASK, 0xff];
        let mut list = plans::small().iter();
        let mut result = 0;
        while number(result) == 0 && list.next() == Some(&plan) {
            let mut out = [0xa5; MOST_SMALL_BYTES];
            result = self.subject.next_plan(&plan, &mut out);
            if number(result) == 0 {
                plan = out[..MOST_SMALL_BYTES.min(2 * value(result) as usize)].to_vec();
            }
        }
        let is_over = result == 26 && list.next().is_none();
        self.tally.jobs.walks += u64::from(is_over);
        self.tally.compare(is_over, || format!("the walk ends at {} with {result:08x}", hex(&plan)));
    }
}
