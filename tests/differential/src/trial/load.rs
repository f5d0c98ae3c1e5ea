//! Test loads. Beside the reference they are held against each step by its place, and
//! against the subject's own check.

use super::{Call, Trial, short_bytes};
use crate::implementation::Implementation;
use crate::loads::{self, STEP_BYTES};
use crate::tally::Function;

impl<S: Implementation, R: Implementation> Trial<S, R> {
    /// Asks for the load of any seed and count, into bytes that hold these; answers the
    /// subject's bytes too.
    pub fn workload(&mut self, plan: &[u8], seed: u32, count: u32, out: &[u8]) -> (u32, &[u8]) {
        let expected = self.expected_load(plan, seed, count, out.len());
        self.plan.load(plan);
        self.one.load(out);
        let theirs = self.subject.workload(self.plan.bytes(), seed, count, self.one.subject.bytes_mut());
        let ours = self.reference.workload(plan, seed, count, &mut self.one.reference);
        let right = match expected {
            Ok(load) => theirs == 0 && self.one.holds(&load),
            Err(refused) => theirs == refused && self.one.is_untouched(),
        };
        let numbers = &[seed, count, out.len() as u32];
        let call = Call { function: Function::Workload, plan, numbers, lent: &[short_bytes(out)] };
        self.judge(call, ours, theirs, right);
        (ours, self.one.subject.bytes())
    }

    /// The load by its places, or what is wrong: with the plan, by the subject's own check,
    /// or with the length.
    fn expected_load(&mut self, plan: &[u8], seed: u32, count: u32, length: usize) -> Result<Vec<u8>, u32> {
        match self.subject.check(plan) {
            0 => {}
            refused => return Err(refused),
        }
        if length as u64 != STEP_BYTES as u64 * u64::from(count) {
            self.tally.jobs.wrapping_counts += u64::from(loads::wrapping_count(length) == Some(count));
            return Err(7);
        }
        self.tally.jobs.loads += 1;
        Ok(loads::load(plan.len() / 2, seed, count))
    }
}
