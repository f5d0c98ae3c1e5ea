//! A test load that each side draws by itself and runs through simulate, step by step, from
//! a fresh start.

use differential::Implementation;
use differential::codes::number;
use differential::loads::STEP_BYTES;
use std::hint::black_box;

/// The seed of the measured loads.
pub const SEED: u32 = 1;
/// How many steps they have.
pub const STEPS: usize = 10_000;

/// One side's load and state.
pub struct Run<'a> {
    plan: &'a [u8],
    load: Vec<u8>,
    state: Vec<u8>,
}

impl Run<'_> {
    /// A run of a plan's load.
    pub fn new(plan: &[u8]) -> Run<'_> {
        let nodes = plan.len() / 2;
        Run { plan, load: vec![0; STEP_BYTES * STEPS], state: vec![0; nodes * nodes] }
    }

    /// Draws the load and runs it; answers how many steps passed, and behind that a sum over
    /// all results.
    pub fn run(&mut self, subject: &mut impl Implementation) -> (u32, u32) {
        self.state.fill(0);
        subject.workload(black_box(self.plan), SEED, STEPS as u32, &mut self.load);
        let steps = self.load.as_chunks().0.iter().map(|step: &[u8; STEP_BYTES]| step.map(u32::from));
        steps.fold((0, 0), |(passed, sum), [code, node, site]| {
            let result = subject.simulate(black_box(self.plan), code, node, site, &mut self.state);
            (passed + u32::from(number(result) == 0), sum.rotate_left(5) ^ result)
        })
    }
}

#[cfg(test)]
mod tests {
    use super::*;
    use crate::fixture::Fixture;
    use differential::Reference;

    /// A second run answers the same, and some steps pass.
    #[test]
    fn runs_are_alike() {
        let fixture = Fixture::new(10);
        let mut run = Run::new(&fixture.plan);
        let first = run.run(&mut Reference);
        assert_eq!(run.run(&mut Reference), first);
        assert!((100..STEPS as u32).contains(&first.0), "{first:?}");
    }
}
