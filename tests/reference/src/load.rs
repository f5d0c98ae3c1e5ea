//! A test load: steps that a generator of 32 bits draws, the same for all who have the
//! plan, the seed and the count.

use crate::plan::{Plan, require};
use crate::refusal::Refusal;
use crate::simulate::HAPPENS;

/// A move multiplies by the factor and adds the addend.
const FACTOR: u32 = 1_664_525;
const ADDEND: u32 = 1_013_904_223;
/// A draw is the number after the move divided by this.
const DIVISOR: u32 = 65_536;
/// How many codes there are, from 1 on.
const CODES: u32 = 8;

/// A step as in a text: code, node, and the site that hears of it, or `HAPPENS`.
pub type Step = [u8; 3];

/// Writes as many steps as the count says. 1 to 6, then 7 unless just three bytes a step
/// are lent.
pub fn workload(plan: &[u8], seed: u32, count: u32, out: &mut [u8]) -> Result<(), Refusal> {
    let plan = Plan::check(plan)?;
    let (steps, rest) = out.as_chunks_mut();
    require(rest.is_empty() && steps.len() as u64 == u64::from(count), Refusal::Length)?;
    let mut generator = Generator(seed);
    steps.iter_mut().for_each(|step| *step = generator.step(plan.size()));
    Ok(())
}

/// The number that everything is drawn from; at first the seed.
pub struct Generator(pub u32);

impl Generator {
    /// Moves on, and answers the upper half of the new number.
    pub fn draw(&mut self) -> u32 {
        self.0 = self.0.wrapping_mul(FACTOR).wrapping_add(ADDEND);
        self.0 / DIVISOR
    }

    /// Four draws make a step of a plan of so many nodes. An event takes the fourth as
    /// well, but has no site to read from it.
    pub fn step(&mut self, nodes: usize) -> Step {
        let [what, code, node, site] = [(); 4].map(|()| self.draw());
        let nodes = nodes as u32;
        let site = if what % 2 == 0 { HAPPENS } else { site % nodes };
        [code % CODES + 1, node % nodes, site].map(|number| number as u8)
    }
}
