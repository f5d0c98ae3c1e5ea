//! Plans from before the and-block that fails early.

use crate::plan::{Kind, Plan};
use crate::refusal::Refusal;

/// Writes the plan with every and as a waiting one, and nothing else changed,
/// so that each guard is what it was when the plan was made. 1 to 6, then 7
/// if the bytes lent are not as many as the plan's.
pub fn rewrite(plan: &[u8], out: &mut [u8]) -> Result<(), Refusal> {
    Plan::check(plan)?;
    if out.len() != plan.len() {
        return Err(Refusal::Length);
    }
    out.copy_from_slice(plan);
    for kind in out.iter_mut().step_by(2).filter(|kind| **kind == Kind::And as u8) {
        *kind = Kind::WaitingAnd as u8;
    }
    Ok(())
}
