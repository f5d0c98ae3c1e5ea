//! The rule behind an event, as one byte for a log: high digit the kind whose
//! children or siblings the event's guard names, low digit the event's code.

use crate::event::{Code, Event};
use crate::plan::Plan;
use crate::refusal::Refusal;

/// Stands in the high digit for the root's start, which names nobody.
const NOBODY: u8 = 0;
/// The commit of an xor's child, which goes by the pick alone.
const COMMIT_BY_PICK: u8 = 0xf3;

/// The rule of an event. 1 to 6, 8, 9.
pub fn rule(plan: &[u8], code: u32, node: u32) -> Result<u8, Refusal> {
    let plan = Plan::check(plan)?;
    let event = Event::read(&plan, code, node)?;
    Ok(of(&plan, event))
}

/// The rule of an event that applies.
pub(crate) fn of(plan: &Plan, event: Event) -> u8 {
    let Event { code, node } = event;
    let named = match code {
        Code::Commit if plan.xor_above(node).is_some() => return COMMIT_BY_PICK,
        Code::Start | Code::Pick | Code::TurnedDown => plan.parent(node),
        Code::Commit | Code::Offer | Code::Abort | Code::Yes | Code::No => Some(node),
    };
    let kind = named.map_or(NOBODY, |node| plan.kind(node) as u8);
    kind << 4 | code as u8
}
