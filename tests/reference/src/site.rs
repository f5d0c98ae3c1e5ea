//! A site: what it lets happen by its own row, and what it hears.

use crate::event::{Code, Event};
use crate::guard::Guard;
use crate::layout::Layout;
use crate::plan::Plan;
use crate::refusal::Refusal;
use crate::rule;

/// What became of an event.
#[derive(Clone, Copy, Debug, PartialEq, Eq)]
pub enum Verdict {
    /// It happened at this site.
    Passed {
        /// The number of the site, or of its desk.
        site: usize,
        /// The rule that let it pass.
        rule: u8,
    },
    /// The site refused it, by its row.
    RefusedAt {
        /// Barred or guard.
        cause: Refusal,
        /// The number of the site, or of its desk.
        site: usize,
    },
    /// The call itself was wrong.
    Refused(Refusal),
}

impl From<Refusal> for Verdict {
    fn from(cause: Refusal) -> Verdict {
        Verdict::Refused(cause)
    }
}

/// A site's step. The row must be that of the event's site; which one it is
/// can't be seen from the row.
pub fn step(plan: &[u8], code: u32, node: u32, row: &mut [u8]) -> Verdict {
    match Plan::check(plan) {
        Ok(plan) => step_in(&plan, code, node, row),
        Err(cause) => cause.into(),
    }
}

/// A site's step in a checked plan: 7 for the row, then 8 and 9, then what the
/// site decides.
pub(crate) fn step_in(layout: &impl Layout, code: u32, node: u32, row: &mut [u8]) -> Verdict {
    match read(layout.plan(), code, node, row) {
        Ok(event) => happen(layout, event, row),
        Err(cause) => cause.into(),
    }
}

/// A message into a row. Whether the event has happened is for the caller to
/// know.
pub fn hear(plan: &[u8], code: u32, node: u32, row: &mut [u8]) -> Result<(), Refusal> {
    let event = read(&Plan::check(plan)?, code, node, row)?;
    event.set(row);
    Ok(())
}

/// Tries an event at its site: bars first, then the guard. A passed event is
/// set in the row, a refused one leaves it.
pub(crate) fn happen(layout: &impl Layout, event: Event, row: &mut [u8]) -> Verdict {
    let plan = layout.plan();
    let site = layout.number(event.site(plan));
    if is_barred(plan, event, row) {
        return Verdict::RefusedAt { cause: Refusal::Barred, site };
    }
    if !Guard::of(plan, event).holds(plan, row) {
        return Verdict::RefusedAt { cause: Refusal::Guard, site };
    }
    event.set(row);
    Verdict::Passed { site, rule: rule::of(plan, event) }
}

/// 7 for the row, then 8 and 9.
fn read(plan: &Plan, code: u32, node: u32, row: &[u8]) -> Result<Event, Refusal> {
    if row.len() != plan.size() {
        return Err(Refusal::Length);
    }
    Event::read(plan, code, node)
}

/// Whether the row holds something that shuts the event out. The bits count
/// as they stand, also where the event they are of can't apply.
fn is_barred(plan: &Plan, event: Event, row: &[u8]) -> bool {
    if event.code == Code::Pick {
        return is_pick_made(plan, event, row);
    }
    row[event.node] & bars(event.code) != 0
}

/// Whether any child of the same xor is already picked.
fn is_pick_made(plan: &Plan, event: Event, row: &[u8]) -> bool {
    plan.children(event.site(plan)).any(|child| row[child] & Code::Pick.bit() != 0)
}

/// The events of the same node that shut this one out.
const fn bars(code: Code) -> u8 {
    let (offer, commit, abort) = (Code::Offer.bit(), Code::Commit.bit(), Code::Abort.bit());
    match code {
        Code::Start | Code::TurnedDown | Code::Pick => code.bit(),
        Code::Offer => offer | abort,
        Code::Commit => commit | abort,
        Code::Abort => offer | commit | abort,
        Code::Yes | Code::No => Code::Yes.bit() | Code::No.bit(),
    }
}
