//! The journal: the steps of a simulation that passed, in lent entries, so
//! that they can be taken back, the last one first.

use crate::layout::Layout;
use crate::plan::Plan;
use crate::refusal::Refusal;
use crate::simulate::{Outcome, Step};

/// A step that passed: code, node, site or desk (255 where the event happened),
/// and whether the step changed its bit: any byte but 0 says so.
pub type Entry = [u8; 4];

/// One step on the whole state, kept at the first free place: 1 to 6, then 7
/// for the state and for a journal without such a place, then what the step
/// itself comes to.
pub fn keep(
    plan: &[u8],
    code: u32,
    node: u32,
    site: u32,
    state: &mut [u8],
    entries: &mut [Entry],
    count: &mut usize,
) -> Outcome {
    match Plan::check(plan) {
        Ok(plan) => keep_in(&plan, [code, node, site], state, entries, count),
        Err(cause) => Outcome::Refused(cause),
    }
}

/// The same in a checked plan.
pub(crate) fn keep_in(
    layout: &impl Layout,
    step: [u32; 3],
    state: &mut [u8],
    entries: &mut [Entry],
    count: &mut usize,
) -> Outcome {
    try_to_keep(layout, step, state, entries, count).unwrap_or_else(Outcome::Refused)
}

fn try_to_keep(
    layout: &impl Layout,
    [code, node, site]: [u32; 3],
    state: &mut [u8],
    entries: &mut [Entry],
    count: &mut usize,
) -> Result<Outcome, Refusal> {
    fitting(layout, state)?;
    let free = entries.get_mut(*count).ok_or(Refusal::Length)?;
    let step = Step::read(layout, code, node, site)?;
    let was_set = step.is_set(layout, state);
    let outcome = step.take(layout, state);
    if outcome.is_passed() {
        *free = [code as u8, node as u8, site as u8, u8::from(!was_set)];
        *count += 1;
    }
    Ok(outcome)
}

/// Takes the last step back; its entry stays, and its place is free. 1 to 6,
/// then 7 for the state and for a count above the entries, 16 if there is no
/// step, then 8 and 9 for the entry.
pub fn undo(plan: &[u8], state: &mut [u8], entries: &[Entry], count: &mut usize) -> Result<(), Refusal> {
    undo_in(&Plan::check(plan)?, state, entries, count)
}

/// The same in a checked plan.
pub(crate) fn undo_in(
    layout: &impl Layout,
    state: &mut [u8],
    entries: &[Entry],
    count: &mut usize,
) -> Result<(), Refusal> {
    fitting(layout, state)?;
    let last = kept(entries, *count)?.last().ok_or(Refusal::NoStep)?;
    take_back(layout, last, state)?;
    *count -= 1;
    Ok(())
}

/// Clears the bit of a step that was kept as this entry, if that says that it
/// changed it: 8, 9.
pub(crate) fn take_back(layout: &impl Layout, entry: &Entry, state: &mut [u8]) -> Result<(), Refusal> {
    let step = Step::of_entry(layout, entry)?;
    let [_, _, _, changed] = *entry;
    if changed != 0 {
        step.clear(layout, state);
    }
    Ok(())
}

/// The entries of the steps that are kept: 7 for a count above the entries.
pub(crate) fn kept(entries: &[Entry], count: usize) -> Result<&[Entry], Refusal> {
    entries.get(..count).ok_or(Refusal::Length)
}

/// 7 for a state of a wrong length.
pub(crate) fn fitting(layout: &impl Layout, state: &[u8]) -> Result<(), Refusal> {
    if layout.fits(state) { Ok(()) } else { Err(Refusal::Length) }
}
