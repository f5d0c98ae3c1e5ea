//! The calls with desks, with one mistake each that only these have. Any other
//! mistake is made in them as in the calls without.

use super::{Broken, Mistake, step_of};
use crate::codes::{HAPPENS, PICK, bit, number};
use crate::driver::Step;
use crate::form::{Form, HIGHEST_DESK, Kept};
use crate::implementation::{Implementation, Reference};
use std::borrow::Cow;

const FORM: Form = Form::Desks;

/// Checks a plan.
pub fn check(broken: &mut Broken, plan: &[u8]) -> u32 {
    match read(broken.mistake, plan) {
        Ok(plan) => broken.check_in(FORM, &plan),
        Err(number) => number,
    }
}

/// An event by a row.
pub fn step(broken: &mut Broken, plan: &[u8], code: u32, node: u32, row: &mut [u8]) -> u32 {
    let mistake = broken.mistake;
    let plan = match read(mistake, plan) {
        Ok(plan) => plan,
        Err(number) => return number,
    };
    let result = broken.step_in(FORM, &plan, code, node, row);
    if mistake == Mistake::DesksAfterLengths && result == 22 && row.len() != FORM.nodes(&plan) {
        return 7;
    }
    let step = Step { code, node, site: HAPPENS };
    match mistake {
        Mistake::DeskStepNamesTheSite if is_decided(step, result) => {
            let parent = u32::from(plan[3 * node as usize + 1]);
            renamed(result, if code == PICK { parent } else { node })
        }
        _ => misnamed(mistake, &plan, step, result),
    }
}

/// A step of a simulation.
pub fn simulate(broken: &mut Broken, plan: &[u8], step: Step, state: &mut [u8]) -> u32 {
    let mistake = broken.mistake;
    on_rows(mistake, plan, state, |plan, state| {
        let step = misread_step(mistake, plan, step);
        let before = state.to_vec();
        let result = broken.simulate_alike(FORM, plan, step, state);
        let is_event = step.site == HAPPENS;
        let (Some(place), Some(own)) =
            (FORM.place(plan, step), FORM.place(plan, Step { site: HAPPENS, ..step }))
        else {
            return result;
        };
        let nodes = FORM.nodes(plan);
        match (mistake, number(result)) {
            (Mistake::NotHappenedByTheNamedDesk, 0 | 12) if !is_event => {
                state.copy_from_slice(&before);
                if before[place] & bit(step.code) != 0 { 0 } else { 12 }
            }
            (Mistake::OwnDeskIsNotTold, 0) if !is_event && place == own => 12,
            (Mistake::EventHeardEverywhere, 0) if is_event => {
                let column = state.iter_mut().skip(step.node as usize).step_by(nodes);
                column.for_each(|byte| *byte |= bit(step.code));
                result
            }
            (Mistake::PickSetAtTheNodesDesk, 0) if is_event && step.code == PICK => {
                let of_node = FORM.place(plan, Step { code: 1, ..step }).unwrap_or(own);
                state[own] = before[own];
                state[of_node] |= bit(PICK);
                result
            }
            _ => misnamed(mistake, plan, step, result),
        }
    })
}

/// A step that is kept.
pub fn keep(broken: &mut Broken, plan: &[u8], step: Step, (state, entries, count): Kept) -> u32 {
    let result = broken.keep_in(FORM, plan, step, (state, entries, count));
    let row = FORM.row(plan, step.site);
    if broken.mistake == Mistake::EntryHasTheRow
        && number(result) == 0
        && let Some(row) = row
    {
        entries[*count - 1][2] = row as u8;
    }
    result
}

/// A take-back, also one that is a part of another call.
pub fn undo(broken: &mut Broken, plan: &[u8], (state, entries, count): Kept) -> u32 {
    let mistake = broken.mistake;
    on_rows(mistake, plan, state, |plan, state| {
        let before = state.to_vec();
        let last = count.checked_sub(1).and_then(|place| entries.get(place)).copied();
        let result = broken.undo_alike(FORM, plan, (state, entries, count));
        let (Some(entry), 0) = (last, result) else {
            return result;
        };
        let step = step_of(entry);
        let is_event = step.site == HAPPENS;
        let (nodes, rows) = (FORM.nodes(plan), FORM.rows(plan));
        let other = match mistake {
            Mistake::TakeBackInTheRowOfTheNumber if !is_event => {
                Some(step.site as usize % rows * nodes + step.node as usize)
            }
            Mistake::TakeBackAtTheEventsDesk if !is_event => FORM.place(plan, Step { site: HAPPENS, ..step }),
            Mistake::PickTakenBackAtTheNode if is_event && step.code == PICK => {
                FORM.place(plan, Step { code: 1, ..step })
            }
            _ => None,
        };
        if let Some(other) = other {
            state.copy_from_slice(&before);
            state[other] &= if entry[3] == 0 { 0xff } else { !bit(step.code) };
        }
        result
    })
}

/// The end record.
pub fn record(broken: &mut Broken, plan: &[u8], state: &[u8], marks: &mut [u8], classes: &mut [u8]) -> u32 {
    let mistake = broken.mistake;
    on_rows(mistake, plan, &mut state.to_vec(), |plan, state| {
        misread_marks(mistake, plan, state);
        let result = broken.record_in(FORM, plan, state, marks, classes);
        refused(mistake, result, marks)
    })
}

/// The end record by a table.
pub fn record_by(
    broken: &mut Broken,
    plan: &[u8],
    table: &[u8],
    state: &[u8],
    marks: &mut [u8],
    classes: &mut [u8],
) -> u32 {
    let mistake = broken.mistake;
    let of_table = broken.check_table(table);
    let checked = Reference.desk_check(plan);
    match mistake {
        Mistake::DeskPlanBeforeTable if checked != 0 => return checked,
        Mistake::DeskTableIgnored if of_table == 0 => return record(broken, plan, state, marks, classes),
        _ if of_table != 0 => return broken.record_by_in(FORM, plan, table, state, marks, classes),
        _ => {}
    }
    on_rows(mistake, plan, &mut state.to_vec(), |plan, state| {
        misread_marks(mistake, plan, state);
        let result = broken.record_by_in(FORM, plan, table, state, marks, classes);
        refused(mistake, result, marks)
    })
}

/// The plan as the mistake reads it, or the number that it finds.
fn read(mistake: Mistake, plan: &[u8]) -> Result<Cow<'_, [u8]>, u32> {
    let checked = Reference.desk_check(plan);
    let has_desk = |is: fn(u8) -> bool| plan.iter().skip(2).step_by(3).any(|&desk| is(desk));
    let is_above = has_desk(|desk| desk > HIGHEST_DESK);
    match (mistake, checked) {
        (Mistake::DesksBeforeKinds, 2..=6) if is_above => Err(22),
        (Mistake::DesksBeforeDepth, 6) if is_above => Err(22),
        (Mistake::HighestDeskRefused, 0) if has_desk(|desk| desk == HIGHEST_DESK) => Err(22),
        (Mistake::DeskA0Accepted, 22) => {
            let desk_or_other = |(place, &byte): (usize, &u8)| {
                if place % 3 == 2 && byte == 0xa0 { HIGHEST_DESK } else { byte }
            };
            Ok(plan.iter().enumerate().map(desk_or_other).collect())
        }
        (Mistake::MoreThan480Bytes, 1) if plan.len().is_multiple_of(3) => {
            Ok(plan[..plan.len().min(480)].into())
        }
        (Mistake::BytesLeftOver, 1) => Ok(plan[..plan.len() / 3 * 3].into()),
        _ => Ok(plan.into()),
    }
}

/// Makes a call with the plan as the mistake reads it, on the rows of a state
/// in the order that the rules give them.
fn on_rows(
    mistake: Mistake,
    plan: &[u8],
    state: &mut [u8],
    call: impl FnOnce(&[u8], &mut [u8]) -> u32,
) -> u32 {
    let plan = match read(mistake, plan) {
        Ok(plan) => plan,
        Err(number) => return number,
    };
    let checked = Reference.desk_check(&plan);
    if mistake == Mistake::DesksAfterLengths && checked == 22 && state.len() != FORM.state_length(&plan) {
        return 7;
    }
    let Some((places, rows)) = order(mistake, &plan).filter(|_| checked == 0) else {
        return call(&plan, state);
    };
    let nodes = FORM.nodes(&plan);
    if state.len() != rows * nodes {
        return call(&plan, &mut []);
    }
    let mut own: Vec<u8> = places.iter().flat_map(|&row| state[row * nodes..][..nodes].to_vec()).collect();
    let result = call(&plan, &mut own);
    for (&row, bytes) in places.iter().zip(own.chunks(nodes)) {
        state[row * nodes..][..nodes].copy_from_slice(bytes);
    }
    result
}

/// Where the mistake has each row, and how many it has, if that is not as it
/// should be.
fn order(mistake: Mistake, plan: &[u8]) -> Option<(Vec<usize>, usize)> {
    let mut first_used: Vec<u8> = vec![];
    for &desk in plan.iter().skip(2).step_by(3) {
        if !first_used.contains(&desk) {
            first_used.push(desk);
        }
    }
    let mut rising = first_used.clone();
    rising.sort_unstable();
    let rows = rising.len();
    let highest = rising.last().copied().map_or(0, usize::from);
    let place_by = |order: &[u8], desk: u8| order.iter().position(|&other| other == desk).unwrap_or(0);
    match mistake {
        Mistake::RowsByFirstUse => {
            Some((rising.iter().map(|&desk| place_by(&first_used, desk)).collect(), rows))
        }
        Mistake::RowsFalling => Some(((0..rows).rev().collect(), rows)),
        Mistake::UnusedDesksHaveRows => Some((rising.iter().map(|&desk| desk.into()).collect(), highest + 1)),
        Mistake::RowsOfAllSites => Some(((0..rows).collect(), plan.len() / 3)),
        _ => None,
    }
}

/// What the mistake makes of a step's desk.
fn misread_step(mistake: Mistake, plan: &[u8], step: Step) -> Step {
    let is_unused = step.site != HAPPENS && FORM.row(plan, step.site).is_none();
    let lowest = (0..=u32::from(HIGHEST_DESK)).find(|&desk| FORM.row(plan, desk).is_some());
    let site = match mistake {
        Mistake::UnusedDeskIsTheFirst if is_unused => lowest.unwrap_or(step.site),
        Mistake::DesksAboveAreEvents if (u32::from(HIGHEST_DESK) + 1..HAPPENS).contains(&step.site) => {
            HAPPENS
        }
        Mistake::DesksCut => step.site & 0xff,
        _ => step.site,
    };
    Step { site, ..step }
}

/// Whether an event was decided at a desk.
fn is_decided(step: Step, result: u32) -> bool {
    step.site == HAPPENS && matches!(number(result), 0 | 10 | 11)
}

/// The result with what the mistake puts for the desk.
fn misnamed(mistake: Mistake, plan: &[u8], step: Step, result: u32) -> u32 {
    if !is_decided(step, result) {
        return result;
    }
    let node = step.node as usize;
    match mistake {
        Mistake::ResultsNameTheRow => {
            let seat = FORM.seat_of_event(plan, step.code, node);
            renamed(result, FORM.row(plan, seat).unwrap_or(0) as u32)
        }
        Mistake::PickNamesTheNodesDesk => renamed(result, FORM.seat(plan, node)),
        _ => result,
    }
}

fn renamed(result: u32, desk: u32) -> u32 {
    result & !0xff00 | desk << 8
}

/// Puts what the mistake reads a mark from where it should be read.
fn misread_marks(mistake: Mistake, plan: &[u8], state: &mut [u8]) {
    let (nodes, rows) = (FORM.nodes(plan), FORM.rows(plan));
    if mistake != Mistake::MarkInTheRowOfTheNode || state.len() != rows * nodes {
        return;
    }
    let before = state.to_vec();
    for node in 0..nodes.min(rows) {
        if let Some(own) = FORM.place(plan, Step { code: 1, node: node as u32, site: HAPPENS }) {
            state[own] = before[node * nodes + node];
        }
    }
}

/// What a refusal has left.
fn refused(mistake: Mistake, result: u32, marks: &mut [u8]) -> u32 {
    if mistake == Mistake::RefusedDesksWrite && result == 22 {
        marks.fill(0);
    }
    result
}
