//! One function for each function of the C archive, with the same packed
//! result: bits 0 to 7 the number (0 passed), bits 8 to 15 the site, or desk,
//! that let an event pass or refused it by its row, bits 16 to 31 a value where
//! the function has one; for an event that passed this is its rule. Two answer
//! otherwise: `guard`, which has its rule in bits 8 to 15, and `version`.
//!
//! They are never inlined, so that a caller pays for a call here as well.

use crate::guard::Written;
use crate::journal::Entry;
use crate::record as records;
use crate::refusal::Refusal;
use crate::repeat as repeating;
use crate::simulate::Outcome;
use crate::site::Verdict;
use crate::table::Table;
use crate::way as ways;
use crate::{central as central_rule, desks, forms, guard as guards, journal as journals};
use crate::{impact as impacts, load, pass as passes, plan, points, small};
use crate::{rewrite as rewriting, rule as rules, simulate as simulation, site as sites, text as texts};

/// The number in a packed result.
pub fn number(result: u32) -> u8 {
    result as u8
}

/// The site in a packed result.
pub fn site(result: u32) -> u8 {
    (result >> 8) as u8
}

/// The value in a packed result.
pub fn value(result: u32) -> u32 {
    result >> 16
}

/// Checks a plan: 1 to 6.
#[inline(never)]
pub fn check(plan: &[u8]) -> u32 {
    done(plan::Plan::check(plan).map(|_| ()))
}

/// Rewrites a plan from before kind 08. 1 to 7.
#[inline(never)]
pub fn rewrite(plan: &[u8], out: &mut [u8]) -> u32 {
    done(rewriting::rewrite(plan, out))
}

/// Writes a plan in the fixed numbering. 1 to 7.
#[inline(never)]
pub fn renumber(plan: &[u8], out: &mut [u8]) -> u32 {
    done(forms::renumber(plan, out))
}

/// Writes the depth form of a plan. 1 to 6, 18, 7.
#[inline(never)]
pub fn to_depths(plan: &[u8], out: &mut [u8]) -> u32 {
    done(forms::to_depths(plan, out))
}

/// Writes the plan of a depth form. 1, 2, 17, 4 to 7.
#[inline(never)]
pub fn from_depths(depths: &[u8], out: &mut [u8]) -> u32 {
    done(forms::from_depths(depths, out))
}

/// Writes a plan in which the subtree of a marked block's only child stands as
/// many times as the count says; the value is its number of nodes. 1 to 8, 23, 24,
/// 25.
#[inline(never)]
pub fn repeat(plan: &[u8], node: u32, count: u32, out: &mut [u8]) -> u32 {
    match repeating::repeat(plan, node, count, out) {
        Ok(nodes) => (nodes as u32) << 16,
        Err(cause) => refused(cause),
    }
}

/// Writes the small plan that comes next; the value is its number of nodes. 1 to 6,
/// 26, 27, 7.
#[inline(never)]
pub fn next_plan(plan: &[u8], out: &mut [u8]) -> u32 {
    match small::next_plan(plan, out) {
        Ok(nodes) => (nodes as u32) << 16,
        Err(cause) => refused(cause),
    }
}

/// Checks a plan and writes every node's depth: 1 to 7.
#[inline(never)]
pub fn check_depths(plan: &[u8], depths: &mut [u8]) -> u32 {
    done(plan::Plan::check_depths(plan, depths))
}

/// Writes a guard; the value is its length, and its rule stands where others
/// have a site. 1 to 6, 8, 9, 7.
#[inline(never)]
pub fn guard(plan: &[u8], code: u32, node: u32, buffer: &mut [u8]) -> u32 {
    match guards::write(plan, code, node, buffer) {
        Ok(Written { length, rule }) => u32::from(rule) << 8 | (length as u32) << 16,
        Err(cause) => refused(cause),
    }
}

/// The rule of an event, as the value. 1 to 6, 8, 9.
#[inline(never)]
pub fn rule(plan: &[u8], code: u32, node: u32) -> u32 {
    rules::rule(plan, code, node).map_or_else(refused, with)
}

/// An event at its site, by the site's row; the value is the rule of one that
/// passes. 1 to 11.
#[inline(never)]
pub fn step(plan: &[u8], code: u32, node: u32, row: &mut [u8]) -> u32 {
    verdict(sites::step(plan, code, node, row))
}

/// A message into a site's row. 1 to 9.
#[inline(never)]
pub fn hear(plan: &[u8], code: u32, node: u32, row: &mut [u8]) -> u32 {
    done(sites::hear(plan, code, node, row))
}

/// The single pass. 1 to 7, 13, 14.
#[inline(never)]
pub fn pass(plan: &[u8], answers: &[u8], marks: &mut [u8]) -> u32 {
    done(passes::pass(plan, answers, marks))
}

/// The single pass with one task's answer changed, over marks that are those of
/// the pass over the answers. 1 to 9, 13, 14, 28.
#[inline(never)]
pub fn impact(plan: &[u8], answers: &[u8], marks: &mut [u8], task: u32, answer: u32) -> u32 {
    done(impacts::impact(plan, answers, marks, task, answer))
}

/// The smallest list of answers with which the pass leaves a mark at a node and
/// an end at the root. 1 to 8, 29, 30.
#[inline(never)]
pub fn way(plan: &[u8], node: u32, mark: u32, end: u32, answers: &mut [u8]) -> u32 {
    done(ways::way(plan, node, mark, end, answers))
}

/// A step of a simulation: an event if the site is 255, else a message to
/// that site. The value is the rule of an event that passes. 1 to 12.
#[inline(never)]
pub fn simulate(plan: &[u8], code: u32, node: u32, site: u32, state: &mut [u8]) -> u32 {
    outcome(simulation::simulate(plan, code, node, site, state))
}

/// A step of a simulation that is kept as an entry, at the place that the
/// count has. Answers as `simulate` does. 1 to 12.
#[inline(never)]
pub fn keep(
    plan: &[u8],
    code: u32,
    node: u32,
    site: u32,
    state: &mut [u8],
    entries: &mut [Entry],
    count: &mut usize,
) -> u32 {
    outcome(journals::keep(plan, code, node, site, state, entries, count))
}

/// Takes the last kept step back. 1 to 7, 16, 8, 9.
#[inline(never)]
pub fn undo(plan: &[u8], state: &mut [u8], entries: &[Entry], count: &mut usize) -> u32 {
    done(journals::undo(plan, state, entries, count))
}

/// Names the current place of a journal. 7, 20.
#[inline(never)]
pub fn point_name(name: &[u8], count: usize, names: &mut [u8], places: &mut [u64]) -> u32 {
    done(points::name(name, count, names, places))
}

/// Takes the last kept step back, and drops the points past the new count. 1
/// to 7, 16, 8, 9.
#[inline(never)]
pub fn point_undo(
    plan: &[u8],
    state: &mut [u8],
    entries: &[Entry],
    count: &mut usize,
    names: &mut [u8],
    places: &mut [u64],
) -> u32 {
    done(points::undo(plan, state, entries, count, names, places))
}

/// Goes back to the point of a name. 1 to 7, 19, 8, 9.
#[inline(never)]
pub fn point_back(
    plan: &[u8],
    name: &[u8],
    state: &mut [u8],
    entries: &[Entry],
    count: &mut usize,
    names: &mut [u8],
    places: &mut [u64],
) -> u32 {
    done(points::back(plan, name, state, entries, count, names, places))
}

/// The end record of a simulation's state, by the common table. 1 to 7.
#[inline(never)]
pub fn record(plan: &[u8], state: &[u8], marks: &mut [u8], classes: &mut [u8]) -> u32 {
    done(records::record(&Table::COMMON, plan, state, marks, classes))
}

/// The end record by a table that is handed in. 21, then 1 to 7.
#[inline(never)]
pub fn record_by(plan: &[u8], table: &[u8], state: &[u8], marks: &mut [u8], classes: &mut [u8]) -> u32 {
    let table = Table::load(table);
    done(table.and_then(|table| records::record(&table, plan, state, marks, classes)))
}

/// Checks a table of classes: 21.
#[inline(never)]
pub fn check_table(table: &[u8]) -> u32 {
    done(Table::load(table).map(|_| ()))
}

/// The record of the single pass, by a table. 21, then 1 to 7, 13, 14.
#[inline(never)]
pub fn pass_record(plan: &[u8], table: &[u8], answers: &[u8], marks: &mut [u8], classes: &mut [u8]) -> u32 {
    let table = Table::load(table);
    done(table.and_then(|table| records::pass_record(&table, plan, answers, marks, classes)))
}

/// Checks a plan with desks: 1 to 6, 22.
#[inline(never)]
pub fn desk_check(plan: &[u8]) -> u32 {
    done(desks::open(plan, |_| ()))
}

/// An event at its desk, by the desk's row; the value is the rule of one that
/// passes. 1 to 6, 22, 7 to 11.
#[inline(never)]
pub fn desk_step(plan: &[u8], code: u32, node: u32, row: &mut [u8]) -> u32 {
    desks::open(plan, |desks| sites::step_in(desks, code, node, row)).map_or_else(refused, verdict)
}

/// A step of a simulation with desks: an event if the desk is 255, else a
/// message to that desk. 1 to 6, 22, 7 to 12.
#[inline(never)]
pub fn desk_simulate(plan: &[u8], code: u32, node: u32, desk: u32, state: &mut [u8]) -> u32 {
    let simulated = desks::open(plan, |desks| simulation::simulate_in(desks, code, node, desk, state));
    simulated.map_or_else(refused, outcome)
}

/// A step of a simulation with desks that is kept as an entry. 1 to 6, 22, 7
/// to 12.
#[inline(never)]
pub fn desk_keep(
    plan: &[u8],
    code: u32,
    node: u32,
    desk: u32,
    state: &mut [u8],
    entries: &mut [Entry],
    count: &mut usize,
) -> u32 {
    let step = [code, node, desk];
    let kept = desks::open(plan, |desks| journals::keep_in(desks, step, state, entries, count));
    kept.map_or_else(refused, outcome)
}

/// Takes the last kept step back, in a plan with desks. 1 to 6, 22, 7, 16, 8,
/// 9.
#[inline(never)]
pub fn desk_undo(plan: &[u8], state: &mut [u8], entries: &[Entry], count: &mut usize) -> u32 {
    done(desks::open(plan, |desks| journals::undo_in(desks, state, entries, count)).flatten())
}

/// The same, and drops the points past the new count. 1 to 6, 22, 7, 16, 8, 9.
#[inline(never)]
pub fn desk_point_undo(
    plan: &[u8],
    state: &mut [u8],
    entries: &[Entry],
    count: &mut usize,
    names: &mut [u8],
    places: &mut [u64],
) -> u32 {
    done(desks::open(plan, |desks| points::undo_in(desks, state, entries, count, names, places)).flatten())
}

/// Goes back to the point of a name, in a plan with desks. 1 to 6, 22, 7, 19,
/// 8, 9.
#[inline(never)]
pub fn desk_point_back(
    plan: &[u8],
    name: &[u8],
    state: &mut [u8],
    entries: &[Entry],
    count: &mut usize,
    names: &mut [u8],
    places: &mut [u64],
) -> u32 {
    let gone = desks::open(plan, |desks| points::back_in(desks, name, state, entries, count, names, places));
    done(gone.flatten())
}

/// The end record of a simulation with desks, by the common table. 1 to 6, 22,
/// 7.
#[inline(never)]
pub fn desk_record(plan: &[u8], state: &[u8], marks: &mut [u8], classes: &mut [u8]) -> u32 {
    done(desk_record_of(&Table::COMMON, plan, state, marks, classes))
}

/// The same by a table that is handed in. 21, then 1 to 6, 22, 7.
#[inline(never)]
pub fn desk_record_by(plan: &[u8], table: &[u8], state: &[u8], marks: &mut [u8], classes: &mut [u8]) -> u32 {
    let table = Table::load(table);
    done(table.and_then(|table| desk_record_of(&table, plan, state, marks, classes)))
}

fn desk_record_of(
    table: &Table,
    plan: &[u8],
    state: &[u8],
    marks: &mut [u8],
    classes: &mut [u8],
) -> Result<(), Refusal> {
    desks::open(plan, |desks| records::record_in(table, desks, state, marks, classes)).flatten()
}

/// A simulation from text; the value is the length of what the program
/// `rehearse` prints for it. 15, 21, 1 to 7.
#[inline(never)]
pub fn rehearse(text: &[u8], out: &mut [u8]) -> u32 {
    match texts::rehearse_into(text, out) {
        Ok(length) => (length as u32) << 16,
        Err(cause) => refused(cause),
    }
}

/// Writes a test load: as many steps as the count says, drawn from the seed. 1 to 7.
#[inline(never)]
pub fn workload(plan: &[u8], seed: u32, count: u32, out: &mut [u8]) -> u32 {
    done(load::workload(plan, seed, count, out))
}

/// The version of these calls, a byte each for its three numbers: 1.9.0.
#[inline(never)]
pub fn version() -> u32 {
    (1 << 16) + (9 << 8)
}

/// The central rule; the value is 1 if the event was allowed. 1 to 9.
#[inline(never)]
pub fn central(plan: &[u8], code: u32, node: u32, marks: &mut [u8], notes: &mut [u8]) -> u32 {
    match central_rule::central(plan, code, node, marks, notes) {
        Ok(allowed) => u32::from(allowed) << 16,
        Err(cause) => refused(cause),
    }
}

fn done(result: Result<(), Refusal>) -> u32 {
    result.map_or_else(refused, |()| 0)
}

fn refused(cause: Refusal) -> u32 {
    u32::from(cause.number())
}

pub(crate) fn outcome(outcome: Outcome) -> u32 {
    match outcome {
        Outcome::Event(happened) => verdict(happened),
        Outcome::Heard => 0,
        Outcome::Refused(cause) => refused(cause),
    }
}

fn verdict(verdict: Verdict) -> u32 {
    match verdict {
        Verdict::Passed { site, rule } => at(site) | with(rule),
        Verdict::RefusedAt { cause, site } => refused(cause) | at(site),
        Verdict::Refused(cause) => refused(cause),
    }
}

fn with(rule: u8) -> u32 {
    u32::from(rule) << 16
}

fn at(site: usize) -> u32 {
    (site as u32) << 8
}
