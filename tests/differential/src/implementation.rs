//! What is compared: the functions and the program.

use crate::driver::Step;
use reference::exported;

pub use reference::journal::Entry;

/// The slots of points, as they are lent to a call.
pub struct Slots<'a> {
    /// Eight bytes for each slot.
    pub names: &'a mut [u8],
    /// A word for each slot: 0, or one more than the point's place.
    pub places: &'a mut [u64],
}

/// A task, and the answer that it gets in place of its old one.
#[derive(Clone, Copy, Debug, PartialEq, Eq)]
pub struct Change {
    /// The task; any number may be asked for.
    pub task: u32,
    /// The new answer; any number too.
    pub answer: u32,
}

/// What is wanted of a pass; any numbers may be asked for.
#[derive(Clone, Copy, Debug, PartialEq, Eq)]
pub struct Wanted {
    /// A node.
    pub node: u32,
    /// The mark that it is to have.
    pub mark: u32,
    /// The mark that the root is to have.
    pub end: u32,
}

/// An implementation of the rules, behind the interface of the C archive.
/// Results are packed in the same way.
pub trait Implementation {
    /// Checks a plan.
    fn check(&mut self, plan: &[u8]) -> u32;
    /// Rewrites a plan from before kind 08.
    fn rewrite(&mut self, plan: &[u8], out: &mut [u8]) -> u32;
    /// Writes a plan in the fixed numbering.
    fn renumber(&mut self, plan: &[u8], out: &mut [u8]) -> u32;
    /// Writes the depth form of a plan.
    fn to_depths(&mut self, plan: &[u8], out: &mut [u8]) -> u32;
    /// Writes the plan of a depth form.
    #[allow(clippy::wrong_self_convention, reason = "it is named as in C")]
    fn from_depths(&mut self, depths: &[u8], out: &mut [u8]) -> u32;
    /// Writes a plan in which the subtree of a marked block's only child stands so
    /// many times.
    fn repeat(&mut self, plan: &[u8], node: u32, count: u32, out: &mut [u8]) -> u32;
    /// Writes the small plan that comes next.
    fn next_plan(&mut self, plan: &[u8], out: &mut [u8]) -> u32;
    /// Checks a plan and writes every node's depth.
    fn check_depths(&mut self, plan: &[u8], depths: &mut [u8]) -> u32;
    /// Writes a guard.
    fn guard(&mut self, plan: &[u8], code: u32, node: u32, buffer: &mut [u8]) -> u32;
    /// The rule of an event.
    fn rule(&mut self, plan: &[u8], code: u32, node: u32) -> u32;
    /// An event at its site.
    fn step(&mut self, plan: &[u8], code: u32, node: u32, row: &mut [u8]) -> u32;
    /// A message into a site's row.
    fn hear(&mut self, plan: &[u8], code: u32, node: u32, row: &mut [u8]) -> u32;
    /// The single pass.
    fn pass(&mut self, plan: &[u8], answers: &[u8], marks: &mut [u8]) -> u32;
    /// The single pass with one answer changed. The answers stay; they could be
    /// written, so that it can be seen that they are not.
    fn impact(&mut self, plan: &[u8], answers: &mut [u8], marks: &mut [u8], change: Change) -> u32;
    /// The smallest answers with which the pass leaves what is wanted.
    fn way(&mut self, plan: &[u8], wanted: Wanted, answers: &mut [u8]) -> u32;
    /// A step of a simulation.
    fn simulate(&mut self, plan: &[u8], code: u32, node: u32, site: u32, state: &mut [u8]) -> u32;
    /// A step of a simulation that is kept as an entry.
    fn keep(
        &mut self,
        plan: &[u8],
        step: Step,
        state: &mut [u8],
        entries: &mut [Entry],
        count: &mut usize,
    ) -> u32;
    /// Takes the last kept step back. The entries stay; they could be written,
    /// so that it can be seen that they are not.
    fn undo(&mut self, plan: &[u8], state: &mut [u8], entries: &mut [Entry], count: &mut usize) -> u32;
    /// Names the current place of a journal.
    fn point_name(&mut self, name: &[u8], count: usize, slots: Slots) -> u32;
    /// Takes the last kept step back, and drops points. The entries stay, as
    /// for `undo`.
    fn point_undo(
        &mut self,
        plan: &[u8],
        state: &mut [u8],
        entries: &mut [Entry],
        count: &mut usize,
        slots: Slots,
    ) -> u32;
    /// Goes back to the point of a name. The entries stay, as for `undo`.
    fn point_back(
        &mut self,
        plan: &[u8],
        name: &[u8],
        state: &mut [u8],
        entries: &mut [Entry],
        count: &mut usize,
        slots: Slots,
    ) -> u32;
    /// The end record.
    fn record(&mut self, plan: &[u8], state: &[u8], marks: &mut [u8], classes: &mut [u8]) -> u32;
    /// The end record by a table of classes that is handed in.
    fn record_by(
        &mut self,
        plan: &[u8],
        table: &[u8],
        state: &[u8],
        marks: &mut [u8],
        classes: &mut [u8],
    ) -> u32;
    /// The central rule.
    fn central(&mut self, plan: &[u8], code: u32, node: u32, marks: &mut [u8], notes: &mut [u8]) -> u32;
    /// Checks a table of classes.
    fn check_table(&mut self, table: &[u8]) -> u32;
    /// The record of the single pass, by a table of classes.
    fn pass_record(
        &mut self,
        plan: &[u8],
        table: &[u8],
        answers: &[u8],
        marks: &mut [u8],
        classes: &mut [u8],
    ) -> u32;
    /// Checks a plan with desks.
    fn desk_check(&mut self, plan: &[u8]) -> u32;
    /// An event at its desk.
    fn desk_step(&mut self, plan: &[u8], code: u32, node: u32, row: &mut [u8]) -> u32;
    /// A step of a simulation with desks.
    fn desk_simulate(&mut self, plan: &[u8], code: u32, node: u32, desk: u32, state: &mut [u8]) -> u32;
    /// The same, kept as an entry.
    fn desk_keep(
        &mut self,
        plan: &[u8],
        step: Step,
        state: &mut [u8],
        entries: &mut [Entry],
        count: &mut usize,
    ) -> u32;
    /// Takes the last kept step back, in a plan with desks. The entries stay, as
    /// for `undo`.
    fn desk_undo(&mut self, plan: &[u8], state: &mut [u8], entries: &mut [Entry], count: &mut usize) -> u32;
    /// The same, and drops points.
    fn desk_point_undo(
        &mut self,
        plan: &[u8],
        state: &mut [u8],
        entries: &mut [Entry],
        count: &mut usize,
        slots: Slots,
    ) -> u32;
    /// Goes back to the point of a name, in a plan with desks. The entries stay,
    /// as for `undo`.
    fn desk_point_back(
        &mut self,
        plan: &[u8],
        name: &[u8],
        state: &mut [u8],
        entries: &mut [Entry],
        count: &mut usize,
        slots: Slots,
    ) -> u32;
    /// The end record, in a plan with desks.
    fn desk_record(&mut self, plan: &[u8], state: &[u8], marks: &mut [u8], classes: &mut [u8]) -> u32;
    /// The same by a table of classes that is handed in.
    fn desk_record_by(
        &mut self,
        plan: &[u8],
        table: &[u8],
        state: &[u8],
        marks: &mut [u8],
        classes: &mut [u8],
    ) -> u32;
    /// A simulation from text.
    fn rehearse(&mut self, text: &[u8], out: &mut [u8]) -> u32;
    /// Writes a test load.
    fn workload(&mut self, plan: &[u8], seed: u32, count: u32, out: &mut [u8]) -> u32;
    /// The version.
    fn version(&mut self) -> u32;
    /// What the program prints for each of these texts.
    fn print(&mut self, texts: &[Vec<u8>]) -> Vec<Vec<u8>>;
}

/// The reference itself.
pub struct Reference;

impl Implementation for Reference {
    fn check(&mut self, plan: &[u8]) -> u32 {
        exported::check(plan)
    }

    fn rewrite(&mut self, plan: &[u8], out: &mut [u8]) -> u32 {
        exported::rewrite(plan, out)
    }

    fn renumber(&mut self, plan: &[u8], out: &mut [u8]) -> u32 {
        exported::renumber(plan, out)
    }

    fn to_depths(&mut self, plan: &[u8], out: &mut [u8]) -> u32 {
        exported::to_depths(plan, out)
    }

    fn from_depths(&mut self, depths: &[u8], out: &mut [u8]) -> u32 {
        exported::from_depths(depths, out)
    }

    fn repeat(&mut self, plan: &[u8], node: u32, count: u32, out: &mut [u8]) -> u32 {
        exported::repeat(plan, node, count, out)
    }

    fn next_plan(&mut self, plan: &[u8], out: &mut [u8]) -> u32 {
        exported::next_plan(plan, out)
    }

    fn check_depths(&mut self, plan: &[u8], depths: &mut [u8]) -> u32 {
        exported::check_depths(plan, depths)
    }

    fn guard(&mut self, plan: &[u8], code: u32, node: u32, buffer: &mut [u8]) -> u32 {
        exported::guard(plan, code, node, buffer)
    }

    fn rule(&mut self, plan: &[u8], code: u32, node: u32) -> u32 {
        exported::rule(plan, code, node)
    }

    fn step(&mut self, plan: &[u8], code: u32, node: u32, row: &mut [u8]) -> u32 {
        exported::step(plan, code, node, row)
    }

    fn hear(&mut self, plan: &[u8], code: u32, node: u32, row: &mut [u8]) -> u32 {
        exported::hear(plan, code, node, row)
    }

    fn pass(&mut self, plan: &[u8], answers: &[u8], marks: &mut [u8]) -> u32 {
        exported::pass(plan, answers, marks)
    }

    fn impact(&mut self, plan: &[u8], answers: &mut [u8], marks: &mut [u8], change: Change) -> u32 {
        exported::impact(plan, answers, marks, change.task, change.answer)
    }

    fn way(&mut self, plan: &[u8], wanted: Wanted, answers: &mut [u8]) -> u32 {
        exported::way(plan, wanted.node, wanted.mark, wanted.end, answers)
    }

    fn simulate(&mut self, plan: &[u8], code: u32, node: u32, site: u32, state: &mut [u8]) -> u32 {
        exported::simulate(plan, code, node, site, state)
    }

    fn keep(
        &mut self,
        plan: &[u8],
        step: Step,
        state: &mut [u8],
        entries: &mut [Entry],
        count: &mut usize,
    ) -> u32 {
        exported::keep(plan, step.code, step.node, step.site, state, entries, count)
    }

    fn undo(&mut self, plan: &[u8], state: &mut [u8], entries: &mut [Entry], count: &mut usize) -> u32 {
        exported::undo(plan, state, entries, count)
    }

    fn point_name(&mut self, name: &[u8], count: usize, slots: Slots) -> u32 {
        exported::point_name(name, count, slots.names, slots.places)
    }

    fn point_undo(
        &mut self,
        plan: &[u8],
        state: &mut [u8],
        entries: &mut [Entry],
        count: &mut usize,
        slots: Slots,
    ) -> u32 {
        exported::point_undo(plan, state, entries, count, slots.names, slots.places)
    }

    fn point_back(
        &mut self,
        plan: &[u8],
        name: &[u8],
        state: &mut [u8],
        entries: &mut [Entry],
        count: &mut usize,
        slots: Slots,
    ) -> u32 {
        exported::point_back(plan, name, state, entries, count, slots.names, slots.places)
    }

    fn record(&mut self, plan: &[u8], state: &[u8], marks: &mut [u8], classes: &mut [u8]) -> u32 {
        exported::record(plan, state, marks, classes)
    }

    fn record_by(
        &mut self,
        plan: &[u8],
        table: &[u8],
        state: &[u8],
        marks: &mut [u8],
        classes: &mut [u8],
    ) -> u32 {
        exported::record_by(plan, table, state, marks, classes)
    }

    fn central(&mut self, plan: &[u8], code: u32, node: u32, marks: &mut [u8], notes: &mut [u8]) -> u32 {
        exported::central(plan, code, node, marks, notes)
    }

    fn check_table(&mut self, table: &[u8]) -> u32 {
        exported::check_table(table)
    }

    fn pass_record(
        &mut self,
        plan: &[u8],
        table: &[u8],
        answers: &[u8],
        marks: &mut [u8],
        classes: &mut [u8],
    ) -> u32 {
        exported::pass_record(plan, table, answers, marks, classes)
    }

    fn desk_check(&mut self, plan: &[u8]) -> u32 {
        exported::desk_check(plan)
    }

    fn desk_step(&mut self, plan: &[u8], code: u32, node: u32, row: &mut [u8]) -> u32 {
        exported::desk_step(plan, code, node, row)
    }

    fn desk_simulate(&mut self, plan: &[u8], code: u32, node: u32, desk: u32, state: &mut [u8]) -> u32 {
        exported::desk_simulate(plan, code, node, desk, state)
    }

    fn desk_keep(
        &mut self,
        plan: &[u8],
        step: Step,
        state: &mut [u8],
        entries: &mut [Entry],
        count: &mut usize,
    ) -> u32 {
        exported::desk_keep(plan, step.code, step.node, step.site, state, entries, count)
    }

    fn desk_undo(&mut self, plan: &[u8], state: &mut [u8], entries: &mut [Entry], count: &mut usize) -> u32 {
        exported::desk_undo(plan, state, entries, count)
    }

    fn desk_point_undo(
        &mut self,
        plan: &[u8],
        state: &mut [u8],
        entries: &mut [Entry],
        count: &mut usize,
        slots: Slots,
    ) -> u32 {
        exported::desk_point_undo(plan, state, entries, count, slots.names, slots.places)
    }

    fn desk_point_back(
        &mut self,
        plan: &[u8],
        name: &[u8],
        state: &mut [u8],
        entries: &mut [Entry],
        count: &mut usize,
        slots: Slots,
    ) -> u32 {
        exported::desk_point_back(plan, name, state, entries, count, slots.names, slots.places)
    }

    fn desk_record(&mut self, plan: &[u8], state: &[u8], marks: &mut [u8], classes: &mut [u8]) -> u32 {
        exported::desk_record(plan, state, marks, classes)
    }

    fn desk_record_by(
        &mut self,
        plan: &[u8],
        table: &[u8],
        state: &[u8],
        marks: &mut [u8],
        classes: &mut [u8],
    ) -> u32 {
        exported::desk_record_by(plan, table, state, marks, classes)
    }

    fn rehearse(&mut self, text: &[u8], out: &mut [u8]) -> u32 {
        exported::rehearse(text, out)
    }

    fn workload(&mut self, plan: &[u8], seed: u32, count: u32, out: &mut [u8]) -> u32 {
        exported::workload(plan, seed, count, out)
    }

    fn version(&mut self) -> u32 {
        exported::version()
    }

    fn print(&mut self, texts: &[Vec<u8>]) -> Vec<Vec<u8>> {
        texts.iter().map(|text| reference::rehearse(text)).collect()
    }
}
