//! The C archive, and the program `rehearse` beside it.

use crate::driver::Step;
use crate::implementation::{Change, Implementation, Slots, Wanted};
use crate::program::Program;
use vulcedar::Entry;

/// The archive's functions, and the program.
pub struct Archive {
    /// Runs the texts.
    pub program: Program,
}

impl Implementation for Archive {
    fn check(&mut self, plan: &[u8]) -> u32 {
        vulcedar::check(plan)
    }

    fn rewrite(&mut self, plan: &[u8], out: &mut [u8]) -> u32 {
        vulcedar::rewrite(plan, out)
    }

    fn renumber(&mut self, plan: &[u8], out: &mut [u8]) -> u32 {
        vulcedar::renumber(plan, out)
    }

    fn to_depths(&mut self, plan: &[u8], out: &mut [u8]) -> u32 {
        vulcedar::to_depths(plan, out)
    }

    fn from_depths(&mut self, depths: &[u8], out: &mut [u8]) -> u32 {
        vulcedar::from_depths(depths, out)
    }

    fn repeat(&mut self, plan: &[u8], node: u32, count: u32, out: &mut [u8]) -> u32 {
        vulcedar::repeat(plan, node, count, out)
    }

    fn next_plan(&mut self, plan: &[u8], out: &mut [u8]) -> u32 {
        vulcedar::next_plan(plan, out)
    }

    fn check_depths(&mut self, plan: &[u8], depths: &mut [u8]) -> u32 {
        vulcedar::check_depths(plan, depths)
    }

    fn guard(&mut self, plan: &[u8], code: u32, node: u32, buffer: &mut [u8]) -> u32 {
        vulcedar::guard(plan, code, node, buffer)
    }

    fn rule(&mut self, plan: &[u8], code: u32, node: u32) -> u32 {
        vulcedar::rule(plan, code, node)
    }

    fn step(&mut self, plan: &[u8], code: u32, node: u32, row: &mut [u8]) -> u32 {
        vulcedar::step(plan, code, node, row)
    }

    fn hear(&mut self, plan: &[u8], code: u32, node: u32, row: &mut [u8]) -> u32 {
        vulcedar::hear(plan, code, node, row)
    }

    fn pass(&mut self, plan: &[u8], answers: &[u8], marks: &mut [u8]) -> u32 {
        vulcedar::pass(plan, answers, marks)
    }

    fn impact(&mut self, plan: &[u8], answers: &mut [u8], marks: &mut [u8], change: Change) -> u32 {
        vulcedar::impact(plan, answers, marks, change.task, change.answer)
    }

    fn way(&mut self, plan: &[u8], wanted: Wanted, answers: &mut [u8]) -> u32 {
        vulcedar::way(plan, wanted.node, wanted.mark, wanted.end, answers)
    }

    fn simulate(&mut self, plan: &[u8], code: u32, node: u32, site: u32, state: &mut [u8]) -> u32 {
        vulcedar::simulate(plan, code, node, site, state)
    }

    fn keep(
        &mut self,
        plan: &[u8],
        step: Step,
        state: &mut [u8],
        entries: &mut [Entry],
        count: &mut usize,
    ) -> u32 {
        vulcedar::keep(plan, step.code, step.node, step.site, state, entries, count)
    }

    fn undo(&mut self, plan: &[u8], state: &mut [u8], entries: &mut [Entry], count: &mut usize) -> u32 {
        vulcedar::undo(plan, state, entries, count)
    }

    fn point_name(&mut self, name: &[u8], count: usize, slots: Slots) -> u32 {
        vulcedar::point_name(name, count, slots.names, slots.places)
    }

    fn point_undo(
        &mut self,
        plan: &[u8],
        state: &mut [u8],
        entries: &mut [Entry],
        count: &mut usize,
        slots: Slots,
    ) -> u32 {
        vulcedar::point_undo(plan, state, entries, count, slots.names, slots.places)
    }

    fn point_back(
        &mut self,
        plan: &[u8],
        name: &[u8],
        state: &mut [u8],
        entries: &mut [Entry],
        count: &mut usize,
        slots: Slots,
    ) -> u32 {
        vulcedar::point_back(plan, name, state, entries, count, slots.names, slots.places)
    }

    fn record(&mut self, plan: &[u8], state: &[u8], marks: &mut [u8], classes: &mut [u8]) -> u32 {
        vulcedar::record(plan, state, marks, classes)
    }

    fn record_by(
        &mut self,
        plan: &[u8],
        table: &[u8],
        state: &[u8],
        marks: &mut [u8],
        classes: &mut [u8],
    ) -> u32 {
        vulcedar::record_by(plan, table, state, marks, classes)
    }

    fn central(&mut self, plan: &[u8], code: u32, node: u32, marks: &mut [u8], notes: &mut [u8]) -> u32 {
        vulcedar::central(plan, code, node, marks, notes)
    }

    fn check_table(&mut self, table: &[u8]) -> u32 {
        vulcedar::check_table(table)
    }

    fn pass_record(
        &mut self,
        plan: &[u8],
        table: &[u8],
        answers: &[u8],
        marks: &mut [u8],
        classes: &mut [u8],
    ) -> u32 {
        vulcedar::pass_record(plan, table, answers, marks, classes)
    }

    fn desk_check(&mut self, plan: &[u8]) -> u32 {
        vulcedar::desk_check(plan)
    }

    fn desk_step(&mut self, plan: &[u8], code: u32, node: u32, row: &mut [u8]) -> u32 {
        vulcedar::desk_step(plan, code, node, row)
    }

    fn desk_simulate(&mut self, plan: &[u8], code: u32, node: u32, desk: u32, state: &mut [u8]) -> u32 {
        vulcedar::desk_simulate(plan, code, node, desk, state)
    }

    fn desk_keep(
        &mut self,
        plan: &[u8],
        step: Step,
        state: &mut [u8],
        entries: &mut [Entry],
        count: &mut usize,
    ) -> u32 {
        vulcedar::desk_keep(plan, step.code, step.node, step.site, state, entries, count)
    }

    fn desk_undo(&mut self, plan: &[u8], state: &mut [u8], entries: &mut [Entry], count: &mut usize) -> u32 {
        vulcedar::desk_undo(plan, state, entries, count)
    }

    fn desk_point_undo(
        &mut self,
        plan: &[u8],
        state: &mut [u8],
        entries: &mut [Entry],
        count: &mut usize,
        slots: Slots,
    ) -> u32 {
        vulcedar::desk_point_undo(plan, state, entries, count, slots.names, slots.places)
    }

    fn desk_point_back(
        &mut self,
        plan: &[u8],
        name: &[u8],
        state: &mut [u8],
        entries: &mut [Entry],
        count: &mut usize,
        slots: Slots,
    ) -> u32 {
        vulcedar::desk_point_back(plan, name, state, entries, count, slots.names, slots.places)
    }

    fn desk_record(&mut self, plan: &[u8], state: &[u8], marks: &mut [u8], classes: &mut [u8]) -> u32 {
        vulcedar::desk_record(plan, state, marks, classes)
    }

    fn desk_record_by(
        &mut self,
        plan: &[u8],
        table: &[u8],
        state: &[u8],
        marks: &mut [u8],
        classes: &mut [u8],
    ) -> u32 {
        vulcedar::desk_record_by(plan, table, state, marks, classes)
    }

    fn rehearse(&mut self, text: &[u8], out: &mut [u8]) -> u32 {
        vulcedar::rehearse(text, out)
    }

    fn workload(&mut self, plan: &[u8], seed: u32, count: u32, out: &mut [u8]) -> u32 {
        vulcedar::workload(plan, seed, count, out)
    }

    fn version(&mut self) -> u32 {
        vulcedar::version()
    }

    fn print(&mut self, texts: &[Vec<u8>]) -> Vec<Vec<u8>> {
        self.program.print(texts)
    }
}
