//! The two forms of a plan: two bytes a node, each with a row of its own; or
//! three, of which the third is a desk, with a row for each desk in use. What
//! the calls for both have in common is tried once, in either form.

use crate::codes::{HAPPENS, PICK};
use crate::driver::Step;
use crate::implementation::{Entry, Implementation, Slots};
use crate::tally::Function;
use std::borrow::Cow;

/// The highest number that a desk can have.
pub const HIGHEST_DESK: u8 = 0x9f;

/// A form of plans.
#[derive(Clone, Copy, Debug, Default, PartialEq, Eq)]
pub enum Form {
    /// Two bytes a node.
    #[default]
    Plain,
    /// Three bytes a node.
    Desks,
}

/// State, entries and count, as they are lent to a call.
pub type Kept<'a> = (&'a mut [u8], &'a mut [Entry], &'a mut usize);

/// What plans of a form mean.
impl Form {
    /// How many bytes a node has.
    pub fn width(self) -> usize {
        match self {
            Form::Plain => 2,
            Form::Desks => 3,
        }
    }

    /// How many whole nodes there are.
    pub fn nodes(self, plan: &[u8]) -> usize {
        plan.len() / self.width()
    }

    /// The same nodes without desks.
    pub fn plain(self, plan: &[u8]) -> Cow<'_, [u8]> {
        match self {
            Form::Plain => plan.into(),
            Form::Desks => plan.chunks(3).flat_map(|node| &node[..node.len().min(2)]).copied().collect(),
        }
    }

    /// Where a node's site is: the number that messages and results name it by.
    pub fn seat(self, plan: &[u8], node: usize) -> u32 {
        match self {
            Form::Plain => node as u32,
            Form::Desks => plan.get(3 * node + 2).map_or(0, |&desk| desk.into()),
        }
    }

    /// Where an event of the plan is decided.
    pub fn seat_of_event(self, plan: &[u8], code: u32, node: usize) -> u32 {
        let parent = plan.get(node * self.width() + 1);
        match (code, parent) {
            (PICK, Some(&parent)) if node > 0 => self.seat(plan, parent.into()),
            _ => self.seat(plan, node),
        }
    }

    /// How many rows a state has.
    pub fn rows(self, plan: &[u8]) -> usize {
        match self {
            Form::Plain => plan.len() / 2,
            Form::Desks => desks(plan).iter().filter(|&&is_used| is_used).count(),
        }
    }

    /// How many bytes a state has.
    pub fn state_length(self, plan: &[u8]) -> usize {
        self.rows(plan) * self.nodes(plan)
    }

    /// The row of whoever has this number, if there is somebody.
    pub fn row(self, plan: &[u8], seat: u32) -> Option<usize> {
        let seat = seat as usize;
        match self {
            Form::Plain => (seat < plan.len() / 2).then_some(seat),
            Form::Desks => {
                let desks = desks(plan);
                let below = desks.get(..seat)?.iter().filter(|&&is_used| is_used).count();
                desks.get(seat)?.then_some(below)
            }
        }
    }

    /// Where in the state a step sets its bit: in the row of the event's site,
    /// or of who hears. None for a step that can't be.
    pub fn place(self, plan: &[u8], Step { code, node, site }: Step) -> Option<usize> {
        let (nodes, node) = (self.nodes(plan), node as usize);
        let seat = if site == HAPPENS { self.seat_of_event(plan, code, node) } else { site };
        let row = self.row(plan, seat)?;
        (node < nodes).then_some(row * nodes + node)
    }

    /// The call of this form.
    pub fn function(self, plain: Function) -> Function {
        match (self, plain) {
            (Form::Plain, _) => plain,
            (_, Function::Check) => Function::DeskCheck,
            (_, Function::Step) => Function::DeskStep,
            (_, Function::Simulate) => Function::DeskSimulate,
            (_, Function::Keep) => Function::DeskKeep,
            (_, Function::Undo) => Function::DeskUndo,
            (_, Function::PointUndo) => Function::DeskPointUndo,
            (_, Function::PointBack) => Function::DeskPointBack,
            (_, Function::Record) => Function::DeskRecord,
            (_, Function::RecordBy) => Function::DeskRecordBy,
            (_, other) => other,
        }
    }
}

/// Which desks some node has.
fn desks(plan: &[u8]) -> [bool; 256] {
    let mut desks = [false; 256];
    plan.iter().skip(2).step_by(3).for_each(|&desk| desks[usize::from(desk)] = true);
    desks
}

/// The calls that plans of either form have.
impl Form {
    /// Checks a plan.
    pub fn check(self, on: &mut impl Implementation, plan: &[u8]) -> u32 {
        match self {
            Form::Plain => on.check(plan),
            Form::Desks => on.desk_check(plan),
        }
    }

    /// An event by a row.
    pub fn step(
        self,
        on: &mut impl Implementation,
        plan: &[u8],
        code: u32,
        node: u32,
        row: &mut [u8],
    ) -> u32 {
        match self {
            Form::Plain => on.step(plan, code, node, row),
            Form::Desks => on.desk_step(plan, code, node, row),
        }
    }

    /// A step of a simulation.
    pub fn simulate(self, on: &mut impl Implementation, plan: &[u8], step: Step, state: &mut [u8]) -> u32 {
        let Step { code, node, site } = step;
        match self {
            Form::Plain => on.simulate(plan, code, node, site, state),
            Form::Desks => on.desk_simulate(plan, code, node, site, state),
        }
    }

    /// A step that is kept.
    pub fn keep(
        self,
        on: &mut impl Implementation,
        plan: &[u8],
        step: Step,
        (state, entries, count): Kept,
    ) -> u32 {
        match self {
            Form::Plain => on.keep(plan, step, state, entries, count),
            Form::Desks => on.desk_keep(plan, step, state, entries, count),
        }
    }

    /// A take-back.
    pub fn undo(self, on: &mut impl Implementation, plan: &[u8], (state, entries, count): Kept) -> u32 {
        match self {
            Form::Plain => on.undo(plan, state, entries, count),
            Form::Desks => on.desk_undo(plan, state, entries, count),
        }
    }

    /// A take-back with points.
    pub fn point_undo(
        self,
        on: &mut impl Implementation,
        plan: &[u8],
        (state, entries, count): Kept,
        slots: Slots,
    ) -> u32 {
        match self {
            Form::Plain => on.point_undo(plan, state, entries, count, slots),
            Form::Desks => on.desk_point_undo(plan, state, entries, count, slots),
        }
    }

    /// A going back.
    pub fn point_back(
        self,
        on: &mut impl Implementation,
        plan: &[u8],
        name: &[u8],
        (state, entries, count): Kept,
        slots: Slots,
    ) -> u32 {
        match self {
            Form::Plain => on.point_back(plan, name, state, entries, count, slots),
            Form::Desks => on.desk_point_back(plan, name, state, entries, count, slots),
        }
    }

    /// The end record.
    pub fn record(
        self,
        on: &mut impl Implementation,
        plan: &[u8],
        state: &[u8],
        marks: &mut [u8],
        classes: &mut [u8],
    ) -> u32 {
        match self {
            Form::Plain => on.record(plan, state, marks, classes),
            Form::Desks => on.desk_record(plan, state, marks, classes),
        }
    }

    /// The end record by a table.
    pub fn record_by(
        self,
        on: &mut impl Implementation,
        plan: &[u8],
        table: &[u8],
        state: &[u8],
        marks: &mut [u8],
        classes: &mut [u8],
    ) -> u32 {
        match self {
            Form::Plain => on.record_by(plan, table, state, marks, classes),
            Form::Desks => on.desk_record_by(plan, table, state, marks, classes),
        }
    }
}

/// Who is where, in a valid plan.
pub struct Seats {
    of_nodes: Vec<u32>,
    numbers: Vec<u32>,
    nodes: Vec<Vec<usize>>,
}

impl Seats {
    /// The sites of a plan, or its desks in use.
    pub fn new(form: Form, plan: &[u8]) -> Seats {
        let of_nodes: Vec<u32> = (0..form.nodes(plan)).map(|node| form.seat(plan, node)).collect();
        let mut numbers = of_nodes.clone();
        numbers.sort_unstable();
        numbers.dedup();
        let at = |number: &u32| (0..of_nodes.len()).filter(|&node| of_nodes[node] == *number).collect();
        let nodes = numbers.iter().map(at).collect();
        Seats { of_nodes, numbers, nodes }
    }

    /// The numbers of all, rising: one for each row.
    pub fn numbers(&self) -> &[u32] {
        &self.numbers
    }

    /// Where a node's site is.
    pub fn of(&self, node: usize) -> u32 {
        self.of_nodes[node]
    }

    /// The row of whoever has this number, if there is somebody.
    pub fn row(&self, number: u32) -> Option<usize> {
        self.numbers.binary_search(&number).ok()
    }

    /// All numbers, rising, with the nodes whose sites are there.
    pub fn iter(&self) -> impl Iterator<Item = (u32, &[usize])> {
        self.numbers.iter().copied().zip(self.nodes.iter().map(Vec::as_slice))
    }

    /// The nodes whose sites are there.
    pub fn nodes_at(&self, number: u32) -> &[usize] {
        self.row(number).map_or(&[], |row| &self.nodes[row])
    }
}

#[cfg(test)]
mod tests {
    use super::*;
    use crate::plans;
    use crate::random::Random;

    /// A serial with two tasks; the first is at the block's desk.
    const PLAN: [u8; 9] = [2, 0xff, 0x9f, 1, 0, 0x9f, 1, 0, 4];

    #[test]
    fn rows_and_places() {
        let form = Form::Desks;
        assert_eq!(form.plain(&PLAN)[..], [2, 0xff, 1, 0, 1, 0]);
        assert_eq!((form.nodes(&PLAN), form.rows(&PLAN), form.state_length(&PLAN)), (3, 2, 6));
        assert_eq!(
            [0, 4, 0x9f, 0xff, 0x104].map(|desk| form.row(&PLAN, desk)),
            [None, Some(0), Some(1), None, None]
        );
        let place = |code, node, site| form.place(&PLAN, Step { code, node, site });
        assert_eq!(place(1, 0, HAPPENS), Some(3));
        assert_eq!(place(1, 2, HAPPENS), Some(2));
        assert_eq!(place(1, 0, 4), Some(0));
        assert_eq!(place(PICK, 2, HAPPENS), Some(5));
        assert_eq!([place(1, 3, 4), place(1, 0, 5), place(1, 300, HAPPENS)], [None; 3]);
        let plain = |code, node, site| Form::Plain.place(&[2, 0xff, 1, 0], Step { code, node, site });
        assert_eq!([plain(1, 1, HAPPENS), plain(PICK, 1, HAPPENS), plain(1, 0, 1)], [3, 1, 2].map(Some));
        assert_eq!([plain(1, 2, HAPPENS), plain(1, 0, 2)], [None; 2]);
    }

    /// Both ways to look at who is where come to the same.
    #[test]
    fn seats_are_those_of_the_form() {
        let mut random = Random::new(4);
        for round in 0..500 {
            let plain = plans::up_to(&mut random, 20);
            let (form, plan) = match round % 5 {
                0 => (Form::Plain, plain),
                _ => (Form::Desks, plans::with_desks(&mut random, &plain)),
            };
            let seats = Seats::new(form, &plan);
            assert_eq!(seats.numbers().len(), form.rows(&plan));
            for number in 0..300 {
                assert_eq!(seats.row(number), form.row(&plan, number));
                let is_there = |node: &usize| seats.of(*node) == number;
                assert!(seats.nodes_at(number).iter().all(is_there));
            }
            let all: usize = seats.numbers().iter().map(|&number| seats.nodes_at(number).len()).sum();
            assert_eq!(all, form.nodes(&plan));
        }
    }
}
