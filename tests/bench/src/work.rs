//! A round of calls of one function. Every call begins with the same bytes:
//! what a call changed is put back at once. Nothing allocates.

use crate::fixture::{Fixture, PlacedStep, Template};
use crate::load::{SEED, STEPS};
use differential::Implementation;
use differential::driver::Step;
use differential::implementation::{Change, Entry, Slots, Wanted};
use differential::loads::STEP_BYTES;
use differential::slots::{Name, SLOTS};
use differential::tables::COMMON;
use differential::texts::OUT_BYTES;
use std::hint::black_box;

/// The measured functions.
pub const NAMES: [&str; 37] = [
    "check",
    "depths",
    "rewrite",
    "renumber",
    "to_depths",
    "from_depths",
    "repeat",
    "guard",
    "rule",
    "step",
    "hear",
    "pass",
    "impact",
    "way",
    "no_way",
    "simulate",
    "keep",
    "undo",
    "point_name",
    "point_full",
    "point_undo",
    "point_back",
    "record",
    "record_by",
    "check_table",
    "pass_record",
    "central",
    "rehearse",
    "workload",
    "desk_check",
    "desk_step",
    "desk_simulate",
    "desk_keep",
    "desk_undo",
    "desk_point_undo",
    "desk_point_back",
    "desk_record",
];

/// Whether a function takes plans with desks.
pub fn takes_desks(function: &str) -> bool {
    function.starts_with("desk_")
}

/// One key typed in a plan: a byte changes, and the plan is checked with its
/// depths. Every byte of the plan is changed once, to each of two others.
pub const KEY: &str = "key";

/// How many entries a journal has. Half of them are steps: the others are free
/// for what is kept, and the last step is what is taken back.
const PLACES: usize = 64;

/// How many steps are gone back over.
const WAY: usize = 8;

/// The points, in the first slots: that which is gone back to, two that are
/// dropped on the way, the second of them by a take-back too, and one that is
/// far off.
const POINTS: [usize; 4] = [PLACES / 2 - WAY, PLACES / 2 - WAY / 2, PLACES / 2, PLACES / 8];

/// The first slot that is free.
const FREE: usize = POINTS.len();

/// How often functions without events are called in a round.
const CALLS: usize = 100;

/// One side's work.
pub struct Work {
    /// The function; of one for plans with desks, the one of the same name without.
    function: &'static str,
    fixture: Fixture,
    buffer: [u8; 300],
    out: Vec<u8>,
    more: Vec<u8>,
    rewritten: Vec<u8>,
    repeated: [u8; 320],
    lines: Vec<u8>,
    load: Vec<u8>,
    entries: Vec<Entry>,
    points: Points,
    /// Points in all slots.
    full: Points,
}

/// Slots.
struct Points {
    names: [Name; SLOTS],
    places: [u64; SLOTS],
}

impl Points {
    /// Points at these places, in the first slots.
    fn at(places: &[usize]) -> Points {
        let mut points = Points { names: [[0; 8]; SLOTS], places: [0; SLOTS] };
        places.iter().enumerate().for_each(|(slot, &place)| points.put(slot, place));
        points
    }

    /// The name of a slot's point: it differs from the others in its last byte.
    fn name(slot: usize) -> Name {
        [7, 7, 7, 7, 7, 7, 7, slot as u8]
    }

    fn put(&mut self, slot: usize, place: usize) {
        self.names[slot] = Points::name(slot);
        self.places[slot] = place as u64 + 1;
    }

    fn slots(&mut self) -> Slots<'_> {
        Slots { names: self.names.as_flattened_mut(), places: &mut self.places }
    }
}

impl Work {
    /// Work for a function, on a copy of the fixture.
    pub fn new(function: &'static str, fixture: &Fixture) -> Work {
        let nodes = fixture.nodes;
        Work {
            function: function.strip_prefix("desk_").unwrap_or(function),
            fixture: fixture.clone(),
            buffer: [0; 300],
            out: vec![0; nodes],
            more: vec![0; nodes],
            rewritten: vec![0; 2 * nodes],
            repeated: [0; 320],
            lines: vec![0; OUT_BYTES],
            load: vec![0; STEP_BYTES * STEPS],
            entries: vec![[0; 4]; PLACES],
            points: Points::at(&POINTS),
            full: Points::at(&[PLACES / 8; SLOTS]),
        }
    }

    /// How many calls a round has.
    pub fn calls(&self) -> usize {
        match self.function {
            "check" | "depths" | "rewrite" | "renumber" | "to_depths" | "from_depths" => CALLS,
            "repeat" | "pass" | "record" | "record_by" => CALLS,
            "check_table" | "pass_record" | "point_name" | "point_full" => CALLS,
            "rehearse" | "workload" => 1,
            "impact" => 2 * self.fixture.tasks.len(),
            "way" => self.fixture.ways.len(),
            "no_way" => self.fixture.no_ways.len(),
            KEY => 2 * self.fixture.plan.len(),
            "simulate" | "keep" | "undo" | "point_undo" | "point_back" => self.fixture.steps.len(),
            _ => self.fixture.events.len(),
        }
    }

    /// Makes all calls; answers a sum over the results.
    pub fn run(&mut self, subject: &mut impl Implementation) -> u32 {
        match self.function {
            "check" => self.repeat(|work| work.fixture.form.check(subject, black_box(&work.fixture.plan))),
            "rewrite" => self.repeat(|work| {
                let plan = &work.fixture.plan;
                subject.rewrite(black_box(plan), &mut work.rewritten)
            }),
            "renumber" => self.repeat(|work| {
                let plan = black_box(&work.fixture.mixed);
                subject.renumber(plan, &mut work.rewritten) + u32::from(work.rewritten[5])
            }),
            "to_depths" => self.repeat(|work| {
                let plan = black_box(&work.fixture.plan);
                subject.to_depths(plan, &mut work.rewritten) + u32::from(work.rewritten[5])
            }),
            "from_depths" => self.repeat(|work| {
                let depths = black_box(&work.fixture.depths);
                subject.from_depths(depths, &mut work.rewritten) + u32::from(work.rewritten[5])
            }),
            "repeat" => self.repeat(|work| {
                let Template { plan, node, count } = black_box(&work.fixture.template);
                subject.repeat(plan, *node, *count, &mut work.repeated) + u32::from(work.repeated[5])
            }),
            "depths" => {
                self.repeat(|work| subject.check_depths(black_box(&work.fixture.plan), &mut work.out))
            }
            KEY => self.keys(subject),
            "pass" => self.repeat(|work| {
                subject.pass(black_box(&work.fixture.plan), &work.fixture.answers, &mut work.out)
            }),
            "record" => self.repeat(|work| {
                let fixture = &work.fixture;
                let (plan, state) = (black_box(&fixture.plan), &fixture.state);
                fixture.form.record(subject, plan, state, &mut work.out, &mut work.more)
            }),
            "record_by" => self.repeat(|work| {
                let fixture = &work.fixture;
                let plan = black_box(&fixture.plan);
                subject.record_by(plan, &COMMON, &fixture.state, &mut work.out, &mut work.more)
            }),
            "check_table" => self.repeat(|_| subject.check_table(black_box(&COMMON))),
            "pass_record" => self.repeat(|work| {
                let fixture = &work.fixture;
                let plan = black_box(&fixture.plan);
                subject.pass_record(plan, &COMMON, &fixture.answers, &mut work.out, &mut work.more)
            }),
            "rehearse" => subject.rehearse(black_box(&self.fixture.text), &mut self.lines),
            "workload" => {
                let plan = black_box(&self.fixture.plan);
                let result = subject.workload(plan, SEED, STEPS as u32, &mut self.load);
                self.load.iter().step_by(997).fold(result, |sum, &byte| mix(sum, byte.into()))
            }
            "impact" => self.impacts(subject),
            "way" => self.ways(subject, |fixture| &fixture.ways),
            "no_way" => self.ways(subject, |fixture| &fixture.no_ways),
            "guard" => self.guards(subject),
            "rule" => self.rules(subject),
            "step" => self.steps(subject),
            "hear" => self.hears(subject),
            "simulate" => self.simulations(subject),
            "keep" => self.keeps(subject),
            "undo" => self.undos(subject),
            "point_name" => self.repeat(|work| {
                let Points { names, places } = &mut work.points;
                let slots = Slots { names: names.as_flattened_mut(), places };
                let result = subject.point_name(black_box(&Points::name(FREE)), PLACES / 2, slots);
                result + std::mem::take(&mut places[FREE]) as u32
            }),
            "point_full" => self.repeat(|work| {
                let name = Points::name(SLOTS - 1);
                let result = subject.point_name(black_box(&name), PLACES / 2, work.full.slots());
                result + work.full.places[SLOTS - 1] as u32
            }),
            "point_undo" => self.point_undos(subject),
            "point_back" => self.point_backs(subject),
            "central" => self.centrals(subject),
            other => panic!("no work for {other}"),
        }
    }

    fn repeat(&mut self, mut call: impl FnMut(&mut Work) -> u32) -> u32 {
        (0..CALLS).fold(0, |sum, _| mix(sum, call(self)))
    }

    fn keys(&mut self, subject: &mut impl Implementation) -> u32 {
        let plan = &mut self.fixture.plan;
        let mut sum = 0;
        for place in 0..plan.len() {
            for typed in [plan[place] ^ 1, plan[place] ^ 2] {
                let before = std::mem::replace(&mut plan[place], typed);
                sum = mix(sum, subject.check_depths(black_box(plan), &mut self.out));
                plan[place] = before;
            }
        }
        sum
    }

    /// Each task alone fails, and works again.
    fn impacts(&mut self, subject: &mut impl Implementation) -> u32 {
        let Fixture { plan, answers, passed, tasks, .. } = &mut self.fixture;
        let mut sum = 0;
        for &task in tasks.iter() {
            for answer in [2, 1] {
                let change = Change { task, answer };
                sum = mix(sum, subject.impact(black_box(plan), answers, passed, change));
                sum = mix(sum, passed[task as usize].into());
                answers[task as usize] = answer as u8;
            }
        }
        sum
    }

    /// Each of these targets.
    fn ways(&mut self, subject: &mut impl Implementation, targets: fn(&Fixture) -> &[Wanted]) -> u32 {
        let plan = black_box(&self.fixture.plan);
        let out = &mut self.out;
        targets(&self.fixture).iter().fold(0, |sum, &wanted| {
            let result = subject.way(plan, wanted, out);
            mix(sum, result + u32::from(out[wanted.node as usize]))
        })
    }

    fn guards(&mut self, subject: &mut impl Implementation) -> u32 {
        let plan = black_box(&self.fixture.plan);
        let buffer = &mut self.buffer;
        let call =
            |sum, &(code, node, _): &(u32, u32, usize)| mix(sum, subject.guard(plan, code, node, buffer));
        self.fixture.events.iter().fold(0, call)
    }

    fn rules(&mut self, subject: &mut impl Implementation) -> u32 {
        let plan = black_box(&self.fixture.plan);
        let call = |sum, &(code, node, _): &(u32, u32, usize)| mix(sum, subject.rule(plan, code, node));
        self.fixture.events.iter().fold(0, call)
    }

    fn steps(&mut self, subject: &mut impl Implementation) -> u32 {
        let form = self.fixture.form;
        self.on_rows(|plan, code, node, row| form.step(subject, plan, code, node, row))
    }

    fn hears(&mut self, subject: &mut impl Implementation) -> u32 {
        self.on_rows(|plan, code, node, row| subject.hear(plan, code, node, row))
    }

    /// Each event by its row.
    fn on_rows(&mut self, mut call: impl FnMut(&[u8], u32, u32, &mut [u8]) -> u32) -> u32 {
        let Fixture { plan, nodes, events, state, .. } = &mut self.fixture;
        let mut sum = 0;
        for &(code, node, row) in events.iter() {
            let row = &mut state[row * *nodes..][..*nodes];
            let before = row[node as usize];
            sum = mix(sum, call(black_box(plan), code, node, row));
            row[node as usize] = before;
        }
        sum
    }

    fn simulations(&mut self, subject: &mut impl Implementation) -> u32 {
        let form = self.fixture.form;
        self.on_states(|plan, step, state, _| form.simulate(subject, plan, step, state))
    }

    /// Each step at the same place, whose entry no other call reads.
    fn keeps(&mut self, subject: &mut impl Implementation) -> u32 {
        let form = self.fixture.form;
        self.on_states(|plan, step, state, entries| {
            let mut count = PLACES / 2;
            form.keep(subject, plan, step, (state, entries, black_box(&mut count))) + count as u32
        })
    }

    /// Each step as the last entry.
    fn undos(&mut self, subject: &mut impl Implementation) -> u32 {
        let form = self.fixture.form;
        self.on_states(|plan, Step { code, node, site }, state, entries| {
            let mut count = PLACES / 2;
            entries[count - 1] = [code as u8, node as u8, site as u8, 1];
            form.undo(subject, plan, (state, entries, black_box(&mut count))) + count as u32
        })
    }

    /// Each step as the last entry, behind which the third point is.
    fn point_undos(&mut self, subject: &mut impl Implementation) -> u32 {
        let form = self.fixture.form;
        let mut points = std::mem::replace(&mut self.points, Points::at(&[]));
        let sum = self.on_states(|plan, Step { code, node, site }, state, entries| {
            let mut count = PLACES / 2;
            entries[count - 1] = [code as u8, node as u8, site as u8, 1];
            let kept = (state, entries, black_box(&mut count));
            let result = form.point_undo(subject, plan, kept, points.slots());
            let sum = result + count as u32 + points.places[2] as u32;
            points.put(2, POINTS[2]);
            sum
        });
        self.points = points;
        sum
    }

    /// Each step as the oldest of those behind the first point, with those that
    /// follow it.
    fn point_backs(&mut self, subject: &mut impl Implementation) -> u32 {
        let Fixture { form, plan, steps, state, .. } = &mut self.fixture;
        let mut sum = 0;
        for first in 0..steps.len() {
            let way: [PlacedStep; WAY] = std::array::from_fn(|next| steps[(first + next) % steps.len()]);
            for (entry, placed) in self.entries[POINTS[0]..].iter_mut().zip(&way) {
                let Step { code, node, site } = placed.step;
                *entry = [code as u8, node as u8, site as u8, 1];
            }
            let before = way.map(|placed| state[placed.place]);
            let mut count = PLACES / 2;
            let (name, slots) = (Points::name(0), self.points.slots());
            let plan = black_box(&*plan);
            let kept = (&mut state[..], &mut self.entries[..], black_box(&mut count));
            let result = form.point_back(subject, plan, &name, kept, slots);
            sum = mix(sum, result + count as u32 + self.points.places[1] as u32);
            way.iter().zip(before).for_each(|(placed, byte)| state[placed.place] = byte);
            [1, 2].into_iter().for_each(|slot| self.points.put(slot, POINTS[slot]));
        }
        sum
    }

    /// Each step on the state.
    fn on_states(&mut self, mut call: impl FnMut(&[u8], Step, &mut [u8], &mut [Entry]) -> u32) -> u32 {
        let Fixture { plan, steps, state, .. } = &mut self.fixture;
        let mut sum = 0;
        for &PlacedStep { step, place } in steps.iter() {
            let before = state[place];
            sum = mix(sum, call(black_box(plan), step, state, &mut self.entries));
            state[place] = before;
        }
        sum
    }

    fn centrals(&mut self, subject: &mut impl Implementation) -> u32 {
        let Fixture { plan, events, marks, notes, .. } = &mut self.fixture;
        let mut sum = 0;
        for &(code, node, _) in events.iter() {
            let place = node as usize;
            let before = (marks[place], notes[place]);
            sum = mix(sum, subject.central(black_box(plan), code, node, marks, notes));
            (marks[place], notes[place]) = before;
        }
        sum
    }
}

/// Takes a result into a sum that depends on the order too.
fn mix(sum: u32, result: u32) -> u32 {
    sum.rotate_left(5) ^ result
}

#[cfg(test)]
mod tests {
    use super::*;
    use differential::Reference;

    /// A second round answers the same: every call found what the first one
    /// had.
    #[test]
    fn rounds_are_alike() {
        for function in NAMES.into_iter().chain([KEY]) {
            let fixture = if takes_desks(function) { Fixture::with_desks(40) } else { Fixture::new(40) };
            let mut work = Work::new(function, &fixture);
            let (state, passed) = (work.fixture.state.clone(), work.fixture.passed.clone());
            work.out.fill(0);
            let first = work.run(&mut Reference);
            work.out.fill(0);
            assert_eq!(work.run(&mut Reference), first, "{function}");
            assert_eq!(work.fixture.state, state, "{function}");
            assert_eq!(work.fixture.passed, passed, "{function}");
            assert_eq!(work.points.places, Points::at(&POINTS).places, "{function}");
        }
    }

    /// The calls with points do what is to be measured.
    #[test]
    fn points_are_named_and_gone_back_to() {
        let fixture = Fixture::new(10);
        let mut work = Work::new("point_back", &fixture);
        let mut state = vec![0xff; 100];
        let mut count = PLACES / 2;
        let placed = fixture.steps[0];
        let Step { code, node, site } = placed.step;
        work.entries.fill([code as u8, node as u8, site as u8, 1]);
        let slots = work.points.slots();
        let name = Points::name(0);
        let result =
            Reference.point_back(&fixture.plan, &name, &mut state, &mut work.entries, &mut count, slots);
        assert_eq!((result, count, work.points.places[1]), (0, POINTS[0], 0));
        assert_ne!(state[placed.place], 0xff);
        assert_eq!(Reference.point_name(&Points::name(FREE), count, work.full.slots()), 0);
        assert_eq!(work.full.places[FREE], count as u64 + 1);
    }
}
