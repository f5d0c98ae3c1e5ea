//! A whole simulation, with the central rule in lockstep: what passes must be
//! a run of it, and at the end the pass must come to the same record. Where all
//! are at one desk, everybody knows everything at any time.

use crate::codes::*;
use crate::driver::{Driver, Step, Temper, Tree};
use crate::implementation::Implementation;
use crate::lent::Pair;
use crate::random::Random;
use crate::tables;
use crate::trial::{Trial, hex};
use std::borrow::Cow;

/// A simulation stops where the sides part: nothing after it would tell more.
struct Parted;

/// Simulates a valid plan, usually to the end.
pub fn simulate<S: Implementation, R: Implementation>(
    trial: &mut Trial<S, R>,
    random: &mut Random,
    plan: &[u8],
) {
    let temper = Temper::any(random);
    let limit = if random.chance(15) { random.below(60) } else { usize::MAX };
    trial.tally.jobs.begun += 1;
    let _ = Job::new(trial, random, plan, temper).run(limit);
}

struct Job<'a, S, R> {
    trial: &'a mut Trial<S, R>,
    random: &'a mut Random,
    plan: &'a [u8],
    /// The plan without desks, for the calls that take no others.
    plain: Cow<'a, [u8]>,
    nodes: usize,
    tree: Tree,
    driver: Driver,
    state: Pair,
    /// The central rule's view, as the subject's own central rule keeps it.
    marks: Vec<u8>,
    notes: Vec<u8>,
}

impl<'a, S: Implementation, R: Implementation> Job<'a, S, R> {
    fn new(
        trial: &'a mut Trial<S, R>,
        random: &'a mut Random,
        plan: &'a [u8],
        temper: Temper,
    ) -> Job<'a, S, R> {
        let form = trial.form;
        let nodes = form.nodes(plan);
        let mut state = Pair::default();
        state.load(&vec![0; form.state_length(plan)]);
        let plain = form.plain(plan);
        let tree = Tree::new(&plain);
        let driver = Driver::new(form, plan, temper);
        let (marks, notes) = (vec![0; nodes], vec![0; nodes]);
        Job { trial, random, plan, plain, nodes, tree, driver, state, marks, notes }
    }

    /// Goes on until the job is over, the sides part or the limit of steps is
    /// reached.
    fn run(&mut self, limit: usize) -> Result<(), Parted> {
        for _ in 0..limit {
            match self.driver.propose(self.random) {
                Some(step) => {
                    self.step(step)?;
                    self.sometimes_tell_all()?;
                }
                None if self.sweep()? => return self.over(),
                None => {}
            }
        }
        Ok(())
    }

    /// One step on both sides; answers whether it passed.
    fn step(&mut self, step: Step) -> Result<bool, Parted> {
        let Step { code, node, site } = step;
        let alone = self.sometimes_alone(step);
        let allowed = self.allowed_at_one_desk(step);
        let (result, same) = self.trial.simulate_on(self.plan, code, node, site, &mut self.state);
        self.require(same)?;
        self.compare_with_site(step, alone, result)?;
        let passed = number(result) == 0;
        self.compare_with_rule(step, allowed, passed)?;
        self.driver.heed(step, passed, self.random);
        if passed && site == HAPPENS {
            self.trial.tally.jobs.events += 1;
            self.follow(code, node)?;
        } else if passed {
            self.trial.tally.jobs.messages += 1;
        }
        Ok(passed)
    }

    fn require(&self, same: bool) -> Result<(), Parted> {
        if same { Ok(()) } else { Err(Parted) }
    }

    /// What the event's site says by itself, on a copy of its row.
    fn sometimes_alone(&mut self, step: Step) -> Option<u32> {
        if step.site != HAPPENS || !self.random.chance(30) {
            return None;
        }
        let node = step.node as usize;
        let seats = self.driver.seats();
        let own = if node < self.nodes { seats.row(seats.of(self.tree.site(step.code, node))) } else { None };
        let row = self.state.subject.bytes()[own.unwrap_or(0) * self.nodes..][..self.nodes].to_vec();
        Some(self.trial.step(self.plan, step.code, step.node, &row))
    }

    /// What the central rule says of an event where all are at one desk, so
    /// that it must pass just if this allows it.
    fn allowed_at_one_desk(&mut self, step: Step) -> Option<bool> {
        let is_alone = self.driver.seats().numbers().len() == 1;
        let is_event = step.site == HAPPENS && (1..=8).contains(&step.code);
        let node = step.node as usize;
        if !is_alone || !is_event || node >= self.nodes || !self.tree.applies(step.code, node) {
            return None;
        }
        self.trial.tally.jobs.at_one_desk += 1;
        Some(self.central(step.code, step.node, false))
    }

    /// Where the central rule was asked, an event passes just if it allows it.
    fn compare_with_rule(&mut self, step: Step, allowed: Option<bool>, passed: bool) -> Result<(), Parted> {
        let Some(allowed) = allowed else {
            return Ok(());
        };
        let same = self.trial.tally.compare(allowed == passed, || {
            format!("allowed {allowed}, passed {passed} where all is known: plan {} {step:?}", hex(self.plan))
        });
        self.require(same)
    }

    /// A simulation's event comes out as it does at the site alone.
    fn compare_with_site(&mut self, step: Step, alone: Option<u32>, result: u32) -> Result<(), Parted> {
        let Some(alone) = alone else {
            return Ok(());
        };
        let same = self.trial.tally.compare(alone == result, || {
            let plan = hex(self.plan);
            format!("site alone {alone:08x}, simulation {result:08x}: plan {plan} {step:?}")
        });
        self.require(same)
    }

    /// An event has passed: the central rule must allow it, and come to the
    /// marks that the record gives, with their classes. And a run is never
    /// longer than five events a node.
    fn follow(&mut self, code: u32, node: u32) -> Result<(), Parted> {
        let allowed = self.central(code, node, true);
        let run = self.driver.passed().len();
        let (marks, classes) = self.record();
        let is_classed = classes == tables::classes(&self.tree, &tables::COMMON, &self.marks);
        let fits = allowed && marks == self.marks && is_classed && run <= 5 * self.nodes;
        let same = self.trial.tally.compare(fits, || {
            let plan = hex(self.plan);
            format!("no run of the central rule, or not classed by it: plan {plan} after {run} events, code {code} node {node}")
        });
        self.require(same)
    }

    /// Asks the central rule, and advances the view if told so.
    fn central(&mut self, code: u32, node: u32, advance: bool) -> bool {
        let (result, marks, notes) = self.trial.central(&self.plain, code, node, &self.marks, &self.notes);
        if advance {
            self.marks.copy_from_slice(marks);
            self.notes.copy_from_slice(notes);
        }
        value(result) == 1
    }

    /// Every node's mark and class, by the record of the state.
    fn record(&mut self) -> (Vec<u8>, Vec<u8>) {
        let (marks, classes) = (self.random.bytes(self.nodes), self.random.bytes(self.nodes));
        let state = self.state.subject.bytes();
        let (_, marks, classes) = self.trial.record(self.plan, state, &marks, &classes);
        (marks.to_vec(), classes.to_vec())
    }

    /// Small jobs are now and then held still, so that everybody knows
    /// everything in the middle of a job too.
    fn sometimes_tell_all(&mut self) -> Result<(), Parted> {
        if self.nodes > 16 || !self.random.chance(2) {
            return Ok(());
        }
        while let Some(message) = self.driver.message(self.random) {
            self.step(message)?;
        }
        self.sweep().map(|_| ())
    }

    /// With everybody knowing everything, tries each event up to the first
    /// that passes: it passes just if the central rule allows it. Answers
    /// whether none passed, so that the job is over.
    fn sweep(&mut self) -> Result<bool, Parted> {
        let events = 8 * self.nodes;
        let first = self.random.below(events);
        for place in 0..events {
            let place = (first + place) % events;
            let (code, node) = ((place / self.nodes) as u32 + 1, place % self.nodes);
            if self.tree.applies(code, node) && self.try_event(code, node as u32)? {
                return Ok(false);
            }
        }
        Ok(true)
    }

    fn try_event(&mut self, code: u32, node: u32) -> Result<bool, Parted> {
        let allowed = self.central(code, node, false);
        let step = Step { code, node, site: HAPPENS };
        let passed = self.step(step)?;
        self.compare_with_rule(step, Some(allowed), passed)?;
        Ok(passed)
    }

    /// The job is over: the pass accepts agreeing answers and comes to the
    /// same record, by the common table and by any other.
    fn over(&mut self) -> Result<(), Parted> {
        self.count_end();
        for _ in 0..2 {
            let answers = self.agreeing_answers();
            self.compare_with_pass(&answers)?;
        }
        self.disagree();
        Ok(())
    }

    fn count_end(&mut self) {
        let jobs = &mut self.trial.tally.jobs;
        jobs.over += 1;
        jobs.large += u64::from(self.nodes >= 100);
        jobs.committed += u64::from(self.marks[0] == 3);
        jobs.failed += u64::from(self.marks[0] == 4);
    }

    fn compare_with_pass(&mut self, answers: &[u8]) -> Result<(), Parted> {
        let (marks, classes) = self.record();
        let state = self.state.subject.bytes();
        let table = tables::sound(self.random);
        let own = self.trial.record_by(self.plan, &table, state, &marks, &classes).2.to_vec();
        let before = self.random.bytes(self.nodes);
        let (result, passed) = self.trial.pass(&self.plain, answers, &before);
        let same_marks = number(result) == 0 && passed == marks;
        let classed = |table| tables::classes(&self.tree, table, &marks);
        let same_classes = classed(&tables::COMMON) == classes && classed(&table) == own;
        let by_common = self.pass_record(&tables::COMMON, answers) == Some((marks.clone(), classes));
        let by_own = self.pass_record(&table, answers) == Some((marks.clone(), own));
        let same_record = same_marks && same_classes && by_common && by_own;
        self.trial.tally.jobs.agreeing += 1;
        let same = self.trial.tally.compare(same_record, || {
            let (plan, answers, marks) = (hex(self.plan), hex(answers), hex(&marks));
            format!("the pass and the job differ: plan {plan} answers {answers} end record {marks}")
        });
        self.require(same)
    }

    /// The record of the pass by a table, unless it is refused.
    fn pass_record(&mut self, table: &[u8], answers: &[u8]) -> Option<(Vec<u8>, Vec<u8>)> {
        let (marks, classes) = (self.random.bytes(self.nodes), self.random.bytes(self.nodes));
        let (result, marks, classes) = self.trial.pass_record(&self.plain, table, answers, &marks, &classes);
        (number(result) == 0).then(|| (marks.to_vec(), classes.to_vec()))
    }

    /// Answers that agree with the job's events; anything where those say
    /// nothing.
    fn agreeing_answers(&mut self) -> Vec<u8> {
        let mut answers = self.random.bytes(self.nodes);
        for (node, answer) in answers.iter_mut().enumerate() {
            if self.tree.kind(node) == XOR && self.marks[node] != 0 {
                *answer = 0;
            }
        }
        for &(code, node) in self.driver.passed() {
            let node = node as usize;
            let is_task = self.tree.kind(node) == TASK;
            match code {
                OFFER | COMMIT if is_task => answers[node] = 1,
                ABORT if is_task => answers[node] = 2,
                YES => answers[node] = 1,
                NO => answers[node] = 2,
                PICK => {
                    let xor = self.tree.site(PICK, node);
                    let place = self.tree.children[xor].iter().position(|&child| child == node);
                    answers[xor] = place.map_or(0, |place| place as u8 + 1);
                }
                _ => {}
            }
        }
        answers
    }

    /// A byte that no longer agrees: whatever comes of it, both sides must
    /// come to the same.
    fn disagree(&mut self) {
        let mut answers = self.agreeing_answers();
        let node = self.random.below(self.nodes);
        answers[node] = self.random.one_of(&[0, 1, 2, 3, 9, 255]);
        let before = self.random.bytes(self.nodes);
        self.trial.pass(&self.plain, &answers, &before);
    }
}
