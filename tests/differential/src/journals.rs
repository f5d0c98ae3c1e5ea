//! Lists of moves: steps that are kept, and steps that are taken back, over a
//! journal of any length. A take-back must give the state before the step, and
//! the steps that remain at the end must give the state from a fresh start.

use crate::codes::*;
use crate::driver::{Driver, Step, Temper};
use crate::implementation::{Entry, Implementation};
use crate::lent::{Journal, Pair};
use crate::random::Random;
use crate::trial::{Trial, hex};
use std::borrow::Cow;

pub mod points;

/// The longest journal.
const MOST_PLACES: usize = 1000;

/// A list stops where the sides part: nothing after it would tell more.
struct Parted;

/// Runs a list of moves on a valid plan, of at most so many.
pub fn run<S: Implementation, R: Implementation>(
    trial: &mut Trial<S, R>,
    random: &mut Random,
    plan: &[u8],
    most: usize,
) {
    let limit = if random.chance(30) { random.below(most + 1) } else { most };
    let mut moves = Moves::new(trial, random, plan);
    let _ = moves.run(limit);
}

struct Moves<'a, S, R> {
    trial: &'a mut Trial<S, R>,
    random: &'a mut Random,
    plan: &'a [u8],
    /// The plan without desks, for the central rule.
    plain: Cow<'a, [u8]>,
    driver: Driver,
    journal: Journal,
    /// The steps kept now, each with the state before it.
    steps: Vec<(Step, Vec<u8>)>,
    places: usize,
    /// How often steps are taken back, in cases of a hundred.
    back: usize,
}

impl<'a, S: Implementation, R: Implementation> Moves<'a, S, R> {
    fn new(trial: &'a mut Trial<S, R>, random: &'a mut Random, plan: &'a [u8]) -> Moves<'a, S, R> {
        let form = trial.form;
        let nodes = form.nodes(plan);
        let places =
            if random.chance(50) { MOST_PLACES } else { random.one_of(&[0, 1, 3, 10, 40, 5 * nodes]) };
        let entries: Vec<Entry> = (0..places).map(|_| [(); 4].map(|()| random.byte())).collect();
        let mut journal = Journal::default();
        journal.load(&vec![0; form.state_length(plan)], &entries, 0);
        let driver = Driver::new(form, plan, Temper::any(random));
        let back = random.one_of(&[0, 2, 5, 10, 30]);
        Moves { trial, random, plan, plain: form.plain(plan), driver, journal, steps: vec![], places, back }
    }

    /// Moves on until nothing is outstanding or the limit is reached, and looks
    /// at what remains; then sometimes takes all of that back.
    fn run(&mut self, limit: usize) -> Result<(), Parted> {
        for _ in 0..limit {
            let is_full = self.steps.len() == self.places;
            if self.random.chance(if is_full { 40 } else { self.back }) {
                self.take_some_back()?;
            } else if let Some(step) = self.next_step() {
                self.keep(step)?;
            } else {
                break;
            }
        }
        self.replay()?;
        if self.random.chance(50) {
            while self.undo()? {}
        }
        Ok(())
    }

    /// The next step; now and then a message of one that is kept, which is
    /// mostly a repeat.
    fn next_step(&mut self) -> Option<Step> {
        if self.steps.is_empty() || !self.random.chance(8) {
            return self.driver.propose(self.random);
        }
        let (step, _) = &self.steps[self.random.below(self.steps.len())];
        let seats = self.driver.seats().numbers();
        let site = if step.site == HAPPENS { self.random.one_of(seats) } else { step.site };
        Some(Step { site, ..*step })
    }

    /// Keeps a step, or is refused.
    fn keep(&mut self, step: Step) -> Result<(), Parted> {
        let before = self.journal.state.subject.bytes().to_vec();
        let (result, same) = self.trial.keep_on(self.plan, step, &mut self.journal);
        self.require(same)?;
        let passed = number(result) == 0;
        let jobs = &mut self.trial.tally.jobs;
        jobs.kept += u64::from(passed);
        jobs.repeats += u64::from(passed && self.journal.state.subject.is_still(&before));
        jobs.without_place += u64::from(number(result) == 7);
        if passed {
            self.steps.push((step, before));
        }
        self.driver.heed(step, passed, self.random);
        Ok(())
    }

    /// Takes back one step, a few, or all and one more.
    fn take_some_back(&mut self) -> Result<(), Parted> {
        let count = self.random.one_of(&[1, 1, 1, 1, 1, 1, 2, 2, 5, 12, usize::MAX]);
        for _ in 0..count {
            if !self.undo()? {
                break;
            }
        }
        Ok(())
    }

    /// Takes the last step back, so that the state is the one before it;
    /// answers whether there was one.
    fn undo(&mut self) -> Result<bool, Parted> {
        let (result, same) = self.trial.undo_on(self.plan, &mut self.journal);
        self.require(same)?;
        self.was_taken_back(result)
    }

    /// A take-back had this result: the state must be the one before the last
    /// step, if there was one.
    fn was_taken_back(&mut self, result: u32) -> Result<bool, Parted> {
        let last = self.steps.pop();
        let (expected, right) = match &last {
            Some((_, before)) => (0, self.journal.state.subject.is_still(before)),
            None => (16, true),
        };
        let count = self.steps.len();
        let same = self.trial.tally.compare(result == expected && right, || {
            format!("a take-back with {count} steps before it: {result:08x}, plan {}", hex(self.plan))
        });
        self.require(same)?;
        if let Some((step, _)) = last {
            self.trial.tally.jobs.taken_back += 1;
            self.driver.forget(step);
        }
        Ok(result == 0)
    }

    /// Simulates the steps that remain from a fresh start: each passes, their
    /// events are a run of the central rule, and state and marks are those at
    /// the end of the moves.
    fn replay(&mut self) -> Result<(), Parted> {
        let nodes = self.plain.len() / 2;
        let mut state = self.fresh_state();
        let (mut marks, mut notes) = (vec![0; nodes], vec![0; nodes]);
        let mut right = true;
        for (step, _) in &self.steps {
            let Step { code, node, site } = *step;
            let (result, same) = self.trial.simulate_on(self.plan, code, node, site, &mut state);
            self.require(same)?;
            right &= number(result) == 0;
            if site == HAPPENS {
                let (result, after, noted) = self.trial.central(&self.plain, code, node, &marks, &notes);
                right &= value(result) == 1;
                (marks, notes) = (after.to_vec(), noted.to_vec());
            }
        }
        let left = self.journal.state.subject.bytes();
        let (_, recorded, _) = self.trial.record(self.plan, left, &vec![0; nodes], &vec![0; nodes]);
        right &= recorded == marks && state.subject.is_still(left) && self.has_entries();
        let same = self.trial.tally.compare(right, || {
            format!("{} steps remain, and give something else: plan {}", self.steps.len(), hex(self.plan))
        });
        self.require(same)
    }

    /// A state as it is at the beginning.
    fn fresh_state(&self) -> Pair {
        let mut state = Pair::default();
        state.load(&vec![0; self.journal.state.length()]);
        state
    }

    /// Whether the entries are the steps that remain.
    fn has_entries(&self) -> bool {
        let entry_of = |step: &Step| [step.code as u8, step.node as u8, step.site as u8];
        let entries = self.journal.entries().iter().map(|&[code, node, site, _]| [code, node, site]);
        entries.take(self.steps.len()).eq(self.steps.iter().map(|(step, _)| entry_of(step)))
    }

    fn require(&self, same: bool) -> Result<(), Parted> {
        if same { Ok(()) } else { Err(Parted) }
    }
}
