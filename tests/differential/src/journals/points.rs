//! Lists of moves with points: steps that are kept and taken back, places that
//! are named, slots that the caller frees, and goings back. After every move each name must have the
//! point that the moves gave it; and going back to any point must give the
//! state that the steps up to its place give from a fresh start.

use super::{Moves, Parted};
use crate::implementation::Implementation;
use crate::lent::{Journal, Points};
use crate::random::Random;
use crate::slots::{self, Name, SLOTS};
use crate::trial::{Trial, hex};
use std::collections::BTreeMap;

/// Runs a list of moves with points on a valid plan, of at most so many.
pub fn run<S: Implementation, R: Implementation>(
    trial: &mut Trial<S, R>,
    random: &mut Random,
    plan: &[u8],
    most: usize,
) {
    let limit = if random.chance(30) { random.below(most + 1) } else { most };
    let size = random.one_of(&[1, 3, 6, 20, 40]);
    let pool = slots::pool(random, size);
    let (naming, going) = (random.one_of(&[5, 15, 40]), random.one_of(&[2, 5, 15]));
    let points = free_slots(random, &pool);
    let moves = Moves::new(trial, random, plan);
    let _ = Pointed { moves, points, pool, ledger: BTreeMap::new(), naming, going }.run(limit);
}

/// Sixteen free slots over names of any bytes, some of the pool among them.
fn free_slots(random: &mut Random, pool: &[Name]) -> Points {
    let name = |random: &mut Random| {
        if random.chance(50) { random.one_of(pool) } else { [(); 8].map(|()| random.byte()) }
    };
    let names: Vec<Name> = (0..SLOTS).map(|_| name(random)).collect();
    let mut points = Points::default();
    points.load(&names.concat(), &[0; SLOTS]);
    points
}

struct Pointed<'a, S, R> {
    moves: Moves<'a, S, R>,
    points: Points,
    pool: Vec<Name>,
    /// The place of each name's point, as the moves gave it.
    ledger: BTreeMap<Name, usize>,
    /// How often a place is named, in cases of a hundred.
    naming: usize,
    /// How often a name is gone back to.
    going: usize,
}

impl<S: Implementation, R: Implementation> Pointed<'_, S, R> {
    /// Moves on until nothing is outstanding or the limit is reached, and looks
    /// at what remains and at every point; then sometimes takes all of it back.
    fn run(&mut self, limit: usize) -> Result<(), Parted> {
        for _ in 0..limit {
            let is_full = self.moves.steps.len() == self.moves.places;
            let back = if is_full { 30 } else { self.moves.back };
            if self.moves.random.chance(self.naming) {
                self.name()?;
            } else if self.moves.random.chance(2) {
                self.free()?;
            } else if self.moves.random.chance(self.going) {
                self.go_back()?;
            } else if self.moves.random.chance(back) {
                self.take_some_back()?;
            } else if let Some(step) = self.moves.next_step() {
                self.moves.keep(step)?;
                self.has_its_points("a kept step")?;
            } else {
                break;
            }
            if self.moves.random.chance(1) {
                self.try_all()?;
            }
        }
        self.moves.replay()?;
        self.try_all()?;
        if self.moves.random.chance(30) {
            while self.undo()? {}
        }
        Ok(())
    }

    /// Names the current place: the name's point is there now, or 20 says that
    /// all slots have others.
    fn name(&mut self) -> Result<(), Parted> {
        let name = self.moves.random.one_of(&self.pool);
        let count = self.count();
        let (result, same) = self.moves.trial.point_name_on(&name, count, &mut self.points);
        self.moves.require(same)?;
        let has_slot = self.ledger.len() < SLOTS || self.ledger.contains_key(&name);
        let jobs = &mut self.moves.trial.tally.jobs;
        if has_slot {
            let before = self.ledger.insert(name, count);
            jobs.named += 1;
            jobs.moved += u64::from(before.is_some_and(|place| place != count));
        } else {
            jobs.without_slot += 1;
        }
        self.has_result("a naming", result, if has_slot { 0 } else { 20 })?;
        self.has_its_points("a naming")
    }

    /// Frees the slot of a point, as a host may without a call: its name stays
    /// where it is and has no point any more.
    fn free(&mut self) -> Result<(), Parted> {
        let mut places = self.points.places.subject.bytes().to_vec();
        let names = self.points.names.subject.bytes().to_vec();
        let used: Vec<usize> = (0..SLOTS).filter(|&slot| places[slot] != 0).collect();
        if !used.is_empty() {
            let slot = self.moves.random.one_of(&used);
            places[slot] = 0;
            self.points.load(&names, &places);
            self.ledger.remove(&names[8 * slot..][..8]);
            self.moves.trial.tally.jobs.freed += 1;
        }
        self.has_its_points("a freed slot")
    }

    /// Takes back one step, a few, or all and one more.
    fn take_some_back(&mut self) -> Result<(), Parted> {
        let count = self.moves.random.one_of(&[1, 1, 1, 1, 2, 5, usize::MAX]);
        for _ in 0..count {
            if !self.undo()? {
                break;
            }
        }
        Ok(())
    }

    /// Takes the last step back; answers whether there was one.
    fn undo(&mut self) -> Result<bool, Parted> {
        let Moves { trial, plan, journal, .. } = &mut self.moves;
        let (result, same) = trial.point_undo_on(plan, journal, &mut self.points);
        self.moves.require(same)?;
        let passed = self.moves.was_taken_back(result)?;
        self.drop_points();
        self.has_its_points("a take-back")?;
        Ok(passed)
    }

    /// Goes back to a name, which may have no point. Where it has one, the
    /// state is the one that was there.
    fn go_back(&mut self) -> Result<(), Parted> {
        let known: Vec<Name> = self.ledger.keys().copied().collect();
        let from = if known.is_empty() || self.moves.random.chance(40) { &self.pool } else { &known };
        let name = self.moves.random.one_of(from);
        let Moves { trial, plan, journal, .. } = &mut self.moves;
        let (result, same) = trial.point_back_on(plan, &name, journal, &mut self.points);
        self.moves.require(same)?;
        let Some(&place) = self.ledger.get(&name) else {
            self.has_result("going back to no point", result, 19)?;
            return self.has_its_points("going back to no point");
        };
        let is_there = match self.moves.steps.get(place) {
            Some((_, before)) => self.moves.journal.state.subject.is_still(before),
            None => true,
        };
        let is_there = is_there && self.moves.journal.count.is(place);
        self.has_result("going back", if is_there { result } else { u32::MAX }, 0)?;
        let jobs = &mut self.moves.trial.tally.jobs;
        jobs.gone_back += 1;
        jobs.gone_over += (self.moves.steps.len() - place) as u64;
        while self.moves.steps.len() > place
            && let Some((step, _)) = self.moves.steps.pop()
        {
            self.moves.driver.forget(step);
        }
        self.drop_points();
        self.has_its_points("going back")
    }

    /// Goes back to every point beside the list: it passes, and gives the state
    /// that the steps up to it give from a fresh start, and its place.
    fn try_all(&mut self) -> Result<(), Parted> {
        let states = self.states_from_fresh()?;
        let journal = &self.moves.journal;
        let (state, entries) = (journal.state.before().to_vec(), journal.entries().to_vec());
        let (names, places) = (self.points.names.before().to_vec(), self.points.places.before().to_vec());
        for (name, &place) in &self.ledger {
            let (mut journal, mut points) = (Journal::default(), Points::default());
            journal.load(&state, &entries, self.moves.steps.len());
            points.load(&names, &places);
            let trial = &mut self.moves.trial;
            let (result, same) = trial.point_back_on(self.moves.plan, name, &mut journal, &mut points);
            trial.tally.jobs.tried += 1;
            let is_there = journal.state.subject.is_still(&states[place]) && journal.count.is(place);
            let right = trial.tally.compare(result == 0 && is_there, || {
                format!("point at {place} gone back to: {result:08x}, plan {}", hex(self.moves.plan))
            });
            self.moves.require(same && right)?;
        }
        Ok(())
    }

    /// The state after each number of steps that remain, simulated from a
    /// fresh start.
    fn states_from_fresh(&mut self) -> Result<Vec<Vec<u8>>, Parted> {
        let mut state = self.moves.fresh_state();
        let mut states = vec![state.before().to_vec()];
        for place in 0..self.moves.steps.len() {
            let (step, _) = self.moves.steps[place];
            let Moves { trial, plan, .. } = &mut self.moves;
            let (_, same) = trial.simulate_on(plan, step.code, step.node, step.site, &mut state);
            self.moves.require(same)?;
            states.push(state.subject.bytes().to_vec());
        }
        Ok(states)
    }

    fn count(&self) -> usize {
        self.moves.journal.count.before()
    }

    /// Points past the count are gone.
    fn drop_points(&mut self) {
        let (before, count) = (self.ledger.len(), self.moves.steps.len());
        self.ledger.retain(|_, place| *place <= count);
        self.moves.trial.tally.jobs.dropped += (before - self.ledger.len()) as u64;
    }

    fn has_result(&mut self, what: &str, result: u32, expected: u32) -> Result<(), Parted> {
        let plan = self.moves.plan;
        let same = self.moves.trial.tally.compare(result == expected, || {
            format!("{what}: {result:08x} and not {expected:08x}, or another state: plan {}", hex(plan))
        });
        self.moves.require(same)
    }

    /// Whether each name has the point that the moves gave it, none is past
    /// the count, and none stands twice.
    fn has_its_points(&mut self, what: &str) -> Result<(), Parted> {
        let (names, places) = (&self.points.names.subject, &self.points.places.subject);
        let points = slots::right(names.bytes(), places.bytes(), self.count());
        let expected = self.ledger.iter().map(|(name, &place)| (*name, place as u64)).collect();
        let same = self.moves.trial.tally.compare(points == Some(expected), || {
            format!("after {what} the points are {points:?}, not {:?}", self.ledger)
        });
        self.moves.require(same)
    }
}
