//! A job of hosts: every site, or every desk, has a row of its own, an event is
//! a step on the row where it is decided, and a message is heard only of what
//! has happened. Rows and results must be those of the simulation, in whatever
//! order all this comes. Since a host has nothing but its row, they must also be
//! the same again in any other order that each host could not tell from the
//! first.

use crate::codes::*;
use crate::driver::{Driver, Step, Temper, Tree};
use crate::form::{Form, Seats};
use crate::implementation::Implementation;
use crate::lent::Pair;
use crate::random::Random;
use crate::trial::{Trial, hex};
use std::borrow::Cow;
use std::collections::{HashSet, VecDeque};

/// The hosts of a plan, beside a simulation of the same steps.
struct Hosts<'a> {
    plan: &'a [u8],
    /// The plan without desks, with which a host hears.
    plain: Cow<'a, [u8]>,
    tree: Tree,
    seats: Seats,
    rows: Vec<Pair>,
    state: Pair,
    /// What has happened: the events that passed.
    happened: HashSet<(u32, u32)>,
    /// What each host did, in its own order, with the results.
    done: Vec<VecDeque<(Step, u32)>>,
}

/// Runs a job of hosts, usually to the end.
pub fn run<S: Implementation, R: Implementation>(trial: &mut Trial<S, R>, random: &mut Random, plan: &[u8]) {
    let mut driver = Driver::new(trial.form, plan, Temper::any(random));
    let mut hosts = Hosts::new(trial.form, plan);
    let limit = if random.chance(20) { random.below(200) } else { usize::MAX };
    for _ in 0..limit {
        let Some(step) = driver.propose(random) else {
            break;
        };
        match hosts.step(trial, step) {
            Some(passed) => driver.heed(step, passed, random),
            None => return,
        }
    }
    if hosts.compare_all(trial) {
        hosts.reorder(trial, random);
    }
}

/// So many zeros, for both sides.
fn fresh(length: usize) -> Pair {
    let mut pair = Pair::default();
    pair.load(&vec![0; length]);
    pair
}

impl Hosts<'_> {
    fn new(form: Form, plan: &[u8]) -> Hosts<'_> {
        let plain = form.plain(plan);
        let seats = Seats::new(form, plan);
        let hosts = seats.numbers().len();
        Hosts {
            plan,
            tree: Tree::new(&plain),
            plain,
            seats,
            rows: (0..hosts).map(|_| fresh(form.nodes(plan))).collect(),
            state: fresh(form.state_length(plan)),
            happened: HashSet::new(),
            done: vec![VecDeque::new(); hosts],
        }
    }

    fn nodes(&self) -> usize {
        self.tree.children.len()
    }

    /// A step at the hosts and in the simulation; answers whether it passed,
    /// and nothing if the two part.
    fn step<S: Implementation, R: Implementation>(
        &mut self,
        trial: &mut Trial<S, R>,
        step: Step,
    ) -> Option<bool> {
        let Step { code, node, site } = step;
        let row = self.row_of(step);
        let by_hosts = match row.and_then(|row| self.rows.get_mut(row)) {
            Some(row) if site == HAPPENS => Some(trial.step_on(self.plan, code, node, row)),
            Some(row) if self.happened.contains(&(code, node)) => {
                Some(trial.hear_on(&self.plain, code, node, row))
            }
            _ => None,
        };
        let (simulated, same) = trial.simulate_on(self.plan, code, node, site, &mut self.state);
        let (result, same_at_host) = by_hosts.unwrap_or((self.unsent(step), true));
        let passed = number(result) == 0;
        if passed && site == HAPPENS {
            self.happened.insert((code, node));
        }
        if let (Some(row), Some(_)) = (row, by_hosts) {
            self.done[row].push_back((step, result));
        }
        let same = same && same_at_host;
        (same && self.compare(trial, step, row, result, simulated)).then_some(passed)
    }

    /// The row that a step is about: the event's site's, or the hearer's. A
    /// node that there isn't has no site; any row will do to refuse it.
    fn row_of(&self, step: Step) -> Option<usize> {
        let node = step.node as usize;
        match step.site {
            HAPPENS if node < self.nodes() => self.seats.row(self.seats.of(self.tree.site(step.code, node))),
            HAPPENS => Some(0),
            hearer => self.seats.row(hearer),
        }
    }

    /// What a simulation says of a message that no host would send: to nobody,
    /// of no event, or of one that hasn't happened.
    fn unsent(&self, step: Step) -> u32 {
        let is_nobody = self.seats.row(step.site).is_none();
        if is_nobody || step.node as usize >= self.nodes() || !(1..=8).contains(&step.code) {
            8
        } else if !self.tree.applies(step.code, step.node as usize) {
            9
        } else {
            12
        }
    }

    /// The results are the same, and so is the row.
    fn compare<S: Implementation, R: Implementation>(
        &self,
        trial: &mut Trial<S, R>,
        step: Step,
        row: Option<usize>,
        result: u32,
        simulated: u32,
    ) -> bool {
        let same = result == simulated && row.is_none_or(|row| self.has_same_row(row));
        trial.tally.jobs.of_hosts += 1;
        trial.tally.compare(same, || {
            let plan = hex(self.plan);
            format!("hosts {result:08x}, simulation {simulated:08x}, or another row: plan {plan} {step:?}")
        })
    }

    /// All rows one after another are the simulation's state.
    fn compare_all<S: Implementation, R: Implementation>(&self, trial: &mut Trial<S, R>) -> bool {
        let same = (0..self.rows.len()).all(|row| self.has_same_row(row));
        trial.tally.compare(same, || format!("hosts and simulation have other rows: {}", hex(self.plan)))
    }

    /// Simulates what the hosts did in another order, in which each host's own
    /// is kept and no message comes before its event.
    fn reorder<S: Implementation, R: Implementation>(mut self, trial: &mut Trial<S, R>, random: &mut Random) {
        self.happened.clear();
        self.state = fresh(self.state.length());
        let mut last = 0;
        while let Some((step, result)) = self.next_in_another_order(random, &mut last) {
            let Step { code, node, site } = step;
            let (simulated, same) = trial.simulate_on(self.plan, code, node, site, &mut self.state);
            if !same || !self.compare(trial, step, None, result, simulated) {
                return;
            }
            if number(result) == 0 && site == HAPPENS {
                self.happened.insert((code, node));
            }
        }
        self.compare_all(trial);
    }

    /// Takes the next step of a host that can go on, often of the last one.
    fn next_in_another_order(&mut self, random: &mut Random, last: &mut usize) -> Option<(Step, u32)> {
        let ready: Vec<usize> = (0..self.rows.len()).filter(|&row| self.is_ready(row)).collect();
        if ready.is_empty() {
            return None;
        }
        if !ready.contains(last) || random.chance(40) {
            *last = random.one_of(&ready);
        }
        self.done[*last].pop_front()
    }

    /// Whether a host has something left to do and, if that is to hear, it has
    /// happened by now.
    fn is_ready(&self, row: usize) -> bool {
        let next = self.done[row].front();
        next.is_some_and(|(step, _)| step.site == HAPPENS || self.happened.contains(&(step.code, step.node)))
    }

    /// Whether a host's row is the one that the simulation's state has for it,
    /// on the subject's side.
    fn has_same_row(&self, row: usize) -> bool {
        let nodes = self.nodes();
        self.rows[row].subject.is_still(&self.state.subject.bytes()[row * nodes..][..nodes])
    }
}
