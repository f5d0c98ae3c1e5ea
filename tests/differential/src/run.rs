//! A whole run: its parts in turn, each with random numbers of its own, so
//! that one part can be repeated alone.

use crate::implementation::{Implementation, Reference};
use crate::plans;
use crate::random::Random;
use crate::tally::Tally;
use crate::trial::Trial;
use crate::{calls, cases, hosts, job, journals, texts};

/// Texts in one part of a run.
const TEXTS_IN_A_PART: usize = 64;
/// Three times so many texts are given to the call in one part of a run.
const TEXTS_CALLED: usize = 4;
/// Parts come in turns of so many; what a part is about goes by its place in
/// the turn.
pub const TURN: u64 = 40;
/// The part that tries every row of an only child.
pub const ONLY_CHILD_PART: u64 = 1 << 39;
/// The part with the cases whose answers are known.
pub const CASES_PART: u64 = ONLY_CHILD_PART + 1;
/// The part that changes one answer in every small plan.
pub const SMALL_PLANS_PART: u64 = ONLY_CHILD_PART + 2;
/// The part with every target of every small plan.
pub const TARGETS_PART: u64 = ONLY_CHILD_PART + 3;
/// The part with every small plan in every form.
pub const SMALL_FORMS_PART: u64 = ONLY_CHILD_PART + 4;
/// The part with every template among the small plans.
pub const SMALL_TEMPLATES_PART: u64 = ONLY_CHILD_PART + 5;
/// The part with all small plans, one after another.
pub const WALK_PART: u64 = ONLY_CHILD_PART + 6;
/// The place of the parts with test loads, behind a simulation.
pub const LOADS_PART: u64 = 14;
/// The place of the parts in which small plans come one after another, behind a
/// simulation.
pub const NEXT_PLANS_PART: u64 = 15;
/// The place of the parts in which plans are rewritten, renumbered and brought
/// into depth form.
pub const FORMS_PART: u64 = 22;
/// The place of the parts with hosts.
pub const HOSTS_PART: u64 = 23;
/// The place of the parts with lists of moves.
pub const JOURNALS_PART: u64 = 25;
/// The place of the parts with lists of moves that have points.
pub const POINTS_PART: u64 = 27;
/// The place of the parts in which one answer is changed.
pub const IMPACT_PART: u64 = 29;
/// The place of the parts in which ways are looked for.
pub const WAYS_PART: u64 = 30;
/// The place of the parts in which templates are repeated, behind simulations of
/// small plans.
pub const TEMPLATES_PART: u64 = 31;
/// The first place of the parts with desks; they end a turn.
pub const DESKS_PART: u64 = 32;
/// The place of the parts with calls in both forms of a plan.
pub const OWN_DESKS_PART: u64 = 35;
/// The place of the parts in which all are at one desk.
pub const ONE_DESK_PART: u64 = 36;
/// The place of the parts with simulations of plans with desks.
pub const DESK_JOBS_PART: u64 = 37;
/// The place of the parts with hosts and with lists of moves, for plans with
/// desks.
pub const DESK_MOVES_PART: u64 = 38;
/// The place of the parts with points, for plans with desks.
pub const DESK_POINTS_PART: u64 = 39;
/// The parts that are the same with every seed.
const FIXED_PARTS: [u64; 7] = [
    ONLY_CHILD_PART,
    CASES_PART,
    SMALL_PLANS_PART,
    TARGETS_PART,
    SMALL_FORMS_PART,
    SMALL_TEMPLATES_PART,
    WALK_PART,
];
/// Where the parts with texts begin to be numbered.
const FIRST_TEXT_PART: u64 = 1 << 40;

/// What to run.
#[derive(Clone, Copy)]
pub struct Options {
    /// All random numbers come from this.
    pub seed: u64,
    /// At least so many calls of simulate and step, those with desks and those of
    /// test loads not counted.
    pub steps: u64,
    /// At least so many texts.
    pub texts: u64,
    /// Stops once so many differences are found.
    pub enough: u64,
    /// Just this part, if given.
    pub only: Option<u64>,
}

impl Default for Options {
    fn default() -> Options {
        Options { seed: 1, steps: 6_000_000, texts: 4_000, enough: 10, only: None }
    }
}

/// Compares a subject with the reference.
pub fn run(subject: impl Implementation, options: Options) -> Tally {
    run_against(subject, Reference, options)
}

/// Compares a subject with something else in the reference's place. What is
/// held against the rules themselves doesn't depend on it.
pub fn run_against(subject: impl Implementation, reference: impl Implementation, options: Options) -> Tally {
    let mut trial = Trial::new(subject, reference);
    if let Some(part) = options.only {
        run_part(&mut trial, options.seed, part);
        return trial.tally;
    }
    let mut part = 0;
    while trial.tally.steps() < options.steps && trial.tally.differences() < options.enough {
        run_part(&mut trial, options.seed, part);
        part += 1;
    }
    for part in FIXED_PARTS {
        if trial.tally.differences() < options.enough {
            run_part(&mut trial, options.seed, part);
        }
    }
    let mut part = FIRST_TEXT_PART;
    while trial.tally.texts < options.texts && trial.tally.differences() < options.enough {
        run_part(&mut trial, options.seed, part);
        part += 1;
    }
    trial.tally
}

fn run_part<S: Implementation, R: Implementation>(trial: &mut Trial<S, R>, seed: u64, part: u64) {
    let random = &mut Random::part(seed, part);
    trial.tally.part = part;
    if part >= FIRST_TEXT_PART {
        return texts::run(trial, random, TEXTS_IN_A_PART);
    }
    if part == ONLY_CHILD_PART {
        return calls::only_child(trial);
    }
    if part == CASES_PART {
        return cases::run(trial);
    }
    if part == SMALL_PLANS_PART {
        return calls::every_small_plan(trial);
    }
    if part == TARGETS_PART {
        return calls::every_target(trial);
    }
    if part == SMALL_FORMS_PART {
        return calls::every_form(trial);
    }
    if part == SMALL_TEMPLATES_PART {
        return calls::every_template(trial);
    }
    if part == WALK_PART {
        return calls::whole_walk(trial);
    }
    let plan = if part % (4 * TURN) == 47 { large_plan(random) } else { any_plan(random) };
    let place = part % TURN;
    if place >= DESKS_PART {
        return trial.with_desks(|trial| run_desks(trial, random, place, &plan));
    }
    match place {
        0 | 16 => calls::damaged_plans(trial, random),
        1 | 17 => calls::guards(trial, random, &plan),
        2 | 18 => calls::rows(trial, random, &plan),
        3 | 19 => calls::passes(trial, random, &plan),
        4 | 20 => calls::views(trial, random, &plan),
        5 | 21 => calls::states(trial, random, &plan),
        6 => calls::lengths(trial, random, &plan),
        FORMS_PART => {
            calls::rewrites(trial, random, &plan);
            calls::forms(trial, random, &plan);
        }
        23 => all_hosts(trial, random),
        24 => texts::calls(trial, random, TEXTS_CALLED),
        25 => all_journals(trial, random),
        26 => calls::journals(trial, random, &plan),
        27 => all_points(trial, random),
        28 => calls::points(trial, random, &plan, 40),
        IMPACT_PART => calls::impacts(trial, random, &plan),
        WAYS_PART => calls::ways(trial, random, &plan),
        7 => job::simulate(trial, random, &plan),
        8 | 9 => jobs(trial, random, 20, 60, 1),
        LOADS_PART => {
            jobs(trial, random, 8, 20, 1);
            calls::workloads(trial, random, &plan);
        }
        NEXT_PLANS_PART => {
            jobs(trial, random, 8, 20, 1);
            calls::next_plans(trial, random, &plan);
        }
        10..=13 => jobs(trial, random, 8, 20, 1),
        TEMPLATES_PART.. => {
            jobs(trial, random, 1, 8, 6);
            calls::repeats(trial, random, &plan);
        }
    }
}

/// A part with desks.
fn run_desks<S: Implementation, R: Implementation>(
    trial: &mut Trial<S, R>,
    random: &mut Random,
    place: u64,
    plan: &[u8],
) {
    let with_desks = plans::with_desks(random, plan);
    match place {
        32 => calls::damaged_plans_with_desks(trial, random),
        33 => {
            calls::rows(trial, random, &with_desks);
            calls::states(trial, random, &with_desks);
        }
        34 => {
            calls::lengths_with_desks(trial, random, &with_desks);
            calls::journals(trial, random, &with_desks);
        }
        OWN_DESKS_PART => calls::own_desks(trial, random, plan),
        ONE_DESK_PART => {
            for most in [3, 8, 24] {
                let plan = plans::up_to(random, most);
                let at_one_desk = plans::at_one_desk(random, &plan);
                job::simulate(trial, random, &at_one_desk);
            }
        }
        DESK_JOBS_PART => {
            for most in [4, 8, 8, 24] {
                let plan = plans::up_to(random, most);
                let with_desks = plans::with_desks(random, &plan);
                job::simulate(trial, random, &with_desks);
            }
            if random.chance(1) {
                let plan = large_plan(random);
                let with_desks = plans::with_desks(random, &plan);
                job::simulate(trial, random, &with_desks);
            }
        }
        DESK_MOVES_PART => {
            for (most, moves) in [(6, 100), (12, 150)] {
                let plan = moving_plan(random, 2, most);
                hosts::run(trial, random, &plan);
                journals::run(trial, random, &plan, moves);
            }
        }
        _ => {
            let plan = moving_plan(random, 2, 8);
            journals::points::run(trial, random, &plan, 200);
            calls::points(trial, random, &with_desks, 10);
        }
    }
}

/// A plan with desks for lists of moves.
fn moving_plan(random: &mut Random, least: usize, most: usize) -> Vec<u8> {
    let nodes = random.between(least, most);
    let mut plan = plans::of_size(random, nodes);
    plans::favour_xor(random, &mut plan);
    plans::with_desks(random, &plan)
}

/// Simulations of plans between two sizes.
fn jobs<S: Implementation, R: Implementation>(
    trial: &mut Trial<S, R>,
    random: &mut Random,
    least: usize,
    most: usize,
    count: usize,
) {
    for _ in 0..count {
        let nodes = random.between(least, most);
        let plan = plans::of_size(random, nodes);
        job::simulate(trial, random, &plan);
    }
}

/// Jobs of hosts, of small and middle plans.
fn all_hosts<S: Implementation, R: Implementation>(trial: &mut Trial<S, R>, random: &mut Random) {
    for most in [4, 8, 8, 24] {
        let plan = plans::up_to(random, most);
        hosts::run(trial, random, &plan);
    }
}

/// Lists of moves, of small, middle and sometimes large plans.
fn all_journals<S: Implementation, R: Implementation>(trial: &mut Trial<S, R>, random: &mut Random) {
    for (least, most, moves) in [(1, 3, 60), (3, 6, 250), (4, 8, 250), (4, 8, 250), (9, 24, 300)] {
        let nodes = random.between(least, most);
        let mut plan = plans::of_size(random, nodes);
        plans::favour_xor(random, &mut plan);
        journals::run(trial, random, &plan, moves);
    }
    if random.chance(20) {
        let plan = large_plan(random);
        journals::run(trial, random, &plan, 60);
    }
}

/// Lists of moves with points, of small, middle and sometimes large plans.
fn all_points<S: Implementation, R: Implementation>(trial: &mut Trial<S, R>, random: &mut Random) {
    for (least, most, moves) in [(1, 3, 100), (3, 6, 300), (4, 8, 300), (9, 24, 300)] {
        let nodes = random.between(least, most);
        let mut plan = plans::of_size(random, nodes);
        plans::favour_xor(random, &mut plan);
        journals::points::run(trial, random, &plan, moves);
    }
    if random.chance(10) {
        let plan = large_plan(random);
        journals::points::run(trial, random, &plan, 60);
    }
}

/// A plan for single calls: mostly small, all sizes.
fn any_plan(random: &mut Random) -> Vec<u8> {
    let most = random.one_of(&[2, 4, 8, 8, 16, 16, 60, 160]);
    plans::up_to(random, most)
}

fn large_plan(random: &mut Random) -> Vec<u8> {
    if random.chance(30) {
        return plans::largest(random);
    }
    let nodes = random.between(80, 160);
    plans::of_size(random, nodes)
}
