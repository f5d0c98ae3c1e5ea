//! Test loads: of any plan, seed and count, into the right number of bytes and into others;
//! and loads of the subject that are run, by steps and as texts.

use super::heard;
use crate::codes::number;
use crate::implementation::Implementation;
use crate::lent::Pair;
use crate::loads::{STEP_BYTES, wrapping_count};
use crate::plans;
use crate::random::Random;
use crate::texts;
use crate::trial::Trial;

/// Seeds at the ends and in the middle of their range, at both sides of where a product and
/// a sum wrap, and those from which a move leads to 0 and to the largest number.
const SEEDS: [u32; 14] = [
    0,
    1,
    1971,
    1972,
    2580,
    2581,
    0xffff,
    0x1_0000,
    0x7fff_ffff,
    0x8000_0000,
    0xffff_fffe,
    u32::MAX,
    634_785_765,
    653_637_408,
];

/// Counts that nobody lends so many bytes for: about thirds of 2^32 and of twice 2^32, of
/// which three times as much wraps in 32 bits, and the largest.
const HUGE: [u32; 8] =
    [0x5555_5555, 0x5555_5556, 0x8000_0000, 0xaaaa_aaaa, 0xaaaa_aaab, 0xffff_0000, u32::MAX - 1, u32::MAX];

/// More steps than 16 bits can count.
const MANY: u32 = 0x1_0000;

/// Loads for a plan and for others of all sizes, for damaged ones, and now and then one of
/// many steps; then loads that are run.
pub fn workloads<S: Implementation, R: Implementation>(
    trial: &mut Trial<S, R>,
    random: &mut Random,
    plan: &[u8],
) {
    any_loads(trial, random, plan);
    for most in [1, 2, 3, 8, 20, 60, 160] {
        let plan = plans::of_size(random, most);
        any_loads(trial, random, &plan);
    }
    for _ in 0..20 {
        let plan = plans::damaged(random);
        any_loads(trial, random, &plan);
    }
    if random.chance(25) {
        let (seed, count) = (any_seed(random), MANY + random.below(2000) as u32);
        let load = random.bytes(STEP_BYTES * count as usize);
        trial.workload(plan, seed, count, &load);
        let above_16_bits = STEP_BYTES * (count - MANY) as usize;
        trial.workload(plan, seed, count, &load[..above_16_bits]);
    }
    for (nodes, most) in [(4, 400), (8, 400), (24, 300), (160, 300)] {
        let plan = plans::up_to(random, nodes);
        run_load(trial, random, &plan, most);
    }
}

/// A seed, often one at an end.
fn any_seed(random: &mut Random) -> u32 {
    if random.chance(40) { random.one_of(&SEEDS) } else { random.bits() as u32 }
}

/// Loads of any seed, of no step up to some hundred, into the right number of bytes and into
/// others.
fn any_loads<S: Implementation, R: Implementation>(
    trial: &mut Trial<S, R>,
    random: &mut Random,
    plan: &[u8],
) {
    for most in [1, 8, 30, 300] {
        let (seed, count) = (any_seed(random), random.below(most + 1));
        let right = STEP_BYTES * count;
        trial.workload(plan, seed, count as u32, &random.bytes(right));
        let other = other_length(random, count);
        trial.workload(plan, seed, count as u32, &random.bytes(other));
    }
    let (seed, length) = (any_seed(random), random.below(400));
    let huge = random.one_of(&HUGE);
    for count in wrapping_count(length).into_iter().chain([huge]) {
        trial.workload(plan, seed, count, &random.bytes(length));
    }
}

/// A length for so many steps, mostly a wrong one.
fn other_length(random: &mut Random, count: usize) -> usize {
    let right = STEP_BYTES * count;
    match random.below(8) {
        0 => 0,
        1 => right.saturating_sub(1),
        2 => right + 1,
        3 => right + 2,
        4 => right.saturating_sub(STEP_BYTES),
        5 => right + STEP_BYTES,
        6 => random.one_of(&[count, 2 * count, 4 * count]),
        _ => random.below(right + 300),
    }
}

/// A load that the subject draws, run step by step on both sides, from a fresh start or from
/// any state; and as the steps of a text.
fn run_load<S: Implementation, R: Implementation>(
    trial: &mut Trial<S, R>,
    random: &mut Random,
    plan: &[u8],
    most: usize,
) {
    let (seed, count) = (any_seed(random), random.between(most / 2, most));
    let out = random.bytes(STEP_BYTES * count);
    let (result, load) = trial.workload(plan, seed, count as u32, &out);
    let steps = load.as_chunks().0.to_vec();
    if result != 0 {
        return;
    }
    let nodes = plan.len() / 2;
    let fresh = random.chance(50);
    let mut state = Pair::default();
    state.load(&if fresh { vec![0; nodes * nodes] } else { heard(random, nodes * nodes) });
    for [code, node, site] in steps.iter().map(|step: &[u8; STEP_BYTES]| step.map(u32::from)) {
        let (result, same) = trial.simulate_on(plan, code, node, site, &mut state);
        if !same {
            return;
        }
        trial.tally.jobs.load_steps += 1;
        trial.tally.jobs.load_passed += u64::from(number(result) == 0);
    }
    texts::call_steps(trial, random, plan, steps);
}
