//! Small plans, one after another: all of them, nearly small ones, and larger ones; into
//! the right number of bytes and into others.

use super::length;
use crate::implementation::Implementation;
use crate::plans::{self, MOST_SMALL_BYTES, small};
use crate::random::Random;
use crate::trial::Trial;

/// How many small plans are handed in one after another.
const STRETCH: usize = 600;

/// How many small plans have up to three nodes, and up to four.
const UP_TO_THREE: usize = 50;
const UP_TO_FOUR: usize = 440;

/// Lengths that are wrong: of smaller plans, one off, twice as many, and of the largest
/// plan.
const OTHER_LENGTHS: [usize; 9] = [0, 2, 4, 6, 8, 9, 11, 20, 320];

/// A stretch of all small plans, and where a size begins; then plans that are nearly
/// small, damaged ones, and larger ones.
pub fn next_plans<S: Implementation, R: Implementation>(
    trial: &mut Trial<S, R>,
    random: &mut Random,
    plan: &[u8],
) {
    any_length(trial, random, plan);
    let first = random.below(small().len());
    let stretch = small().iter().skip(first).take(STRETCH);
    let size_ends = [UP_TO_FOUR - 1, small().len() - 1].map(|place| &small()[place]);
    for plan in small()[..UP_TO_THREE].iter().chain(size_ends).chain(stretch) {
        trial.next_plan(plan, &random.bytes(MOST_SMALL_BYTES));
    }
    for _ in 0..20 {
        let plan = &small()[random.below(small().len())];
        any_length(trial, random, plan);
        let near = plans::near_small(plan);
        for _ in 0..4 {
            let place = random.below(near.len());
            any_length(trial, random, &near[place]);
        }
        plans::with_one_more(plan).iter().for_each(|larger| any_length(trial, random, larger));
    }
    any_length(trial, random, &small()[small().len() - 1]);
    for most in [6, 6, 7, 8, 20, 160] {
        let plan = plans::of_size(random, most);
        any_length(trial, random, &plan);
        let plan = plans::damaged(random);
        any_length(trial, random, &plan);
    }
}

/// A plan into ten bytes and into any number of them.
fn any_length<S: Implementation, R: Implementation>(
    trial: &mut Trial<S, R>,
    random: &mut Random,
    plan: &[u8],
) {
    let other = if random.chance(50) { plan.len() } else { length(random, MOST_SMALL_BYTES) };
    trial.next_plan(plan, &random.bytes(other));
    trial.next_plan(plan, &random.bytes(MOST_SMALL_BYTES));
}

/// All small plans: the subject's own walk over them; each handed in, also with other
/// lengths; those of five nodes with one more; and those of up to four nodes with each
/// byte changed, which mostly are refused.
pub fn whole_walk<S: Implementation, R: Implementation>(trial: &mut Trial<S, R>) {
    trial.walk();
    for plan in small() {
        trial.next_plan(plan, &[0xa5; MOST_SMALL_BYTES]);
        OTHER_LENGTHS.iter().for_each(|&length| {
            trial.next_plan(plan, &vec![0xa5; length]);
        });
    }
    let larger = small()[UP_TO_FOUR..].iter().flat_map(|plan| plans::with_one_more(plan));
    let near = small()[..UP_TO_FOUR].iter().flat_map(|plan| plans::near_small(plan));
    for plan in larger.chain(near) {
        trial.next_plan(&plan, &[0xa5; MOST_SMALL_BYTES]);
        trial.next_plan(&plan, &[0xa5; MOST_SMALL_BYTES - 1]);
    }
}
