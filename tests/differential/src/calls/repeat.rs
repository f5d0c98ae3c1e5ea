//! Templates that are repeated: of any shape, in any numbering, at the limit of nodes;
//! any node marked, any count; and all small templates.

use super::{any_node, length};
use crate::driver::STRANGE;
use crate::implementation::Implementation;
use crate::plans;
use crate::random::Random;
use crate::trial::Trial;

/// The bytes that must be lent.
const MOST_BYTES: usize = 320;

/// Any node of a plan, then templates of all sizes, templates that come to about as many
/// nodes as there may be, and plans that are damaged.
pub fn repeats<S: Implementation, R: Implementation>(
    trial: &mut Trial<S, R>,
    random: &mut Random,
    plan: &[u8],
) {
    any_marks(trial, random, plan);
    for _ in 0..12 {
        let most = random.one_of(&[2, 3, 5, 8, 8, 20, 60, 160]);
        let (plan, marked) = plans::template(random, most);
        any_counts(trial, random, &plan, marked);
        any_marks(trial, random, &plan);
    }
    for _ in 0..12 {
        let (plan, marked, count) = plans::limit_template(random);
        for count in [count - 1, count, count + 1] {
            trial.repeat(&plan, marked as u32, count as u32, &random.bytes(MOST_BYTES));
        }
        any_counts(trial, random, &plan, marked);
    }
    for _ in 0..20 {
        let plan = plans::damaged(random);
        any_marks(trial, random, &plan);
    }
}

/// A marked block with any counts, into the right number of bytes and into others: as
/// many as the template has, and as many as would do.
fn any_counts<S: Implementation, R: Implementation>(
    trial: &mut Trial<S, R>,
    random: &mut Random,
    plan: &[u8],
    marked: usize,
) {
    let node = marked as u32;
    for _ in 0..6 {
        let count = any_count(random);
        trial.repeat(plan, node, count, &random.bytes(MOST_BYTES));
    }
    trial.repeat(plan, node, 1, &random.bytes(MOST_BYTES));
    let high = random.one_of(&[1 << 8, 1 << 16, 1 << 31]);
    trial.repeat(plan, node | high, 1, &random.bytes(MOST_BYTES));
    let count = random.between(1, 32);
    let enough = plans::repeated(plan, marked, count).len();
    for length in [length(random, MOST_BYTES), plan.len(), enough] {
        trial.repeat(plan, node, count as u32, &random.bytes(length));
    }
}

/// Any node marked, whether it can be or not.
fn any_marks<S: Implementation, R: Implementation>(
    trial: &mut Trial<S, R>,
    random: &mut Random,
    plan: &[u8],
) {
    for _ in 0..4 {
        let (node, count) = (any_node(random, plan.len() / 2), any_count(random));
        let length = length(random, MOST_BYTES);
        trial.repeat(plan, node, count, &random.bytes(length));
        trial.repeat(plan, node, count, &random.bytes(MOST_BYTES));
    }
}

/// A count, mostly one from 1 to 32.
fn any_count(random: &mut Random) -> u32 {
    let count = random.between(1, 32) as u32;
    match random.below(16) {
        0 => 0,
        1 => 1,
        2 => 32,
        3 => 33,
        4 => random.between(33, 40) as u32,
        5 => random.one_of(&STRANGE),
        6 => count | random.one_of(&[1 << 8, 1 << 16, 1 << 31]),
        7..=11 => random.between(1, 5) as u32,
        _ => count,
    }
}

/// Every node of every plan of up to five nodes marked, with counts at both ends.
pub fn every_template<S: Implementation, R: Implementation>(trial: &mut Trial<S, R>) {
    for plan in (1..=5).flat_map(plans::all) {
        for node in 0..plan.len() as u32 / 2 {
            for count in [0, 1, 2, 3, 4, 32, 33] {
                trial.repeat(&plan, node, count, &[0xa5; MOST_BYTES]);
            }
        }
    }
}
