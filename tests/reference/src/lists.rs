//! The ways to all targets of a small plan, found by trying every list of
//! answers. It is slow and plain, to hold a search against.

use crate::pass::pass;
use crate::plan::{Kind, Plan};
use crate::way::Target;
use std::collections::BTreeMap;

/// The way to each target that a list leads to.
pub type Ways = BTreeMap<Target, Vec<u8>>;

/// The ways of a valid plan. All answers are tried up to the highest that means
/// something at some node, and one above, which means nothing at any: 1 and 2 at
/// a task and a conditional, 0 and the places of the children at an xor. That is
/// enough. Where an answer is read, all bytes that mean nothing are refused
/// alike; where it isn't, all bytes are free. So a list with a higher byte
/// leads where the one with this byte in its place leads, and that one is
/// smaller.
pub fn ways(plan: &[u8]) -> Ways {
    let checked = Plan::check(plan).expect("a valid plan");
    let highest = |node: usize| match checked.kind(node) {
        Kind::Xor => checked.children(node).count() as u8,
        _ => 2,
    };
    let highest = (0..checked.size()).map(highest).max().unwrap_or(2);
    ways_up_to(plan, highest + 1)
}

/// The same with every list of bytes up to this one. They come in rising order,
/// so the first that leads to a target is the way there.
pub fn ways_up_to(plan: &[u8], last: u8) -> Ways {
    let nodes = plan.len() / 2;
    let (mut answers, mut marks) = (vec![0; nodes], vec![0; nodes]);
    let mut ways = Ways::new();
    loop {
        if pass(plan, &answers, &mut marks).is_ok() {
            for node in 0..nodes {
                let target = Target { node, mark: marks[node], end: marks[0] };
                ways.entry(target).or_insert_with(|| answers.clone());
            }
        }
        if !next(&mut answers, last) {
            return ways;
        }
    }
}

/// The next list in rising order, with bytes up to this one; there is none
/// behind the last.
fn next(answers: &mut [u8], last: u8) -> bool {
    for answer in answers.iter_mut().rev() {
        if *answer < last {
            *answer += 1;
            return true;
        }
        *answer = 0;
    }
    false
}
