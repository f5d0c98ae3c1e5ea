//! The slowest targets of large plans: every target of plans of several shapes,
//! of the subject alone.

use differential::Implementation;
use differential::codes::*;
use differential::implementation::Wanted;
use std::hint::black_box;
use std::time::Instant;

/// The most nodes that a plan may have, the most children of a block, and the
/// most blocks below each other; the deepest level has tasks.
const NODES: usize = 160;
const CHILDREN: usize = 32;
const BLOCKS: usize = 31;

/// How often each target is tried, and how often the slowest ones are once
/// more. The least time counts; all are tried in turn, so that what else goes on
/// for a while doesn't meet every try of one of them.
const TRIES: usize = 5;
const MORE_TRIES: usize = 100;
/// How many of the slowest are tried once more.
const SLOWEST: usize = 10;

/// A target with its time in nanoseconds.
#[derive(Clone, Copy)]
pub struct Timed {
    pub wanted: Wanted,
    pub time: f64,
}

/// The slowest targets of a plan.
pub struct Slowest {
    /// Of those that have a way.
    pub way: Option<Timed>,
    /// Of those that have none.
    pub no_way: Option<Timed>,
}

/// The slowest targets of a valid plan.
pub fn slowest(subject: &mut impl Implementation, plan: &[u8]) -> Slowest {
    let nodes = plan.len() / 2;
    let mut answers = vec![0; nodes];
    let (mut ways, mut no_ways) = (vec![], vec![]);
    for node in 0..nodes as u32 {
        for (mark, end) in [0, 3, 4, 5].into_iter().flat_map(|mark| [3, 4].map(|end| (mark, end))) {
            let wanted = Wanted { node, mark, end };
            let has_way = subject.way(plan, wanted, &mut answers) == 0;
            let targets = if has_way { &mut ways } else { &mut no_ways };
            targets.push(Timed { wanted, time: f64::INFINITY });
        }
    }
    let [way, no_way] = [ways, no_ways].map(|targets| slowest_of(subject, plan, targets, &mut answers));
    Slowest { way, no_way }
}

/// The slowest of these, once those that seem to be are tried again.
fn slowest_of(
    subject: &mut impl Implementation,
    plan: &[u8],
    mut targets: Vec<Timed>,
    answers: &mut [u8],
) -> Option<Timed> {
    (0..TRIES).for_each(|_| try_each(subject, plan, &mut targets, answers));
    targets.sort_by(|one, two| two.time.total_cmp(&one.time));
    targets.truncate(SLOWEST);
    (0..MORE_TRIES).for_each(|_| try_each(subject, plan, &mut targets, answers));
    targets.into_iter().max_by(|one, two| one.time.total_cmp(&two.time))
}

/// Tries each of these once.
fn try_each(subject: &mut impl Implementation, plan: &[u8], targets: &mut [Timed], answers: &mut [u8]) {
    for Timed { wanted, time } in targets {
        let begin = Instant::now();
        black_box(subject.way(black_box(plan), *wanted, answers));
        *time = time.min(begin.elapsed().as_nanos() as f64);
    }
}

/// Plans of many nodes, by name.
pub fn shapes() -> Vec<(String, Vec<u8>)> {
    let mut shapes = vec![];
    for (name, root) in [("an or", OR), ("a contingency", CONTINGENCY), ("an xor", XOR)] {
        shapes.push((format!("5 xors below {name}"), wide(root, XOR)));
    }
    shapes.push(("5 ors below an and".to_string(), wide(AND, OR)));
    shapes.push(("5 ands below an or".to_string(), wide(OR, AND)));
    let rows: [(&str, &[u8]); 6] = [
        ("xors", &[XOR]),
        ("xor, contingency", &[XOR, CONTINGENCY]),
        ("xor, serial", &[XOR, SERIAL]),
        ("serial, contingency", &[SERIAL, CONTINGENCY]),
        ("and, or", &[AND, OR]),
        ("all kinds", &[XOR, SERIAL, OR, CONTINGENCY, AND]),
    ];
    for (name, kinds) in rows {
        for (place, behind) in [("first", false), ("last", true)] {
            shapes.push((format!("{name}; next block {place}"), deep(kinds, behind)));
        }
        shapes.push((format!("{name}; all tasks deep"), deepest(kinds)));
    }
    shapes.push(("conditionals".to_string(), conditionals()));
    shapes
}

/// Five blocks below a root, whose tasks stand in turn.
fn wide(root: u8, kind: u8) -> Vec<u8> {
    let mut plan = vec![root, 0xff];
    (0..5).for_each(|_| plan.extend([kind, 0]));
    (plan.len() / 2..NODES).for_each(|node| plan.extend([TASK, 1 + (node % 5) as u8]));
    plan
}

/// Blocks below each other, as deep as may be, of these kinds in turn. Each has
/// the next block and four tasks; the block stands behind the tasks, or before
/// them, and then all blocks stand before all tasks. Further tasks go to the
/// deepest.
fn deep(kinds: &[u8], behind: bool) -> Vec<u8> {
    let mut plan = vec![];
    let mut above = 0xff;
    for (level, &kind) in (1..=BLOCKS).zip(kinds.iter().cycle()) {
        let block = (plan.len() / 2) as u8;
        plan.extend([kind, above]);
        above = block;
        if behind && level < BLOCKS {
            plan.extend([TASK, block].repeat(4));
        }
    }
    if !behind {
        (0..BLOCKS - 1).for_each(|level| plan.extend([TASK, level as u8].repeat(4)));
    }
    while plan.len() / 2 < NODES {
        plan.extend([TASK, above]);
    }
    plan
}

/// The same blocks, with all tasks as deep as may be.
fn deepest(kinds: &[u8]) -> Vec<u8> {
    let mut plan = vec![];
    for (level, &kind) in (0..BLOCKS).zip(kinds.iter().cycle()) {
        plan.extend([kind, if level == 0 { 0xff } else { level as u8 - 1 }]);
    }
    let places = (0..BLOCKS).rev().flat_map(|block| [block as u8; CHILDREN - 1]);
    places.take(NODES - BLOCKS).for_each(|block| plan.extend([TASK, block]));
    plan
}

/// Conditionals below each other, each with a task for yes and the next for no.
fn conditionals() -> Vec<u8> {
    let mut plan = vec![];
    for level in 0..BLOCKS {
        let above = if level == 0 { 0xff } else { 2 * (level - 1) as u8 };
        plan.extend([CONDITIONAL, above, TASK, 2 * level as u8]);
    }
    plan.extend([TASK, 2 * (BLOCKS - 1) as u8]);
    plan
}

#[cfg(test)]
mod tests {
    use super::*;
    use differential::Reference;

    /// All are plans, nearly all of the most nodes, and have targets of both
    /// sorts.
    #[test]
    fn shapes_are_large_plans() {
        for (name, plan) in shapes() {
            assert_eq!(Reference.check(&plan), 0, "{name}");
            assert!(plan.len() / 2 == NODES || name == "conditionals", "{name}: {}", plan.len() / 2);
        }
        let slowest = slowest(&mut Reference, &wide(OR, XOR));
        assert!(slowest.way.is_some_and(|timed| timed.time > 0.0) && slowest.no_way.is_some());
    }
}
