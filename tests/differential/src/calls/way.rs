//! Ways there: any targets, some of them wrong; targets that a known list leads
//! to; and all targets of small plans, held against every list.

use super::{any_node, fitting_answers, length};
use crate::codes::{TASK, XOR};
use crate::driver::{STRANGE, Tree};
use crate::implementation::{Implementation, Wanted};
use crate::plans;
use crate::random::Random;
use crate::trial::{Trial, hex, without_unread};
use reference::lists;
use reference::way::Target;

/// The marks and the ends that can be wanted.
const MARKS: [u8; 4] = [0, 3, 4, 5];
const ENDS: [u8; 2] = [3, 4];

/// Numbers that can't be wanted; some could, if they were cut.
const UNWANTED: [u32; 9] = [1, 2, 6, 255, 0x100, 0x103, 0x104, 0x1_0005, 0x8000_0003];

/// Targets of a plan, of one that has more xors, now and then of a large one, of
/// a wide one, and of small ones, in one of which subtrees stand among each
/// other.
pub fn ways<S: Implementation, R: Implementation>(trial: &mut Trial<S, R>, random: &mut Random, plan: &[u8]) {
    let mut picking = plan.to_vec();
    plans::favour_xor(random, &mut picking);
    let nodes = if random.chance(30) { random.between(80, 160) } else { 12 };
    let large = plans::of_size(random, nodes);
    for plan in [plan, &picking, &large] {
        any_targets(trial, random, plan);
        known_targets(trial, random, plan);
    }
    wide_targets(trial, random);
    for most in [4, 5, 6, 6] {
        let nodes = random.between(2, most);
        let mut plan = plans::of_size(random, nodes);
        plans::favour_xor(random, &mut plan);
        let answers = random.bytes(plan.len() / 2);
        all_targets(trial, &plan, &answers);
    }
    let mixed = plans::mixed(random);
    all_targets(trial, &mixed, &random.bytes(mixed.len() / 2));
}

/// Any targets, over answers of any bytes and now and then of another length.
fn any_targets<S: Implementation, R: Implementation>(
    trial: &mut Trial<S, R>,
    random: &mut Random,
    plan: &[u8],
) {
    let nodes = plan.len() / 2;
    for _ in 0..40 {
        let length = if random.chance(10) { length(random, nodes) } else { nodes };
        let answers = random.bytes(length);
        trial.way(plan, any_wanted(random, nodes), &answers);
    }
}

/// A node, a mark and an end, each of them mostly one that can be wanted.
fn any_wanted(random: &mut Random, nodes: usize) -> Wanted {
    let mut number = |from: &[u8]| match random.below(20) {
        0 => random.one_of(&STRANGE),
        1 => random.one_of(&UNWANTED),
        2 => u32::from(random.one_of(from)) | random.one_of(&[1 << 8, 1 << 16, 1 << 31]),
        3 => u32::from(random.one_of(&MARKS)),
        _ => u32::from(random.one_of(from)),
    };
    let (mark, end) = (number(&MARKS), number(&ENDS));
    let high = if random.chance(5) { random.one_of(&[1 << 8, 1 << 31]) } else { 0 };
    Wanted { node: any_node(random, nodes) | high, mark, end }
}

/// Targets that a list of answers leads to: there is a way, it is not larger
/// than the list, and it is the same whether the list was there before or other
/// bytes.
fn known_targets<S: Implementation, R: Implementation>(
    trial: &mut Trial<S, R>,
    random: &mut Random,
    plan: &[u8],
) {
    let nodes = plan.len() / 2;
    let tree = Tree::new(plan);
    for _ in 0..6 {
        let list = fitting_answers(random, &tree);
        let Ok(marks) = trial.marks_of_pass(plan, &list) else {
            continue;
        };
        let list = without_unread(plan, &list, &marks);
        for _ in 0..3 {
            let node = random.below(nodes);
            let wanted = Wanted { node: node as u32, mark: marks[node].into(), end: marks[0].into() };
            let [over_list, over_any] = [list.clone(), random.bytes(nodes)].map(|before| {
                let (result, found) = trial.way(plan, wanted, &before);
                (result == 0).then(|| found.to_vec())
            });
            let right = over_list == over_any && over_list.as_ref().is_some_and(|found| *found <= list);
            trial.tally.jobs.against_one_list += 1;
            trial.tally.compare(right, || {
                let (plan, list) = (hex(plan), hex(&list));
                format!("{wanted:?} in {plan}: {over_list:?} and {over_any:?}, and {list} leads there")
            });
        }
    }
}

/// A wide xor, alone or below another block: its last children are picked, and
/// turned down.
fn wide_targets<S: Implementation, R: Implementation>(trial: &mut Trial<S, R>, random: &mut Random) {
    let mut plan = if random.chance(50) { vec![] } else { vec![random.one_of(&[2, 3, 4, 5, 6, 8]), 0xff] };
    let xor = plan.len() / 2;
    plan.extend([XOR, if xor == 0 { 0xff } else { 0 }]);
    let children = random.one_of(&[9, 16, 31, 32, 32]);
    (0..children).for_each(|_| plan.extend([TASK, xor as u8]));
    let nodes = plan.len() / 2;
    for _ in 0..4 {
        let node = (nodes - 1 - random.below(3)) as u32;
        let wanted = Wanted { node, mark: random.one_of(&[3, 3, 5, 4]), end: random.one_of(&[3, 3, 4]) };
        let answers = random.bytes(nodes);
        trial.way(&plan, wanted, &answers);
    }
}

/// Every target of a small plan, held against every list of answers.
fn all_targets<S: Implementation, R: Implementation>(trial: &mut Trial<S, R>, plan: &[u8], answers: &[u8]) {
    let ways = lists::ways(plan);
    for node in 0..plan.len() / 2 {
        for (mark, end) in MARKS.into_iter().flat_map(|mark| ENDS.map(|end| (mark, end))) {
            let wanted = Wanted { node: node as u32, mark: mark.into(), end: end.into() };
            let (result, found) = trial.way(plan, wanted, answers);
            let right = match ways.get(&Target { node, mark, end }) {
                Some(way) => result == 0 && found == way,
                None => result == 30,
            };
            let found = found.to_vec();
            trial.tally.jobs.against_all_lists += 1;
            trial.tally.compare(right, || {
                format!("{wanted:?} in {}: {result:08x} {}, not as by every list", hex(plan), hex(&found))
            });
        }
    }
}

/// Every target of every plan of up to five nodes.
pub fn every_target<S: Implementation, R: Implementation>(trial: &mut Trial<S, R>) {
    for plan in (1..=5).flat_map(plans::all) {
        let answers = vec![0xa5; plan.len() / 2];
        all_targets(trial, &plan, &answers);
    }
}
