//! Plans, good and damaged, plain and with desks.

use crate::codes::{AND, CONDITIONAL, CONTINGENCY, OR, SERIAL, TASK, WAITING_AND, XOR};
use crate::form::HIGHEST_DESK;
use crate::random::Random;

mod forms;
mod small;
mod templates;

pub use forms::{any_numbering, any_order, are_same_tree, deep, fixed, has_tree, is_fixed, mixed_numbering};
pub use forms::{damaged_form, lines};
pub use small::{MOST_SMALL_BYTES, after, near_small, small, with_one_more};
pub use templates::{is_template, limit_template, repeated, template};

/// The most nodes, children and levels a plan may have.
const MOST_NODES: usize = 160;
const MOST_CHILDREN: usize = 32;
const MOST_LEVELS: usize = 32;
const NO_PARENT: u8 = 0xff;

/// Where new nodes go while a plan grows.
#[derive(Clone, Copy)]
enum Growth {
    Anywhere,
    Deep,
    Wide,
}

/// A valid plan of at most so many nodes, of any shape.
pub fn up_to(random: &mut Random, most: usize) -> Vec<u8> {
    let nodes = random.between(1, most);
    of_size(random, nodes)
}

/// A valid plan of this many nodes, or fewer where the shape doesn't allow
/// that many.
pub fn of_size(random: &mut Random, nodes: usize) -> Vec<u8> {
    match random.below(10) {
        0 => chain(random, nodes.min(MOST_LEVELS)),
        1 => star(random, nodes.clamp(2, MOST_CHILDREN + 1)),
        2 | 3 => Grower::grow(random, nodes, Growth::Deep),
        4 | 5 => Grower::grow(random, nodes, Growth::Wide),
        _ => Grower::grow(random, nodes, Growth::Anywhere),
    }
}

/// A valid plan with exactly the most nodes there may be.
pub fn largest(random: &mut Random) -> Vec<u8> {
    loop {
        let plan = Grower::grow(random, MOST_NODES, Growth::Anywhere);
        if plan.len() == 2 * MOST_NODES {
            return plan;
        }
    }
}

/// All valid plans with so many nodes, which are few.
pub fn all(nodes: usize) -> Vec<Vec<u8>> {
    let mut open = vec![vec![]];
    for number in 0..nodes {
        let parents: Vec<u8> = if number == 0 { vec![NO_PARENT] } else { (0..number as u8).collect() };
        let node = |kind| parents.iter().map(move |&parent| [kind, parent]);
        let longer = |plan: &Vec<u8>| (1..=8).flat_map(node).map(|node| [plan, &node[..]].concat()).collect();
        open = open.iter().flat_map::<Vec<_>, _>(longer).collect();
    }
    open.retain(|plan| reference::exported::check(plan) == 0);
    open
}

/// Makes some of a valid plan's blocks xors, whose children have more events
/// than others.
pub fn favour_xor(random: &mut Random, plan: &mut [u8]) {
    for kind in plan.iter_mut().step_by(2).filter(|kind| !matches!(**kind, TASK | CONDITIONAL)) {
        *kind = if random.chance(50) { XOR } else { *kind };
    }
}

/// Makes some of a valid plan's blocks take their children in turn.
pub fn favour_turns(random: &mut Random, plan: &mut [u8]) {
    for kind in plan.iter_mut().step_by(2).filter(|kind| !matches!(**kind, TASK | CONDITIONAL)) {
        *kind = if random.chance(60) { random.one_of(&[SERIAL, CONTINGENCY]) } else { *kind };
    }
}

/// One block below another, a task at the end; so many levels.
fn chain(random: &mut Random, levels: usize) -> Vec<u8> {
    let mut plan = Vec::new();
    for level in 0..levels {
        let kind = if level + 1 == levels { TASK } else { block_with_one_child(random) };
        plan.extend([kind, if level == 0 { NO_PARENT } else { level as u8 - 1 }]);
    }
    plan
}

fn block_with_one_child(random: &mut Random) -> u8 {
    random.one_of(&[SERIAL, AND, OR, XOR, CONTINGENCY, WAITING_AND])
}

/// A root with tasks; so many nodes in all.
fn star(random: &mut Random, nodes: usize) -> Vec<u8> {
    let mut plan = vec![block_with_one_child(random), NO_PARENT];
    (1..nodes).for_each(|_| plan.extend([TASK, 0]));
    plan
}

/// Two blocks below the root, and two or three tasks of theirs that stand among
/// each other.
pub fn mixed(random: &mut Random) -> Vec<u8> {
    let mut plan = vec![block_with_one_child(random), NO_PARENT];
    (0..2).for_each(|_| plan.extend([block_with_one_child(random), 0]));
    let parents = random.one_of(&[&[2, 1][..], &[2, 1, 1], &[2, 1, 2], &[1, 2, 1]]);
    parents.iter().for_each(|&parent| plan.extend([TASK, parent]));
    plan
}

/// A plan that grows node by node and stays completable: there is always
/// space for the children that blocks still owe.
struct Grower<'r> {
    random: &'r mut Random,
    plan: Vec<u8>,
    children: Vec<usize>,
    level: Vec<usize>,
    /// How many children the blocks together still need.
    owed: usize,
    /// How many nodes may be added beyond those.
    spare: usize,
}

impl Grower<'_> {
    fn grow(random: &mut Random, nodes: usize, growth: Growth) -> Vec<u8> {
        let blocks = random.one_of(&[10, 30, 50, 80, 95]);
        let mut grower =
            Grower { random, plan: vec![], children: vec![], level: vec![], owed: 0, spare: nodes - 1 };
        let root = if grower.spare == 0 { TASK } else { grower.block() };
        grower.add(root, NO_PARENT, 1);
        while let Some(parent) = grower.parent(growth) {
            grower.add_below(parent, blocks);
        }
        grower.plan
    }

    /// A block's kind whose children there is space for.
    fn block(&mut self) -> u8 {
        let has_space_for_two = self.spare >= 2;
        if has_space_for_two && self.random.below(7) == 0 {
            return CONDITIONAL;
        }
        block_with_one_child(self.random)
    }

    fn add(&mut self, kind: u8, parent: u8, level: usize) {
        self.plan.extend([kind, parent]);
        self.children.push(0);
        self.level.push(level);
        let needed = needed_children(kind);
        self.owed += needed;
        self.spare -= needed;
    }

    fn add_below(&mut self, parent: usize, blocks: usize) {
        if self.owes(parent) {
            self.owed -= 1;
        } else {
            self.spare -= 1;
        }
        self.children[parent] += 1;
        let level = self.level[parent] + 1;
        let may_be_block = level < MOST_LEVELS && self.spare > 0;
        let kind = if may_be_block && self.random.chance(blocks) { self.block() } else { TASK };
        self.add(kind, parent as u8, level);
    }

    fn kind(&self, node: usize) -> u8 {
        self.plan[2 * node]
    }

    fn owes(&self, node: usize) -> bool {
        self.children[node] < needed_children(self.kind(node))
    }

    fn has_space(&self, node: usize) -> bool {
        let most = match self.kind(node) {
            TASK => 0,
            CONDITIONAL => 2,
            _ => MOST_CHILDREN,
        };
        self.children[node] < most
    }

    /// Who gets the next child; nobody if the plan is complete.
    fn parent(&mut self, growth: Growth) -> Option<usize> {
        let open = |&node: &usize| if self.spare == 0 { self.owes(node) } else { self.has_space(node) };
        let open: Vec<usize> = (0..self.children.len()).filter(open).collect();
        if open.is_empty() {
            return None;
        }
        let anywhere = self.random.one_of(&open);
        Some(match growth {
            Growth::Deep if self.random.chance(80) => open[open.len() - 1],
            Growth::Wide if self.random.chance(80) => open[0],
            _ => anywhere,
        })
    }
}

fn needed_children(kind: u8) -> usize {
    match kind {
        TASK => 0,
        CONDITIONAL => 2,
        _ => 1,
    }
}

/// A plan with one to three damages; now and then they cancel out.
pub fn damaged(random: &mut Random) -> Vec<u8> {
    let most = random.one_of(&[3, 8, 40, 160]);
    let mut plan = up_to(random, most);
    for _ in 0..random.between(1, 3) {
        damage(random, &mut plan);
    }
    plan
}

fn damage(random: &mut Random, plan: &mut Vec<u8>) {
    match random.below(8) {
        0 => damage_length(random, plan),
        1 => damage_kind(random, plan),
        2 => damage_parent(random, plan),
        3 | 4 => damage_by_task_parent(random, plan),
        5 | 6 => damage_children(random, plan),
        _ => damage_depth(random, plan),
    }
}

fn damage_length(random: &mut Random, plan: &mut Vec<u8>) {
    match random.below(4) {
        0 => plan.clear(),
        1 => plan.push(1),
        2 => {
            plan.pop();
        }
        _ => {
            let length = random.one_of(&[321, 322, 323, 400, 512, 640, 1000]);
            plan.resize(length, 1);
        }
    }
}

fn damage_kind(random: &mut Random, plan: &mut [u8]) {
    if let Some(node) = any_node(random, plan) {
        plan[2 * node] = random.one_of(&[0, 9, 10, 128, 254, 255]);
    }
}

fn damage_parent(random: &mut Random, plan: &mut [u8]) {
    if let Some(node) = any_node(random, plan) {
        let above = [node as u8, node as u8 + 1, 159, 254, 255];
        plan[2 * node + 1] = if node == 0 { random.one_of(&[0, 1, 254]) } else { random.one_of(&above) };
    }
}

/// A block becomes a task, or a node moves below a task.
fn damage_by_task_parent(random: &mut Random, plan: &mut Vec<u8>) {
    let Some(node) = any_node(random, plan) else {
        return;
    };
    if random.chance(50) {
        plan[2 * node] = TASK;
    } else {
        plan.extend([TASK, node as u8]);
    }
}

/// A block without children, a conditional with any number of them, or one
/// child more.
fn damage_children(random: &mut Random, plan: &mut Vec<u8>) {
    match (random.below(4), any_node(random, plan)) {
        (0, Some(node)) => plan[2 * node] = CONDITIONAL,
        (1, Some(node)) => plan[2 * node] = block_with_one_child(random),
        (2, Some(node)) => plan.extend([block_with_one_child(random), node as u8]),
        _ => {
            let nodes = random.between(MOST_CHILDREN + 1, MOST_CHILDREN + 4);
            *plan = star(random, nodes);
        }
    }
}

fn damage_depth(random: &mut Random, plan: &mut Vec<u8>) {
    let levels = random.one_of(&[MOST_LEVELS, MOST_LEVELS + 1, MOST_LEVELS + 2, 100, MOST_NODES]);
    *plan = chain(random, levels);
}

fn any_node(random: &mut Random, plan: &[u8]) -> Option<usize> {
    let nodes = plan.len() / 2;
    (nodes > 0 && nodes <= MOST_NODES).then(|| random.below(nodes))
}

/// A plan with a desk for each node: all at one, at a few, some three nodes at
/// each, or each at one of his own. Numbers are from the whole range, or those
/// that the nodes have too.
pub fn with_desks(random: &mut Random, plan: &[u8]) -> Vec<u8> {
    let nodes = plan.len() / 2;
    let count = match random.below(8) {
        0 => 1,
        1 => 2,
        2 => 3,
        3 | 4 => nodes.div_ceil(3),
        5 => nodes.div_ceil(2),
        _ => nodes,
    };
    let numbers = if random.chance(70) { usize::from(HIGHEST_DESK) + 1 } else { nodes.max(count) };
    let mut desks = shuffled(random, numbers);
    desks.truncate(count);
    if random.chance(20) {
        desks[0] = random.one_of(&[0, 0x3f, 0x40, 0x7f, 0x80, HIGHEST_DESK]);
    }
    let own_each = desks.len() == nodes && random.chance(80);
    let of_node =
        |node: usize, random: &mut Random| if own_each { desks[node] } else { random.one_of(&desks) };
    let of_nodes: Vec<u8> = (0..nodes).map(|node| of_node(node, random)).collect();
    joined(plan, &of_nodes)
}

/// A plan in which all nodes have one desk.
pub fn at_one_desk(random: &mut Random, plan: &[u8]) -> Vec<u8> {
    let desk = random.below(usize::from(HIGHEST_DESK) + 1) as u8;
    joined(plan, &vec![desk; plan.len() / 2])
}

/// A plan in which every node has its own number for a desk, whatever the plan
/// is; it has an even number of bytes.
pub fn at_own_desks(plan: &[u8]) -> Vec<u8> {
    let own: Vec<u8> = (0..plan.len() / 2).map(|node| node as u8).collect();
    joined(plan, &own)
}

/// A plan with desks that has a few damages, in its plain plan, its desks or
/// its length; now and then they cancel out.
pub fn damaged_with_desks(random: &mut Random) -> Vec<u8> {
    let mut plan = if random.chance(60) { damaged(random) } else { up_to(random, 12) };
    plan.truncate(plan.len() & !1);
    let mut plan = if plan.is_empty() { plan } else { with_desks(random, &plan) };
    if random.chance(40) {
        damage_desks(random, &mut plan);
    }
    if random.chance(15) {
        damage_length_with_desks(random, &mut plan);
    }
    plan
}

fn damage_desks(random: &mut Random, plan: &mut [u8]) {
    let nodes = plan.len() / 3;
    for _ in 0..random.between(1, 3).min(nodes) {
        plan[3 * random.below(nodes) + 2] = random.one_of(&[0xa0, 0xa0, 0xa1, 0xc8, 0xfe, 0xff]);
    }
}

fn damage_length_with_desks(random: &mut Random, plan: &mut Vec<u8>) {
    match random.below(4) {
        0 => plan.clear(),
        1 => plan.extend([1, 0].iter().take(random.between(1, 2))),
        2 => plan.truncate(plan.len().saturating_sub(random.between(1, 2))),
        _ => {
            let length = random.one_of(&[480, 481, 482, 483, 486, 512, 640, 960]);
            plan.resize(length, 1);
        }
    }
}

/// A plan and its desks in one.
fn joined(plan: &[u8], desks: &[u8]) -> Vec<u8> {
    plan.chunks(2).zip(desks).flat_map(|(node, &desk)| [node[0], node[1], desk]).collect()
}

/// The numbers below a limit, in any order.
fn shuffled(random: &mut Random, limit: usize) -> Vec<u8> {
    let mut numbers: Vec<u8> = (0..limit).map(|number| number as u8).collect();
    shuffle(random, &mut numbers);
    numbers
}

/// Brings a list into any order.
fn shuffle<T>(random: &mut Random, list: &mut [T]) {
    for place in (1..list.len()).rev() {
        list.swap(place, random.below(place + 1));
    }
}

#[cfg(test)]
mod tests {
    use super::*;
    use reference::exported::{check, desk_check};

    #[test]
    fn grown_plans_are_valid() {
        let mut random = Random::new(1);
        for round in 0..3000 {
            let nodes = 1 + round % MOST_NODES;
            let plan = of_size(&mut random, nodes);
            assert_eq!(check(&plan), 0, "{plan:02x?}");
        }
        assert_eq!(check(&largest(&mut random)), 0);
    }

    #[test]
    fn all_small_plans_are_there() {
        assert_eq!(all(1), [[TASK, NO_PARENT]]);
        assert_eq!([2, 3, 4].map(|nodes| all(nodes).len()), [6, 43, 390]);
    }

    #[test]
    fn desks_are_of_every_sort() {
        let mut random = Random::new(5);
        let (mut shared, mut apart, mut one) = (0, 0, 0);
        for round in 0..3000 {
            let plain = of_size(&mut random, 1 + round % MOST_NODES);
            let plan = with_desks(&mut random, &plain);
            assert_eq!(desk_check(&plan), 0, "{plan:02x?}");
            let desks: std::collections::BTreeSet<u8> = plan.iter().skip(2).step_by(3).copied().collect();
            let nodes = plain.len() / 2;
            shared += u32::from(desks.len() > 1 && desks.len() < nodes);
            apart += u32::from(desks.len() == nodes);
            one += u32::from(desks.len() == 1);
            assert_eq!(desk_check(&at_own_desks(&plain)), 0);
            assert_eq!(desk_check(&at_one_desk(&mut random, &plain)), 0);
        }
        assert!(shared > 1000 && apart > 300 && one > 200, "{shared} {apart} {one}");
    }

    #[test]
    fn damage_with_desks_meets_every_cause() {
        let mut random = Random::new(6);
        let mut met = [0; 23];
        for _ in 0..3000 {
            met[desk_check(&damaged_with_desks(&mut random)) as usize] += 1;
        }
        assert!((0..=6).chain([22]).all(|number| met[number] > 50), "{met:?}");
    }

    #[test]
    fn damage_meets_every_cause() {
        let mut random = Random::new(2);
        let mut met = [0; 16];
        for _ in 0..3000 {
            met[check(&damaged(&mut random)) as usize] += 1;
        }
        assert!(met[1..=6].iter().all(|&count| count > 50), "{met:?}");
    }

    #[test]
    fn shapes_reach_the_limits() {
        let mut random = Random::new(3);
        let (mut levels, mut children, mut most) = (0, 0, 0);
        for _ in 0..2000 {
            let plan = of_size(&mut random, MOST_NODES);
            let mut level = vec![1; plan.len() / 2];
            let mut count = vec![0; plan.len() / 2];
            for node in 1..plan.len() / 2 {
                let parent = usize::from(plan[2 * node + 1]);
                level[node] = level[parent] + 1;
                count[parent] += 1;
            }
            levels = levels.max(*level.iter().max().unwrap());
            children = children.max(*count.iter().max().unwrap());
            most = most.max(plan.len() / 2);
        }
        assert_eq!((levels, children, most), (32, 32, 160));
    }
}
