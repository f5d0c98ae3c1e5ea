//! Every simulation of every small plan: all events and all messages that a
//! guard can notice, in every order. What passes must be a run of the central
//! rule, what the central rule allows must pass once everybody knows, and
//! when the job is over the pass must come to the same record. All this once
//! with a row for each site, and once with desks.

mod common;

use common::*;
use reference::exported::{central, number, value};
use reference::exported::{desk_record, desk_record_by, desk_simulate, record, record_by, simulate};
use std::collections::{BTreeSet, HashSet};

/// A plan with its events, and the messages that some guard can notice.
struct World {
    plan: Vec<u8>,
    nodes: usize,
    /// The same plan with desks, where sites share rows.
    with_desks: Option<Vec<u8>>,
    /// Where every node's site is: its desk, or the site itself.
    desks: Vec<u8>,
    /// The desks in use, rising: one row for each.
    in_use: Vec<u8>,
    events: Vec<(u32, u32)>,
    messages: Vec<(u32, u32, u32)>,
}

impl World {
    fn new(plan: Vec<u8>) -> World {
        let sites = (0..plan.len() / 2).map(|node| node as u8).collect();
        World::of(plan, sites)
    }

    fn with_desks(plan: Vec<u8>, desks: &[u8]) -> World {
        let with_desks = Some(at_desks(&plan, desks));
        World { with_desks, ..World::of(plan, desks.to_vec()) }
    }

    fn of(plan: Vec<u8>, desks: Vec<u8>) -> World {
        let nodes = plan.len() / 2;
        let all = (1..=8).flat_map(|code| (0..nodes as u32).map(move |node| (code, node)));
        let mut buffer = [0; 300];
        let applies = |&(code, node): &(u32, u32)| {
            number(reference::exported::guard(&plan, code, node, &mut buffer)) == 0
        };
        let events: Vec<_> = all.filter(applies).collect();
        let mut messages: Vec<_> = events.iter().flat_map(|&event| noticed(&plan, &desks, event)).collect();
        messages.sort_unstable();
        messages.dedup();
        let in_use: BTreeSet<u8> = desks.iter().copied().collect();
        let in_use = in_use.into_iter().collect();
        World { plan, nodes, with_desks: None, desks, in_use, events, messages }
    }

    /// What the row of a node's site has heard of some node.
    fn heard(&self, state: &[u8], node: usize, of: usize) -> u8 {
        let row = self.in_use.iter().position(|&desk| desk == self.desks[node]).unwrap();
        state[row * self.nodes + of]
    }

    fn step(&self, state: &[u8], code: u32, node: u32, site: u32) -> Option<Vec<u8>> {
        let mut after = state.to_vec();
        let result = match &self.with_desks {
            Some(plan) => desk_simulate(plan, code, node, site, &mut after),
            None => simulate(&self.plan, code, node, site, &mut after),
        };
        let passed = number(result) == 0;
        assert!(passed || after == state, "a refused step leaves the state");
        passed.then_some(after)
    }

    /// Marks, answers and picks, each from the row of the site it is at.
    fn seen_from_above(&self, state: &[u8]) -> (Vec<u8>, Vec<u8>) {
        let (mut marks, mut classes) = (vec![0; self.nodes], vec![0; self.nodes]);
        let result = match &self.with_desks {
            Some(plan) => desk_record(plan, state, &mut marks, &mut classes),
            None => record(&self.plan, state, &mut marks, &mut classes),
        };
        assert_eq!(result, 0);
        let notes = (0..self.nodes).map(|node| {
            let parent = usize::from(self.plan[2 * node + 1]);
            let at_parent = if node == 0 { 0 } else { self.heard(state, parent, node) };
            self.heard(state, node, node) & 0x30 | at_parent & 0x40
        });
        (marks, notes.collect())
    }

    /// Whether the central rule allows it, and what it leaves.
    fn judge_from_above(&self, state: &[u8], code: u32, node: u32) -> (bool, (Vec<u8>, Vec<u8>)) {
        let (mut marks, mut notes) = self.seen_from_above(state);
        let result = central(&self.plan, code, node, &mut marks, &mut notes);
        assert_eq!(number(result), 0);
        (value(result) == 1, (marks, notes))
    }

    /// Walks all states that can be reached; answers how many there are.
    fn walk(&self) -> usize {
        let fresh = vec![0; self.in_use.len() * self.nodes];
        let mut known = HashSet::from([fresh.clone()]);
        let mut open = vec![fresh];
        while let Some(state) = open.pop() {
            let mut next = self.told(&state);
            let all_know = next.iter().all(|after| *after == state);
            let happened = self.happened(&state, all_know);
            if all_know && happened.is_empty() {
                self.is_over(&state);
            }
            next.extend(happened);
            for after in next {
                if known.insert(after.clone()) {
                    open.push(after);
                }
            }
        }
        known.len()
    }

    /// The states after each message that isn't false.
    fn told(&self, state: &[u8]) -> Vec<Vec<u8>> {
        self.messages.iter().filter_map(|&(code, node, site)| self.step(state, code, node, site)).collect()
    }

    /// The states after each event that passes, held against the central rule.
    fn happened(&self, state: &[u8], all_know: bool) -> Vec<Vec<u8>> {
        let mut after_each = Vec::new();
        for &(code, node) in &self.events {
            let after = self.step(state, code, node, HAPPENS);
            let (allowed, left) = self.judge_from_above(state, code, node);
            let what = format!("plan {:02x?} state {state:02x?} code {code} node {node}", self.plan);
            assert!(allowed || after.is_none(), "only what the central rule allows: {what}");
            assert!(!all_know || allowed == after.is_some(), "all that it allows: {what}");
            if let Some(after) = after {
                assert_eq!(self.seen_from_above(&after), left, "{what}");
                after_each.push(after);
            }
        }
        after_each
    }

    /// The pass agrees with the end record, whatever stands in free bytes.
    fn is_over(&self, state: &[u8]) {
        let (marks, notes) = self.seen_from_above(state);
        for free in [0, 1, 2, 3, 255] {
            let answers: Vec<u8> =
                (0..self.nodes).map(|node| self.answer(node, &marks, &notes).unwrap_or(free)).collect();
            let what = format!("plan {:02x?} answers {answers:02x?}", self.plan);
            assert_eq!(pass_marks(&self.plan, &answers), Ok(marks.clone()), "{what}");
            self.has_the_record(state, &answers);
        }
    }

    /// By any table the pass's record is the state's.
    fn has_the_record(&self, state: &[u8], answers: &[u8]) {
        for table in [COMMON_TABLE, [0, 0, 1, 0, 2, 1, 3, 2, 4, 0, 5, 3]] {
            let (mut marks, mut classes) = (vec![0; self.nodes], vec![0; self.nodes]);
            let result = match &self.with_desks {
                Some(plan) => desk_record_by(plan, &table, state, &mut marks, &mut classes),
                None => record_by(&self.plan, &table, state, &mut marks, &mut classes),
            };
            assert_eq!(result, 0);
            assert_eq!(
                record_of_pass(&self.plan, &table, answers),
                Ok((marks, classes)),
                "{:02x?}",
                self.plan
            );
        }
    }

    /// A node's answer byte as the events settle it; `None` if it is free.
    fn answer(&self, node: usize, marks: &[u8], notes: &[u8]) -> Option<u8> {
        match (self.plan[2 * node], marks[node]) {
            (_, 0) => None,
            (1, 4) => Some(2),
            (1, _) => Some(1),
            (7, _) => Some(if notes[node] & 0x10 != 0 { 1 } else { 2 }),
            (5, _) => {
                let children = (1..self.nodes).filter(|&child| usize::from(self.plan[2 * child + 1]) == node);
                let mut places = children.zip(1..);
                Some(places.find(|&(child, _)| notes[child] & 0x40 != 0).map_or(0, |(_, place)| place))
            }
            _ => None,
        }
    }
}

/// The messages that the guard of this event can notice where its site is.
fn noticed(plan: &[u8], desks: &[u8], (code, node): (u32, u32)) -> Vec<(u32, u32, u32)> {
    let site = if code == PICK { usize::from(plan[2 * node as usize + 1]) } else { node as usize };
    let site = u32::from(desks[site]);
    let bytes = guard_bytes(plan, code, node);
    let mut found = Vec::new();
    let mut at = 1;
    while at < bytes.len() {
        let events = usize::from(bytes[at]);
        for event in bytes[at + 1..][..2 * events].chunks(2) {
            found.push((u32::from(event[0]), u32::from(event[1]), site));
        }
        at += 1 + 2 * events;
    }
    found
}

#[test]
fn every_plan_of_up_to_three_nodes() {
    let mut count = 0;
    let mut states = 0;
    for plan in (1..=3).flat_map(plans) {
        states += World::new(plan).walk();
        count += 1;
    }
    println!("{count} plans, {states} states");
    assert_eq!(count, 1 + 6 + 43);
}

#[test]
fn every_plan_of_four_nodes() {
    let mut count = 0;
    let mut states = 0;
    for plan in plans(4) {
        states += World::new(plan).walk();
        count += 1;
    }
    println!("{count} plans, {states} states");
    assert!(count > 100);
}

/// With desks: everybody at one, two that share one and the third elsewhere,
/// and each at one of his own, in an order that is not that of the nodes.
#[test]
fn every_plan_of_up_to_three_nodes_with_desks() {
    let at: [&[u8]; 8] =
        [&[9], &[4, 4], &[4, 0], &[7, 7, 7], &[7, 7, 2], &[2, 7, 2], &[0x9f, 1, 1], &[2, 0, 1]];
    let mut states = 0;
    for plan in (1..=3).flat_map(plans) {
        for desks in at.into_iter().filter(|desks| 2 * desks.len() == plan.len()) {
            states += World::with_desks(plan.clone(), desks).walk();
        }
    }
    println!("{states} states");
}

#[test]
fn some_larger_plans_with_desks() {
    let some: [(&str, &[u8]); 5] = [
        (P, &[3, 8, 3, 8, 1, 1]),
        (P, &[5, 5, 0, 5, 5, 0]),
        ("05ff 0500 0100 0101 0101", &[9, 4, 9, 4, 1]),
        ("05ff 0700 0100 0101 0101", &[2, 0x9f, 2, 0, 0x9f]),
        ("08ff 0500 0101 0101 0100", &[6, 5, 6, 5, 4]),
    ];
    for (plan, desks) in some {
        println!("{plan} {desks:?}: {} states", World::with_desks(hex(plan), desks).walk());
    }
}

/// Larger ones where kinds meet: an xor below each kind, blocks below an xor.
#[test]
fn some_larger_plans() {
    let some = [
        P,
        "05ff 0500 0100 0101 0101",
        "05ff 0700 0100 0101 0101",
        "05ff 0600 0100 0101 0101",
        "07ff 0500 0100 0101 0101",
        "06ff 0500 0100 0101 0101",
        "04ff 0500 0100 0101 0101",
        "03ff 0500 0101 0101 0100",
        "08ff 0500 0101 0101 0100",
        "02ff 0300 0100 0101 0101",
        "06ff 0300 0100 0101 0101",
        "05ff 0300 0100 0101 0101",
        "05ff 0800 0100 0101 0101",
        "08ff 0300 0100 0101 0101",
        "03ff 0800 0100 0101 0101",
        "05ff 0100 0100 0100",
    ];
    for plan in some {
        println!("{plan}: {} states", World::new(hex(plan)).walk());
    }
}
