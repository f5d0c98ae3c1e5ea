//! The rule byte: which there are, and who hands it on.

mod common;

use common::*;
use reference::exported::{guard, number, rule, simulate, site, step, value};
use std::collections::BTreeSet;

/// All events that apply, with their rules.
fn rules_of(plan: &[u8]) -> Vec<(u32, u32, u8)> {
    let all = (1..=8).flat_map(|code| (0..plan.len() as u32 / 2).map(move |node| (code, node)));
    let applying = all.filter(|&(code, node)| number(rule(plan, code, node)) == 0);
    applying.map(|(code, node)| (code, node, value(rule(plan, code, node)) as u8)).collect()
}

#[test]
fn these_37_rules_and_no_other() {
    let expected = hex("01 121314 21222324 31323334 41424344 515253545758 61626364 717273747576 81828384 f3");
    assert_eq!(expected.len(), 37);
    let small = (1..=4).flat_map(plans);
    let found: BTreeSet<u8> = small.flat_map(|plan| rules_of(&plan)).map(|(_, _, rule)| rule).collect();
    assert_eq!(found.into_iter().collect::<Vec<u8>>(), expected);
}

#[test]
fn rules_of_plan_p() {
    let expected = [
        (START, [0x01, 0x21, 0x21, 0x51, 0x51, 0x21]),
        (OFFER, [0, 0, 0, 0x12, 0x12, 0]),
        (COMMIT, [0x23, 0x13, 0x53, 0xf3, 0xf3, 0x13]),
        (ABORT, [0x24, 0x14, 0x54, 0x14, 0x14, 0x14]),
        (YES, [0; 6]),
        (NO, [0; 6]),
        (PICK, [0, 0, 0, 0x57, 0x57, 0]),
        (TURNED_DOWN, [0, 0, 0, 0x58, 0x58, 0]),
    ];
    for (code, rules) in expected {
        for (node, byte) in (0..).zip(rules) {
            let expected = if byte == 0 { 9 } else { byte << 16 };
            assert_eq!(rule(&hex(P), code, node), expected, "code {code} node {node}");
        }
    }
}

/// A conditional below an xor has every event; its finishing is its own, its
/// start, pick and turned down are by its parent's kind, its commit is f3.
#[test]
fn rules_of_a_conditional_below_an_xor() {
    let plan = hex("05ff 0700 0801 0301 0102 0103");
    let of = |node| rules_of(&plan).into_iter().filter(move |event| event.1 == node).map(|event| event.2);
    assert_eq!(of(1).collect::<Vec<u8>>(), hex("51 72 f3 74 75 76 57 58"));
    assert_eq!(of(2).collect::<Vec<u8>>(), hex("71 83 84"));
    assert_eq!(of(3).collect::<Vec<u8>>(), hex("71 33 34"));
    assert_eq!(of(4).collect::<Vec<u8>>(), hex("81 13 14"));
    assert_eq!(of(5).collect::<Vec<u8>>(), hex("31 13 14"));
    assert_eq!(of(0).collect::<Vec<u8>>(), hex("01 53 54"));
}

/// A refused event has no rule; 8 comes before 9.
#[test]
fn refusals() {
    let plan = hex(P);
    assert_eq!(rule(&hex("02ff"), 9, 9), 5);
    assert_eq!(rule(&plan, 0, 0), 8);
    assert_eq!(rule(&plan, 9, 0), 8);
    assert_eq!(rule(&plan, 257, 0), 8);
    assert_eq!(rule(&plan, YES, 6), 8);
    assert_eq!(rule(&plan, YES, 256), 8);
    assert_eq!(rule(&plan, YES, 0), 9);
    assert_eq!(rule(&plan, PICK, 0), 9);
}

/// Whatever stands in a row or state: an event that passes hands its rule on,
/// a refused one and a message hand on nothing.
#[test]
fn only_what_passes_hands_its_rule_on() {
    let plan = hex("05ff 0700 0101 0101 0100");
    let nodes = plan.len() / 2;
    for byte in 0..=255u8 {
        for &(code, node, rule) in &rules_of(&plan) {
            let site = if code == PICK { 0 } else { node };
            let passes = passed(site, u32::from(rule));
            let alone = step(&plan, code, node, &mut vec![byte; nodes]);
            let mut state = vec![byte; nodes * nodes];
            assert_eq!(simulate(&plan, code, node, HAPPENS, &mut state), alone);
            assert!(alone == passes || alone == 10 | site << 8 || alone == 11 | site << 8, "{alone:08x}");
            for hearer in 0..nodes as u32 {
                let heard = simulate(&plan, code, node, hearer, &mut state);
                assert!(heard == 0 || heard == 12, "{heard:08x}");
            }
        }
    }
}

/// The guard writer hands on the rule of every event that applies, beside the
/// guard's length, and nothing with a refusal.
#[test]
fn the_guard_writer_hands_the_rule_on() {
    for plan in (1..=4).flat_map(plans) {
        for (code, node, rule) in rules_of(&plan) {
            let written = guard(&plan, code, node, &mut [0; 300]);
            assert_eq!((number(written), site(written)), (0, rule), "{plan:02x?} code {code} node {node}");
            let length = value(written) as usize;
            assert_eq!(guard(&plan, code, node, &mut vec![0; length]), written);
            assert_eq!(guard(&plan, code, node, &mut vec![0; length - 1]), 7);
        }
    }
    assert_eq!(guard(&hex(P), YES, 0, &mut [0; 300]), 9);
    assert_eq!(guard(&hex(P), COMMIT, 3, &mut [0; 300]), 4 << 16 | 0xf3 << 8);
    assert_eq!(guard(&hex(P), START, 0, &mut [0; 300]), 1 << 16 | 0x01 << 8);
}

/// Along a job: each event passes by its rule.
#[test]
fn a_job_with_its_rules() {
    let mut job = Simulation::new("05ff 0300 0100 0101 0101");
    let events = [
        (START, 0, 0x01),
        (START, 1, 0x51),
        (START, 2, 0x51),
        (START, 3, 0x31),
        (ABORT, 3, 0x14),
        (ABORT, 1, 0x34),
        (OFFER, 2, 0x12),
        (PICK, 2, 0x57),
        (COMMIT, 2, 0xf3),
        (COMMIT, 0, 0x53),
    ];
    for (code, node, rule) in events {
        let site = if code == PICK { 0 } else { node };
        assert_eq!(job.event(code, node), passed(site, rule), "code {code} node {node}");
        (0..job.nodes()).for_each(|site| assert_eq!(job.message(code, node, site), 0));
        assert_eq!(job.event(code, node), 10 | site << 8);
    }
}
