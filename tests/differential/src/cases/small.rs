//! Small plans, one after another: cases with one right answer each.

use super::{LEFT, front_is};
use crate::codes::*;
use crate::implementation::Implementation;
use crate::plans::MOST_SMALL_BYTES;
use crate::trial::{Trial, hex};

/// The last small plan.
const LAST: &str = "08ff0800080108020103";

/// Each plan is followed by the one behind it.
const FOLLOWING: [&[&str]; 12] = [
    // all of one node and of two, and the first of three
    &["01ff", "02ff0100", "03ff0100", "04ff0100", "05ff0100", "06ff0100", "08ff0100", "02ff01000100"],
    // a root and two tasks, then each kind of block between; a conditional can't stand there
    &["02ff01000100", "02ff02000101", "02ff03000101", "02ff04000101", "02ff05000101", "02ff06000101"],
    &["02ff06000101", "02ff08000101", "03ff01000100", "03ff02000101"],
    // a conditional of three nodes has two tasks
    &["06ff06000101", "06ff08000101", "07ff01000100", "08ff01000100", "08ff02000101"],
    // the last of three nodes, the first of four
    &["08ff06000101", "08ff08000101", "02ff010001000100", "02ff010002000102", "02ff010003000102"],
    // children stand in any order: the block's own before the root's, and behind
    &["02ff010008000102", "02ff020001000101", "02ff020001010100", "02ff020001010101", "02ff020002010102"],
    // a conditional below another block, and with a block for a branch
    &["02ff060008010102", "02ff070001010101", "02ff080001000101"],
    &["06ff080008010102", "07ff010002000102", "07ff010003000102", "07ff010004000102", "07ff010005000102"],
    &["07ff010008000102", "07ff020001000101", "07ff020001010100", "07ff030001000101"],
    // the last of four nodes, the first of five
    &["08ff080006010102", "08ff080008010102", "02ff0100010001000100", "02ff0100010002000103"],
    // one conditional below the other
    &["07ff0600080101020100", "07ff0700010001010101", "07ff0700010101000101", "07ff0700010101010100"],
    &["07ff0700010101010100", "07ff0800010001010101"],
];

/// From somewhere among those of five nodes to the next.
const ELSEWHERE: [[&str; 2]; 8] = [
    ["02ff0600060101020101", "02ff0600060101020102"],
    ["04ff0200060102020103", "04ff0200060103020103"],
    ["04ff0800010108000103", "04ff0800010108010103"],
    ["05ff0500050001020101", "05ff0500050101000102"],
    ["07ff0100020001020102", "07ff0100020002020103"],
    ["07ff0100050005020103", "07ff0100050006020103"],
    ["08ff0800030101020100", "08ff0800030101020101"],
    ["08ff0800080106020103", LAST],
];

/// How many small plans have so many nodes.
const COUNTS: [u32; 6] = [0, 1, 6, 43, 390, 4522];

/// A sum over the bytes of all small plans in their order, FNV-1a of 32 bits.
const SUM: u32 = 0x236f_95ab;

/// Runs all of them.
pub fn run<S: Implementation, R: Implementation>(trial: &mut Trial<S, R>) {
    following(trial);
    whole_walk(trial);
    last(trial);
    not_small(trial);
    refused_plans(trial);
    other_lengths(trial);
}

/// Bytes from hexadecimal.
fn bytes(text: &str) -> Vec<u8> {
    let digits: Vec<u8> = text.chars().filter_map(|c| c.to_digit(16)).map(|d| d as u8).collect();
    digits.chunks(2).map(|pair| pair[0] << 4 | pair[1]).collect()
}

/// A call into so many bytes: what must stand at their front, or the number; all
/// others are left.
fn try_call<S: Implementation, R: Implementation>(
    trial: &mut Trial<S, R>,
    plan: &[u8],
    length: usize,
    expected: Result<&[u8], u32>,
) {
    let mut out = vec![LEFT; length];
    let result = trial.subject.next_plan(plan, &mut out);
    trial.tally.compare(front_is(result, &out, expected), || {
        let (plan, out) = (hex(plan), hex(&out));
        format!("the plan after {plan} into {length} bytes: {result:08x} {out}")
    });
}

fn following<S: Implementation, R: Implementation>(trial: &mut Trial<S, R>) {
    let pairs = FOLLOWING.iter().flat_map(|plans| plans.windows(2));
    for pair in pairs.chain(ELSEWHERE.iter().map(|pair| &pair[..])) {
        try_call(trial, &bytes(pair[0]), MOST_SMALL_BYTES, Ok(&bytes(pair[1])));
    }
}

/// From the single task on, each time from what was written, until nothing comes.
fn whole_walk<S: Implementation, R: Implementation>(trial: &mut Trial<S, R>) {
    let mut plan = bytes("01ff");
    let mut counts = [0; 6];
    let mut sum = 0x811c_9dc5_u32;
    let mut result = 0;
    while number(result) == 0 && counts.iter().sum::<u32>() < 10_000 {
        counts[plan.len() / 2] += 1;
        sum = plan.iter().fold(sum, |sum, &byte| (sum ^ u32::from(byte)).wrapping_mul(0x0100_0193));
        let mut out = [LEFT; MOST_SMALL_BYTES];
        result = trial.subject.next_plan(&plan, &mut out);
        plan = out[..MOST_SMALL_BYTES.min(2 * value(result) as usize)].to_vec();
    }
    let right = result == 26 && counts == COUNTS && sum == SUM;
    trial.tally.compare(right, || format!("all small plans: {result:08x}, {counts:?}, {sum:08x}"));
}

/// 26 before 7, and for no other plan that looks like the last one.
fn last<S: Implementation, R: Implementation>(trial: &mut Trial<S, R>) {
    for length in [MOST_SMALL_BYTES, 0, 1, 2, 9, 11, 12, 320] {
        try_call(trial, &bytes(LAST), length, Err(26));
    }
    // chains of waiting ands as well, and the last whose root is a conditional
    try_call(trial, &bytes("08ff0800080101020100"), MOST_SMALL_BYTES, Ok(&bytes("08ff0800080101020101")));
    try_call(trial, &bytes("08ff0800080101020102"), MOST_SMALL_BYTES, Ok(&bytes("08ff0800080102020103")));
    try_call(trial, &bytes("07ff0800080101020100"), MOST_SMALL_BYTES, Ok(&bytes("08ff0100010001000100")));
}

/// 27 before 7: from six nodes on.
fn not_small<S: Implementation, R: Implementation>(trial: &mut Trial<S, R>) {
    let mut chain = bytes(LAST);
    chain[8] = WAITING_AND;
    chain.extend([TASK, 4]);
    let star = |tasks: usize| [vec![SERIAL, 0xff], [TASK, 0].repeat(tasks)].concat();
    let mut blocks = vec![AND, 0xff];
    (0..5).for_each(|_| blocks.extend([OR, 0]));
    (0..154).for_each(|task| blocks.extend([TASK, 1 + task / 31]));
    for plan in [chain, star(5), star(32), blocks] {
        for length in [MOST_SMALL_BYTES, 0, 9, 11, 12, plan.len(), 320] {
            try_call(trial, &plan, length, Err(27));
        }
    }
}

/// 1 to 6 before all others, in small plans and in larger ones.
fn refused_plans<S: Implementation, R: Implementation>(trial: &mut Trial<S, R>) {
    let mut deep = vec![AND, 0xff];
    (0..32).for_each(|above| deep.extend([AND, above]));
    deep.extend([TASK, 32]);
    let tasks = [TASK, 0].repeat(4);
    let larger = |node: [u8; 2]| [&[SERIAL, 0xff], &node[..], &tasks].concat();
    let plans: [(Vec<u8>, u32); 17] = [
        (vec![], 1),
        (bytes("01"), 1),
        (bytes("02ff01"), 1),
        (bytes("02ff0100010001000100010001"), 1),
        ([vec![AND, 0xff, SERIAL, 0], [TASK, 1].repeat(159)].concat(), 1),
        (bytes("00ff"), 2),
        (bytes("02ff0900"), 2),
        (larger([9, 0]), 2),
        (bytes("0100"), 3),
        (bytes("02ff0101"), 3),
        (larger([TASK, 1]), 3),
        (bytes("02ff01000101"), 4),
        ([larger([TASK, 0]), vec![TASK, 1]].concat(), 4),
        (bytes("02ff"), 5),
        (bytes("07ff010001000100"), 5),
        (larger([SERIAL, 0]), 5),
        (deep, 6),
    ];
    for (plan, number) in plans {
        for length in [MOST_SMALL_BYTES, 0, 9, 11, plan.len()] {
            try_call(trial, &plan, length, Err(number));
        }
    }
}

/// 7: ten bytes must be lent, whatever the next plan has.
fn other_lengths<S: Implementation, R: Implementation>(trial: &mut Trial<S, R>) {
    for plan in ["01ff", "02ff0100", "08ff0100", "08ff08000101", "08ff080008010102", "08ff0800080106020103"] {
        for length in [0, 1, 2, 4, 6, 8, 9, 11, 12, 20, 320] {
            try_call(trial, &bytes(plan), length, Err(7));
        }
    }
}
