//! Test loads: cases with one right answer each.

use super::{LEFT, P};
use crate::codes::*;
use crate::implementation::Implementation;
use crate::loads::STEP_BYTES;
use crate::trial::{Trial, hex};

/// A number of nodes, a seed, and the load's first steps.
struct Case(usize, u32, &'static str);

const LOADS: [Case; 17] = [
    Case(6, 0, "0102ff 0702ff 010201 070402 020303 0602ff 040001 0403ff 020405 070000 0300ff 010500"),
    Case(6, 1, "0104ff 0102ff 0603ff 020302 070505 030300"),
    Case(6, u32::MAX, "080303 050504 0402ff 0502ff 0601ff 080203"),
    // of one node, of two, and of as many as there may be
    Case(1, 0, "0100ff 0700ff 010000 070000 020000"),
    Case(2, 0, "0100ff 0700ff 010001 070000 020101 0600ff 040001 0401ff"),
    Case(160, 0, "016cff 077eff 013611 077a86 022f09 069aff 048a7b 0455ff"),
    Case(160, u32::MAX, "08233f 058550 044eff 0586ff 069fff"),
    Case(159, 0x1234_5678, "019735 0387ff 0831ff 0164ff 05943d"),
    Case(33, 0x8000_0000, "0112ff 0713ff 01091a 070c09 02140a 061fff"),
    // seeds of 16 bits and of one more
    Case(6, 0xffff, "0100ff 0602ff 050102 060505 070400"),
    Case(6, 0x1_0000, "020502 080302 0203ff 0805ff 0300ff"),
    // a move to 0, and one to the largest number
    Case(7, 634_785_765, "0700ff 030300 060601 040401 0606ff"),
    Case(7, 653_637_408, "060501 060305 0300ff 010505 0104ff"),
    // the last before the first sum wraps, and the first behind it; the same of the product
    Case(3, 1971, "020002 050200 0301ff 0402ff"),
    Case(3, 1972, "020101 070101 080102 060201"),
    Case(3, 2580, "070102 020000 060102 080200"),
    Case(3, 2581, "0702ff 0400ff 0300ff 0302ff"),
];

/// A number of nodes, a seed, a count, and a sum over the load's bytes, FNV-1a of 32 bits.
struct Sum(usize, u32, u32, u32);

const SUMS: [Sum; 5] = [
    Sum(33, 77, 1000, 0x48cf_6547),
    Sum(6, 0, 10_000, 0xf36e_a471),
    Sum(160, 1, 10_000, 0x0a47_4c7b),
    Sum(1, u32::MAX, 66_000, 0x77f5_c8d4),
    Sum(5, 0xdead_beef, 70_000, 0x1752_83b3),
];

/// Runs all of them.
pub fn run<S: Implementation, R: Implementation>(trial: &mut Trial<S, R>) {
    known_loads(trial);
    long_loads(trial);
    other_lengths(trial);
    huge_counts(trial);
    refused_plans(trial);
}

/// A plan of so many nodes: one block, or several of them with 31 tasks each.
fn plan_of(nodes: usize) -> Vec<u8> {
    let mut plan = if nodes == 1 { vec![TASK, 0xff] } else { vec![SERIAL, 0xff] };
    for node in 1..nodes {
        let block = (node - 1) / 32 * 32 + 1;
        let is_block = nodes > 33 && node == block;
        let parent = if is_block || nodes <= 33 { 0 } else { block };
        plan.extend([if is_block { AND } else { TASK }, parent as u8]);
    }
    plan
}

/// Bytes from hexadecimal.
fn bytes(text: &str) -> Vec<u8> {
    let digits: Vec<u8> = text.chars().filter_map(|c| c.to_digit(16)).map(|d| d as u8).collect();
    digits.chunks(2).map(|pair| pair[0] << 4 | pair[1]).collect()
}

/// A call into so many bytes: the load that must fill them, or the number, with which all
/// are left.
fn try_call<S: Implementation, R: Implementation>(
    trial: &mut Trial<S, R>,
    (plan, seed, count): (&[u8], u32, u32),
    length: usize,
    expected: Result<&[u8], u32>,
) {
    let mut out = vec![LEFT; length];
    let result = trial.subject.workload(plan, seed, count, &mut out);
    let right = match expected {
        Ok(load) => result == 0 && out == load,
        Err(number) => result == number && out.iter().all(|&byte| byte == LEFT),
    };
    trial.tally.compare(right, || {
        let (plan, out) = (hex(plan), hex(&out[..length.min(60)]));
        format!("{count} steps from {seed} for {plan} into {length} bytes: {result:08x} {out}")
    });
}

/// The first steps, all of them and each front; and once more, so that nothing is left over
/// from the load before.
fn known_loads<S: Implementation, R: Implementation>(trial: &mut Trial<S, R>) {
    for Case(nodes, seed, steps) in LOADS {
        let (plan, steps) = (plan_of(nodes), bytes(steps));
        let all = steps.len() / STEP_BYTES;
        for count in (0..=all).rev().chain([all]) {
            let front = &steps[..STEP_BYTES * count];
            try_call(trial, (&plan, seed, count as u32), front.len(), Ok(front));
        }
    }
    // only the number of nodes counts
    for plan in [P, [OR, 0xff, TASK, 0, TASK, 0, CONDITIONAL, 0, TASK, 3, TASK, 3]] {
        let begin = bytes(LOADS[0].2);
        try_call(trial, (&plan, 0, 12), begin.len(), Ok(&begin));
    }
}

/// Loads of many steps.
fn long_loads<S: Implementation, R: Implementation>(trial: &mut Trial<S, R>) {
    for Sum(nodes, seed, count, expected) in SUMS {
        let mut out = vec![LEFT; STEP_BYTES * count as usize];
        let result = trial.subject.workload(&plan_of(nodes), seed, count, &mut out);
        let sum =
            out.iter().fold(0x811c_9dc5_u32, |sum, &byte| (sum ^ u32::from(byte)).wrapping_mul(0x0100_0193));
        trial.tally.compare(result == 0 && sum == expected, || {
            format!("{count} steps from {seed} for {nodes} nodes: {result:08x}, sum {sum:08x}")
        });
    }
}

/// 7: three bytes a step, no more and no fewer.
fn other_lengths<S: Implementation, R: Implementation>(trial: &mut Trial<S, R>) {
    for (count, lengths) in [
        (0, [1, 2, 3, 4, 6, 300]),
        (1, [0, 1, 2, 4, 5, 6]),
        (2, [0, 3, 5, 7, 8, 9]),
        (10, [0, 10, 20, 29, 31, 40]),
        // those of the count's lower 16 bits, and of its lower 8
        (0x1_0000, [0, 1, 2, 3, 6, 9]),
        (0x1_0001, [0, 3, 4, 6, 9, 12]),
        (0x101, [0, 3, 4, 6, 9, 12]),
    ] {
        for length in lengths {
            try_call(trial, (&P, 5, count), length, Err(7));
        }
    }
}

/// 7: three times these counts would have such a length if it were kept in 32 bits, or in 16.
fn huge_counts<S: Implementation, R: Implementation>(trial: &mut Trial<S, R>) {
    for (count, length) in [
        (1_431_655_765, 0), // 2^32 - 1
        (1_431_655_766, 2), // 2^32 + 2
        (1_431_655_767, 5), // 2^32 + 5
        (1_431_655_800, 104),
        (2_863_311_530, 0), // 2 x 2^32 - 2
        (2_863_311_531, 1), // 2 x 2^32 + 1
        (2_863_311_532, 4), // 2 x 2^32 + 4
        (2_863_311_600, 208),
        (0x5556, 2), // 2^16 + 2
        (0xaaab, 1), // 2 x 2^16 + 1
        (0x8000_0000, 0),
        (u32::MAX, 0),
        (u32::MAX, 3),
        (u32::MAX, 300),
    ] {
        for seed in [0, count] {
            try_call(trial, (&P, seed, count), length, Err(7));
        }
    }
}

/// 1 to 6 before 7, whatever is wanted.
fn refused_plans<S: Implementation, R: Implementation>(trial: &mut Trial<S, R>) {
    let mut deep = vec![AND, 0xff];
    (0..32).for_each(|above| deep.extend([AND, above]));
    deep.extend([TASK, 32]);
    let plans: [(Vec<u8>, u32); 14] = [
        (vec![], 1),
        (bytes("01"), 1),
        (bytes("02ff01"), 1),
        ([vec![AND, 0xff, SERIAL, 0], [TASK, 1].repeat(159)].concat(), 1),
        (bytes("00ff"), 2),
        (bytes("02ff0900"), 2),
        (bytes("0100"), 3),
        (bytes("02ff0101"), 3),
        (bytes("02ff01000101"), 4),
        (bytes("01ff0100"), 4),
        (bytes("02ff"), 5),
        (bytes("07ff010001000100"), 5),
        ([vec![SERIAL, 0xff], [TASK, 0].repeat(33)].concat(), 5),
        (deep, 6),
    ];
    for (plan, number) in plans {
        for (count, length) in [(0, 0), (2, 6), (2, 5), (2, 0), (0, 3), (u32::MAX, 0), (1_431_655_766, 2)] {
            try_call(trial, (&plan, 5, count), length, Err(number));
        }
    }
}
