//! Forms of a plan: cases with one right answer each.

use super::{LEFT, P};
use crate::codes::*;
use crate::implementation::Implementation;
use crate::trial::{Trial, hex};

/// A plan, the same tree in the fixed numbering, and its depth form.
struct Case<'a>(&'a [u8], &'a [u8], &'a [u8]);

/// The calls.
#[derive(Clone, Copy, Debug)]
enum Call {
    Renumber,
    ToDepths,
    FromDepths,
}

/// Runs all of them.
pub fn run<S: Implementation, R: Implementation>(trial: &mut Trial<S, R>) {
    plans(trial);
    limits(trial);
    different_trees(trial);
    refused_plans(trial);
    refused_forms(trial);
    lengths(trial);
}

/// A call into so many bytes: what must be written, or the number; a refused call
/// leaves them.
fn try_call<S: Implementation, R: Implementation>(
    trial: &mut Trial<S, R>,
    call: Call,
    bytes: &[u8],
    length: usize,
    expected: Result<&[u8], u32>,
) {
    let mut out = vec![LEFT; length];
    let result = match call {
        Call::Renumber => trial.subject.renumber(bytes, &mut out),
        Call::ToDepths => trial.subject.to_depths(bytes, &mut out),
        Call::FromDepths => trial.subject.from_depths(bytes, &mut out),
    };
    let right = match expected {
        Ok(written) => result == 0 && out == written,
        Err(number) => result == number && out.iter().all(|&byte| byte == LEFT),
    };
    trial.tally.compare(right, || {
        format!("{call:?} of {} into {length} bytes: {result:08x} {}", hex(bytes), hex(&out))
    });
}

/// All three calls on a case: the plan, and what comes of it.
fn try_all<S: Implementation, R: Implementation>(trial: &mut Trial<S, R>, cases: &[Case]) {
    for &Case(plan, fixed, depths) in cases {
        let length = plan.len();
        try_call(trial, Call::Renumber, plan, length, Ok(fixed));
        let own = if plan == fixed { Ok(depths) } else { Err(18) };
        try_call(trial, Call::ToDepths, plan, length, own);
        try_call(trial, Call::ToDepths, fixed, length, Ok(depths));
        try_call(trial, Call::FromDepths, depths, length, Ok(fixed));
    }
}

/// Plan P and other small ones, in the fixed numbering and in others.
fn plans<S: Implementation, R: Implementation>(trial: &mut Trial<S, R>) {
    let depths_of_p = [SERIAL, 1, TASK, 2, XOR, 2, TASK, 3, TASK, 3, TASK, 2];
    // the last task of P before those of its xor
    let other_p = [SERIAL, 0xff, TASK, 0, XOR, 0, TASK, 0, TASK, 2, TASK, 2];
    // down to the fourth level, and back to the root's children
    let stairs = [AND, 0xff, OR, 0, SERIAL, 1, TASK, 2, XOR, 0, TASK, 4];
    let depths_of_stairs = [AND, 1, OR, 2, SERIAL, 3, TASK, 4, XOR, 2, TASK, 3];
    // level by level; then the lower levels in other orders
    let by_level = [AND, 0xff, OR, 0, XOR, 0, SERIAL, 1, TASK, 2, TASK, 3];
    let second_first = [AND, 0xff, OR, 0, XOR, 0, TASK, 2, SERIAL, 1, TASK, 4];
    // the task at the end goes below a block that was left behind
    let left_behind = [AND, 0xff, OR, 0, SERIAL, 1, XOR, 0, TASK, 2, TASK, 3];
    // the second child of the root stands before what is below the first
    let behind_task = [SERIAL, 0xff, AND, 0, OR, 1, TASK, 0, TASK, 2];
    let behind_task_fixed = [SERIAL, 0xff, AND, 0, OR, 1, TASK, 2, TASK, 0];
    let depths_behind_task = [SERIAL, 1, AND, 2, OR, 3, TASK, 4, TASK, 2];
    // a root with one subtree, in which two blocks stand beside each other
    let below_one = [SERIAL, 0xff, AND, 0, OR, 1, XOR, 1, TASK, 3, TASK, 2, TASK, 3];
    let below_one_fixed = [SERIAL, 0xff, AND, 0, OR, 1, TASK, 2, XOR, 1, TASK, 4, TASK, 4];
    let depths_below_one = [SERIAL, 1, AND, 2, OR, 3, TASK, 4, XOR, 3, TASK, 4, TASK, 4];
    // a conditional keeps its branches: no first child but the first
    let branches = [CONDITIONAL, 0xff, WAITING_AND, 0, CONTINGENCY, 0, TASK, 2, TASK, 1];
    let branches_fixed = [CONDITIONAL, 0xff, WAITING_AND, 0, TASK, 1, CONTINGENCY, 0, TASK, 3];
    let depths_of_branches = [CONDITIONAL, 1, WAITING_AND, 2, TASK, 3, CONTINGENCY, 2, TASK, 3];
    try_all(
        trial,
        &[
            Case(&[TASK, 0xff], &[TASK, 0xff], &[TASK, 1]),
            Case(&[OR, 0xff, TASK, 0], &[OR, 0xff, TASK, 0], &[OR, 1, TASK, 2]),
            Case(&P, &P, &depths_of_p),
            Case(&other_p, &P, &depths_of_p),
            Case(&stairs, &stairs, &depths_of_stairs),
            Case(&by_level, &stairs, &depths_of_stairs),
            Case(&second_first, &stairs, &depths_of_stairs),
            Case(&left_behind, &stairs, &depths_of_stairs),
            Case(&behind_task, &behind_task_fixed, &depths_behind_task),
            Case(&below_one, &below_one_fixed, &depths_below_one),
            Case(&branches, &branches_fixed, &depths_of_branches),
        ],
    );
}

/// As many nodes, as many children and as deep as may be.
fn limits<S: Implementation, R: Implementation>(trial: &mut Trial<S, R>) {
    // five blocks whose tasks stand in turn: four with 31, one with 30
    let kinds = [SERIAL, AND, OR, XOR, CONTINGENCY];
    let mut turns = vec![WAITING_AND, 0xff];
    kinds.iter().for_each(|&kind| turns.extend([kind, 0]));
    (0..154).for_each(|task| turns.extend([TASK, 1 + task % 5]));
    let (mut fixed, mut depths) = (vec![WAITING_AND, 0xff], vec![WAITING_AND, 1]);
    for (place, kind) in kinds.into_iter().enumerate() {
        let tasks = if place == 4 { 30 } else { 31 };
        fixed.extend([vec![kind, 0], [TASK, 1 + 32 * place as u8].repeat(tasks)].concat());
        depths.extend([vec![kind, 2], [TASK, 3].repeat(tasks)].concat());
    }
    let star = [vec![XOR, 0xff], [TASK, 0].repeat(32)].concat();
    let depths_of_star = [vec![XOR, 1], [TASK, 2].repeat(32)].concat();
    // 31 serials below each other, each with a task behind the next serial; the tasks
    // stand from the root's on, and in the fixed numbering from the deepest on
    let mut chain = vec![SERIAL, 0xff];
    (0..30).for_each(|above| chain.extend([SERIAL, above]));
    let bushy = [&chain[..], &(0..31).flat_map(|block| [TASK, block]).collect::<Vec<u8>>()].concat();
    let bushy_fixed =
        [&chain[..], &(0..31).rev().flat_map(|block| [TASK, block]).collect::<Vec<u8>>()].concat();
    let levels: Vec<u8> = (1..=31).flat_map(|depth| [SERIAL, depth]).collect();
    let depths_of_bushy =
        [&levels[..], &(2..=32).rev().flat_map(|depth| [TASK, depth]).collect::<Vec<u8>>()].concat();
    try_all(
        trial,
        &[
            Case(&turns, &fixed, &depths),
            Case(&star, &star, &depths_of_star),
            Case(&bushy, &bushy_fixed, &depths_of_bushy),
        ],
    );
}

/// Plans that are nearly the same tree stay different.
fn different_trees<S: Implementation, R: Implementation>(trial: &mut Trial<S, R>) {
    let task_last = [SERIAL, 0xff, AND, 0, TASK, 1, TASK, 0];
    let task_first = [SERIAL, 0xff, TASK, 0, AND, 0, TASK, 2];
    let two_in_block = [SERIAL, 0xff, AND, 0, TASK, 1, TASK, 1];
    let waiting = [SERIAL, 0xff, WAITING_AND, 0, TASK, 1, TASK, 0];
    for plan in [task_last, task_first, two_in_block, waiting] {
        try_call(trial, Call::Renumber, &plan, 8, Ok(&plan));
    }
    let other = [SERIAL, 0xff, AND, 0, TASK, 0, TASK, 1];
    try_call(trial, Call::Renumber, &other, 8, Ok(&task_last));
}

/// 1 to 6 before 18 and 7, in plans that are not in the fixed numbering where that
/// can be; then 18 before 7.
fn refused_plans<S: Implementation, R: Implementation>(trial: &mut Trial<S, R>) {
    let mut deep = vec![SERIAL, 0xff];
    (0..31).for_each(|above| deep.extend([SERIAL, above]));
    deep.extend([TASK, 31, TASK, 0, TASK, 1]);
    let plans: [(&[u8], u32); 10] = [
        (&[], 1),
        (&[SERIAL, 0xff, TASK], 1),
        (&[SERIAL, 0xff, AND, 0, OR, 0, TASK, 2, 9, 1], 2),
        (&[SERIAL, 0xff, AND, 0, OR, 0, TASK, 2, TASK, 4], 3),
        (&[SERIAL, 0], 3),
        (&[SERIAL, 0xff, AND, 0, OR, 0, TASK, 2, TASK, 1, TASK, 3], 4),
        (&[SERIAL, 0xff, AND, 0, OR, 0, TASK, 2, CONDITIONAL, 1], 5),
        (&[SERIAL, 0xff, AND, 0], 5),
        (&[vec![OR, 0xff], [TASK, 0].repeat(33)].concat(), 5),
        (&deep, 6),
    ];
    for (plan, number) in plans {
        for length in [plan.len(), plan.len() + 1, 1] {
            try_call(trial, Call::Renumber, plan, length, Err(number));
            try_call(trial, Call::ToDepths, plan, length, Err(number));
        }
    }
    let too_long = [vec![SERIAL, 0xff], [AND, 0].repeat(160)].concat();
    try_call(trial, Call::Renumber, &too_long, 322, Err(1));
    let other = [SERIAL, 0xff, AND, 0, OR, 0, TASK, 2, TASK, 1];
    for length in [0, 9, 10, 11, 20] {
        try_call(trial, Call::ToDepths, &other, length, Err(18));
    }
}

/// Depth forms that are refused, whatever the length of the bytes lent.
fn refused_forms<S: Implementation, R: Implementation>(trial: &mut Trial<S, R>) {
    let chain = |levels: u8| -> Vec<u8> {
        (1..levels).flat_map(|depth| [SERIAL, depth]).chain([TASK, levels]).collect()
    };
    let forms: [(&[u8], u32); 38] = [
        // 1
        (&[], 1),
        (&[SERIAL], 1),
        (&[TASK, 1, 0], 1),
        (&[SERIAL, 1, TASK, 2, TASK], 1),
        (&[vec![SERIAL, 1], [TASK, 2].repeat(160)].concat(), 1),
        // 2, before 17 and 4
        (&[0, 1], 2),
        (&[9, 1], 2),
        (&[9, 0], 2),
        (&[TASK, 0, 0, 1], 2),
        (&[SERIAL, 1, TASK, 3, 0xff, 2], 2),
        (&[TASK, 1, TASK, 2, 9, 2], 2),
        // the first depth
        (&[TASK, 0], 17),
        (&[TASK, 2], 17),
        (&[TASK, 0x81], 17),
        (&[SERIAL, 2, TASK, 3], 17),
        (&[SERIAL, 0, TASK, 1], 17),
        // a later one below 2
        (&[SERIAL, 1, TASK, 1], 17),
        (&[SERIAL, 1, TASK, 0], 17),
        (&[SERIAL, 1, TASK, 2, TASK, 1], 17),
        (&[SERIAL, 1, TASK, 2, SERIAL, 1, TASK, 2], 17),
        // one more than one above the line before
        (&[SERIAL, 1, TASK, 3], 17),
        (&[SERIAL, 1, TASK, 255], 17),
        (&[SERIAL, 1, TASK, 0x82], 17),
        (&[SERIAL, 1, AND, 2, TASK, 3, TASK, 2, TASK, 4], 17),
        (&[SERIAL, 1, AND, 3, TASK, 4], 17),
        // 17 before 4, 5 and 6
        (&[TASK, 1, TASK, 2, TASK, 4], 17),
        (&[CONDITIONAL, 1, TASK, 2, TASK, 0], 17),
        (&[chain(33), vec![TASK, 1]].concat(), 17),
        // 4 to 6, and no 3
        (&[TASK, 1, TASK, 2], 4),
        (&[SERIAL, 1, TASK, 2, TASK, 3], 4),
        (&[SERIAL, 1, AND, 2, TASK, 3, TASK, 4], 4),
        (&[SERIAL, 1], 5),
        (&[SERIAL, 1, AND, 2, TASK, 2], 5),
        (&[CONDITIONAL, 1, TASK, 2], 5),
        (&[vec![OR, 1], [TASK, 2].repeat(33)].concat(), 5),
        (&chain(33), 6),
        (&[chain(34), vec![TASK, 2]].concat(), 6),
        (&chain(160), 6),
    ];
    for (form, number) in forms {
        for length in [form.len(), form.len() + 1, 1] {
            try_call(trial, Call::FromDepths, form, length, Err(number));
        }
    }
}

/// 7, last of all.
fn lengths<S: Implementation, R: Implementation>(trial: &mut Trial<S, R>) {
    let depths = [SERIAL, 1, AND, 2, TASK, 3, OR, 2, TASK, 3];
    let plan = [SERIAL, 0xff, AND, 0, OR, 0, TASK, 2, TASK, 1];
    let fixed = [SERIAL, 0xff, AND, 0, TASK, 1, OR, 0, TASK, 3];
    for length in [0, 1, 5, 8, 9, 11, 12, 20] {
        try_call(trial, Call::Renumber, &plan, length, Err(7));
        try_call(trial, Call::Renumber, &fixed, length, Err(7));
        try_call(trial, Call::ToDepths, &fixed, length, Err(7));
        try_call(trial, Call::FromDepths, &depths, length, Err(7));
    }
}
