//! Ways there: cases with one right answer each.

use super::P;
use crate::codes::*;
use crate::implementation::{Implementation, Wanted};
use crate::trial::{Trial, hex};

/// A target: plan, node, mark and end; and the way there, or the number. The
/// answers hold other bytes before.
struct Case<'a>(&'a [u8], u32, u32, u32, Result<&'a [u8], u32>);

/// What stands for answers before.
const LEFT: u8 = 9;

/// Runs all of them.
pub fn run<S: Implementation, R: Implementation>(trial: &mut Trial<S, R>) {
    plan_p(trial);
    blocks(trial);
    places(trial);
    levels(trial);
    nodes(trial);
    refusals(trial);
    answers_before(trial);
}

/// Looks for each of them; a refused call leaves the answers.
fn try_all<S: Implementation, R: Implementation>(trial: &mut Trial<S, R>, cases: &[Case]) {
    for &Case(plan, node, mark, end, expected) in cases {
        let before = vec![LEFT; plan.len() / 2];
        try_over(trial, plan, Wanted { node, mark, end }, &before, expected);
    }
}

/// Looks for one over these bytes.
fn try_over<S: Implementation, R: Implementation>(
    trial: &mut Trial<S, R>,
    plan: &[u8],
    wanted: Wanted,
    before: &[u8],
    expected: Result<&[u8], u32>,
) {
    let mut answers = before.to_vec();
    let result = trial.subject.way(plan, wanted, &mut answers);
    let (number, left) = expected.map_or_else(|number| (number, before), |way| (0, way));
    trial.tally.compare(result == number && answers == left, || {
        format!("{wanted:?} in {}: {result:08x}, answers {}", hex(plan), hex(&answers))
    });
}

/// Plan P: a draft is turned down, picked, fails; the job fails early or late.
fn plan_p<S: Implementation, R: Implementation>(trial: &mut Trial<S, R>) {
    try_all(
        trial,
        &[
            Case(&P, 0, 3, 3, Ok(&[0, 1, 1, 1, 1, 1])),
            Case(&P, 0, 4, 4, Ok(&[0, 1, 0, 2, 2, 0])),
            Case(&P, 1, 3, 4, Ok(&[0, 1, 0, 2, 2, 0])),
            Case(&P, 1, 4, 4, Ok(&[0, 2, 0, 0, 0, 0])),
            Case(&P, 2, 3, 4, Ok(&[0, 1, 1, 1, 1, 2])),
            Case(&P, 2, 4, 4, Ok(&[0, 1, 0, 2, 2, 0])),
            Case(&P, 3, 0, 4, Ok(&[0, 2, 0, 0, 0, 0])),
            Case(&P, 3, 4, 3, Ok(&[0, 1, 2, 2, 1, 1])),
            Case(&P, 3, 5, 3, Ok(&[0, 1, 2, 1, 1, 1])),
            Case(&P, 4, 3, 3, Ok(&[0, 1, 2, 1, 1, 1])),
            Case(&P, 4, 4, 3, Ok(&[0, 1, 1, 1, 2, 1])),
            Case(&P, 4, 5, 3, Ok(&[0, 1, 1, 1, 1, 1])),
            Case(&P, 4, 5, 4, Ok(&[0, 1, 1, 1, 1, 2])),
            Case(&P, 5, 0, 4, Ok(&[0, 1, 0, 2, 2, 0])),
            Case(&P, 5, 4, 4, Ok(&[0, 1, 1, 1, 1, 2])),
            Case(&P, 0, 0, 3, Err(30)),
            Case(&P, 0, 3, 4, Err(30)),
            Case(&P, 0, 5, 4, Err(30)),
            Case(&P, 1, 0, 4, Err(30)),
            Case(&P, 1, 5, 3, Err(30)),
            Case(&P, 2, 4, 3, Err(30)),
            Case(&P, 5, 0, 3, Err(30)),
            Case(&P, 5, 3, 4, Err(30)),
        ],
    );
}

/// Each kind of block, and blocks below blocks.
fn blocks<S: Implementation, R: Implementation>(trial: &mut Trial<S, R>) {
    let [serial, and, or, contingency, waiting] =
        [SERIAL, AND, OR, CONTINGENCY, WAITING_AND].map(|kind| [kind, 0xff, TASK, 0, TASK, 0, TASK, 0]);
    let conditional = [CONDITIONAL, 0xff, TASK, 0, TASK, 0];
    let only_child = [XOR, 0xff, TASK, 0];
    // an xor that fails, and then a task: 0 is the xor's smallest answer
    let after_xor = [CONTINGENCY, 0xff, XOR, 0, TASK, 1, TASK, 0];
    // what commits below a block that is turned down stays committed
    let nested = [XOR, 0xff, XOR, 0, TASK, 1, TASK, 1, TASK, 0];
    // a task; or a serial with an and of two tasks
    let left_out = [CONTINGENCY, 0xff, TASK, 0, SERIAL, 0, AND, 2, TASK, 3, TASK, 3];
    // 4 stands below 1, and 3 below 2
    let mixed = [AND, 0xff, SERIAL, 0, SERIAL, 0, TASK, 2, TASK, 1];
    try_all(
        trial,
        &[
            Case(&[TASK, 0xff], 0, 3, 3, Ok(&[1])),
            Case(&[TASK, 0xff], 0, 4, 4, Ok(&[2])),
            Case(&serial, 0, 4, 4, Ok(&[0, 1, 1, 2])),
            Case(&serial, 2, 4, 4, Ok(&[0, 1, 2, 0])),
            Case(&serial, 3, 0, 4, Ok(&[0, 1, 2, 0])),
            Case(&serial, 2, 0, 4, Ok(&[0, 2, 0, 0])),
            Case(&and, 0, 4, 4, Ok(&[0, 1, 1, 2])),
            Case(&and, 3, 3, 4, Ok(&[0, 1, 2, 1])),
            Case(&and, 3, 0, 4, Err(30)),
            Case(&waiting, 1, 4, 4, Ok(&[0, 2, 1, 1])),
            Case(&waiting, 1, 4, 3, Err(30)),
            Case(&or, 1, 4, 3, Ok(&[0, 2, 1, 1])),
            Case(&or, 3, 4, 4, Ok(&[0, 2, 2, 2])),
            Case(&or, 3, 3, 4, Err(30)),
            Case(&contingency, 3, 3, 3, Ok(&[0, 2, 2, 1])),
            Case(&contingency, 2, 3, 3, Ok(&[0, 2, 1, 0])),
            Case(&contingency, 3, 0, 3, Ok(&[0, 1, 0, 0])),
            Case(&contingency, 3, 4, 4, Ok(&[0, 2, 2, 2])),
            Case(&contingency, 3, 4, 3, Err(30)),
            Case(&conditional, 1, 3, 3, Ok(&[1, 1, 0])),
            Case(&conditional, 1, 0, 4, Ok(&[2, 0, 2])),
            Case(&conditional, 2, 3, 3, Ok(&[2, 0, 1])),
            Case(&conditional, 2, 0, 4, Ok(&[1, 2, 0])),
            Case(&conditional, 2, 4, 3, Err(30)),
            Case(&only_child, 1, 3, 3, Ok(&[1, 1])),
            Case(&only_child, 1, 4, 4, Ok(&[0, 2])),
            Case(&only_child, 1, 5, 3, Err(30)),
            Case(&after_xor, 0, 3, 3, Ok(&[0, 0, 2, 1])),
            Case(&after_xor, 3, 0, 3, Ok(&[0, 1, 1, 0])),
            Case(&nested, 3, 3, 3, Ok(&[1, 2, 1, 1, 1])),
            Case(&nested, 1, 5, 3, Ok(&[2, 1, 1, 1, 1])),
            Case(&nested, 1, 4, 3, Ok(&[2, 0, 2, 2, 1])),
            Case(&nested, 2, 3, 4, Err(30)),
            Case(&left_out, 5, 0, 3, Ok(&[0, 1, 0, 0, 0, 0])),
            Case(&left_out, 4, 4, 4, Ok(&[0, 2, 0, 0, 2, 1])),
            Case(&left_out, 5, 3, 3, Ok(&[0, 2, 0, 0, 1, 1])),
            Case(&left_out, 5, 0, 4, Err(30)),
            Case(&mixed, 0, 4, 4, Ok(&[0, 0, 0, 1, 2])),
            Case(&mixed, 1, 3, 4, Ok(&[0, 0, 0, 2, 1])),
        ],
    );
}

/// An xor with as many children as may be.
fn places<S: Implementation, R: Implementation>(trial: &mut Trial<S, R>) {
    let plan = [vec![XOR, 0xff], [TASK, 0].repeat(32)].concat();
    let picked = |place: u8| [vec![place], vec![1; 32]].concat();
    let but_fails = |place: u8, node: usize| {
        let mut answers = picked(place);
        answers[node] = 2;
        answers
    };
    try_all(
        trial,
        &[
            Case(&plan, 32, 3, 3, Ok(&picked(32))),
            Case(&plan, 31, 3, 3, Ok(&picked(31))),
            Case(&plan, 32, 5, 3, Ok(&picked(1))),
            Case(&plan, 1, 5, 3, Ok(&picked(2))),
            Case(&plan, 32, 4, 3, Ok(&but_fails(1, 32))),
            Case(&plan, 1, 4, 3, Ok(&but_fails(2, 1))),
            Case(&plan, 32, 4, 4, Ok(&[vec![0], vec![2; 32]].concat())),
            Case(&plan, 32, 5, 4, Err(30)),
        ],
    );
}

/// As deep as may be: serials in a row with a task at the end; and xors in a
/// row, each with a task before the next.
fn levels<S: Implementation, R: Implementation>(trial: &mut Trial<S, R>) {
    let mut serials = vec![SERIAL, 0xff];
    (0..30).for_each(|above| serials.extend([SERIAL, above]));
    serials.extend([TASK, 30]);
    let mut xors = vec![XOR, 0xff, TASK, 0];
    (1..30).for_each(|level| xors.extend([XOR, 2 * level - 2, TASK, 2 * level]));
    xors.extend([XOR, 58, TASK, 60]);
    let with_last = |answer: u8| [vec![0; 31], vec![answer]].concat();
    let late_pick = [vec![1; 58], vec![2, 1, 1, 1]].concat();
    try_all(
        trial,
        &[
            Case(&serials, 31, 3, 3, Ok(&with_last(1))),
            Case(&serials, 31, 4, 4, Ok(&with_last(2))),
            Case(&serials, 31, 0, 4, Err(30)),
            Case(&xors, 61, 3, 3, Ok(&[1; 62])),
            Case(&xors, 60, 3, 3, Ok(&late_pick)),
            Case(&xors, 59, 5, 3, Ok(&late_pick)),
            Case(&xors, 59, 3, 3, Ok(&[vec![1; 60], vec![0, 2]].concat())),
            Case(&xors, 0, 3, 3, Ok(&[vec![1, 1], [0, 2].repeat(30)].concat())),
            Case(&xors, 61, 4, 4, Ok(&[0, 2].repeat(31))),
            Case(&xors, 61, 3, 4, Err(30)),
        ],
    );
}

/// As many nodes as may be: five xors below an or, whose tasks stand in turn.
fn nodes<S: Implementation, R: Implementation>(trial: &mut Trial<S, R>) {
    let mut plan = vec![OR, 0xff];
    (0..5).for_each(|_| plan.extend([XOR, 0]));
    (0..154).for_each(|task| plan.extend([TASK, 1 + task % 5]));
    let with = |picks: [u8; 5]| {
        let tasks = (0..154).map(|task| if picks[task % 5] == 0 { 2 } else { 1 });
        [0].into_iter().chain(picks).chain(tasks).collect::<Vec<u8>>()
    };
    try_all(
        trial,
        &[
            Case(&plan, 0, 3, 3, Ok(&with([0, 0, 0, 0, 1]))),
            Case(&plan, 0, 4, 4, Ok(&with([0; 5]))),
            Case(&plan, 156, 3, 3, Ok(&with([31, 0, 0, 0, 0]))),
            Case(&plan, 159, 5, 3, Ok(&with([0, 0, 0, 1, 0]))),
            Case(&plan, 9, 5, 3, Ok(&with([0, 0, 0, 2, 0]))),
            Case(&plan, 159, 3, 4, Err(30)),
            Case(&plan, 159, 0, 3, Err(30)),
            Case(&plan, 160, 3, 3, Err(8)),
        ],
    );
}

/// The numbers, each before the next; numbers are not cut.
fn refusals<S: Implementation, R: Implementation>(trial: &mut Trial<S, R>) {
    let mut deep = vec![SERIAL, 0xff];
    (0..31).for_each(|above| deep.extend([SERIAL, above]));
    deep.extend([TASK, 31]);
    let plans: [&[u8]; 6] = [&[], &[9, 0xff], &[SERIAL, 0], &[TASK, 0xff, TASK, 0], &[SERIAL, 0xff], &deep];
    for (plan, number) in plans.into_iter().zip(1..) {
        let wanted = Wanted { node: 300, mark: 1, end: 5 };
        try_over(trial, plan, wanted, &[LEFT; 7], Err(number));
    }
    for length in [0, 1, 5, 7, 12] {
        for wanted in [Wanted { node: 6, mark: 1, end: 5 }, Wanted { node: 0, mark: 3, end: 3 }] {
            try_over(trial, &P, wanted, &vec![LEFT; length], Err(7));
        }
    }
    let cases = [
        ([6, 1, 5], 8),
        ([6, 3, 3], 8),
        ([256, 3, 3], 8),
        ([0x103, 5, 3], 8),
        ([u32::MAX, 0, 4], 8),
        ([3, 1, 3], 29),
        ([3, 2, 3], 29),
        ([3, 6, 3], 29),
        ([3, 259, 3], 29),
        ([3, 0x100, 4], 29),
        ([3, 0x8000_0005, 3], 29),
        ([3, u32::MAX, 3], 29),
        ([3, 3, 0], 29),
        ([3, 3, 1], 29),
        ([3, 3, 5], 29),
        ([3, 3, 0x103], 29),
        ([3, 4, 0x1_0004], 29),
        ([3, 4, u32::MAX], 29),
        ([1, 5, 5], 29),
        ([1, 5, 4], 30),
    ];
    for ([node, mark, end], number) in cases {
        try_over(trial, &P, Wanted { node, mark, end }, &[LEFT; 6], Err(number));
    }
}

/// What the answers were before doesn't matter, whether they lead there or not.
fn answers_before<S: Implementation, R: Implementation>(trial: &mut Trial<S, R>) {
    let befores = [[0; 6], [1; 6], [0xff; 6], [0, 1, 2, 1, 1, 1], [7, 1, 2, 1, 1, 1], [0, 1, 1, 1, 1, 1]];
    for before in befores {
        try_over(trial, &P, Wanted { node: 0, mark: 3, end: 3 }, &before, Ok(&[0, 1, 1, 1, 1, 1]));
        try_over(trial, &P, Wanted { node: 3, mark: 0, end: 4 }, &before, Ok(&[0, 2, 0, 0, 0, 0]));
        try_over(trial, &P, Wanted { node: 5, mark: 3, end: 4 }, &before, Err(30));
    }
}
