//! One answer changed: cases with one right answer each.

use super::P;
use crate::codes::*;
use crate::implementation::{Change, Implementation};
use crate::trial::{Trial, hex};

/// A change: plan, answers and marks, the task and its new answer, and the
/// number, or the marks that must be left.
struct Case<'a>(&'a [u8], &'a [u8], &'a [u8], u32, u32, Result<&'a [u8], u32>);

/// A contingency: a serial with one task, and an and with two.
const CHAIN: [u8; 12] = [CONTINGENCY, 0xff, SERIAL, 0, TASK, 1, AND, 0, TASK, 3, TASK, 3];

/// All work in P; all is over with the first task.
const WORKS: [u8; 6] = [0, 1, 1, 1, 1, 1];
const FAILS: [u8; 6] = [0, 2, 1, 1, 1, 1];
/// The marks of both.
const AIRED: [u8; 6] = [3, 3, 3, 3, 5, 3];
const ENDED: [u8; 6] = [4, 4, 0, 0, 0, 0];

/// Runs all of them.
pub fn run<S: Implementation, R: Implementation>(trial: &mut Trial<S, R>) {
    changes(trial);
    blocks(trial);
    refusals(trial);
    marks(trial);
}

/// Makes the calls; the answers stay, and so do the marks of a refused one.
fn try_all<S: Implementation, R: Implementation>(trial: &mut Trial<S, R>, cases: &[Case]) {
    for &Case(plan, answers, marks, task, answer, expected) in cases {
        let change = Change { task, answer };
        let (mut left_answers, mut left) = (answers.to_vec(), marks.to_vec());
        let result = trial.subject.impact(plan, &mut left_answers, &mut left, change);
        let (number, wanted) = expected.map_or_else(|number| (number, marks), |marks| (0, marks));
        let right = result == number && left == wanted && left_answers == answers;
        trial.tally.compare(right, || {
            let (plan, lent, left) = (hex(plan), hex(answers), hex(&left));
            format!("{change:?} in {plan} with {lent}: {result:08x}, marks {left}")
        });
    }
}

/// Changes in P and in the contingency, and back.
fn changes<S: Implementation, R: Implementation>(trial: &mut Trial<S, R>) {
    let failing: [u8; 6] = [0, 0, 2, 0, 1, 2];
    let working: [u8; 6] = [0, 0, 1, 0, 1, 2];
    try_all(
        trial,
        &[
            Case(&P, &WORKS, &AIRED, 1, 2, Ok(&ENDED)),
            Case(&P, &FAILS, &ENDED, 1, 1, Ok(&AIRED)),
            Case(&P, &WORKS, &AIRED, 4, 2, Ok(&[3, 3, 3, 3, 4, 3])),
            Case(&P, &[0, 1, 1, 1, 2, 1], &[3, 3, 3, 3, 4, 3], 4, 1, Ok(&AIRED)),
            Case(&P, &WORKS, &AIRED, 5, 2, Ok(&[4, 3, 3, 3, 5, 4])),
            Case(&P, &WORKS, &AIRED, 5, 1, Ok(&AIRED)),
            Case(&P, &FAILS, &ENDED, 5, 77, Ok(&ENDED)),
            Case(&P, &[0, 2, 9, 9, 9, 9], &ENDED, 3, 255, Ok(&ENDED)),
            Case(&CHAIN, &working, &[3, 3, 3, 0, 0, 0], 2, 2, Ok(&[4, 4, 4, 4, 3, 4])),
            Case(&CHAIN, &failing, &[4, 4, 4, 4, 3, 4], 2, 1, Ok(&[3, 3, 3, 0, 0, 0])),
            Case(&CHAIN, &failing, &[4, 4, 4, 4, 3, 4], 5, 1, Ok(&[3, 4, 4, 3, 3, 3])),
            Case(&[TASK, 0xff], &[1], &[3], 0, 2, Ok(&[4])),
        ],
    );
}

/// Each kind of block with two tasks.
fn blocks<S: Implementation, R: Implementation>(trial: &mut Trial<S, R>) {
    let [serial, and, or, xor, contingency, conditional, waiting] =
        [SERIAL, AND, OR, XOR, CONTINGENCY, CONDITIONAL, WAITING_AND]
            .map(|kind| [kind, 0xff, TASK, 0, TASK, 0]);
    try_all(
        trial,
        &[
            Case(&serial, &[9, 1, 1], &[3, 3, 3], 1, 2, Ok(&[4, 4, 0])),
            Case(&serial, &[9, 1, 1], &[3, 3, 3], 2, 2, Ok(&[4, 3, 4])),
            Case(&serial, &[9, 2, 7], &[4, 4, 0], 1, 1, Err(13)),
            Case(&and, &[9, 1, 1], &[3, 3, 3], 1, 2, Ok(&[4, 4, 3])),
            Case(&waiting, &[9, 1, 1], &[3, 3, 3], 1, 2, Ok(&[4, 4, 3])),
            Case(&or, &[9, 1, 1], &[3, 3, 3], 1, 2, Ok(&[3, 4, 3])),
            Case(&or, &[9, 2, 1], &[3, 4, 3], 2, 2, Ok(&[4, 4, 4])),
            Case(&xor, &[2, 1, 1], &[3, 5, 3], 1, 2, Ok(&[3, 4, 3])),
            Case(&xor, &[2, 2, 1], &[3, 4, 3], 1, 1, Ok(&[3, 5, 3])),
            Case(&xor, &[2, 1, 1], &[3, 5, 3], 2, 2, Err(14)),
            Case(&xor, &[0, 2, 2], &[4, 4, 4], 2, 1, Err(14)),
            Case(&contingency, &[9, 1, 1], &[3, 3, 0], 1, 2, Ok(&[3, 4, 3])),
            Case(&contingency, &[9, 2, 1], &[3, 4, 3], 1, 1, Ok(&[3, 3, 0])),
            Case(&contingency, &[9, 1, 7], &[3, 3, 0], 1, 2, Err(13)),
            Case(&conditional, &[1, 1, 9], &[3, 3, 0], 1, 2, Ok(&[4, 4, 0])),
            Case(&conditional, &[1, 1, 9], &[3, 3, 0], 2, 200, Ok(&[3, 3, 0])),
        ],
    );
}

/// Numbers of the plan, of lengths, of the task and of the passes, each before
/// the next.
fn refusals<S: Implementation, R: Implementation>(trial: &mut Trial<S, R>) {
    let wrong: [u8; 6] = [9; 6];
    try_all(
        trial,
        &[
            Case(&[], &[], &wrong, 300, 300, Err(1)),
            Case(&[9, 0xff], &[], &wrong, 300, 300, Err(2)),
            Case(&[SERIAL, 0], &[], &wrong, 300, 300, Err(3)),
            Case(&[TASK, 0xff, TASK, 0], &[], &wrong, 300, 300, Err(4)),
            Case(&[SERIAL, 0xff], &[], &wrong, 300, 300, Err(5)),
            Case(&P, &WORKS[1..], &AIRED, 300, 300, Err(7)),
            Case(&P, &WORKS, &AIRED[1..], 0, 300, Err(7)),
            Case(&P, &WORKS, &[3, 3, 3, 3, 5, 3, 0], 1, 2, Err(7)),
            Case(&P, &[9; 6], &wrong, 6, 300, Err(8)),
            Case(&P, &WORKS, &AIRED, 0x105, 2, Err(8)),
            Case(&P, &WORKS, &AIRED, u32::MAX, 2, Err(8)),
            Case(&P, &[9; 6], &wrong, 2, 300, Err(9)),
            Case(&P, &WORKS, &AIRED, 0, 2, Err(9)),
            Case(&P, &[0, 0, 1, 1, 1, 1], &wrong, 1, 1, Err(13)),
            Case(&P, &[0, 0, 3, 1, 1, 1], &wrong, 1, 1, Err(13)),
            Case(&P, &[0, 1, 3, 1, 1, 1], &wrong, 1, 300, Err(14)),
            Case(&P, &[0, 1, 3, 1, 1, 1], &wrong, 1, 0, Err(14)),
            Case(&P, &WORKS, &AIRED, 3, 258, Err(13)),
            Case(&P, &WORKS, &AIRED, 5, 257, Err(13)),
            Case(&P, &FAILS, &ENDED, 5, 256, Err(13)),
            Case(&P, &FAILS, &ENDED, 5, u32::MAX, Err(13)),
            Case(&P, &WORKS, &wrong, 5, 0, Err(13)),
            Case(&P, &WORKS, &wrong, 3, 2, Err(14)),
        ],
    );
}

/// Marks that are not those of the pass over the answers.
fn marks<S: Implementation, R: Implementation>(trial: &mut Trial<S, R>) {
    try_all(
        trial,
        &[
            Case(&P, &WORKS, &[9; 6], 1, 2, Err(28)),
            Case(&P, &WORKS, &ENDED, 1, 2, Err(28)),
            Case(&P, &WORKS, &[3, 3, 3, 3, 5, 4], 1, 2, Err(28)),
            Case(&P, &WORKS, &[3, 3, 3, 3, 3, 3], 5, 2, Err(28)),
            Case(&P, &WORKS, &[3, 3, 3, 3, 3, 3], 5, 1, Err(28)),
            Case(&P, &FAILS, &[4, 4, 0, 0, 0, 1], 5, 9, Err(28)),
            Case(&P, &WORKS, &[3, 0x83, 3, 3, 5, 3], 1, 2, Err(28)),
        ],
    );
}
