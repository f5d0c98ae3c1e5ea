//! Cases of plans with desks.

use super::points::{A, B, C, Lot, Move};
use crate::codes::*;
use crate::driver::Step;
use crate::implementation::Implementation;
use crate::plans;
use crate::tables::COMMON;
use crate::trial::{Trial, hex};

/// An xor with two tasks; the second is at the xor's desk. Its first row is
/// that of desk 10, its second that of desk 20.
const SHARED: [u8; 9] = [XOR, 0xff, 0x20, TASK, 0, 0x10, TASK, 0, 0x20];

/// Runs all of them.
pub fn run<S: Implementation, R: Implementation>(trial: &mut Trial<S, R>) {
    checks(trial);
    refused_first(trial);
    steps(trial);
    orders(trial);
    moves(trial);
    take_backs(trial);
    records(trial);
    one_desk(trial);
}

/// Plans and their numbers: three bytes a node, up to 480; the plain plan's own
/// number, then 22 for a desk above 9f.
fn checks<S: Implementation, R: Implementation>(trial: &mut Trial<S, R>) {
    let chain = (0..32u8).flat_map(|level| [SERIAL, level.wrapping_sub(1)]);
    let deep = plans::at_own_desks(&chain.chain([TASK, 31]).collect::<Vec<_>>());
    let with = |plan: &[u8], node: usize, desk: u8| {
        let mut plan = plan.to_vec();
        plan[3 * node + 2] = desk;
        plan
    };
    let blocks: Vec<u8> = (0..5).flat_map(|_| [AND, 0]).collect();
    let tasks: Vec<u8> = (0..154).flat_map(|task| [TASK, 1 + task % 5]).collect();
    let most = plans::at_own_desks(&[&[AND, 0xff][..], &blocks, &tasks].concat());
    let cases = [
        (vec![], 1),
        (vec![TASK], 1),
        (vec![TASK, 0xff], 1),
        (vec![TASK, 0xff, 0], 0),
        (vec![TASK, 0xff, 0, 1], 1),
        (vec![TASK, 0xff, 0, 1, 0], 1),
        (vec![TASK, 0xff, 0x9f], 0),
        (vec![TASK, 0xff, 0xa0], 22),
        (vec![TASK, 0xff, 0xff], 22),
        (vec![9, 0xff, 0xa0], 2),
        (vec![TASK, 0, 0xa0], 3),
        (vec![TASK, 0xff, 0xa0, TASK, 0, 0], 4),
        (vec![SERIAL, 0xff, 0xa0], 5),
        (with(&deep, 32, 0x9f), 6),
        (with(&deep, 32, 0xa0), 6),
        (most.clone(), 0),
        (with(&most, 159, 0xfe), 22),
        ([&most[..], &[TASK, 1, 0]].concat(), 1),
        ([&most[..], &[TASK]].concat(), 1),
        (SHARED.to_vec(), 0),
        (with(&SHARED, 1, 0xa0), 22),
    ];
    for (plan, expected) in cases {
        let result = trial.subject.desk_check(&plan);
        trial.tally.compare(result == expected, || format!("check of {}: {result:08x}", hex(&plan)));
    }
}

/// A plan with a desk that is none is 22 in every call, before lengths that are
/// wrong, and nothing is written; but a table that is none is 21 before it.
fn refused_first<S: Implementation, R: Implementation>(trial: &mut Trial<S, R>) {
    let plan = [SERIAL, 0xff, 3, TASK, 0, 0xa0];
    for length in [1, 2, 4] {
        let subject = &mut trial.subject;
        let (mut state, mut marks, mut classes) = (vec![9; length], vec![9; length], vec![9; length]);
        let (mut entries, mut count, mut lot) = ([[1, 0, 0xff, 1]], 1, Lot::free());
        let step = Step { code: START, node: 0, site: HAPPENS };
        let results = [
            subject.desk_step(&plan, START, 0, &mut state),
            subject.desk_simulate(&plan, START, 0, HAPPENS, &mut state),
            subject.desk_keep(&plan, step, &mut state, &mut entries, &mut count),
            subject.desk_undo(&plan, &mut state, &mut entries, &mut count),
            subject.desk_point_undo(&plan, &mut state, &mut entries, &mut count, lot.slots()),
            subject.desk_point_back(&plan, &A, &mut state, &mut entries, &mut count, lot.slots()),
            subject.desk_record(&plan, &[0; 4], &mut marks, &mut classes),
            subject.desk_record_by(&plan, &COMMON, &[0; 4], &mut marks, &mut classes),
        ];
        let of_table = subject.desk_record_by(&plan, &[], &[], &mut marks, &mut classes);
        let nines = vec![9; length];
        let is_left = [state, marks, classes] == [&nines[..]; 3] && count == 1 && lot == Lot::free();
        trial.tally.compare(results == [22; 8] && of_table == 21 && is_left, || {
            format!("a desk a0 with {length} bytes: {results:?}, {of_table}, all left {is_left}")
        });
    }
    let (mut marks, mut classes) = ([9; 2], [9; 2]);
    let result = trial.subject.desk_record_by(&[], &COMMON[1..], &[0; 4], &mut marks, &mut classes);
    trial.tally.compare(result == 21, || format!("no plan and no table: {result}"));
}

/// A step at its desk: the event, the row before it, the result, and the row's
/// byte for the node after it.
struct StepCase(u32, u32, [u8; 3], u32, u8);

fn steps<S: Implementation, R: Implementation>(trial: &mut Trial<S, R>) {
    let cases = [
        StepCase(START, 0, [0; 3], 0x20 << 8 | 0x01 << 16, 1),
        StepCase(START, 0, [1, 0, 0], 10 | 0x20 << 8, 1),
        StepCase(START, 1, [0; 3], 11 | 0x10 << 8, 0),
        StepCase(START, 1, [1, 0, 0], 0x10 << 8 | 0x51 << 16, 1),
        StepCase(PICK, 1, [1, 2, 0], 0x20 << 8 | 0x57 << 16, 0x42),
        StepCase(PICK, 1, [1, 2, 0x40], 10 | 0x20 << 8, 2),
        StepCase(PICK, 1, [1, 0, 0], 11 | 0x20 << 8, 0),
        StepCase(YES, 1, [1, 0, 0], 9, 0),
        StepCase(9, 1, [1, 0, 0], 8, 0),
    ];
    for StepCase(code, node, before, expected, left) in cases {
        let mut row = before;
        let result = trial.subject.desk_step(&SHARED, code, node, &mut row);
        let mut after = before;
        after[node as usize] = left;
        trial.tally.compare((result, row) == (expected, after), || {
            format!("step {code} of {node} at its desk: {result:08x}, row {}", hex(&row))
        });
    }
    let results = [2, 4].map(|length| trial.subject.desk_step(&SHARED, START, 0, &mut vec![0; length]));
    trial.tally.compare(results == [7; 2], || format!("rows of a wrong length: {results:?}"));
}

/// Rows in rising desk number: the desks of a serial and its two tasks, and the
/// state after its start, of which the first task is told.
fn orders<S: Implementation, R: Implementation>(trial: &mut Trial<S, R>) {
    let cases: [([u8; 3], &[u8]); 6] = [
        ([0, 1, 2], &[1, 0, 0, 1, 0, 0, 0, 0, 0]),
        ([0x9f, 0, 5], &[1, 0, 0, 0, 0, 0, 1, 0, 0]),
        ([5, 0x9f, 0], &[0, 0, 0, 1, 0, 0, 1, 0, 0]),
        ([1, 0x80, 1], &[1, 0, 0, 1, 0, 0]),
        ([0x80, 1, 0x80], &[1, 0, 0, 1, 0, 0]),
        ([7, 7, 7], &[1, 0, 0]),
    ];
    for (desks, left) in cases {
        let [block, first, second] = desks;
        let plan = [SERIAL, 0xff, block, TASK, 0, first, TASK, 0, second];
        let mut state = vec![0; left.len()];
        let subject = &mut trial.subject;
        let started = subject.desk_simulate(&plan, START, 0, HAPPENS, &mut state);
        let told = subject.desk_simulate(&plan, START, 0, first.into(), &mut state);
        let lengths = [left.len() - 3, left.len() + 3, left.len() + 1]
            .map(|length| subject.desk_simulate(&plan, START, 0, HAPPENS, &mut vec![0; length]));
        let right = started == u32::from(block) << 8 | 0x01 << 16 && told == 0 && lengths == [7; 3];
        trial.tally.compare(right && state == left, || {
            format!("desks {desks:02x?}: {started:08x} {told:08x} {lengths:?}, state {}", hex(&state))
        });
    }
}

/// A list of moves with desks and points. Nobody is told at his own desk; a
/// desk that isn't in use is 8, whatever its number is.
fn moves<S: Implementation, R: Implementation>(trial: &mut Trial<S, R>) {
    let none = Lot::free();
    let a = none.clone().with(0, A, 7);
    let ab = a.clone().with(1, B, 9);
    let abc = ab.clone().with(2, C, 10);
    let [ab_again, a_again, nothing] =
        [&[2][..], &[1, 2], &[0, 1, 2]].map(|slots| abc.clone().without(slots));
    let ab_anew = a_again.clone().with(1, B, 9);
    let (begun, both, told) = ([0, 0, 0, 1, 0, 0], [0, 0, 0, 1, 0, 1], [1, 0, 0, 1, 0, 1]);
    let (running, offered, heard) = ([1, 1, 0, 1, 0, 1], [1, 3, 0, 1, 0, 1], [1, 3, 0, 1, 2, 1]);
    let (picked, known) = ([1, 3, 0, 1, 0x42, 1], [1, 0x43, 0, 1, 0x42, 1]);
    let cases = [
        (Move::Keep(START, 0, 0x20), 12, [0; 6], 0, &none),
        (Move::Keep(START, 0, HAPPENS), 0x20 << 8 | 0x01 << 16, begun, 1, &none),
        (Move::Keep(START, 0, HAPPENS), 10 | 0x20 << 8, begun, 1, &none),
        (Move::Keep(START, 2, HAPPENS), 0x20 << 8 | 0x51 << 16, both, 2, &none),
        (Move::Keep(START, 1, HAPPENS), 11 | 0x10 << 8, both, 2, &none),
        (Move::Keep(START, 0, 0x20), 0, both, 3, &none),
        (Move::Keep(START, 0, 0), 8, both, 3, &none),
        (Move::Keep(START, 0, 0x11), 8, both, 3, &none),
        (Move::Keep(START, 0, 0xa0), 8, both, 3, &none),
        (Move::Keep(START, 2, 0xfe), 8, both, 3, &none),
        (Move::Keep(START, 0, 0x110), 8, both, 3, &none),
        (Move::Keep(YES, 0, 0x10), 9, both, 3, &none),
        (Move::Keep(START, 0, 0x10), 0, told, 4, &none),
        (Move::Keep(START, 1, HAPPENS), 0x10 << 8 | 0x51 << 16, running, 5, &none),
        (Move::Keep(OFFER, 1, 0x20), 12, running, 5, &none),
        (Move::Keep(OFFER, 1, HAPPENS), 0x10 << 8 | 0x12 << 16, offered, 6, &none),
        (Move::Name(A), 0, offered, 6, &a),
        (Move::Keep(PICK, 1, HAPPENS), 11 | 0x20 << 8, offered, 6, &a),
        (Move::Keep(OFFER, 1, 0x20), 0, heard, 7, &a),
        (Move::Keep(PICK, 1, HAPPENS), 0x20 << 8 | 0x57 << 16, picked, 8, &a),
        (Move::Name(B), 0, picked, 8, &ab),
        (Move::Keep(PICK, 1, 0x10), 0, known, 9, &ab),
        (Move::Name(C), 0, known, 9, &abc),
        (Move::Undo, 0, picked, 8, &ab_again),
        (Move::Undo, 0, heard, 7, &a_again),
        (Move::Back(B), 19, heard, 7, &a_again),
        (Move::Keep(PICK, 1, HAPPENS), 0x20 << 8 | 0x57 << 16, picked, 8, &a_again),
        (Move::Name(B), 0, picked, 8, &ab_anew),
        (Move::Back(A), 0, offered, 6, &a_again),
        (Move::Undo, 0, running, 5, &nothing),
        (Move::Undo, 0, told, 4, &nothing),
        (Move::Undo, 0, both, 3, &nothing),
        (Move::Undo, 0, both, 2, &nothing),
        (Move::Undo, 0, begun, 1, &nothing),
        (Move::Undo, 0, [0; 6], 0, &nothing),
        (Move::Undo, 16, [0; 6], 0, &nothing),
    ];
    let (mut state, mut entries, mut count, mut lot) = ([0; 6], [[9; 4]; 10], 0, none.clone());
    for (this, expected, left, counted, points) in cases {
        let subject = &mut trial.subject;
        let result = match this {
            Move::Keep(code, node, site) => {
                let step = Step { code, node, site };
                subject.desk_keep(&SHARED, step, &mut state, &mut entries, &mut count)
            }
            Move::Undo => subject.desk_point_undo(&SHARED, &mut state, &mut entries, &mut count, lot.slots()),
            Move::Name(name) => subject.point_name(&name, count, lot.slots()),
            Move::Back(name) => {
                subject.desk_point_back(&SHARED, &name, &mut state, &mut entries, &mut count, lot.slots())
            }
        };
        let right = (result, state, count, &lot) == (expected, left, counted, points);
        trial.tally.compare(right, || {
            format!("{this:?} with desks: {result:08x}, state {}, {count}, {}", hex(&state), lot.describe())
        });
    }
    let kept = [
        [1, 0, 0xff, 1],
        [1, 2, 0xff, 1],
        [1, 0, 0x20, 0],
        [1, 0, 0x10, 1],
        [1, 1, 0xff, 1],
        [2, 1, 0xff, 1],
        [2, 1, 0x20, 1],
        [7, 1, 0xff, 1],
        [7, 1, 0x10, 1],
        [9; 4],
    ];
    trial.tally.compare(entries == kept, || format!("the entries of all moves with desks: {entries:02x?}"));
}

/// Entries that no simulation kept: the result, and what is left of the rows,
/// all of which were full.
fn take_backs<S: Implementation, R: Implementation>(trial: &mut Trial<S, R>) {
    let without = |place: usize, code| {
        let mut state = [0xff; 6];
        state[place] = !bit(code);
        state
    };
    let cases = [
        ([1, 1, 0xff, 2], 0, without(1, START)),
        ([1, 2, 0xff, 1], 0, without(5, START)),
        ([7, 1, 0xff, 1], 0, without(4, PICK)),
        ([7, 1, 0x10, 1], 0, without(1, PICK)),
        ([3, 0, 0x10, 0xff], 0, without(0, COMMIT)),
        ([3, 2, 0x10, 1], 0, without(2, COMMIT)),
        ([3, 0, 0x10, 0], 0, [0xff; 6]),
        ([5, 1, 0xff, 1], 9, [0xff; 6]),
        ([5, 1, 0x11, 0], 8, [0xff; 6]),
        ([1, 0, 0, 1], 8, [0xff; 6]),
        ([1, 0, 1, 1], 8, [0xff; 6]),
        ([1, 0, 0xa0, 1], 8, [0xff; 6]),
        ([1, 3, 0x10, 1], 8, [0xff; 6]),
    ];
    for (entry, expected, left) in cases {
        let (mut state, mut entries, mut count) = ([0xff; 6], [entry], 1);
        let result = trial.subject.desk_undo(&SHARED, &mut state, &mut entries, &mut count);
        let counted = usize::from(expected != 0);
        let right = (result, state, entries, count) == (expected, left, [entry], counted);
        trial.tally.compare(right, || {
            format!("take-back of {entry:02x?} with desks: {result:08x}, state {}, {count}", hex(&state))
        });
    }
}

/// Marks are read at the desks of the nodes, whatever other desks have heard.
fn records<S: Implementation, R: Implementation>(trial: &mut Trial<S, R>) {
    let state = [0x08, 0x83, 0x08, 0x05, 0x04, 0x07];
    let house = [0, 0, 1, 0, 2, 1, 3, 2, 4, 0, 5, 3];
    for (table, kept) in [(COMMON, [0, 2, 1]), (house, [0, 3, 2])] {
        let (mut marks, mut classes) = ([9; 3], [9; 3]);
        let result = trial.subject.desk_record_by(&SHARED, &table, &state, &mut marks, &mut classes);
        let right = (result, marks, classes) == (0, [3, 5, 3], kept);
        trial
            .tally
            .compare(right, || format!("record by {}: {result:08x} {marks:?} {classes:?}", hex(&table)));
    }
    let (mut marks, mut classes) = ([9; 3], [9; 3]);
    let result = trial.subject.desk_record(&SHARED, &state, &mut marks, &mut classes);
    trial.tally.compare((result, marks, classes) == (0, [3, 5, 3], [0, 2, 1]), || {
        format!("record with desks: {result:08x} {marks:?} {classes:?}")
    });
    let results =
        [3, 9].map(|length| trial.subject.desk_record(&SHARED, &vec![0; length], &mut marks, &mut classes));
    trial.tally.compare(results == [7; 2], || format!("records of a wrong length: {results:?}"));
}

/// All at one desk: a whole job, of which nobody is told anything.
fn one_desk<S: Implementation, R: Implementation>(trial: &mut Trial<S, R>) {
    let plan = [SERIAL, 0xff, 9, TASK, 0, 9, TASK, 0, 9];
    let mut state = [0; 3];
    let events = [
        (START, 0, 0x01),
        (START, 1, 0x21),
        (COMMIT, 1, 0x13),
        (START, 2, 0x21),
        (COMMIT, 2, 0x13),
        (COMMIT, 0, 0x23),
    ];
    let right = events.map(|(code, node, rule)| {
        let early = trial.subject.desk_simulate(&plan, COMMIT, 0, HAPPENS, &mut state.clone());
        let is_last = (code, node) == (COMMIT, 0);
        let result = trial.subject.desk_simulate(&plan, code, node, HAPPENS, &mut state);
        result == 9 << 8 | rule << 16 && (number(early) == 0) == is_last
    });
    trial.tally.compare(right == [true; 6] && state == [5; 3], || {
        format!("a job at one desk: {right:?}, state {}", hex(&state))
    });
}
