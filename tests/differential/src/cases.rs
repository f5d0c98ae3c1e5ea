//! Cases with one right answer each, held against the subject whatever the
//! reference says.

use crate::codes::*;
use crate::driver::Step;
use crate::implementation::Implementation;
use crate::tables::COMMON;
use crate::trial::{Trial, hex};

mod desks;
mod forms;
mod impact;
mod load;
mod points;
mod repeat;
mod small;
mod way;

/// Plan P of document 01.
const P: [u8; 12] = [SERIAL, 0xff, TASK, 0, XOR, 0, TASK, 2, TASK, 2, TASK, 0];

/// More than any text's lines.
const LONG_OUT: usize = 16_400;

/// What stands in lent bytes before.
const LEFT: u8 = 0xa5;

/// Whether a call that writes a plan to the front of lent bytes answers and leaves what
/// it must: the plan with its number of nodes, or the refusal; all other bytes are left.
fn front_is(result: u32, out: &[u8], expected: Result<&[u8], u32>) -> bool {
    let (value, written) = match expected {
        Ok(written) => ((written.len() as u32 / 2) << 16, written),
        Err(number) => (number, &[][..]),
    };
    let rest_stays = out.iter().skip(written.len()).all(|&byte| byte == LEFT);
    result == value && out.starts_with(written) && rest_stays
}

/// Runs all of them.
pub fn run<S: Implementation, R: Implementation>(trial: &mut Trial<S, R>) {
    version(trial);
    guards_with_rules(trial);
    passes(trial);
    sample_text(trial);
    lie(trial);
    moves(trial);
    take_backs(trial);
    points::run(trial);
    desks::run(trial);
    impact::run(trial);
    way::run(trial);
    forms::run(trial);
    repeat::run(trial);
    small::run(trial);
    load::run(trial);
}

/// Version 1.9.0.
fn version<S: Implementation, R: Implementation>(trial: &mut Trial<S, R>) {
    let version = trial.version();
    trial.tally.compare(version == 0x01_0900, || format!("the version is {version:08x}"));
}

/// A guard: the event, its rule, and what must be written.
struct GuardCase<'a>(&'a [u8], u32, u32, u32, &'a [u8]);

/// P1 to P8 with their rules, and an only child that is turned down.
fn guards_with_rules<S: Implementation, R: Implementation>(trial: &mut Trial<S, R>) {
    let only_child = [XOR, 0xff, TASK, 0];
    let cases = [
        GuardCase(&P, START, 0, 0x01, &[0]),
        GuardCase(&P, START, 2, 0x21, &[1, 1, 3, 1]),
        GuardCase(&P, COMMIT, 2, 0x53, &[3, 3, 3, 3, 4, 3, 8, 3, 3, 3, 4, 4, 4, 8, 4, 2, 3, 3, 3, 4]),
        GuardCase(&P, ABORT, 2, 0x54, &[2, 1, 4, 3, 1, 4, 4]),
        GuardCase(&P, TURNED_DOWN, 3, 0x58, &[2, 1, 2, 3, 1, 7, 4]),
        GuardCase(&P, COMMIT, 3, 0xf3, &[1, 1, 7, 3]),
        GuardCase(&P, ABORT, 0, 0x24, &[1, 3, 4, 1, 4, 2, 4, 5]),
        GuardCase(&P, OFFER, 3, 0x12, &[1, 1, 1, 3]),
        GuardCase(&only_child, TURNED_DOWN, 1, 0x58, &[2, 1, 2, 1, 0]),
    ];
    for GuardCase(plan, code, node, rule, bytes) in cases {
        let mut buffer = vec![0; 300];
        let result = trial.subject.guard(plan, code, node, &mut buffer);
        let right = result == rule << 8 | (bytes.len() as u32) << 16 && buffer.starts_with(bytes);
        trial.tally.compare(right, || {
            format!("guard of code {code} node {node} in {}: {result:08x} {}", hex(plan), hex(&buffer[..20]))
        });
    }
}

/// A pass: plan and answers, the number, and what must be left as marks and
/// classes, which were 9 and 8.
struct PassCase<'a>(&'a [u8], &'a [u8], u32, &'a [u8], &'a [u8]);

/// P9, P10 and the case that joins them, with their classes; then P9 with no
/// pick, and a task without an answer.
fn passes<S: Implementation, R: Implementation>(trial: &mut Trial<S, R>) {
    let draft = [XOR, 0xff, SERIAL, 0, TASK, 1, TASK, 0];
    let cases = [
        PassCase(&P, &[0, 1, 1, 1, 1, 1], 0, &[3, 3, 3, 3, 5, 3], &[0, 1, 0, 1, 2, 1]),
        PassCase(&P, &[0, 2, 1, 1, 1, 1], 0, &[4, 4, 0, 0, 0, 0], &[0, 2, 0, 0, 0, 0]),
        PassCase(&draft, &[2, 0, 1, 1], 0, &[3, 5, 3, 3], &[0, 0, 2, 1]),
        PassCase(&P, &[0, 1, 0, 1, 1, 1], 14, &[9; 6], &[8; 6]),
        PassCase(&P, &[0, 0, 1, 1, 1, 1], 13, &[9; 6], &[8; 6]),
    ];
    for PassCase(plan, answers, number, marks, classes) in cases {
        let (mut left_marks, mut left_classes) = (vec![9; marks.len()], vec![8; marks.len()]);
        let result = trial.subject.pass_record(plan, &COMMON, answers, &mut left_marks, &mut left_classes);
        let right = result == number && left_marks == marks && left_classes == classes;
        trial.tally.compare(right, || {
            let (marks, classes) = (hex(&left_marks), hex(&left_classes));
            format!("record of the pass of {}: {result:08x} marks {marks} classes {classes}", hex(plan))
        });
    }
}

/// The sample of document 01.
fn sample_text<S: Implementation, R: Implementation>(trial: &mut Trial<S, R>) {
    let text = b"02ff\n0100\n--\n0100ff\n0101ff\n010001\n0101ff\n0301ff\n030100\n0300ff\n";
    let lines = b"00\n0b\n00\n00\n00\n00\n00\n00020300\n01010301\n";
    let mut out = vec![0xee; LONG_OUT];
    let result = trial.subject.rehearse(text, &mut out);
    let right = result == (lines.len() as u32) << 16 && out.starts_with(lines) && out[lines.len()] == 0xee;
    trial.tally.compare(right, || {
        format!("the sample text: {result:08x} {:?}", String::from_utf8_lossy(&out[..lines.len()]))
    });
}

/// Why messages must be true: a site believes what it hears. The second task
/// of a serial is told that the first committed, which has not even started;
/// its start passes at its row, although the central rule forbids it. The
/// simulation refuses the message, and then the start.
fn lie<S: Implementation, R: Implementation>(trial: &mut Trial<S, R>) {
    let plan = [SERIAL, 0xff, TASK, 0, TASK, 0];
    let subject = &mut trial.subject;
    let mut root = [0; 3];
    let mut last = [0; 3];
    let begun = subject.step(&plan, START, 0, &mut root);
    let honest = subject.step(&plan, START, 2, &mut last);
    let told = subject.hear(&plan, COMMIT, 1, &mut last);
    let after_lie = subject.step(&plan, START, 2, &mut last);
    let (mut marks, mut notes) = ([1, 0, 0], [0; 3]);
    let central = subject.central(&plan, START, 2, &mut marks, &mut notes);
    let mut state = [0; 9];
    let simulated = [(START, 0, HAPPENS), (COMMIT, 1, 2), (START, 2, HAPPENS)]
        .map(|(code, node, site)| subject.simulate(&plan, code, node, site, &mut state));
    let at_sites = [begun, honest, told, after_lie] == [1 << 16, 11 | 2 << 8, 0, 2 << 8 | 0x21 << 16];
    let rows = root == [1, 0, 0] && last == [0, bit(COMMIT), bit(START)];
    let forbidden = central == 0 && (marks, notes) == ([1, 0, 0], [0; 3]);
    let in_simulation = simulated == [1 << 16, 12, 11 | 2 << 8] && state == [1, 0, 0, 0, 0, 0, 0, 0, 0];
    trial.tally.compare(at_sites && rows && forbidden && in_simulation, || {
        format!(
            "a lie: at the sites {at_sites}, rows {rows}, forbidden {forbidden}, simulation {in_simulation}"
        )
    });
}

/// A move: the step that is kept, or none for a take-back; the result, and
/// the state and the entries' count after it.
struct MoveCase(Option<[u32; 3]>, u32, [u8; 4], usize);

/// Someone clicks too soon: a message and its repeat are kept, a step finds no
/// place, the repeat is taken back and its place used again, and then all is
/// taken back. The entries stay.
fn moves<S: Implementation, R: Implementation>(trial: &mut Trial<S, R>) {
    let plan = [SERIAL, 0xff, TASK, 0];
    let cases = [
        MoveCase(None, 16, [0; 4], 0),
        MoveCase(Some([START, 0, HAPPENS]), 0x01 << 16, [1, 0, 0, 0], 1),
        MoveCase(Some([START, 0, 1]), 0, [1, 0, 1, 0], 2),
        MoveCase(Some([START, 0, 1]), 0, [1, 0, 1, 0], 3),
        MoveCase(Some([START, 1, HAPPENS]), 7, [1, 0, 1, 0], 3),
        MoveCase(Some([0, 1, HAPPENS]), 7, [1, 0, 1, 0], 3),
        MoveCase(None, 0, [1, 0, 1, 0], 2),
        MoveCase(Some([START, 0, HAPPENS]), 10, [1, 0, 1, 0], 2),
        MoveCase(Some([START, 1, HAPPENS]), 1 << 8 | 0x21 << 16, [1, 0, 1, 1], 3),
        MoveCase(None, 0, [1, 0, 1, 0], 2),
        MoveCase(None, 0, [1, 0, 0, 0], 1),
        MoveCase(None, 0, [0; 4], 0),
        MoveCase(None, 16, [0; 4], 0),
        MoveCase(Some([START, 1, HAPPENS]), 11 | 1 << 8, [0; 4], 0),
    ];
    let (mut state, mut entries, mut count) = ([0; 4], [[9; 4]; 3], 0);
    for MoveCase(step, expected, left, counted) in cases {
        let result = match step {
            Some([code, node, site]) => {
                let step = Step { code, node, site };
                trial.subject.keep(&plan, step, &mut state, &mut entries, &mut count)
            }
            None => trial.subject.undo(&plan, &mut state, &mut entries, &mut count),
        };
        let right = (result, state, count) == (expected, left, counted);
        trial.tally.compare(right, || format!("{step:?}: {result:08x}, state {}, {count}", hex(&state)));
    }
    let right = entries == [[1, 0, 0xff, 1], [1, 0, 1, 1], [1, 1, 0xff, 1]];
    trial.tally.compare(right, || format!("the entries of all moves: {entries:02x?}"));
}

/// A take-back: what is the last entry, the result, and what is left of the
/// rows of an xor with two children, all of which were full.
struct UndoCase([u8; 4], u32, [u8; 9]);

/// Entries that no simulation kept.
fn take_backs<S: Implementation, R: Implementation>(trial: &mut Trial<S, R>) {
    let plan = [XOR, 0xff, TASK, 0, TASK, 0];
    let without = |place: usize, code| {
        let mut state = [0xff; 9];
        state[place] = !bit(code);
        state
    };
    let cases = [
        UndoCase([1, 1, 0xff, 2], 0, without(4, START)),
        UndoCase([7, 1, 0xff, 1], 0, without(1, PICK)),
        UndoCase([7, 1, 1, 1], 0, without(4, PICK)),
        UndoCase([3, 0, 2, 0xff], 0, without(6, COMMIT)),
        UndoCase([3, 0, 2, 0], 0, [0xff; 9]),
        UndoCase([5, 1, 0xff, 1], 9, [0xff; 9]),
        UndoCase([5, 1, 3, 0], 8, [0xff; 9]),
        UndoCase([9, 1, 0xff, 0], 8, [0xff; 9]),
        UndoCase([1, 3, 0xff, 1], 8, [0xff; 9]),
    ];
    for UndoCase(entry, expected, left) in cases {
        let (mut state, mut entries, mut count) = ([0xff; 9], [[8; 4], entry, [8; 4]], 2);
        let result = trial.subject.undo(&plan, &mut state, &mut entries, &mut count);
        let counted = if expected == 0 { 1 } else { 2 };
        let right = (result, state, count) == (expected, left, counted) && entries == [[8; 4], entry, [8; 4]];
        trial.tally.compare(right, || {
            format!("take-back of {entry:02x?}: {result:08x}, state {}, {count}", hex(&state))
        });
    }
}
