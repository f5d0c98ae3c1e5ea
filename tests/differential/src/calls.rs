//! Single calls on anything: damaged plans, wrong lengths, strange numbers,
//! and rows, states, marks and notes that no simulation leads to.

use crate::codes::*;
use crate::driver::{STRANGE, Step, Tree};
use crate::form::{Form, HIGHEST_DESK};
use crate::implementation::{Change, Entry, Implementation, Wanted};
use crate::plans;
use crate::random::Random;
use crate::tables;
use crate::trial::Trial;

mod desks;
mod forms;
mod impact;
mod load;
mod points;
mod repeat;
mod small;
mod way;

pub use desks::{damaged_plans_with_desks, lengths_with_desks, own_desks};
pub use forms::{every_form, forms};
pub use impact::{every_small_plan, impacts};
pub use load::workloads;
pub use points::points;
pub use repeat::{every_template, repeats};
pub use small::{next_plans, whole_walk};
pub use way::{every_target, ways};

/// More than the longest guard.
const LONG_BUFFER: usize = 300;

/// Plans that are mostly refused, given to every function.
pub fn damaged_plans<S: Implementation, R: Implementation>(trial: &mut Trial<S, R>, random: &mut Random) {
    for _ in 0..20 {
        let plan = plans::damaged(random);
        trial.check(&plan);
        let out_length = length(random, plan.len());
        trial.rewrite(&plan, &random.bytes(out_length));
        trial.renumber(&plan, &random.bytes(out_length));
        trial.to_depths(&plan, &random.bytes(out_length));
        trial.from_depths(&plan, &random.bytes(out_length));
        let nodes = plan.len() / 2;
        let (code, node) = event(random, nodes);
        trial.repeat(&plan, node, code, &random.bytes(320));
        trial.next_plan(&plan, &random.bytes(10));
        trial.workload(&plan, node, code, &random.bytes(3 * code.min(9) as usize));
        let site = if random.chance(50) { HAPPENS } else { any_node(random, nodes) };
        let (one, two) = (length(random, nodes), length(random, nodes));
        let (one, two) = (random.bytes(one), random.bytes(two));
        let state = state_bytes(random, Form::Plain, &plan);
        trial.check_depths(&plan, &one);
        trial.guard(&plan, code, node, &one);
        trial.rule(&plan, code, node);
        trial.step(&plan, code, node, &one);
        trial.hear(&plan, code, node, &one);
        trial.pass(&plan, &one, &two);
        trial.impact(&plan, &one, &two, Change { task: node, answer: code });
        trial.way(&plan, Wanted { node, mark: code, end: site }, &one);
        trial.way(&plan, Wanted { node: 0, mark: 3, end: 3 }, &one);
        trial.simulate(&plan, code, node, site, &state);
        let (entries, count) =
            any_entries(random, |random| event(random, nodes), |random| any_node(random, nodes));
        trial.keep(&plan, Step { code, node, site }, &state, &entries, count);
        trial.undo(&plan, &state, &entries, count);
        trial.record(&plan, &state, &one, &two);
        trial.record_by(&plan, &tables::any(random), &state, &one, &two);
        let three = length(random, nodes);
        trial.pass_record(&plan, &tables::any(random), &one, &two, &random.bytes(three));
        trial.central(&plan, code, node, &one, &two);
    }
}

/// Plans with and-blocks of both kinds rewritten, into bytes of any length,
/// and the guards and passes of what comes out.
pub fn rewrites<S: Implementation, R: Implementation>(
    trial: &mut Trial<S, R>,
    random: &mut Random,
    plan: &[u8],
) {
    let mut plan = plan.to_vec();
    for kind in plan.iter_mut().step_by(2).filter(|kind| !matches!(**kind, TASK | CONDITIONAL)) {
        *kind = if random.chance(60) { random.one_of(&[AND, AND, WAITING_AND]) } else { *kind };
    }
    for _ in 0..8 {
        let out_length = length(random, plan.len());
        trial.rewrite(&plan, &random.bytes(out_length));
    }
    let out = random.bytes(plan.len());
    let (_, rewritten) = trial.rewrite(&plan, &out);
    let rewritten = rewritten.to_vec();
    if trial.check(&rewritten) == 0 {
        guards(trial, random, &rewritten);
        passes(trial, random, &rewritten);
    }
}

/// Guards of any event, into buffers of any length around the right one.
pub fn guards<S: Implementation, R: Implementation>(
    trial: &mut Trial<S, R>,
    random: &mut Random,
    plan: &[u8],
) {
    let tree = Tree::new(plan);
    trial.check(plan);
    trial.check_depths(plan, &random.bytes(plan.len() / 2));
    for _ in 0..60 {
        let (code, node) = apt_event(random, &tree);
        trial.rule(plan, code, node);
        let long = random.bytes(LONG_BUFFER);
        let exact = value(trial.guard(plan, code, node, &long)) as usize;
        let other = random.below(exact + 5);
        for length in [exact, exact.saturating_sub(1), 0, other] {
            trial.guard(plan, code, node, &long[..length]);
        }
    }
}

/// A site's step and hear on any row.
pub fn rows<S: Implementation, R: Implementation>(trial: &mut Trial<S, R>, random: &mut Random, plan: &[u8]) {
    let plain = trial.form.plain(plan);
    let nodes = plain.len() / 2;
    let tree = Tree::new(&plain);
    for _ in 0..100 {
        let (code, node) = apt_event(random, &tree);
        let mut row = heard(random, nodes);
        if random.chance(60) {
            favour(random, &tree, &mut row, code, node);
        }
        trial.step(plan, code, node, &row);
        if random.chance(25) {
            trial.hear(&plain, code, node, &row);
        }
    }
}

/// The only child of an xor under every row that there is: no row lets its
/// turn-down pass. Its offer is the control: it passes wherever the child has
/// started and neither offered nor failed, which is in an eighth of the rows.
pub fn only_child<S: Implementation, R: Implementation>(trial: &mut Trial<S, R>) {
    let plan = [XOR, 0xff, TASK, 0];
    let mut passed = [0; 2];
    for row in 0..=u16::MAX {
        for (count, code) in passed.iter_mut().zip([TURNED_DOWN, OFFER]) {
            *count += u32::from(number(trial.step(&plan, code, 1, &row.to_le_bytes())) == 0);
        }
    }
    trial.tally.compare(passed == [0, 0x1_0000 / 8], || {
        format!("an only child is turned down in {} rows and offers in {}", passed[0], passed[1])
    });
}

/// Passes with answers that fit, nearly fit or don't fit at all, and their
/// records by any table.
pub fn passes<S: Implementation, R: Implementation>(
    trial: &mut Trial<S, R>,
    random: &mut Random,
    plan: &[u8],
) {
    let nodes = plan.len() / 2;
    let tree = Tree::new(plan);
    for _ in 0..20 {
        let mut answers = fitting_answers(random, &tree);
        pass(trial, random, plan, &answers);
        for _ in 0..random.between(1, 3) {
            let node = random.below(nodes);
            answers[node] = random.one_of(&[0, 1, 2, 3, 4, 33, 255]);
            pass(trial, random, plan, &answers);
        }
        let wild: Vec<u8> = (0..nodes).map(|_| random.one_of(&[0, 1, 1, 2, 2, 3, 9])).collect();
        pass(trial, random, plan, &wild);
    }
}

/// A pass and its record.
fn pass<S: Implementation, R: Implementation>(
    trial: &mut Trial<S, R>,
    random: &mut Random,
    plan: &[u8],
    answers: &[u8],
) {
    let (marks, classes) = (random.bytes(answers.len()), random.bytes(answers.len()));
    trial.pass(plan, answers, &marks);
    trial.pass_record(plan, &tables::any(random), answers, &marks, &classes);
}

/// The central rule on any marks and notes.
pub fn views<S: Implementation, R: Implementation>(
    trial: &mut Trial<S, R>,
    random: &mut Random,
    plan: &[u8],
) {
    let nodes = plan.len() / 2;
    let tree = Tree::new(plan);
    for _ in 0..60 {
        let (code, node) = apt_event(random, &tree);
        let mut marks = some_marks(random, nodes);
        let notes = some_notes(random, nodes);
        if let Some(mark) = marks.get_mut(node as usize)
            && random.chance(50)
        {
            *mark = random.one_of(&[0, 1, 1, 2]);
        }
        trial.central(plan, code, node, &marks, &notes);
    }
}

/// A simulation's step, and the record, on any state.
pub fn states<S: Implementation, R: Implementation>(
    trial: &mut Trial<S, R>,
    random: &mut Random,
    plan: &[u8],
) {
    let form = trial.form;
    let nodes = form.nodes(plan);
    let tree = Tree::new(&form.plain(plan));
    for _ in 0..20 {
        let state = heard(random, form.state_length(plan));
        for _ in 0..4 {
            let (code, node) = apt_event(random, &tree);
            let site = if random.chance(50) { HAPPENS } else { any_seat(random, form, plan) };
            trial.simulate(plan, code, node, site, &state);
        }
        let (marks, classes) = (random.bytes(nodes), random.bytes(nodes));
        trial.record(plan, &state, &marks, &classes);
        for _ in 0..3 {
            let table = tables::any(random);
            trial.check_table(&table);
            trial.record_by(plan, &table, &state, &marks, &classes);
        }
    }
}

/// Kept steps and take-backs on any state, over any entries, with any count.
pub fn journals<S: Implementation, R: Implementation>(
    trial: &mut Trial<S, R>,
    random: &mut Random,
    plan: &[u8],
) {
    let form = trial.form;
    let tree = Tree::new(&form.plain(plan));
    for _ in 0..20 {
        let state = heard(random, form.state_length(plan));
        for _ in 0..3 {
            let (entries, count) =
                any_entries(random, |random| apt_event(random, &tree), |random| any_seat(random, form, plan));
            let (code, node) = apt_event(random, &tree);
            let site = if random.chance(50) { HAPPENS } else { any_seat(random, form, plan) };
            trial.keep(plan, Step { code, node, site }, &state, &entries, count);
            trial.undo(plan, &state, &entries, count);
        }
    }
}

/// Every buffer with a wrong length, alone and together with strange numbers.
pub fn lengths<S: Implementation, R: Implementation>(
    trial: &mut Trial<S, R>,
    random: &mut Random,
    plan: &[u8],
) {
    let nodes = plan.len() / 2;
    for _ in 0..20 {
        let (code, node) = event(random, nodes);
        let site = if random.chance(50) { HAPPENS } else { any_node(random, nodes) };
        let (one, two) = (length(random, nodes), length(random, nodes));
        let (one, two) = (random.bytes(one), random.bytes(two));
        let state = state_bytes(random, Form::Plain, plan);
        trial.check_depths(plan, &one);
        trial.step(plan, code, node, &one);
        trial.hear(plan, code, node, &one);
        trial.pass(plan, &one, &two);
        trial.impact(plan, &one, &two, Change { task: node, answer: code });
        trial.way(plan, Wanted { node, mark: code, end: site }, &one);
        trial.way(plan, Wanted { node, mark: 3, end: 3 }, &one);
        trial.simulate(plan, code, node, site, &state);
        let (entries, count) =
            any_entries(random, |random| event(random, nodes), |random| any_node(random, nodes));
        trial.keep(plan, Step { code, node, site }, &state, &entries, count);
        trial.undo(plan, &state, &entries, count);
        trial.record(plan, &state, &one, &two);
        trial.record_by(plan, &tables::any(random), &state, &one, &two);
        let three = length(random, nodes);
        trial.pass_record(plan, &tables::any(random), &one, &two, &random.bytes(three));
        trial.central(plan, code, node, &one, &two);
    }
}

/// An event that mostly applies.
fn apt_event(random: &mut Random, tree: &Tree) -> (u32, u32) {
    let nodes = tree.children.len();
    if random.chance(25) {
        return event(random, nodes);
    }
    let node = random.below(nodes);
    let codes: Vec<u32> = (1..=8).filter(|&code| tree.applies(code, node)).collect();
    (random.one_of(&codes), node as u32)
}

/// A code and a node, mostly ones that exist.
fn event(random: &mut Random, nodes: usize) -> (u32, u32) {
    let code = if random.chance(92) { random.between(1, 8) as u32 } else { random.one_of(&STRANGE) };
    (code, any_node(random, nodes))
}

/// A node or site, mostly one that exists.
fn any_node(random: &mut Random, nodes: usize) -> u32 {
    if nodes > 0 && random.chance(92) {
        return random.below(nodes) as u32;
    }
    let nodes = nodes as u32;
    match random.below(4) {
        0 => nodes,
        1 => nodes + 1,
        2 => 256 + random.below(8) as u32,
        _ => random.one_of(&STRANGE),
    }
}

/// A site or desk, mostly one that exists.
fn any_seat(random: &mut Random, form: Form, plan: &[u8]) -> u32 {
    let nodes = form.nodes(plan);
    if form == Form::Plain {
        return any_node(random, nodes);
    }
    let used = if nodes == 0 { 0 } else { form.seat(plan, random.below(nodes)) };
    if random.chance(90) {
        return used;
    }
    match random.below(8) {
        0 => random.below(usize::from(HIGHEST_DESK) + 1) as u32,
        1 => random.below(nodes + 1) as u32,
        2 => random.between(usize::from(HIGHEST_DESK) + 1, 0xfe) as u32,
        3 => (used + 1) & 0xff,
        4 => used | 0x100,
        5 => used | 1 << 31,
        _ => random.one_of(&STRANGE),
    }
}

/// A few entries of these events and sites, or of anything, and any count.
fn any_entries(
    random: &mut Random,
    mut event: impl FnMut(&mut Random) -> (u32, u32),
    mut seat: impl FnMut(&mut Random) -> u32,
) -> (Vec<Entry>, usize) {
    let length = random.one_of(&[0, 1, 2, 3, 9]);
    let mut entry = |random: &mut Random| {
        let (code, node) = event(random);
        let site = if random.chance(50) { HAPPENS } else { seat(random) };
        let changed = random.one_of(&[0, 0, 1, 1, 1, 2, 0x80, 0xff]);
        [code as u8, node as u8, site as u8, changed]
    };
    let entries = (0..length)
        .map(|_| if random.chance(95) { entry(random) } else { [(); 4].map(|()| random.byte()) })
        .collect();
    (entries, any_count(random, length))
}

/// A count for so many entries; often one that leaves a place.
fn any_count(random: &mut Random, entries: usize) -> usize {
    match random.below(10) {
        0 => 0,
        1 | 2 => entries,
        3 => entries + 1,
        4 => {
            random.one_of(&[entries + 256, entries | 1 << 32, entries | 1 << 62, usize::MAX - 1, usize::MAX])
        }
        5..=7 => entries.saturating_sub(1),
        _ => random.below(entries + 1),
    }
}

/// A length for a buffer of so many bytes; often the right one.
fn length(random: &mut Random, right: usize) -> usize {
    match random.below(8) {
        0 => 0,
        1 => right.saturating_sub(1),
        2 => right + 1,
        3 => 2 * right,
        4 => random.below(right + 300),
        _ => right,
    }
}

/// Bytes for a state; often of the right length.
fn state_bytes(random: &mut Random, form: Form, plan: &[u8]) -> Vec<u8> {
    let nodes = form.nodes(plan);
    let right = form.rows(plan).min(200) * nodes.min(200);
    let length = match random.below(8) {
        0 => 0,
        1 => nodes,
        2 => right.saturating_sub(1),
        3 => right + 1,
        4 => right + nodes,
        _ => right,
    };
    heard(random, length)
}

/// Row bytes of one of several densities.
fn heard(random: &mut Random, length: usize) -> Vec<u8> {
    let density = random.one_of(&[0, 10, 50, 90, 100]);
    let mut byte = || match density {
        0 => 0,
        10 => random.byte() & random.byte() & random.byte(),
        50 => random.byte(),
        90 => random.byte() | random.byte() | random.byte(),
        _ => 0xff,
    };
    (0..length).map(|_| byte()).collect()
}

/// Changes a row so that the event may pass, or just not: those around have
/// mostly ended, and little bars it.
fn favour(random: &mut Random, tree: &Tree, row: &mut [u8], code: u32, node: u32) {
    let node = node as usize;
    if node >= row.len() {
        return;
    }
    let end = random.one_of(&[bit(COMMIT), bit(ABORT), bit(COMMIT) | bit(ABORT), bit(OFFER)]);
    for (other, byte) in row.iter_mut().enumerate().filter(|&(other, _)| tree.is_near(node, other)) {
        *byte |= bit(START) | if random.chance(95) { end } else { 0 };
        if code == PICK && other != node && random.chance(95) {
            *byte &= !bit(PICK);
        }
    }
    row[node] = match code {
        START => 0,
        PICK | TURNED_DOWN => bit(START) | bit(OFFER),
        COMMIT => bit(START) | bit(PICK),
        _ => bit(START),
    };
    if random.chance(20) {
        row[node] ^= bit(random.between(1, 8) as u32);
    }
}

/// Answers with which the pass is accepted; anything where it doesn't look.
fn fitting_answers(random: &mut Random, tree: &Tree) -> Vec<u8> {
    let nodes = tree.children.len();
    let mut answers = random.bytes(nodes);
    let failing = random.one_of(&[0, 5, 20, 50]);
    settle(random, tree, failing, &mut answers, 0);
    answers
}

/// Settles a node with answers as it likes; answers whether it works.
fn settle(random: &mut Random, tree: &Tree, failing: usize, answers: &mut [u8], node: usize) -> bool {
    let children = &tree.children[node];
    let mut each = |child: usize, random: &mut Random| settle(random, tree, failing, answers, child);
    match tree.kind(node) {
        TASK => {
            let works = !random.chance(failing);
            answers[node] = if works { 1 } else { 2 };
            works
        }
        SERIAL => children.iter().all(|&child| each(child, random)),
        CONTINGENCY => children.iter().any(|&child| each(child, random)),
        CONDITIONAL => {
            let place = random.below(2);
            let works = each(children[place], random);
            answers[node] = place as u8 + 1;
            works
        }
        kind => {
            let works: Vec<bool> = children.iter().map(|&child| each(child, random)).collect();
            let offers: Vec<usize> = (0..works.len()).filter(|&place| works[place]).collect();
            if kind == XOR {
                answers[node] = if offers.is_empty() { 0 } else { random.one_of(&offers) as u8 + 1 };
            }
            if matches!(kind, AND | WAITING_AND) { offers.len() == works.len() } else { !offers.is_empty() }
        }
    }
}

/// Marks of one of several styles; bytes above 5 are marks too.
fn some_marks(random: &mut Random, nodes: usize) -> Vec<u8> {
    let from: &[u8] = random.one_of(&[
        &[0, 1, 2, 3, 4, 5][..],
        &[1, 3],
        &[1, 4],
        &[3, 3, 3, 4],
        &[4, 4, 4, 3],
        &[3, 4, 5],
        &[1, 2, 2],
        &[0, 1, 2, 3, 4, 5, 6, 7, 8, 100, 127, 128, 255],
    ]);
    (0..nodes).map(|_| random.one_of(from)).collect()
}

/// Notes of one of several styles; bits of other codes mean nothing.
fn some_notes(random: &mut Random, nodes: usize) -> Vec<u8> {
    let (yes, no, pick) = (bit(YES), bit(NO), bit(PICK));
    let from: &[u8] = match random.below(5) {
        0 => &[0],
        1 => &[0, 0, 0, 0, 0, pick],
        2 => &[yes, no, yes | no, 0],
        3 => &[yes | pick, no | pick, 0, pick, yes, no],
        _ => return random.bytes(nodes),
    };
    (0..nodes).map(|_| random.one_of(from)).collect()
}
