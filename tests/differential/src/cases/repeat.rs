//! Templates that are repeated: cases with one right answer each.

use super::{LEFT, front_is};
use crate::codes::*;
use crate::implementation::Implementation;
use crate::trial::{Trial, hex};

/// The bytes that must be lent.
const MOST_BYTES: usize = 320;

/// A template, its marked node, a count, and the repeated plan.
struct Case<'a>(&'a [u8], u32, u32, &'a [u8]);

/// Runs all of them.
pub fn run<S: Implementation, R: Implementation>(trial: &mut Trial<S, R>) {
    small_templates(trial);
    other_numberings(trial);
    limits(trial);
    refused_plans(trial);
    refused_marks(trial);
    refused_counts(trial);
    too_many_nodes(trial);
}

/// A call into so many bytes: what must stand at their front, or the number; all
/// others are left.
fn try_call<S: Implementation, R: Implementation>(
    trial: &mut Trial<S, R>,
    (plan, node, count): (&[u8], u32, u32),
    length: usize,
    expected: Result<&[u8], u32>,
) {
    let mut out = vec![LEFT; length];
    let result = trial.subject.repeat(plan, node, count, &mut out);
    trial.tally.compare(front_is(result, &out, expected), || {
        let (plan, out) = (hex(plan), hex(&out));
        format!("node {node} of {plan} {count} times into {length} bytes: {result:08x} {out}")
    });
}

fn try_all<S: Implementation, R: Implementation>(trial: &mut Trial<S, R>, cases: &[Case]) {
    for &Case(plan, node, count, repeated) in cases {
        try_call(trial, (plan, node, count), MOST_BYTES, Ok(repeated));
    }
}

/// Templates in the fixed numbering: every kind, a task and a subtree repeated, with
/// nothing, a task or a subtree behind.
fn small_templates<S: Implementation, R: Implementation>(trial: &mut Trial<S, R>) {
    for kind in [AND, OR, XOR, WAITING_AND] {
        let once = [kind, 0xff, TASK, 0];
        try_all(
            trial,
            &[
                Case(&once, 0, 1, &once),
                Case(&once, 0, 2, &[kind, 0xff, TASK, 0, TASK, 0]),
                Case(&once, 0, 5, &[kind, 0xff, TASK, 0, TASK, 0, TASK, 0, TASK, 0, TASK, 0]),
            ],
        );
    }
    // a channel of three nodes between two tasks
    let channel = [SERIAL, 0xff, TASK, 0, AND, 0, SERIAL, 2, TASK, 3, TASK, 3, TASK, 0];
    let two_channels = [&channel[..12], &[SERIAL, 2, TASK, 6, TASK, 6], &[TASK, 0]].concat();
    let three_channels =
        [&channel[..12], &[SERIAL, 2, TASK, 6, TASK, 6, SERIAL, 2, TASK, 9, TASK, 9], &[TASK, 0]].concat();
    // what stands behind moves with its own parents
    let behind = [SERIAL, 0xff, XOR, 0, TASK, 1, OR, 0, AND, 3, TASK, 4, TASK, 3];
    let behind_three =
        [&[SERIAL, 0xff, XOR, 0, TASK, 1, TASK, 1, TASK, 1][..], &[OR, 0, AND, 5, TASK, 6, TASK, 5]].concat();
    // a block in another one, each with one child: either can be marked
    let nested = [AND, 0xff, OR, 0, WAITING_AND, 1, TASK, 2];
    let outer = [&nested[..], &[OR, 0, WAITING_AND, 4, TASK, 5]].concat();
    let middle = [&nested[..], &[WAITING_AND, 1, TASK, 4]].concat();
    let inner = [&nested[..], &[TASK, 2]].concat();
    // a conditional is repeated with both branches, and below one of them
    let branches = [OR, 0xff, CONDITIONAL, 0, TASK, 1, CONTINGENCY, 1, XOR, 3, TASK, 4];
    let both = [&branches[..], &[CONDITIONAL, 0, TASK, 6, CONTINGENCY, 6, XOR, 8, TASK, 9]].concat();
    let below = [&branches[..], &[TASK, 4]].concat();
    try_all(
        trial,
        &[
            Case(&channel, 2, 1, &channel),
            Case(&channel, 2, 2, &two_channels),
            Case(&channel, 2, 3, &three_channels),
            Case(&behind, 1, 3, &behind_three),
            Case(&nested, 0, 2, &outer),
            Case(&nested, 1, 2, &middle),
            Case(&nested, 2, 2, &inner),
            Case(&branches, 0, 2, &both),
            Case(&branches, 4, 2, &below),
        ],
    );
}

/// Templates in other numberings: the mark is by the number that is handed in.
fn other_numberings<S: Implementation, R: Implementation>(trial: &mut Trial<S, R>) {
    // the task of the second block stands before that of the first
    let crossed = [SERIAL, 0xff, AND, 0, OR, 0, TASK, 2, TASK, 1];
    // level by level; the marked block is node 2 here, and node 4 once renumbered
    let by_level = [SERIAL, 0xff, AND, 0, OR, 0, TASK, 1, TASK, 1, CONTINGENCY, 2, TASK, 5, TASK, 5];
    let channels = [
        &[SERIAL, 0xff, AND, 0, TASK, 1, TASK, 1, OR, 0][..],
        &[CONTINGENCY, 4, TASK, 5, TASK, 5, CONTINGENCY, 4, TASK, 8, TASK, 8],
    ]
    .concat();
    // node 4 becomes node 2: what has number 4 then could be marked as well
    let exchanged = [SERIAL, 0xff, SERIAL, 0, OR, 0, TASK, 2, AND, 1, TASK, 4];
    try_all(
        trial,
        &[
            Case(&crossed, 1, 1, &[SERIAL, 0xff, AND, 0, TASK, 1, OR, 0, TASK, 3]),
            Case(&crossed, 1, 2, &[SERIAL, 0xff, AND, 0, TASK, 1, TASK, 1, OR, 0, TASK, 4]),
            Case(&crossed, 2, 2, &[SERIAL, 0xff, AND, 0, TASK, 1, OR, 0, TASK, 3, TASK, 3]),
            Case(&by_level, 2, 2, &channels),
            Case(&exchanged, 4, 2, &[SERIAL, 0xff, SERIAL, 0, AND, 1, TASK, 2, TASK, 2, OR, 0, TASK, 5]),
            Case(&exchanged, 2, 2, &[SERIAL, 0xff, SERIAL, 0, AND, 1, TASK, 2, OR, 0, TASK, 4, TASK, 4]),
        ],
    );
}

/// As many children, as many nodes and as deep as may be.
fn limits<S: Implementation, R: Implementation>(trial: &mut Trial<S, R>) {
    let star = [vec![XOR, 0xff], [TASK, 0].repeat(32)].concat();
    let beside = [&[SERIAL, 0xff, OR, 0, TASK, 1][..], &[TASK, 0].repeat(6)].concat();
    let beside_star = [vec![SERIAL, 0xff, OR, 0], [TASK, 1].repeat(32), [TASK, 0].repeat(6)].concat();
    // 31 channels of five nodes, and five nodes around them
    let channel = |root: u8| [SERIAL, 2, TASK, root, TASK, root, TASK, root, TASK, root];
    let around = [SERIAL, 0xff, TASK, 0, WAITING_AND, 0];
    let template = [&around[..], &channel(3), &[TASK, 0, TASK, 0]].concat();
    let channels: Vec<u8> = (0..31).flat_map(|copy| channel(3 + 5 * copy)).collect();
    let full = [&around[..], &channels, &[TASK, 0, TASK, 0]].concat();
    // a chain of serials, at its end a block at depth 31 with a task at depth 32
    let mut chain = vec![SERIAL, 0xff];
    (0..29).for_each(|above| chain.extend([SERIAL, above]));
    chain.extend([AND, 29, TASK, 30]);
    let deep = [&chain[..], &[TASK, 30].repeat(31)].concat();
    // a chain of 31 nodes below the marked root, down to depth 32
    let mut chain_below = vec![AND, 0xff, SERIAL, 0];
    (1..30).for_each(|above| chain_below.extend([SERIAL, above]));
    chain_below.extend([TASK, 30]);
    let chains: Vec<u8> = (0..5)
        .flat_map(|copy| {
            let first = 1 + 31 * copy;
            let parent = move |place: u8| if place == 0 { 0 } else { first + place - 1 };
            (0..31).flat_map(move |place| [if place == 30 { TASK } else { SERIAL }, parent(place)])
        })
        .collect();
    let five_chains = [&[AND, 0xff][..], &chains].concat();
    try_all(
        trial,
        &[
            Case(&[XOR, 0xff, TASK, 0], 0, 32, &star),
            Case(&beside, 1, 32, &beside_star),
            Case(&template, 2, 31, &full),
            Case(&chain, 30, 32, &deep),
            Case(&chain_below, 0, 5, &five_chains),
        ],
    );
    // a plan that is full already stands once
    let whole = [&[OR, 0xff][..], &full[..]].concat();
    let moved = |(place, &byte): (usize, &u8)| match (place, byte) {
        (3, _) => 0,
        (4.., parent) if place % 2 == 1 => parent + 1,
        _ => byte,
    };
    let whole: Vec<u8> = whole.iter().enumerate().map(moved).take(MOST_BYTES).collect();
    try_call(trial, (&whole, 0, 1), MOST_BYTES, Ok(&whole));
    try_call(trial, (&whole, 0, 2), MOST_BYTES, Err(25));
    try_call(trial, (&template, 2, 32), MOST_BYTES, Err(25));
}

/// 1 to 6 before all others, then 7.
fn refused_plans<S: Implementation, R: Implementation>(trial: &mut Trial<S, R>) {
    let mut deep = vec![AND, 0xff];
    (0..32).for_each(|above| deep.extend([AND, above]));
    deep.extend([TASK, 32]);
    let plans: [(&[u8], u32); 8] = [
        (&[], 1),
        (&[AND, 0xff, TASK], 1),
        (&[vec![AND, 0xff, SERIAL, 0], [TASK, 1].repeat(159)].concat(), 1),
        (&[AND, 0xff, 9, 0], 2),
        (&[AND, 0xff, TASK, 1], 3),
        (&[AND, 0xff, TASK, 0, TASK, 1], 4),
        (&[AND, 0xff, SERIAL, 0], 5),
        (&deep, 6),
    ];
    for (plan, number) in plans {
        for length in [MOST_BYTES, 0, 319, 321] {
            try_call(trial, (plan, 0, 2), length, Err(number));
            try_call(trial, (plan, 400, 0), length, Err(number));
        }
    }
    let plan = [SERIAL, 0xff, AND, 0, TASK, 1];
    // the template's own length, the repeated plan's, and one off on both sides
    for length in [0, 1, 6, 8, 160, 318, 319, 321, 322, 640] {
        try_call(trial, (&plan, 1, 2), length, Err(7));
        try_call(trial, (&plan, 3, 2), length, Err(7));
        try_call(trial, (&plan, 0, 2), length, Err(7));
        try_call(trial, (&plan, 1, 0), length, Err(7));
        try_call(trial, (&[&plan[..], &[TASK, 0].repeat(28)].concat(), 1, 33), length, Err(7));
    }
}

/// 8 before 23 to 25, and 23 before 24 and 25. The marked node is not cut.
fn refused_marks<S: Implementation, R: Implementation>(trial: &mut Trial<S, R>) {
    let plan = [SERIAL, 0xff, AND, 0, TASK, 1];
    for node in [3, 4, 159, 160, 255, 256, 257, 0x1_0001, 0x8000_0001, u32::MAX] {
        for count in [0, 1, 32, 33, 257] {
            try_call(trial, (&plan, node, count), MOST_BYTES, Err(8));
        }
    }
    // kinds that can't be marked, the last of them at a subtree of 50 nodes
    let serial = [SERIAL, 0xff, TASK, 0];
    let contingency = [AND, 0xff, CONTINGENCY, 0, TASK, 1];
    let conditional = [AND, 0xff, CONDITIONAL, 0, TASK, 1, TASK, 1];
    let large = [vec![SERIAL, 0xff, OR, 0, AND, 1], [TASK, 1].repeat(24), [TASK, 2].repeat(24)].concat();
    let marks: [(&[u8], u32); 6] =
        [(&serial, 0), (&serial, 1), (&contingency, 1), (&contingency, 2), (&conditional, 1), (&large, 0)];
    for (plan, node) in marks {
        for count in [0, 1, 2, 32, 33, 256] {
            try_call(trial, (plan, node, count), MOST_BYTES, Err(23));
        }
    }
    // blocks with two children, with 32, and with subtrees that would be too many
    for kind in [AND, OR, XOR, WAITING_AND] {
        let two = [SERIAL, 0xff, kind, 0, TASK, 1, TASK, 1];
        let most = [vec![kind, 0xff], [TASK, 0].repeat(32)].concat();
        for count in [0, 1, 2, 32, 33] {
            try_call(trial, (&two, 1, count), MOST_BYTES, Err(23));
            try_call(trial, (&most, 0, count), MOST_BYTES, Err(23));
        }
    }
    try_call(trial, (&large, 1, 4), MOST_BYTES, Err(23));
}

/// 24, before 25 too. The count is not cut.
fn refused_counts<S: Implementation, R: Implementation>(trial: &mut Trial<S, R>) {
    let small = [SERIAL, 0xff, AND, 0, TASK, 1];
    let large = [vec![SERIAL, 0xff, OR, 0, AND, 1], [TASK, 2].repeat(32)].concat();
    for count in [0, 33, 34, 40, 64, 255, 256, 257, 258, 0x1_0001, 0x1_0020, 0x8000_0001, u32::MAX] {
        try_call(trial, (&small, 1, count), MOST_BYTES, Err(24));
        try_call(trial, (&large, 1, count), MOST_BYTES, Err(24));
    }
}

/// 25: from one node too many on.
fn too_many_nodes<S: Implementation, R: Implementation>(trial: &mut Trial<S, R>) {
    // a channel of 33 nodes, two nodes around it and up to 26 tasks behind: 4 x 33 + 28
    let template = |tasks: usize| {
        [vec![SERIAL, 0xff, OR, 0, AND, 1], [TASK, 2].repeat(32), [TASK, 0].repeat(tasks)].concat()
    };
    let channel = |root: u8| [vec![AND, 1], [TASK, root].repeat(32)].concat();
    let four = [2, 35, 68, 101].map(channel).concat();
    let full = [vec![SERIAL, 0xff, OR, 0], four, [TASK, 0].repeat(26)].concat();
    try_call(trial, (&template(26), 1, 4), MOST_BYTES, Ok(&full));
    try_call(trial, (&template(27), 1, 4), MOST_BYTES, Err(25));
    for count in 5..=32 {
        try_call(trial, (&template(0), 1, count), MOST_BYTES, Err(25));
    }
    // 1 + 32 x 5 nodes
    let five = [AND, 0xff, SERIAL, 0, TASK, 1, TASK, 1, TASK, 1, TASK, 1];
    try_call(trial, (&five, 0, 32), MOST_BYTES, Err(25));
}
