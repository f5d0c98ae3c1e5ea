//! One block for each channel: a block of a template has one child, and gets the
//! child's subtree as many times as there are channels.

use crate::forms::Places;
use crate::plan::{Kind, MAX_CHILDREN, MAX_NODES, Node, Plan, require};
use crate::refusal::Refusal;

/// Writes the template with the subtree of the marked block's child so many times,
/// in the fixed numbering, and answers how many nodes there are then; the bytes
/// behind them stay. 1 to 6; 7 unless as many bytes are lent as the largest plan has;
/// 8 for the node, 23 if it can't be marked, 24 for the count, 25 for too many nodes.
pub fn repeat(plan: &[u8], node: u32, count: u32, out: &mut [u8]) -> Result<usize, Refusal> {
    let plan = Plan::check(plan)?;
    require(out.len() == 2 * MAX_NODES, Refusal::Length)?;
    let marked = node as usize;
    require(marked < plan.size(), Refusal::Unknown)?;
    require(can_be_marked(&plan, marked), Refusal::NotRepeatable)?;
    require((1..=u32::from(MAX_CHILDREN)).contains(&count), Refusal::Count)?;
    let count = count as usize;

    let places = Places::of(&plan);
    let mut template = [[0; 2]; MAX_NODES];
    places.write(&plan, &mut template);
    let template = &template[..plan.size()];
    let first = places.place(marked) + 1;
    let length = nodes_below(template, places.place(marked));
    let nodes = plan.size() + (count - 1) * length;
    require(nodes <= MAX_NODES, Refusal::TooManyNodes)?;

    let (before, rest) = template.split_at(first);
    let (channel, behind) = rest.split_at(length);
    let mut out = &mut out.as_chunks_mut().0[..nodes];
    out = put(out, before, first, 0);
    for copy in 0..count {
        out = put(out, channel, first, copy * length);
    }
    put(out, behind, first, (count - 1) * length);
    Ok(nodes)
}

/// Whether a node is of a kind that takes any number of children side by side, and
/// has one.
fn can_be_marked(plan: &Plan, node: usize) -> bool {
    let is_kind = matches!(plan.kind(node), Kind::And | Kind::Or | Kind::Xor | Kind::WaitingAnd);
    is_kind && plan.children(node).count() == 1
}

/// How many nodes of a plan in the fixed numbering are below one: those that follow
/// it, as long as none has a parent that stands before it.
fn nodes_below(template: &[Node], block: usize) -> usize {
    let is_below = |node: &&Node| usize::from(node[1]) >= block;
    template[block + 1..].iter().take_while(is_below).count()
}

/// Puts nodes down so many places behind where they stand in the template; answers
/// what is left to be written. Parents from the repeated subtree on move along, those
/// before it stay: the marked block and the blocks above it are there once.
fn put<'a>(out: &'a mut [Node], nodes: &[Node], first: usize, by: usize) -> &'a mut [Node] {
    let (here, rest) = out.split_at_mut(nodes.len());
    for (place, &[kind, parent]) in here.iter_mut().zip(nodes) {
        let moves = usize::from(parent) >= first;
        *place = [kind, if moves { parent + by as u8 } else { parent }];
    }
    rest
}
