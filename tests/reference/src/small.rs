//! All small plans, one after another: by number of nodes, and those of one number by
//! their bytes. The next is built node by node; nothing is tried that can't become a
//! plan, since what is there already tells how many children are still needed.

use crate::plan::{Kind, NO_PARENT, Node, Plan, require};
use crate::refusal::Refusal;

/// The most nodes a small plan has. So few need no look at how deep they lie or how many
/// children a block has.
pub const MAX_SMALL: usize = 5;

/// Writes the plan that comes next and answers how many nodes it has; the bytes behind
/// them stay. 1 to 6; 26 if none comes next, 27 if the plan isn't small; 7 unless as many
/// bytes are lent as the largest small plan has.
pub fn next_plan(plan: &[u8], out: &mut [u8]) -> Result<usize, Refusal> {
    let plan = Plan::check(plan)?;
    require(plan.size() <= MAX_SMALL, Refusal::NotSmall)?;
    let next = after(plan.nodes()).ok_or(Refusal::LastPlan)?;
    require(out.len() == 2 * MAX_SMALL, Refusal::Length)?;
    let written = next.nodes().as_flattened();
    out[..written.len()].copy_from_slice(written);
    Ok(next.size)
}

/// The small plan behind this one. Of those with as many nodes it has the most in common
/// with it: the longest front that another node can follow. If there is none, it is the
/// first with one node more.
fn after(plan: &[Node]) -> Option<Draft> {
    let size = plan.len();
    let other_end =
        |place: usize| Draft::new(&plan[..place], size).and_then(|front| front.raised(plan[place]));
    let same_size = (0..size).rev().find_map(other_end);
    same_size.or_else(|| Draft::new(&[], size + 1).map(Draft::filled))
}

/// A small plan of which the first nodes are there.
#[derive(Clone, Copy)]
struct Draft {
    nodes: [Node; MAX_SMALL],
    /// How many nodes are there.
    there: usize,
    /// How many there will be.
    size: usize,
}

impl Draft {
    /// The front of a plan that is to have so many nodes, if that isn't too many.
    fn new(front: &[Node], size: usize) -> Option<Draft> {
        let mut nodes = [[0; 2]; MAX_SMALL];
        nodes[..front.len()].copy_from_slice(front);
        (size <= MAX_SMALL).then_some(Draft { nodes, there: front.len(), size })
    }

    fn nodes(&self) -> &[Node] {
        &self.nodes[..self.there]
    }

    /// With the least possible node above this one, and the least ones behind it.
    fn raised(self, from: Node) -> Option<Draft> {
        let above = |node: &Node| *node > from;
        places(self.there).filter(above).find_map(|node| self.with(node)).map(Draft::filled)
    }

    /// With the least possible nodes up to the end.
    fn filled(mut self) -> Draft {
        while self.there < self.size {
            self = places(self.there).find_map(|node| self.with(node)).expect("it can become a plan");
        }
        self
    }

    /// With one node more, if it can become a plan then.
    fn with(mut self, node: Node) -> Option<Draft> {
        let has_place = self.there == 0 || self.takes_child(usize::from(node[1]));
        self.nodes[self.there] = node;
        self.there += 1;
        (has_place && self.can_become_a_plan()).then_some(self)
    }

    /// Whether a node may have one more child.
    fn takes_child(&self, node: usize) -> bool {
        match self.nodes[node][0] {
            TASK => false,
            CONDITIONAL => self.children(node) < 2,
            _ => true,
        }
    }

    fn children(&self, node: usize) -> usize {
        self.nodes().iter().skip(1).filter(|child| usize::from(child[1]) == node).count()
    }

    /// How many children a node still needs.
    fn needs(&self, node: usize) -> usize {
        let least: usize = match self.nodes[node][0] {
            TASK => 0,
            CONDITIONAL => 2,
            _ => 1,
        };
        least.saturating_sub(self.children(node))
    }

    /// Whether the nodes to come can be placed: as many as are needed must come, and if
    /// there are more, somebody must take them. That is a block with any number of
    /// children, which is there or can still come where a child is needed.
    fn can_become_a_plan(&self) -> bool {
        let to_come = self.size - self.there;
        let needed = (0..self.there).map(|node| self.needs(node)).sum();
        let takes_any = |node: &Node| !matches!(node[0], TASK | CONDITIONAL);
        to_come == needed || to_come > needed && (needed > 0 || self.nodes().iter().any(takes_any))
    }
}

const TASK: u8 = Kind::Task as u8;
const CONDITIONAL: u8 = Kind::Conditional as u8;
const HIGHEST: u8 = Kind::WaitingAnd as u8;

/// What may stand at a place, rising: each kind, below each node before it.
fn places(place: usize) -> impl Iterator<Item = Node> {
    let parents = if place == 0 { NO_PARENT..=NO_PARENT } else { 0..=place as u8 - 1 };
    (TASK..=HIGHEST).flat_map(move |kind| parents.clone().map(move |parent| [kind, parent]))
}
