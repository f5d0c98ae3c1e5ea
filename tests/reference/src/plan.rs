//! Plans: what their bytes mean, and the check of them (refusals 1 to 6).

use crate::refusal::Refusal;

/// The most nodes a plan may have.
pub const MAX_NODES: usize = 160;
/// The most children a block may have.
pub const MAX_CHILDREN: u8 = 32;
/// The deepest level; the root is level 1.
pub const MAX_DEPTH: u8 = 32;
/// What stands in the root's parent byte.
pub const NO_PARENT: u8 = 0xff;

/// What a node is.
#[derive(Clone, Copy, Debug, PartialEq, Eq)]
#[repr(u8)]
pub enum Kind {
    /// Work done by somebody; has no children.
    Task = 1,
    /// Children one after another.
    Serial = 2,
    /// All children, all needed; fails as soon as one failed.
    And = 3,
    /// All children, one needed.
    Or = 4,
    /// All children, one of those that offer is picked.
    Xor = 5,
    /// Children one after another until one commits.
    Contingency = 6,
    /// One of two children, by an answer.
    Conditional = 7,
    /// As an and, but fails only when all children have ended.
    WaitingAnd = 8,
}

impl Kind {
    /// The kind with this byte, if there is one.
    pub fn from_byte(byte: u8) -> Option<Kind> {
        Some(match byte {
            1 => Kind::Task,
            2 => Kind::Serial,
            3 => Kind::And,
            4 => Kind::Or,
            5 => Kind::Xor,
            6 => Kind::Contingency,
            7 => Kind::Conditional,
            8 => Kind::WaitingAnd,
            _ => return None,
        })
    }
}

/// A node's two bytes: kind, parent.
pub(crate) type Node = [u8; 2];

/// A plan that has been checked.
#[derive(Clone, Copy)]
pub struct Plan<'a> {
    nodes: &'a [Node],
}

impl<'a> Plan<'a> {
    /// Checks the bytes of a plan. A rule counts only where no node breaks
    /// an earlier one.
    pub fn check(bytes: &'a [u8]) -> Result<Plan<'a>, Refusal> {
        let nodes = split(bytes).ok_or(Refusal::PlanLength)?;
        require(kinds_known(nodes), Refusal::Kind)?;
        require(parents_lower(nodes), Refusal::Parent)?;
        let tree = Survey::of(nodes);
        require(!tree.task_has_child, Refusal::TaskParent)?;
        require(tree.counts_fit(nodes), Refusal::Children)?;
        require(tree.deepest <= MAX_DEPTH, Refusal::Depth)?;
        Ok(Plan { nodes })
    }

    /// Checks the bytes of a plan and writes every node's depth: 1 to 6, then
    /// 7 unless there is one byte a node. Parents stand before children, so
    /// a node's depth comes from its parent's, found earlier.
    pub fn check_depths(bytes: &'a [u8], depths: &mut [u8]) -> Result<(), Refusal> {
        let plan = Plan::check(bytes)?;
        require(depths.len() == plan.size(), Refusal::Length)?;
        depths[0] = 1;
        for node in 1..plan.size() {
            depths[node] = depths[usize::from(plan.nodes[node][1])] + 1;
        }
        Ok(())
    }

    /// How many nodes there are; never 0.
    pub fn size(&self) -> usize {
        self.nodes.len()
    }

    /// The nodes' bytes.
    pub(crate) fn nodes(&self) -> &'a [Node] {
        self.nodes
    }

    /// The kind of a node.
    pub fn kind(&self, node: usize) -> Kind {
        Kind::from_byte(self.nodes[node][0]).expect("the kinds have been checked")
    }

    /// The parent of a node; the root has none.
    pub fn parent(&self, node: usize) -> Option<usize> {
        (node != 0).then(|| usize::from(self.nodes[node][1]))
    }

    /// The children of a node, rising.
    pub fn children(&self, node: usize) -> impl DoubleEndedIterator<Item = usize> + Clone + use<'a> {
        let nodes = self.nodes;
        (node + 1..nodes.len()).filter(move |&child| usize::from(nodes[child][1]) == node)
    }

    /// The xor whose child this node is, if its parent is one.
    pub fn xor_above(&self, node: usize) -> Option<usize> {
        self.parent(node).filter(|&parent| self.kind(parent) == Kind::Xor)
    }

    /// The next lower child of the same parent, if the node isn't the first.
    pub fn sibling_before(&self, node: usize) -> Option<usize> {
        let parent = self.nodes[node][1];
        (1..node).rev().find(|&other| self.nodes[other][1] == parent)
    }
}

/// Stands for no node in the links.
const NOBODY: u8 = 0xff;

/// The children of every block, linked once, so that going along them looks at
/// no other node.
pub(crate) struct Links {
    first_child: [u8; MAX_NODES],
    next_sibling: [u8; MAX_NODES],
}

impl Links {
    /// Going down the numbers puts the lowest child first.
    pub(crate) fn new(plan: &Plan) -> Links {
        let mut links = Links { first_child: [NOBODY; MAX_NODES], next_sibling: [NOBODY; MAX_NODES] };
        for node in (1..plan.size()).rev() {
            if let Some(parent) = plan.parent(node) {
                links.next_sibling[node] = links.first_child[parent];
                links.first_child[parent] = node as u8;
            }
        }
        links
    }

    /// The first child of a block.
    pub(crate) fn first_child(&self, block: usize) -> Option<usize> {
        somebody(self.first_child[block])
    }

    /// The child behind this one.
    pub(crate) fn next_sibling(&self, child: usize) -> Option<usize> {
        somebody(self.next_sibling[child])
    }

    /// The children of a block, rising.
    pub(crate) fn children(&self, block: usize) -> impl Iterator<Item = usize> + Clone {
        std::iter::successors(self.first_child(block), |&child| self.next_sibling(child))
    }

    /// The child at a place counted from 1.
    pub(crate) fn child_at(&self, block: usize, place: u8) -> Option<usize> {
        let mut child = self.first_child(block);
        for _ in 1..place {
            child = self.next_sibling(child?);
        }
        child.filter(|_| place > 0)
    }
}

fn somebody(link: u8) -> Option<usize> {
    (link != NOBODY).then_some(usize::from(link))
}

/// Two bytes a node, if that comes out even and within the limit.
pub(crate) fn split(bytes: &[u8]) -> Option<&[Node]> {
    match bytes.as_chunks() {
        (nodes, []) if (1..=MAX_NODES).contains(&nodes.len()) => Some(nodes),
        _ => None,
    }
}

pub(crate) fn require(met: bool, refusal: Refusal) -> Result<(), Refusal> {
    if met { Ok(()) } else { Err(refusal) }
}

// The loops below look at every node even after a fault: without an early
// way out they are faster on a plan that is right.

pub(crate) fn kinds_known(nodes: &[Node]) -> bool {
    nodes.iter().fold(true, |known, node| known & (1..=8).contains(&node[0]))
}

fn parents_lower(nodes: &[Node]) -> bool {
    let root_stands_alone = nodes[0][1] == NO_PARENT;
    let others = nodes.iter().enumerate().skip(1);
    others.fold(root_stands_alone, |lower, (number, node)| lower & (usize::from(node[1]) < number))
}

/// One entry for each number that a parent byte can name.
type ByParent = [u8; 256];

/// What one way along the nodes tells about the tree, once the parents are
/// known to be lower.
struct Survey {
    task_has_child: bool,
    children: ByParent,
    deepest: u8,
}

impl Survey {
    fn of(nodes: &[Node]) -> Survey {
        let mut survey = Survey { task_has_child: false, children: [0; 256], deepest: 1 };
        let mut depth: ByParent = [1; 256];
        for (number, node) in nodes.iter().enumerate().skip(1) {
            let parent = usize::from(node[1]);
            survey.task_has_child |= nodes[parent][0] == Kind::Task as u8;
            survey.children[parent] += 1;
            depth[number] = depth[parent] + 1;
            survey.deepest = survey.deepest.max(depth[number]);
        }
        survey
    }

    fn counts_fit(&self, nodes: &[Node]) -> bool {
        let pairs = nodes.iter().zip(&self.children);
        pairs.fold(true, |fit, (node, count)| fit & children_allowed(node[0]).contains(count))
    }
}

/// How many children a node of this kind may have.
fn children_allowed(kind: u8) -> std::ops::RangeInclusive<u8> {
    const TASK: u8 = Kind::Task as u8;
    const CONDITIONAL: u8 = Kind::Conditional as u8;
    match kind {
        TASK => 0..=0,
        CONDITIONAL => 2..=2,
        _ => 1..=MAX_CHILDREN,
    }
}
