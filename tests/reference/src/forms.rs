//! Forms of a plan: the fixed numbering, in which every subtree stands
//! together, and the depth form in which other editors list a plan.

use crate::plan::{MAX_NODES, NO_PARENT, Node, Plan, kinds_known, require, split};
use crate::refusal::Refusal;

/// Writes the same tree in the fixed numbering: 1 to 6, then 7 if the bytes lent
/// are not as many as the plan's.
pub fn renumber(plan: &[u8], out: &mut [u8]) -> Result<(), Refusal> {
    let plan = Plan::check(plan)?;
    require(out.len() == 2 * plan.size(), Refusal::Length)?;
    Places::of(&plan).write(&plan, out.as_chunks_mut().0);
    Ok(())
}

/// The number that each node has in the fixed numbering.
pub(crate) struct Places([u8; MAX_NODES]);

impl Places {
    /// A subtree takes as many numbers as it has nodes, the first of them for its
    /// root. Those of the children follow one another, and parents come before
    /// children, so each child finds where its sibling before ended. Inlined, so that
    /// it costs each of its callers the same as if it stood there.
    #[inline(always)]
    pub(crate) fn of(plan: &Plan) -> Places {
        let mut size = [1_u8; MAX_NODES];
        for node in (1..plan.size()).rev() {
            plan.parent(node).into_iter().for_each(|parent| size[parent] += size[node]);
        }
        let mut places = Places([0; MAX_NODES]);
        let mut free = [1_u8; MAX_NODES];
        for node in 1..plan.size() {
            if let Some(parent) = plan.parent(node) {
                places.0[node] = free[parent];
                free[parent] += size[node];
                free[node] = places.0[node] + 1;
            }
        }
        places
    }

    /// The number that a node has.
    pub(crate) fn place(&self, node: usize) -> usize {
        usize::from(self.0[node])
    }

    /// Writes every node where it stands.
    #[inline(always)]
    pub(crate) fn write(&self, plan: &Plan, out: &mut [Node]) {
        for (node, &[kind, _]) in plan.nodes().iter().enumerate() {
            let parent = plan.parent(node).map_or(NO_PARENT, |parent| self.0[parent]);
            out[self.place(node)] = [kind, parent];
        }
    }
}

/// Writes the depth form of a plan in the fixed numbering: 1 to 6, 18 if it is in
/// another, then 7 if the bytes lent are not as many as the plan's.
pub fn to_depths(plan: &[u8], out: &mut [u8]) -> Result<(), Refusal> {
    let kinds = plan.iter().step_by(2);
    let plan = Plan::check(plan)?;
    let mut path = Path::new();
    let mut depths = [1; MAX_NODES];
    for node in 1..plan.size() {
        let parent = plan.parent(node).ok_or(Refusal::Numbering)?;
        require(path.leads_through(parent, depths[parent]), Refusal::Numbering)?;
        depths[node] = depths[parent] + 1;
        path.go_to(node, depths[node]);
    }
    require(out.len() == 2 * plan.size(), Refusal::Length)?;
    let lines = kinds.zip(depths).flat_map(|(kind, depth)| [*kind, depth]);
    out.iter_mut().zip(lines).for_each(|(byte, of_line)| *byte = of_line);
    Ok(())
}

/// Writes the plan of a depth form: 1; 2; 17 for a first depth other than 1, a
/// later one below 2 or one more than one above the line before; 4 to 6; then 7 if
/// the bytes lent are not as many as the form's.
pub fn from_depths(depths: &[u8], out: &mut [u8]) -> Result<(), Refusal> {
    let lines = split(depths).ok_or(Refusal::PlanLength)?;
    require(kinds_known(lines), Refusal::Kind)?;
    require(lines[0][1] == 1, Refusal::DepthForm)?;
    let follows = |pair: &[Node]| (2..=pair[0][1].saturating_add(1)).contains(&pair[1][1]);
    require(lines.windows(2).all(follows), Refusal::DepthForm)?;
    let mut plan = [[0; 2]; MAX_NODES];
    plan[0] = [lines[0][0], NO_PARENT];
    let mut path = Path::new();
    for (node, &[kind, depth]) in lines.iter().enumerate().skip(1) {
        plan[node] = [kind, path.at(depth - 1)];
        path.go_to(node, depth);
    }
    let plan = plan[..lines.len()].as_flattened();
    Plan::check(plan)?;
    require(out.len() == plan.len(), Refusal::Length)?;
    out.copy_from_slice(plan);
    Ok(())
}

/// The way from the root to a node, one node of each depth.
struct Path {
    nodes: [u8; MAX_NODES + 1],
    depth: u8,
}

impl Path {
    /// The way to the root itself.
    fn new() -> Path {
        Path { nodes: [0; MAX_NODES + 1], depth: 1 }
    }

    /// The node of this depth.
    fn at(&self, depth: u8) -> u8 {
        self.nodes[usize::from(depth)]
    }

    /// Whether a node of this depth is on the way.
    fn leads_through(&self, node: usize, depth: u8) -> bool {
        depth <= self.depth && usize::from(self.at(depth)) == node
    }

    /// Goes to a node of this depth, whose parent is on the way.
    fn go_to(&mut self, node: usize, depth: u8) {
        self.nodes[usize::from(depth)] = node as u8;
        self.depth = depth;
    }
}
