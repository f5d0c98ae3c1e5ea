//! A way there: the smallest list of answers that leads to a target.
//!
//! The answers are fixed one after another, from node 0 on. Each gets the
//! smallest byte with which some list that goes on from there leads to the
//! target; so the whole is the smallest. Whether there is such a list is known
//! from what each node can still come to, given the answers that are fixed and
//! the target; and this from what its children can.

use crate::mark::{COMMITTED, FAILED, IDLE, TURNED_DOWN};
use crate::plan::{Kind, Links, MAX_NODES, Plan};
use crate::refusal::Refusal;

/// Writes the way to a target: 1 to 6, 7 for the answers, 8 for the node, 29 for
/// the mark or the end, 30 if no list leads there. What the answers were before
/// doesn't matter.
pub fn way(plan: &[u8], node: u32, mark: u32, end: u32, answers: &mut [u8]) -> Result<(), Refusal> {
    let plan = Plan::check(plan)?;
    if answers.len() != plan.size() {
        return Err(Refusal::Length);
    }
    let target = Target::new(&plan, node, mark, end)?;
    let mut search = Search::new(plan, target);
    if !search.leads() {
        return Err(Refusal::NoWay);
    }
    for (node, answer) in answers.iter_mut().enumerate() {
        *answer = search.fix_smallest(node);
    }
    Ok(())
}

/// What is wanted.
#[derive(Clone, Copy, Debug, PartialEq, Eq, PartialOrd, Ord)]
pub struct Target {
    /// A node of the plan.
    pub node: usize,
    /// The mark that it is to have: 0, 3, 4 or 5.
    pub mark: u8,
    /// The mark that the root is to have: 3 or 4.
    pub end: u8,
}

impl Target {
    /// 8, 29.
    fn new(plan: &Plan, node: u32, mark: u32, end: u32) -> Result<Target, Refusal> {
        let node = usize::try_from(node).ok().filter(|&node| node < plan.size()).ok_or(Refusal::Unknown)?;
        let one_of = |marks: &[u8], wanted| marks.iter().copied().find(|&mark| u32::from(mark) == wanted);
        let mark = one_of(&[IDLE, COMMITTED, FAILED, TURNED_DOWN], mark).ok_or(Refusal::Target)?;
        let end = one_of(&[COMMITTED, FAILED], end).ok_or(Refusal::Target)?;
        Ok(Target { node, mark, end })
    }
}

/// The ends that a node can come to, if it is reached.
#[derive(Clone, Copy, PartialEq, Eq)]
struct Ends {
    works: bool,
    fails: bool,
}

impl Ends {
    const NONE: Ends = Ends { works: false, fails: false };

    fn any(self) -> bool {
        self.works || self.fails
    }

    /// With "works" and "fails" in each other's place.
    fn swapped(self) -> Ends {
        Ends { works: self.fails, fails: self.works }
    }
}

/// A search for lists that lead to a target, with some answers fixed.
pub struct Search<'a> {
    plan: Plan<'a>,
    links: Links,
    target: Target,
    /// The answers that are fixed; others may still be any byte.
    fixed: [Option<u8>; MAX_NODES],
    /// What each node can come to if it is reached, with the fixed answers of
    /// its subtree, and with the target's mark if the target is there.
    ends: [Ends; MAX_NODES],
    /// The nodes that must be reached: the target, if its mark says so, and the
    /// blocks above it.
    needed: [bool; MAX_NODES],
}

impl<'a> Search<'a> {
    /// A search with nothing fixed. Children stand behind their parents, so
    /// what they can come to is found first.
    pub fn new(plan: Plan<'a>, target: Target) -> Search<'a> {
        let mut needed = [false; MAX_NODES];
        if target.mark != IDLE {
            std::iter::successors(Some(target.node), |&node| plan.parent(node))
                .for_each(|node| needed[node] = true);
        }
        let links = Links::new(&plan);
        let mut search =
            Search { plan, links, target, fixed: [None; MAX_NODES], ends: [Ends::NONE; MAX_NODES], needed };
        for node in (0..plan.size()).rev() {
            search.ends[node] = search.ends_of(node);
        }
        search
    }

    /// Whether a list with the fixed answers leads to the target.
    pub fn leads(&self) -> bool {
        let root = self.ends[0];
        if self.target.end == COMMITTED { root.works } else { root.fails }
    }

    /// Fixes an answer, be it the first time or anew. That changes what the node
    /// and blocks above it can come to, up to one for which it doesn't.
    pub fn fix(&mut self, node: usize, answer: u8) {
        self.fixed[node] = Some(answer);
        let mut next = Some(node);
        while let Some(node) = next {
            let ends = self.ends_of(node);
            if ends == self.ends[node] {
                return;
            }
            self.ends[node] = ends;
            next = self.plan.parent(node);
        }
    }

    /// Fixes the smallest answer with which there is still a list; there is one
    /// before. A byte that means nothing leads on only where nothing is read,
    /// and there 0 does too.
    fn fix_smallest(&mut self, node: usize) -> u8 {
        for answer in 0..=self.highest(node) {
            self.fix(node, answer);
            if self.leads() {
                return answer;
            }
        }
        unreachable!("an answer leads on")
    }

    /// The highest answer that means something at a node.
    pub fn highest(&self, node: usize) -> u8 {
        match self.plan.kind(node) {
            Kind::Task | Kind::Conditional => 2,
            Kind::Xor => self.links.children(node).count() as u8,
            _ => 0,
        }
    }

    /// What a node can come to. The target itself comes to what its mark says;
    /// whether an xor picks it is the xor's affair.
    fn ends_of(&self, node: usize) -> Ends {
        let ends = self.ends_of_kind(node);
        if node != self.target.node {
            return ends;
        }
        match self.target.mark {
            COMMITTED => Ends { fails: false, ..ends },
            FAILED => Ends { works: false, ..ends },
            TURNED_DOWN if self.plan.xor_above(node).is_some() => Ends { fails: false, ..ends },
            _ => Ends::NONE,
        }
    }

    fn ends_of_kind(&self, node: usize) -> Ends {
        match self.plan.kind(node) {
            Kind::Task => Ends { works: self.may_be(node, 1), fails: self.may_be(node, 2) },
            Kind::And | Kind::WaitingAnd => self.all_needed(node, |ends| ends),
            Kind::Or => self.all_needed(node, Ends::swapped).swapped(),
            Kind::Serial => self.in_turn(node, |ends| ends),
            Kind::Contingency => self.in_turn(node, Ends::swapped).swapped(),
            Kind::Xor => self.picking(node),
            Kind::Conditional => self.branching(node),
        }
    }

    /// Whether a node may have this answer.
    fn may_be(&self, node: usize, answer: u8) -> bool {
        self.fixed[node].is_none_or(|fixed| fixed == answer)
    }

    /// All children are reached; all must work, else the block fails.
    fn all_needed(&self, block: usize, view: fn(Ends) -> Ends) -> Ends {
        let mut children = self.links.children(block).map(|child| view(self.ends[child]));
        let all_come_to_something = children.clone().all(Ends::any);
        Ends {
            works: children.clone().all(|ends| ends.works),
            fails: all_come_to_something && children.any(|ends| ends.fails),
        }
    }

    /// Children are reached in turn, up to the first that fails; then the block
    /// fails, and those behind are not reached.
    fn in_turn(&self, block: usize, view: fn(Ends) -> Ends) -> Ends {
        let mut all = Ends { works: true, fails: false };
        for child in self.links.children(block) {
            let ends = view(self.ends[child]);
            // where a child before this one failed, this one is left out
            all.fails &= !self.needed[child];
            all.fails |= all.works && ends.fails;
            all.works &= ends.works;
        }
        all
    }

    /// All children are reached. One that works can be picked; the target must
    /// be picked if it is to commit, and another if it is to be turned down.
    fn picking(&self, xor: usize) -> Ends {
        let children = self.links.children(xor);
        if !children.clone().all(|child| self.ends[child].any()) {
            return Ends::NONE;
        }
        let is_target = |child: usize| child == self.target.node;
        let has_target = children.clone().any(is_target);
        let may_be_picked = |child: usize| match self.target.mark {
            COMMITTED => !has_target || is_target(child),
            TURNED_DOWN => !is_target(child),
            _ => true,
        };
        Ends {
            works: children.clone().zip(1..).any(|(child, place)| {
                self.may_be(xor, place) && self.ends[child].works && may_be_picked(child)
            }),
            fails: self.may_be(xor, 0) && children.clone().all(|child| self.ends[child].fails),
        }
    }

    /// The child of one branch is reached, the other is left out.
    fn branching(&self, conditional: usize) -> Ends {
        let mut all = Ends::NONE;
        for (child, place) in self.links.children(conditional).zip(1..) {
            let leaves_out = |other: usize| other == child || !self.needed[other];
            if self.may_be(conditional, place) && self.links.children(conditional).all(leaves_out) {
                all.works |= self.ends[child].works;
                all.fails |= self.ends[child].fails;
            }
        }
        all
    }
}
