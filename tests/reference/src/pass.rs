//! The single pass: a whole job at once, from given answers.

use crate::mark::{COMMITTED, FAILED, IDLE, TURNED_DOWN};
use crate::plan::{Kind, Links, MAX_NODES, Plan};
use crate::refusal::Refusal;

/// Settles the plan from one answer byte a node and writes every mark.
/// 1 to 6, 7 for answers and marks, then the first fault met (13, 14). The
/// marks are worked out apart, so that a refused pass leaves the lent ones.
pub fn pass(plan: &[u8], answers: &[u8], marks: &mut [u8]) -> Result<(), Refusal> {
    let plan = Plan::check(plan)?;
    if answers.len() != plan.size() || marks.len() != plan.size() {
        return Err(Refusal::Length);
    }
    settle(plan, answers, marks)
}

/// The pass of a checked plan, with as many answers and marks as it has
/// nodes: 13, 14.
pub(crate) fn settle(plan: Plan, answers: &[u8], marks: &mut [u8]) -> Result<(), Refusal> {
    let mut run = Run::new(plan, answers);
    run.settle(0)?;
    marks.copy_from_slice(&run.marks[..marks.len()]);
    Ok(())
}

/// A pass under way.
struct Run<'a> {
    plan: Plan<'a>,
    answers: &'a [u8],
    marks: [u8; MAX_NODES],
    links: Links,
}

impl<'a> Run<'a> {
    fn new(plan: Plan<'a>, answers: &'a [u8]) -> Run<'a> {
        Run { plan, answers, marks: [IDLE; MAX_NODES], links: Links::new(&plan) }
    }

    /// Settles a node with the children it reaches, and marks it as one that
    /// commits or fails; an xor above decides about it afterwards. Answers
    /// whether it works.
    fn settle(&mut self, node: usize) -> Result<bool, Refusal> {
        let works = match self.plan.kind(node) {
            Kind::Task => self.answer_is_one(node)?,
            Kind::Serial => self.settle_until(node, false)?,
            Kind::Contingency => self.settle_until(node, true)?,
            Kind::And | Kind::WaitingAnd => self.settle_all(node)?.failed == 0,
            Kind::Or => self.settle_all(node)?.worked > 0,
            Kind::Xor => self.settle_xor(node)?,
            Kind::Conditional => self.settle_branch(node)?,
        };
        self.marks[node] = if works { COMMITTED } else { FAILED };
        Ok(works)
    }

    /// The answer of a task or conditional: 1 or 2.
    fn answer_is_one(&self, node: usize) -> Result<bool, Refusal> {
        match self.answers[node] {
            1 => Ok(true),
            2 => Ok(false),
            _ => Err(Refusal::Answer),
        }
    }

    /// Children in turn, up to the first that comes out as `last`. With none
    /// such, the block goes the other way.
    fn settle_until(&mut self, block: usize, last: bool) -> Result<bool, Refusal> {
        let mut next = self.links.first_child(block);
        while let Some(child) = next {
            if self.settle(child)? == last {
                return Ok(last);
            }
            next = self.links.next_sibling(child);
        }
        Ok(!last)
    }

    /// All children, rising.
    fn settle_all(&mut self, block: usize) -> Result<Tally, Refusal> {
        let mut tally = Tally { worked: 0, failed: 0 };
        let mut next = self.links.first_child(block);
        while let Some(child) = next {
            if self.settle(child)? {
                tally.worked += 1;
            } else {
                tally.failed += 1;
            }
            next = self.links.next_sibling(child);
        }
        Ok(tally)
    }

    /// All children; those that work offer. The answer must name one of
    /// them, or be 0 if there is none.
    fn settle_xor(&mut self, xor: usize) -> Result<bool, Refusal> {
        let offers = self.settle_all(xor)?.worked;
        let choice = self.answers[xor];
        if offers == 0 && choice == 0 {
            return Ok(false);
        }
        let picked = self.links.child_at(xor, choice).filter(|&child| self.marks[child] == COMMITTED);
        let picked = picked.ok_or(Refusal::Choice)?;
        self.decide(xor, picked);
        Ok(true)
    }

    /// Turns down every offer but the picked one.
    fn decide(&mut self, xor: usize, picked: usize) {
        let mut next = self.links.first_child(xor);
        while let Some(child) = next {
            if child != picked && self.marks[child] == COMMITTED {
                self.marks[child] = TURNED_DOWN;
            }
            next = self.links.next_sibling(child);
        }
    }

    /// Only the child that the answer asks for.
    fn settle_branch(&mut self, conditional: usize) -> Result<bool, Refusal> {
        let place = if self.answer_is_one(conditional)? { 1 } else { 2 };
        let child = self.links.child_at(conditional, place).expect("a checked conditional has two children");
        self.settle(child)
    }
}

/// How the children of a block came out.
struct Tally {
    worked: usize,
    failed: usize,
}
