//! Who has which row of a state: in a plan of two bytes a node every site its
//! own, in one with desks every desk.

use crate::event::number_in_plan;
use crate::plan::Plan;
use crate::refusal::Refusal;

/// A checked plan, and the rows of its sites.
pub trait Layout {
    /// The plan, two bytes a node.
    fn plan(&self) -> &Plan<'_>;

    /// How many rows a state has.
    fn rows(&self) -> usize;

    /// The row of a node's site.
    fn row(&self, node: usize) -> usize;

    /// The row of whoever has this number in messages: 8 if there is nobody.
    fn hearer(&self, number: u32) -> Result<usize, Refusal>;

    /// The number that a node's site has in results.
    fn number(&self, node: usize) -> usize;

    /// Whether a state has all rows, with a byte for each node, and no more.
    fn fits(&self, state: &[u8]) -> bool {
        state.len() == self.rows() * self.plan().size()
    }
}

/// Every node has a site with a row of its own, all in rising number.
impl Layout for Plan<'_> {
    fn plan(&self) -> &Plan<'_> {
        self
    }

    fn rows(&self) -> usize {
        self.size()
    }

    fn row(&self, node: usize) -> usize {
        node
    }

    fn hearer(&self, number: u32) -> Result<usize, Refusal> {
        number_in_plan(self, number)
    }

    fn number(&self, node: usize) -> usize {
        node
    }
}
