//! Records: every node's mark and retention class, of a state or of the pass.

use crate::layout::Layout;
use crate::mark::{self, COMMITTED, FAILED, OFFERED, TURNED_DOWN};
use crate::pass;
use crate::plan::{Kind, MAX_NODES, Plan};
use crate::refusal::Refusal;
use crate::table::{self, Table};

/// What has become of all that a node is part of, the better first.
#[derive(Clone, Copy, PartialEq, Eq, PartialOrd, Ord)]
enum Above {
    /// Every block above has committed.
    Through,
    /// One hasn't, but none is lost.
    Open,
    /// One has failed or was turned down.
    Lost,
}

impl Above {
    /// What a block's mark means for all below it.
    fn of_block(mark: u8) -> Above {
        match mark {
            COMMITTED => Above::Through,
            FAILED | TURNED_DOWN => Above::Lost,
            _ => Above::Open,
        }
    }

    /// The mark that a committed task counts as.
    fn counts_as(self) -> u8 {
        match self {
            Above::Through => COMMITTED,
            Above::Open => OFFERED,
            Above::Lost => TURNED_DOWN,
        }
    }
}

/// Writes every node's class by the table, from the marks of all; as many
/// marks and classes as the plan has nodes. Blocks have none.
pub fn classify(table: &Table, plan: &Plan, marks: &[u8], classes: &mut [u8]) {
    let mut above = [Above::Through; MAX_NODES];
    for node in 0..plan.size() {
        if let Some(parent) = plan.parent(node) {
            above[node] = above[parent].max(Above::of_block(marks[parent]));
        }
        classes[node] = match (plan.kind(node), marks[node]) {
            (Kind::Task, COMMITTED) => table.class(above[node].counts_as()),
            (Kind::Task, mark) => table.class(mark),
            _ => table::NONE,
        };
    }
}

/// Writes every node's mark, by its own site's row, and its class by the
/// table. 1 to 7; a table is loaded before, so its 21 comes first.
pub fn record(
    table: &Table,
    plan: &[u8],
    state: &[u8],
    marks: &mut [u8],
    classes: &mut [u8],
) -> Result<(), Refusal> {
    record_in(table, &Plan::check(plan)?, state, marks, classes)
}

/// The same in a checked plan: 7.
pub(crate) fn record_in(
    table: &Table,
    layout: &impl Layout,
    state: &[u8],
    marks: &mut [u8],
    classes: &mut [u8],
) -> Result<(), Refusal> {
    let size = layout.plan().size();
    if !layout.fits(state) || marks.len() != size || classes.len() != size {
        return Err(Refusal::Length);
    }
    for (node, mark) in marks.iter_mut().enumerate() {
        *mark = mark::of_heard(state[layout.row(node) * size + node]);
    }
    classify(table, layout.plan(), marks, classes);
    Ok(())
}

/// Writes every node's mark as the single pass settles it, and its class by
/// the table. 1 to 7, then 13 and 14, with both lent lists left; a table is
/// loaded before, so its 21 comes first.
pub fn pass_record(
    table: &Table,
    plan: &[u8],
    answers: &[u8],
    marks: &mut [u8],
    classes: &mut [u8],
) -> Result<(), Refusal> {
    let plan = Plan::check(plan)?;
    let size = plan.size();
    if answers.len() != size || marks.len() != size || classes.len() != size {
        return Err(Refusal::Length);
    }
    pass::settle(plan, answers, marks)?;
    classify(table, &plan, marks, classes);
    Ok(())
}
