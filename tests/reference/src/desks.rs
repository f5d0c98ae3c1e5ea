//! Plans with desks: three bytes a node, and one row for all sites of a desk.

use crate::layout::Layout;
use crate::plan::{MAX_NODES, Node, Plan};
use crate::refusal::Refusal;
use std::cell::OnceCell;

/// How many numbers there are for desks: 0 to 9f.
pub const NUMBERS: usize = 0xa0;

/// Takes a plan with desks apart and checks it, for a call that is lent one: 1
/// to 6, then 22.
pub fn open<T>(plan: &[u8], call: impl FnOnce(&Desks) -> T) -> Result<T, Refusal> {
    let mut parts = Parts { nodes: [[0; 2]; MAX_NODES], desks: [0; MAX_NODES] };
    let desks = parts.read(plan)?;
    Ok(call(&desks))
}

/// Room for a plan with desks that is taken apart.
struct Parts {
    /// The plain plan.
    nodes: [Node; MAX_NODES],
    /// Every node's desk.
    desks: [u8; MAX_NODES],
}

impl Parts {
    /// Three bytes a node: 1 unless that comes out even and within the limit.
    /// The plain plan is checked first, then the desks: 2 to 6, 22.
    fn read(&mut self, plan: &[u8]) -> Result<Desks<'_>, Refusal> {
        let frames = split(plan).ok_or(Refusal::PlanLength)?;
        let nodes = &mut self.nodes[..frames.len()];
        let desks = &mut self.desks[..frames.len()];
        for ((&[kind, parent, number], node), desk) in frames.iter().zip(&mut *nodes).zip(&mut *desks) {
            *node = [kind, parent];
            *desk = number;
        }
        let plan = Plan::check(nodes.as_flattened())?;
        let is_above = |desk: u8| usize::from(desk) >= NUMBERS;
        if desks.iter().fold(false, |found, &desk| found | is_above(desk)) {
            return Err(Refusal::Desk);
        }
        Ok(Desks { plan, of_nodes: desks, rows: OnceCell::new() })
    }
}

fn split(plan: &[u8]) -> Option<&[[u8; 3]]> {
    match plan.as_chunks() {
        (frames, []) if (1..=MAX_NODES).contains(&frames.len()) => Some(frames),
        _ => None,
    }
}

/// A checked plan with desks.
pub struct Desks<'a> {
    plan: Plan<'a>,
    of_nodes: &'a [u8],
    /// Worked out where a state is lent.
    rows: OnceCell<Rows>,
}

impl Desks<'_> {
    fn map(&self) -> &Rows {
        self.rows.get_or_init(|| Rows::of(self.of_nodes))
    }
}

/// A row for each desk in use.
impl Layout for Desks<'_> {
    fn plan(&self) -> &Plan<'_> {
        &self.plan
    }

    fn rows(&self) -> usize {
        self.map().count.into()
    }

    fn row(&self, node: usize) -> usize {
        self.map().of_desk[usize::from(self.of_nodes[node])].into()
    }

    fn hearer(&self, number: u32) -> Result<usize, Refusal> {
        let rows = self.map();
        let desk = usize::try_from(number).ok().filter(|&desk| rows.in_use.get(desk) == Some(&true));
        desk.map(|desk| rows.of_desk[desk].into()).ok_or(Refusal::Unknown)
    }

    fn number(&self, node: usize) -> usize {
        self.of_nodes[node].into()
    }
}

/// Which desks some node has, and the rows of these, in rising number.
struct Rows {
    in_use: [bool; NUMBERS],
    of_desk: [u8; NUMBERS],
    count: u8,
}

impl Rows {
    fn of(desks: &[u8]) -> Rows {
        let mut in_use = [false; NUMBERS];
        for &desk in desks {
            in_use[usize::from(desk)] = true;
        }
        let (mut of_desk, mut count) = ([0; NUMBERS], 0);
        for (row, &is_used) in of_desk.iter_mut().zip(&in_use) {
            *row = count;
            count += u8::from(is_used);
        }
        Rows { in_use, of_desk, count }
    }
}
