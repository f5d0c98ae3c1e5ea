//! The central rule: what may happen next, seen from above. It knows the
//! marks of all nodes and the noted answers and picks; no rows, no guards.

use crate::event::{Code, Event};
use crate::mark::{COMMITTED, FAILED, IDLE, OFFERED, RUNNING, TURNED_DOWN};
use crate::plan::{Kind, Plan};
use crate::refusal::Refusal;

/// Lets the event happen if the rule allows it. Answers whether it did;
/// otherwise everything is left. 1 to 6, 7 for marks and notes, 8, 9 before.
pub fn central(
    plan: &[u8],
    code: u32,
    node: u32,
    marks: &mut [u8],
    notes: &mut [u8],
) -> Result<bool, Refusal> {
    let plan = Plan::check(plan)?;
    if marks.len() != plan.size() || notes.len() != plan.size() {
        return Err(Refusal::Length);
    }
    let event = Event::read(&plan, code, node)?;
    let allowed = Job { plan, marks, notes }.allows(event);
    if allowed {
        advance(event, marks, notes);
    }
    Ok(allowed)
}

/// What an allowed event changes: a mark, or a note.
fn advance(event: Event, marks: &mut [u8], notes: &mut [u8]) {
    let mark = match event.code {
        Code::Start => RUNNING,
        Code::Offer => OFFERED,
        Code::Commit => COMMITTED,
        Code::Abort => FAILED,
        Code::TurnedDown => TURNED_DOWN,
        Code::Yes | Code::No | Code::Pick => {
            notes[event.node] |= event.code.bit();
            return;
        }
    };
    marks[event.node] = mark;
}

/// How a started node can end.
#[derive(Clone, Copy, PartialEq, Eq)]
enum Ending {
    Finish,
    Fail,
}

/// A job as seen from above.
struct Job<'a> {
    plan: Plan<'a>,
    marks: &'a [u8],
    notes: &'a [u8],
}

impl Job<'_> {
    fn allows(&self, event: Event) -> bool {
        let node = event.node;
        match (event.code, self.plan.xor_above(node)) {
            (Code::Start, _) => self.may_start(node),
            (Code::Commit, Some(_)) => self.mark(node) == OFFERED && self.is_noted(Code::Pick, node),
            (Code::Commit | Code::Offer, _) => self.may_end(node, Ending::Finish),
            (Code::Abort, _) => self.may_end(node, Ending::Fail),
            (Code::Yes | Code::No, _) => self.is_started(node) && self.branch(node).is_none(),
            (Code::Pick, Some(xor)) => self.mark(node) == OFFERED && !self.has_picked(xor, |_| true),
            (Code::TurnedDown, Some(xor)) => {
                self.mark(node) == OFFERED && self.has_picked(xor, |child| child != node)
            }
            (Code::Pick | Code::TurnedDown, None) => false,
        }
    }

    /// A mark above the last one counts as the last one.
    fn mark(&self, node: usize) -> u8 {
        self.marks[node].min(TURNED_DOWN)
    }

    fn is_started(&self, node: usize) -> bool {
        self.mark(node) != IDLE
    }

    fn is_noted(&self, code: Code, node: usize) -> bool {
        self.notes[node] & code.bit() != 0
    }

    /// The place of the child that a conditional's answer asks for. Yes wins
    /// where both answers are noted.
    fn branch(&self, conditional: usize) -> Option<usize> {
        if self.is_noted(Code::Yes, conditional) {
            Some(0)
        } else if self.is_noted(Code::No, conditional) {
            Some(1)
        } else {
            None
        }
    }

    /// Whether one of the children asked for is picked.
    fn has_picked(&self, xor: usize, asked: impl Fn(usize) -> bool) -> bool {
        self.plan.children(xor).any(|child| asked(child) && self.is_noted(Code::Pick, child))
    }

    /// Not started yet, the parent is, and its place is reached.
    fn may_start(&self, node: usize) -> bool {
        let place_reached = |parent| self.is_started(parent) && self.is_reached(node, parent);
        !self.is_started(node) && self.plan.parent(node).is_none_or(place_reached)
    }

    fn is_reached(&self, node: usize, parent: usize) -> bool {
        let mut earlier = self.plan.children(parent).take_while(|&child| child < node);
        match self.plan.kind(parent) {
            Kind::Serial => earlier.all(|child| self.mark(child) == COMMITTED),
            Kind::Contingency => earlier.all(|child| self.mark(child) == FAILED),
            Kind::Conditional => self.branch(parent) == Some(earlier.count()),
            _ => true,
        }
    }

    /// A running node may end as its kind and its children's marks say. An
    /// offer is the end here for a child of an xor.
    fn may_end(&self, node: usize, ending: Ending) -> bool {
        self.mark(node) == RUNNING && self.is_due(node, ending)
    }

    fn is_due(&self, node: usize, ending: Ending) -> bool {
        let kind = self.plan.kind(node);
        match kind {
            Kind::Task => true,
            Kind::Conditional => self.is_branch_due(node, ending),
            _ => self.children_of(node).are_due(kind, ending),
        }
    }

    /// The child of the answered branch decides.
    fn is_branch_due(&self, conditional: usize, ending: Ending) -> bool {
        let needed = match ending {
            Ending::Finish => COMMITTED,
            Ending::Fail => FAILED,
        };
        let child = self.branch(conditional).and_then(|place| self.plan.children(conditional).nth(place));
        child.is_some_and(|child| self.mark(child) == needed)
    }

    fn children_of(&self, block: usize) -> Children {
        let mut children = Children::default();
        for child in self.plan.children(block) {
            children.all += 1;
            match self.mark(child) {
                COMMITTED => children.committed += 1,
                FAILED => children.failed += 1,
                TURNED_DOWN => children.turned_down += 1,
                _ => {}
            }
        }
        children
    }
}

/// How many children there are, and how many have which end.
#[derive(Default)]
struct Children {
    all: usize,
    committed: usize,
    failed: usize,
    turned_down: usize,
}

impl Children {
    fn are_due(&self, kind: Kind, ending: Ending) -> bool {
        let ended = self.committed + self.failed;
        match (kind, ending) {
            (Kind::Serial | Kind::And | Kind::WaitingAnd, Ending::Finish) => self.committed == self.all,
            (Kind::Serial | Kind::And, Ending::Fail) => self.failed > 0,
            (Kind::WaitingAnd, Ending::Fail) => ended == self.all && self.failed > 0,
            (Kind::Or, Ending::Finish) => ended == self.all && self.committed > 0,
            (Kind::Xor, Ending::Finish) => ended + self.turned_down == self.all && self.committed > 0,
            (Kind::Contingency, Ending::Finish) => self.committed > 0,
            (Kind::Or | Kind::Xor | Kind::Contingency, Ending::Fail) => self.failed == self.all,
            (Kind::Task | Kind::Conditional, _) => false,
        }
    }
}
