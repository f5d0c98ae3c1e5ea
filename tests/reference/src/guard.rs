//! Guards: what must have been heard before an event.
//!
//! A guard is kept as a short description and read in two ways: written out
//! as bytes, and tried against a row. So both always speak of the same guard.

use crate::event::{Code, Event};
use crate::plan::{Kind, Plan};
use crate::refusal::Refusal;
use crate::rule;

/// A guard, described.
#[derive(Clone, Copy, Debug, PartialEq, Eq)]
pub enum Guard {
    /// No clause: always holds.
    Open,
    /// One clause with one event.
    One(Event),
    /// A clause for each child, and perhaps one over all children.
    OverChildren {
        /// The block whose children are meant.
        of: usize,
        /// The events of each child's clause; no such clauses if empty.
        each: &'static [Code],
        /// The event of the last clause, which has it for every child.
        any: Option<Code>,
    },
    /// The node's own offer, and the pick of a sibling.
    LostPick {
        /// The child that is turned down.
        node: usize,
        /// Its xor.
        xor: usize,
    },
}

impl Guard {
    /// The guard of an event.
    pub fn of(plan: &Plan, event: Event) -> Guard {
        let node = event.node;
        let own = |code| Guard::One(Event { code, node });
        match (event.code, plan.xor_above(node)) {
            (Code::Start, _) => start(plan, node),
            (Code::Commit, Some(_)) => own(Code::Pick),
            (Code::Commit | Code::Offer, _) => finishing(plan, node),
            (Code::Abort, _) => abort(plan, node),
            (Code::Yes | Code::No, _) => own(Code::Start),
            (Code::TurnedDown, Some(xor)) => Guard::LostPick { node, xor },
            (Code::Pick | Code::TurnedDown, _) => own(Code::Offer),
        }
    }

    /// Whether every clause has an event that the row has heard.
    pub fn holds(self, plan: &Plan, row: &[u8]) -> bool {
        match self {
            Guard::Open => true,
            Guard::One(event) => event.is_heard(row),
            Guard::OverChildren { of, each, any } => over_children_holds(plan, row, of, each, any),
            Guard::LostPick { node, xor } => {
                let offer = Event { code: Code::Offer, node };
                offer.is_heard(row) && siblings(plan, node, xor).any(|other| pick(other).is_heard(row))
            }
        }
    }

    /// How many bytes it has when written out.
    pub fn length(self, plan: &Plan) -> usize {
        match self {
            Guard::Open => 1,
            Guard::One(_) => 1 + clause_length(1),
            Guard::OverChildren { of, each, any } => {
                let children = plan.children(of).count();
                let for_each = if each.is_empty() { 0 } else { children * clause_length(each.len()) };
                let for_any = if any.is_some() { clause_length(children) } else { 0 };
                1 + for_each + for_any
            }
            Guard::LostPick { node, xor } => {
                1 + clause_length(1) + clause_length(siblings(plan, node, xor).count())
            }
        }
    }

    /// Writes it to the front of a buffer that is long enough; the rest of
    /// the buffer stays.
    fn write(self, plan: &Plan, buffer: &mut [u8]) {
        let mut pen = Pen { buffer, at: 0 };
        match self {
            Guard::Open => pen.number(0),
            Guard::One(event) => {
                pen.number(1);
                pen.clause(1, [event]);
            }
            Guard::OverChildren { of, each, any } => pen.over_children(plan, of, each, any),
            Guard::LostPick { node, xor } => {
                pen.number(2);
                pen.clause(1, [Event { code: Code::Offer, node }]);
                let others = siblings(plan, node, xor);
                pen.clause(others.clone().count(), others.map(pick));
            }
        }
    }
}

/// What the guard writer wrote, and the rule that goes with it.
#[derive(Clone, Copy, Debug, PartialEq, Eq)]
pub struct Written {
    /// How many bytes.
    pub length: usize,
    /// The rule of the event whose guard it is.
    pub rule: u8,
}

/// The guard writer: 1 to 6, then 8 and 9, and only then 7 for a buffer that
/// is too short.
pub fn write(plan: &[u8], code: u32, node: u32, buffer: &mut [u8]) -> Result<Written, Refusal> {
    let plan = Plan::check(plan)?;
    let event = Event::read(&plan, code, node)?;
    let guard = Guard::of(&plan, event);
    let length = guard.length(&plan);
    if buffer.len() < length {
        return Err(Refusal::Length);
    }
    guard.write(&plan, buffer);
    Ok(Written { length, rule: rule::of(&plan, event) })
}

/// A node may start when its turn has come.
fn start(plan: &Plan, node: usize) -> Guard {
    let Some(parent) = plan.parent(node) else {
        return Guard::Open;
    };
    let needed = match (plan.kind(parent), plan.sibling_before(node)) {
        (Kind::Serial, Some(before)) => Event { code: Code::Commit, node: before },
        (Kind::Contingency, Some(before)) => Event { code: Code::Abort, node: before },
        (Kind::Conditional, None) => Event { code: Code::Yes, node: parent },
        (Kind::Conditional, Some(_)) => Event { code: Code::No, node: parent },
        _ => Event { code: Code::Start, node: parent },
    };
    Guard::One(needed)
}

/// A node may end well: commit, or offer below an xor.
fn finishing(plan: &Plan, node: usize) -> Guard {
    const COMMIT: &[Code] = &[Code::Commit];
    const ENDED: &[Code] = &[Code::Commit, Code::Abort];
    const DECIDED: &[Code] = &[Code::Commit, Code::Abort, Code::TurnedDown];
    let over = |each, any| Guard::OverChildren { of: node, each, any };
    match plan.kind(node) {
        Kind::Task => Guard::One(Event { code: Code::Start, node }),
        Kind::Serial => last_child(plan, node, Code::Commit),
        Kind::And | Kind::WaitingAnd => over(COMMIT, None),
        Kind::Or => over(ENDED, Some(Code::Commit)),
        Kind::Xor => over(DECIDED, Some(Code::Commit)),
        Kind::Contingency | Kind::Conditional => over(&[], Some(Code::Commit)),
    }
}

/// A node may fail.
fn abort(plan: &Plan, node: usize) -> Guard {
    const ABORT: &[Code] = &[Code::Abort];
    const ENDED: &[Code] = &[Code::Commit, Code::Abort];
    let over = |each, any| Guard::OverChildren { of: node, each, any };
    match plan.kind(node) {
        Kind::Task => Guard::One(Event { code: Code::Start, node }),
        Kind::Serial | Kind::And | Kind::Conditional => over(&[], Some(Code::Abort)),
        Kind::WaitingAnd => over(ENDED, Some(Code::Abort)),
        Kind::Or | Kind::Xor => over(ABORT, None),
        Kind::Contingency => last_child(plan, node, Code::Abort),
    }
}

fn last_child(plan: &Plan, node: usize, code: Code) -> Guard {
    let last = plan.children(node).next_back().expect("the numbers of children have been checked");
    Guard::One(Event { code, node: last })
}

fn siblings<'a>(
    plan: &Plan<'a>,
    node: usize,
    parent: usize,
) -> impl Iterator<Item = usize> + Clone + use<'a> {
    plan.children(parent).filter(move |&other| other != node)
}

fn pick(node: usize) -> Event {
    Event { code: Code::Pick, node }
}

/// One way over the children decides all clauses: each child's own, and
/// whether one child serves the clause over all.
fn over_children_holds(plan: &Plan, row: &[u8], of: usize, each: &[Code], any: Option<Code>) -> bool {
    let each_bits = bits(each);
    let any_bits = any.map_or(0, Code::bit);
    let mut any_heard = any.is_none();
    for child in plan.children(of) {
        if each_bits != 0 && row[child] & each_bits == 0 {
            return false;
        }
        any_heard |= row[child] & any_bits != 0;
    }
    any_heard
}

fn bits(codes: &[Code]) -> u8 {
    codes.iter().fold(0, |bits, code| bits | code.bit())
}

/// A clause's bytes: how many events, then two bytes an event.
fn clause_length(events: usize) -> usize {
    1 + 2 * events
}

/// Writes bytes one after another.
struct Pen<'a> {
    buffer: &'a mut [u8],
    at: usize,
}

impl Pen<'_> {
    /// One byte; every number in a guard fits, since nodes end at 159.
    fn number(&mut self, number: usize) {
        self.buffer[self.at] = number as u8;
        self.at += 1;
    }

    fn clause(&mut self, size: usize, events: impl IntoIterator<Item = Event>) {
        self.number(size);
        for event in events {
            self.number(event.code as usize);
            self.number(event.node);
        }
    }

    fn over_children(&mut self, plan: &Plan, of: usize, each: &'static [Code], any: Option<Code>) {
        let children = plan.children(of).count();
        let for_each = if each.is_empty() { 0 } else { children };
        self.number(for_each + usize::from(any.is_some()));
        if !each.is_empty() {
            for node in plan.children(of) {
                self.clause(each.len(), each.iter().map(|&code| Event { code, node }));
            }
        }
        if let Some(code) = any {
            self.clause(children, plan.children(of).map(|node| Event { code, node }));
        }
    }
}
