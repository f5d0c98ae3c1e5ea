//! Events: their codes, where they apply, where they happen, and the bits
//! they have in a row.

use crate::plan::{Kind, Plan};
use crate::refusal::Refusal;

/// What can happen to a node.
#[derive(Clone, Copy, Debug, PartialEq, Eq)]
#[repr(u8)]
pub enum Code {
    /// The node begins.
    Start = 1,
    /// An xor's child has done its work and waits for the pick.
    Offer = 2,
    /// The node ends well.
    Commit = 3,
    /// The node fails.
    Abort = 4,
    /// A conditional's answer for its first child.
    Yes = 5,
    /// A conditional's answer for its second child.
    No = 6,
    /// An xor decides for this child.
    Pick = 7,
    /// An offer that lost against a picked sibling.
    TurnedDown = 8,
}

impl Code {
    /// The code with this number, if there is one. Nothing is cut off: 257 is
    /// no code.
    pub fn from_number(number: u32) -> Option<Code> {
        Some(match number {
            1 => Code::Start,
            2 => Code::Offer,
            3 => Code::Commit,
            4 => Code::Abort,
            5 => Code::Yes,
            6 => Code::No,
            7 => Code::Pick,
            8 => Code::TurnedDown,
            _ => return None,
        })
    }

    /// Its bit in a row's byte.
    pub const fn bit(self) -> u8 {
        1 << (self as u8 - 1)
    }
}

/// An event that applies to its node.
#[derive(Clone, Copy, Debug, PartialEq, Eq)]
pub struct Event {
    /// What happens.
    pub code: Code,
    /// To which node.
    pub node: usize,
}

impl Event {
    /// Reads an event from outside numbers: 8 if code or node don't exist,
    /// then 9 if the event doesn't apply.
    pub fn read(plan: &Plan, code: u32, node: u32) -> Result<Event, Refusal> {
        let code = Code::from_number(code).ok_or(Refusal::Unknown)?;
        let node = number_in_plan(plan, node)?;
        let event = Event { code, node };
        if event.applies(plan) { Ok(event) } else { Err(Refusal::NotApplicable) }
    }

    /// Whether this can happen to a node of its kind and place at all.
    fn applies(self, plan: &Plan) -> bool {
        match self.code {
            Code::Start | Code::Commit | Code::Abort => true,
            Code::Offer | Code::Pick | Code::TurnedDown => plan.xor_above(self.node).is_some(),
            Code::Yes | Code::No => plan.kind(self.node) == Kind::Conditional,
        }
    }

    /// Where it happens: a pick at the parent, all others at the node.
    pub fn site(self, plan: &Plan) -> usize {
        match (self.code, plan.parent(self.node)) {
            (Code::Pick, Some(parent)) => parent,
            _ => self.node,
        }
    }

    /// Whether a row has heard of it.
    pub fn is_heard(self, row: &[u8]) -> bool {
        row[self.node] & self.code.bit() != 0
    }

    /// Notes it in a row; a second time changes nothing.
    pub fn set(self, row: &mut [u8]) {
        row[self.node] |= self.code.bit();
    }

    /// Forgets it in a row, whether or not it was heard.
    pub fn clear(self, row: &mut [u8]) {
        row[self.node] &= !self.code.bit();
    }
}

/// A node or site number from outside, if the plan has it.
pub fn number_in_plan(plan: &Plan, number: u32) -> Result<usize, Refusal> {
    usize::try_from(number).ok().filter(|&number| number < plan.size()).ok_or(Refusal::Unknown)
}
