//! Why a call is refused.

/// A cause of refusal; the value of each case is its number in the document's
/// table.
#[derive(Clone, Copy, Debug, PartialEq, Eq)]
#[repr(u8)]
pub enum Refusal {
    /// The plan's length is odd, 0 or too big; with desks: no multiple of three,
    /// 0 or too big.
    PlanLength = 1,
    /// A node has no known kind.
    Kind = 2,
    /// A parent number that isn't allowed.
    Parent = 3,
    /// A task has a child.
    TaskParent = 4,
    /// A block has too few or too many children.
    Children = 5,
    /// The tree is too deep.
    Depth = 6,
    /// A lent buffer has the wrong length, or points aren't right.
    Length = 7,
    /// A code, node or site that doesn't exist, or a desk that isn't in use.
    Unknown = 8,
    /// The event doesn't apply to its node, or a node that should be a task is
    /// none.
    NotApplicable = 9,
    /// Something already heard shuts the event out.
    Barred = 10,
    /// The guard doesn't hold.
    Guard = 11,
    /// A message about something that hasn't happened.
    FalseMessage = 12,
    /// The pass: a task's or conditional's answer is neither 1 nor 2; or a new
    /// answer is no byte.
    Answer = 13,
    /// The pass: an xor's answer is not a child that offers.
    Choice = 14,
    /// The text is malformed or too long.
    Text = 15,
    /// There is no step to take back.
    NoStep = 16,
    /// A depth form has a depth that no node can have there.
    DepthForm = 17,
    /// The plan is not in the fixed numbering.
    Numbering = 18,
    /// No point has the name.
    UnknownPoint = 19,
    /// All slots have points of other names.
    NoFreePoint = 20,
    /// A table of classes that isn't one.
    Table = 21,
    /// A desk above the highest.
    Desk = 22,
    /// The marked node is no block that can be repeated below.
    NotRepeatable = 23,
    /// A count that is not 1 to 32.
    Count = 24,
    /// The repeated plan would be too large.
    TooManyNodes = 25,
    /// No small plan comes after this one.
    LastPlan = 26,
    /// The plan is not small.
    NotSmall = 27,
    /// Marks that are not those of the pass over their answers.
    Marks = 28,
    /// A mark or an end that can't be wanted.
    Target = 29,
    /// No list of answers leads to the target.
    NoWay = 30,
}

impl Refusal {
    /// The number in the document's table.
    pub fn number(self) -> u8 {
        self as u8
    }
}
