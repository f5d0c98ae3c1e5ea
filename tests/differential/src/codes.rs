//! Names for the numbers that cross the interface, and the parts of a packed
//! result.

/// The node begins.
pub const START: u32 = 1;
/// An xor's child has done its work.
pub const OFFER: u32 = 2;
/// The node ends well.
pub const COMMIT: u32 = 3;
/// The node fails.
pub const ABORT: u32 = 4;
/// A conditional's answer for the first child.
pub const YES: u32 = 5;
/// A conditional's answer for the second child.
pub const NO: u32 = 6;
/// An xor decides for this child.
pub const PICK: u32 = 7;
/// An offer that lost.
pub const TURNED_DOWN: u32 = 8;

/// The site that says: the event happens.
pub const HAPPENS: u32 = 0xff;

/// Kinds, as in a plan's bytes.
pub const TASK: u8 = 1;
/// Children in turn.
pub const SERIAL: u8 = 2;
/// All children needed; fails once one failed.
pub const AND: u8 = 3;
/// One child needed.
pub const OR: u8 = 4;
/// One child picked.
pub const XOR: u8 = 5;
/// Children until one commits.
pub const CONTINGENCY: u8 = 6;
/// One of two children.
pub const CONDITIONAL: u8 = 7;
/// All children needed; fails once all have ended.
pub const WAITING_AND: u8 = 8;

/// The number in a packed result; 0 is passed.
pub fn number(result: u32) -> u8 {
    result as u8
}

/// The site in a packed result; of a guard, its rule.
pub fn site(result: u32) -> u32 {
    result >> 8 & 0xff
}

/// The value in a packed result.
pub fn value(result: u32) -> u32 {
    result >> 16
}

/// A code's bit in a row's byte.
pub fn bit(code: u32) -> u8 {
    1 << (code - 1)
}
