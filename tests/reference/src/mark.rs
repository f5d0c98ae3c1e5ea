//! Marks: how far a node has come.

use crate::event::Code;

/// Not started.
pub const IDLE: u8 = 0;
/// Started, neither ended nor offered.
pub const RUNNING: u8 = 1;
/// Offered, not decided yet.
pub const OFFERED: u8 = 2;
/// Committed.
pub const COMMITTED: u8 = 3;
/// Failed.
pub const FAILED: u8 = 4;
/// Offered and then turned down.
pub const TURNED_DOWN: u8 = 5;

/// A node's mark, from the byte its own site's row has for it.
pub fn of_heard(byte: u8) -> u8 {
    MARKS[usize::from(byte)]
}

/// The mark of every byte a row can hold.
const MARKS: [u8; 256] = {
    let mut marks = [IDLE; 256];
    let mut byte = 0;
    while byte < marks.len() {
        marks[byte] = first_that_fits(byte as u8);
        byte += 1;
    }
    marks
};

/// The ends count before the stages on the way to them.
const fn first_that_fits(byte: u8) -> u8 {
    const fn has(byte: u8, code: Code) -> bool {
        byte & code.bit() != 0
    }
    if has(byte, Code::Commit) {
        COMMITTED
    } else if has(byte, Code::Abort) {
        FAILED
    } else if has(byte, Code::TurnedDown) {
        TURNED_DOWN
    } else if has(byte, Code::Offer) {
        OFFERED
    } else if has(byte, Code::Start) {
        RUNNING
    } else {
        IDLE
    }
}
