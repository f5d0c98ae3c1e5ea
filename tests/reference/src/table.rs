//! The table of classes: which class each mark has.

use crate::mark::IDLE;
use crate::refusal::Refusal;

/// Nothing is kept.
pub const NONE: u8 = 0;
/// Aired: kept a year.
pub const AIRED: u8 = 1;
/// Draft: kept a week.
pub const DRAFT: u8 = 2;
/// Log only: kept a day.
pub const LOG: u8 = 3;

/// How many marks there are.
const MARKS: usize = 6;

/// A class for each mark, by the mark's number.
#[derive(Clone, Copy, Debug, PartialEq, Eq)]
pub struct Table([u8; MARKS]);

impl Table {
    /// The table that is used where none is handed in.
    pub const COMMON: Table = Table([NONE, LOG, LOG, AIRED, DRAFT, DRAFT]);

    /// A table from its bytes, mark and class of each mark in turn; 21 for
    /// any other bytes.
    pub fn load(bytes: &[u8]) -> Result<Table, Refusal> {
        let (frames, []) = bytes.as_chunks::<2>() else {
            return Err(Refusal::Table);
        };
        let frames: &[[u8; 2]; MARKS] = frames.try_into().map_err(|_| Refusal::Table)?;
        let mut table = Table([NONE; MARKS]);
        for (place, &[mark, class]) in frames.iter().enumerate() {
            let is_in_turn = usize::from(mark) == place;
            if !is_in_turn || class > LOG || (mark == IDLE && class != NONE) {
                return Err(Refusal::Table);
            }
            table.0[place] = class;
        }
        Ok(table)
    }

    /// The class of a mark.
    pub fn class(&self, mark: u8) -> u8 {
        self.0[usize::from(mark)]
    }
}
