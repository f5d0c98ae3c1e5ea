//! Buffers lent to a call: with canaries around them, and with a twin for the
//! reference.

use crate::implementation::{Entry, Slots};

/// How many canaries stand on each side.
const MARGIN: usize = 64;

/// The canary at a place; it differs from neighbours and from likely bytes.
const fn canary(place: usize) -> u8 {
    0xc0 ^ (place as u8).wrapping_mul(29)
}

/// What is lent one after another: bytes, or words.
pub trait Unit: Copy + PartialEq + 'static {
    /// What stands on each side.
    const CANARIES: [Self; MARGIN];
}

impl Unit for u8 {
    const CANARIES: [u8; MARGIN] = {
        let mut canaries = [0; MARGIN];
        let mut place = 0;
        while place < MARGIN {
            canaries[place] = canary(place);
            place += 1;
        }
        canaries
    };
}

impl Unit for u64 {
    const CANARIES: [u64; MARGIN] = {
        let mut canaries = [0; MARGIN];
        let mut place = 0;
        while place < MARGIN {
            canaries[place] = u64::from_ne_bytes([canary(place); 8]);
            place += 1;
        }
        canaries
    };
}

/// Bytes, or words, with canaries on both sides.
#[derive(Default)]
pub struct Lent<T = u8> {
    memory: Vec<T>,
    length: usize,
}

impl<T: Unit> Lent<T> {
    /// Takes a copy of the bytes and sets fresh canaries.
    pub fn load(&mut self, bytes: &[T]) {
        self.length = bytes.len();
        self.memory.clear();
        self.memory.extend(T::CANARIES);
        self.memory.extend(bytes);
        self.memory.extend(T::CANARIES);
    }

    /// The bytes.
    pub fn bytes(&self) -> &[T] {
        &self.memory[MARGIN..][..self.length]
    }

    /// The bytes, for writing.
    pub fn bytes_mut(&mut self) -> &mut [T] {
        &mut self.memory[MARGIN..][..self.length]
    }

    /// Whether nothing was written on either side.
    pub fn is_fenced(&self) -> bool {
        self.memory[..MARGIN] == T::CANARIES && self.memory[MARGIN + self.length..] == T::CANARIES
    }

    /// Whether nothing was written at all.
    pub fn is_still(&self, bytes: &[T]) -> bool {
        self.is_fenced() && self.bytes() == bytes
    }
}

/// A buffer that both sides write, each its own copy, and what it held before.
#[derive(Default)]
pub struct Pair<T = u8> {
    /// The subject's.
    pub subject: Lent<T>,
    /// The reference's.
    pub reference: Vec<T>,
    before: Vec<T>,
}

impl<T: Unit> Pair<T> {
    /// Gives both sides the same bytes.
    pub fn load(&mut self, bytes: &[T]) {
        self.subject.load(bytes);
        self.reference.clear();
        self.reference.extend(bytes);
        self.before.clear();
        self.before.extend(bytes);
    }

    /// Whether both sides hold the same, and the subject wrote nothing else.
    pub fn agrees(&self) -> bool {
        self.subject.is_still(&self.reference)
    }

    /// Whether both sides hold what was loaded.
    pub fn is_untouched(&self) -> bool {
        self.holds(&self.before)
    }

    /// Whether both sides hold these bytes, and the subject wrote nothing
    /// else.
    pub fn holds(&self, bytes: &[T]) -> bool {
        self.reference == bytes && self.subject.is_still(bytes)
    }

    /// Whether both sides hold what was loaded with these bytes at a place.
    pub fn has_only<const SIZE: usize>(&mut self, place: usize, bytes: [T; SIZE]) -> bool {
        let mut other = bytes;
        self.before[place..][..SIZE].swap_with_slice(&mut other);
        let same = self.is_untouched();
        self.before[place..][..SIZE].copy_from_slice(&other);
        same
    }

    /// Takes the byte that the reference holds at a place as loaded from now
    /// on.
    pub fn keep(&mut self, place: usize) {
        self.before[place] = self.reference[place];
    }

    /// Takes all that the reference holds as loaded from now on.
    pub fn keep_all(&mut self) {
        self.before.copy_from_slice(&self.reference);
    }

    /// How many bytes there are.
    pub fn length(&self) -> usize {
        self.before.len()
    }

    /// The bytes before the call.
    pub fn before(&self) -> &[T] {
        &self.before
    }
}

impl Pair {
    /// Whether both sides hold what was loaded with these bits set in one
    /// byte.
    pub fn has_only_set(&mut self, place: usize, bits: u8) -> bool {
        let byte = self.before[place] | bits;
        self.has_only(place, [byte])
    }
}

/// A number that both sides change, each its own copy, and what it was before.
/// The subject's stands between canaries.
#[derive(Default)]
pub struct Counter {
    subject: [usize; 3],
    /// The reference's.
    pub reference: usize,
    before: usize,
}

/// The canaries around a number.
const NUMBER_CANARIES: [usize; 2] = [0x0102_0304_c0c1_c2c3, 0xd0d1_d2d3_0504_0706];

impl Counter {
    /// Gives both sides the same number.
    pub fn load(&mut self, number: usize) {
        self.subject = [NUMBER_CANARIES[0], number, NUMBER_CANARIES[1]];
        self.reference = number;
        self.before = number;
    }

    /// The subject's, for writing.
    pub fn subject_mut(&mut self) -> &mut usize {
        &mut self.subject[1]
    }

    /// Whether both sides hold this number, and the subject wrote nothing
    /// else.
    pub fn is(&self, number: usize) -> bool {
        self.reference == number && self.subject == [NUMBER_CANARIES[0], number, NUMBER_CANARIES[1]]
    }

    /// Takes the number that the reference holds as loaded from now on.
    pub fn keep(&mut self) {
        self.before = self.reference;
    }

    /// The number before the call.
    pub fn before(&self) -> usize {
        self.before
    }
}

/// A state with its journal, for both sides.
#[derive(Default)]
pub struct Journal {
    /// All rows.
    pub state: Pair,
    /// The entries, four bytes each.
    pub entries: Pair,
    /// How many of them are kept steps.
    pub count: Counter,
}

impl Journal {
    /// Gives both sides the same.
    pub fn load(&mut self, state: &[u8], entries: &[Entry], count: usize) {
        self.state.load(state);
        self.entries.load(entries.as_flattened());
        self.count.load(count);
    }

    /// What the subject is lent.
    pub fn subject(&mut self) -> (&mut [u8], &mut [Entry], &mut usize) {
        let entries = self.entries.subject.bytes_mut().as_chunks_mut().0;
        (self.state.subject.bytes_mut(), entries, self.count.subject_mut())
    }

    /// What the reference is lent.
    pub fn reference(&mut self) -> (&mut [u8], &mut [Entry], &mut usize) {
        let entries = self.entries.reference.as_chunks_mut().0;
        (&mut self.state.reference, entries, &mut self.count.reference)
    }

    /// Whether both sides hold what was loaded.
    pub fn is_untouched(&self) -> bool {
        self.state.is_untouched() && self.entries.is_untouched() && self.count.is(self.count.before)
    }

    /// The entries before the call.
    pub fn entries(&self) -> &[Entry] {
        self.entries.before().as_chunks().0
    }
}

/// Points, for both sides.
#[derive(Default)]
pub struct Points {
    /// Eight bytes for each slot.
    pub names: Pair,
    /// A word for each slot.
    pub places: Pair<u64>,
}

impl Points {
    /// Gives both sides the same.
    pub fn load(&mut self, names: &[u8], places: &[u64]) {
        self.names.load(names);
        self.places.load(places);
    }

    /// What the subject is lent.
    pub fn subject(&mut self) -> Slots<'_> {
        Slots { names: self.names.subject.bytes_mut(), places: self.places.subject.bytes_mut() }
    }

    /// What the reference is lent.
    pub fn reference(&mut self) -> Slots<'_> {
        Slots { names: &mut self.names.reference, places: &mut self.places.reference }
    }

    /// Whether both sides hold what was loaded.
    pub fn is_untouched(&self) -> bool {
        self.names.is_untouched() && self.places.is_untouched()
    }

    /// Takes what the reference holds as loaded from now on.
    pub fn keep_all(&mut self) {
        self.names.keep_all();
        self.places.keep_all();
    }
}

#[cfg(test)]
mod tests {
    use super::*;

    #[test]
    fn canaries_notice_a_write_on_either_side() {
        for place in [0, 63, 64 + 5, 64 + 5 + 63] {
            let mut lent = Lent::default();
            lent.load(&[1u8, 2, 3, 4, 5]);
            assert!(lent.is_still(&[1, 2, 3, 4, 5]));
            lent.memory[place] ^= 1;
            assert!(!lent.is_fenced());
            let mut words = Lent::default();
            words.load(&[1u64, 2, 3, 4, 5]);
            assert!(words.is_still(&[1, 2, 3, 4, 5]));
            words.memory[place] ^= 1 << 40;
            assert!(!words.is_fenced());
        }
    }

    #[test]
    fn points_notice_any_change() {
        let mut points = Points::default();
        points.load(&[7; 16], &[3, 4]);
        assert!(points.is_untouched());
        points.subject().places[1] = 5;
        assert!(!points.is_untouched() && !points.places.holds(&[3, 5]));
        points.reference().places[1] = 5;
        assert!(!points.is_untouched() && points.places.holds(&[3, 5]));
        points.keep_all();
        assert!(points.is_untouched());
        points.subject().names[15] = 8;
        assert!(!points.is_untouched());
    }

    #[test]
    fn a_pair_notices_any_other_change() {
        let mut pair = Pair::default();
        pair.load(&[0u8, 8, 0]);
        pair.subject.bytes_mut()[1] |= 1;
        pair.reference[1] |= 1;
        assert!(!pair.is_untouched());
        assert!(pair.agrees());
        assert!(pair.has_only_set(1, 1));
        assert!(!pair.is_untouched());
        pair.keep(1);
        assert!(pair.is_untouched());
        pair.subject.bytes_mut()[2] |= 1;
        assert!(!pair.agrees());
        assert!(!pair.has_only_set(1, 1));
    }

    #[test]
    fn a_journal_notices_any_other_change() {
        let mut journal = Journal::default();
        journal.load(&[0; 4], &[[1, 2, 3, 4], [5, 6, 7, 8]], 1);
        assert!(journal.is_untouched());
        *journal.count.subject_mut() = 2;
        assert!(!journal.is_untouched());
        journal.count.reference = 2;
        assert!(journal.count.is(2) && !journal.is_untouched());
        journal.count.keep();
        assert!(journal.is_untouched());
        journal.subject().1[1] = [9; 4];
        journal.reference().1[1] = [9; 4];
        assert!(journal.entries.has_only(4, [9; 4]));
        assert!(!journal.entries.has_only(4, [9, 9, 9, 8]));
        assert!(!journal.entries.has_only(3, [9; 4]));
        assert!(!journal.is_untouched());
        assert_eq!(journal.entries(), [[1, 2, 3, 4], [5, 6, 7, 8]]);
        for place in [0, 2] {
            let mut count = Counter::default();
            count.load(5);
            count.subject[place] += 1;
            assert!(!count.is(5));
        }
    }
}
