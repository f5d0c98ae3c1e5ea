//! Tables of classes, good and damaged, and what they make of a record.

use crate::codes::TASK;
use crate::driver::Tree;
use crate::random::Random;

/// The table that is used where none is handed in.
pub const COMMON: [u8; 12] = [0, 0, 1, 3, 2, 3, 3, 1, 4, 2, 5, 2];

/// A table that is accepted.
pub fn sound(random: &mut Random) -> [u8; 12] {
    if random.chance(10) {
        return COMMON;
    }
    let mut table = COMMON;
    table.iter_mut().skip(3).step_by(2).for_each(|class| *class = random.below(4) as u8);
    table
}

/// A table that is mostly refused.
pub fn damaged(random: &mut Random) -> Vec<u8> {
    let mut table = sound(random).to_vec();
    let frame = 2 * random.below(6);
    match random.below(10) {
        0 => table.truncate(random.below(12)),
        1 => table.extend(random.one_of(&[&[6, 0][..], &[5, 2], &[0], &COMMON])),
        2 => table[frame] = random.one_of(&[0, 1, 2, 3, 4, 5, 6, 255]),
        3 => table[frame + 1] = random.one_of(&[4, 5, 128, 255]),
        4 => table[1] = random.one_of(&[1, 2, 3, 4, 255]),
        5 => {
            let other = 2 * random.below(6);
            table.swap(frame, other);
            table.swap(frame + 1, other + 1);
        }
        6..=8 => table.clear(),
        _ => table[random.below(12)] ^= 1 << random.below(8),
    }
    table
}

/// Any table.
pub fn any(random: &mut Random) -> Vec<u8> {
    if random.chance(60) { sound(random).to_vec() } else { damaged(random) }
}

/// Every node's class by a sound table, from the marks of all: what a record
/// must say. Blocks have none; a committed task counts as turned down below a
/// block that is lost, and as offered below one that isn't through.
pub fn classes(tree: &Tree, table: &[u8; 12], marks: &[u8]) -> Vec<u8> {
    let counts_as = |node: usize| {
        let above: Vec<u8> = tree.above(node).into_iter().map(|block| marks[block]).collect();
        match marks[node] {
            3 if above.contains(&4) || above.contains(&5) => 5,
            3 if above.iter().any(|&mark| mark != 3) => 2,
            mark => mark,
        }
    };
    let class = |mark: u8| table[2 * usize::from(mark) + 1];
    (0..marks.len()).map(|node| if tree.kind(node) == TASK { class(counts_as(node)) } else { 0 }).collect()
}

#[cfg(test)]
mod tests {
    use super::*;
    use reference::exported::record_by;

    fn loaded(table: &[u8]) -> u32 {
        record_by(&[1, 0xff], table, &[0], &mut [0], &mut [0])
    }

    #[test]
    fn sound_tables_are_accepted_and_damaged_ones_mostly_not() {
        let mut random = Random::new(7);
        let mut refused = 0;
        for _ in 0..1000 {
            assert_eq!(loaded(&sound(&mut random)), 0);
            refused += u32::from(loaded(&damaged(&mut random)) == 21);
        }
        assert!((700..1000).contains(&refused), "{refused}");
    }
}
