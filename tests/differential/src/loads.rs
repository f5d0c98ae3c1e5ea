//! What the rules say of test loads, worked out beside both sides. The generator isn't moved
//! from draw to draw here: many moves together are one multiplication and one addition too,
//! so each draw comes from the seed and its place alone.

use std::sync::LazyLock;

/// The bytes of a step: code, node, and ff or a site.
pub const STEP_BYTES: usize = 3;

/// Of every number the rest modulo 2^32 is kept.
const WHOLE: u64 = 1 << 32;

/// Some moves of the generator together.
#[derive(Clone, Copy)]
struct Moves {
    factor: u64,
    addend: u64,
}

impl Moves {
    const ONE: Moves = Moves { factor: 1_664_525, addend: 1_013_904_223 };

    /// Where they lead to.
    fn from(self, number: u64) -> u64 {
        (number * self.factor + self.addend) % WHOLE
    }

    /// Twice as many.
    fn doubled(self) -> Moves {
        Moves { factor: self.factor * self.factor % WHOLE, addend: self.from(self.addend) }
    }
}

/// 1, 2, 4, 8 moves and so on, more than any load has.
static DOUBLED: LazyLock<[Moves; 36]> = LazyLock::new(|| {
    let mut moves = [Moves::ONE; 36];
    (1..moves.len()).for_each(|place| moves[place] = moves[place - 1].doubled());
    moves
});

/// What is drawn at a place, counted from 0.
fn drawn(seed: u32, place: u64) -> u64 {
    let moves = place + 1;
    let parts = DOUBLED.iter().enumerate().filter(|(bit, _)| moves >> bit & 1 == 1);
    parts.fold(u64::from(seed), |number, (_, part)| part.from(number)) / 65_536
}

/// The step at a place, for a plan of so many nodes.
fn step(nodes: usize, seed: u32, place: u64) -> [u8; STEP_BYTES] {
    let drawn = |which| drawn(seed, 4 * place + which);
    let nodes = nodes as u64;
    let site = if drawn(0) % 2 == 0 { 0xff } else { drawn(3) % nodes };
    [1 + drawn(1) % 8, drawn(2) % nodes, site].map(|number| number as u8)
}

/// The load of a seed and a count, for a plan of so many nodes.
pub fn load(nodes: usize, seed: u32, count: u32) -> Vec<u8> {
    (0..count.into()).flat_map(|place| step(nodes, seed, place)).collect()
}

/// A large count of which three times as much, in 32 bits, would be just this many bytes.
/// There is none for whole steps: 2^32 is 1 modulo 3, and twice 2^32 is 2.
pub fn wrapping_count(length: usize) -> Option<u32> {
    let length = length as u64;
    let wraps = [None, Some(2), Some(1)][length as usize % STEP_BYTES];
    wraps.map(|wraps: u64| ((wraps * WHOLE + length) / 3) as u32)
}

#[cfg(test)]
mod tests {
    use super::*;

    #[test]
    fn a_draw_by_its_place_is_that_move_by_move() {
        for seed in [0, 1, 2, 0x7fff_ffff, 0x8000_0000, 0xdead_beef, u32::MAX] {
            let mut number = u64::from(seed);
            for place in 0..5000 {
                number = Moves::ONE.from(number);
                assert_eq!(drawn(seed, place), number >> 16);
            }
        }
    }

    #[test]
    fn known_loads() {
        assert_eq!(load(6, 0, 3), [1, 2, 0xff, 7, 2, 0xff, 1, 2, 1]);
        assert_eq!(load(6, u32::MAX, 1), [8, 3, 3]);
        assert_eq!(load(6, 0, 0), []);
    }

    #[test]
    fn wrapping_counts() {
        assert_eq!(wrapping_count(1), Some(2_863_311_531));
        assert_eq!(wrapping_count(2), Some(1_431_655_766));
        for length in 0..1000 {
            match wrapping_count(length) {
                Some(count) => assert_eq!(count.wrapping_mul(3), length as u32),
                None => assert_eq!(length % 3, 0),
            }
        }
    }
}
