//! What the rules say of points, worked out beside both sides; and names for
//! them.

use crate::random::Random;
use std::collections::BTreeMap;

/// How many slots there are.
pub const SLOTS: usize = 16;

/// A name.
pub type Name = [u8; 8];

/// Names and places that are to be left by a call.
pub type Left = (Vec<u8>, Vec<u64>);

/// The points in use, in the order of their slots: name and place.
pub fn points(names: &[u8], places: &[u64]) -> Vec<(Name, u64)> {
    let slots = names.as_chunks().0.iter().zip(places);
    slots.filter(|&(_, &word)| word != 0).map(|(&name, &word)| (name, word - 1)).collect()
}

/// The same by their names; none if two have one name.
pub fn by_name(names: &[u8], places: &[u64]) -> Option<BTreeMap<Name, u64>> {
    let points = points(names, places);
    let by_name: BTreeMap<Name, u64> = points.iter().copied().collect();
    (by_name.len() == points.len()).then_some(by_name)
}

/// The points by their names, unless they are refused with 7.
pub fn right(names: &[u8], places: &[u64], count: usize) -> Option<BTreeMap<Name, u64>> {
    if names.len() != 8 * SLOTS || places.len() != SLOTS {
        return None;
    }
    by_name(names, places).filter(|points| points.values().all(|&place| place <= count as u64))
}

/// What a naming leaves, or its number.
pub fn after_naming(name: &[u8], count: usize, names: &[u8], places: &[u64]) -> Result<Left, u32> {
    let points = right(names, places, count).ok_or(7u32)?;
    let name: Name = name.try_into().map_err(|_| 7u32)?;
    if count == usize::MAX {
        return Err(7);
    }
    let has_name = |slot: &usize| places[*slot] != 0 && names[8 * slot..][..8] == name;
    let is_free = |slot: &usize| places[*slot] == 0;
    let slot = match points.contains_key(&name) {
        true => (0..SLOTS).find(has_name),
        false => (0..SLOTS).find(is_free),
    };
    let slot = slot.ok_or(20u32)?;
    let (mut names, mut places) = (names.to_vec(), places.to_vec());
    names.splice(8 * slot..8 * slot + 8, name);
    places[slot] = count as u64 + 1;
    Ok((names, places))
}

/// What is left where the points past a place are dropped.
pub fn after_drop(place: usize, names: &[u8], places: &[u64]) -> Left {
    let slots = names.as_chunks::<8>().0.iter().zip(places);
    let dropped = slots.map(|(&name, &word)| {
        let is_past = word > 1 && word - 1 > place as u64;
        if is_past { ([0; 8], 0) } else { (name, word) }
    });
    let (names, places): (Vec<Name>, Vec<u64>) = dropped.unzip();
    (names.concat(), places)
}

/// So many different names that are easily taken for each other: most differ
/// in one byte, also in the last one alone, or behind a zero.
pub fn pool(random: &mut Random, size: usize) -> Vec<Name> {
    let mut first: Name = [(); 8].map(|()| random.byte());
    if random.chance(60) {
        first[random.below(7)] = 0;
    }
    let mut pool = vec![first];
    while pool.len() < size {
        let mut name = if random.chance(5) { [random.one_of(&[0, 0xff]); 8] } else { random.one_of(&pool) };
        let byte = if random.chance(50) { 7 } else { random.below(8) };
        name[byte] ^= 1 << random.below(8);
        if !pool.contains(&name) {
            pool.push(name);
        }
    }
    pool
}

#[cfg(test)]
mod tests {
    use super::*;

    /// Two points, the second at this place, and a free slot with its name.
    fn two(place: u64) -> Left {
        let (mut names, mut places) = (vec![9; 128], vec![0; 16]);
        names[8..16].fill(1);
        names[40..56].fill(2);
        (places[1], places[5]) = (3, place + 1);
        (names, places)
    }

    #[test]
    fn points_are_read() {
        let (mut names, mut places) = two(4);
        assert_eq!(points(&names, &places), [([1; 8], 2), ([2; 8], 4)]);
        assert_eq!(right(&names, &places, 4).map(|points| points.len()), Some(2));
        assert_eq!(right(&names, &places, 3), None);
        assert_eq!(right(&names[8..], &places, 4), None);
        assert_eq!(right(&names, &places[1..], 4), None);
        places[6] = 1;
        assert_eq!(right(&names, &places, 4), None);
        names[55] = 3;
        assert_eq!(right(&names, &places, 4).map(|points| points.len()), Some(3));
    }

    #[test]
    fn namings_and_drops() {
        let (names, places) = two(4);
        let named = |name: &[u8], count| after_naming(name, count, &names, &places);
        assert_eq!(named(&[2; 8], 7), Ok(two(7)));
        assert_eq!(named(&[2; 7], 7), Err(7));
        assert_eq!(named(&[2; 8], 3), Err(7));
        assert_eq!(named(&[2; 8], usize::MAX), Err(7));
        let mut more = two(4);
        more.0[..8].fill(5);
        more.1[0] = 8;
        assert_eq!(named(&[5; 8], 7), Ok(more.clone()));
        let full = more.1.iter().map(|_| 1).collect::<Vec<_>>();
        let apart: Vec<u8> = (0..128).map(|byte| byte / 8).collect();
        assert_eq!(after_naming(&[99; 8], 7, &apart, &full), Err(20));
        assert_eq!(after_naming(&[15; 8], 7, &apart, &full).map(|left| left.1[15]), Ok(8));
        assert_eq!(after_drop(4, &names, &places), two(4));
        let (kept, left) = after_drop(3, &names, &places);
        assert_eq!((&kept[40..48], left[5], left[1]), (&[0; 8][..], 0, 3));
        assert_eq!((&kept[..40], &kept[48..]), (&names[..40], &names[48..]));
    }

    #[test]
    fn names_of_a_pool_differ() {
        let pool = pool(&mut Random::new(3), 40);
        let different: std::collections::BTreeSet<Name> = pool.iter().copied().collect();
        assert_eq!(different.len(), 40);
    }
}
