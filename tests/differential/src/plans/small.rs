//! All small plans in their order, and plans that are nearly small ones.

use super::{all, needed_children};
use crate::codes::{CONDITIONAL, TASK};
use crate::driver::Tree;
use std::sync::LazyLock;

/// The bytes that must be lent: those of the largest small plan.
pub const MOST_SMALL_BYTES: usize = 10;

/// Small plans, in rising number of nodes, and in rising bytes.
static SMALL: LazyLock<Vec<Vec<u8>>> = LazyLock::new(|| (1..=MOST_SMALL_BYTES / 2).flat_map(all).collect());

/// All small plans in their order: what the check accepts of all that have the right
/// kinds and lower parents.
pub fn small() -> &'static [Vec<u8>] {
    &SMALL
}

/// The small plan that comes after a plan, if one does: the first that is larger.
pub fn after(plan: &[u8]) -> Option<&'static [u8]> {
    let place = small().partition_point(|other| (other.len(), &other[..]) <= (plan.len(), plan));
    small().get(place).map(|next| &next[..])
}

/// A valid plan with one task more, below each block in turn that may have it.
pub fn with_one_more(plan: &[u8]) -> Vec<Vec<u8>> {
    let tree = Tree::new(plan);
    let may_have = |&node: &usize| match tree.kind(node) {
        TASK => false,
        kind => kind != CONDITIONAL || tree.children[node].len() < needed_children(kind),
    };
    (0..plan.len() / 2).filter(may_have).map(|node| [plan, &[TASK, node as u8]].concat()).collect()
}

/// A plan with one byte changed, each in turn: to all kinds and numbers that are right
/// somewhere, and to some that never are; and with a byte more and one less.
pub fn near_small(plan: &[u8]) -> Vec<Vec<u8>> {
    let bytes = (0..=9).chain([0x80, 0xfe, 0xff]);
    let changed = |place: usize| {
        let with = move |byte: u8| {
            let mut plan = plan.to_vec();
            plan[place] = byte;
            plan
        };
        bytes.clone().map(with)
    };
    let lengths = [[plan, &[TASK]].concat(), plan[..plan.len() - 1].to_vec()];
    (0..plan.len()).flat_map(changed).chain(lengths).collect()
}

#[cfg(test)]
mod tests {
    use super::*;
    use reference::exported::check;

    #[test]
    fn small_plans_rise() {
        let of_size = |nodes: usize| small().iter().filter(|plan| plan.len() == 2 * nodes).count();
        assert_eq!([1, 2, 3, 4, 5].map(of_size), [1, 6, 43, 390, 4522]);
        assert!(small().is_sorted_by(|one, two| (one.len(), one) < (two.len(), two)));
        assert_eq!(after(&[]), Some(&small()[0][..]));
        for pair in small().windows(2) {
            assert_eq!(after(&pair[0]), Some(&pair[1][..]));
        }
        assert_eq!(after(&small()[4961]), None);
    }

    /// One task more makes plans that are not small; one byte changed makes every fault
    /// that a small plan can have, and other small plans.
    #[test]
    fn nearly_small_plans_are_of_every_sort() {
        let larger: Vec<Vec<u8>> = small()[440..].iter().flat_map(|plan| with_one_more(plan)).collect();
        assert!(larger.len() > 5000 && larger.iter().all(|plan| check(plan) == 0), "{}", larger.len());
        let mut met = [0; 7];
        for plan in small()[..440].iter().flat_map(|plan| near_small(plan)) {
            met[check(&plan) as usize] += 1;
        }
        assert!(met[..6].iter().all(|&count| count > 500) && met[6] == 0, "{met:?}");
    }
}
