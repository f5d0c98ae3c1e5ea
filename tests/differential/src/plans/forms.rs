//! Plans in other numberings, and depth forms, good and damaged. A plan that is
//! handed in must be a tree, and need not be accepted.

use super::{Growth, MOST_NODES, NO_PARENT, any_node, chain, damage_length, damaged, shuffle, up_to};
use crate::codes::{CONDITIONAL, SERIAL, TASK};
use crate::driver::Tree;
use crate::random::Random;

/// Whether the length and the parents of a plan are right, so that it is a tree,
/// be it accepted or not.
pub fn has_tree(plan: &[u8]) -> bool {
    let (nodes, rest) = plan.as_chunks::<2>();
    let is_right = |(node, &[_, parent]): (usize, &[u8; 2])| match node {
        0 => parent == NO_PARENT,
        _ => usize::from(parent) < node,
    };
    (1..=MOST_NODES).contains(&nodes.len()) && rest.is_empty() && nodes.iter().enumerate().all(is_right)
}

/// The same tree in any numbering: parents before children, and these in their
/// order.
pub fn any_numbering(random: &mut Random, plan: &[u8]) -> Vec<u8> {
    let growth = any_growth(random);
    number(random, &Tree::new(plan), growth)
}

/// The same in no order at all.
pub fn mixed_numbering(random: &mut Random, plan: &[u8]) -> Vec<u8> {
    number(random, &Tree::new(plan), Growth::Anywhere)
}

/// The same nodes below the same parents, the children of each in any order, and
/// all in any numbering.
pub fn any_order(random: &mut Random, plan: &[u8]) -> Vec<u8> {
    let mut tree = Tree::new(plan);
    tree.children.iter_mut().for_each(|children| shuffle(random, children));
    let growth = any_growth(random);
    number(random, &tree, growth)
}

fn any_growth(random: &mut Random) -> Growth {
    random.one_of(&[Growth::Anywhere, Growth::Deep, Growth::Deep, Growth::Wide])
}

/// Gives the numbers one after another to the next child of some node that has
/// one: of any, mostly of the latest, or mostly of the earliest.
fn number(random: &mut Random, tree: &Tree, growth: Growth) -> Vec<u8> {
    let mut plan = vec![tree.kind(0), NO_PARENT];
    let mut open = vec![(0, tree.children[0].as_slice())];
    open.retain(|(_, left)| !left.is_empty());
    while !open.is_empty() {
        let at = match growth {
            Growth::Deep if random.chance(90) => open.len() - 1,
            Growth::Wide if random.chance(90) => 0,
            _ => random.below(open.len()),
        };
        let (parent, left) = &mut open[at];
        let child = left[0];
        *left = &left[1..];
        let number = (plan.len() / 2) as u8;
        plan.extend([tree.kind(child), *parent]);
        open.push((number, &tree.children[child]));
        open.retain(|(_, left)| !left.is_empty());
    }
    plan
}

/// The tree of a plan in the fixed numbering.
pub fn fixed(plan: &[u8]) -> Vec<u8> {
    let tree = Tree::new(plan);
    let order = tree.subtree(0);
    let number = |node: usize| order.iter().position(|&other| other == node).map(|place| place as u8);
    let parent = |node: usize| tree.above(node).first().and_then(|&parent| number(parent));
    order.iter().flat_map(|&node| [tree.kind(node), parent(node).unwrap_or(NO_PARENT)]).collect()
}

/// Whether every subtree has its numbers together: none of them is as far behind
/// the first as the subtree has nodes.
pub fn is_fixed(plan: &[u8]) -> bool {
    let tree = Tree::new(plan);
    (0..plan.len() / 2).all(|node| {
        let subtree = tree.subtree(node);
        subtree.iter().all(|&below| below - node < subtree.len())
    })
}

/// Whether two plans are the same tree: equal kinds, and equal trees child by
/// child.
pub fn are_same_tree(one: &[u8], two: &[u8]) -> bool {
    fn are_same(one: &Tree, node: usize, two: &Tree, other: usize) -> bool {
        let (below, below_other) = (&one.children[node], &two.children[other]);
        one.kind(node) == two.kind(other)
            && below.len() == below_other.len()
            && below.iter().zip(below_other).all(|(&node, &other)| are_same(one, node, two, other))
    }
    are_same(&Tree::new(one), 0, &Tree::new(two), 0)
}

/// The kind and the depth of each node of a plan: its depth form, if it is in the
/// fixed numbering.
pub fn lines(plan: &[u8]) -> Vec<u8> {
    let tree = Tree::new(plan);
    (0..plan.len() / 2).flat_map(|node| [tree.kind(node), tree.above(node).len() as u8 + 1]).collect()
}

/// A plan with a chain of so many levels, tasks at some of its blocks, and in any
/// numbering.
pub fn deep(random: &mut Random, levels: usize) -> Vec<u8> {
    let mut plan = chain(random, levels);
    for _ in 0..random.between(1, 8) {
        plan.extend([TASK, random.below(levels - 1) as u8]);
    }
    any_numbering(random, &plan)
}

/// A depth form that is nearly right: that of a plan, be it good or damaged, with
/// up to two damages of its own. Now and then they cancel out.
pub fn damaged_form(random: &mut Random) -> Vec<u8> {
    let most = random.one_of(&[3, 8, 40, 160]);
    let plan = if random.chance(50) { damaged(random) } else { up_to(random, most) };
    let mut form = if has_tree(&plan) { lines(&fixed(&plan)) } else { plan };
    for _ in 0..random.below(3) {
        damage_form(random, &mut form);
    }
    form
}

/// Damages a line of a depth form, or its length.
fn damage_form(random: &mut Random, form: &mut Vec<u8>) {
    let Some(line) = any_node(random, form) else {
        return damage_length(random, form);
    };
    let depth = &mut form[2 * line + 1];
    match random.below(12) {
        0 => *depth = depth.wrapping_add(1),
        1 => *depth = depth.wrapping_add(2),
        2 => *depth = depth.wrapping_sub(1),
        3 => *depth = depth.wrapping_sub(2),
        4 => *depth = random.one_of(&[0, 1, 1, 2, 3, 32, 33, 34, 254, 255]),
        5 => *depth ^= random.one_of(&[0x80, 0x40, 0x20]),
        6 => form[1] = random.one_of(&[0, 2, 3, 129, 255]),
        7 => form[2 * line] = random.one_of(&[0, 9, 10, 128, 255]),
        8 => form[2 * line] = random.one_of(&[TASK, SERIAL, CONDITIONAL]),
        9 => drop(form.drain(2 * line..2 * line + 2)),
        10 => form.extend_from_within(2 * line..2 * line + 2),
        _ => damage_length(random, form),
    }
}

#[cfg(test)]
mod tests {
    use super::*;
    use crate::plans::of_size;
    use reference::exported::{check, from_depths};

    /// Numberings keep the tree and are of all sorts; another order of children is
    /// mostly another tree.
    #[test]
    fn numberings_are_of_every_sort() {
        let mut random = Random::new(7);
        let (mut in_order, mut out_of_order, mut same) = (0, 0, 0);
        for round in 0..3000 {
            let plan = of_size(&mut random, 1 + round % MOST_NODES);
            let other = any_numbering(&mut random, &plan);
            assert_eq!(check(&other), 0, "{other:02x?}");
            assert!(
                are_same_tree(&plan, &other) && fixed(&plan) == fixed(&other),
                "{plan:02x?} {other:02x?}"
            );
            assert_eq!(is_fixed(&other), fixed(&other) == other, "{other:02x?}");
            in_order += u32::from(is_fixed(&other));
            out_of_order += u32::from(!is_fixed(&other));
            let other = any_order(&mut random, &plan);
            assert_eq!(check(&other), 0, "{other:02x?}");
            assert_eq!(are_same_tree(&plan, &other), fixed(&plan) == fixed(&other), "{other:02x?}");
            same += u32::from(are_same_tree(&plan, &other));
        }
        assert!(in_order > 300 && out_of_order > 1500, "{in_order} {out_of_order}");
        assert!((300..1500).contains(&same), "{same}");
        assert_eq!(check(&deep(&mut random, 32)), 0);
        assert_eq!(check(&deep(&mut random, 33)), 6);
    }

    #[test]
    fn damaged_forms_meet_every_cause() {
        let mut random = Random::new(8);
        let mut met = [0; 18];
        for _ in 0..3000 {
            let form = damaged_form(&mut random);
            let number = from_depths(&form, &mut vec![0; form.len()]);
            met[number as usize] += 1;
        }
        assert!([0, 1, 2, 4, 5, 6, 17].iter().all(|&number| met[number] > 50) && met[3] == 0, "{met:?}");
    }
}
