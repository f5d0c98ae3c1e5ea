//! Templates, and what comes of repeating them by the tree.

use super::{MOST_NODES, NO_PARENT, any_numbering, of_size, up_to};
use crate::codes::{AND, OR, TASK, WAITING_AND, XOR};
use crate::driver::Tree;
use crate::random::Random;

/// Kinds of blocks that can be marked.
const KINDS: [u8; 4] = [AND, OR, XOR, WAITING_AND];

/// Stands for the marked block's kind while its number is not known yet.
const TAG: u8 = 0;

/// Whether a node of a valid plan can be marked.
pub fn is_template(plan: &[u8], node: usize) -> bool {
    KINDS.contains(&plan[2 * node]) && Tree::new(plan).children[node].len() == 1
}

/// The tree in which everything below the marked node stands so many times, written
/// as a walk over it comes by; no number of nodes is too many.
pub fn repeated(plan: &[u8], marked: usize, count: usize) -> Vec<u8> {
    fn visit(tree: &Tree, node: usize, parent: u8, written: &mut Vec<u8>) {
        let number = (written.len() / 2) as u8;
        written.extend([tree.kind(node), parent]);
        tree.children[node].iter().for_each(|&child| visit(tree, child, number, written));
    }
    let mut tree = Tree::new(plan);
    tree.children[marked] = tree.children[marked].repeat(count);
    let mut written = vec![];
    visit(&tree, 0, NO_PARENT, &mut written);
    written
}

/// A template of up to so many nodes, in any numbering, and its marked node. What is
/// below the marked block and what is around it are plans of any shape.
pub fn template(random: &mut Random, most: usize) -> (Vec<u8>, usize) {
    loop {
        let around = up_to(random, most - 1);
        let below = up_to(random, most - around.len() / 2);
        if let Some(template) = joined(random, around, &below) {
            return template;
        }
    }
}

/// A template, its marked node and a count with which it comes to 160 nodes or to one
/// or two more or fewer, in most cases.
pub fn limit_template(random: &mut Random) -> (Vec<u8>, usize, usize) {
    loop {
        let nodes = random.between(MOST_NODES - 1, MOST_NODES + 2);
        let count = random.between(2, 32);
        let most = (nodes - 1) / count;
        let below = up_to(random, most);
        let around = of_size(random, (nodes - count * below.len() / 2).min(MOST_NODES - most));
        if let Some((plan, marked)) = joined(random, around, &below) {
            return (plan, marked, count);
        }
    }
}

/// A plan in which one of the tasks has become the marked block, with another plan
/// below it, if that is not too deep.
fn joined(random: &mut Random, mut around: Vec<u8>, below: &[u8]) -> Option<(Vec<u8>, usize)> {
    let nodes = around.len() / 2;
    let tasks: Vec<usize> = (0..nodes).filter(|&node| around[2 * node] == TASK).collect();
    let marked = random.one_of(&tasks);
    around[2 * marked] = TAG;
    around.extend([below[0], marked as u8]);
    around.extend(below[2..].chunks(2).flat_map(|node| [node[0], node[1] + nodes as u8]));
    let mut plan = if random.chance(80) { any_numbering(random, &around) } else { around };
    let marked = plan.iter().step_by(2).position(|&kind| kind == TAG)?;
    plan[2 * marked] = random.one_of(&KINDS);
    (reference::exported::check(&plan) == 0).then_some((plan, marked))
}

#[cfg(test)]
mod tests {
    use super::*;
    use crate::plans::is_fixed;

    /// Templates are marked where they can be, and of every sort; those at the limit
    /// come to 160 nodes and to 161 often enough.
    #[test]
    fn templates_are_of_every_sort() {
        let mut random = Random::new(9);
        let (mut out_of_order, mut at_root, mut with_subtree, mut behind) = (0, 0, 0, 0);
        for round in 0..2000 {
            let (plan, marked) = template(&mut random, 2 + round % 60);
            assert!(is_template(&plan, marked), "{plan:02x?} {marked}");
            let below = Tree::new(&plan).subtree(marked);
            out_of_order += u32::from(!is_fixed(&plan));
            at_root += u32::from(marked == 0);
            with_subtree += u32::from(below.len() > 2);
            behind += u32::from(below.contains(&(plan.len() / 2 - 1)));
        }
        let all = [out_of_order, at_root, with_subtree, 2000 - behind];
        assert!(all.iter().all(|&count| count > 100), "{all:?}");
        let mut sizes = [0; 4];
        for _ in 0..2000 {
            let (plan, marked, count) = limit_template(&mut random);
            assert!(is_template(&plan, marked), "{plan:02x?} {marked}");
            let nodes = repeated(&plan, marked, count).len() / 2;
            sizes
                .iter_mut()
                .zip(MOST_NODES - 1..)
                .filter(|(_, size)| *size == nodes)
                .for_each(|(met, _)| *met += 1);
        }
        assert!(sizes.iter().all(|&met| met > 200), "{sizes:?}");
    }

    #[test]
    fn subtrees_stand_side_by_side() {
        let plan = [2, 0xff, 3, 0, 1, 0, 2, 1, 1, 3];
        assert_eq!(repeated(&plan, 1, 2), [2, 0xff, 3, 0, 2, 1, 1, 2, 2, 1, 1, 4, 1, 0]);
        assert_eq!(repeated(&plan, 1, 1), [2, 0xff, 3, 0, 2, 1, 1, 2, 1, 0]);
        assert!(is_template(&plan, 1) && !is_template(&plan, 0) && !is_template(&plan, 3));
    }
}
