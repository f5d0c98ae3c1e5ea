//! Forms of a plan, with one mistake each.

use super::Mistake;
use crate::driver::Tree;
use crate::implementation::{Implementation, Reference};
use crate::plans;

/// Renumbers a plan.
pub fn renumber(mistake: Mistake, plan: &[u8], out: &mut [u8]) -> u32 {
    let checked = Reference.check(plan);
    let fits = fits(mistake, Mistake::RenumberIntoMore, plan, out);
    if mistake == Mistake::RenumberLengthFirst && !fits {
        return 7;
    }
    if checked != 0 {
        return checked;
    }
    if mistake == Mistake::FixedPlanRefused && plans::is_fixed(plan) {
        return 18;
    }
    let written = numbered(mistake, plan, &order(mistake, plan));
    if fits || mistake == Mistake::ShortRenumberWrites {
        write(&written, out);
    }
    match mistake {
        _ if !fits => 7,
        Mistake::RenumberAnswersNodes => (plan.len() as u32 / 2) << 16,
        _ => 0,
    }
}

/// Whether what is lent is long enough.
fn fits(mistake: Mistake, into_more: Mistake, bytes: &[u8], out: &[u8]) -> bool {
    out.len() == bytes.len() || (mistake == into_more && out.len() > bytes.len())
}

/// Writes as much as there is space for.
pub fn write(bytes: &[u8], out: &mut [u8]) {
    out.iter_mut().zip(bytes).for_each(|(byte, &written)| *byte = written);
}

/// The nodes in the order that is taken for the fixed numbering.
fn order(mistake: Mistake, plan: &[u8]) -> Vec<usize> {
    let mut tree = Tree::new(plan);
    let kind = |node: &usize| plan[2 * node];
    match mistake {
        Mistake::ChildrenFalling => tree.children.iter_mut().for_each(|children| children.reverse()),
        Mistake::ChildrenByKind => {
            tree.children.iter_mut().for_each(|children| children.sort_by_key(kind));
        }
        Mistake::LevelByLevel => {
            let mut all: Vec<usize> = (0..plan.len() / 2).collect();
            all.sort_by_key(|&node| tree.above(node).len());
            return all;
        }
        Mistake::SiblingsTogether => return [vec![0], siblings_together(&tree, 0)].concat(),
        Mistake::TopSubtreesOnly => {
            let mut top: Vec<Vec<usize>> =
                tree.children[0].iter().map(|&child| tree.subtree(child)).collect();
            top.iter_mut().for_each(|subtree| subtree.sort_unstable());
            return [vec![0], top.concat()].concat();
        }
        Mistake::PlanCopied => return (0..plan.len() / 2).collect(),
        _ => {}
    }
    tree.subtree(0)
}

/// What is below a node: its children, and then what is below each of them.
fn siblings_together(tree: &Tree, node: usize) -> Vec<usize> {
    let children = &tree.children[node];
    let below = children.iter().flat_map(|&child| siblings_together(tree, child));
    children.iter().copied().chain(below).collect()
}

/// A plan with its nodes in this order.
fn numbered(mistake: Mistake, plan: &[u8], order: &[usize]) -> Vec<u8> {
    let number = |node: u8| order.iter().position(|&other| other == usize::from(node)).unwrap_or(0) as u8;
    let line = |(place, &node): (usize, &usize)| {
        let parent = plan[2 * node + 1];
        match mistake {
            Mistake::RootIsItsOwnParent if node == 0 => [plan[0], 0],
            _ if node == 0 => [plan[0], 0xff],
            Mistake::ParentsNotMoved => [plan[2 * node], parent],
            Mistake::KindsNotMoved => [plan[2 * place], number(parent)],
            _ => [plan[2 * node], number(parent)],
        }
    };
    order.iter().enumerate().flat_map(line).collect()
}

/// Writes the depth form of a plan.
pub fn to_depths(mistake: Mistake, plan: &[u8], out: &mut [u8]) -> u32 {
    let of_plan = (Reference.check(plan) != 0).then(|| Reference.check(plan));
    let of_length = (out.len() != plan.len()).then_some(7);
    let of_numbering = (plans::has_tree(plan) && !is_fixed(mistake, plan)).then_some(18);
    let is_tree_wrong = of_plan.is_some_and(|number| number < 4);
    let is_depth_wrong = of_plan == Some(6);
    let order = match mistake {
        Mistake::FormLengthFirst => [of_length, of_plan, of_numbering],
        Mistake::LengthBeforeNumbering => [of_plan, of_length, of_numbering],
        Mistake::NumberingBeforeTaskParents if !is_tree_wrong => [of_numbering, of_plan, of_length],
        Mistake::NumberingBeforeDepth if is_depth_wrong => [of_numbering, of_plan, of_length],
        _ => [of_plan, of_numbering, of_length],
    };
    let refused = order.into_iter().flatten().next();
    if refused.is_none() || (refused == Some(18) && mistake == Mistake::RefusedFormWrites) {
        write(&form(mistake, plan), out);
    }
    refused.unwrap_or(0)
}

/// Whether a plan is taken to be in the fixed numbering.
fn is_fixed(mistake: Mistake, plan: &[u8]) -> bool {
    let tree = Tree::new(plan);
    let above = |node: usize| tree.above(node);
    let parent_of_later = |node: usize| usize::from(plan[2 * node + 1]);
    let mut later = 1..plan.len() / 2;
    match mistake {
        Mistake::AnyNumberingHasAForm | Mistake::FormRenumbers => true,
        Mistake::OneLevelUpOnly => later.all(|node| {
            let parent = parent_of_later(node);
            parent == node - 1 || above(node - 1).first() == Some(&parent)
        }),
        Mistake::LastOfItsDepth => later.all(|node| {
            let parent = parent_of_later(node);
            (parent + 1..node).all(|other| above(other).len() != above(parent).len())
        }),
        _ => plans::is_fixed(plan),
    }
}

/// What is taken for the depth form.
fn form(mistake: Mistake, plan: &[u8]) -> Vec<u8> {
    let lines = match mistake {
        Mistake::FormRenumbers => plans::lines(&plans::fixed(plan)),
        Mistake::FormHasParents => plan.to_vec(),
        _ => plans::lines(plan),
    };
    let line = |line: &[u8]| match mistake {
        Mistake::FormDepthsFromZero => [line[0], line[1] - 1],
        Mistake::DepthBeforeKind => [line[1], line[0]],
        _ => [line[0], line[1]],
    };
    lines.chunks(2).flat_map(line).collect()
}

/// Writes the plan of a depth form.
pub fn from_depths(mistake: Mistake, depths: &[u8], out: &mut [u8]) -> u32 {
    let (lines, rest) = depths.as_chunks::<2>();
    let overlooks = mistake == Mistake::OddByteOverlooked;
    if lines.is_empty() || lines.len() > 160 || !(rest.is_empty() || overlooks) {
        return 1;
    }
    let cut = |depth: u8| if mistake == Mistake::FormDepthsCut { depth & 0x7f } else { depth };
    let lines: Vec<[u8; 2]> = lines.iter().map(|&[kind, depth]| [kind, cut(depth)]).collect();
    let plan = plan_of(mistake, &lines);
    let fits = fits(mistake, Mistake::FormIntoMore, &plan, out);
    let number = refusal_of_form(mistake, &lines, &plan, fits);
    let writes = mistake == Mistake::RefusedPlanWrites && number != 7;
    if number == 0 || writes {
        write(&plan, out);
    }
    match mistake {
        Mistake::FormAnswersLines if number == 0 => (lines.len() as u32) << 16,
        _ => number,
    }
}

/// What is found first.
fn refusal_of_form(mistake: Mistake, lines: &[[u8; 2]], plan: &[u8], fits: bool) -> u32 {
    let checked = Reference.check(plan);
    let is = |number: u32| (checked == number).then_some(number);
    let of_depths = (!are_right(mistake, lines)).then_some(match mistake {
        Mistake::WrongDepthIs3 => 3,
        _ => 17,
    });
    let of_length = (!fits).then_some(7);
    let of_tree = is(4).or(is(5)).or(is(6));
    let order = match mistake {
        Mistake::DepthsBeforeKinds => [of_depths, is(2), of_tree, of_length, None],
        Mistake::DepthsAfterTaskParents => [is(2), is(4), of_depths, of_tree, of_length],
        Mistake::DepthsAfterTree => [is(2), of_tree, of_depths, of_length, None],
        Mistake::LengthBeforeDepths => [is(2), of_length, of_depths, of_tree, None],
        _ => [is(2), of_depths, of_tree, of_length, None],
    };
    order.into_iter().flatten().next().unwrap_or(0)
}

/// Whether the depths are taken to be right.
fn are_right(mistake: Mistake, lines: &[[u8; 2]]) -> bool {
    let is_first_right = lines[0][1] == 1 || mistake == Mistake::FirstDepthUnchecked;
    let follows = |pair: &[[u8; 2]]| {
        let [before, depth] = [pair[0][1], pair[1][1]].map(u32::from);
        let least = match mistake {
            Mistake::LaterDepthOne => 1,
            Mistake::FallsByOneOnly => 2.max(before.saturating_sub(1)),
            _ => 2,
        };
        let most = match mistake {
            Mistake::JumpOfTwo => before + 2,
            Mistake::TooDeepIs17 => 32.min(before + 1),
            _ => before + 1,
        };
        (least..=most).contains(&depth)
    };
    is_first_right && lines.windows(2).all(follows)
}

/// The plan of a form whose depths may be wrong: where there is no line that is one
/// less deep, the one before is the parent.
fn plan_of(mistake: Mistake, lines: &[[u8; 2]]) -> Vec<u8> {
    let parent = |place: usize| {
        let is_parent = |&[_, depth]: &[u8; 2]| u32::from(depth) + 1 == u32::from(lines[place][1]);
        let before = &lines[..place];
        match mistake {
            Mistake::FirstLineLessDeep => before.iter().position(is_parent),
            _ => before.iter().rposition(is_parent),
        }
        .or(place.checked_sub(1))
    };
    let root = if mistake == Mistake::FormRootIsItself { 0 } else { 0xff };
    let line = |place: usize| [lines[place][0], parent(place).map_or(root, |parent| parent as u8)];
    (0..lines.len()).flat_map(line).collect()
}
