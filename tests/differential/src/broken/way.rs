//! Ways there, with one mistake each.

use super::Mistake;
use crate::codes::{CONDITIONAL, XOR};
use crate::driver::Tree;
use crate::implementation::{Implementation, Reference, Wanted};
use crate::trial::without_unread;
use reference::plan::Plan;
use reference::way::{Search, Target};

/// Looks for the way to a target.
pub fn way(mistake: Mistake, plan: &[u8], wanted: Wanted, answers: &mut [u8]) -> u32 {
    let checked = Reference.check(plan);
    if checked != 0 {
        return checked;
    }
    let target = match target(mistake, plan, wanted, answers.len()) {
        Ok(target) => target,
        Err(refused) => return refused,
    };
    if mistake == Mistake::AnswersThatLeadStay && leads(plan, target, answers) {
        return 0;
    }
    let Some(found) = find(mistake, plan, target) else {
        if mistake == Mistake::RefusedWayWrites {
            answers.fill(0);
        }
        return 30;
    };
    leave(mistake, plan, &found, answers)
}

/// The target as it is understood, or the number that is found first.
fn target(mistake: Mistake, plan: &[u8], wanted: Wanted, length: usize) -> Result<Target, u32> {
    let nodes = plan.len() / 2;
    let cut = |number: u32, by: Mistake| if mistake == by { number & 0xff } else { number };
    let node = cut(wanted.node, Mistake::TargetNodeCut);
    let mark = cut(wanted.mark, Mistake::TargetMarkCut);
    let end = cut(wanted.end, Mistake::TargetEndCut);
    let is_mark = match mistake {
        Mistake::AnyMarkWanted => mark <= 5,
        Mistake::TurnedDownNotWanted => matches!(mark, 0 | 3 | 4),
        Mistake::NotStartedNotWanted => matches!(mark, 3..=5),
        _ => matches!(mark, 0 | 3 | 4 | 5),
    };
    let is_end = if mistake == Mistake::AnyEndWanted { end <= 5 } else { matches!(end, 3 | 4) };
    let of_length = (length != nodes).then_some(7);
    let of_node = (node as usize >= nodes).then_some(8);
    let of_target = (!is_mark || !is_end).then_some(29);
    let order = match mistake {
        Mistake::TargetBeforeLength => [of_node, of_target, of_length],
        Mistake::TargetBeforeNode => [of_length, of_target, of_node],
        _ => [of_length, of_node, of_target],
    };
    match order.into_iter().flatten().next() {
        Some(refused) => Err(refused),
        None => Ok(Target { node: node as usize, mark: mark as u8, end: end as u8 }),
    }
}

/// The list that is taken for the way.
fn find(mistake: Mistake, plan: &[u8], target: Target) -> Option<Vec<u8>> {
    let Target { node, mark, end } = target;
    let to = |mark, end| {
        let possible = matches!((mark, end), (0 | 3 | 4 | 5, 3 | 4));
        possible.then(|| search(mistake, plan, Target { node, mark, end })).flatten()
    };
    let to_end = || search(mistake, plan, Target { node: 0, mark: end, end });
    let found = match mistake {
        Mistake::EndNotLookedAt => smaller(to(mark, 3), to(mark, 4)),
        Mistake::MarkNotLookedAt => to_end(),
        Mistake::NoWayGivesTheEnd => to(mark, end).or_else(to_end),
        Mistake::OfferIsEnough if mark == 3 => smaller(to(3, end), to(5, end)),
        _ => to(mark, end),
    }?;
    let tree = Tree::new(plan);
    let marks = marks_of(plan, &found).unwrap_or_default();
    let above = tree.above(node);
    let is_lost = match mistake {
        Mistake::OnlyTheParentLeavesOut => mark == 0 && above.first().is_some_and(|&block| marks[block] == 0),
        Mistake::CommitsOnlyIfAllAboveDo => mark == 3 && above.iter().any(|&block| marks[block] != 3),
        _ => false,
    };
    (!is_lost).then_some(found)
}

/// Fixes answer by answer, in an order and with bytes that may be wrong.
fn search(mistake: Mistake, plan: &[u8], target: Target) -> Option<Vec<u8>> {
    let checked = Plan::check(plan).ok()?;
    let tree = Tree::new(plan);
    let mut search = Search::new(checked, target);
    let mut list = vec![0; plan.len() / 2];
    let order = match mistake {
        Mistake::SubtreesInTurn => tree.subtree(0),
        Mistake::LastNodeFirst => (0..list.len()).rev().collect(),
        _ => (0..list.len()).collect(),
    };
    for node in order {
        let leads = |&answer: &u8| {
            search.fix(node, answer);
            search.leads()
        };
        list[node] = bytes(mistake, &tree, node).into_iter().find(leads)?;
    }
    Some(list)
}

/// The bytes that are tried at a node, in order.
fn bytes(mistake: Mistake, tree: &Tree, node: usize) -> Vec<u8> {
    let kind = tree.kind(node);
    let highest = match kind {
        XOR => tree.children[node].len() as u8,
        _ if tree.children[node].is_empty() || kind == CONDITIONAL => 2,
        _ => 0,
    };
    let mut bytes: Vec<u8> = (0..=highest).collect();
    match mistake {
        Mistake::LargestWay => bytes.reverse(),
        Mistake::ZeroLast => bytes.rotate_left(1),
        Mistake::NoneOffersLast if kind == XOR => bytes.rotate_left(1),
        Mistake::NeverTheLastChild if kind == XOR => bytes.truncate(usize::from(highest)),
        Mistake::PlacesBelow32 => bytes.truncate(32),
        Mistake::NeverNo if kind == CONDITIONAL => bytes.truncate(2),
        _ => {}
    }
    bytes
}

/// The smaller of two lists, if there are any.
fn smaller(one: Option<Vec<u8>>, two: Option<Vec<u8>>) -> Option<Vec<u8>> {
    one.into_iter().chain(two).min()
}

/// Writes what was found.
fn leave(mistake: Mistake, plan: &[u8], found: &[u8], answers: &mut [u8]) -> u32 {
    let before = answers.to_vec();
    let marks = marks_of(plan, found).unwrap_or_default();
    let is_read = |node: usize| without_unread(plan, &vec![1; marks.len()], &marks)[node] == 1;
    answers.copy_from_slice(found);
    for node in 0..answers.len() {
        match mistake {
            Mistake::UnreadAnswersOne if !is_read(node) => answers[node] = 1,
            Mistake::UnreadAnswersStay if !is_read(node) => answers[node] = before[node],
            Mistake::PlacesFromZero if plan[2 * node] == XOR => {
                answers[node] = answers[node].saturating_sub(1);
            }
            _ => {}
        }
    }
    if mistake == Mistake::WayAnswersItsLength { (answers.len() as u32) << 16 } else { 0 }
}

/// Whether answers lead to a target.
fn leads(plan: &[u8], target: Target, answers: &[u8]) -> bool {
    let marks = marks_of(plan, answers);
    marks.is_some_and(|marks| (marks[target.node], marks[0]) == (target.mark, target.end))
}

/// The marks of the pass over these answers.
fn marks_of(plan: &[u8], answers: &[u8]) -> Option<Vec<u8>> {
    let mut marks = vec![0; answers.len()];
    (Reference.pass(plan, answers, &mut marks) == 0).then_some(marks)
}
