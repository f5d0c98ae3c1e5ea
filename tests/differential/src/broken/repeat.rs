//! Templates that are repeated, with one mistake each.

use super::Mistake;
use super::forms::write;
use crate::codes::{AND, CONTINGENCY, OR, SERIAL, TASK, WAITING_AND, XOR};
use crate::driver::Tree;
use crate::implementation::{Implementation, Reference};
use crate::plans;

/// The bytes that must be lent.
const MOST_BYTES: usize = 320;

/// A template as it is understood.
struct Template<'a> {
    plan: &'a [u8],
    tree: Tree,
    marked: usize,
    count: usize,
}

impl Template<'_> {
    /// The nodes below the marked one.
    fn length(&self) -> usize {
        self.tree.subtree(self.marked).len() - 1
    }

    /// How many nodes the repeated plan has.
    fn nodes(&self, mistake: Mistake) -> usize {
        let nodes = self.plan.len() / 2;
        match mistake {
            Mistake::SizeOfWholeTemplates => self.count.saturating_mul(nodes),
            _ => self.count.saturating_sub(1).saturating_mul(self.length()).saturating_add(nodes),
        }
    }
}

/// Repeats a template.
pub fn repeat(mistake: Mistake, plan: &[u8], node: u32, count: u32, out: &mut [u8]) -> u32 {
    let has_length = out.len() == MOST_BYTES
        || (mistake == Mistake::RepeatIntoMore && out.len() > MOST_BYTES)
        || mistake == Mistake::RepeatIntoEnough;
    let checked = Reference.check(plan);
    if checked != 0 {
        return if mistake == Mistake::RepeatLengthFirst && !has_length { 7 } else { checked };
    }
    let (node, count) = understood(mistake, plan, node, count);
    let is_there = (node as usize) < plan.len() / 2;
    let template = is_there.then(|| Template {
        plan,
        tree: Tree::new(plan),
        marked: node as usize,
        count: count as usize,
    });
    let refused = refusal(mistake, template.as_ref(), count, has_length);
    let Some(template) = template else {
        return refused;
    };
    if refused != 0 {
        if refused == 25 && mistake == Mistake::RefusedRepeatWrites {
            write(&written(mistake, template), out);
        }
        return refused;
    }
    let written = written(mistake, template);
    if out.len() < written.len() {
        return 7;
    }
    write(&written, out);
    if mistake == Mistake::RepeatClearsTheRest {
        out[written.len()..].fill(0);
    }
    let value = match mistake {
        Mistake::NodesLeftOut => 0,
        Mistake::BytesForNodes => written.len(),
        Mistake::NodesOfTheTemplate => plan.len() / 2,
        _ => written.len() / 2,
    };
    (value as u32) << 16
}

/// What the numbers are taken for.
fn understood(mistake: Mistake, plan: &[u8], node: u32, count: u32) -> (u32, u32) {
    let tree = Tree::new(plan);
    let is_there = (node as usize) < plan.len() / 2;
    match mistake {
        Mistake::MarkCut => (node & 0xff, count),
        Mistake::CountCut => (node, count & 0xff),
        Mistake::CountOfNone => (node, count.max(1)),
        Mistake::OneTimeMore if (1..=32).contains(&count) => (node, count + 1),
        Mistake::ChildIsMarked if is_there => {
            (tree.above(node as usize).first().map_or(node, |&parent| parent as u32), count)
        }
        Mistake::MarkByTheNewNumber if is_there => (tree.subtree(0)[node as usize] as u32, count),
        Mistake::FirstBlockMarked if is_there && plans::is_template(plan, node as usize) => {
            ((0..node).find(|&other| plans::is_template(plan, other as usize)).unwrap_or(node), count)
        }
        _ => (node, count),
    }
}

/// What is found first; 0 if nothing is.
fn refusal(mistake: Mistake, template: Option<&Template>, count: u32, has_length: bool) -> u32 {
    let most = match mistake {
        Mistake::CountTo33 | Mistake::OneTimeMore => 33,
        Mistake::CountBelow32 => 31,
        _ => 32,
    };
    let most_nodes = if mistake == Mistake::FullPlanRefused { 159 } else { 160 };
    let of_length = (!has_length).then_some(7);
    let of_node = template.is_none().then_some(if mistake == Mistake::NoSuchNodeIs23 { 23 } else { 8 });
    let of_block = template.filter(|template| !can_be_marked(mistake, template)).map(|template| {
        let is_task = template.tree.kind(template.marked) == TASK;
        if is_task && mistake == Mistake::MarkedTaskIs9 { 9 } else { 23 }
    });
    let of_count = (!(1..=most).contains(&count)).then_some(24);
    let of_size = template
        .filter(|template| template.nodes(mistake) > most_nodes)
        .map(|_| if mistake == Mistake::TooManyNodesIs1 { 1 } else { 25 });
    let order = match mistake {
        Mistake::NodeBeforeLength => [of_node, of_length, of_block, of_count, of_size],
        Mistake::RepeatLengthLast => [of_node, of_block, of_count, of_size, of_length],
        Mistake::CountBeforeNode => [of_length, of_count, of_node, of_block, of_size],
        Mistake::CountBeforeBlock => [of_length, of_node, of_count, of_block, of_size],
        Mistake::SizeBeforeBlock => [of_length, of_node, of_size, of_block, of_count],
        Mistake::SizeBeforeCount => [of_length, of_node, of_block, of_size, of_count],
        _ => [of_length, of_node, of_block, of_count, of_size],
    };
    order.into_iter().flatten().next().unwrap_or(0)
}

/// Whether the node is taken for one that can be marked.
fn can_be_marked(mistake: Mistake, template: &Template) -> bool {
    let Template { tree, marked, .. } = template;
    let children = tree.children[*marked].len();
    let is_kind = match tree.kind(*marked) {
        AND => true,
        OR => mistake != Mistake::OrNotRepeated,
        XOR => mistake != Mistake::XorNotRepeated,
        WAITING_AND => mistake != Mistake::WaitingAndNotRepeated,
        SERIAL | CONTINGENCY => mistake == Mistake::SerialsRepeated,
        _ => false,
    };
    let has_children = match mistake {
        Mistake::SeveralChildrenRepeated | Mistake::FirstChildRepeated => children > 0,
        _ => children == 1,
    };
    is_kind && has_children && !(mistake == Mistake::RootNotMarked && *marked == 0)
}

/// What is taken for the repeated plan.
fn written(mistake: Mistake, template: Template) -> Vec<u8> {
    let (count, length) = (template.count, template.length());
    if mistake == Mistake::OnceIsACopy && count == 1 {
        return template.plan.to_vec();
    }
    if mistake == Mistake::TemplateNotRenumbered {
        return with_copies_behind(template.plan, template.marked, count);
    }
    let fixed = plans::fixed(template.plan);
    let order = template.tree.subtree(0);
    let marked = order.iter().position(|&node| node == template.marked).unwrap_or(0);
    let first = marked + 1;
    match mistake {
        Mistake::CopiesBehindThePlan => return with_copies_behind(&fixed, marked, count),
        Mistake::BehindLeftOut => return visited(mistake, template)[..2 * (first + count * length)].to_vec(),
        _ => {}
    }
    let mut plan = visited(mistake, template);
    let line = |(number, node): (usize, &mut [u8])| {
        let copy = number.saturating_sub(first).checked_div(length).unwrap_or(0);
        let is_behind = number >= first && copy >= count;
        let is_inside = number >= first && copy > 0 && !is_behind;
        let parent = usize::from(node[1]);
        let parent = match mistake {
            Mistake::InnerParentsStay if is_inside && parent != marked => parent - copy * length,
            Mistake::CopiesBelowEachOther if is_inside && parent == marked => number - length,
            Mistake::ParentsBehindStay if is_behind && parent > marked => parent - (count - 1) * length,
            _ => parent,
        };
        node[1] = parent as u8;
    };
    plan.chunks_mut(2).enumerate().for_each(line);
    plan
}

/// A plan as it stands, and behind it all copies but the first.
fn with_copies_behind(plan: &[u8], marked: usize, count: usize) -> Vec<u8> {
    let tree = Tree::new(plan);
    let mut written = plan.to_vec();
    for _ in 1..count {
        let copied = &tree.subtree(marked)[1..];
        let start = written.len() / 2;
        for &node in copied {
            let parent = usize::from(plan[2 * node + 1]);
            let place = copied.iter().position(|&other| other == parent);
            written.extend([plan[2 * node], place.map_or(marked, |place| start + place) as u8]);
        }
    }
    written
}

/// The tree that is taken for the repeated one, as a walk over it comes by.
fn visited(mistake: Mistake, template: Template) -> Vec<u8> {
    fn visit(tree: &Tree, node: usize, parent: u8, marked: Option<usize>, written: &mut Vec<u8>) {
        let number = (written.len() / 2) as u8;
        written.extend([tree.kind(node), parent]);
        let children = tree.children[node].iter().enumerate();
        for (place, &child) in children {
            match marked {
                // a copy of the child, without what is below it
                Some(marked) if marked == node && place > 0 => written.extend([tree.kind(child), number]),
                _ => visit(tree, child, number, marked, written),
            }
        }
    }
    let Template { mut tree, marked, count, .. } = template;
    let above = tree.above(marked).first().copied();
    let below = tree.children[marked].clone();
    match (mistake, above) {
        (Mistake::BlockRepeated, Some(above)) => {
            let repeated = |&child: &usize| vec![child; if child == marked { count } else { 1 }];
            tree.children[above] = tree.children[above].iter().flat_map(repeated).collect();
        }
        (Mistake::FirstChildRepeated, _) => {
            tree.children[marked] = [vec![below[0]; count - 1], below].concat();
        }
        _ => tree.children[marked] = below.repeat(count),
    }
    let alone = (mistake == Mistake::OnlyTheChildRepeated).then_some(marked);
    let mut written = vec![];
    visit(&tree, 0, 0xff, alone, &mut written);
    written
}
