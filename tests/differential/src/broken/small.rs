//! Small plans, one after another, with one mistake each.

use super::Mistake;
use super::forms::write;
use crate::codes::{CONDITIONAL, SERIAL, TASK, WAITING_AND, XOR};
use crate::driver::Tree;
use crate::implementation::{Implementation, Reference};
use crate::plans::{self, MOST_SMALL_BYTES};
use std::cell::OnceCell;
use std::sync::LazyLock;

/// The plan that is left out where one is: an xor above a conditional.
const LEFT_OUT: [u8; 10] = [XOR, 0xff, CONDITIONAL, 0, TASK, 1, TASK, 0, TASK, 1];

/// All that would be small plans if conditionals could have any number of children.
static ANY_BRANCHES: LazyLock<Vec<Vec<u8>>> = LazyLock::new(|| {
    let mut open = vec![vec![]];
    let mut all = vec![];
    for number in 0..MOST_SMALL_BYTES / 2 {
        let parents: Vec<u8> = if number == 0 { vec![0xff] } else { (0..number as u8).collect() };
        let nodes =
            || (TASK..=WAITING_AND).flat_map(|kind| parents.iter().map(move |&parent| [kind, parent]));
        let longer = |plan: &Vec<u8>| nodes().map(|node| [plan, &node[..]].concat()).collect::<Vec<_>>();
        open = open.iter().flat_map(longer).filter(|plan| !has_child_of_task(plan)).collect();
        all.extend(open.iter().filter(|plan| has_no_empty_block(plan)).cloned());
    }
    all
});

fn has_child_of_task(plan: &[u8]) -> bool {
    plan[2..].chunks(2).any(|node| plan[2 * usize::from(node[1])] == TASK)
}

fn has_no_empty_block(plan: &[u8]) -> bool {
    let tree = Tree::new(plan);
    (0..plan.len() / 2).all(|node| (tree.kind(node) == TASK) == tree.children[node].is_empty())
}

/// What is taken for all small plans, in what is taken for their order.
pub struct List {
    mistake: Mistake,
    plans: OnceCell<Vec<Vec<u8>>>,
}

impl List {
    /// The list of a mistake; it is made when it is needed.
    pub fn new(mistake: Mistake) -> List {
        List { mistake, plans: OnceCell::new() }
    }

    fn plans(&self) -> &[Vec<u8>] {
        self.plans.get_or_init(|| {
            let mut plans: Vec<Vec<u8>> = match self.mistake {
                Mistake::ThreeBranchesCome | Mistake::OneBranchComes => ANY_BRANCHES.clone(),
                Mistake::LoneBlocksCome => {
                    let lone = (SERIAL..=WAITING_AND).map(|kind| vec![kind, 0xff]);
                    lone.chain(plans::small().iter().cloned()).collect()
                }
                _ => plans::small().to_vec(),
            };
            plans.retain(|plan| comes(self.mistake, plan));
            plans.sort_by_key(|plan| key(self.mistake, plan));
            plans
        })
    }

    /// How many plans of the list do not come after one.
    fn place(&self, plan: &[u8]) -> usize {
        let own = key(self.mistake, plan);
        self.plans().partition_point(|other| key(self.mistake, other) <= own)
    }

    /// What is taken for the next plan.
    fn after(&self, plan: &[u8]) -> Option<Vec<u8>> {
        let place = match self.mistake {
            Mistake::NextOfTheRenumbered if Reference.check(plan) == 0 => self.place(&plans::fixed(plan)),
            _ => self.place(plan),
        };
        let is_last = place == self.plans().len();
        let place = match self.mistake {
            Mistake::SkipsEverySecond => place + 1,
            Mistake::GoesBack if !is_last => place.saturating_sub(2),
            Mistake::StaysWhereItIs if !is_last => place.saturating_sub(1),
            Mistake::StaysAtTheLast if is_last => place - 1,
            Mistake::WrapsAround if is_last => 0,
            _ => place,
        };
        self.plans().get(place).cloned()
    }

    /// Writes the next plan.
    pub fn next_plan(&self, plan: &[u8], out: &mut [u8]) -> u32 {
        let mistake = self.mistake;
        let next = if plan.is_empty() { None } else { self.after(plan) };
        let refused = self.refusal(plan, next.as_deref(), out.len());
        let writes_all_the_same = match refused {
            26 => mistake == Mistake::RefusedNextWrites,
            7 => mistake == Mistake::ShortNextWrites,
            _ => false,
        };
        if writes_all_the_same {
            write(next.as_deref().unwrap_or(&[TASK, 0xff]), out);
        }
        let Some(next) = next.filter(|_| refused == 0) else {
            return refused;
        };
        self.put(plan, &next, out);
        let value = match mistake {
            Mistake::NextNodesLeftOut => 0,
            Mistake::NextBytesForNodes => next.len(),
            Mistake::NodesOfThePlanBefore => plan.len() / 2,
            _ => next.len() / 2,
        };
        (value as u32) << if mistake == Mistake::NextNodesAsASite { 8 } else { 16 }
    }

    /// What is found first; 0 if nothing is.
    fn refusal(&self, plan: &[u8], next: Option<&[u8]>, length: usize) -> u32 {
        let mistake = self.mistake;
        let nodes = plan.len() / 2;
        let most = if mistake == Mistake::FourNodesAtMost { 4 } else { 5 };
        let of_plan = Some(Reference.check(plan)).filter(|&number| match mistake {
            Mistake::UncheckedPlansGoOn => number == 1 || number > 1 && plan.len() > MOST_SMALL_BYTES,
            Mistake::NotSmallBeforeDepth => !matches!(number, 0 | 6),
            _ => number != 0,
        });
        let is_small = nodes <= most && plan.len() <= MOST_SMALL_BYTES;
        let of_size = (!is_small).then_some(match mistake {
            Mistake::NotSmallIs26 => 26,
            Mistake::NotSmallIs1 => 1,
            Mistake::SixNodesAre26 if nodes == 6 => 26,
            _ => 27,
        });
        let is_last = match mistake {
            Mistake::LastOfASizeIs26 => next.is_none_or(|next| next.len() > plan.len() && nodes > 1),
            Mistake::LastByItsFront => nodes == 5 && plan.starts_with(&[WAITING_AND, 0xff, WAITING_AND, 0]),
            _ => next.is_none(),
        };
        let of_last = is_last.then_some(if mistake == Mistake::LastIs27 { 27 } else { 26 });
        let fits = match (mistake, next) {
            (Mistake::NextIntoEnough, Some(next)) => length >= next.len(),
            (Mistake::NextIntoMore, _) => length >= MOST_SMALL_BYTES,
            (Mistake::NextIntoItsLength, Some(next)) => length == next.len(),
            _ => length == MOST_SMALL_BYTES,
        };
        let of_length = (!fits).then_some(7);
        let is_counted = of_plan == Some(1);
        let order = match mistake {
            Mistake::NextLengthFirst => [of_length, of_plan, of_size, of_last],
            Mistake::LengthBeforeLast => [of_plan, of_size, of_length, of_last],
            Mistake::LengthBeforeNotSmall if of_size.is_some() => [of_plan, of_length, of_size, of_last],
            Mistake::NotSmallBeforeLength => [of_size, of_plan, of_last, of_length],
            Mistake::NotSmallBeforeKinds if !is_counted => [of_size, of_plan, of_last, of_length],
            _ => [of_plan, of_size, of_last, of_length],
        };
        order.into_iter().flatten().next().unwrap_or(0)
    }

    /// Writes the next plan where it is taken to belong.
    fn put(&self, plan: &[u8], next: &[u8], out: &mut [u8]) {
        match self.mistake {
            Mistake::NextAtTheBack => {
                let front = out.len() - next.len();
                write(next, &mut out[front..]);
            }
            Mistake::OnlyChangesWritten => {
                let same = next.iter().zip(plan).take_while(|(new, old)| new == old).count();
                write(&next[same..], &mut out[same..]);
            }
            _ => write(next, out),
        }
        match self.mistake {
            Mistake::NextClearsTheRest => out[next.len()..].fill(0),
            Mistake::NextRootBelowZero => out[1] = 0,
            _ => {}
        }
    }
}

/// Whether a plan is taken for a small one that comes.
fn comes(mistake: Mistake, plan: &[u8]) -> bool {
    let tree = Tree::new(plan);
    let nodes = || 0..plan.len() / 2;
    let has = |kind: u8| nodes().any(|node| tree.kind(node) == kind);
    let branches = |most: usize| {
        let is_right = |node: usize| tree.kind(node) != CONDITIONAL || tree.children[node].len() <= most;
        nodes().all(is_right)
    };
    let mut of_size = plans::small().iter().filter(|other| other.len() == plan.len());
    match mistake {
        Mistake::FourNodesAtMost => plan.len() <= 8,
        Mistake::OnePlanLeftOut => plan != LEFT_OUT,
        Mistake::FirstOfASizeLeftOut => plan.len() == 2 || of_size.next().is_none_or(|first| plan != first),
        Mistake::LastOfASizeLeftOut => {
            matches!(plan.len(), 2 | MOST_SMALL_BYTES) || of_size.next_back().is_none_or(|last| plan != last)
        }
        Mistake::SmallWithoutXor => !has(XOR),
        Mistake::SmallWithoutConditional => !has(CONDITIONAL),
        Mistake::SmallWithoutWaitingAnd => !has(WAITING_AND),
        Mistake::FixedNumberingsAlone => plans::is_fixed(plan),
        Mistake::LevelByLevelAlone => plan[2..].chunks(2).is_sorted_by_key(|node| node[1]),
        Mistake::FiveLevelsLeftOut => nodes().all(|node| tree.above(node).len() < 4),
        Mistake::FourChildrenLeftOut => tree.children.iter().all(|children| children.len() < 4),
        Mistake::TwoConditionalsLeftOut => nodes().filter(|&node| tree.kind(node) == CONDITIONAL).count() < 2,
        Mistake::ThreeBranchesCome => {
            branches(3) && nodes().all(|node| tree.kind(node) != CONDITIONAL || tree.children[node].len() > 1)
        }
        Mistake::OneBranchComes => branches(2),
        _ => true,
    }
}

/// What small plans are compared by.
fn key(mistake: Mistake, plan: &[u8]) -> Vec<u8> {
    let length = plan.len().min(0xff) as u8;
    let kinds = || plan.iter().step_by(2).copied();
    let parents = || plan.iter().skip(1).step_by(2).copied();
    let bytes = plan.iter().copied();
    match mistake {
        Mistake::BytesAlone => plan.to_vec(),
        Mistake::BytesFalling => [length].into_iter().chain(bytes.map(|byte| !byte)).collect(),
        Mistake::BytesFromTheEnd => [length].into_iter().chain(bytes.rev()).collect(),
        Mistake::OrderByKinds => [length].into_iter().chain(kinds()).chain(parents()).collect(),
        Mistake::OrderByParents => [length].into_iter().chain(parents()).chain(kinds()).collect(),
        Mistake::SizesFalling => [!length].into_iter().chain(bytes).collect(),
        _ => [length].into_iter().chain(bytes).collect(),
    }
}
