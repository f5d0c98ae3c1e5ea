//! Proposes the steps of a simulation, so that the job gets on: events that
//! have become likely, messages in any order, and between them repeats, false
//! messages and nonsense.

use crate::codes::*;
use crate::form::{Form, Seats};
use crate::random::Random;

/// Numbers that are no code; and no node or site, or only in a large plan.
pub const STRANGE: [u32; 12] = [0, 9, 10, 160, 161, 255, 256, 257, 0x107, 0xffff, 0x8000_0001, u32::MAX];

/// A step: an event if the site is 255, else a message to the site, or to the
/// desk of this number.
#[derive(Clone, Copy, Debug, PartialEq, Eq)]
pub struct Step {
    /// The event's code.
    pub code: u32,
    /// The event's node.
    pub node: u32,
    /// Who hears of it.
    pub site: u32,
}

/// How a simulation goes, in cases of a hundred.
#[derive(Clone, Copy)]
pub struct Temper {
    /// How often a task is also tried for failing.
    pub failing: usize,
    /// How often a step is a repeat, false or nonsense.
    pub noise: usize,
    /// How often a message that somebody waits for is put off.
    pub late: usize,
    /// How often an event is tried before more messages come.
    pub eager: usize,
}

impl Temper {
    /// Any temper.
    pub fn any(random: &mut Random) -> Temper {
        Temper {
            failing: random.one_of(&[0, 3, 10, 30, 60, 100]),
            noise: random.one_of(&[0, 5, 15, 30]),
            late: random.one_of(&[0, 5, 40]),
            eager: random.one_of(&[10, 50, 90]),
        }
    }
}

/// A simulation's outstanding steps.
pub struct Driver {
    nodes: usize,
    tree: Tree,
    seats: Seats,
    temper: Temper,
    /// Events worth trying, each at most once.
    likely: Vec<(u32, u32)>,
    listed: Vec<bool>,
    /// Messages to where somebody near the event is, who may wait for them.
    near: Vec<Step>,
    /// Messages to all others.
    far: Vec<Step>,
    /// Which messages were heard.
    told: Vec<bool>,
    /// Events that passed, in order.
    passed: Vec<(u32, u32)>,
}

impl Driver {
    /// A simulation of a valid plan, nothing done yet.
    pub fn new(form: Form, plan: &[u8], temper: Temper) -> Driver {
        let nodes = form.nodes(plan);
        let mut driver = Driver {
            nodes,
            tree: Tree::new(&form.plain(plan)),
            seats: Seats::new(form, plan),
            temper,
            likely: vec![],
            listed: vec![false; 9 * nodes],
            near: vec![],
            far: vec![],
            told: vec![false; 9 * nodes * form.rows(plan)],
            passed: vec![],
        };
        driver.list(START, 0);
        driver
    }

    /// Who is where.
    pub fn seats(&self) -> &Seats {
        &self.seats
    }

    /// Events that passed, in order.
    pub fn passed(&self) -> &[(u32, u32)] {
        &self.passed
    }

    /// The next step; none if nothing is outstanding.
    pub fn propose(&mut self, random: &mut Random) -> Option<Step> {
        if random.chance(self.temper.noise) && !self.is_idle() {
            return Some(self.noise(random));
        }
        let no_message = self.near.is_empty() && self.far.is_empty();
        if no_message || random.chance(self.temper.eager) {
            self.likely_event(random).or_else(|| self.message(random))
        } else {
            self.message(random)
        }
    }

    /// A message that is still outstanding, a near one if there is one.
    pub fn message(&mut self, random: &mut Random) -> Option<Step> {
        if random.chance(self.temper.late)
            && let Some(step) = random.take(&mut self.near)
        {
            self.far.push(step);
        }
        let from_far = random.chance(10);
        let (first, second) =
            if from_far { (&mut self.far, &mut self.near) } else { (&mut self.near, &mut self.far) };
        random.take(first).or_else(|| random.take(second))
    }

    /// Learns what became of a step.
    pub fn heed(&mut self, step: Step, passed: bool, random: &mut Random) {
        if !passed || step.node as usize >= self.nodes {
            return;
        }
        if step.site == HAPPENS {
            self.event_passed(step, random);
        } else if !self.tell(step, true) {
            self.list_events_at(step.site, step.node, random);
        }
    }

    /// Notes whether a message has been heard; answers whether it had been.
    fn tell(&mut self, Step { code, node, site }: Step, is_told: bool) -> bool {
        let own = self.seats.of(self.tree.site(code, node as usize));
        let event = code as usize * self.nodes + node as usize;
        let place = self.seats.row(site).map(|row| event * self.seats.numbers().len() + row);
        let before = place.and_then(|place| self.told.get_mut(place));
        site == own || before.is_some_and(|told| std::mem::replace(told, is_told))
    }

    /// Learns that the last step that passed was taken back: it is to be tried
    /// again, and nobody is to be told of an event that it was.
    pub fn forget(&mut self, step: Step) {
        if step.site != HAPPENS {
            self.tell(step, false);
            return self.near.push(step);
        }
        let (code, node) = (step.code, step.node);
        let is_other = |message: &Step| (message.code, message.node) != (code, node);
        self.near.retain(is_other);
        self.far.retain(is_other);
        self.passed.pop();
        self.list(code, node);
    }

    fn is_idle(&self) -> bool {
        self.likely.is_empty() && self.near.is_empty() && self.far.is_empty()
    }

    fn event_passed(&mut self, step: Step, random: &mut Random) {
        let (code, node) = (step.code, step.node);
        let own = self.seats.of(self.tree.site(code, node as usize));
        self.passed.push((code, node));
        for (site, nodes) in self.seats.iter().filter(|&(site, _)| site != own) {
            let message = Step { code, node, site };
            if nodes.iter().any(|&other| self.tree.is_near(node as usize, other)) {
                self.near.push(message);
            } else {
                self.far.push(message);
            }
        }
        self.list_events_at(own, node, random);
    }

    fn likely_event(&mut self, random: &mut Random) -> Option<Step> {
        let (code, node) = random.take(&mut self.likely)?;
        self.listed[code as usize * self.nodes + node as usize] = false;
        Some(Step { code, node, site: HAPPENS })
    }

    /// Something was heard there of a node: what can happen to those near it is
    /// worth trying now.
    fn list_events_at(&mut self, seat: u32, of: u32, random: &mut Random) {
        for place in 0..self.seats.nodes_at(seat).len() {
            let node = self.seats.nodes_at(seat)[place];
            if self.tree.is_near(of as usize, node) {
                self.list_events_of(node, random);
            }
        }
    }

    /// Everything that can happen at the site of a node.
    fn list_events_of(&mut self, node: usize, random: &mut Random) {
        let site = node as u32;
        self.list(START, site);
        self.list(COMMIT, site);
        if self.tree.kind(node) != TASK || random.chance(self.temper.failing) {
            self.list(ABORT, site);
        }
        if self.tree.is_below_xor(node) {
            self.list(OFFER, site);
            self.list(TURNED_DOWN, site);
        }
        if self.tree.kind(node) == CONDITIONAL {
            self.list(YES, site);
            self.list(NO, site);
        }
        if self.tree.kind(node) == XOR {
            for place in 0..self.tree.children[node].len() {
                self.list(PICK, self.tree.children[node][place] as u32);
            }
        }
    }

    fn list(&mut self, code: u32, node: u32) {
        let listed = &mut self.listed[code as usize * self.nodes + node as usize];
        if !*listed {
            *listed = true;
            self.likely.push((code, node));
        }
    }

    /// A step that leads nowhere.
    fn noise(&self, random: &mut Random) -> Step {
        let node = random.below(self.nodes) as u32;
        let site = random.one_of(self.seats.numbers());
        let code = random.between(1, 8) as u32;
        match random.below(4) {
            0 if !self.passed.is_empty() => {
                let (code, node) = random.one_of(&self.passed);
                Step { code, node, site: if random.chance(20) { HAPPENS } else { site } }
            }
            1 => Step { code, node, site: HAPPENS },
            2 => strange(random, Step { code, node, site }),
            _ => Step { code, node, site },
        }
    }
}

/// The same step with at least one number that may not exist.
fn strange(random: &mut Random, step: Step) -> Step {
    let number = random.one_of(&STRANGE);
    match random.below(4) {
        0 => Step { code: number, ..step },
        1 => Step { node: number, ..step },
        2 => Step { site: number, ..step },
        _ => Step { code: number, node: random.one_of(&STRANGE), site: HAPPENS },
    }
}

/// A plan's tree, for looking up who is near whom.
pub struct Tree {
    kinds: Vec<u8>,
    parents: Vec<Option<usize>>,
    /// Each node's children, rising.
    pub children: Vec<Vec<usize>>,
}

impl Tree {
    /// The tree of a valid plan.
    pub fn new(plan: &[u8]) -> Tree {
        let nodes = plan.len() / 2;
        let mut children = vec![vec![]; nodes];
        let mut parents = vec![None; nodes];
        for node in 1..nodes {
            let parent = usize::from(plan[2 * node + 1]);
            children[parent].push(node);
            parents[node] = Some(parent);
        }
        Tree { kinds: plan.iter().copied().step_by(2).collect(), parents, children }
    }

    /// A node's kind.
    pub fn kind(&self, node: usize) -> u8 {
        self.kinds[node]
    }

    /// All blocks above a node, the nearest first.
    pub fn above(&self, node: usize) -> Vec<usize> {
        std::iter::successors(self.parents[node], |&block| self.parents[block]).collect()
    }

    /// A node and all below it, each child's subtree before the next child.
    pub fn subtree(&self, node: usize) -> Vec<usize> {
        let below = self.children[node].iter().flat_map(|&child| self.subtree(child));
        std::iter::once(node).chain(below).collect()
    }

    /// Whether the parent is an xor.
    pub fn is_below_xor(&self, node: usize) -> bool {
        self.parents[node].is_some_and(|parent| self.kinds[parent] == XOR)
    }

    /// Where an event happens.
    pub fn site(&self, code: u32, node: usize) -> usize {
        if code == PICK { self.parents[node].unwrap_or(node) } else { node }
    }

    /// The parent and the sibling before, if the parent is of this kind and
    /// the node isn't its first child.
    pub fn before(&self, node: usize, kind: u8) -> Option<(usize, usize)> {
        let parent = self.parents.get(node).copied()??;
        let before = self.children[parent].iter().rfind(|&&other| other < node)?;
        (self.kinds[parent] == kind).then_some((parent, *before))
    }

    /// Whether an event applies to a node.
    pub fn applies(&self, code: u32, node: usize) -> bool {
        match code {
            OFFER | PICK | TURNED_DOWN => self.is_below_xor(node),
            YES | NO => self.kinds[node] == CONDITIONAL,
            _ => true,
        }
    }

    /// Whether a site may wait for what happens to a node: its own, its
    /// parent's, its siblings' and its children's.
    pub fn is_near(&self, node: usize, site: usize) -> bool {
        let parent = self.parents[node];
        node == site
            || parent == Some(site)
            || self.parents[site] == Some(node)
            || (parent.is_some() && parent == self.parents[site])
    }
}
