//! What several test files share.
#![allow(dead_code)]

use reference::exported;

/// Codes by name.
pub const START: u32 = 1;
pub const OFFER: u32 = 2;
pub const COMMIT: u32 = 3;
pub const ABORT: u32 = 4;
pub const YES: u32 = 5;
pub const NO: u32 = 6;
pub const PICK: u32 = 7;
pub const TURNED_DOWN: u32 = 8;
/// The site that says: the event happens.
pub const HAPPENS: u32 = 0xff;

/// Bytes that no function writes by chance.
pub const LEFT: u8 = 0xa5;

/// Plan P of the document.
pub const P: &str = "02ff 0100 0500 0102 0102 0100";

/// The table of classes that is used where none is handed in.
pub const COMMON_TABLE: [u8; 12] = [0, 0, 1, 3, 2, 3, 3, 1, 4, 2, 5, 2];

/// Bytes from hexadecimal; spaces don't count.
pub fn hex(text: &str) -> Vec<u8> {
    let digits: Vec<u8> = text.chars().filter_map(|c| c.to_digit(16)).map(|d| d as u8).collect();
    digits.chunks(2).map(|pair| pair[0] << 4 | pair[1]).collect()
}

/// A plan for each number from 1 to 6, with faults of higher numbers in it where
/// that can be.
pub fn refused_plans() -> Vec<(String, u32)> {
    let deep: String = (0..33).map(|level: u8| format!("02{:02x}", level.wrapping_sub(1))).collect();
    let plans = [
        ("", 1),
        ("02", 1),
        ("09ff 0101", 2),
        ("02fe 0101", 3),
        ("01ff 0100", 4),
        ("02ff 0700", 5),
        (&format!("{deep} 0120"), 6),
    ];
    plans.map(|(plan, number)| (plan.to_string(), number)).to_vec()
}

/// What a call wrote that answers this and writes a plan to the front of bytes that were
/// all `LEFT`: the plan; or its refusal, which leaves all.
pub fn front(result: u32, out: &[u8]) -> Result<Vec<u8>, u32> {
    let written = 2 * exported::value(result) as usize;
    assert!(out[written..].iter().all(|&byte| byte == LEFT), "the bytes behind are left");
    match exported::number(result) {
        0 => {
            assert_eq!(result, (written as u32 / 2) << 16);
            Ok(out[..written].to_vec())
        }
        refused => {
            assert_eq!(result, u32::from(refused), "a refusal has no value");
            Err(result)
        }
    }
}

/// A serial root with so many tasks.
pub fn serial_of(tasks: usize) -> Vec<u8> {
    let mut plan = hex("02ff");
    (0..tasks).for_each(|_| plan.extend([1, 0]));
    plan
}

/// Serials below each other with a task at the end, as many levels as asked.
pub fn chain(levels: usize) -> Vec<u8> {
    let mut plan = hex("02ff");
    for number in 1..levels {
        let kind = if number + 1 == levels { 1 } else { 2 };
        plan.extend([kind, number as u8 - 1]);
    }
    plan
}

/// A plan of exactly so many nodes: a root with and-blocks of tasks.
pub fn plan_of(nodes: usize) -> Vec<u8> {
    let mut plan = hex("02ff");
    let mut block = 0;
    for number in 1..nodes {
        let in_block = (number - 1) % 20;
        if in_block == 0 && number + 1 < nodes {
            block = number as u8;
            plan.extend([3, 0]);
        } else {
            plan.extend([1, if in_block == 0 { 0 } else { block }]);
        }
    }
    plan
}

/// A plan with a desk for each node.
pub fn at_desks(plan: &[u8], desks: &[u8]) -> Vec<u8> {
    assert_eq!(plan.len(), 2 * desks.len());
    plan.chunks(2).zip(desks).flat_map(|(node, &desk)| [node[0], node[1], desk]).collect()
}

/// A plan in which every node has its own number for a desk.
pub fn at_own_desks(plan: &[u8]) -> Vec<u8> {
    let own: Vec<u8> = (0..plan.len() / 2).map(|node| node as u8).collect();
    at_desks(plan, &own)
}

/// All valid plans with so many nodes.
pub fn plans(nodes: usize) -> Vec<Vec<u8>> {
    let mut open = vec![Vec::new()];
    for number in 0..nodes {
        let parents = if number == 0 { vec![0xff] } else { (0..number as u8).collect() };
        open = open.iter().flat_map(|plan| longer(plan, &parents)).collect();
    }
    open.retain(|plan| exported::check(plan) == 0);
    open
}

fn longer(plan: &[u8], parents: &[u8]) -> Vec<Vec<u8>> {
    let nodes = (1..=8).flat_map(|kind| parents.iter().map(move |&parent| [kind, parent]));
    nodes.map(|node| [plan, &node].concat()).collect()
}

/// The guard as bytes; panics if it is refused.
pub fn guard_bytes(plan: &[u8], code: u32, node: u32) -> Vec<u8> {
    let mut buffer = [0xee; 300];
    let result = exported::guard(plan, code, node, &mut buffer);
    assert_eq!(exported::number(result), 0, "code {code} node {node}");
    assert_eq!(u32::from(exported::site(result)), exported::value(exported::rule(plan, code, node)));
    let length = exported::value(result) as usize;
    assert!(buffer[length..].iter().all(|&byte| byte == 0xee), "the rest of the buffer stays");
    buffer[..length].to_vec()
}

/// The packed result of an event that passed at this site by this rule.
pub fn passed(site: u32, rule: u32) -> u32 {
    site << 8 | rule << 16
}

/// The pass's marks, or its refusal.
pub fn pass_marks(plan: &[u8], answers: &[u8]) -> Result<Vec<u8>, u32> {
    let mut marks = vec![0xee; plan.len() / 2];
    match exported::pass(plan, answers, &mut marks) {
        0 => Ok(marks),
        refused => {
            assert!(marks.iter().all(|&byte| byte == 0xee), "a refused pass leaves the marks");
            Err(refused)
        }
    }
}

/// The marks and classes of the pass by a table, or its refusal.
pub fn record_of_pass(plan: &[u8], table: &[u8], answers: &[u8]) -> Result<(Vec<u8>, Vec<u8>), u32> {
    let nodes = plan.len() / 2;
    let (mut marks, mut classes) = (vec![0xee; nodes], vec![0xdd; nodes]);
    match exported::pass_record(plan, table, answers, &mut marks, &mut classes) {
        0 => Ok((marks, classes)),
        refused => {
            assert_eq!(
                (marks, classes),
                (vec![0xee; nodes], vec![0xdd; nodes]),
                "a refused call leaves both"
            );
            Err(refused)
        }
    }
}

/// A simulation under way.
pub struct Simulation {
    pub plan: Vec<u8>,
    pub state: Vec<u8>,
}

impl Simulation {
    pub fn new(plan: &str) -> Simulation {
        let plan = hex(plan);
        let nodes = plan.len() / 2;
        Simulation { plan, state: vec![0; nodes * nodes] }
    }

    pub fn nodes(&self) -> u32 {
        (self.plan.len() / 2) as u32
    }

    /// An event; answers the packed result.
    pub fn event(&mut self, code: u32, node: u32) -> u32 {
        exported::simulate(&self.plan, code, node, HAPPENS, &mut self.state)
    }

    /// A message; answers the packed result.
    pub fn message(&mut self, code: u32, node: u32, site: u32) -> u32 {
        exported::simulate(&self.plan, code, node, site, &mut self.state)
    }

    /// An event that must pass, told to everybody.
    pub fn all_know(&mut self, code: u32, node: u32) {
        let result = self.event(code, node);
        assert_eq!(exported::number(result), 0, "code {code} node {node}");
        for site in 0..self.nodes() {
            assert_eq!(self.message(code, node, site), 0);
        }
    }

    pub fn marks(&self) -> Vec<u8> {
        self.record().0
    }

    pub fn record(&self) -> (Vec<u8>, Vec<u8>) {
        let nodes = self.plan.len() / 2;
        let (mut marks, mut classes) = (vec![0xee; nodes], vec![0xee; nodes]);
        assert_eq!(exported::record(&self.plan, &self.state, &mut marks, &mut classes), 0);
        (marks, classes)
    }

    /// The classes by a table.
    pub fn classes_by(&self, table: &[u8]) -> Vec<u8> {
        let nodes = self.plan.len() / 2;
        let (mut marks, mut classes) = (vec![0xee; nodes], vec![0xee; nodes]);
        assert_eq!(exported::record_by(&self.plan, table, &self.state, &mut marks, &mut classes), 0);
        assert_eq!(marks, self.marks());
        classes
    }
}

/// Numbers that are the same in every run.
pub struct Numbers(pub u32);

impl Numbers {
    pub fn below(&mut self, limit: u32) -> u32 {
        self.0 = self.0.wrapping_mul(1_664_525).wrapping_add(1_013_904_223);
        (self.0 >> 16) % limit
    }

    pub fn bytes(&mut self, length: usize) -> Vec<u8> {
        (0..length).map(|_| self.below(256) as u8).collect()
    }
}

/// A plan of any shape: each node below any other before it.
pub fn any_plan(numbers: &mut Numbers, nodes: usize) -> Vec<u8> {
    loop {
        let parents: Vec<u8> =
            (0..nodes).map(|node| if node == 0 { 0xff } else { numbers.below(node as u32) as u8 }).collect();
        let kind = |node: usize, numbers: &mut Numbers| match parents[1..]
            .iter()
            .filter(|&&parent| usize::from(parent) == node)
            .count()
        {
            0 => 1,
            2 => [2, 3, 4, 5, 5, 6, 7, 8][numbers.below(8) as usize],
            _ => [2, 3, 4, 5, 5, 6, 8][numbers.below(7) as usize],
        };
        let plan: Vec<u8> = (0..nodes).flat_map(|node| [kind(node, numbers), parents[node]]).collect();
        if exported::check(&plan) == 0 {
            return plan;
        }
    }
}
