//! A whole job by simulate: a serial root, eight and-blocks, eighteen tasks
//! in each. Every event is told to everybody; at the end each event is tried
//! once more, and none passes.

use differential::Implementation;
use differential::codes::*;
use differential::driver::{Step, Tree};
use std::hint::black_box;

const BLOCKS: usize = 8;
const TASKS: usize = 18;

/// A job's plan and steps.
pub struct Script {
    plan: Vec<u8>,
    steps: Vec<Step>,
    /// How many of the steps are the last tries, which are all refused.
    tries: usize,
}

impl Script {
    /// The job in order: each block's tasks are all started, then committed.
    pub fn new() -> Script {
        let mut script = Script { plan: plan(), steps: vec![], tries: 0 };
        script.tell_all(START, 0);
        for block in 0..BLOCKS {
            let block = (1 + block * (TASKS + 1)) as u32;
            let tasks = block + 1..=block + TASKS as u32;
            script.tell_all(START, block);
            tasks.clone().for_each(|task| script.tell_all(START, task));
            tasks.for_each(|task| script.tell_all(COMMIT, task));
            script.tell_all(COMMIT, block);
        }
        script.tell_all(COMMIT, 0);
        script.try_all();
        script
    }

    /// An event, and a message of it to everybody else.
    fn tell_all(&mut self, code: u32, node: u32) {
        self.steps.push(Step { code, node, site: HAPPENS });
        let others = (0..self.nodes() as u32).filter(|&site| site != node);
        self.steps.extend(others.map(|site| Step { code, node, site }));
    }

    fn try_all(&mut self) {
        let tree = Tree::new(&self.plan);
        let all = (1..=8).flat_map(|code| (0..self.nodes()).map(move |node| (code, node)));
        let apply: Vec<(u32, usize)> = all.filter(|&(code, node)| tree.applies(code, node)).collect();
        self.tries = apply.len();
        self.steps.extend(apply.iter().map(|&(code, node)| Step { code, node: node as u32, site: HAPPENS }));
    }

    /// How many nodes the plan has.
    pub fn nodes(&self) -> usize {
        self.plan.len() / 2
    }

    /// How many steps the job has.
    pub fn steps(&self) -> usize {
        self.steps.len()
    }

    /// A state to run on.
    pub fn fresh_state(&self) -> Vec<u8> {
        vec![0; self.nodes() * self.nodes()]
    }

    /// Runs the job from the beginning; answers how many steps passed.
    pub fn run(&self, subject: &mut impl Implementation, state: &mut [u8]) -> u32 {
        state.fill(0);
        let mut passed = 0;
        for &Step { code, node, site } in &self.steps {
            let result = subject.simulate(black_box(&self.plan), code, node, site, state);
            passed += u32::from(number(result) == 0);
        }
        passed
    }

    /// Runs it and sees that everything passed up to the last tries, and that
    /// every node has committed.
    pub fn is_over(&self, subject: &mut impl Implementation, state: &mut [u8]) -> bool {
        let passed = self.run(subject, state) as usize;
        let (mut marks, mut classes) = (vec![0; self.nodes()], vec![0; self.nodes()]);
        let result = subject.record(&self.plan, state, &mut marks, &mut classes);
        passed == self.steps.len() - self.tries && result == 0 && marks.iter().all(|&mark| mark == 3)
    }
}

fn plan() -> Vec<u8> {
    let mut plan = vec![SERIAL, 0xff];
    for _ in 0..BLOCKS {
        let block = (plan.len() / 2) as u8;
        plan.extend([AND, 0]);
        (0..TASKS).for_each(|_| plan.extend([TASK, block]));
    }
    plan
}

#[cfg(test)]
mod tests {
    use super::*;
    use differential::Reference;

    #[test]
    fn the_job_is_over_at_the_end() {
        let script = Script::new();
        assert_eq!(script.nodes(), 153);
        assert_eq!(script.steps(), 2 * 153 * 153 + 3 * 153);
        assert!(script.is_over(&mut Reference, &mut script.fresh_state()));
    }
}
