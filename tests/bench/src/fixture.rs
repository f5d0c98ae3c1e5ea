//! A plan with all kinds of blocks, and a job of it that is half done; and the
//! same with desks.

use differential::codes::*;
use differential::driver::{Driver, Step, Temper, Tree};
use differential::form::{Form, Seats};
use differential::implementation::{Change, Wanted};
use differential::plans;
use differential::random::Random;
use differential::{Implementation, Reference};

/// The longest text that is read.
const LONGEST_TEXT: usize = 32_768;

/// The kinds of the small blocks, in turn.
const KINDS: [u8; 6] = [XOR, SERIAL, CONDITIONAL, AND, OR, CONTINGENCY];

/// A step with the place in the state that it may change.
#[derive(Clone, Copy)]
pub struct PlacedStep {
    /// The step.
    pub step: Step,
    /// The index of its byte in the state.
    pub place: usize,
}

/// A plan, its marked node, and how many times the child's subtree is to stand.
#[derive(Clone)]
pub struct Template {
    pub plan: Vec<u8>,
    pub node: u32,
    pub count: u32,
}

/// What the functions are measured on.
#[derive(Clone)]
pub struct Fixture {
    pub form: Form,
    pub plan: Vec<u8>,
    /// The plain plan in no order: each node anywhere behind its parent and its
    /// sibling before. The plan itself is in the fixed numbering.
    pub mixed: Vec<u8>,
    /// The plain plan's depth form.
    pub depths: Vec<u8>,
    /// A template in no order that comes to as many nodes as the plan has.
    pub template: Template,
    pub nodes: usize,
    /// All events that apply, with the row by which each is decided.
    pub events: Vec<(u32, u32, usize)>,
    /// Each of these events, and a message of each.
    pub steps: Vec<PlacedStep>,
    /// All rows, half way through a job.
    pub state: Vec<u8>,
    /// The same half way, seen from above.
    pub marks: Vec<u8>,
    pub notes: Vec<u8>,
    /// Answers with which every task works.
    pub answers: Vec<u8>,
    /// The marks of the pass over them.
    pub passed: Vec<u8>,
    /// The tasks that the pass comes to, and of which each alone may fail.
    pub tasks: Vec<u32>,
    /// Each node committed, with the root, and failed, with the root.
    pub ways: Vec<Wanted>,
    /// Targets that have no way, one at each node.
    pub no_ways: Vec<Wanted>,
    /// A text as long as may be: a job of the plan, then each of the steps
    /// again and again. A plan with desks has none.
    pub text: Vec<u8>,
}

impl Fixture {
    /// A plan of 10 to 96 or of 160 nodes and its half-done job.
    pub fn new(nodes: usize) -> Fixture {
        Fixture::of(Form::Plain, plan(nodes))
    }

    /// The same plan with desks.
    pub fn with_desks(nodes: usize) -> Fixture {
        Fixture::of(Form::Desks, at_desks(&plan(nodes)))
    }

    /// The same rows and events, with the plan that has no desks.
    pub fn without_desks(&self) -> Fixture {
        Fixture { form: Form::Plain, plan: self.form.plain(&self.plan).into_owned(), ..self.clone() }
    }

    fn of(form: Form, plan: Vec<u8>) -> Fixture {
        let nodes = form.nodes(&plan);
        let tree = Tree::new(&form.plain(&plan));
        let seats = Seats::new(form, &plan);
        let events = events(&tree, &seats, nodes);
        let steps: Vec<PlacedStep> =
            events.iter().flat_map(|&event| placed_steps(event, &seats, nodes)).collect();
        let whole = job(form, &plan, usize::MAX);
        let state = job(form, &plan, whole.events / 2).state;
        let (marks, notes) = seen_from_above(form, &plan, &state);
        let text = if form == Form::Plain { long_text(&plan, &whole.steps, &steps) } else { vec![] };
        let answers = vec![1; nodes];
        let (passed, tasks) = changeable(&form.plain(&plan), &answers);
        let (ways, no_ways) = targets(&form.plain(&plan), nodes);
        let (mixed, depths) = forms(&form.plain(&plan));
        Fixture {
            form,
            mixed,
            depths,
            template: template(nodes),
            nodes,
            events,
            steps,
            state,
            marks,
            notes,
            answers,
            passed,
            tasks,
            ways,
            no_ways,
            text,
            plan,
        }
    }
}

/// The same tree in no order, and the depth form.
fn forms(plan: &[u8]) -> (Vec<u8>, Vec<u8>) {
    let mixed = plans::mixed_numbering(&mut Random::new(plan.len() as u64), plan);
    let mut depths = vec![0; plan.len()];
    assert_eq!(Reference.to_depths(plan, &mut depths), 0);
    (mixed, depths)
}

/// A serial of a task, the marked block and a task, in no order. Below the block stands
/// a channel, a serial of tasks.
fn template(nodes: usize) -> Template {
    let count = match nodes {
        ..40 => 2,
        40..100 => 4,
        _ => 12,
    };
    let tasks = (nodes - 4) / count - 1;
    let plan = [vec![SERIAL, 0xff, TASK, 0, AND, 0, TASK, 0, SERIAL, 2], [TASK, 4].repeat(tasks)].concat();
    let plan = plans::mixed_numbering(&mut Random::new(nodes as u64), &plan);
    let node = plan.iter().step_by(2).position(|&kind| kind == AND).expect("one block is marked");
    Template { plan, node: node as u32, count: count as u32 }
}

/// A plan with desks: about three nodes share one, and neither they nor the
/// desks' numbers stand in order.
fn at_desks(plan: &[u8]) -> Vec<u8> {
    let desks = (plan.len() / 2).div_ceil(3);
    let desk = |node: usize| ((5 * node + 3) % desks * 37 + 11) % 160;
    let with_desks: Vec<u8> =
        plan.chunks(2).enumerate().flat_map(|(node, bytes)| [bytes[0], bytes[1], desk(node) as u8]).collect();
    assert_eq!((Reference.desk_check(&with_desks), Form::Desks.rows(&with_desks)), (0, desks));
    with_desks
}

/// Blocks of two tasks, below the root or below three groups of it.
fn plan(nodes: usize) -> Vec<u8> {
    let mut plan = vec![AND, 0xff];
    if nodes < 100 {
        add_blocks(&mut plan, 0, nodes);
    } else {
        for group in 1..=3 {
            let root = (plan.len() / 2) as u8;
            plan.extend([AND, 0]);
            add_blocks(&mut plan, root, 1 + group * (nodes - 1) / 3);
        }
    }
    assert_eq!((plan.len() / 2, Reference.check(&plan)), (nodes, 0));
    plan
}

/// Fills up to so many nodes with blocks of two tasks, and tasks at the end.
fn add_blocks(plan: &mut Vec<u8>, parent: u8, nodes: usize) {
    for kind in KINDS.into_iter().cycle() {
        let block = plan.len() / 2;
        match nodes - block {
            0 => return,
            1 | 2 => plan.extend([TASK, parent]),
            _ => plan.extend([kind, parent, TASK, block as u8, TASK, block as u8]),
        }
    }
}

fn events(tree: &Tree, seats: &Seats, nodes: usize) -> Vec<(u32, u32, usize)> {
    let all = (1..=8).flat_map(|code| (0..nodes).map(move |node| (code, node)));
    let apply = all.filter(|&(code, node)| tree.applies(code, node));
    let row = |code, node| seats.row(seats.of(tree.site(code, node))).expect("every site has a row");
    apply.map(|(code, node)| (code, node as u32, row(code, node))).collect()
}

/// The event itself, and a message of it into some other row.
fn placed_steps((code, node, own): (u32, u32, usize), seats: &Seats, nodes: usize) -> [PlacedStep; 2] {
    let hearer = (own + 1) % seats.numbers().len();
    let at = |row: usize| row * nodes + node as usize;
    [
        PlacedStep { step: Step { code, node, site: HAPPENS }, place: at(own) },
        PlacedStep { step: Step { code, node, site: seats.numbers()[hearer] }, place: at(hearer) },
    ]
}

/// The marks of the pass, and the tasks that it comes to and of which each alone
/// may fail.
fn changeable(plan: &[u8], answers: &[u8]) -> (Vec<u8>, Vec<u32>) {
    let mut marks = vec![0; answers.len()];
    assert_eq!(Reference.pass(plan, answers, &mut marks), 0);
    let may_fail = |&task: &u32| {
        let change = Change { task, answer: 2 };
        Reference.impact(plan, &mut answers.to_vec(), &mut marks.clone(), change) == 0
    };
    let tasks =
        (0..answers.len() as u32).filter(|&node| marks[node as usize] != 0).filter(may_fail).collect();
    (marks, tasks)
}

/// Targets that have a way, two at each node, and targets that have none.
fn targets(plan: &[u8], nodes: usize) -> (Vec<Wanted>, Vec<Wanted>) {
    let nodes = 0..nodes as u32;
    let same = |node| [3, 4].map(|end| Wanted { node, mark: end, end });
    let other = |node| {
        let targets = [(5, 4), (0, 3), (5, 3), (0, 4)].map(|(mark, end)| Wanted { node, mark, end });
        let mut answers = vec![0; plan.len() / 2];
        targets.into_iter().find(|&wanted| Reference.way(plan, wanted, &mut answers) == 30)
    };
    (nodes.clone().flat_map(same).collect(), nodes.filter_map(other).collect())
}

/// A plan and steps as text, full to the last line.
fn long_text(plan: &[u8], job: &[Step], steps: &[PlacedStep]) -> Vec<u8> {
    let mut text: String = plan.chunks(2).map(|node| format!("{:02x}{:02x}\n", node[0], node[1])).collect();
    text += "--\n";
    let again = steps.iter().map(|placed| placed.step).cycle();
    let room = (LONGEST_TEXT - text.len()) / 7;
    for Step { code, node, site } in job.iter().copied().chain(again).take(room) {
        text += &format!("{code:02x}{node:02x}{site:02x}\n");
    }
    text.into_bytes()
}

/// What a job came to.
struct Job {
    state: Vec<u8>,
    /// How many events there were.
    events: usize,
    steps: Vec<Step>,
}

/// So many events of a job, or all.
fn job(form: Form, plan: &[u8], most: usize) -> Job {
    let mut steps = Vec::new();
    let mut random = Random::new(form.nodes(plan) as u64);
    let mut driver = Driver::new(form, plan, Temper { failing: 10, noise: 0, late: 0, eager: 50 });
    let mut state = vec![0; form.state_length(plan)];
    while driver.passed().len() < most
        && let Some(step) = driver.propose(&mut random)
    {
        let result = form.simulate(&mut Reference, plan, step, &mut state);
        driver.heed(step, number(result) == 0, &mut random);
        steps.push(step);
    }
    Job { state, events: driver.passed().len(), steps }
}

/// Marks, answers and picks of a state.
fn seen_from_above(form: Form, plan: &[u8], state: &[u8]) -> (Vec<u8>, Vec<u8>) {
    let nodes = form.nodes(plan);
    let (mut marks, mut classes) = (vec![0; nodes], vec![0; nodes]);
    assert_eq!(form.record(&mut Reference, plan, state, &mut marks, &mut classes), 0);
    let heard = |code: u32, node: u32| {
        let place = form.place(plan, Step { code, node, site: HAPPENS });
        place.map_or(0, |place| state[place] & bit(code))
    };
    let notes = (0..nodes as u32).map(|node| heard(YES, node) | heard(NO, node) | heard(PICK, node));
    (marks, notes.collect())
}

#[cfg(test)]
mod tests {
    use super::*;

    /// Half way is neither the beginning nor the end, and steps of each sort
    /// are met.
    #[test]
    fn fixtures_are_half_way() {
        for nodes in [10, 40, 160] {
            is_half_way(&Fixture::with_desks(nodes));
            let fixture = Fixture::new(nodes);
            is_half_way(&fixture);
            let result = Reference.rehearse(&fixture.text, &mut vec![0; 16_384]);
            assert_eq!(number(result), 0, "{nodes}");
            assert!(fixture.text.len() > LONGEST_TEXT - 7, "{nodes}: {}", fixture.text.len());
            assert!(fixture.tasks.len() > nodes / 4, "{nodes}: {:?}", fixture.tasks);
            let mut renumbered = vec![0; 2 * nodes];
            assert_eq!(Reference.renumber(&fixture.mixed, &mut renumbered), 0, "{nodes}");
            assert!(renumbered == fixture.plan && !plans::is_fixed(&fixture.mixed), "{nodes}");
            let Template { plan, node, count } = &fixture.template;
            let result = Reference.repeat(plan, *node, *count, &mut [0; 320]);
            assert!(result == (nodes as u32) << 16 && *count > 1 && !plans::is_fixed(plan), "{nodes}");
            let mut answers = vec![0; nodes];
            let mut number = |&wanted: &Wanted| Reference.way(&fixture.plan, wanted, &mut answers);
            assert!(fixture.ways.len() == 2 * nodes && fixture.no_ways.len() > nodes / 2, "{nodes}");
            assert!(fixture.ways.iter().all(|wanted| number(wanted) == 0), "{nodes}");
            assert!(fixture.no_ways.iter().all(|wanted| number(wanted) == 30), "{nodes}");
        }
    }

    fn is_half_way(fixture: &Fixture) {
        let Fixture { form, plan, nodes, .. } = fixture;
        let running = fixture.marks.iter().filter(|&&mark| mark == 1).count();
        assert!(running > 0, "{form:?} {nodes}: {:?}", fixture.marks);
        let mut met = [0; 16];
        for &PlacedStep { step, place } in &fixture.steps {
            let mut state = fixture.state.clone();
            let result = form.simulate(&mut Reference, plan, step, &mut state);
            met[usize::from(number(result))] += 1;
            state[place] = fixture.state[place];
            assert_eq!(state, fixture.state, "{step:?}");
        }
        assert!([0, 10, 11, 12].iter().all(|&number| met[number] > 0), "{form:?} {nodes}: {met:?}");
    }

    /// The rows that a desk's step is measured on serve a site's too, and it
    /// has the same number there.
    #[test]
    fn desks_and_sites_have_the_same_rows() {
        let fixture = Fixture::with_desks(40);
        let plain = fixture.without_desks();
        for &(code, node, row) in &fixture.events {
            let row = &fixture.state[row * 40..][..40];
            let at_desk = Reference.desk_step(&fixture.plan, code, node, &mut row.to_vec());
            let at_site = Reference.step(&plain.plan, code, node, &mut row.to_vec());
            assert_eq!(number(at_desk), number(at_site));
        }
    }
}
