//! Test loads with one mistake each.

use super::Mistake;
use crate::codes::number;
use crate::driver::Tree;
use crate::implementation::{Implementation, Reference};

const FACTOR: u64 = 1_664_525;
const ADDEND: u64 = 1_013_904_223;
/// The most nodes a plan may have.
const MOST_NODES: u64 = 160;

/// A step's bytes, and a fourth one for a mistake.
type Step = [u8; 4];

/// What writes loads.
pub struct Loads {
    mistake: Mistake,
    /// Where the generator stood at the end of the last load.
    last: Option<u64>,
}

impl Loads {
    /// A writer with this mistake.
    pub fn new(mistake: Mistake) -> Loads {
        Loads { mistake, last: None }
    }

    /// Writes a load.
    pub fn workload(&mut self, plan: &[u8], seed: u32, count: u32, out: &mut [u8]) -> u32 {
        let (seed, count) = match self.mistake {
            Mistake::SeedAndCountSwapped => (count, seed),
            Mistake::StepsCut => (seed, count & 0xffff),
            _ => (seed, count),
        };
        let refused = refusal(self.mistake, plan, count, out.len());
        match (self.mistake, refused) {
            (Mistake::RefusedPlanClears, 1..=6) => out.fill(0),
            (Mistake::RefusedLoadWrites, 7) | (_, 0) => self.write(plan, seed, count, out),
            _ => {}
        }
        match self.mistake {
            Mistake::LoadAnswersItsCount if refused == 0 => count << 16,
            Mistake::LoadAnswersItsNodes if refused == 0 => (plan.len() as u32 / 2) << 16,
            _ => refused,
        }
    }

    /// Writes as much of the load as there is place for.
    fn write(&mut self, plan: &[u8], seed: u32, count: u32, out: &mut [u8]) {
        let mistake = self.mistake;
        let width = if mistake == Mistake::FourBytesAStep { 4 } else { 3 };
        let steps = (count as usize).min(out.len() / width + 1);
        let mut generator = Generator { mistake, number: first_number(mistake, seed, count) };
        if mistake == Mistake::GeneratorGoesOn {
            generator.number = self.last.unwrap_or(generator.number);
        }
        if mistake == Mistake::FirstStepDropped {
            generator.step(plan);
        }
        let begin = generator.number;
        let mut run = Run::new(mistake, plan, steps);
        let mut load: Vec<Step> = (0..steps)
            .map(|_| {
                if mistake == Mistake::EachStepFromTheSeed {
                    generator.number = begin;
                }
                run.step(&mut generator)
            })
            .collect();
        self.last = Some(generator.number);
        if mistake == Mistake::LastStepFirst {
            load.reverse();
        }
        let load: Vec<u8> = load.iter().flat_map(|step| &step[..width]).copied().collect();
        let length = match mistake {
            Mistake::LastSiteNotWritten => load.len().saturating_sub(1),
            _ => load.len(),
        };
        let length = length.min(out.len());
        out[..length].copy_from_slice(&load[..length]);
    }
}

/// What the generator begins with.
fn first_number(mistake: Mistake, seed: u32, count: u32) -> u64 {
    let seed = match mistake {
        Mistake::SeedZeroIsOne => seed.max(1),
        Mistake::SeedCut => seed & 0xffff,
        Mistake::SeedBytesReversed => seed.swap_bytes(),
        Mistake::CountInTheSeed => seed.wrapping_add(count),
        _ => seed,
    };
    seed.into()
}

/// What is found first; 0 if nothing is.
fn refusal(mistake: Mistake, plan: &[u8], count: u32, length: usize) -> u32 {
    let of_plan = Some(Reference.check(plan)).filter(|&number| match mistake {
        Mistake::LoadOfAnyPlan => number == 1,
        Mistake::LoadOfDeepPlans => !matches!(number, 0 | 6),
        _ => number != 0,
    });
    let (count, length) = (u64::from(count), length as u64);
    let is_right = length == 3 * count;
    let fits = match mistake {
        Mistake::TripleIn32Bits => length == (3 * count) & 0xffff_ffff,
        Mistake::TripleIn16Bits => length == (3 * count) & 0xffff || is_right,
        Mistake::LoadIntoMore => length >= 3 * count,
        Mistake::LoadIntoFewer => length <= 3 * count,
        Mistake::OddBytesOverlooked => length / 3 == count,
        Mistake::AnyWholeSteps => length % 3 == 0,
        Mistake::FourBytesAStep => length == 4 * count,
        Mistake::NoStepRefused => is_right && count > 0,
        Mistake::ManyStepsRefused => is_right && count <= 0xffff,
        _ => is_right,
    };
    let of_length = (!fits).then_some(7);
    let order = match mistake {
        Mistake::LoadLengthFirst => [of_length, of_plan],
        _ => [of_plan, of_length],
    };
    order.into_iter().flatten().next().unwrap_or(0)
}

/// What is drawn from.
struct Generator {
    mistake: Mistake,
    number: u64,
}

impl Generator {
    /// The number that comes next.
    fn moved(&self) -> u64 {
        let factor = match self.mistake {
            Mistake::FactorOneLess => FACTOR - 1,
            Mistake::FactorHasAnotherDigit => 1_664_325,
            _ => FACTOR,
        };
        let addend = match self.mistake {
            Mistake::AddendOneMore => ADDEND + 1,
            Mistake::NothingAdded => 0,
            _ => ADDEND,
        };
        let product = self.number.wrapping_mul(factor);
        let next = match self.mistake {
            Mistake::AddsBefore => self.number.wrapping_add(addend).wrapping_mul(factor),
            Mistake::LargeSumIsTheLargest => ((product & 0xffff_ffff) + addend).min(0xffff_ffff),
            Mistake::LargeProductIsTheLargest => product.min(0xffff_ffff) + addend,
            _ => product.wrapping_add(addend),
        };
        match self.mistake {
            Mistake::AllBitsKept => next,
            Mistake::OneBitFewerKept => next & 0x7fff_ffff,
            Mistake::ModuloOneLess => next % 0xffff_ffff,
            _ => next & 0xffff_ffff,
        }
    }

    fn draw(&mut self) -> u64 {
        let before = self.number;
        self.number = self.moved();
        let from = if self.mistake == Mistake::SeedDrawnFirst { before } else { self.number };
        match self.mistake {
            Mistake::RestDrawn => from % 65_536,
            Mistake::WholeNumberDrawn => from,
            Mistake::FifteenBitsDrawn => from >> 16 & 0x7fff,
            Mistake::DividedByOneLess => from / 65_535,
            Mistake::DrawsRounded => (from + 32_768) >> 16,
            Mistake::DrawsSigned => u64::from((from as u32).cast_signed().wrapping_shr(16).cast_unsigned()),
            _ => from >> 16,
        }
    }

    /// The step that comes next for a plan, whatever comes of it.
    fn step(&mut self, plan: &[u8]) -> Step {
        let mistake = self.mistake;
        let nodes = plan.len() as u64 / 2;
        let [what, mut code, mut node] = [(); 3].map(|()| self.draw());
        let is_event = match mistake {
            Mistake::EvenIsAMessage => what % 2 == 1,
            Mistake::HighDrawsAreMessages => what < 32_768,
            _ => what.is_multiple_of(2),
        };
        let takes_fourth = !(mistake == Mistake::EventTakesThree && is_event);
        let mut site = if takes_fourth { self.draw() } else { 0 };
        match mistake {
            Mistake::StepTakesFive => drop(self.draw()),
            Mistake::NodeDrawnBeforeCode => std::mem::swap(&mut code, &mut node),
            Mistake::SiteDrawnBeforeNode => std::mem::swap(&mut node, &mut site),
            _ => {}
        }
        let code = match mistake {
            Mistake::CodesFromZero => code % 8,
            Mistake::OneAddedFirst => (code + 1) % 8,
            Mistake::SevenCodes => code % 7 + 1,
            _ => code % 8 + 1,
        };
        let node = match mistake {
            Mistake::NodesFromOne => node % nodes + 1,
            Mistake::NodesOfTheLargestPlan => node % MOST_NODES,
            Mistake::LastNodeLeftOut => node % (nodes - 1).max(1),
            Mistake::NodesScaled => (node * nodes) >> 16,
            Mistake::NodeDrawCut => (node & 0xff) % nodes,
            _ => node % nodes,
        };
        let site = match mistake {
            Mistake::SitesOfTheLargestPlan => site % MOST_NODES,
            Mistake::SiteIsNotTheNode if site % nodes == node => (site + 1) % nodes,
            Mistake::SiteDrawCut => (site & 0xff) % nodes,
            _ => site % nodes,
        };
        let site = match mistake {
            Mistake::EventReadsItsSite => site,
            Mistake::EventAtItsNode if is_event => node,
            Mistake::EventAtZero if is_event => 0,
            Mistake::EventAtTheNodeCount if is_event => nodes,
            _ if is_event => 0xff,
            _ => site,
        };
        let [code, node, site] = [code, node, site].map(|number| number as u8);
        match mistake {
            Mistake::NodeWrittenFirst => [node, code, site, 0],
            Mistake::SiteWrittenBeforeNode => [code, site, node, 0],
            _ => [code, node, site, 0],
        }
    }
}

/// The steps of a load as they are run, for mistakes that leave out what is refused.
struct Run<'a> {
    plan: &'a [u8],
    tree: Option<Tree>,
    /// The state, where refused steps are left out; in short loads only.
    state: Option<Vec<u8>>,
}

impl Run<'_> {
    /// How many refused steps are left out one after another at most.
    const TRIES: usize = 8;

    fn new(mistake: Mistake, plan: &[u8], steps: usize) -> Run<'_> {
        let nodes = plan.len() / 2;
        let tree = (mistake == Mistake::UnfitStepsLeftOut).then(|| Tree::new(plan));
        let is_run = mistake == Mistake::RefusedStepsLeftOut && steps < 1000;
        Run { plan, tree, state: is_run.then(|| vec![0; nodes * nodes]) }
    }

    /// The next step that isn't left out.
    fn step(&mut self, generator: &mut Generator) -> Step {
        let mut step = generator.step(self.plan);
        for _ in 0..Run::TRIES {
            if self.stays(step) {
                break;
            }
            step = generator.step(self.plan);
        }
        step
    }

    fn stays(&mut self, step: Step) -> bool {
        let [code, node, site, _] = step.map(u32::from);
        let applies = self.tree.as_ref().is_none_or(|tree| tree.applies(code, node as usize));
        let passes = self
            .state
            .as_mut()
            .is_none_or(|state| number(Reference.simulate(self.plan, code, node, site, state)) == 0);
        applies && passes
    }
}
