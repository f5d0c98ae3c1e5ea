//! The simulation of a whole job: all rows, one after another.

use crate::event::Event;
use crate::journal::Entry;
use crate::layout::Layout;
use crate::plan::Plan;
use crate::refusal::Refusal;
use crate::site::{self, Verdict};

/// The number that says: the event happens. Any other is that of a site or
/// desk that hears of it.
pub const HAPPENS: u32 = 0xff;

/// What became of a step of the simulation.
#[derive(Clone, Copy, Debug, PartialEq, Eq)]
pub enum Outcome {
    /// An event, tried at its site.
    Event(Verdict),
    /// A message that was heard.
    Heard,
    /// Refused before any site had to decide, or a false message.
    Refused(Refusal),
}

impl Outcome {
    /// Whether the step passed.
    pub fn is_passed(self) -> bool {
        matches!(self, Outcome::Heard | Outcome::Event(Verdict::Passed { .. }))
    }
}

/// One step on the whole state: 1 to 6, then 7 for the state, then what the
/// step itself comes to.
pub fn simulate(plan: &[u8], code: u32, node: u32, site: u32, state: &mut [u8]) -> Outcome {
    match Plan::check(plan) {
        Ok(plan) => simulate_in(&plan, code, node, site, state),
        Err(cause) => Outcome::Refused(cause),
    }
}

/// One step of a checked plan: 7 for the state, then what the step itself
/// comes to.
pub(crate) fn simulate_in(
    layout: &impl Layout,
    code: u32,
    node: u32,
    site: u32,
    state: &mut [u8],
) -> Outcome {
    if layout.fits(state) { step(layout, code, node, site, state) } else { Outcome::Refused(Refusal::Length) }
}

/// One step of a checked plan on a state that fits.
pub(crate) fn step(layout: &impl Layout, code: u32, node: u32, site: u32, state: &mut [u8]) -> Outcome {
    match Step::read(layout, code, node, site) {
        Ok(step) => step.take(layout, state),
        Err(cause) => Outcome::Refused(cause),
    }
}

/// A step whose numbers fit the plan.
#[derive(Clone, Copy)]
pub(crate) struct Step {
    event: Event,
    /// The row of who hears of the event; none if it happens.
    hearer: Option<usize>,
}

impl Step {
    /// Reads a step from outside numbers: 8 if one of them doesn't exist, then
    /// 9.
    pub(crate) fn read(layout: &impl Layout, code: u32, node: u32, site: u32) -> Result<Step, Refusal> {
        let hearer = if site == HAPPENS { None } else { Some(layout.hearer(site)?) };
        Ok(Step { event: Event::read(layout.plan(), code, node)?, hearer })
    }

    /// Reads a step from an entry of a journal: 8, 9.
    pub(crate) fn of_entry(layout: &impl Layout, &[code, node, site, _]: &Entry) -> Result<Step, Refusal> {
        Step::read(layout, code.into(), node.into(), site.into())
    }

    /// What the event's site says, or 12 for a message.
    pub(crate) fn take(self, layout: &impl Layout, state: &mut [u8]) -> Outcome {
        let own = row(layout, self.own(layout), state);
        let Some(hearer) = self.hearer else {
            return Outcome::Event(site::happen(layout, self.event, own));
        };
        if !self.event.is_heard(own) {
            return Outcome::Refused(Refusal::FalseMessage);
        }
        self.event.set(row(layout, hearer, state));
        Outcome::Heard
    }

    /// Whether its bit is set, where the step would set it.
    pub(crate) fn is_set(self, layout: &impl Layout, state: &mut [u8]) -> bool {
        self.event.is_heard(self.row(layout, state))
    }

    /// Clears its bit, where the step would set it.
    pub(crate) fn clear(self, layout: &impl Layout, state: &mut [u8]) {
        self.event.clear(self.row(layout, state));
    }

    /// The row that the step sets its bit in.
    fn row<'s>(self, layout: &impl Layout, state: &'s mut [u8]) -> &'s mut [u8] {
        row(layout, self.hearer.unwrap_or_else(|| self.own(layout)), state)
    }

    /// The row of the site that decides the event.
    fn own(self, layout: &impl Layout) -> usize {
        layout.row(self.event.site(layout.plan()))
    }
}

/// A row within the state.
fn row<'s>(layout: &impl Layout, row: usize, state: &'s mut [u8]) -> &'s mut [u8] {
    let size = layout.plan().size();
    &mut state[row * size..][..size]
}
