//! All small plans, one after another: the whole walk, and its slowest step.

use differential::Implementation;
use differential::plans;
use std::hint::black_box;
use std::time::Instant;

/// Bytes for a next plan.
type Out = [u8; plans::MOST_SMALL_BYTES];

/// How often each step is timed, and how often the slowest ones are once more; so many
/// calls are timed together, since one alone is too short. The least time counts; all are
/// timed in turn, so that what else goes on for a while doesn't meet every try of one.
const TRIES: usize = 7;
const MORE_TRIES: usize = 100;
const TOGETHER: u32 = 8;
/// How many of the slowest are timed once more.
const SLOWEST: usize = 10;

/// How many calls a walk has: one for each small plan, the last of which is refused.
pub fn calls() -> usize {
    plans::small().len()
}

/// Each small plan handed in; answers a sum over the results and what is written.
pub fn run(subject: &mut impl Implementation) -> u32 {
    let mut out: Out = [0; plans::MOST_SMALL_BYTES];
    plans::small().iter().fold(0, |sum: u32, plan| {
        let result = subject.next_plan(black_box(plan), &mut out);
        sum.rotate_left(5) ^ result ^ u32::from_le_bytes([out[4], out[6], out[8], out[9]])
    })
}

/// One small plan handed in.
pub fn step(subject: &mut impl Implementation, plan: &[u8]) -> u32 {
    let mut out: Out = [0; plans::MOST_SMALL_BYTES];
    subject.next_plan(black_box(plan), &mut out) ^ u32::from(out[8])
}

/// A plan with the time of its step in nanoseconds.
struct Timed {
    plan: &'static [u8],
    time: f64,
}

/// The small plan from which the next takes longest.
pub fn slowest(subject: &mut impl Implementation) -> &'static [u8] {
    let timed = |plan: &'static Vec<u8>| Timed { plan, time: f64::INFINITY };
    let mut steps: Vec<Timed> = plans::small().iter().map(timed).collect();
    (0..TRIES).for_each(|_| try_each(subject, &mut steps));
    steps.sort_by(|one, two| two.time.total_cmp(&one.time));
    steps.truncate(SLOWEST);
    (0..MORE_TRIES).for_each(|_| try_each(subject, &mut steps));
    steps.sort_by(|one, two| two.time.total_cmp(&one.time));
    steps[0].plan
}

/// Times each of these once.
fn try_each(subject: &mut impl Implementation, steps: &mut [Timed]) {
    for Timed { plan, time } in steps {
        let begin = Instant::now();
        (0..TOGETHER).for_each(|_| {
            black_box(step(subject, plan));
        });
        *time = time.min(begin.elapsed().as_nanos() as f64 / f64::from(TOGETHER));
    }
}

#[cfg(test)]
mod tests {
    use super::*;
    use differential::Reference;

    /// A second walk answers the same, and its slowest step is one of them.
    #[test]
    fn walks_are_alike() {
        let first = run(&mut Reference);
        assert_eq!((run(&mut Reference), calls()), (first, 4962));
        let slowest = slowest(&mut Reference);
        assert!(plans::small().iter().any(|plan| plan == slowest));
    }
}
