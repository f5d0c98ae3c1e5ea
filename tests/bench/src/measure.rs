//! Time for two sides in turn.

use std::hint::black_box;
use std::time::Instant;

/// How long a sample should take at least, in nanoseconds.
const SAMPLE: f64 = 50_000.0;

/// Nanoseconds a call, the median of all rounds.
pub struct Medians {
    /// The subject's.
    pub theirs: f64,
    /// The reference's.
    pub ours: f64,
}

impl Medians {
    /// How many times as long the subject takes.
    pub fn ratio(&self) -> f64 {
        self.theirs / self.ours
    }
}

/// Measures both sides in the same round, the first side changing from round
/// to round, so that what else goes on meets both alike.
pub fn in_turn(
    rounds: usize,
    calls: usize,
    mut theirs: impl FnMut() -> u32,
    mut ours: impl FnMut() -> u32,
) -> Medians {
    let repeats = (SAMPLE / sample(1, &mut ours).max(1.0)).ceil() as usize;
    let repeats = repeats.max(1);
    let (mut their_times, mut our_times) = (Vec::with_capacity(rounds), Vec::with_capacity(rounds));
    for round in 0..rounds {
        if round % 2 == 0 {
            their_times.push(sample(repeats, &mut theirs));
            our_times.push(sample(repeats, &mut ours));
        } else {
            our_times.push(sample(repeats, &mut ours));
            their_times.push(sample(repeats, &mut theirs));
        }
    }
    let each = (repeats * calls) as f64;
    Medians { theirs: median(their_times) / each, ours: median(our_times) / each }
}

/// Nanoseconds for so many repeats.
fn sample(repeats: usize, work: &mut impl FnMut() -> u32) -> f64 {
    let begin = Instant::now();
    for _ in 0..repeats {
        black_box(work());
    }
    begin.elapsed().as_nanos() as f64
}

fn median(mut times: Vec<f64>) -> f64 {
    times.sort_by(f64::total_cmp);
    times[times.len() / 2]
}

#[cfg(test)]
mod tests {
    use super::{in_turn, median};

    #[test]
    fn the_middle_one() {
        assert_eq!(median(vec![9.0, 1.0, 5.0]), 5.0);
    }

    #[test]
    fn twice_the_work_takes_longer() {
        let spin = |count: u32| (0..count).fold(1u32, |sum, next| std::hint::black_box(sum ^ next));
        let medians = in_turn(51, 1, || spin(40_000), || spin(10_000));
        assert!(medians.ratio() > 1.5, "{}", medians.ratio());
    }
}
