//! Rounds of all implementations in turn, and their medians.

use std::hint::black_box;
use std::time::{Duration, Instant};

use crate::Implementation;
use crate::cases::Case;

pub const ROUNDS: usize = 101;

/// The least that a round of one implementation takes; 101 of them are 0.2 s.
/// It is short, so that whatever else the machine does slows all alike.
const ROUND: Duration = Duration::from_millis(2);

/// Nanoseconds that a case takes by each implementation, and the ratio of the
/// first, the proved library, to each.
pub struct Times<const N: usize> {
    /// The median of all rounds.
    pub each: [f64; N],
    /// The median of each round's own ratio; that to itself is 1.
    pub ratios: [f64; N],
}

/// Times all implementations, which go first by turns.
pub fn time<G: Copy, L: Copy + From<u8> + PartialEq, const N: usize>(
    case: &Case<G>,
    all: [Implementation<G, L>; N],
) -> Times<N> {
    check(case, all);
    let mut lent = vec![L::from(0); case.lent];
    let repeats = all.map(|implementation| enough(implementation, &case.given, &mut lent));
    let mut rounds = [const { Vec::new() }; N];
    for round in 0..ROUNDS {
        for turn in 0..N {
            let which = (round + turn) % N;
            let took = run(all[which], &case.given, &mut lent, repeats[which]);
            rounds[which].push(took.as_nanos() as f64 / repeats[which] as f64);
        }
    }
    Times {
        ratios: std::array::from_fn(|which| ratio(&rounds[0], &rounds[which])),
        each: rounds.map(median),
    }
}

/// Panics unless all answer as the case says, with the same length, and leave
/// the same in what is lent.
fn check<G, L: Copy + From<u8> + PartialEq, const N: usize>(
    case: &Case<G>,
    all: [Implementation<G, L>; N],
) {
    let answers = all.map(|implementation| {
        let mut lent = vec![L::from(0xaa); case.lent];
        (implementation(&case.given, &mut lent), lent)
    });
    let (number, line, _) = answers[0].0;
    assert_eq!((number, line), (case.number, case.line), "{}", case.name);
    for answer in &answers[1..] {
        assert_eq!(answer.0, answers[0].0, "{}", case.name);
        assert!(answer.1 == answers[0].1, "{}: what is lent", case.name);
    }
}

/// How many times over a case takes at least a round's time.
fn enough<G, L>(implementation: Implementation<G, L>, given: &[G], lent: &mut [L]) -> u32 {
    let mut repeats = 1;
    while run(implementation, given, lent, repeats) < ROUND {
        repeats *= 2;
    }
    repeats
}

/// The time of so many runs of one case. Not inlined, so that
/// `benchmark/instructions` can count what it runs and nothing else.
#[inline(never)]
pub fn run<G, L>(
    implementation: Implementation<G, L>,
    given: &[G],
    lent: &mut [L],
    repeats: u32,
) -> Duration {
    let start = Instant::now();
    for _ in 0..repeats {
        black_box(implementation(black_box(given), black_box(&mut *lent)));
    }
    start.elapsed()
}

fn ratio(proved: &[f64], other: &[f64]) -> f64 {
    let pairs = proved.iter().zip(other);
    median(pairs.map(|(proved, other)| proved / other).collect())
}

fn median(mut numbers: Vec<f64>) -> f64 {
    numbers.sort_by(f64::total_cmp);
    numbers[numbers.len() / 2]
}
