//! Nanoseconds a call: the best of many short rounds, the competitors in turn, so that other work on the machine
//! falls on all of them.
use std::hint::black_box;
use std::time::{Duration, Instant};

const ROUNDS: usize = 30;
const ROUND: Duration = Duration::from_micros(300);

/// So many calls one after another.
pub fn repeat<A>(mut call: impl FnMut() -> A) -> impl FnMut(u32) {
    move |turns| {
        for _ in 0..turns {
            black_box(call());
        }
    }
}

fn time(run: &mut dyn FnMut(u32), turns: u32) -> Duration {
    let start = Instant::now();
    run(turns);
    start.elapsed()
}

/// How many calls fill a round.
fn turns_of(run: &mut dyn FnMut(u32)) -> u32 {
    let mut turns = 1;
    while time(run, turns) < ROUND {
        turns *= 2;
    }
    turns
}

pub fn race<const N: usize>(mut runs: [&mut dyn FnMut(u32); N]) -> [f64; N] {
    let turns: [u32; N] = std::array::from_fn(|i| turns_of(runs[i]));
    let mut best = [f64::INFINITY; N];
    for _ in 0..ROUNDS {
        for i in 0..N {
            let ns = time(runs[i], turns[i]).as_nanos() as f64 / f64::from(turns[i]);
            best[i] = best[i].min(ns);
        }
    }
    best
}
