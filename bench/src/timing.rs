//! Times: medians of runs that alternate between both sides.

use crate::workload::{Side, Workload};
use std::time::{Duration, Instant};

/// How many runs the median is taken of.
const RUNS: usize = 15;

/// Where a call takes longer than `LONG` there are fewer.
const RUNS_OF_LONG_CALLS: usize = 3;

/// A run calls until this long has passed.
const RUN_LENGTH: Duration = Duration::from_millis(4);

/// What takes longer than this is not repeated more often than it must be.
pub const LONG: Duration = Duration::from_millis(500);

/// How long a call takes, of the archive and of the crate.
pub fn medians(workload: &mut Workload) -> [Duration; 2] {
    let mut sides = [workload.archive.as_mut(), workload.gix.as_mut()];
    let first = sides.each_mut().map(|side| run(*side));
    let runs = if first.iter().any(|time| *time > LONG) { RUNS_OF_LONG_CALLS } else { RUNS };
    let mut times = [Vec::new(), Vec::new()];
    for _ in 0..runs {
        for (side, times) in sides.iter_mut().zip(&mut times) {
            times.push(run(*side));
        }
    }
    times.map(median)
}

/// How long a call takes in a run. Each is timed by itself, since there may be something to
/// prepare between two.
fn run(side: &mut dyn Side) -> Duration {
    let (mut time, mut calls) = (Duration::ZERO, 0);
    while time < RUN_LENGTH {
        side.prepare();
        let began = Instant::now();
        side.call();
        time += began.elapsed();
        calls += 1;
    }
    time / calls
}

fn median(mut times: Vec<Duration>) -> Duration {
    times.sort();
    times[times.len() / 2]
}
