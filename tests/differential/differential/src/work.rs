//! Comparisons on all cores.

use cases::Random;
use std::{
    sync::{
        Mutex,
        atomic::{AtomicBool, AtomicU64, Ordering},
    },
    time::Instant,
};

const THREADS: usize = 2;

/// Which cases of a run are compared: one of each `one_in` that follow each other.
#[derive(Clone, Copy)]
pub struct Sample {
    /// Fixes the grown cases, and which cases are taken.
    pub seed: u64,
    pub one_in: u64,
}

impl Sample {
    /// How many of the numbers below `count` are taken.
    pub fn of(self, count: u64) -> u64 {
        count.div_ceil(self.one_in)
    }

    /// Whether cases are left out.
    pub fn is_part(self) -> bool {
        self.one_in > 1
    }

    /// The number below `count` that is taken as the `step`th.
    fn number(self, step: u64, count: u64) -> u64 {
        let first = step * self.one_in;
        first + Random::new(self.seed, step).next() % self.one_in.min(count - first)
    }
}

/// A run of one part: comparisons, one kind of cases after another, until a difference.
pub struct Run<Comparison, Seen> {
    pub comparison: Comparison,
    pub sample: Sample,
    pub seen: Seen,
    began: Instant,
}

impl<Comparison, Seen: Default> Run<Comparison, Seen> {
    pub fn new(comparison: Comparison, sample: Sample) -> Run<Comparison, Seen> {
        Run { comparison, sample, seen: Seen::default(), began: Instant::now() }
    }

    /// Says that so many comparisons of one kind are made, and how long the run has taken. True,
    /// since none of them differs.
    pub fn passed(&self, what: &str, count: u64) -> bool {
        println!("{what}: {count} comparisons, {:.1} s", self.began.elapsed().as_secs_f64());
        true
    }
}

/// Takes a step for each number of the sample below `count`, on all threads, `chunk`
/// numbers at a time, until a step fails. Answers the tally of each thread, and the
/// numbers whose steps failed.
pub fn share<T: Default + Send>(
    sample: Sample,
    count: u64,
    chunk: u64,
    step: impl Fn(u64, &mut T) -> bool + Sync,
) -> (Vec<T>, Vec<u64>) {
    let steps = sample.of(count);
    let next = AtomicU64::new(0);
    let stop = AtomicBool::new(false);
    let done = Mutex::new((Vec::new(), Vec::new()));
    let work = || {
        let mut tally = T::default();
        let mut failed = Vec::new();
        while !stop.load(Ordering::Relaxed) {
            let from = next.fetch_add(chunk, Ordering::Relaxed);
            if from >= steps {
                break;
            }
            let numbers = (from..steps.min(from + chunk)).map(|step| sample.number(step, count));
            failed.extend(numbers.filter(|number| !step(*number, &mut tally)));
            if !failed.is_empty() {
                stop.store(true, Ordering::Relaxed);
            }
        }
        let mut done = done.lock().unwrap();
        done.0.push(tally);
        done.1.extend(failed);
    };
    std::thread::scope(|scope| (0..THREADS).for_each(|_| drop(scope.spawn(work))));
    done.into_inner().unwrap()
}

#[cfg(test)]
mod tests {
    use super::{Sample, share};

    const ALL: Sample = Sample { seed: 1, one_in: 1 };

    #[test]
    fn each_number_once_until_one_fails() {
        let (sums, failed) = share(ALL, 1000, 7, |number, sum: &mut u64| {
            *sum += number;
            true
        });
        assert_eq!((sums.iter().sum::<u64>(), failed), (499_500, vec![]));
        let (_, failed) = share(ALL, 1000, 7, |number, _: &mut ()| number != 500);
        assert_eq!(failed, [500]);
    }

    #[test]
    fn a_sample_takes_one_of_each_ten_and_of_what_is_left() {
        for seed in 0..50 {
            let (numbers, _) =
                share(Sample { seed, one_in: 10 }, 1003, 7, |number, numbers: &mut Vec<u64>| {
                    numbers.push(number);
                    true
                });
            let mut tens: Vec<u64> = numbers.concat().into_iter().map(|number| number / 10).collect();
            tens.sort();
            assert_eq!(tens, (0..=100).collect::<Vec<_>>());
            assert!(numbers.concat().iter().all(|number| *number < 1003));
        }
    }
}
