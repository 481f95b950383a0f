//! Holds us against Git itself: names against `git check-ref-format`, whole specs
//! against the reading of `remote.<name>.fetch` and `remote.<name>.push`. See
//! ../README.md.

mod names;
mod specs;

use std::{
    process::ExitCode,
    sync::atomic::{AtomicUsize, Ordering},
    time::Instant,
};

const USAGE: &str = "usage: gitnames [--seed N] [--count N]";

const THREADS: usize = 2;

fn main() -> ExitCode {
    let (mut seed, mut count) = (1, 6_000);
    let mut words = std::env::args().skip(1);
    while let Some(word) = words.next() {
        let value = words.next().and_then(|value| value.parse().ok());
        match (word.as_str(), value) {
            ("--seed", Some(value)) => seed = value,
            ("--count", Some(value)) => count = value,
            _ => {
                eprintln!("{USAGE}");
                return ExitCode::from(2);
            }
        }
    }
    let names = judge("names", &names::names(seed, count), |name| names::difference(name));
    let specs = judge("specs", &specs::specs(seed, count), specs::difference);
    if names && specs { ExitCode::SUCCESS } else { ExitCode::FAILURE }
}

/// Has Git and us judge every case, on all threads, and prints where we differ,
/// shortest cases first. A judgement is whether the case passes.
fn judge<T: Sync>(what: &str, cases: &[T], difference: impl Fn(&T) -> Result<bool, String> + Sync) -> bool {
    let began = Instant::now();
    let next = AtomicUsize::new(0);
    let work = || {
        let (mut passing, mut differing) = (0, Vec::new());
        while let Some(case) = cases.get(next.fetch_add(1, Ordering::Relaxed)) {
            match difference(case) {
                Ok(passes) => passing += usize::from(passes),
                Err(difference) => differing.push(difference),
            }
        }
        (passing, differing)
    };
    let (mut passing, mut differing) = (0, Vec::new());
    std::thread::scope(|scope| {
        let threads: Vec<_> = (0..THREADS).map(|_| scope.spawn(work)).collect();
        for thread in threads {
            let (some, others) = thread.join().expect("the thread ends");
            passing += some;
            differing.extend(others);
        }
    });
    differing.sort_by_key(String::len);
    differing.iter().take(20).for_each(|difference| println!("difference: {difference}"));
    println!(
        "gitnames: {} {what}, {passing} of them pass, {} unexpected differences, {:.1} s",
        cases.len(),
        differing.len(),
        began.elapsed().as_secs_f64()
    );
    differing.is_empty()
}
