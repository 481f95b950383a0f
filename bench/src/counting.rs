//! Instructions of one call of each side, counted by valgrind's callgrind.

use crate::{
    results::Measured,
    timing::LONG,
    workload::{Side, Workload},
};
use std::{
    env, fs, io,
    path::Path,
    process::{Command, Stdio},
};

/// What this program is called with under callgrind, before the numbers of the workloads.
pub const COUNTED: &str = "--counted";

/// Where callgrind writes.
const FOLDER: &str = concat!(env!("CARGO_MANIFEST_DIR"), "/target/callgrind");

/// The numbers of workloads, as an argument has them.
pub fn numbers(list: &str) -> Vec<usize> {
    list.split(',').map(|number| number.parse().expect("a number")).collect()
}

/// Makes a call of each side of these workloads that is counted, after one that is not: the
/// first call would find the heap as the workload before has left it.
pub fn call_counted(workloads: &mut [Workload], numbers: &[usize]) {
    for number in numbers {
        let workload = &mut workloads[*number];
        for side in [&mut workload.archive, &mut workload.gix] {
            side.prepare();
            side.call();
            side.prepare();
            counted(side.as_mut());
        }
    }
}

/// The one function in which instructions are counted, with all that it calls.
#[inline(never)]
fn counted(side: &mut dyn Side) {
    side.call();
}

/// Counts the instructions of each workload, if valgrind is at hand. Those with long calls
/// are left out: under valgrind all takes some fifty times as long.
pub fn count(measured: &mut [Measured]) -> io::Result<bool> {
    if Command::new("valgrind").arg("--version").stdout(Stdio::null()).status().is_err() {
        println!("\nvalgrind is not at hand, so no instructions are counted");
        return Ok(false);
    }
    let short = |one: &&mut Measured| one.times.iter().all(|time| *time < LONG);
    let chosen: Vec<_> = measured.iter_mut().filter(short).collect();
    run(&chosen.iter().map(|one| one.number.to_string()).collect::<Vec<_>>().join(","))?;
    for (place, one) in chosen.into_iter().enumerate() {
        one.counts = Some([part(2 * place + 1)?, part(2 * place + 2)?]);
    }
    Ok(true)
}

/// Runs this program under callgrind, which writes a part each time that `counted`
/// returns. The two patterns must not be the same: callgrind would take one option only.
fn run(numbers: &str) -> io::Result<()> {
    let _ = fs::remove_dir_all(FOLDER);
    fs::create_dir_all(FOLDER)?;
    let status = Command::new("valgrind")
        .args(["--tool=callgrind", "--toggle-collect=bench::counting::counte*"])
        .args(["--dump-after=bench::counting::counted*"])
        .arg(format!("--callgrind-out-file={FOLDER}/part"))
        .arg(format!("--log-file={FOLDER}/log"))
        .arg(env::current_exe()?)
        .args([COUNTED, numbers])
        .status()?;
    if status.success() { Ok(()) } else { Err(io::Error::other(format!("valgrind: see {FOLDER}/log"))) }
}

/// How many instructions a part has.
fn part(number: usize) -> io::Result<u64> {
    let path = Path::new(FOLDER).join(format!("part.{number}"));
    let text = fs::read_to_string(path)?;
    let total = text.lines().find_map(|line| line.strip_prefix("totals: ")?.parse().ok());
    total.ok_or_else(|| io::Error::other(format!("part {number} has no total")))
}
