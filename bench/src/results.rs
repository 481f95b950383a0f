//! What was measured, and the files that it is written to.

use crate::{plot, workload::Case};
use std::{fmt, fs, io, path::Path, time::Duration};

/// A workload that was measured: the archive first, the crate second.
pub struct Measured {
    /// The number of the workload.
    pub number: usize,
    pub case: Case,
    pub times: [Duration; 2],
    /// Instructions, if they were counted.
    pub counts: Option<[u64; 2]>,
}

impl Measured {
    /// How many times as fast as the crate the archive is.
    pub fn ratio(&self) -> Ratio {
        Ratio(self.times[1].as_secs_f64() / self.times[0].as_secs_f64())
    }

    /// How many times as many instructions the crate has.
    pub fn ratio_of_counts(&self) -> Option<Ratio> {
        self.counts.map(|[archive, gix]| Ratio(gix as f64 / archive as f64))
    }

    /// Whether the bar is met, if there is one.
    pub fn met(&self) -> Option<bool> {
        self.case.work.bar().map(|bar| self.ratio().0 >= bar)
    }
}

/// How many times as much the crate takes.
#[derive(Clone, Copy)]
pub struct Ratio(pub f64);

impl fmt::Display for Ratio {
    fn fmt(&self, f: &mut fmt::Formatter<'_>) -> fmt::Result {
        let places = if self.0 < 0.1 { 4 } else { 2 };
        f.pad(&format!("{:.places$}", self.0))
    }
}

/// Writes the table and the plot.
pub fn write(measured: &[Measured]) -> io::Result<()> {
    let folder = Path::new(concat!(env!("CARGO_MANIFEST_DIR"), "/results"));
    fs::create_dir_all(folder)?;
    fs::write(folder.join("results.tsv"), tsv(measured))?;
    fs::write(folder.join("results.svg"), plot::svg(measured))
}

const COLUMNS: [&str; 11] = [
    "work",
    "size",
    "variant",
    "archive ns",
    "crate ns",
    "ratio",
    "bar",
    "met",
    "archive instructions",
    "crate instructions",
    "ratio of instructions",
];

fn tsv(measured: &[Measured]) -> String {
    let lines = measured.iter().map(|one| fields(one).join("\t"));
    [COLUMNS.join("\t")].into_iter().chain(lines).map(|line| line + "\n").collect()
}

fn fields(one: &Measured) -> [String; 11] {
    let Case { work, size, variant } = &one.case;
    let [archive, gix] = one.times.map(|time| time.as_nanos());
    [
        work.name().into(),
        size.clone(),
        variant.to_string(),
        archive.to_string(),
        gix.to_string(),
        one.ratio().to_string(),
        shown(work.bar()),
        shown(one.met()),
        shown(one.counts.map(|counts| counts[0])),
        shown(one.counts.map(|counts| counts[1])),
        shown(one.ratio_of_counts()),
    ]
}

/// A value, or a dash where there is none.
pub fn shown(value: Option<impl ToString>) -> String {
    value.map_or("-".into(), |value| value.to_string())
}
