//! The plot: a strip for each workload, from 1, where both sides take the same time, to how
//! many times as fast as the crate the archive is.

use crate::{
    results::{Measured, Ratio},
    svg::Picture,
};

const WIDTH: f64 = 960.0;

/// Where labels begin, where the axis begins and ends, and where numbers begin.
const LABELS: f64 = 16.0;
const LEFT: f64 = 150.0;
const RIGHT: f64 = 840.0;
const NUMBERS: f64 = 856.0;

const LEGEND_HEIGHT: f64 = 80.0;
const TITLE_HEIGHT: f64 = 44.0;
const ROW_HEIGHT: f64 = 20.0;
const STRIP_HEIGHT: f64 = 7.0;
const AXIS_HEIGHT: f64 = 30.0;

/// The colours of the two strips in a row where the bar is met, where it is not, and where
/// there is none.
const MET: [&str; 2] = ["#1f6fb2", "#7db4de"];
const NOT_MET: [&str; 2] = ["#cf5f1b", "#f0ab7c"];
const NO_BAR: [&str; 2] = ["#6b6b6b", "#b5b5b5"];

pub fn svg(measured: &[Measured]) -> String {
    let mut plot = Plot { axis: Axis::of(measured), picture: Picture::default() };
    let sections: Vec<_> = measured.chunk_by(|one, next| one.case.work == next.case.work).collect();
    let bottom = LEGEND_HEIGHT + sections.iter().copied().map(height).sum::<f64>();
    plot.legend();
    plot.ticks(bottom);
    let mut top = LEGEND_HEIGHT;
    for section in sections {
        plot.section(top, section);
        top += height(section);
    }
    plot.picture.file(WIDTH, bottom + AXIS_HEIGHT)
}

/// How high a section is, of two workloads to a row.
fn height(section: &[Measured]) -> f64 {
    TITLE_HEIGHT + section.len().div_ceil(2) as f64 * ROW_HEIGHT
}

/// A logarithmic axis.
struct Axis {
    low: f64,
    high: f64,
}

impl Axis {
    /// Holds all ratios, and those from a half to five at least.
    fn of(measured: &[Measured]) -> Axis {
        let ratios = measured.iter().flat_map(|one| [Some(one.ratio()), one.ratio_of_counts()]).flatten();
        let ratios: Vec<f64> = ratios.map(|Ratio(ratio)| ratio).collect();
        let low = ratios.iter().copied().fold(0.5, f64::min);
        let high = ratios.iter().copied().fold(5.0, f64::max);
        Axis { low: low / 1.1, high: high * 1.1 }
    }

    fn x(&self, ratio: f64) -> f64 {
        LEFT + (ratio / self.low).ln() / (self.high / self.low).ln() * (RIGHT - LEFT)
    }

    /// One, two and five times each power of ten.
    fn ticks(&self) -> Vec<f64> {
        let steps = (-6..6).flat_map(|power| [1.0, 2.0, 5.0].map(|step| step * 10f64.powi(power)));
        steps.filter(|tick| (self.low..=self.high).contains(tick)).collect()
    }
}

struct Plot {
    axis: Axis,
    picture: Picture,
}

impl Plot {
    fn legend(&mut self) {
        let title = "How many times as fast as gix-refspec 0.47.1 the archive is";
        let rest = "Black lines: the bars. Dots: how many times as many instructions the crate has.";
        self.picture.text(LABELS, 24.0, "title", title);
        self.picture.text(LABELS, 66.0, "note", rest);
        let meanings =
            [(MET, "the bar is met"), (NOT_MET, "the bar is not met"), (NO_BAR, "there is no bar")];
        for (place, (colours, meaning)) in meanings.into_iter().enumerate() {
            let left = LABELS + 190.0 * place as f64;
            self.picture.rectangle([left, 36.0, 16.0, 12.0], colours[0]);
            self.picture.rectangle([left + 16.0, 36.0, 16.0, 12.0], colours[1]);
            self.picture.text(left + 38.0, 46.0, "note", meaning);
        }
    }

    /// Lines at the ticks, down to their numbers.
    fn ticks(&mut self, bottom: f64) {
        for tick in self.axis.ticks() {
            let x = self.axis.x(tick);
            let colour = if tick == 1.0 { "#888" } else { "#e4e4e4" };
            self.picture.line(x, LEGEND_HEIGHT, bottom, colour);
            self.picture.text(x, bottom + 18.0, "tick", &tick.to_string());
        }
    }

    /// All workloads of one work, below its title, and its bar.
    fn section(&mut self, top: f64, section: &[Measured]) {
        let (first, last) = (&section[0].case, &section[section.len() - 1].case);
        let variants = format!("upper: {}; lower: {}", first.variant, last.variant);
        self.picture.text(LABELS, top + 18.0, "title", first.work.title());
        self.picture.text(LABELS, top + 34.0, "note", &variants);
        for (place, row) in section.chunks(2).enumerate() {
            self.row(top + TITLE_HEIGHT + place as f64 * ROW_HEIGHT, row);
        }
        if let Some(bar) = first.work.bar() {
            let bottom = top + height(section);
            self.picture.line(self.axis.x(bar), top + TITLE_HEIGHT - 2.0, bottom - 2.0, "#000");
        }
    }

    /// Two workloads that differ in the variant.
    fn row(&mut self, top: f64, row: &[Measured]) {
        self.picture.text(LABELS, top + 12.0, "", &row[0].case.size);
        for (side, one) in row.iter().enumerate() {
            let place = side as f64;
            self.strip(top + 1.0 + place * (STRIP_HEIGHT + 1.0), side, one);
            self.picture.text(NUMBERS + place * 50.0, top + 12.0, "", &one.ratio().to_string());
        }
    }

    fn strip(&mut self, top: f64, side: usize, one: &Measured) {
        let colours = match one.met() {
            Some(true) => MET,
            Some(false) => NOT_MET,
            None => NO_BAR,
        };
        let (same, end) = (self.axis.x(1.0), self.axis.x(one.ratio().0));
        self.picture.rectangle([same.min(end), top, (end - same).abs(), STRIP_HEIGHT], colours[side]);
        if let Some(Ratio(ratio)) = one.ratio_of_counts() {
            self.picture.dot(self.axis.x(ratio), top + STRIP_HEIGHT / 2.0);
        }
    }
}
