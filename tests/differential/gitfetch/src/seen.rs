//! What came up in a run.

use crate::outcome::{Outcome, Text};
use paper::{Group, Items, Mode};
use vasigmon::list;

/// What a run must have met at least once.
const EVENTS: [&str; 11] = [
    "in conflict",
    "with nothing to fetch",
    "refs written",
    "rows of patterns",
    "of full names",
    "of partial names",
    "of object ids",
    "of HEAD",
    "without destination",
    "left out",
    "excluded",
];

/// How often each event came up.
#[derive(Default)]
pub struct Seen {
    groups: usize,
    events: [usize; EVENTS.len()],
}

impl Seen {
    /// Counts a group with what comes of it.
    pub fn group(&mut self, specs: &[Text], names: &[Text], outcome: &Outcome) {
        let (specs, items) = (list::of(specs), list::of(names));
        let (group, items) =
            (Group::read(0, &specs).expect("accepted"), Items::read(&items).expect("accepted"));
        let rows = group.forward(&items);
        self.groups += 1;
        let mut count = |event: usize, times: usize| self.events[event] += times;
        count(0, usize::from(matches!(outcome, Outcome::Conflict { .. })));
        if let Outcome::Done { fetched, written, left_out } = outcome {
            count(1, usize::from(fetched.is_empty()));
            count(2, written.len());
            count(9, left_out.len());
        }
        for row in &rows {
            let source = group.specs().nth(row.spec).and_then(|spec| spec.source).unwrap_or_default();
            let event = match source {
                _ if row.kind == 1 => 6,
                b"HEAD" => 7,
                _ if source.contains(&b'*') => 3,
                _ if source.starts_with(b"refs/") => 4,
                _ => 5,
            };
            count(event, 1);
            count(8, usize::from(row.destination.is_none()));
        }
        if group.specs().any(|spec| spec.mode == Mode::Negative) {
            count(10, group.matched_forward(&items).len() - rows.len());
        }
    }

    pub fn add(&mut self, other: &Seen) {
        self.groups += other.groups;
        self.events.iter_mut().zip(other.events).for_each(|(sum, n)| *sum += n);
    }

    /// Prints the counts. False if some event never came up: then the run would not have
    /// shown much.
    pub fn everything(&self) -> bool {
        let events: Vec<String> =
            EVENTS.iter().zip(self.events).map(|(event, n)| format!("{n} {event}")).collect();
        println!("{} groups: {}", self.groups, events.join(", "));
        let all = self.events.iter().all(|count| *count > 0);
        if !all {
            println!("gitfetch: something never came up");
        }
        all
    }
}
