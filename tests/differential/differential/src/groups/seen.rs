//! What came up in a run.

use paper::{Group, Items, Mode, Row};

/// What a run must have met at least once.
const EVENTS: [&str; 16] = [
    "forward rows",
    "of patterns",
    "of empty captures",
    "of full names",
    "of partial names",
    "of object ids",
    "without destination",
    "with a completed destination",
    "with a destination above 4,096 bytes",
    "repeats",
    "excluded",
    "reverse rows",
    "of patterns in reverse",
    "repeats in reverse",
    "excluded in reverse",
    "misses where start and end share bytes",
];

/// How often each refusal and each event came up.
#[derive(Default)]
pub struct Seen {
    refusals: [u64; 19],
    accepted: u64,
    /// Of these, how many have no repeats in either listing.
    unrepeated: u64,
    events: [u64; EVENTS.len()],
}

impl Seen {
    pub fn refusal(&mut self, number: u64) {
        self.refusals[number as usize] += 1;
    }

    /// Counts an accepted group with the rows of its two listings.
    pub fn group(&mut self, group: &Group, items: &Items, rows: &[Row], back: &[Row]) {
        self.accepted += 1;
        let specs: Vec<_> = group.specs().collect();
        let mut counts = [0; EVENTS.len()];
        let mut count = |event: usize, yes: bool| counts[event] += u64::from(yes);
        for row in rows {
            let spec = specs[row.spec];
            let source = spec.source.unwrap_or_default();
            let pattern = source.contains(&b'*');
            count(0, true);
            count(1, pattern);
            count(2, pattern && row.source.len() + 1 == source.len());
            count(3, row.kind == 0 && !pattern && source.starts_with(b"refs/"));
            count(4, row.kind == 0 && !pattern && !source.starts_with(b"refs/"));
            count(5, row.kind == 1);
            count(6, row.destination.is_none());
            count(7, !pattern && row.destination.as_deref() != spec.destination);
            count(8, row.destination.as_ref().is_some_and(|destination| destination.len() > 4096));
        }
        let repeats = |rows: &[Row]| {
            let mut met = std::collections::HashSet::new();
            rows.iter().filter(|row| !met.insert((row.kind, &row.source, &row.destination))).count()
        };
        let removed = |matched: usize, kept: usize| (matched - kept) as u64;
        for row in back {
            count(11, true);
            count(12, specs[row.spec].source.is_some_and(|source| source.contains(&b'*')));
        }
        counts[9] = repeats(rows) as u64;
        counts[13] = repeats(back) as u64;
        self.unrepeated += u64::from(counts[9] + counts[13] == 0);
        if specs.iter().any(|spec| spec.mode == Mode::Negative) {
            counts[10] = removed(group.matched_forward(items).len(), rows.len());
            counts[14] = removed(group.matched_reverse(items).len(), back.len());
        }
        for pattern in specs.iter().filter_map(|spec| spec.source) {
            let Some(star) = pattern.iter().position(|byte| *byte == b'*') else { continue };
            let (start, end) = (&pattern[..star], &pattern[star + 1..]);
            let shares = |name: &&[u8]| {
                name.len() < start.len() + end.len() && name.starts_with(start) && name.ends_with(end)
            };
            counts[15] += items.names().filter(shares).count() as u64;
        }
        self.events.iter_mut().zip(counts).for_each(|(sum, n)| *sum += n);
    }

    pub fn add(&mut self, other: &Seen) {
        self.refusals.iter_mut().zip(other.refusals).for_each(|(sum, n)| *sum += n);
        self.events.iter_mut().zip(other.events).for_each(|(sum, n)| *sum += n);
        self.accepted += other.accepted;
        self.unrepeated += other.unrepeated;
    }

    pub fn total(&self) -> u64 {
        self.accepted + self.refusals.iter().sum::<u64>()
    }

    /// Prints the counts. False if some refusal or event never came up: then the run
    /// would not have shown much.
    pub fn everything(&self) -> bool {
        let asked = [1, 2, 3, 4, 5, 6, 7, 8, 9, 10, 11, 12, 13, 14, 15, 18];
        let refusals: String = asked.iter().map(|n| format!(" {n}: {}", self.refusals[*n])).collect();
        println!(
            "accepted {}, {} of them without repeats, refusals{refusals}",
            self.accepted, self.unrepeated
        );
        let events: Vec<String> =
            EVENTS.iter().zip(self.events).map(|(event, n)| format!("{n} {event}")).collect();
        println!("{}", events.join(", "));
        let all = asked.iter().all(|n| self.refusals[*n] > 0) && self.events.iter().all(|count| *count > 0);
        if !all {
            println!("differential: something never came up");
        }
        all
    }
}
