//! What came up in a run.

use paper::{Row, Verdict};

/// What a run must have met at least once.
const EVENTS: [&str; 20] = [
    "rows",
    "without destination",
    "to HEAD",
    "of no bytes as source",
    "of object ids",
    "lists in conflict",
    "conflicts",
    "of three sources or more",
    "of 128 sources or more",
    "of a name and an object id",
    "of a name and an object id that look alike",
    "on partial destinations",
    "on no bytes",
    "on HEAD",
    "rows with a source that an earlier row of the conflict has",
    "lists that pass",
    "fixes",
    "fixes of no bytes",
    "forward listings without repeats",
    "forward listings in conflict",
];

/// How often each refusal and each event came up.
#[derive(Default)]
pub struct Seen {
    refusals: [u64; 19],
    accepted: u64,
    events: [u64; EVENTS.len()],
}

impl Seen {
    pub fn refusal(&mut self, number: u64) {
        self.refusals[number as usize] += 1;
    }

    /// Counts an accepted row list with what is said of it.
    pub fn rows(&mut self, rows: &[Row], verdict: &Verdict) {
        self.accepted += 1;
        let mut count = |event: usize, yes: bool| self.events[event] += u64::from(yes);
        for row in rows {
            count(0, true);
            count(1, row.destination.is_none());
            count(2, row.destination.as_deref() == Some(b"HEAD"));
            count(3, row.source.is_empty());
            count(4, row.kind == 1);
        }
        match verdict {
            Verdict::Conflicts(conflicts) => {
                count(5, true);
                for conflict in conflicts {
                    let sources = &conflict.sources;
                    let destination = &conflict.destination[..];
                    let mut names = sources.iter().filter(|source| source.kind == 0);
                    let objects: Vec<_> = sources.iter().filter(|source| source.kind == 1).collect();
                    count(6, true);
                    count(7, sources.len() > 2);
                    count(8, sources.len() >= 128);
                    count(9, !objects.is_empty() && objects.len() < sources.len());
                    count(10, names.any(|name| objects.iter().any(|object| object.name == name.name)));
                    count(11, !destination.starts_with(b"refs/") && destination != b"HEAD");
                    count(12, destination.is_empty());
                    count(13, destination == b"HEAD");
                    let onto = |row: &&Row| row.destination.as_deref() == Some(destination);
                    count(14, rows.len() < 100 && rows.iter().filter(onto).count() > sources.len());
                }
            }
            Verdict::Passed { fixes, .. } => {
                count(15, true);
                for fix in fixes {
                    count(16, true);
                    count(17, fix.name.is_empty());
                }
            }
        }
    }

    /// Counts a forward listing.
    pub fn listing(&mut self, unrepeated: bool, verdict: &Verdict) {
        self.events[18] += u64::from(unrepeated);
        self.events[19] += u64::from(matches!(verdict, Verdict::Conflicts(_)));
    }

    pub fn add(&mut self, other: &Seen) {
        self.refusals.iter_mut().zip(other.refusals).for_each(|(sum, n)| *sum += n);
        self.events.iter_mut().zip(other.events).for_each(|(sum, n)| *sum += n);
        self.accepted += other.accepted;
    }

    pub fn total(&self) -> u64 {
        self.accepted + self.refusals.iter().sum::<u64>()
    }

    /// Prints the counts. False if some refusal or event never came up: then the run
    /// would not have shown much.
    pub fn everything(&self) -> bool {
        let asked = [1, 2, 3, 4, 5, 6, 7, 8, 9, 10, 11, 12, 13, 14, 16, 18];
        let refusals: String = asked.iter().map(|n| format!(" {n}: {}", self.refusals[*n])).collect();
        println!("accepted {}, refusals{refusals}", self.accepted);
        let events: Vec<String> =
            EVENTS.iter().zip(self.events).map(|(event, n)| format!("{n} {event}")).collect();
        println!("{}", events.join(", "));
        let all = asked.iter().all(|n| self.refusals[*n] > 0) && self.events.iter().all(|count| *count > 0);
        if !all {
            println!("differential: something never came up");
        }
        all
    }
}
