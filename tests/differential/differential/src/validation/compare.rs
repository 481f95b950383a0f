//! One comparison: a spec list and a row list, validated by the archive, by the paper's
//! reading and, where both lists are accepted, by the crate.

use super::{Case, Entry, Second, Seen, refusal};
use crate::{
    Fault,
    buffers::{Again, Lent, Two, TwoCall, two_refused, two_written},
    groups::as_the_crate_has_it,
    smaller::{copies, fewest, fewest_records, plainer, shorter, simpler},
    specs::records,
};
use paper::{Group, Items, Refused, Row, Verdict};
use std::{
    borrow::Cow,
    time::{Duration, Instant},
};
use vasigmon::list;

/// How long a smaller case is looked for.
const PATIENCE: Duration = Duration::from_secs(20);

/// Compares answers.
pub struct Comparison {
    pub entry: Entry,
    pub fault: Fault,
    /// What buffers hold before they are lent.
    pub noise: Vec<u8>,
}

impl Comparison {
    /// How the sides differ, if they do.
    pub fn run(&self, case: &Case, again: Again, seen: &mut Seen) -> Result<(), String> {
        let Some(rows) = case.rows() else { return Ok(()) };
        let (op, specs, rows) = (case.op, Lent::new(&case.specs), Lent::new(&rows));
        let (specs, rows) = (specs.bytes(), rows.bytes());
        let call = |out: &mut [u8], fixes: &mut [u8]| (self.entry)(op, specs, rows, out, fixes);
        let group = match Group::read(op, specs) {
            Ok(group) => group,
            Err(why) => return self.refused(&call, why, seen),
        };
        let read = match group.rows(rows) {
            Ok(read) => read,
            Err(why) => return self.refused(&call, why, seen),
        };

        let verdict = Verdict::on(&read);
        let found = self.validated(&call, &verdict, again)?;
        let the_crate = oracle::Group::read(op, group.texts()).map_err(|(record, number)| {
            format!("spec {record}: the crate refuses it with {number}, the paper does not")
        })?;
        let ours = as_the_crate_says_it(&the_crate, &found);
        let rows: Vec<oracle::Row> = list::rows(rows).map(as_the_crate_has_it).collect();
        self.the_crate("on these rows", the_crate.validated(&rows), &ours)?;
        seen.rows(&read, &verdict);

        // The crate's own listing, which has no repeats. Without them conflicts are the
        // same; rows and fixes are where ours has none either.
        if let Second::Items(items) = &case.second {
            let items = Items::read(items).expect("a listing was made of them");
            let names: Vec<&[u8]> = items.names().collect();
            let (count, crates) = the_crate.match_lhs_validated(&names);
            let unrepeated = count == rows.len();
            if unrepeated || matches!(ours, oracle::Verdict::Conflicts(_)) {
                self.the_crate("on its own listing", crates, &ours)?;
            }
            seen.listing(unrepeated, &verdict);
        }
        Ok(())
    }

    /// Complains unless a call is refused like this, whatever its buffers.
    fn refused(&self, call: TwoCall, why: Refused, seen: &mut Seen) -> Result<(), String> {
        let next = u64::from(self.fault == Fault::Paper);
        let expected = refusal(Refused { record: why.record.map(|record| record + next), ..why });
        for [first, second] in [[0, 0], [1, 0], [100, 100]] {
            two_refused("validated", call, [&self.noise[..first], &self.noise[..second]], expected)?;
        }
        seen.refusal(why.number);
        Ok(())
    }

    /// Noise of some length.
    fn noise(&self, length: usize) -> Cow<'_, [u8]> {
        match self.noise.get(..length) {
            Some(noise) => noise.into(),
            None => self.noise.repeat(1 + length / self.noise.len())[..length].to_vec().into(),
        }
    }

    /// What a call writes, or a complaint unless it has just the paper's bytes.
    fn validated(&self, call: TwoCall, verdict: &Verdict, again: Again) -> Result<Two, String> {
        let (out, fixes) = verdict.bytes();
        let room = [out.len() + 100, fixes.as_ref().map_or(0, Vec::len) + 100];
        let [first, second] = room.map(|length| self.noise(length));
        let mut found = two_written("validated", call, [&first, &second], again)?;
        if self.fault == Fault::Ours
            && let Some(fixes) = &mut found.fixes
        {
            fixes.pop();
        }
        if found.out == out && found.fixes == fixes {
            return Ok(found);
        }
        let shown = |fixes: &Option<Vec<u8>>| match fixes {
            Some(fixes) => format!(" fixes {}", fixes.escape_ascii()),
            None => " in conflict".to_owned(),
        };
        Err(format!(
            "validated: the paper {}{}, ours {}{}",
            out.escape_ascii(),
            shown(&fixes),
            found.out.escape_ascii(),
            shown(&found.fixes)
        ))
    }

    /// Complains unless the crate says the same.
    fn the_crate(
        &self,
        what: &str,
        mut crates: oracle::Verdict,
        ours: &oracle::Verdict,
    ) -> Result<(), String> {
        if self.fault == Fault::Oracle
            && let oracle::Verdict::Conflicts(conflicts) = &mut crates
        {
            conflicts.iter_mut().for_each(|conflict| conflict.sources.reverse());
        }
        if crates == *ours {
            return Ok(());
        }
        Err(format!("validated {what}: the crate {}, ours {}", shown(&crates), shown(ours)))
    }

    /// A smallest case that still shows a difference: rows, items and specs are left
    /// out, then they are made plainer, while it does and time allows.
    pub fn smallest(&self, case: Case) -> Case {
        let until = Instant::now() + PATIENCE;
        let shows = |copy: &Case, again| self.run(copy, again, &mut Seen::default()).is_err();
        // One further pair of buffers is quicker than all, where it shows the difference.
        let again = (0..25).map(Again::One).find(|one| shows(&case, *one)).unwrap_or(Again::All);
        let differs = |copy: &Case| Instant::now() < until && shows(copy, again);

        let mut case = case;
        // A listing's rows alone may show it.
        let alone = case.rows().map(|rows| Case { second: Second::Rows(rows.into_owned()), ..case.clone() });
        if let Some(alone) = alone.filter(&differs) {
            case = alone;
        }
        case.second = match &case.second {
            Second::Items(items) => Second::Items(fewest_records(items, |items| {
                differs(&Case { second: Second::Items(items), ..case.clone() })
            })),
            Second::Rows(rows) => Second::Rows(match read_rows(rows) {
                Some(read) => Row::list(&fewest(read, |fewer| {
                    differs(&Case { second: Second::Rows(Row::list(fewer)), ..case.clone() })
                })),
                None => rows.clone(),
            }),
        };
        loop {
            let (list, is_rows) = match &case.second {
                Second::Items(items) => (items, false),
                Second::Rows(rows) => (rows, true),
            };
            let mut bytes = [&case.specs[..], list].concat();
            bytes.sort();
            bytes.dedup();
            bytes.truncate(20);
            let specs_records = records(&case.specs).ok();
            let items_records = records(list).ok();
            let rows = if is_rows { read_rows(list) } else { None };
            let seconds: Box<dyn Iterator<Item = Second>> = match (&rows, is_rows) {
                (Some(rows), _) => Box::new(simpler_rows(rows, &bytes).map(Second::Rows)),
                (None, true) => Box::new(copies(list).map(Second::Rows)),
                (None, false) => Box::new(simpler(list, items_records.as_deref(), &bytes).map(Second::Items)),
            };
            let seconds = seconds.map(|second| Case { second, ..case.clone() });
            let specs = simpler(&case.specs, specs_records.as_deref(), &bytes);
            let specs = specs.map(|specs| Case { specs, ..case.clone() });
            let smaller = seconds.chain(specs).take_while(|_| Instant::now() < until).find(differs);
            match smaller {
                Some(copy) => case = copy,
                None => return case,
            }
        }
    }
}

/// The rows of a list if it is well formed, whatever their numbers are.
fn read_rows(list: &[u8]) -> Option<Vec<Row>> {
    let mut rows = Vec::new();
    let mut rest = list;
    while !rest.is_empty() {
        let (row, after) = paper::read_row(rest)?;
        rows.push(row);
        rest = after;
    }
    Some(rows)
}

/// Copies of a row list that are simpler: some rows are left out, or a destination is
/// plainer in all rows that have it, or one row has a plainer field.
fn simpler_rows<'a>(rows: &'a [Row], bytes: &'a [u8]) -> impl Iterator<Item = Vec<u8>> + 'a {
    let with = move |at: usize, row: Row| {
        let mut rows = rows.to_vec();
        rows[at] = row;
        Row::list(&rows)
    };
    let one_by_one = rows.iter().enumerate().flat_map(move |(at, row)| {
        let numbers = [
            Row { item: 0, ..row.clone() },
            Row { spec: 0, ..row.clone() },
            Row { kind: 0, ..row.clone() },
            Row { destination: None, ..row.clone() },
        ];
        let numbers = numbers.into_iter().filter(move |copy| copy != row);
        let sources = plainer(&row.source, bytes).map(|source| Row { source, ..row.clone() });
        let destination = row.destination.as_deref().unwrap_or_default();
        let destinations =
            plainer(destination, bytes).map(|text| Row { destination: Some(text), ..row.clone() });
        numbers.chain(sources).chain(destinations).map(move |row| with(at, row))
    });
    let everywhere = rows.iter().filter_map(|row| row.destination.as_ref()).flat_map(move |old| {
        plainer(old, bytes).map(move |new| {
            let mut rows = rows.to_vec();
            for row in rows.iter_mut().filter(|row| row.destination.as_ref() == Some(old)) {
                row.destination = Some(new.clone());
            }
            Row::list(&rows)
        })
    });
    shorter(rows).map(|rows| Row::list(&rows)).chain(everywhere).chain(one_by_one)
}

/// What was written, as the crate says it: specs by their canonical texts.
fn as_the_crate_says_it(the_crate: &oracle::Group, found: &Two) -> oracle::Verdict {
    let Some(fixes) = &found.fixes else {
        let source = |source: list::ConflictSource| {
            let (object, text) = match source.source {
                list::Source::Name(name) => (false, name),
                list::Source::Object(digits) => (true, digits),
            };
            oracle::ConflictSource { spec: the_crate.text(source.spec), object, source: text.to_vec() }
        };
        let conflict = |conflict: list::Conflict| oracle::Conflict {
            destination: conflict.destination.to_vec(),
            sources: conflict.sources.into_iter().map(source).collect(),
        };
        return oracle::Verdict::Conflicts(list::conflicts(&found.out).map(conflict).collect());
    };
    let fix = |fix: list::Fix| oracle::Fix { name: fix.name.to_vec(), spec: the_crate.text(fix.spec) };
    oracle::Verdict::Passed {
        kept: list::rows(&found.out).map(as_the_crate_has_it).collect(),
        fixes: list::fixes(fixes).map(fix).collect(),
    }
}

/// A verdict as a text.
fn shown(verdict: &oracle::Verdict) -> String {
    match verdict {
        oracle::Verdict::Conflicts(conflicts) => {
            let source = |source: &oracle::ConflictSource| {
                let kind = if source.object { "object" } else { "name" };
                format!("{kind} {} of {}", source.source.escape_ascii(), source.spec.escape_ascii())
            };
            let conflict = |conflict: &oracle::Conflict| {
                let sources: Vec<String> = conflict.sources.iter().map(source).collect();
                format!(" (on \"{}\": {})", conflict.destination.escape_ascii(), sources.join(", "))
            };
            format!("conflicts{}", conflicts.iter().map(conflict).collect::<String>())
        }
        oracle::Verdict::Passed { kept, fixes } => {
            let fix = |fix: &oracle::Fix| {
                format!(" (\"{}\" of {})", fix.name.escape_ascii(), fix.spec.escape_ascii())
            };
            let fixes: String = fixes.iter().map(fix).collect();
            format!("{} rows {kept:?} and fixes{fixes}", kept.len())
        }
    }
}

#[cfg(test)]
mod tests {
    use super::{
        super::{
            entry::{MODEL, meets},
            good::{object, row},
        },
        *,
    };
    use paper::Fix;
    use vasigmon::raw::Validation;

    fn comparison(entry: Entry, fault: Fault) -> Comparison {
        Comparison { entry, fault, noise: vec![b'#'; 1000] }
    }

    fn specs() -> Vec<u8> {
        list::of([b"a:b".as_slice(), b"c:d", b"e:f"])
    }

    fn case(rows: &[Row]) -> Case {
        Case { op: 0, specs: specs(), second: Second::Rows(Row::list(rows)) }
    }

    /// Rows that pass, with fixes; and rows in conflict.
    fn samples() -> [Case; 2] {
        let passing = [
            row(1, 0, b"a", Some(b"refs/b")),
            row(1, 1, b"a", Some(b"b")),
            row(2, 1, b"a", None),
            row(3, 2, b"b", Some(b"HEAD")),
            row(3, 2, b"b", Some(b"c")),
        ];
        let digits = object(0, None).source;
        let conflicting = [
            row(1, 2, b"b", Some(b"refs/y")),
            row(1, 1, b"a", Some(b"refs/y")),
            row(1, 0, b"b", Some(b"refs/y")),
            row(1, 0, b"a", Some(b"refs/z")),
            object(2, Some(b"x")),
            row(1, 1, &digits, Some(b"x")),
        ];
        [case(&passing), case(&conflicting)]
    }

    fn noticed(entry: Entry) -> bool {
        samples().iter().any(|case| {
            let run = |again| comparison(entry, Fault::None).run(case, again, &mut Seen::default());
            let all = run(Again::All).is_err();
            assert_eq!((0..25).any(|number| run(Again::One(number)).is_err()), all, "one by one");
            all
        })
    }

    /// The model's answer, with its verdict changed.
    fn changed(
        (op, specs, rows): (u64, &[u8], &[u8]),
        out: &mut [u8],
        fixes: &mut [u8],
        change: fn(&[Row], &mut Verdict),
    ) -> Validation {
        let rows = Group::read(op, specs).unwrap().rows(rows).unwrap();
        let mut verdict = Verdict::on(&rows);
        change(&rows, &mut verdict);
        meets(verdict.bytes(), out, fixes)
    }

    #[test]
    fn the_model_passes() {
        assert!(!noticed(MODEL));
    }

    /// The rows that are left when those with a partial destination have gone.
    fn full(rows: &[Row]) -> Vec<Row> {
        let partial = |name: &Vec<u8>| !name.starts_with(b"refs/") && name != b"HEAD";
        rows.iter().filter(|row| !row.destination.as_ref().is_some_and(partial)).cloned().collect()
    }

    #[test]
    fn wrong_verdicts_are_noticed() {
        let entries: [Entry; 10] = [
            // Conflicts are looked for among the kept rows only.
            |op, specs, rows, out, fixes| {
                changed((op, specs, rows), out, fixes, |rows, verdict| *verdict = Verdict::on(&full(rows)))
            },
            // A name and an object id are the same.
            |op, specs, rows, out, fixes| {
                changed((op, specs, rows), out, fixes, |rows, verdict| {
                    let mut rows = rows.to_vec();
                    rows.iter_mut().for_each(|row| row.kind = 0);
                    *verdict = Verdict::on(&rows);
                })
            },
            // The spec beside a source is that of its last row.
            |op, specs, rows, out, fixes| {
                changed((op, specs, rows), out, fixes, |rows, verdict| {
                    let Verdict::Conflicts(conflicts) = verdict else { return };
                    for conflict in conflicts {
                        let onto = |row: &&Row| row.destination.as_ref() == Some(&conflict.destination);
                        for row in rows.iter().filter(onto) {
                            let same = |source: &&mut paper::ConflictSource| source.name == row.source;
                            conflict
                                .sources
                                .iter_mut()
                                .filter(same)
                                .for_each(|source| source.spec = row.spec);
                        }
                    }
                })
            },
            |op, specs, rows, out, fixes| {
                changed((op, specs, rows), out, fixes, |_, verdict| {
                    let Verdict::Conflicts(conflicts) = verdict else { return };
                    conflicts.iter_mut().for_each(|it| it.sources.sort_by_key(|source| source.name.clone()));
                })
            },
            |op, specs, rows, out, fixes| {
                changed((op, specs, rows), out, fixes, |_, verdict| {
                    if let Verdict::Conflicts(conflicts) = verdict {
                        conflicts.reverse();
                    }
                })
            },
            |op, specs, rows, out, fixes| {
                changed((op, specs, rows), out, fixes, |_, verdict| {
                    if let Verdict::Conflicts(conflicts) = verdict {
                        conflicts.truncate(1);
                    }
                })
            },
            // Rows without a destination go out too.
            |op, specs, rows, out, fixes| {
                changed((op, specs, rows), out, fixes, |_, verdict| {
                    if let Verdict::Passed { kept, .. } = verdict {
                        kept.retain(|row| row.destination.is_some());
                    }
                })
            },
            // A destination HEAD is partial.
            |op, specs, rows, out, fixes| {
                changed((op, specs, rows), out, fixes, |_, verdict| {
                    if let Verdict::Passed { kept, .. } = verdict {
                        kept.retain(|row| row.destination.as_deref() != Some(b"HEAD"));
                    }
                })
            },
            // A fix names the source.
            |op, specs, rows, out, fixes| {
                changed((op, specs, rows), out, fixes, |_, verdict| {
                    if let Verdict::Passed { fixes, .. } = verdict {
                        fixes.iter_mut().for_each(|fix| fix.name = b"a".to_vec());
                    }
                })
            },
            |op, specs, rows, out, fixes| {
                changed((op, specs, rows), out, fixes, |_, verdict| {
                    if let Verdict::Passed { fixes, .. } = verdict {
                        fixes.dedup_by_key(|Fix { name, .. }| name.len());
                    }
                })
            },
        ];
        for (number, entry) in entries.into_iter().enumerate() {
            assert!(noticed(entry), "{number}");
        }
    }

    #[test]
    fn refusals_are_held_to_the_paper() {
        let compare = |entry: Entry, rows: &[u8]| {
            let case = Case { op: 0, specs: specs(), second: Second::Rows(rows.to_vec()) };
            comparison(entry, Fault::None).run(&case, Again::All, &mut Seen::default())
        };
        // Rows are read only until there is a conflict.
        let hasty: Entry = |op, specs, rows, out, fixes| {
            let row = b"\x00\x00\x00\x01a\x02x\x00\x00\x00\x01b\x02x";
            MODEL(op, specs, if rows.starts_with(row) { row } else { rows }, out, fixes)
        };
        let conflict = Row::list(&[row(0, 0, b"a", Some(b"x")), row(0, 0, b"b", Some(b"x"))]);
        for more in [b"".as_slice(), b"\x80", b"\x00\x03\x00\x00\x00"] {
            let rows = [&conflict[..], more].concat();
            assert_eq!(compare(MODEL, &rows), Ok(()));
            assert_eq!(compare(hasty, &rows).is_err(), !more.is_empty());
        }
        assert_eq!(compare(MODEL, &vec![0; 1_048_577]), Ok(()));
    }

    /// The crate's own listing has no repeats, ours keeps them.
    #[test]
    fn listings_with_repeats_are_compared_as_far_as_they_agree() {
        let items = list::of([b"a".as_slice(), b"refs/heads/a"]);
        for specs in [[b"a:b".as_slice(), b"a:b"], [b"*:x/*", b"*:x/*"], [b"a", b"*:refs/*"]] {
            let case = Case { op: 0, specs: list::of(specs), second: Second::Items(items.clone()) };
            let run = comparison(MODEL, Fault::None).run(&case, Again::All, &mut Seen::default());
            assert_eq!(run, Ok(()));
        }
    }

    #[test]
    fn faults_are_seen_and_shrink() {
        let [passing, conflicting] = samples();
        let mut bad = passing.clone();
        bad.second = Second::Rows([passing.rows().unwrap().into_owned(), vec![0x80]].concat());
        for (fault, case, rows) in
            [(Fault::Oracle, conflicting, 14), (Fault::Ours, passing, 5), (Fault::Paper, bad, 1)]
        {
            let comparison = comparison(MODEL, fault);
            assert!(comparison.run(&case, Again::All, &mut Seen::default()).is_err());
            let smallest = comparison.smallest(case);
            assert!(smallest.rows().unwrap().len() <= rows && smallest.specs.len() <= 2, "{smallest:?}");
        }
    }
}
