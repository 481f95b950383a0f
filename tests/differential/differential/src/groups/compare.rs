//! One comparison: a spec list and an item list, read by the archive, by the paper's
//! reading and, where both lists are accepted, by the crate.

use super::{Entries, Lists, Seen, part, refusal};
use crate::{
    Fault,
    buffers::{Again, Call, Lent, alike, refused, written},
    smaller::{fewest_records, simpler},
    specs::records,
};
use paper::{Group, Items, Refused};
use std::{
    borrow::Cow,
    collections::{BTreeSet, HashSet},
    iter,
    time::{Duration, Instant},
};
use vasigmon::list::{self, Source};

/// How long a smaller case is looked for.
const PATIENCE: Duration = Duration::from_secs(20);

/// Up to so many pairs of an item field and a spec are all viewed, and so many rows.
const MOST_VIEWED: usize = 400;

/// Compares answers.
pub struct Comparison {
    pub entries: Entries,
    pub fault: Fault,
    /// What buffers hold before they are lent.
    pub noise: Vec<u8>,
}

/// A call that writes, with its name.
struct Writer<'a> {
    what: &'static str,
    call: Call<'a>,
}

impl Comparison {
    /// How the sides differ, if they do.
    pub fn run(&self, lists: &Lists, again: Again, seen: &mut Seen) -> Result<(), String> {
        let (specs, items) = (Lent::new(&lists.specs), Lent::new(&lists.items));
        let (op, specs, items) = (lists.op, specs.bytes(), items.bytes());
        let entries = &self.entries;
        let forward = &|out: &mut [u8]| (entries.match_lhs)(op, specs, items, out);
        let reverse = &|out: &mut [u8]| (entries.match_rhs)(op, specs, items, out);
        let prefixes = &|out: &mut [u8]| (entries.group_prefixes)(op, specs, out);
        let forward = Writer { what: "match_lhs", call: forward };
        let reverse = Writer { what: "match_rhs", call: reverse };
        let prefixes = Writer { what: "group_prefixes", call: prefixes };
        let source = |field, spec| (entries.source)(op, specs, items, field, spec);

        let group = match Group::read(op, specs) {
            Ok(group) => group,
            Err(why) => {
                the_crate_refuses(op, specs, why)?;
                self.refused(&prefixes, why)?;
                return self.both_refused([&forward, &reverse], &source, why, seen);
            }
        };
        let the_crate = oracle::Group::read(op, group.texts()).map_err(|(record, number)| {
            format!("spec {record}: the crate refuses it with {number}, the paper does not")
        })?;
        self.prefix_list(&prefixes, &group, &the_crate, again)?;
        let read = match Items::read(items) {
            Ok(read) => read,
            Err(why) => return self.both_refused([&forward, &reverse], &source, why, seen),
        };

        let names: Vec<&[u8]> = read.names().collect();
        let rows = group.forward(&read);
        let back = group.reverse(&read);
        seen.group(&group, &read, &rows, &back);
        self.listing(&forward, &group, &rows, the_crate.match_lhs(&names), again)?;
        self.listing(&reverse, &group, &back, the_crate.match_rhs(&names), again)?;
        for (field, spec) in pairs(names.len(), group.specs().len(), again) {
            alike(
                &format!("source of field {field} and spec {spec}"),
                source(field, spec),
                part(group.view(&read, field, spec).map_err(|why| self.told(why))),
            )?;
        }
        for row in picked(&rows, again) {
            let view = source(row.item as u64, row.spec as u64);
            let list = if view.list == 1 { specs } else { items };
            let text = list.get(view.start as usize..).and_then(|rest| rest.get(..view.length as usize));
            let text = text.map(|text| if row.kind == 1 { text.to_ascii_lowercase() } else { text.to_vec() });
            alike("the view of a row's source", text.as_deref(), Some(&row.source))?;
        }
        Ok(())
    }

    /// The refusal that is expected.
    fn told(&self, why: Refused) -> Refused {
        let next = u64::from(self.fault == Fault::Paper);
        Refused { record: why.record.map(|record| record + next), ..why }
    }

    /// Complains unless a call that writes is refused like this, whatever its buffer.
    fn refused(&self, writer: &Writer, why: Refused) -> Result<(), String> {
        let expected = refusal(self.told(why));
        for length in [0, 1, 100] {
            refused(writer.what, writer.call, &self.noise[..length], expected)?;
        }
        Ok(())
    }

    /// Complains unless both listings and the view are refused like this.
    fn both_refused(
        &self,
        writers: [&Writer; 2],
        source: &dyn Fn(u64, u64) -> vasigmon::raw::Part,
        why: Refused,
        seen: &mut Seen,
    ) -> Result<(), String> {
        for writer in writers {
            self.refused(writer, why)?;
        }
        for (field, spec) in [(0, 0), (1, 0), (0, u64::MAX)] {
            alike("source", source(field, spec), part(Err(self.told(why))))?;
        }
        seen.refusal(why.number);
        Ok(())
    }

    /// Noise of some length.
    fn noise(&self, length: usize) -> Cow<'_, [u8]> {
        match self.noise.get(..length) {
            Some(noise) => noise.into(),
            None => self.noise.repeat(1 + length / self.noise.len())[..length].to_vec().into(),
        }
    }

    /// Complains unless a listing has just the paper's bytes, and the crate's rows.
    fn listing(
        &self,
        writer: &Writer,
        group: &Group,
        rows: &[paper::Row],
        mut crates: Vec<oracle::Row>,
        again: Again,
    ) -> Result<(), String> {
        let expected = paper::Row::list(rows);
        let mut found = written(writer.what, writer.call, &self.noise(expected.len() + 100), again)?;
        match self.fault {
            Fault::Ours if writer.what == "match_lhs" => {
                let last = rows.last().map_or(0, |row| paper::Row::list(std::slice::from_ref(row)).len());
                found.truncate(found.len().saturating_sub(last));
            }
            Fault::Oracle if writer.what == "match_rhs" => {
                crates.pop();
            }
            _ => {}
        }
        if found != expected {
            return Err(match group.rows(&found) {
                Ok(found) => format!("{}: {}", writer.what, first_difference("the paper", rows, &found)),
                Err(why) => format!("{} writes {}, {why:?}", writer.what, found.escape_ascii()),
            });
        }
        // Ours keeps repeats, the crate removes them.
        let mut met = HashSet::new();
        let firsts = list::rows(&found).filter(|row| met.insert((row.source, row.destination)));
        let ours: Vec<oracle::Row> = firsts.map(as_the_crate_has_it).collect();
        if ours != crates {
            return Err(format!("{}: {}", writer.what, first_difference("the crate", &crates, &ours)));
        }
        Ok(())
    }

    /// Complains unless the prefix list has the members that it should, none twice.
    fn prefix_list(
        &self,
        writer: &Writer,
        group: &Group,
        the_crate: &oracle::Group,
        again: Again,
    ) -> Result<(), String> {
        let expected = group.prefixes();
        let length = list::of(&expected).len();
        let found = written(writer.what, writer.call, &self.noise(length + 100), again)?;
        let mut members = records(&found)?;
        members.sort();
        let escaped = |members: &mut dyn Iterator<Item = &Vec<u8>>| {
            members.map(|member| member.escape_ascii().to_string() + " ").collect::<String>()
        };
        if !members.iter().eq(&expected) {
            let (one, other) = (escaped(&mut expected.iter()), escaped(&mut members.iter()));
            return Err(format!("prefixes: the paper {one}, ours {other}"));
        }
        let crates: BTreeSet<Vec<u8>> = the_crate.prefixes().into_iter().collect();
        if !members.iter().eq(&crates) {
            let (one, other) = (escaped(&mut crates.iter()), escaped(&mut members.iter()));
            return Err(format!("prefixes: the crate {one}, ours {other}"));
        }
        Ok(())
    }

    /// A smallest case that still shows a difference: records are left out, then also
    /// bytes of records, or they are made plainer, while it does and time allows.
    pub fn smallest(&self, lists: Lists) -> Lists {
        let until = Instant::now() + PATIENCE;
        let shows = |copy: &Lists, again| self.run(copy, again, &mut Seen::default()).is_err();
        // One further buffer is quicker than all, where it shows the difference.
        let again = (0..5).map(Again::One).find(|one| shows(&lists, *one)).unwrap_or(Again::All);
        let differs = |copy: &Lists| Instant::now() < until && shows(copy, again);

        let mut lists = lists;
        lists.specs = fewest_records(&lists.specs, |specs| differs(&Lists { specs, ..lists.clone() }));
        lists.items = fewest_records(&lists.items, |items| differs(&Lists { items, ..lists.clone() }));
        loop {
            let mut bytes = [&lists.specs[..], &lists.items].concat();
            bytes.sort();
            bytes.dedup();
            let (specs, items) = (records(&lists.specs).ok(), records(&lists.items).ok());
            let specs = simpler(&lists.specs, specs.as_deref(), &bytes);
            let specs = specs.map(|specs| Lists { specs, ..lists.clone() });
            let items = simpler(&lists.items, items.as_deref(), &bytes);
            let items = items.map(|items| Lists { items, ..lists.clone() });
            let smaller = specs.chain(items).take_while(|_| Instant::now() < until).find(differs);
            match smaller {
                Some(copy) => lists = copy,
                None => return lists,
            }
        }
    }
}

/// Where a spec is refused by a question that the crate asks too, complains unless the
/// crate's answer is the same.
fn the_crate_refuses(op: u64, specs: &[u8], why: Refused) -> Result<(), String> {
    let (2..=11, Some(record)) = (why.number, why.record) else { return Ok(()) };
    let spec = list::records(specs).nth(record as usize).expect("a record that was read");
    match oracle::ask(op, spec) {
        Err(number) if number == why.number => Ok(()),
        other => {
            Err(format!("spec {record}: the paper refuses it with {}, the crate: {other:?}", why.number))
        }
    }
}

/// A row of ours as the crate has it.
pub fn as_the_crate_has_it(row: list::Row) -> oracle::Row {
    let (object, source) = match row.source {
        Source::Name(name) => (false, name),
        Source::Object(digits) => (true, digits),
    };
    oracle::Row {
        item: row.item,
        spec: row.spec,
        object,
        source: source.to_vec(),
        destination: row.destination.map(<[u8]>::to_vec),
    }
}

/// The first rows that differ.
pub fn first_difference<R: PartialEq + Shown>(who: &str, expected: &[R], found: &[R]) -> String {
    let same = iter::zip(expected, found).take_while(|(one, other)| one == other).count();
    let shown = |row: Option<&R>| row.map_or("none".to_owned(), R::shown);
    format!("row {same}: {who} {}, ours {}", shown(expected.get(same)), shown(found.get(same)))
}

/// A row as a text.
pub trait Shown {
    fn shown(&self) -> String;
}

impl Shown for paper::Row {
    fn shown(&self) -> String {
        let source = self.source.escape_ascii();
        let destination = self.destination.as_ref().map(|text| text.escape_ascii().to_string());
        format!(
            "(item field {} spec {} kind {} {source} to {destination:?})",
            self.item, self.spec, self.kind
        )
    }
}

impl Shown for oracle::Row {
    fn shown(&self) -> String {
        let source = self.source.escape_ascii();
        let destination = self.destination.as_ref().map(|text| text.escape_ascii().to_string());
        let kind = if self.object { "object" } else { "name" };
        format!("(item {:?} spec {} {kind} {source} to {destination:?})", self.item, self.spec)
    }
}

/// The pairs of an item field and a spec number that are viewed: all around small
/// lists, those at the edges of large ones; or one of them.
fn pairs(items: usize, specs: usize, again: Again) -> Vec<(u64, u64)> {
    let small = items * specs <= MOST_VIEWED;
    let numbers = |count: u64| -> Vec<u64> {
        let far = [count + 2, 1 << 32, (1 << 32) + 1, u64::MAX];
        let near: Vec<u64> = if small {
            (0..count + 2).collect()
        } else {
            let edges =
                [0, 1, 2, 127, 128, 129, 255, 256, 257, 1023, 1024, 1025, count - 1, count, count + 1];
            edges.into_iter().collect::<BTreeSet<_>>().into_iter().collect()
        };
        near.into_iter().chain(far).collect()
    };
    let (fields, numbers) = (numbers(items as u64), numbers(specs as u64));
    match again {
        Again::All => {
            fields.iter().flat_map(|field| numbers.iter().map(move |number| (*field, *number))).collect()
        }
        Again::One(n) => {
            let pick = |from: &[u64], n: u64| from[(n % from.len() as u64) as usize];
            vec![(pick(&fields, n), pick(&numbers, n / 64)), (0, pick(&numbers, n / 7))]
        }
    }
}

/// Some of the rows; or one of those.
fn picked(rows: &[paper::Row], again: Again) -> Vec<&paper::Row> {
    let some: Vec<_> = rows.iter().step_by(1 + rows.len() / MOST_VIEWED).chain(rows.last()).collect();
    match again {
        Again::All => some,
        Again::One(_) if some.is_empty() => some,
        Again::One(n) => vec![some[(n % some.len() as u64) as usize]],
    }
}

#[cfg(test)]
mod tests {
    use super::{super::entries::MODEL, *};
    use vasigmon::raw::{Part, Written};

    const DIGITS: &[u8] = b"0123456789ABCDEF0123456789abcdef01234567";

    fn comparison(entries: Entries, fault: Fault) -> Comparison {
        Comparison { entries, fault, noise: vec![b'#'; 1000] }
    }

    /// A group with all that the entries look at.
    fn sample() -> Lists {
        let object = [b"+", DIGITS, b":b"].concat();
        let specs = list::of([b"refs/a/*:refs/b/*".as_slice(), b"^refs/a/x", &object, b"c:d", b"c:d"]);
        let items = list::of([b"refs/a/x".as_slice(), b"refs/a/y", b"refs/b/y", b"refs/heads/c", b"d"]);
        Lists { op: 0, specs, items }
    }

    fn noticed(entries: Entries) -> bool {
        let run = |again| comparison(entries, Fault::None).run(&sample(), again, &mut Seen::default());
        let all = run(Again::All).is_err();
        assert_eq!((0..2000).any(|number| run(Again::One(number)).is_err()), all, "one by one");
        all
    }

    /// The model's forward listing, with its bytes changed.
    fn changed(
        out: &mut [u8],
        op: u64,
        specs: &[u8],
        items: &[u8],
        change: fn(&mut Vec<paper::Row>),
    ) -> Written {
        let (group, items) = (Group::read(op, specs).unwrap(), Items::read(items).unwrap());
        let mut rows = group.forward(&items);
        change(&mut rows);
        let bytes = paper::Row::list(&rows);
        if bytes.len() > out.len() {
            return Written { refusal: 17, record: 0, length: bytes.len() as u64 };
        }
        out[..bytes.len()].copy_from_slice(&bytes);
        Written { refusal: 0, record: 0, length: bytes.len() as u64 }
    }

    #[test]
    fn the_model_passes() {
        assert!(!noticed(MODEL));
    }

    #[test]
    fn wrong_listings_are_noticed() {
        let forward = |match_lhs| Entries { match_lhs, ..MODEL };
        let listings: [super::super::entries::Listing; 8] = [
            |op, specs, items, out| changed(out, op, specs, items, |rows| drop(rows.pop())),
            |op, specs, items, out| changed(out, op, specs, items, |rows| rows.swap(0, 1)),
            |op, specs, items, out| {
                changed(out, op, specs, items, |rows| rows.dedup_by_key(|row| row.source.clone()))
            },
            |op, specs, items, out| changed(out, op, specs, items, |rows| rows[1].item += 1),
            |op, specs, items, out| changed(out, op, specs, items, |rows| rows[1].spec += 1),
            |op, specs, items, out| changed(out, op, specs, items, |rows| rows[0].kind = 0),
            |op, specs, items, out| {
                changed(out, op, specs, items, |rows| rows[0].source.make_ascii_uppercase())
            },
            |op, specs, items, out| changed(out, op, specs, items, |rows| rows[1].destination = None),
        ];
        for match_lhs in listings {
            assert!(noticed(forward(match_lhs)));
        }
        assert!(noticed(Entries { match_rhs: MODEL.match_lhs, ..MODEL }));
    }

    #[test]
    fn wrong_prefix_lists_are_noticed() {
        let twice = |op, specs: &[u8], out: &mut [u8]| {
            let mut list = paper::group_prefixes(op, specs).unwrap();
            list::push(&mut list, b"refs/a/");
            if list.len() > out.len() {
                return Written { refusal: 17, record: 0, length: list.len() as u64 };
            }
            out[..list.len()].copy_from_slice(&list);
            Written { refusal: 0, record: 0, length: list.len() as u64 }
        };
        assert!(noticed(Entries { group_prefixes: twice, ..MODEL }));
        let none = |_, _: &[u8], _: &mut [u8]| Written::default();
        assert!(noticed(Entries { group_prefixes: none, ..MODEL }));
    }

    #[test]
    fn wrong_views_are_noticed() {
        let sources: [fn(u64, &[u8], &[u8], u64, u64) -> Part; 4] = [
            |op, specs, items, field, spec| Part { list: 0, ..(MODEL.source)(op, specs, items, field, spec) },
            |op, specs, items, field, spec| Part {
                record: 1,
                ..(MODEL.source)(op, specs, items, field, spec)
            },
            |op, specs, items, field, spec| (MODEL.source)(op, specs, items, field % (1 << 32), spec),
            |op, specs, items, field, spec| {
                (MODEL.source)(op, specs, items, field, if field > 0 { 0 } else { spec })
            },
        ];
        for source in sources {
            assert!(noticed(Entries { source, ..MODEL }));
        }
    }

    #[test]
    fn refusals_are_held_to_the_paper() {
        let good = sample();
        let compare = |comparison: &Comparison, specs: &[u8], items: &[u8]| {
            let lists = Lists { op: 0, specs: specs.to_vec(), items: items.to_vec() };
            comparison.run(&lists, Again::All, &mut Seen::default())
        };
        let model = comparison(MODEL, Fault::None);
        // The reverse listing reads no further than the first record of its items.
        let careless = Entries {
            match_rhs: |op, specs, items, out| {
                (MODEL.match_rhs)(op, specs, if items.len() > 2 { &items[..2] } else { items }, out)
            },
            ..MODEL
        };
        let careless = comparison(careless, Fault::None);
        for (specs, items) in [
            (&good.specs[..good.specs.len() - 1], &good.items[..]),
            (&good.specs, &good.items[..good.items.len() - 1]),
            (b"\x01a\x03a:@", b""),
            (&[0; 65_536], &[0; 65_536]),
        ] {
            assert_eq!(compare(&model, specs, items), Ok(()));
        }
        assert!(compare(&careless, &good.specs, b"\x01a\x02").is_err());
    }

    #[test]
    fn faults_are_seen_and_shrink() {
        let bad = Lists { op: 0, specs: list::of([b"refs/a".as_slice(), b"x", b"a..b"]), items: vec![] };
        for (fault, lists, specs, items) in [
            (Fault::Oracle, sample(), b"\x02:a".as_slice(), b"\x01a".as_slice()),
            (Fault::Ours, sample(), b"\x01a", b"\x01a"),
            (Fault::Paper, bad, b"\x01@", b""),
        ] {
            let comparison = comparison(MODEL, fault);
            assert!(comparison.run(&lists, Again::All, &mut Seen::default()).is_err());
            let smallest = comparison.smallest(lists);
            assert!(
                smallest.specs.len() <= specs.len() && smallest.items.len() <= items.len(),
                "{smallest:?}"
            );
        }
    }
}
