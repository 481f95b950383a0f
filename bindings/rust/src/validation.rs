use crate::{Group, ListRefusal, Refusal, buffer::FIRST, raw};

/// What validation says of a list of rows.
#[derive(Clone, Debug, PartialEq, Eq, Hash)]
pub enum Validated {
    /// No destination has different sources.
    Passed {
        /// The rows that are kept, in their order: those without a destination, and
        /// those whose destination begins `refs/` or is `HEAD`.
        /// [`list::rows`](crate::list::rows) walks them.
        rows: Vec<u8>,
        /// What went out: destination and spec of each other row, in their order.
        /// [`list::fixes`](crate::list::fixes) walks them.
        fixes: Vec<u8>,
    },
    /// Some destinations have different sources; here they are in byte order, whether
    /// their rows would be kept or not. [`list::conflicts`](crate::list::conflicts)
    /// walks them.
    Conflicts(Vec<u8>),
}

impl Group {
    /// Whether rows can be used: each destination has one source only.
    ///
    /// The rows are a listing, as [`Group::match_lhs`] answers it, or any others whose
    /// spec numbers are in the group, of at most 1,048,576 bytes. A name and an object id
    /// are always different sources.
    ///
    /// The number of rows decides how much [stack](crate::stack) a call needs.
    ///
    /// ```
    /// use vasigmon::{Group, Items, Operation, Validated, list};
    ///
    /// let items = Items::new(["refs/heads/a", "refs/heads/b"])?;
    /// let group = Group::new(Operation::Fetch, ["refs/heads/*:refs/x/*", "refs/heads/a:refs/x/b"])?;
    /// let Validated::Conflicts(conflicts) = group.validated(&group.match_lhs(&items))? else {
    ///     panic!("refs/x/b has two sources");
    /// };
    /// assert_eq!(list::conflicts(&conflicts).next().unwrap().destination, b"refs/x/b");
    ///
    /// let group = Group::new(Operation::Fetch, ["refs/heads/*:refs/x/*", "refs/*:y/*"])?;
    /// let Validated::Passed { rows, fixes } = group.validated(&group.match_lhs(&items))? else {
    ///     panic!("no destination has two sources");
    /// };
    /// assert_eq!((list::rows(&rows).count(), list::fixes(&fixes).count()), (2, 2));
    /// # Ok::<(), vasigmon::ListRefusal>(())
    /// ```
    pub fn validated(&self, rows: &[u8]) -> Result<Validated, ListRefusal> {
        let (mut out, mut fixes) = (vec![0; FIRST], vec![0; FIRST]);
        let answer = loop {
            let answer = raw::validated(self.operation() as u64, self.list(), rows, &mut out, &mut fixes);
            if answer.refusal != Refusal::BufferTooShort.number() {
                break answer;
            }
            let short = if answer.buffer == 1 { &mut out } else { &mut fixes };
            short.resize(answer.length as usize, 0);
        };
        ListRefusal::told(answer.refusal, answer.record)?;
        out.truncate(answer.length as usize);
        fixes.truncate(answer.fixes_length as usize);
        Ok(match answer.conflicts {
            0 => Validated::Passed { rows: out, fixes },
            1 => Validated::Conflicts(out),
            number => unreachable!("no validation has the number {number}"),
        })
    }
}

#[cfg(test)]
mod tests {
    use super::*;
    use crate::{
        Items,
        Operation::{Fetch, Push},
        list::{self, Conflict, ConflictSource, Fix, Source},
    };

    const DIGITS: &[u8] = b"0123456789abcdef0123456789abcdef01234567";

    /// The bytes of a row whose texts are short: spec, kind, source, destination.
    fn row(spec: u8, kind: u8, source: &[u8], destination: Option<&[u8]>) -> Vec<u8> {
        let head = [0, spec, kind, source.len() as u8];
        let after = destination.map_or(0, |text| text.len() as u8 + 1);
        [&head, source, &[after], destination.unwrap_or_default()].concat()
    }

    fn passed(rows: Vec<u8>, fixes: &[u8]) -> Result<Validated, ListRefusal> {
        Ok(Validated::Passed { rows, fixes: fixes.to_vec() })
    }

    #[test]
    fn partial_destinations_go_out_and_are_named() {
        let group = Group::new(Fetch, ["a", "b"]).unwrap();
        let kept = [row(0, 0, b"a", None), row(1, 0, b"a", Some(b"HEAD")), row(0, 0, b"", Some(b"refs/"))];
        let out =
            [row(1, 0, b"a", Some(b"HEADS")), row(0, 0, b"b", Some(b"")), row(1, 1, DIGITS, Some(b"refs"))];
        let rows =
            [&kept[0], &out[0], &kept[1], &out[1], &kept[2], &out[2], &out[2]].map(Vec::as_slice).concat();
        let Ok(Validated::Passed { rows, fixes }) = group.validated(&rows) else { panic!() };
        assert_eq!(rows, kept.concat());
        let fix = |name, spec| Fix { name, spec };
        let expected = [fix(b"HEADS".as_slice(), 1), fix(b"", 0), fix(b"refs", 1), fix(b"refs", 1)];
        assert_eq!(list::fixes(&fixes).collect::<Vec<_>>(), expected);
    }

    #[test]
    fn conflicts_come_before_anything_goes_out() {
        let group = Group::new(Push, ["a", "b", "c"]).unwrap();
        let rows = [
            row(2, 0, b"z", Some(b"y")),
            row(1, 0, DIGITS, Some(b"x")),
            row(0, 1, DIGITS, Some(b"x")),
            row(0, 0, DIGITS, Some(b"x")),
            row(1, 0, b"a", None),
            row(1, 0, b"b", None),
            row(1, 0, b"a", Some(b"y")),
            row(1, 0, b"a", Some(b"HEAD")),
        ];
        let Ok(Validated::Conflicts(found)) = group.validated(&rows.concat()) else { panic!() };
        let of = |spec, source| ConflictSource { spec, source };
        let x = vec![of(1, Source::Name(DIGITS)), of(0, Source::Object(DIGITS))];
        let y = vec![of(2, Source::Name(b"z")), of(1, Source::Name(b"a"))];
        let expected =
            [Conflict { destination: b"x", sources: x }, Conflict { destination: b"y", sources: y }];
        assert_eq!(list::conflicts(&found).collect::<Vec<_>>(), expected);
    }

    #[test]
    fn a_source_that_comes_again_is_no_conflict() {
        let group = Group::new(Fetch, ["a:b", "+a:b"]).unwrap();
        let listing = group.match_lhs(&Items::new(["a", "a"]).unwrap());
        assert_eq!(list::rows(&listing).count(), 4);
        assert_eq!(group.validated(&listing), passed(listing, b""));
    }

    #[test]
    fn nothing_passes() {
        assert_eq!(Group::new(Fetch, [""; 0]).unwrap().validated(b""), passed(vec![], b""));
    }

    #[test]
    fn refusals_name_the_row() {
        let refused = |refusal, record| Err(ListRefusal { refusal, record });
        let group = Group::new(Fetch, ["a"]).unwrap();
        let good = row(0, 0, b"a", Some(b"b"));
        let second = |bad: &[u8]| group.validated(&[&good, bad].concat());
        let outside = refused(Refusal::OutsideTheLists, Some(1));
        assert_eq!(second(&row(1, 0, b"a", None)), outside);
        assert_eq!(second(&row(0, 2, b"a", None)), outside);
        assert_eq!(second(&row(0, 1, &DIGITS[1..], None)), outside);
        assert_eq!(second(&row(0, 1, &[b'F'; 40], None)), outside);
        assert_eq!(second(b"\x00\x00\x02\x01a\x00\x80"), outside, "16 of a row before 13 of the next");
        assert_eq!(second(b"\x00\x00\x80\x00\x01a\x00"), refused(Refusal::Malformed, Some(1)));
        assert_eq!(second(&good[..good.len() - 1]), refused(Refusal::Malformed, Some(1)));
        assert_eq!(group.validated(&vec![0; 1_048_577]), refused(Refusal::ListTooLong, None));
    }

    #[test]
    fn answers_longer_than_the_first_buffers() {
        let name = [b'n'; 100];
        let group = Group::new(Fetch, ["a"]).unwrap();
        let kept = row(0, 0, &name, Some(&[b"refs/".as_slice(), &name].concat())).repeat(3);
        let out = row(0, 0, &name, Some(&name)).repeat(3);
        let fixes = [&[100], &name[..], &[0]].concat().repeat(3);
        assert_eq!(group.validated(&[&kept[..], &out].concat()), passed(kept, &fixes));
    }
}
