//! One comparison: whether the keys of two specs tell their instructions apart, and whether
//! each is read again as what it is the key of; by the crate, by the archive, and by the
//! paper's reading.

use super::{Entries, Keyed, Pair, Seen, answers::the_crate};
use crate::{Fault, buffers::Again, smaller::smallest_two};
use cases::SPEC_LIMIT;
use oracle::ReadAs;

/// Compares answers.
pub struct Comparison {
    pub entries: Entries,
    pub fault: Fault,
    /// What buffers hold before they are lent.
    pub noise: Vec<u8>,
}

/// A spec that was compared by itself, with the answers of those that accept it.
pub struct Compared<'a> {
    pub spec: &'a [u8],
    pub the_crate: Option<oracle::Keyed<'a>>,
    pub ours: Option<Keyed>,
}

impl Comparison {
    /// How the sides differ on a pair, if they do.
    pub fn run(&self, pair: &Pair, again: Again, seen: &mut Seen) -> Result<(), String> {
        let first = self.spec(pair.op, &pair.first, again, seen)?;
        let second = self.spec(pair.op, &pair.second, again, seen)?;
        self.pair(&first, &second, seen)
    }

    /// Holds the crate and us to what is said of two accepted specs of one operation.
    pub fn pair(&self, first: &Compared, second: &Compared, seen: &mut Seen) -> Result<(), String> {
        if let (Some(one), Some(other)) = (&first.the_crate, &second.the_crate) {
            exactly_if("the crate's", one.text() == other.text(), self.asks_the_same(one, other))?;
        }
        if let (Some(one), Some(other)) = (&first.ours, &second.ours) {
            exactly_if("our", one.key == other.key, one.instruction == other.instruction)?;
        }
        seen.pair(first, second);
        Ok(())
    }

    /// Compares all that is said of one spec.
    pub fn spec<'a>(
        &self,
        op: u64,
        spec: &'a [u8],
        again: Again,
        seen: &mut Seen,
    ) -> Result<Compared<'a>, String> {
        let the_crate = the_crate(op, spec);
        let read = the_crate.as_ref().ok().map(read_by_the_crate).transpose()?;
        let ours = self.agreed(op, spec, again)?;
        refused_alike(spec, the_crate.as_ref().err().copied(), ours.as_ref().err().copied())?;
        if let (Ok(the_crate), Ok(ours), Some(read)) = (&the_crate, &ours, read) {
            alike(the_crate, ours)?;
            self.read_by_us(op, ours, read, again)?;
            seen.key(ours, read);
        }
        Ok(Compared { spec, the_crate: the_crate.ok(), ours: ours.ok() })
    }

    /// Our answer on a text, or how the paper's differs.
    fn agreed(&self, op: u64, text: &[u8], again: Again) -> Result<Result<Keyed, u64>, String> {
        let (paper, ours) = (self.paper(op, text), self.ours(op, text, again)?);
        if ours == paper { Ok(ours) } else { Err(differ("the paper", &paper, &ours)) }
    }

    /// Complains unless our key is read as the crate reads it, and as is said of keys. One
    /// above the limit is refused, which the crate does not do.
    fn read_by_us(&self, op: u64, ours: &Keyed, by_the_crate: ReadAs, again: Again) -> Result<(), String> {
        let read = self.agreed(op, &ours.key, again)?;
        let found = ours.beside(&read);
        let fits = ours.key.len() <= SPEC_LIMIT;
        let expected = if fits { by_the_crate } else { ReadAs::Refused(1) };
        if found != expected {
            let key = ours.key.escape_ascii();
            return Err(format!("key \"{key}\": by the crate and our limit {expected:?}, by us {found:?}"));
        }
        if fits {
            reads_back("our", &ours.key, ours.is_exception(), found)?;
        }
        let same_key = read.is_ok_and(|read| read.key == ours.key);
        exactly_if("our reading's", same_key, found == ReadAs::Equal)
    }

    /// A smallest pair that still shows a difference.
    pub fn smallest(&self, pair: Pair) -> Pair {
        let of = |[first, second]: [Vec<u8>; 2]| Pair { op: pair.op, first, second };
        let differs =
            |texts: &[Vec<u8>; 2]| self.run(&of(texts.clone()), Again::All, &mut Seen::default()).is_err();
        of(smallest_two([pair.first, pair.second], differs))
    }
}

/// What the crate reads in its own text, or a complaint unless that is as is said of keys.
fn read_by_the_crate(the_crate: &oracle::Keyed) -> Result<ReadAs, String> {
    let read = the_crate.in_text(the_crate.text());
    reads_back("the crate's", the_crate.text(), the_crate.is_exception(), read)?;
    Ok(read)
}

/// Complains unless a key is read as an equal instruction, and that of an exception is not.
fn reads_back(whose: &str, key: &[u8], exception: bool, read: ReadAs) -> Result<(), String> {
    let key = key.escape_ascii();
    match (exception, read) {
        (false, ReadAs::Equal) | (true, ReadAs::Another | ReadAs::Refused(_)) => Ok(()),
        (false, _) => Err(format!("{whose} key \"{key}\" is read as {read:?}")),
        (true, _) => Err(format!("{whose} key \"{key}\" is read as {read:?}, and is an exception's")),
    }
}

/// Complains unless keys are equal exactly if instructions are.
fn exactly_if(whose: &str, keys: bool, instructions: bool) -> Result<(), String> {
    match (keys, instructions) {
        (true, false) => Err(format!("{whose} keys are equal, the instructions are not")),
        (false, true) => Err(format!("{whose} instructions are equal, the keys are not")),
        _ => Ok(()),
    }
}

/// Complains unless we refuse what the crate does, with its number. The limit of a spec's
/// bytes is ours alone, and asked before what the crate asks.
fn refused_alike(spec: &[u8], the_crate: Option<u64>, ours: Option<u64>) -> Result<(), String> {
    let expected = match the_crate {
        Some(18) => Some(18),
        _ if spec.len() > SPEC_LIMIT => Some(1),
        refusal => refusal,
    };
    if ours == expected {
        return Ok(());
    }
    Err(format!("refusal by the crate and our limits: {expected:?}; ours: {ours:?}"))
}

/// Complains unless our instruction is the crate's, and our key the crate's text.
fn alike(the_crate: &oracle::Keyed, ours: &Keyed) -> Result<(), String> {
    let theirs = Keyed { instruction: the_crate.fields(), key: the_crate.text().to_vec() };
    if theirs == *ours { Ok(()) } else { Err(differ("the crate", &Ok(theirs), &Ok(ours.clone()))) }
}

fn differ(who: &str, theirs: &Result<Keyed, u64>, ours: &Result<Keyed, u64>) -> String {
    format!("{who}: {}; ours: {}", shown(theirs), shown(ours))
}

fn shown(answer: &Result<Keyed, u64>) -> String {
    let side = |side: &Option<Vec<u8>>| match side {
        Some(bytes) => format!("\"{}\"", bytes.escape_ascii()),
        None => "none".to_owned(),
    };
    match answer {
        Err(number) => format!("refused with {number}"),
        Ok(Keyed { instruction, key }) => format!(
            "key \"{}\", kind {}, force {}, source {}, destination {}",
            key.escape_ascii(),
            instruction.kind,
            instruction.force,
            side(&instruction.source),
            side(&instruction.destination)
        ),
    }
}

#[cfg(test)]
mod tests {
    use super::*;
    use crate::keys::{
        MODEL,
        entries::{Text, Told},
        similar,
    };
    use vasigmon::raw::{self, Written};

    fn comparison(entries: Entries, fault: Fault) -> Comparison {
        Comparison { entries, fault, noise: vec![b'#'; 4 * SPEC_LIMIT] }
    }

    /// Whether a difference is found on some pair of similar specs.
    fn noticed(entries: Entries, fault: Fault) -> bool {
        let comparison = comparison(entries, fault);
        let differs = |pair: &Pair| comparison.run(pair, Again::One(1), &mut Seen::default()).is_err();
        [0, 1]
            .iter()
            .any(|op| similar::short().windows(2).any(|two| differs(&Pair::of(*op, &two[0], &two[1]))))
    }

    #[test]
    fn the_paper_passes_and_faults_do_not() {
        assert!(!noticed(MODEL, Fault::None));
        for fault in [Fault::Oracle, Fault::Ours, Fault::Paper] {
            assert!(noticed(MODEL, fault));
        }
    }

    /// The model's key of a spec, changed.
    fn rewritten(op: u64, spec: &[u8], out: &mut [u8], change: fn(&[u8], &mut Vec<u8>)) -> Written {
        let Ok(read) = paper::Instruction::read(op, spec) else { return (MODEL.to_bstring)(op, spec, out) };
        let mut key = read.text();
        change(spec, &mut key);
        match out.get_mut(..key.len()) {
            Some(place) => {
                place.copy_from_slice(&key);
                Written { length: key.len() as u64, ..Default::default() }
            }
            None => Written { refusal: 17, length: key.len() as u64, ..Default::default() },
        }
    }

    #[test]
    fn wrong_keys_are_noticed() {
        let wrong: [(&str, Text); 4] = [
            ("the source alone of a one-sided push", |op, spec, out| {
                rewritten(op, spec, out, |spec, key| {
                    if !spec.contains(&b':') && key.contains(&b':') {
                        key.truncate(key.len() / 2);
                    }
                })
            }),
            ("the at sign as it is spelt", |op, spec, out| {
                rewritten(op, spec, out, |spec, key| {
                    if spec.starts_with(b"@") && key.starts_with(b"HEAD") {
                        key.splice(..4, *b"@");
                    }
                })
            }),
            ("a plus on an exception", |op, spec, out| {
                rewritten(op, spec, out, |spec, key| {
                    if spec.starts_with(b"++") && !key.contains(&b':') {
                        key.insert(0, b'+');
                    }
                })
            }),
            ("the spec as it is spelt", |op, spec, out| {
                rewritten(op, spec, out, |spec, key| *key = spec.to_vec())
            }),
        ];
        for (what, to_bstring) in wrong {
            assert!(noticed(Entries { to_bstring, ..MODEL }, Fault::None), "{what}");
        }
    }

    #[test]
    fn wrong_instructions_are_noticed() {
        let wrong: [(&str, Told); 4] = [
            ("no force", |op, spec| raw::Instruction { force: 0, ..(MODEL.instruction)(op, spec) }),
            ("no destination of a one-sided push", |op, spec| {
                let told = (MODEL.instruction)(op, spec);
                let one_sided = told.kind == 5 && !spec.contains(&b':');
                let destination = if one_sided { raw::Side::default() } else { told.destination };
                raw::Instruction { destination, ..told }
            }),
            ("a side outside the spec", |op, spec| {
                let mut told = (MODEL.instruction)(op, spec);
                told.source.start += told.source.length;
                told
            }),
            ("a refusal of a key alone", |op, spec| match spec {
                b"+HEAD:HEAD" => raw::Instruction { refusal: 6, ..Default::default() },
                _ => (MODEL.instruction)(op, spec),
            }),
        ];
        for (what, instruction) in wrong {
            assert!(noticed(Entries { instruction, ..MODEL }, Fault::None), "{what}");
        }
    }

    #[test]
    fn what_is_said_of_keys_is_asked() {
        assert!(exactly_if("our", true, true).is_ok() && exactly_if("our", false, false).is_ok());
        assert!(exactly_if("our", true, false).is_err() && exactly_if("our", false, true).is_err());
        for read in [ReadAs::Another, ReadAs::Refused(6)] {
            assert!(reads_back("our", b"a", false, read).is_err());
            assert!(reads_back("our", b"+a", true, read).is_ok());
        }
        assert!(reads_back("our", b"a", false, ReadAs::Equal).is_ok());
        assert!(reads_back("our", b"+a", true, ReadAs::Equal).is_err());
    }

    #[test]
    fn keys_that_do_not_tell_two_specs_apart_are_noticed() {
        let faulty = comparison(MODEL, Fault::Oracle);
        let theirs = |op, spec| Compared { spec, the_crate: the_crate(op, spec).ok(), ours: None };
        let differ = |op, first, second| {
            faulty.pair(&theirs(op, first), &theirs(op, second), &mut Seen::default()).is_err()
        };
        assert!(differ(0, b":a", b"+:a") && differ(1, b"a", b"+a:a") && differ(1, b":", b"+"));
        assert!(!differ(0, b"a:b", b"b:a") && !differ(0, b"a", b"+a") && !differ(1, b":a", b"+:a"));
        let faulty = comparison(MODEL, Fault::Ours);
        let ours =
            |spec| Compared { spec, the_crate: None, ours: faulty.ours(1, spec, Again::All).unwrap().ok() };
        let differ = |first, second| faulty.pair(&ours(first), &ours(second), &mut Seen::default()).is_err();
        assert!(differ(b"a", b"a:a") && !differ(b"a", b"b:a"));
    }

    /// With the crate's fault every spec passes by itself.
    #[test]
    fn the_fault_of_the_crate_shows_in_pairs_alone() {
        let comparison = comparison(MODEL, Fault::Oracle);
        let passes = |op, spec: &[u8]| comparison.spec(op, spec, Again::One(1), &mut Seen::default()).is_ok();
        assert!([0, 1].iter().all(|op| similar::all().iter().all(|spec| passes(*op, spec))));
    }

    #[test]
    fn differences_shrink() {
        for (fault, op, pair, smallest) in [
            (Fault::Oracle, 0, ["+refs/heads/a:refs/b", "refs/heads/a:refs/b"], ["+:a", ":a"]),
            (Fault::Oracle, 1, ["refs/heads/b", "+refs/heads/b:refs/heads/b"], ["a", "+a"]),
            (Fault::Ours, 1, ["+refs/heads/a", "a:b"], ["a", ""]),
            (Fault::Paper, 1, ["+:refs/heads/a", "a:b"], ["+:a", ""]),
        ] {
            let comparison = comparison(MODEL, fault);
            let found = comparison.smallest(Pair::of(op, pair[0].as_bytes(), pair[1].as_bytes()));
            assert!(comparison.run(&found, Again::All, &mut Seen::default()).is_err());
            assert_eq!([found.first, found.second], smallest.map(|spec| spec.as_bytes().to_vec()));
        }
    }
}
