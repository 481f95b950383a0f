//! One comparison: the report on two specs by the archive, by the paper's reading, and by
//! the crate's forward mapping of names.

use super::{Entry, Pair, Seen, refusal};
use crate::{
    Fault,
    buffers::{Again, Call, Lent, refused, written},
    smaller::smallest_two,
};
use cases::SPEC_LIMIT;
use oracle::FetchSpec;
use paper::RefusedSpec;
use vasigmon::raw::Collision;

/// What the crate says of a destination that is told, or of none: a complaint, if it does
/// not agree.
pub type TheCrate<'a> = &'a dyn Fn(Option<&[u8]>) -> Result<(), String>;

/// Compares answers.
pub struct Comparison {
    pub entry: Entry,
    pub fault: Fault,
    /// What buffers hold before they are lent.
    pub noise: Vec<u8>,
}

impl Comparison {
    /// How the sides differ, if they do. The crate is asked about a few names that decide.
    pub fn run(&self, pair: &Pair, again: Again, seen: &mut Seen) -> Result<(), String> {
        self.run_with(pair, &|told| self.few_names(pair, told), again, seen)
    }

    /// How the sides differ, if they do, with what the crate says at hand.
    pub fn run_with(
        &self,
        pair: &Pair,
        the_crate: TheCrate,
        again: Again,
        seen: &mut Seen,
    ) -> Result<(), String> {
        let (first, second) = (Lent::new(&pair.first), Lent::new(&pair.second));
        let call = |out: &mut [u8]| (self.entry)(first.bytes(), second.bytes(), out);
        match paper::collide(&pair.first, &pair.second) {
            Err(why) => {
                self.refused(&call, why)?;
                the_crate_refuses(pair, why)?;
                seen.refusal(why);
            }
            Ok(None) => {
                self.untouched(&call, Collision::default())?;
                the_crate(None)?;
                seen.pair(pair, None);
            }
            Ok(Some(destination)) => {
                let told = self.told(&call, &destination, again)?;
                the_crate(Some(&told))?;
                seen.pair(pair, Some(&destination));
            }
        }
        Ok(())
    }

    /// Whether two specs collide, as the entry says it.
    pub fn collide(&self, first: &[u8], second: &[u8]) -> bool {
        (self.entry)(first, second, &mut self.noise.clone()).collides == 1
    }

    /// Complains unless a call is refused like this, whatever its buffer.
    fn refused(&self, call: Call<Collision>, why: RefusedSpec) -> Result<(), String> {
        let which = if self.fault == Fault::Paper { 3 - why.which } else { why.which };
        self.untouched(call, refusal(RefusedSpec { which, ..why }))
    }

    /// Complains unless a call answers this and writes nothing, whatever its buffer.
    fn untouched(&self, call: Call<Collision>, expected: Collision) -> Result<(), String> {
        [0, 1, 100].iter().try_for_each(|length| refused("collide", call, &self.noise[..*length], expected))
    }

    /// What a call tells, or a complaint unless that is the paper's destination.
    fn told(&self, call: Call<Collision>, destination: &[u8], again: Again) -> Result<Vec<u8>, String> {
        let mut told = written("collide", call, &self.noise[..destination.len() + 100], again)?;
        if self.fault == Fault::Ours {
            told.pop();
        }
        if told == destination {
            return Ok(told);
        }
        Err(format!("collide: the paper {}, ours {}", destination.escape_ascii(), told.escape_ascii()))
    }

    /// Complains unless the crate says the same, by names that decide.
    fn few_names(&self, pair: &Pair, told: Option<&[u8]>) -> Result<(), String> {
        let read = |text| {
            FetchSpec::read(text)
                .map_err(|number| format!("the crate refuses a spec with {number}, we do not"))
        };
        let mut shared = oracle::shared(&read(&pair.first)?, &read(&pair.second)?);
        if self.fault == Fault::Oracle {
            shared.pop_last();
        }
        match told {
            Some(told) if shared.contains(told) => Ok(()),
            Some(told) => Err(format!("the crate does not map names of both to {}", told.escape_ascii())),
            None => match shared.first() {
                Some(on) => {
                    Err(format!("the crate maps names of both to {}, we find none", on.escape_ascii()))
                }
                None => Ok(()),
            },
        }
    }

    /// A smallest pair that still shows a difference.
    pub fn smallest(&self, pair: Pair) -> Pair {
        let of = |[first, second]: [Vec<u8>; 2]| Pair { first, second };
        let differs =
            |texts: &[Vec<u8>; 2]| self.run(&of(texts.clone()), Again::All, &mut Seen::default()).is_err();
        of(smallest_two([pair.first, pair.second], differs))
    }
}

/// Complains unless the crate refuses the same spec for the same reason. The limit of a
/// spec's bytes is ours alone.
fn the_crate_refuses(pair: &Pair, why: RefusedSpec) -> Result<(), String> {
    let asked = |text: &[u8]| if text.len() > SPEC_LIMIT { Some(1) } else { FetchSpec::read(text).err() };
    let [first, second] = [&pair.first, &pair.second].map(|text| asked(text));
    let found = if why.which == 1 { first } else { first.or(second) };
    if found == Some(why.number) {
        return Ok(());
    }
    Err(format!("spec {}: the crate refuses it with {found:?}, the paper with {}", why.which, why.number))
}

#[cfg(test)]
mod tests {
    use super::*;
    use crate::collisions::MODEL;

    fn pair(first: &[u8], second: &[u8]) -> Pair {
        Pair { first: first.to_vec(), second: second.to_vec() }
    }

    /// A yes of patterns and of literals, one without bytes, a no, and a refusal of either spec.
    fn pairs() -> [Pair; 6] {
        [
            pair(b"*:refs/ab*", b"*:refs/a*bc"),
            pair(b"a:b", b"b:refs/heads/b"),
            pair(b"*:*", b"*:*"),
            pair(b"a:b", b"b:refs/heads/c"),
            pair(b"a*:b", b"^"),
            pair(b"a:b", b"^a:b"),
        ]
    }

    /// Whether a difference is found on some of the pairs.
    fn noticed(entry: Entry, fault: Fault) -> bool {
        let comparison = Comparison { entry, fault, noise: (0..=255).collect() };
        pairs().iter().any(|pair| comparison.run(pair, Again::All, &mut Seen::default()).is_err())
    }

    #[test]
    fn the_paper_passes_and_faults_do_not() {
        assert!(!noticed(MODEL, Fault::None));
        for fault in [Fault::Oracle, Fault::Ours, Fault::Paper] {
            assert!(noticed(MODEL, fault));
        }
    }

    #[test]
    fn wrong_entries_are_noticed() {
        let wrong: [(&str, Entry); 7] = [
            ("a yes without its mark", |first, second, out| Collision {
                collides: 0,
                ..MODEL(first, second, out)
            }),
            ("a mark beside 17", |first, second, out| {
                let answer = MODEL(first, second, out);
                Collision { collides: u64::from(answer.collides == 1 || answer.refusal == 17), ..answer }
            }),
            ("no for a destination of no bytes", |first, second, out| {
                let answer = MODEL(first, second, out);
                Collision { collides: u64::from(answer.length > 0), ..answer }
            }),
            ("the second's questions first", |first, second, out| {
                let answer = MODEL(second, first, out);
                Collision { which: if answer.which == 0 { 0 } else { 3 - answer.which }, ..answer }
            }),
            ("no spec told", |first, second, out| Collision { which: 0, ..MODEL(first, second, out) }),
            ("a byte written on a no", |first, second, out| {
                let answer = MODEL(first, second, out);
                if let (Some(byte), true) = (out.first_mut(), answer == Collision::default()) {
                    *byte ^= 1;
                }
                answer
            }),
            ("17 on a no", |first, second, out| match MODEL(first, second, out) {
                answer if answer == Collision::default() && out.is_empty() => {
                    Collision { refusal: 17, length: 1, ..answer }
                }
                answer => answer,
            }),
        ];
        for (what, wrong) in wrong {
            assert!(noticed(wrong, Fault::None), "{what}");
        }
    }

    #[test]
    fn a_difference_shrinks() {
        let comparison = Comparison { entry: MODEL, fault: Fault::Ours, noise: vec![b'#'; 1024] };
        let smallest = comparison.smallest(pair(b"+refs/heads/*:refs/b/*", b"refs/tags/*:refs/*"));
        assert!(comparison.run(&smallest, Again::All, &mut Seen::default()).is_err());
        assert!(smallest.size() < 10, "{smallest:?}");
    }
}
