use crate::{Operation, Refusal, buffer::written, list, raw};

/// How a spec is meant.
#[derive(Clone, Copy, Debug, PartialEq, Eq, Hash)]
pub enum Mode {
    /// It begins with no sign.
    Normal,
    /// It begins with `+`.
    Force,
    /// It begins with `^`.
    Negative,
}

/// A spec that was read for an operation and accepted.
///
/// It borrows the bytes that it was read from. Its sides are parts of them, or `HEAD`
/// where the spec leaves that to be supplied.
///
/// ```
/// use vasigmon::{Mode, Operation, parse};
///
/// let spec = parse(Operation::Fetch, b"+refs/heads/*:refs/remotes/hub/*")?;
/// assert_eq!(spec.mode(), Mode::Force);
/// assert_eq!(spec.source(), Some(b"refs/heads/*".as_slice()));
/// assert_eq!(spec.destination(), Some(b"refs/remotes/hub/*".as_slice()));
/// # Ok::<(), vasigmon::Refusal>(())
/// ```
#[derive(Clone, Copy, Debug, PartialEq, Eq, Hash)]
pub struct Spec<'a> {
    op: Operation,
    text: &'a [u8],
    mode: Mode,
    source: Option<&'a [u8]>,
    destination: Option<&'a [u8]>,
}

/// What a spec asks for.
#[derive(Clone, Copy, Debug, PartialEq, Eq, Hash)]
pub enum Instruction<'a> {
    /// Fetch the source and update nothing.
    FetchOnly {
        /// A name or an object id.
        source: &'a [u8],
    },
    /// Leave the source out of what other specs fetch.
    FetchExclude {
        /// A name or a pattern.
        source: &'a [u8],
    },
    /// Fetch the source and update the destination.
    FetchAndUpdate {
        /// A name, a pattern or an object id.
        source: &'a [u8],
        /// A name, or a pattern if the source is one.
        destination: &'a [u8],
        /// Whether a non-fast-forward is allowed.
        force: bool,
    },
    /// Push every branch that the remote has too.
    PushAllMatching {
        /// Whether a non-fast-forward is allowed.
        force: bool,
    },
    /// Delete the destination.
    PushDelete {
        /// A name.
        destination: &'a [u8],
    },
    /// Push the source to the destination.
    PushMatching {
        /// A name, a pattern or a revision.
        source: &'a [u8],
        /// A name, or a pattern if the source is one.
        destination: &'a [u8],
        /// Whether a non-fast-forward is allowed.
        force: bool,
    },
    /// Leave the source out of what other specs push.
    PushExclude {
        /// A name or a pattern.
        source: &'a [u8],
    },
}

/// Reads a spec.
///
/// ```
/// use vasigmon::{Operation, Refusal, parse};
///
/// let spec = parse(Operation::Fetch, b"")?;
/// assert_eq!(spec.source(), Some(b"HEAD".as_slice()));
///
/// assert_eq!(parse(Operation::Push, b""), Err(Refusal::EmptyPush));
/// # Ok::<(), Refusal>(())
/// ```
pub fn parse(op: Operation, text: &[u8]) -> Result<Spec<'_>, Refusal> {
    let answer = raw::parse(op as u64, text);
    Refusal::told(answer.refusal)?;
    let mode = match answer.mode {
        0 => Mode::Normal,
        1 => Mode::Force,
        2 => Mode::Negative,
        number => unreachable!("no mode has the number {number}"),
    };
    Ok(Spec {
        op,
        text,
        mode,
        source: side(text, answer.source),
        destination: side(text, answer.destination),
    })
}

impl<'a> Spec<'a> {
    /// What it was read for.
    pub fn operation(&self) -> Operation {
        self.op
    }

    /// The bytes that it was read from.
    pub fn text(&self) -> &'a [u8] {
        self.text
    }

    /// How it is meant.
    pub fn mode(&self) -> Mode {
        self.mode
    }

    /// The side before the last colon, if there is one.
    pub fn source(&self) -> Option<&'a [u8]> {
        self.source
    }

    /// The side after the last colon, if there is one.
    pub fn destination(&self) -> Option<&'a [u8]> {
        self.destination
    }

    /// What it asks for. A push with a source alone has that source as its destination
    /// too.
    ///
    /// ```
    /// use vasigmon::{Instruction, Operation, parse};
    ///
    /// let main = b"main".as_slice();
    /// let spec = parse(Operation::Push, b"+main")?;
    /// assert_eq!(spec.destination(), None);
    /// let instruction = Instruction::PushMatching { source: main, destination: main, force: true };
    /// assert_eq!(spec.instruction(), instruction);
    /// # Ok::<(), vasigmon::Refusal>(())
    /// ```
    pub fn instruction(&self) -> Instruction<'a> {
        let answer = raw::instruction(self.op as u64, self.text);
        Refusal::told(answer.refusal).expect("it was accepted before");
        let force = answer.force == 1;
        let source = || side(self.text, answer.source).expect("this kind has a source");
        let destination = || side(self.text, answer.destination).expect("this kind has a destination");
        match answer.kind {
            0 => Instruction::FetchOnly { source: source() },
            1 => Instruction::FetchExclude { source: source() },
            2 => Instruction::FetchAndUpdate { source: source(), destination: destination(), force },
            3 => Instruction::PushAllMatching { force },
            4 => Instruction::PushDelete { destination: destination() },
            5 => Instruction::PushMatching { source: source(), destination: destination(), force },
            6 => Instruction::PushExclude { source: source() },
            number => unreachable!("no instruction has the number {number}"),
        }
    }

    /// The start that every name on its remote side has, if there is one.
    ///
    /// ```
    /// use vasigmon::{Operation, parse};
    ///
    /// let spec = parse(Operation::Fetch, b"refs/heads/*:refs/remotes/hub/*")?;
    /// assert_eq!(spec.prefix(), Some(b"refs/heads/".as_slice()));
    /// assert_eq!(parse(Operation::Fetch, b"main")?.prefix(), None);
    /// # Ok::<(), vasigmon::Refusal>(())
    /// ```
    pub fn prefix(&self) -> Option<&'a [u8]> {
        let answer = raw::prefix(self.op as u64, self.text);
        Refusal::told(answer.refusal).expect("it was accepted before");
        side(self.text, answer.prefix)
    }

    /// The prefixes of the names that it asks the remote for.
    ///
    /// ```
    /// use vasigmon::{Operation, parse};
    ///
    /// let prefixes = parse(Operation::Fetch, b"main")?.expand_prefixes();
    /// assert_eq!(prefixes.len(), 6);
    /// assert_eq!(prefixes[5], b"refs/remotes/main/HEAD");
    /// # Ok::<(), vasigmon::Refusal>(())
    /// ```
    pub fn expand_prefixes(&self) -> Vec<Vec<u8>> {
        let list = written(|out| raw::expand_prefixes(self.op as u64, self.text, out));
        list::records(&list).map(<[u8]>::to_vec).collect()
    }

    /// The canonical text of its instruction: with the operation beside it, a key for a price
    /// list.
    ///
    /// Two specs of one operation have equal texts exactly if their [instructions] are equal.
    /// Handed in again as a spec, a text of at most 4,096 bytes gives an equal instruction. The
    /// one exception is a fetch-only source that begins with `+`: its text still tells specs
    /// apart, but is read as another spec, or refused. The fetch `a:b` and the push `a:b` have
    /// the same text, so a price list for both keeps the operation too.
    ///
    /// [instructions]: Spec::instruction
    ///
    /// ```
    /// use vasigmon::Operation::{Fetch, Push};
    /// use vasigmon::parse;
    ///
    /// // One push, written in two ways, has one key. Where it is forced it has another.
    /// let main = parse(Push, b"main")?;
    /// let key = main.to_bstring();
    /// assert_eq!(key, b"main:main");
    /// assert_eq!(parse(Push, b"main:main")?.to_bstring(), key);
    /// assert_eq!(parse(Push, b"+main")?.to_bstring(), b"+main:main");
    ///
    /// // The key is read back as an equal instruction.
    /// assert_eq!(parse(Push, &key)?.instruction(), main.instruction());
    ///
    /// // Not so the key of a source that begins with `+`: the spec fetches `+a`, and its key `a`.
    /// let signed = parse(Fetch, b"++a")?;
    /// assert_eq!(signed.source(), Some(b"+a".as_slice()));
    /// assert_eq!(signed.to_bstring(), b"+a");
    /// assert_eq!(parse(Fetch, b"+a")?.source(), Some(b"a".as_slice()));
    /// assert_ne!(parse(Fetch, b"+a")?.instruction(), signed.instruction());
    /// # Ok::<(), vasigmon::Refusal>(())
    /// ```
    pub fn to_bstring(&self) -> Vec<u8> {
        written(|out| raw::to_bstring(self.op as u64, self.text, out))
    }
}

/// The text of a side.
fn side(spec: &[u8], side: raw::Side) -> Option<&[u8]> {
    match side.kind {
        0 => None,
        1 => Some(&spec[side.start as usize..][..side.length as usize]),
        2 => Some(b"HEAD"),
        number => unreachable!("no side has the number {number}"),
    }
}

#[cfg(test)]
mod tests {
    use super::*;
    use Operation::{Fetch, Push};

    /// What an accepted text asks for.
    fn instruction(op: Operation, text: &[u8]) -> Instruction<'_> {
        parse(op, text).unwrap().instruction()
    }

    #[test]
    fn sides_are_parts_of_the_spec() {
        let text = b"+a:b".as_slice();
        let spec = parse(Fetch, text).unwrap();
        assert_eq!((spec.operation(), spec.mode()), (Fetch, Mode::Force));
        assert!(std::ptr::eq(spec.text(), text));
        assert!(std::ptr::eq(spec.source().unwrap(), &text[1..2]));
        assert!(std::ptr::eq(spec.destination().unwrap(), &text[3..4]));
    }

    #[test]
    fn every_mode() {
        let modes = [b"a".as_slice(), b"+a", b"^a"].map(|text| parse(Push, text).unwrap().mode());
        assert_eq!(modes, [Mode::Normal, Mode::Force, Mode::Negative]);
    }

    #[test]
    fn the_supplied_head() {
        let head = b"HEAD".as_slice();
        assert_eq!(parse(Fetch, b":b").unwrap().source(), Some(head));
        assert_eq!(parse(Fetch, b"^@").unwrap().source(), Some(head));
        let both = Instruction::PushMatching { source: head, destination: head, force: false };
        assert_eq!(instruction(Push, b"@"), both);
        assert_eq!(parse(Fetch, b"").unwrap().prefix(), Some(head));
    }

    #[test]
    fn a_push_source_with_a_destination_may_be_any_revision() {
        let spec = parse(Push, b":/fix:refs/heads/b").unwrap();
        assert_eq!(spec.source(), Some(b":/fix".as_slice()));
    }

    #[test]
    fn every_kind_of_instruction() {
        let a = b"a".as_slice();
        let d = b"d".as_slice();
        assert_eq!(instruction(Fetch, b"+a"), Instruction::FetchOnly { source: a });
        assert_eq!(instruction(Fetch, b"^a"), Instruction::FetchExclude { source: a });
        let update = Instruction::FetchAndUpdate { source: a, destination: d, force: true };
        assert_eq!(instruction(Fetch, b"+a:d"), update);
        assert_eq!(instruction(Push, b"+"), Instruction::PushAllMatching { force: true });
        assert_eq!(instruction(Push, b"+:d"), Instruction::PushDelete { destination: d });
        let matching = Instruction::PushMatching { source: a, destination: d, force: false };
        assert_eq!(instruction(Push, b"a:d"), matching);
        assert_eq!(instruction(Push, b"^a"), Instruction::PushExclude { source: a });
    }

    #[test]
    fn answers_longer_than_the_first_buffer() {
        let name = [b'a'; 4096];
        let text = parse(Push, &name).unwrap().to_bstring();
        assert_eq!(text, [&name[..], b":", &name].concat());
        let prefixes = parse(Fetch, &name).unwrap().expand_prefixes();
        assert_eq!(prefixes[0], name);
        assert_eq!(prefixes[5], [b"refs/remotes/", &name[..], b"/HEAD"].concat());
    }
}
