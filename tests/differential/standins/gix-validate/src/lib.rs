//! Stands in for the crate `gix-validate`: whether a name is a well-formed
//! partial reference name. It is written from the git-check-ref-format manual with
//! --allow-onelevel, one function for each of the manual's rules, in its order. With the
//! feature `one-pass` the same is decided in one pass, so that times are not those of ten.

mod one_pass;

pub mod reference {
    use crate::one_pass;
    use bstr::BStr;

    /// Passes a name on, if it keeps all of the manual's rules.
    pub fn name_partial(name: &BStr) -> Result<&BStr, name::Error> {
        if well_formed(name) { Ok(name) } else { Err(name::Error::new(name)) }
    }

    fn well_formed(name: &[u8]) -> bool {
        if cfg!(feature = "one-pass") { one_pass::well_formed(name) } else { by_the_rules(name) }
    }

    pub(crate) fn by_the_rules(name: &[u8]) -> bool {
        !name.is_empty()
            && name.split(|b| *b == b'/').all(component_is_fine)
            && !holds(name, b"..")
            && !name.iter().any(|b| *b < 0o40 || *b == 0o177 || b" ~^:".contains(b))
            && !name.iter().any(|b| b"?*[".contains(b))
            && !(name.starts_with(b"/") || name.ends_with(b"/") || holds(name, b"//"))
            && !name.ends_with(b".")
            && !holds(name, b"@{")
            && name != b"@"
            && !name.contains(&b'\\')
    }

    /// No slash-separated component begins with a dot or ends with `.lock`.
    fn component_is_fine(component: &[u8]) -> bool {
        !component.starts_with(b".") && !component.ends_with(b".lock")
    }

    /// Whether two bytes stand in a name, one after the other.
    fn holds(name: &[u8], pair: &[u8; 2]) -> bool {
        name.windows(2).any(|two| two == pair)
    }

    pub mod name {
        use std::fmt;

        /// A name that is not well formed, with where its bytes stood.
        #[derive(Debug)]
        pub struct Error {
            pub name: Vec<u8>,
            pub address: usize,
        }

        impl Error {
            pub(super) fn new(name: &[u8]) -> Error {
                Error { name: name.to_vec(), address: name.as_ptr().addr() }
            }
        }

        impl fmt::Display for Error {
            fn fmt(&self, f: &mut fmt::Formatter<'_>) -> fmt::Result {
                write!(f, "{:?} is no well-formed reference name", self.name.escape_ascii().to_string())
            }
        }

        impl std::error::Error for Error {}
    }
}
