//! Stands in for the crate `gix-error`: an error with a message, and beside it
//! what the comparison needs to tell which question refused.

use std::{error, fmt};

pub type Result<T> = std::result::Result<T, Error>;

/// A message, and what it is about.
#[derive(Debug)]
pub struct Error {
    /// The words of the error.
    pub message: String,
    /// Where the bytes stood that the error is about.
    pub input_address: Option<usize>,
    /// The error of another crate that this one passes on.
    pub source: Option<Box<dyn error::Error + Send + Sync>>,
}

impl Error {
    /// The same error, about these bytes.
    pub fn with_input(self, input: &[u8]) -> Error {
        Error { input_address: Some(input.as_ptr().addr()), ..self }
    }
}

impl fmt::Display for Error {
    fn fmt(&self, f: &mut fmt::Formatter<'_>) -> fmt::Result {
        f.write_str(&self.message)
    }
}

/// An error that says that the input is not valid.
pub fn validation(message: &str) -> Error {
    Error { message: message.to_owned(), input_address: None, source: None }
}

/// A message that is yet to become an error.
pub struct Message(&'static str);

pub fn message(message: &'static str) -> Message {
    Message(message)
}

impl Message {
    pub fn validation_error(self) -> Error {
        validation(self.0)
    }
}

/// Returns with an error.
#[macro_export]
macro_rules! bail {
    ($error:expr) => {
        return Err($error)
    };
}

/// Passes the error of another crate on.
pub trait ResultExt<T> {
    fn or_error(self) -> Result<T>;
}

impl<T, E: error::Error + Send + Sync + 'static> ResultExt<T> for std::result::Result<T, E> {
    fn or_error(self) -> Result<T> {
        self.map_err(|e| Error { message: e.to_string(), input_address: None, source: Some(Box::new(e)) })
    }
}

/// The kind of an error, as a source that an error of another crate may name.
#[derive(Debug)]
pub struct ClassificationMarker;

impl ClassificationMarker {
    pub const VALIDATION: ClassificationMarker = ClassificationMarker;
}

impl fmt::Display for ClassificationMarker {
    fn fmt(&self, f: &mut fmt::Formatter<'_>) -> fmt::Result {
        f.write_str("validation")
    }
}

impl error::Error for ClassificationMarker {}
