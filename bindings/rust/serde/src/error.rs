//! Why a value was not read.

use serde::de::{Expected, Unexpected};
use std::fmt;

/// Why a value was not read: the text is not valid, or the type refuses the value.
pub struct Error(Box<Cause>);

enum Cause {
    /// The text is not valid.
    Text(mezdruk::Error),
    /// The type refuses the value.
    Data { message: String, steps: Vec<Step> },
}

/// A step to the value that is refused.
pub(crate) enum Step {
    Index(usize),
    Name(String),
}

impl Error {
    /// Returns the error of the text, or `None` if the text is valid.
    ///
    /// ```
    /// let error = mezdruk_serde::from_str::<Vec<u8>>("[1, x]").unwrap_err();
    /// assert_eq!(error.text_error().and_then(|error| error.column()), Some(5));
    /// ```
    pub fn text_error(&self) -> Option<&mezdruk::Error> {
        match &*self.0 {
            Cause::Text(error) => Some(error),
            Cause::Data { .. } => None,
        }
    }

    /// Returns the JSON Pointer (RFC 6901) to the innermost value that is refused, or `None` if the
    /// text is not valid. A name is that of the member that is refused.
    ///
    /// ```
    /// let error = mezdruk_serde::from_str::<Vec<Vec<u8>>>("[[1], [2, 300]]").unwrap_err();
    /// assert_eq!(error.pointer().as_deref(), Some("/1/1"));
    /// ```
    pub fn pointer(&self) -> Option<String> {
        match &*self.0 {
            Cause::Text(_) => None,
            Cause::Data { steps, .. } => Some(steps.iter().rev().map(Step::to_string).collect()),
        }
    }

    /// Returns the error, one step further out.
    pub(crate) fn below(mut self, step: impl FnOnce() -> Step) -> Error {
        if let Cause::Data { steps, .. } = &mut *self.0 {
            steps.push(step());
        }
        self
    }
}

impl fmt::Display for Step {
    fn fmt(&self, f: &mut fmt::Formatter<'_>) -> fmt::Result {
        match self {
            Step::Index(index) => write!(f, "/{index}"),
            Step::Name(name) => write!(f, "/{}", name.replace('~', "~0").replace('/', "~1")),
        }
    }
}

impl serde::de::Error for Error {
    fn custom<T: fmt::Display>(message: T) -> Error {
        Error(Box::new(Cause::Data { message: message.to_string(), steps: Vec::new() }))
    }

    fn invalid_type(unexpected: Unexpected<'_>, expected: &dyn Expected) -> Error {
        match unexpected {
            Unexpected::Unit => {
                Error::custom(format_args!("invalid type: null, expected {expected}"))
            }
            _ => Error::custom(format_args!("invalid type: {unexpected}, expected {expected}")),
        }
    }
}

impl From<mezdruk::Error> for Error {
    fn from(error: mezdruk::Error) -> Error {
        Error(Box::new(Cause::Text(error)))
    }
}

impl fmt::Display for Error {
    fn fmt(&self, f: &mut fmt::Formatter<'_>) -> fmt::Result {
        match &*self.0 {
            Cause::Text(error) => fmt::Display::fmt(error, f),
            Cause::Data { message, .. } => {
                write!(f, "{message} at `{}`", self.pointer().unwrap_or_default())
            }
        }
    }
}

impl fmt::Debug for Error {
    fn fmt(&self, f: &mut fmt::Formatter<'_>) -> fmt::Result {
        match &*self.0 {
            Cause::Text(error) => fmt::Debug::fmt(error, f),
            Cause::Data { message, .. } => f
                .debug_struct("Error")
                .field("message", message)
                .field("pointer", &self.pointer().unwrap_or_default())
                .finish(),
        }
    }
}

impl std::error::Error for Error {
    fn source(&self) -> Option<&(dyn std::error::Error + 'static)> {
        match &*self.0 {
            Cause::Text(error) => Some(error),
            Cause::Data { .. } => None,
        }
    }
}
