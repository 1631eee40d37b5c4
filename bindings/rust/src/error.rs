//! Why a call failed.

use crate::excerpt::Excerpt;
use crate::raw;
use std::fmt;

/// Why a call failed: a code, and where.
///
/// Its text is one line. With `{:#}` the line of the text or of the argument follows, cut to 76
/// bytes, and a caret under the position.
///
/// ```
/// use mezdruk::{ErrorCode, ErrorKind};
///
/// let error = mezdruk::check("{\"a\": 1,\n \"b\": 01}").unwrap_err();
/// assert_eq!((error.kind(), error.code()), (ErrorKind::Text, ErrorCode::InvalidNumber));
/// assert_eq!((error.offset(), error.line(), error.column()), (Some(16), Some(2), Some(8)));
/// assert_eq!(
///     error.to_string(),
///     "the number is not complete or has a leading zero (InvalidNumber) at line 2 column 8",
/// );
/// assert_eq!(format!("{error:#}"), format!("{error}\n \"b\": 01}}\n       ^"));
/// ```
#[derive(Clone, PartialEq, Eq)]
pub struct Error(Box<Parts>);

#[derive(Clone, PartialEq, Eq)]
struct Parts {
    kind: ErrorKind,
    code: ErrorCode,
    position: Option<Position>,
    item: Option<usize>,
    excerpt: Option<Excerpt>,
}

/// An offset, and its line and column.
#[derive(Clone, Copy, PartialEq, Eq)]
struct Position {
    offset: usize,
    line: usize,
    column: usize,
}

/// What is wrong: the text, an argument, or both together.
#[derive(Clone, Copy, Debug, PartialEq, Eq, Hash)]
#[non_exhaustive]
pub enum ErrorKind {
    /// The text is not valid JSON, or breaks a rule that the options ask for.
    Text,
    /// The options are not valid, or the edits, the patch or the target cannot be read.
    Argument,
    /// An edit, a patch or a pointer does not apply to the text, or no merge patch leads to the
    /// target.
    Apply,
    /// Memory ran out.
    OutOfMemory,
}

impl Error {
    /// Returns what is wrong: the text, an argument, or both together.
    pub fn kind(&self) -> ErrorKind {
        self.0.kind
    }

    /// Returns the cause.
    pub fn code(&self) -> ErrorCode {
        self.0.code
    }

    /// Returns the offset in bytes, if it is known: that of an error of the kind
    /// [`ErrorKind::Argument`] is in the edits or the patch, and any other in the text.
    pub fn offset(&self) -> Option<usize> {
        self.0.position.map(|position| position.offset)
    }

    /// Returns the line of the offset, counted from 1.
    pub fn line(&self) -> Option<usize> {
        self.0.position.map(|position| position.line)
    }

    /// Returns the column of the offset in bytes, counted from 1.
    pub fn column(&self) -> Option<usize> {
        self.0.position.map(|position| position.column)
    }

    /// Returns the index of the edit or the operation that does not apply, counted from 0.
    pub fn item(&self) -> Option<usize> {
        self.0.item
    }
}

impl fmt::Display for Error {
    fn fmt(&self, f: &mut fmt::Formatter<'_>) -> fmt::Result {
        let Parts { code, position, item, excerpt, .. } = &*self.0;
        write!(f, "{} ({code:?})", code.sentence())?;
        if let Some(item) = item {
            write!(f, " in item {item}")?;
        }
        if let Some(Position { line, column, .. }) = position {
            write!(f, " at line {line} column {column}")?;
        }
        match excerpt {
            Some(excerpt) if f.alternate() => write!(f, "\n{excerpt}"),
            _ => Ok(()),
        }
    }
}

impl fmt::Debug for Error {
    fn fmt(&self, f: &mut fmt::Formatter<'_>) -> fmt::Result {
        let Parts { kind, code, item, .. } = &*self.0;
        f.debug_struct("Error")
            .field("kind", kind)
            .field("code", code)
            .field("offset", &self.offset())
            .field("line", &self.line())
            .field("column", &self.column())
            .field("item", item)
            .finish()
    }
}

impl std::error::Error for Error {}

/// The inputs of a call, of which an error shows a line.
#[derive(Clone, Copy)]
pub(crate) struct Inputs<'a> {
    pub(crate) text: &'a [u8],
    pub(crate) argument: &'a [u8],
}

impl<'a> Inputs<'a> {
    /// Returns the inputs of a call on a text alone.
    pub(crate) fn text(text: &'a [u8]) -> Inputs<'a> {
        Inputs { text, argument: b"" }
    }

    /// Returns the error of what a call on the inputs reported.
    #[cold]
    pub(crate) fn error(self, failure: raw::Failure) -> Error {
        let raw::Failure { status, fault } = failure;
        let kind = match status {
            raw::BAD_TEXT => ErrorKind::Text,
            raw::BAD_ARGUMENT => ErrorKind::Argument,
            raw::NOT_APPLIED => ErrorKind::Apply,
            _ => ErrorKind::OutOfMemory,
        };
        let shown = if kind == ErrorKind::Argument { self.argument } else { self.text };
        let position = known(fault.offset).map(|offset| Position {
            offset,
            line: fault.line,
            column: fault.column,
        });
        Error(Box::new(Parts {
            kind,
            code: ErrorCode::of(fault.code),
            position,
            item: known(fault.item),
            excerpt: position.map(|it| Excerpt::of(shown, it.offset)),
        }))
    }
}

/// Returns a number of a fault, if it is known.
fn known(number: usize) -> Option<usize> {
    if number == raw::NONE {
        None
    } else {
        Some(number)
    }
}

macro_rules! codes {
    ($($(#[$doc:meta])* $name:ident = $number:literal, $sentence:literal;)*) => {
        /// The cause of an error.
        #[derive(Clone, Copy, Debug, PartialEq, Eq, Hash)]
        #[non_exhaustive]
        pub enum ErrorCode {
            $(#[doc = concat!("\"", $sentence, "\"")] $name,)*
            /// A cause that this version of the crate does not know, by its number in C.
            Other(u8),
        }

        impl ErrorCode {
            fn of(number: u8) -> ErrorCode {
                match number {
                    $($number => ErrorCode::$name,)*
                    other => ErrorCode::Other(other),
                }
            }

            fn sentence(self) -> &'static str {
                match self {
                    $(ErrorCode::$name => $sentence,)*
                    ErrorCode::Other(_) => "the call failed",
                }
            }
        }
    };
}

codes! {
    NoMemory = 1, "memory ran out";
    TooLarge = 3, "the input has more than 4,294,967,295 bytes";
    InvalidUTF8 = 4, "the input is not UTF-8";
    EofWhileParsing = 5, "the input ends before its value does";
    InvalidLiteral = 6, "only `null`, `true` and `false` are literals";
    InvalidNumber = 7, "the number is not complete or has a leading zero";
    ExpectedColon = 8, "a colon is expected after the key";
    ExpectedArrayCommaOrEnd = 9, "a comma or `]` is expected after the element";
    ExpectedObjectCommaOrEnd = 10, "a comma or `}` is expected after the member";
    ExpectObjectKeyOrEnd = 11, "a key in double quotes or `}` is expected";
    TrailingComma = 12, "a comma comes before `}`";
    InvalidJsonValue = 13, "a value is expected";
    ControlCharacter = 14, "a control character in a string has to be escaped";
    InvalidEscape = 15, "the escape is not valid";
    InvalidSurrogate = 16, "the escape of a surrogate is not part of a pair";
    TrailingCharacters = 17, "only whitespace may follow the value";
    RecursionLimitExceeded = 18, "the input has too many levels";
    NotFound = 19, "a key or an index is not there";
    TypeUnmatched = 20, "a key meets no object, or an index no array";
    NumberOutOfRange = 21, "the number is out of range";
    DuplicateKey = 25, "the key occurs twice in its object";
    BadPointer = 29, "the text is not a JSON Pointer";
    BadPatch = 30, "the patch or the operation is not valid";
    TestFailed = 31, "`test` found another value";
    BadOptions = 32, "the options are not valid";
    NoMergePatch = 33, "no merge patch leads to the target";
}
