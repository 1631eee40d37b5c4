//! JSON Lines.

use crate::error::{Error, Inputs};
use crate::ffi;

/// The rows of lines, and the errors of those that are bad.
#[derive(Clone, Debug, PartialEq, Eq, Hash)]
#[non_exhaustive]
pub struct Lines {
    /// The cells of each row, with tabs between them and a newline at the end.
    pub rows: String,
    /// The error of each line that is bad: its number, counted from 1, a colon, a space, the name
    /// of its cause, where it is, and a newline. There is nothing if no line is bad.
    pub errors: String,
}

/// Returns a row of cells for each line of a text.
///
/// The columns are a JSON array of 1 to 64 columns `[path, kind]`. A kind is `"text"`, `"int"`,
/// `"bool"` or `"json"`; a cell is `-` where there is no value of its kind. A line without a value
/// at the path `has` has no row: each one has a value at `[]`. Lines of whitespace alone are
/// skipped. A line is bad, and has no row, if it has more than 1,048,576 bytes or is not a JSON
/// text of at most 254 levels.
///
/// Fails with an error of the kind [`ErrorKind::Argument`](crate::ErrorKind::Argument) if the
/// columns or the path are others.
///
/// ```
/// let text = "{\"id\": 1, \"name\": \"Ada\"}\n{\"id\"}\n{\"id\": 2}\n";
/// let lines = mezdruk::lines(text, r#"[[["id"], "int"], [["name"], "text"]]"#, "[]")?;
/// assert_eq!(lines.rows, "1\t\"Ada\"\n2\t-\n");
/// assert_eq!(lines.errors, "2: ExpectedColon at offset 5, line 1 column 6\n");
/// # Ok::<(), mezdruk::Error>(())
/// ```
pub fn lines(
    text: impl AsRef<[u8]>,
    columns: impl AsRef<[u8]>,
    has: impl AsRef<[u8]>,
) -> Result<Lines, Error> {
    let (text, columns) = (text.as_ref(), columns.as_ref());
    match ffi::lines(text, columns, has.as_ref()) {
        Ok([rows, errors]) => Ok(Lines { rows, errors }),
        Err(failure) => Err(Inputs { text, argument: columns }.error(failure)),
    }
}
