//! How a text is read, and how a result is laid out.

use crate::document::Document;
use crate::error::{Error, Inputs};
use crate::ffi::{self, Parsed};
use crate::node::Node;
use crate::raw::{self, Change};

/// How a text is read, and how a result is laid out.
///
/// The calls of the crate's root read texts of at most 254 levels, in which names may repeat, and
/// return texts without whitespace, with the members in their order. These options ask for other
/// rules and layouts.
///
/// ```
/// use mezdruk::{Indent, Options};
///
/// let options = Options::new().sort_keys(true).indent(Indent::Spaces(2));
/// let text = options.edit(r#"{"b": 1.50, "a": []}"#, "[]")?;
/// assert_eq!(text, "{\n  \"a\": [],\n  \"b\": 1.50\n}");
/// # Ok::<(), mezdruk::Error>(())
/// ```
#[derive(Clone, Copy, Debug, PartialEq, Eq, Hash)]
#[must_use]
pub struct Options {
    depth: u32,
    unique_keys: bool,
    sort_keys: bool,
    indent: Indent,
}

/// The whitespace of a result.
#[derive(Clone, Copy, Debug, PartialEq, Eq, Hash)]
pub enum Indent {
    /// No whitespace at all.
    Compact,
    /// A line for each element and member, with this many spaces for each level, from 0 to 8.
    Spaces(u8),
    /// A line for each element and member, with a tab for each level.
    Tabs,
}

impl Default for Options {
    fn default() -> Options {
        Options::new()
    }
}

impl Options {
    /// Returns the options of the calls of the crate's root.
    pub const fn new() -> Options {
        Options { depth: 254, unique_keys: false, sort_keys: false, indent: Indent::Compact }
    }

    /// Refuses a text of more levels of arrays and objects than `depth`: `[]` has one. A depth of
    /// more than 1,024 is not possible: a call with such options fails with `BadOptions`.
    pub const fn depth(self, depth: u32) -> Options {
        Options { depth, ..self }
    }

    /// Refuses a text in which two members of an object have the same name.
    pub const fn unique_keys(self, unique_keys: bool) -> Options {
        Options { unique_keys, ..self }
    }

    /// Sorts the members of each object of a result by their names.
    pub const fn sort_keys(self, sort_keys: bool) -> Options {
        Options { sort_keys, ..self }
    }

    /// Lays a result out with this whitespace. More than 8 spaces are not possible: a call with
    /// such options fails with `BadOptions`.
    pub const fn indent(self, indent: Indent) -> Options {
        Options { indent, ..self }
    }

    /// Checks a text, as [`check`](crate::check) does, by these options.
    ///
    /// ```
    /// use mezdruk::{ErrorCode, Options};
    ///
    /// let strict = Options::new().unique_keys(true);
    /// assert!(mezdruk::check(r#"{"a": 1, "a": 2}"#).is_ok());
    /// let error = strict.check(r#"{"a": 1, "a": 2}"#).unwrap_err();
    /// assert_eq!((error.code(), error.column()), (ErrorCode::DuplicateKey, Some(10)));
    /// ```
    pub fn check(&self, text: impl AsRef<[u8]>) -> Result<(), Error> {
        let text = text.as_ref();
        ffi::check(text, &self.raw()).map_err(|failure| Inputs::text(text).error(failure))
    }

    /// Applies edits, as [`edit`](crate::edit) does, by these options.
    pub fn edit(&self, text: impl AsRef<[u8]>, edits: impl AsRef<[u8]>) -> Result<String, Error> {
        self.changed(raw::EDIT, text.as_ref(), edits.as_ref())
    }

    /// Applies a JSON Patch, as [`patch`](crate::patch) does, by these options.
    pub fn patch(&self, text: impl AsRef<[u8]>, patch: impl AsRef<[u8]>) -> Result<String, Error> {
        self.changed(raw::PATCH, text.as_ref(), patch.as_ref())
    }

    /// Applies a JSON Merge Patch, as [`merge_patch`](crate::merge_patch) does, by these options.
    pub fn merge_patch(
        &self,
        text: impl AsRef<[u8]>,
        patch: impl AsRef<[u8]>,
    ) -> Result<String, Error> {
        self.changed(raw::MERGE, text.as_ref(), patch.as_ref())
    }

    /// Returns the patch from a text to another, as [`diff`](crate::diff) does, by these options.
    pub fn diff(&self, text: impl AsRef<[u8]>, target: impl AsRef<[u8]>) -> Result<String, Error> {
        self.changed(raw::DIFF, text.as_ref(), target.as_ref())
    }

    /// Returns the merge patch from a text to another, as [`merge_diff`](crate::merge_diff) does, by
    /// these options.
    pub fn merge_diff(
        &self,
        text: impl AsRef<[u8]>,
        target: impl AsRef<[u8]>,
    ) -> Result<String, Error> {
        self.changed(raw::MERGE_DIFF, text.as_ref(), target.as_ref())
    }

    /// Returns the text of a value, as [`get`](crate::get) does, by these options.
    pub fn get(&self, text: impl AsRef<[u8]>, pointer: &str) -> Result<String, Error> {
        self.changed(raw::GET, text.as_ref(), pointer.as_bytes())
    }

    /// Parses a text, as [`Document::parse`] does, by these options.
    pub fn parse(&self, text: impl AsRef<[u8]>) -> Result<Document, Error> {
        let text = text.as_ref();
        match Parsed::parse(text, &self.raw()) {
            Ok(parsed) => Ok(Document::of(parsed)),
            Err(failure) => Err(Inputs::text(text).error(failure)),
        }
    }

    /// Returns the text of a value of a document.
    ///
    /// ```
    /// use mezdruk::{Document, Options};
    ///
    /// let document = Document::parse(r#"{"b": [1.50], "a": null}"#)?;
    /// let sorted = Options::new().sort_keys(true);
    /// assert_eq!(sorted.print(document.root())?, r#"{"a":null,"b":[1.50]}"#);
    /// # Ok::<(), mezdruk::Error>(())
    /// ```
    pub fn print(&self, node: Node<'_>) -> Result<String, Error> {
        node.print(&self.raw()).map_err(|failure| Inputs::text(b"").error(failure))
    }

    fn changed(&self, call: Change, text: &[u8], argument: &[u8]) -> Result<String, Error> {
        call.of(text, argument, &self.raw())
            .map_err(|failure| Inputs { text, argument }.error(failure))
    }

    /// Returns the options as C has them.
    pub(crate) fn raw(&self) -> raw::Options {
        let indent = match self.indent {
            Indent::Compact => 0,
            Indent::Spaces(spaces @ 0..=8) => 1 + spaces,
            Indent::Tabs => 10,
            Indent::Spaces(_) => u8::MAX,
        };
        raw::Options {
            depth: self.depth,
            unique_keys: self.unique_keys.into(),
            sort_keys: self.sort_keys.into(),
            indent,
        }
    }
}
