//! JSON (RFC 8259) checked, edited, patched and read by proved code.
//!
//! The crate is a safe interface of Mezdruk's C library, whose calls have contracts that a checker
//! has proved. Numbers stay as they were written, members keep their order, and each error has its
//! cause and its position.
//!
//! ```
//! let text = r#"{"a": 1, "b": 1.50}"#;
//! assert_eq!(mezdruk::edit(text, r#"[["set", ["a"], 2]]"#)?, r#"{"a":2,"b":1.50}"#);
//! assert_eq!(mezdruk::get(text, "/b")?, "1.50");
//!
//! let error = mezdruk::check("[1, x]").unwrap_err();
//! assert_eq!(error.to_string(), "a value is expected (InvalidJsonValue) at line 1 column 5");
//!
//! let document = mezdruk::Document::parse(text)?;
//! assert_eq!(document.root().get("b").and_then(|price| price.as_f64()), Some(1.5));
//! # Ok::<(), mezdruk::Error>(())
//! ```
//!
//! A text is a `&str`, or bytes that need not be UTF-8: what is not is an error. [`Options`] asks
//! for other rules and layouts than the calls of this module.
//!
//! What is proved is the C library. This crate has no proofs: one module of it calls C, and no
//! other has `unsafe` code.

#![deny(unsafe_code)]
#![warn(missing_docs)]

mod children;
mod document;
mod error;
mod excerpt;
mod ffi;
mod index;
mod lines;
mod node;
mod options;
mod raw;

pub use children::{Elements, Members};
pub use document::Document;
pub use error::{Error, ErrorCode, ErrorKind};
pub use index::Index;
pub use lines::{lines, Lines};
pub use node::{Kind, Node};
pub use options::{Indent, Options};

/// The examples of the README are tested.
#[cfg(doctest)]
#[doc = include_str!("../README.md")]
struct Readme;

/// Checks that the bytes are a JSON text of at most 254 levels.
///
/// ```
/// use mezdruk::ErrorCode;
///
/// assert!(mezdruk::check("[1, 1e400, -0]").is_ok());
/// assert_eq!(mezdruk::check("[1, 01]").unwrap_err().code(), ErrorCode::InvalidNumber);
/// assert_eq!(mezdruk::check(b"\"\xff\"").unwrap_err().code(), ErrorCode::InvalidUTF8);
/// ```
pub fn check(text: impl AsRef<[u8]>) -> Result<(), Error> {
    Options::new().check(text)
}

/// Returns the text with edits applied in turn.
///
/// The edits are a JSON text: an array of `["set", path, value]`, `["insert", path, key, value]`,
/// `["push", path, value]` and `["remove", path, step]`. A path is an array of names and indexes.
/// Fails with an error of the kind [`ErrorKind::Argument`] if the edits cannot be read, and of the
/// kind [`ErrorKind::Apply`], with the index of the edit, if one does not apply.
///
/// ```
/// let edits = r#"[["push", ["b"], {"c": 1e2}], ["remove", [], "a"]]"#;
/// assert_eq!(mezdruk::edit(r#"{"a": 1, "b": []}"#, edits)?, r#"{"b":[{"c":1e2}]}"#);
///
/// let error = mezdruk::edit("[1, 2]", r#"[["set", [0], 3], ["remove", [], 2]]"#).unwrap_err();
/// assert_eq!(error.item(), Some(1));
/// # Ok::<(), mezdruk::Error>(())
/// ```
pub fn edit(text: impl AsRef<[u8]>, edits: impl AsRef<[u8]>) -> Result<String, Error> {
    Options::new().edit(text, edits)
}

/// Returns the text with a JSON Patch (RFC 6902) applied, all of it or nothing.
///
/// Fails with an error of the kind [`ErrorKind::Argument`] if the patch is not a JSON text, and of
/// the kind [`ErrorKind::Apply`] if it is no patch, or if an operation does not apply.
///
/// ```
/// let patch = r#"[{"op": "move", "from": "/a/b", "path": "/d"}]"#;
/// assert_eq!(mezdruk::patch(r#"{"a": {"b": 1.50}}"#, patch)?, r#"{"a":{},"d":1.50}"#);
/// # Ok::<(), mezdruk::Error>(())
/// ```
pub fn patch(text: impl AsRef<[u8]>, patch: impl AsRef<[u8]>) -> Result<String, Error> {
    Options::new().patch(text, patch)
}

/// Returns the text with a JSON Merge Patch (RFC 7396) applied.
///
/// Fails with an error of the kind [`ErrorKind::Argument`] if the patch is not a JSON text.
///
/// ```
/// let patch = r#"{"a": null, "c": {"d": 1}}"#;
/// assert_eq!(mezdruk::merge_patch(r#"{"a": 1, "b": 2}"#, patch)?, r#"{"b":2,"c":{"d":1}}"#);
/// # Ok::<(), mezdruk::Error>(())
/// ```
pub fn merge_patch(text: impl AsRef<[u8]>, patch: impl AsRef<[u8]>) -> Result<String, Error> {
    Options::new().merge_patch(text, patch)
}

/// Returns a JSON Patch (RFC 6902) that leads from a text to another: [`patch`](fn@patch) makes of
/// the first what is the same as the second. It is `[]` exactly if the two are the same.
///
/// Fails with an error of the kind [`ErrorKind::Text`] if the first is not valid, and of the kind
/// [`ErrorKind::Argument`] if the second is not.
///
/// ```
/// let (text, target) = (r#"{"a": [1, 2], "b": 3}"#, r#"{"a": [1, 2.50], "c": null}"#);
/// let patch = mezdruk::diff(text, target)?;
/// assert_eq!(mezdruk::diff(mezdruk::patch(text, patch)?, target)?, "[]");
/// # Ok::<(), mezdruk::Error>(())
/// ```
pub fn diff(text: impl AsRef<[u8]>, target: impl AsRef<[u8]>) -> Result<String, Error> {
    Options::new().diff(text, target)
}

/// Returns a JSON Merge Patch (RFC 7396) that leads from a text to another.
///
/// Fails as [`diff`] does, and with `NoMergePatch` if a member of the second that the first has not
/// is null, or if a name repeats in one of two objects that differ.
///
/// ```
/// use mezdruk::ErrorCode;
///
/// assert_eq!(mezdruk::merge_diff(r#"{"a": 1, "b": 2}"#, r#"{"a": 3}"#)?, r#"{"b":null,"a":3}"#);
/// let error = mezdruk::merge_diff("{}", r#"{"a": null}"#).unwrap_err();
/// assert_eq!(error.code(), ErrorCode::NoMergePatch);
/// # Ok::<(), mezdruk::Error>(())
/// ```
pub fn merge_diff(text: impl AsRef<[u8]>, target: impl AsRef<[u8]>) -> Result<String, Error> {
    Options::new().merge_diff(text, target)
}

/// Returns the text of the value that a JSON Pointer (RFC 6901) references.
///
/// Fails with `BadPointer` if it is not a pointer, and with `NotFound` if it references nothing.
///
/// ```
/// use mezdruk::ErrorCode;
///
/// let text = r#"{"a/b": [true, 1.50]}"#;
/// assert_eq!(mezdruk::get(text, "/a~1b/1")?, "1.50");
/// assert_eq!(mezdruk::get(text, "/a~1b/2").unwrap_err().code(), ErrorCode::NotFound);
/// # Ok::<(), mezdruk::Error>(())
/// ```
pub fn get(text: impl AsRef<[u8]>, pointer: &str) -> Result<String, Error> {
    Options::new().get(text, pointer)
}

/// Returns the version of the C library.
///
/// ```
/// assert_eq!(mezdruk::version(), env!("CARGO_PKG_VERSION"));
/// ```
pub fn version() -> &'static str {
    ffi::version()
}
