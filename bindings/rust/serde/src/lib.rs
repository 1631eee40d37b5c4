//! Types of serde, read from JSON (RFC 8259) that proved code parses.
//!
//! ```
//! #[derive(serde::Deserialize)]
//! struct Item {
//!     name: String,
//!     price: f64,
//!     tags: Vec<String>,
//! }
//!
//! let text = br#"{"name": "tea", "price": 1.50, "tags": ["green"]}"#;
//! let item: Item = mezdruk_serde::from_slice(text)?;
//! assert_eq!((&*item.name, item.price, item.tags.len()), ("tea", 1.5, 1));
//!
//! let error = mezdruk_serde::from_str::<Vec<Item>>(
//!     r#"[{"name": "tea", "price": "?", "tags": []}]"#,
//! );
//! assert_eq!(
//!     error.err().unwrap().to_string(),
//!     r#"invalid type: string "?", expected f64 at `/0/price`"#,
//! );
//! # Ok::<(), mezdruk_serde::Error>(())
//! ```
//!
//! A type is read as serde_json 1.0.87 reads it, but for numbers. One with a fraction, an exponent
//! or more than 64 bits is the nearest double, and none if that is infinite. Into an `i128` or a
//! `u128` an integer is read exactly. A name that is read as an integer has no plus and no leading
//! zeros. The library has parsed the whole text before a type reads it.

#![forbid(unsafe_code)]
#![warn(missing_docs)]

mod access;
mod deserializer;
mod error;
mod key;

pub use deserializer::Deserializer;
pub use error::Error;

use mezdruk::{Document, Node};
use serde::de::{Deserialize, DeserializeOwned};

/// The examples of the README are tested.
#[cfg(doctest)]
#[doc = include_str!("../README.md")]
struct Readme;

/// Reads a value of a JSON text of at most 254 levels.
///
/// Fails if the bytes are not such a text, or if the type refuses the value.
///
/// ```
/// let ages: std::collections::BTreeMap<String, u8> = mezdruk_serde::from_slice(b"{\"Ada\": 36}")?;
/// assert_eq!(ages["Ada"], 36);
/// # Ok::<(), mezdruk_serde::Error>(())
/// ```
pub fn from_slice<T: DeserializeOwned>(text: &[u8]) -> Result<T, Error> {
    from_node(Document::parse(text)?.root())
}

/// Reads a value of a JSON text of at most 254 levels, as [`from_slice`] does.
pub fn from_str<T: DeserializeOwned>(text: &str) -> Result<T, Error> {
    from_slice(text.as_bytes())
}

/// Reads a value of a node of a document. Strings can be lent from the document.
///
/// ```
/// let document = mezdruk::Document::parse(r#"{"names": ["Ada", "Zo\u00eb"]}"#)?;
/// let names: Vec<&str> = mezdruk_serde::from_node(document.root().get("names").unwrap())?;
/// assert_eq!(names, ["Ada", "Zoë"]);
/// # Ok::<(), mezdruk_serde::Error>(())
/// ```
pub fn from_node<'d, T: Deserialize<'d>>(node: Node<'d>) -> Result<T, Error> {
    T::deserialize(Deserializer::new(node))
}
