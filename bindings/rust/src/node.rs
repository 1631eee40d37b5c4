//! The values of a document.

use crate::children::{Elements, Members};
use crate::ffi::Parsed;
use crate::index::{index_of, unescaped, Index};
use crate::options::{Indent, Options};
use crate::raw;
use std::borrow::Cow;
use std::fmt;

/// A value of a [`Document`](crate::Document), which is as cheap to copy as a reference.
///
/// Its text is compact; `{:#}` lays it out with two spaces for each level.
///
/// ```
/// use mezdruk::{Document, Kind};
///
/// let document = Document::parse(r#"{"total": 1e400, "prices": [1.50, 2]}"#)?;
/// let prices = document.root().get("prices").unwrap();
/// assert_eq!((prices.kind(), prices.len()), (Kind::Array, 2));
/// assert_eq!(prices.elements().filter_map(|price| price.as_f64()).sum::<f64>(), 3.5);
/// assert_eq!(prices.to_string(), "[1.50,2]");
/// assert_eq!(format!("{prices:#}"), "[\n  1.50,\n  2\n]");
/// # Ok::<(), mezdruk::Error>(())
/// ```
#[derive(Clone, Copy)]
pub struct Node<'d> {
    parsed: &'d Parsed,
    number: u32,
    shown: raw::Node,
}

/// The kind of a value.
#[derive(Clone, Copy, Debug, PartialEq, Eq, Hash)]
pub enum Kind {
    /// `null`.
    Null,
    /// `true` or `false`.
    Boolean,
    /// A number.
    Number,
    /// A string.
    String,
    /// An object.
    Object,
    /// An array.
    Array,
}

impl<'d> Node<'d> {
    /// Returns the node of a number, if there is one.
    pub(crate) fn at(parsed: &'d Parsed, number: u32) -> Option<Node<'d>> {
        let shown = parsed.read(number)?;
        Some(Node { parsed, number, shown })
    }

    /// Returns the kind.
    pub fn kind(self) -> Kind {
        match self.shown.kind {
            raw::NULL => Kind::Null,
            raw::BOOLEAN => Kind::Boolean,
            raw::NUMBER => Kind::Number,
            raw::STRING => Kind::String,
            raw::OBJECT => Kind::Object,
            _ => Kind::Array,
        }
    }

    /// Returns whether this is `null`.
    pub fn is_null(self) -> bool {
        self.kind() == Kind::Null
    }

    /// Returns the boolean, or `None` if this is none.
    pub fn as_bool(self) -> Option<bool> {
        match self.kind() {
            Kind::Boolean => Some(self.shown.boolean != 0),
            _ => None,
        }
    }

    /// Returns the number, or `None` if this is no integer from -2^63 to 2^63 - 1. An integer has
    /// neither a fraction nor an exponent, and is not `-0`.
    pub fn as_i64(self) -> Option<i64> {
        match self.shown.form {
            raw::NATURAL => i64::try_from(self.shown.natural).ok(),
            raw::NEGATIVE => Some(self.shown.negative),
            _ => None,
        }
    }

    /// Returns the number, or `None` if this is no integer from 0 to 2^64 - 1. An integer has
    /// neither a fraction nor an exponent, and is not `-0`.
    pub fn as_u64(self) -> Option<u64> {
        match self.shown.form {
            raw::NATURAL => Some(self.shown.natural),
            _ => None,
        }
    }

    /// Returns the double that is nearest to the number, or `None` if that is infinite or this is
    /// no number.
    ///
    /// ```
    /// let document = mezdruk::Document::parse("[0.1, 2, -0, 1e400, true]")?;
    /// let doubles: Vec<_> = document.root().elements().map(|value| value.as_f64()).collect();
    /// assert_eq!(doubles, [Some(0.1), Some(2.0), Some(-0.0), None, None]);
    /// # Ok::<(), mezdruk::Error>(())
    /// ```
    pub fn as_f64(self) -> Option<f64> {
        self.parsed.real(self.number)
    }

    /// Returns the literal of a number as it was in the text, or `None` if this is no number. That
    /// of an integer of 64 bits is made anew, and any other is lent.
    pub fn literal(self) -> Option<Cow<'d, str>> {
        match self.shown.form {
            raw::NATURAL => Some(self.shown.natural.to_string().into()),
            raw::NEGATIVE => Some(self.shown.negative.to_string().into()),
            _ if self.kind() == Kind::Number => self.parsed.text(self.number).map(Cow::from),
            _ => None,
        }
    }

    /// Returns the string without its escapes, or `None` if this is none.
    ///
    /// ```
    /// let document = mezdruk::Document::parse(r#""caf\u00e9\n""#)?;
    /// assert_eq!(document.root().as_str(), Some("café\n"));
    /// # Ok::<(), mezdruk::Error>(())
    /// ```
    pub fn as_str(self) -> Option<&'d str> {
        match self.kind() {
            Kind::String => self.parsed.text(self.number),
            _ => None,
        }
    }

    /// Returns how many elements or members there are; 0 if this is no array and no object.
    pub fn len(self) -> usize {
        match self.kind() {
            Kind::Array | Kind::Object => self.shown.length,
            _ => 0,
        }
    }

    /// Returns whether there are no elements and no members.
    pub fn is_empty(self) -> bool {
        self.len() == 0
    }

    /// Returns the element at an index, or the value of the first member with a name.
    ///
    /// ```
    /// let document = mezdruk::Document::parse(r#"{"a": [1, 2], "a": 3}"#)?;
    /// let first = document.root().get("a").unwrap();
    /// assert_eq!(first.get(1).and_then(|element| element.as_u64()), Some(2));
    /// assert!(first.get(2).is_none() && first.get("a").is_none());
    /// # Ok::<(), mezdruk::Error>(())
    /// ```
    pub fn get(self, index: impl Index) -> Option<Node<'d>> {
        index.find(self)
    }

    pub(crate) fn element(self, index: usize) -> Option<Node<'d>> {
        let element = self.parsed.element(self.number, index)?;
        Node::at(self.parsed, element)
    }

    pub(crate) fn member(self, name: &str) -> Option<Node<'d>> {
        self.members().find_name(name)
    }

    /// Returns the value that a JSON Pointer (RFC 6901) references from here, or `None` if it is
    /// not a pointer or references nothing. A name is that of the first member with it.
    ///
    /// ```
    /// let document = mezdruk::Document::parse(r#"{"a/b": [true, {"": 1.50}]}"#)?;
    /// let price = document.root().pointer("/a~1b/1/").unwrap();
    /// assert_eq!(price.as_f64(), Some(1.5));
    /// assert!(document.root().pointer("/a~1b/01").is_none());
    /// # Ok::<(), mezdruk::Error>(())
    /// ```
    pub fn pointer(self, pointer: &str) -> Option<Node<'d>> {
        if pointer.is_empty() {
            return Some(self);
        }
        let mut node = self;
        for part in pointer.strip_prefix('/')?.split('/') {
            node = node.step(&unescaped(part)?)?;
        }
        Some(node)
    }

    /// Returns the value that a token of a pointer references.
    fn step(self, token: &str) -> Option<Node<'d>> {
        match self.kind() {
            Kind::Array => self.get(index_of(token)?),
            _ => self.get(token),
        }
    }

    /// Returns the elements of an array, in their order. Of any other value there are none.
    ///
    /// To go through all of them takes one step for each.
    pub fn elements(self) -> Elements<'d> {
        Elements::of(self.parsed, self.number, self.count(Kind::Array))
    }

    /// Returns the names and the values of the members of an object, in their order. Of any other
    /// value there are none.
    ///
    /// To go through all of them takes one step for each.
    ///
    /// ```
    /// let document = mezdruk::Document::parse(r#"{"b": 1, "a": 2, "b": 3}"#)?;
    /// let names: Vec<&str> = document.root().members().map(|(name, _)| name).collect();
    /// assert_eq!(names, ["b", "a", "b"]);
    /// # Ok::<(), mezdruk::Error>(())
    /// ```
    pub fn members(self) -> Members<'d> {
        Members::of(self.parsed, self.number, self.count(Kind::Object))
    }

    /// Returns how many elements or members there are if this is of the kind, and else 0.
    fn count(self, kind: Kind) -> usize {
        if self.kind() == kind {
            self.shown.length
        } else {
            0
        }
    }

    pub(crate) fn print(self, options: &raw::Options) -> raw::Printed {
        self.parsed.print(self.number, options)
    }
}

impl fmt::Display for Node<'_> {
    fn fmt(&self, f: &mut fmt::Formatter<'_>) -> fmt::Result {
        let indent = if f.alternate() { Indent::Spaces(2) } else { Indent::Compact };
        match self.print(&Options::new().indent(indent).raw()) {
            Ok(text) => f.write_str(&text),
            Err(_) => Err(fmt::Error),
        }
    }
}

impl fmt::Debug for Node<'_> {
    fn fmt(&self, f: &mut fmt::Formatter<'_>) -> fmt::Result {
        write!(f, "Node({self})")
    }
}
