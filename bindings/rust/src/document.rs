//! Parsed texts.

use crate::error::Error;
use crate::ffi::Parsed;
use crate::node::Node;
use crate::options::Options;
use std::fmt;
use std::str::FromStr;

/// A parsed JSON text. It keeps nothing of the text that it was read from.
///
/// ```
/// use mezdruk::Document;
///
/// let document = Document::parse(r#"{"name": "Ada", "born": [1815, 12.10]}"#)?;
/// let root = document.root();
/// assert_eq!(root.get("name").and_then(|name| name.as_str()), Some("Ada"));
/// assert_eq!(root.pointer("/born/1").unwrap().literal().unwrap(), "12.10");
/// assert_eq!(document.to_string(), r#"{"name":"Ada","born":[1815,12.10]}"#);
/// # Ok::<(), mezdruk::Error>(())
/// ```
///
/// A document is used by the thread that made it, as the C library asks: it is neither `Sync` nor
/// `Send`. Another thread can have its text.
///
/// ```compile_fail,E0277
/// fn shares<T: Sync>() {}
/// shares::<mezdruk::Document>();
/// ```
///
/// ```compile_fail,E0277
/// fn sends<T: Send>() {}
/// sends::<mezdruk::Document>();
/// ```
///
/// Its nodes cannot be used after it:
///
/// ```compile_fail,E0597
/// let name = {
///     let document = mezdruk::Document::parse(r#"["Ada"]"#).unwrap();
///     document.root().get(0).unwrap().as_str()
/// };
/// assert_eq!(name, Some("Ada"));
/// ```
pub struct Document(Parsed);

impl Document {
    /// Parses a text of at most 254 levels.
    pub fn parse(text: impl AsRef<[u8]>) -> Result<Document, Error> {
        Options::new().parse(text)
    }

    pub(crate) fn of(parsed: Parsed) -> Document {
        Document(parsed)
    }

    /// Returns the node of the whole value.
    pub fn root(&self) -> Node<'_> {
        Node::at(&self.0, self.0.root()).expect("a parsed document has a root")
    }
}

impl FromStr for Document {
    type Err = Error;

    fn from_str(text: &str) -> Result<Document, Error> {
        Document::parse(text)
    }
}

impl fmt::Display for Document {
    fn fmt(&self, f: &mut fmt::Formatter<'_>) -> fmt::Result {
        self.root().fmt(f)
    }
}

impl fmt::Debug for Document {
    fn fmt(&self, f: &mut fmt::Formatter<'_>) -> fmt::Result {
        write!(f, "Document({})", self.root())
    }
}
