//! Indexes, names and the tokens of JSON Pointers.

use crate::node::Node;
use std::borrow::Cow;

/// What [`Node::get`] looks for: a `usize` is the index of an element, and a `&str` the name of a
/// member.
pub trait Index: sealed::Find {}

mod sealed {
    use crate::node::Node;

    pub trait Find {
        fn find<'d>(&self, node: Node<'d>) -> Option<Node<'d>>;
    }
}

use sealed::Find;

impl Find for usize {
    fn find<'d>(&self, node: Node<'d>) -> Option<Node<'d>> {
        node.element(*self)
    }
}

impl Find for str {
    fn find<'d>(&self, node: Node<'d>) -> Option<Node<'d>> {
        node.member(self)
    }
}

impl Find for String {
    fn find<'d>(&self, node: Node<'d>) -> Option<Node<'d>> {
        node.member(self)
    }
}

impl<T: Find + ?Sized> Find for &T {
    fn find<'d>(&self, node: Node<'d>) -> Option<Node<'d>> {
        (**self).find(node)
    }
}

impl Index for usize {}
impl Index for str {}
impl Index for String {}
impl<T: Index + ?Sized> Index for &T {}

/// Returns the index that a token is (RFC 6901, section 4): digits without leading zeros.
pub(crate) fn index_of(token: &str) -> Option<usize> {
    match token.as_bytes() {
        [b'0'] => Some(0),
        [b'1'..=b'9', rest @ ..] if rest.iter().all(u8::is_ascii_digit) => token.parse().ok(),
        _ => None,
    }
}

/// Returns a token without its escapes (RFC 6901, section 3), or `None` if one is not valid.
pub(crate) fn unescaped(part: &str) -> Option<Cow<'_, str>> {
    if !part.contains('~') {
        return Some(part.into());
    }
    let mut pieces = part.split('~');
    let mut token = String::from(pieces.next()?);
    for piece in pieces {
        let (letter, rest) = match piece.as_bytes() {
            [b'0', ..] => ('~', &piece[1..]),
            [b'1', ..] => ('/', &piece[1..]),
            _ => return None,
        };
        token.push(letter);
        token.push_str(rest);
    }
    Some(token.into())
}
