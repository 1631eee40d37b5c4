//! Iterators over elements and members.

use crate::ffi::Parsed;
use crate::node::Node;
use std::fmt;
use std::iter::FusedIterator;

/// The elements of an array, in their order, which [`Node::elements`] returns.
#[derive(Clone)]
pub struct Elements<'d>(Children<'d>);

/// The names and the values of the members of an object, in their order, which [`Node::members`]
/// returns.
#[derive(Clone)]
pub struct Members<'d>(Children<'d>);

/// What is left of an array or an object. The nodes of a document are in the order of its text,
/// and a name is a node before its value.
#[derive(Clone, Copy)]
struct Children<'d> {
    parsed: &'d Parsed,
    next: u32,
    left: usize,
}

impl<'d> Children<'d> {
    fn of(parsed: &'d Parsed, parent: u32, count: usize) -> Children<'d> {
        Children { parsed, next: parent + 1, left: count }
    }

    /// Returns the number of the next value. A name is a node before it.
    fn advance(&mut self, names: u32) -> Option<u32> {
        self.left = self.left.checked_sub(1)?;
        let value = self.next + names;
        if self.left > 0 {
            self.next = self.parsed.after(value)?;
        }
        Some(value)
    }

    /// Returns the next value.
    fn take(&mut self, names: u32) -> Option<Node<'d>> {
        let value = self.advance(names)?;
        Node::at(self.parsed, value)
    }

    /// Returns the next name.
    fn name(&self) -> Option<&'d str> {
        if self.left == 0 {
            return None;
        }
        self.parsed.text(self.next)
    }
}

impl<'d> Elements<'d> {
    pub(crate) fn of(parsed: &'d Parsed, array: u32, count: usize) -> Elements<'d> {
        Elements(Children::of(parsed, array, count))
    }
}

impl<'d> Members<'d> {
    pub(crate) fn of(parsed: &'d Parsed, object: u32, count: usize) -> Members<'d> {
        Members(Children::of(parsed, object, count))
    }

    /// Returns the value of the first member with a name.
    pub(crate) fn find_name(self, name: &str) -> Option<Node<'d>> {
        let Members(mut children) = self;
        while let Some(next) = children.name() {
            let value = children.advance(1)?;
            if next == name {
                return Node::at(children.parsed, value);
            }
        }
        None
    }
}

impl<'d> Iterator for Elements<'d> {
    type Item = Node<'d>;

    fn next(&mut self) -> Option<Node<'d>> {
        self.0.take(0)
    }

    fn size_hint(&self) -> (usize, Option<usize>) {
        (self.0.left, Some(self.0.left))
    }
}

impl<'d> Iterator for Members<'d> {
    type Item = (&'d str, Node<'d>);

    fn next(&mut self) -> Option<(&'d str, Node<'d>)> {
        let name = self.0.name()?;
        Some((name, self.0.take(1)?))
    }

    fn size_hint(&self) -> (usize, Option<usize>) {
        (self.0.left, Some(self.0.left))
    }
}

impl ExactSizeIterator for Elements<'_> {}
impl ExactSizeIterator for Members<'_> {}
impl FusedIterator for Elements<'_> {}
impl FusedIterator for Members<'_> {}

impl fmt::Debug for Elements<'_> {
    fn fmt(&self, f: &mut fmt::Formatter<'_>) -> fmt::Result {
        f.debug_list().entries(self.clone()).finish()
    }
}

impl fmt::Debug for Members<'_> {
    fn fmt(&self, f: &mut fmt::Formatter<'_>) -> fmt::Result {
        f.debug_map().entries(self.clone()).finish()
    }
}
