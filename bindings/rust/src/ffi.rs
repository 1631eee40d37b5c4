//! The calls of `mezdruk.h`. This is the only module with `unsafe` code.
//!
//! The header says what a caller owes. Slices are not null and have at most 2^63 - 1 bytes. Only
//! the calls write to a buffer or a document, and dropping it frees it, once. A document stays in
//! its thread: the raw pointer in it makes it neither `Send` nor `Sync`.
#![allow(unsafe_code)]

use crate::raw::*;
use std::cell::UnsafeCell;
use std::ptr::null;
use std::slice::from_raw_parts;
use std::str::from_utf8_unchecked;

pub(crate) fn check(text: &[u8], options: &Options) -> Result<(), Failure> {
    // SAFETY: the pointers are those of a slice and of references.
    called(|fault| unsafe { mezdruk_check(text.as_ptr(), text.len(), options, fault) })
}

pub(crate) fn version() -> &'static str {
    let mut version = Slice { bytes: "".as_ptr(), length: 0 };
    // SAFETY: the pointer is that of a reference, and the text that it is written is never freed.
    unsafe {
        mezdruk_version(&mut version);
        from_utf8_unchecked(from_raw_parts(version.bytes, version.length))
    }
}

impl Change {
    /// Returns the text that the call makes.
    pub(crate) fn of(self, text: &[u8], argument: &[u8], options: &Options) -> Printed {
        let Change(call) = self;
        let (bytes, length) = (argument.as_ptr(), argument.len());
        let mut output = Buffer::EMPTY;
        called(|fault| {
            // SAFETY: the pointers are those of slices and of references; the output is empty.
            unsafe { call(text.as_ptr(), text.len(), bytes, length, options, &mut output, fault) }
        })?;
        Ok(output.to_text())
    }
}

/// Returns the rows and the errors of the lines of a text.
pub(crate) fn lines(text: &[u8], columns: &[u8], has: &[u8]) -> Result<[String; 2], Failure> {
    let (mut rows, mut errors) = (Buffer::EMPTY, Buffer::EMPTY);
    let (text, length) = (text.as_ptr(), text.len());
    let (columns, count) = (columns.as_ptr(), columns.len());
    let (has, steps) = (has.as_ptr(), has.len());
    called(|fault| {
        let (rows, errors) = (&mut rows, &mut errors);
        // SAFETY: the pointers are those of slices and of references; the buffers are empty.
        unsafe { mezdruk_lines(text, length, columns, count, has, steps, rows, errors, fault) }
    })?;
    Ok([rows.to_text(), errors.to_text()])
}

impl Buffer {
    /// Returns a copy of the text that a call that succeeded left.
    fn to_text(&self) -> String {
        if self.bytes.is_null() {
            return String::new();
        }
        // SAFETY: what calls write is UTF-8: JSON texts, and rows and errors of lines.
        unsafe { from_utf8_unchecked(from_raw_parts(self.bytes, self.length)) }.to_owned()
    }
}

impl Drop for Buffer {
    fn drop(&mut self) {
        // SAFETY: the buffer is empty, or what a call left.
        unsafe { mezdruk_free(self) }
    }
}

/// A parsed document, which the calls that read it write to while they run.
pub(crate) struct Parsed(UnsafeCell<Document>);

impl Parsed {
    pub(crate) fn parse(text: &[u8], options: &Options) -> Result<Parsed, Failure> {
        let parsed = Parsed(UnsafeCell::new(Document::EMPTY));
        called(|fault| {
            // SAFETY: the pointers are those of a slice, of references and of an empty document.
            unsafe { mezdruk_parse(text.as_ptr(), text.len(), options, parsed.0.get(), fault) }
        })?;
        Ok(parsed)
    }

    pub(crate) fn root(&self) -> u32 {
        // SAFETY: no call runs, so none writes.
        unsafe { (*self.0.get()).root }
    }

    /// Returns what a call that reads the document wrote, if it found it.
    fn found<T>(&self, mut it: T, call: impl FnOnce(*mut Document, &mut T) -> bool) -> Option<T> {
        call(self.0.get(), &mut it).then_some(it)
    }

    /// Returns what a node is, if there is such a node.
    pub(crate) fn read(&self, node: u32) -> Option<Node> {
        // SAFETY: the pointers are those of a document and of a reference.
        self.found(Node::default(), |of, it| unsafe { mezdruk_read(of, node, it) })
    }

    /// Returns the node of an element of an array.
    pub(crate) fn element(&self, array: u32, index: usize) -> Option<u32> {
        // SAFETY: as in `read`.
        self.found(0, |of, it| unsafe { mezdruk_element(of, array, index, it) })
    }

    /// Returns the node after a value and all that is below it.
    pub(crate) fn after(&self, value: u32) -> Option<u32> {
        // SAFETY: as in `read`.
        self.found(0, |of, it| unsafe { mezdruk_after(of, value, it) })
    }

    /// Returns the nearest double to a number, if it is finite.
    pub(crate) fn real(&self, number: u32) -> Option<f64> {
        // SAFETY: as in `read`.
        self.found(0.0, |of, it| unsafe { mezdruk_real(of, number, it) })
    }

    /// Returns a string, a name or a literal that is kept.
    pub(crate) fn text(&self, node: u32) -> Option<&str> {
        // SAFETY: as in `read`.
        let (bytes, length) = self.found((null(), 0), |of, (bytes, length)| unsafe {
            mezdruk_lend(of, node, bytes, length)
        })?;
        // SAFETY: the document has these bytes until it is freed, and they are UTF-8.
        Some(unsafe { from_utf8_unchecked(from_raw_parts(bytes, length)) })
    }

    pub(crate) fn print(&self, node: u32, options: &Options) -> Printed {
        let mut output = Buffer::EMPTY;
        // SAFETY: the pointers are those of a document and of references; the output is empty.
        called(|fault| unsafe { mezdruk_print(self.0.get(), node, options, &mut output, fault) })?;
        Ok(output.to_text())
    }
}

impl Drop for Parsed {
    fn drop(&mut self) {
        // SAFETY: the document is empty, or what a call left.
        unsafe { mezdruk_free_document(self.0.get()) }
    }
}
