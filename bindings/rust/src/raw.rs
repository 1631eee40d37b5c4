//! The numbers, the types and the calls of `mezdruk.h`.

use std::os::raw::c_void;
use std::ptr::{null, null_mut};

/// A status of success.
pub(crate) const OK: u8 = 0;
/// The statuses of failures; any other is that memory ran out.
pub(crate) const BAD_TEXT: u8 = 1;
pub(crate) const BAD_ARGUMENT: u8 = 2;
pub(crate) const NOT_APPLIED: u8 = 3;

/// What a fault has in place of an offset or an item that is not known.
pub(crate) const NONE: usize = usize::MAX;

/// The kinds of nodes; any other is an array.
pub(crate) const NULL: u8 = 0;
pub(crate) const BOOLEAN: u8 = 1;
pub(crate) const NUMBER: u8 = 2;
pub(crate) const STRING: u8 = 3;
pub(crate) const OBJECT: u8 = 4;

/// The forms of integers of 64 bits.
pub(crate) const NATURAL: u8 = 1;
pub(crate) const NEGATIVE: u8 = 2;

#[repr(C)]
#[derive(Default)]
pub(crate) struct Fault {
    pub(crate) offset: usize,
    pub(crate) line: usize,
    pub(crate) column: usize,
    pub(crate) item: usize,
    pub(crate) code: u8,
}

/// The status and the fault of a call that failed.
pub(crate) struct Failure {
    pub(crate) status: u8,
    pub(crate) fault: Fault,
}

/// What a call returns that makes a text.
pub(crate) type Printed = Result<String, Failure>;

/// Makes a call, and returns the failure that its status and its fault say.
pub(crate) fn called(call: impl FnOnce(&mut Fault) -> u8) -> Result<(), Failure> {
    let mut fault = Fault::default();
    match call(&mut fault) {
        OK => Ok(()),
        status => Err(Failure { status, fault }),
    }
}

#[repr(C)]
pub(crate) struct Options {
    pub(crate) depth: u32,
    pub(crate) unique_keys: u8,
    pub(crate) sort_keys: u8,
    pub(crate) indent: u8,
}

#[repr(C)]
#[derive(Clone, Copy, Default)]
pub(crate) struct Node {
    pub(crate) kind: u8,
    pub(crate) boolean: u8,
    pub(crate) form: u8,
    pub(crate) natural: u64,
    pub(crate) negative: i64,
    pub(crate) length: usize,
}

#[repr(C)]
pub(crate) struct Slice {
    pub(crate) bytes: *const u8,
    pub(crate) length: usize,
}

#[repr(C)]
struct Owner {
    full: bool,
    held: *mut c_void,
}

const NOTHING: Owner = Owner { full: false, held: null_mut() };

#[repr(C)]
pub(crate) struct Buffer {
    pub(crate) bytes: *const u8,
    pub(crate) length: usize,
    owner: Owner,
}

impl Buffer {
    pub(crate) const EMPTY: Buffer = Buffer { bytes: null(), length: 0, owner: NOTHING };
}

/// A document is at most as large as this, and one of zeros is empty.
#[repr(C)]
pub(crate) struct Document {
    pub(crate) root: u32,
    private: [*mut c_void; 3],
}

impl Document {
    pub(crate) const EMPTY: Document = Document { root: 0, private: [null_mut(); 3] };
}

/// A call that makes a text of a text and an argument.
#[rustfmt::skip]
pub(crate) type ChangeCall = unsafe extern "C" fn(text: *const u8, length: usize,
    argument: *const u8, argument_length: usize, options: &Options, output: &mut Buffer,
    fault: &mut Fault) -> u8;

/// A call that makes a text of a text and an argument, for the module that may call it.
#[derive(Clone, Copy)]
pub(crate) struct Change(pub(crate) ChangeCall);

pub(crate) const EDIT: Change = Change(mezdruk_edit);
pub(crate) const PATCH: Change = Change(mezdruk_patch);
pub(crate) const MERGE: Change = Change(mezdruk_merge);
pub(crate) const DIFF: Change = Change(mezdruk_diff);
pub(crate) const MERGE_DIFF: Change = Change(mezdruk_merge_diff);
pub(crate) const GET: Change = Change(mezdruk_get);

#[rustfmt::skip]
extern "C" {
    pub(crate) fn mezdruk_free(buffer: &mut Buffer);
    pub(crate) fn mezdruk_free_document(document: *mut Document);
    pub(crate) fn mezdruk_check(text: *const u8, length: usize, options: &Options,
        fault: &mut Fault) -> u8;
    pub(crate) fn mezdruk_edit(text: *const u8, length: usize, edits: *const u8,
        edits_length: usize, options: &Options, output: &mut Buffer, fault: &mut Fault) -> u8;
    pub(crate) fn mezdruk_patch(text: *const u8, length: usize, patch: *const u8,
        patch_length: usize, options: &Options, output: &mut Buffer, fault: &mut Fault) -> u8;
    pub(crate) fn mezdruk_merge(text: *const u8, length: usize, patch: *const u8,
        patch_length: usize, options: &Options, output: &mut Buffer, fault: &mut Fault) -> u8;
    pub(crate) fn mezdruk_get(text: *const u8, length: usize, pointer: *const u8,
        pointer_length: usize, options: &Options, output: &mut Buffer, fault: &mut Fault) -> u8;
    pub(crate) fn mezdruk_diff(text: *const u8, length: usize, target: *const u8,
        target_length: usize, options: &Options, output: &mut Buffer, fault: &mut Fault) -> u8;
    pub(crate) fn mezdruk_merge_diff(text: *const u8, length: usize, target: *const u8,
        target_length: usize, options: &Options, output: &mut Buffer, fault: &mut Fault) -> u8;
    pub(crate) fn mezdruk_lines(text: *const u8, length: usize, columns: *const u8,
        columns_length: usize, has: *const u8, has_length: usize, output: &mut Buffer,
        errors: &mut Buffer, fault: &mut Fault) -> u8;
    pub(crate) fn mezdruk_parse(text: *const u8, length: usize, options: &Options,
        document: *mut Document, fault: &mut Fault) -> u8;
    pub(crate) fn mezdruk_print(document: *mut Document, node: u32, options: &Options,
        output: &mut Buffer, fault: &mut Fault) -> u8;
    pub(crate) fn mezdruk_read(document: *mut Document, node: u32, shown: &mut Node) -> bool;
    pub(crate) fn mezdruk_element(document: *mut Document, node: u32, index: usize,
        element: &mut u32) -> bool;
    pub(crate) fn mezdruk_after(document: *mut Document, node: u32, after: &mut u32) -> bool;
    pub(crate) fn mezdruk_lend(document: *mut Document, node: u32, bytes: &mut *const u8,
        length: &mut usize) -> bool;
    pub(crate) fn mezdruk_version(version: &mut Slice);
    pub(crate) fn mezdruk_real(document: *mut Document, node: u32, number: &mut f64) -> bool;
}

#[cfg(test)]
mod tests {
    use super::{Buffer, Document, Fault, Node, Options, Slice};
    use std::mem::{forget, size_of};

    /// Returns the offset of a field.
    fn at<T, F>(it: &T, field: &F) -> usize {
        field as *const F as usize - it as *const T as usize
    }

    /// The numbers are those of layout.c, by which a C compiler checks the header.
    #[test]
    fn structs_are_as_in_c() {
        assert_eq!((size_of::<Fault>(), size_of::<Options>(), size_of::<Node>()), (40, 8, 32));
        assert_eq!((size_of::<Buffer>(), size_of::<Document>()), (32, 32));
        assert_eq!(size_of::<Slice>(), 16);
        let it = Fault::default();
        assert_eq!((at(&it, &it.line), at(&it, &it.column)), (8, 16));
        assert_eq!((at(&it, &it.item), at(&it, &it.code)), (24, 32));
        let it = Options { depth: 0, unique_keys: 0, sort_keys: 0, indent: 0 };
        assert_eq!((at(&it, &it.unique_keys), at(&it, &it.sort_keys)), (4, 5));
        assert_eq!(at(&it, &it.indent), 6);
        let it = Node::default();
        assert_eq!((at(&it, &it.boolean), at(&it, &it.form)), (1, 2));
        assert_eq!((at(&it, &it.natural), at(&it, &it.negative), at(&it, &it.length)), (8, 16, 24));
        let (buffer, document) = (Buffer::EMPTY, Document::EMPTY);
        assert_eq!((at(&buffer, &buffer.length), at(&document, &document.root)), (8, 0));
        forget(buffer);
    }
}
