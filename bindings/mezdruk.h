/* mezdruk.h: JSON (RFC 8259) checked, edited, patched and read by proved code.
 *
 * For C99 and later, and C++. Link with -lmezdruk.
 *
 * What a call does
 * ----------------
 * A text is a pointer and a length in bytes; it needs no zero at its end. A call returns its
 * status, MEZDRUK_OK or why it failed, and after a failure the fault says what is wrong and where.
 * The output of a failed call stays as it was.
 *
 * A result is a buffer: `length` bytes at `bytes`, with no zero after them. It stays until
 * mezdruk_free, or until it is the output of another call that succeeds, which frees what it had.
 *
 * A document is a parsed text. Its nodes are numbered in the order of the text, from `root` on, and
 * each name of an object is a node before its value. Calls that read a document leave it as it was,
 * but they write to the struct while they run.
 *
 * What you owe
 * ------------
 * The proofs hold if the caller does what is said here. Nothing tests it.
 *
 * - A struct begins as MEZDRUK_BUFFER_INIT, MEZDRUK_DOCUMENT_INIT or zeros, and only these calls
 *   write to it. Do not copy one and use both copies: free one of them, once.
 * - A pointer is not null and leads to as many bytes as the length says, at most 2^63 - 1. A length
 *   of 0 takes any pointer that is not null; "" will do.
 * - While a call runs, no other thread writes to the memory that it is given, and none reads what
 *   the call may write: the output, the fault, the document, the bytes. These do not overlap each
 *   other or the texts. The bytes of a buffer are read only.
 * - A document or a buffer is used by the thread that made it.
 * - The bytes that a document lends are read only, and only until it is freed or replaced.
 * - malloc, realloc and free are those of one allocator, and align as C says. No call is made from
 *   a signal handler, nor in the child of a fork of a process with threads.
 *
 * No call keeps a pointer into the memory of the caller after it returns. No call writes to a
 * global or a file, waits, or ends the process. If memory runs out, a call returns
 * MEZDRUK_NO_MEMORY.
 */
#ifndef MEZDRUK_H
#define MEZDRUK_H

#include <stddef.h>
#include <stdint.h>
#include <string.h>

#ifdef __cplusplus
extern "C" {
#else
#include <stdbool.h>
#endif

/* ---- statuses and faults ---- */

typedef uint8_t mezdruk_status;

enum {
    MEZDRUK_OK = 0,
    MEZDRUK_BAD_TEXT = 1,     /* the text is not valid */
    MEZDRUK_BAD_ARGUMENT = 2, /* the options are not valid, or an argument cannot be read */
    MEZDRUK_NOT_APPLIED = 3,  /* edits, a patch or a pointer do not apply, or there is no such
                               * node or merge patch */
    MEZDRUK_NO_MEMORY = 6     /* memory ran out */
};

/* What a fault has in place of an offset or an item that is not known. */
#define MEZDRUK_NONE SIZE_MAX

typedef struct mezdruk_fault {
    size_t offset; /* in bytes, of the text or of the argument, or MEZDRUK_NONE */
    size_t line;   /* from 1, or 0 */
    size_t column; /* in bytes, from 1, or 0 */
    size_t item;   /* the edit or the operation that does not apply, from 0, or MEZDRUK_NONE */
    uint8_t code;  /* one of those below */
} mezdruk_fault;

enum {
    MEZDRUK_CODE_NO_MEMORY = 1,
    MEZDRUK_CODE_TOO_LARGE = 3,
    MEZDRUK_CODE_INVALID_UTF8 = 4,
    MEZDRUK_CODE_EOF_WHILE_PARSING = 5,
    MEZDRUK_CODE_INVALID_LITERAL = 6,
    MEZDRUK_CODE_INVALID_NUMBER = 7,
    MEZDRUK_CODE_EXPECTED_COLON = 8,
    MEZDRUK_CODE_EXPECTED_ARRAY_COMMA_OR_END = 9,
    MEZDRUK_CODE_EXPECTED_OBJECT_COMMA_OR_END = 10,
    MEZDRUK_CODE_EXPECT_OBJECT_KEY_OR_END = 11,
    MEZDRUK_CODE_TRAILING_COMMA = 12,
    MEZDRUK_CODE_INVALID_JSON_VALUE = 13,
    MEZDRUK_CODE_CONTROL_CHARACTER = 14,
    MEZDRUK_CODE_INVALID_ESCAPE = 15,
    MEZDRUK_CODE_INVALID_SURROGATE = 16,
    MEZDRUK_CODE_TRAILING_CHARACTERS = 17,
    MEZDRUK_CODE_RECURSION_LIMIT_EXCEEDED = 18,
    MEZDRUK_CODE_NOT_FOUND = 19,
    MEZDRUK_CODE_TYPE_UNMATCHED = 20,
    MEZDRUK_CODE_NUMBER_OUT_OF_RANGE = 21,
    MEZDRUK_CODE_DUPLICATE_KEY = 25,
    MEZDRUK_CODE_BAD_POINTER = 29,
    MEZDRUK_CODE_BAD_PATCH = 30,
    MEZDRUK_CODE_TEST_FAILED = 31,
    MEZDRUK_CODE_BAD_OPTIONS = 32,
    MEZDRUK_CODE_NO_MERGE_PATCH = 33
};

/* ---- options ---- */

typedef struct mezdruk_options {
    uint32_t depth;      /* the most levels in the text, at most 1024; [] has 1 */
    uint8_t unique_keys; /* 0 if names may repeat in an object */
    uint8_t sort_keys;   /* 0 if members keep their order */
    uint8_t indent;      /* MEZDRUK_COMPACT, MEZDRUK_SPACES(n) or MEZDRUK_TABS */
} mezdruk_options;

#define MEZDRUK_COMPACT 0
#define MEZDRUK_SPACES(n) ((uint8_t)(1 + (n))) /* n from 0 to 8 */
#define MEZDRUK_TABS 10

/* 254 levels, names that may repeat, members in their order, no whitespace. */
#define MEZDRUK_OPTIONS_INIT {254, 0, 0, MEZDRUK_COMPACT}

/* ---- what calls hand out ---- */

/* Private to the library. */
typedef struct mezdruk_owner {
    bool full;
    void *held;
} mezdruk_owner;

typedef struct mezdruk_buffer {
    const uint8_t *bytes; /* of no meaning if there are none */
    size_t length;
    mezdruk_owner owner;
} mezdruk_buffer;

#define MEZDRUK_BUFFER_INIT {0, 0, {0, 0}}

typedef struct mezdruk_document {
    uint32_t root; /* the node of the whole value */
    mezdruk_owner owner;
} mezdruk_document;

#define MEZDRUK_DOCUMENT_INIT {0, {0, 0}}

/* Bytes that stay for ever. There is no zero after them. */
typedef struct mezdruk_slice {
    const uint8_t *bytes; /* not null, also before a call that writes it */
    size_t length;
} mezdruk_slice;

#define MEZDRUK_SLICE_INIT {(const uint8_t *)"", 0}

/* Frees the bytes of a buffer, or a document. Both are empty then; to free an empty one does
 * nothing. */
void mezdruk_free(mezdruk_buffer *buffer);
void mezdruk_free_document(mezdruk_document *document);

/* The version of the library, such as 0.1.0. */
void mezdruk_version(mezdruk_slice *version);

/* The name of a fault's code, such as EofWhileParsing. Returns false, and writes nothing, if the
 * number is no code. */
bool mezdruk_code_name(uint8_t code, mezdruk_slice *name);

/* ---- texts ---- */

/* Whether the bytes are a JSON text by the rules of the options. */
mezdruk_status mezdruk_check(const uint8_t *text, size_t length, const mezdruk_options *options,
                             mezdruk_fault *fault);

/* Each of these returns the text of a result in `output`, laid out as the options ask. */

/* Applies edits, such as [["set",["a",0],1],["remove",[],"b"]], in turn. The status is
 * MEZDRUK_BAD_ARGUMENT if they are not edits, and MEZDRUK_NOT_APPLIED, with the number of the
 * edit, if one does not apply. */
mezdruk_status mezdruk_edit(const uint8_t *text, size_t length, const uint8_t *edits,
                            size_t edits_length, const mezdruk_options *options,
                            mezdruk_buffer *output, mezdruk_fault *fault);

/* Applies a JSON Patch (RFC 6902). The status is MEZDRUK_BAD_ARGUMENT if the patch is not a JSON
 * text, and MEZDRUK_NOT_APPLIED if it is no patch, or, with the number of the operation, if one is
 * not valid or does not apply. */
mezdruk_status mezdruk_patch(const uint8_t *text, size_t length, const uint8_t *patch,
                             size_t patch_length, const mezdruk_options *options,
                             mezdruk_buffer *output, mezdruk_fault *fault);

/* Applies a JSON Merge Patch (RFC 7396). The status is MEZDRUK_BAD_ARGUMENT if it is not a JSON
 * text; every other one applies. */
mezdruk_status mezdruk_merge(const uint8_t *text, size_t length, const uint8_t *patch,
                             size_t patch_length, const mezdruk_options *options,
                             mezdruk_buffer *output, mezdruk_fault *fault);

/* The text of the value that a JSON Pointer (RFC 6901) references. The status is
 * MEZDRUK_BAD_ARGUMENT if the pointer is not UTF-8, and MEZDRUK_NOT_APPLIED if it is not a pointer
 * (MEZDRUK_CODE_BAD_POINTER) or references nothing (MEZDRUK_CODE_NOT_FOUND). */
mezdruk_status mezdruk_get(const uint8_t *text, size_t length, const uint8_t *pointer,
                           size_t pointer_length, const mezdruk_options *options,
                           mezdruk_buffer *output, mezdruk_fault *fault);

/* The patch (RFC 6902) that leads from a text to another: mezdruk_patch makes of the first what is
 * the same as the second, and the patch is [] exactly if the two are the same. Both texts are read
 * by the options. The status is MEZDRUK_BAD_ARGUMENT if the target is not a JSON text. */
mezdruk_status mezdruk_diff(const uint8_t *text, size_t length, const uint8_t *target,
                            size_t target_length, const mezdruk_options *options,
                            mezdruk_buffer *output, mezdruk_fault *fault);

/* The same with a merge patch (RFC 7396). Not every value can be made by one: the status is
 * MEZDRUK_NOT_APPLIED if a member of the target that the text has not is null, or if a name repeats
 * in one of two objects that differ. */
mezdruk_status mezdruk_merge_diff(const uint8_t *text, size_t length, const uint8_t *target,
                                  size_t target_length, const mezdruk_options *options,
                                  mezdruk_buffer *output, mezdruk_fault *fault);

/* ---- JSON Lines ---- */

/* A row for each line of the text, in `output`. The columns are a JSON array of 1 to 64 columns
 * [path, kind], such as [[["id"],"int"],[["tags",0],"text"]]. A kind is "text", "int", "bool" or
 * "json". A row is the texts of the values at the paths, with tabs between them, a newline at the
 * end, and - where there is no value of the kind. `has` is a path: a line without a value there has
 * no row. Each line has a value at the path [].
 *
 * Lines of whitespace alone are skipped. A line is bad if it has more than 1,048,576 bytes or is
 * not a JSON text of at most 254 levels. It has no row, and `errors` gets its number, counted from
 * 1, a colon, a space, its error and a newline. So `errors` has no bytes exactly if no line is bad.
 *
 * The status is MEZDRUK_BAD_ARGUMENT if the columns or the path are others, or not UTF-8, and
 * MEZDRUK_BAD_TEXT if the text has more than 4,294,967,295 bytes; the output and the errors stay
 * then. The two are different buffers. */
mezdruk_status mezdruk_lines(const uint8_t *text, size_t length, const uint8_t *columns,
                             size_t columns_length, const uint8_t *has, size_t has_length,
                             mezdruk_buffer *output, mezdruk_buffer *errors,
                             mezdruk_fault *fault);

/* ---- documents ---- */

enum {
    MEZDRUK_NULL = 0,
    MEZDRUK_BOOLEAN = 1,
    MEZDRUK_NUMBER = 2,
    MEZDRUK_STRING = 3,
    MEZDRUK_OBJECT = 4,
    MEZDRUK_ARRAY = 5
};

enum {
    MEZDRUK_LITERAL = 0, /* a number that is no integer of 64 bits: mezdruk_text has its literal */
    MEZDRUK_NATURAL = 1, /* an integer from 0 to 2^64 - 1, in `natural` */
    MEZDRUK_NEGATIVE = 2 /* an integer from -2^63 to -1, in `negative` */
};

typedef struct mezdruk_node {
    uint8_t kind;     /* MEZDRUK_NULL .. MEZDRUK_ARRAY */
    uint8_t boolean;  /* 1 for true */
    uint8_t form;     /* of a number: MEZDRUK_LITERAL, MEZDRUK_NATURAL or MEZDRUK_NEGATIVE */
    uint64_t natural;
    int64_t negative;
    size_t length;    /* elements, members, or bytes of a string or a literal */
} mezdruk_node;

/* Parses a text. The document has no pointer into it. */
mezdruk_status mezdruk_parse(const uint8_t *text, size_t length, const mezdruk_options *options,
                             mezdruk_document *document, mezdruk_fault *fault);

/* Each call from here to mezdruk_name returns false, and writes nothing, if there is no such node,
 * element, member or text. An element or a member takes `index` steps. */
bool mezdruk_read(mezdruk_document *document, uint32_t node, mezdruk_node *shown);
bool mezdruk_element(mezdruk_document *document, uint32_t node, size_t index, uint32_t *element);
bool mezdruk_member(mezdruk_document *document, uint32_t node, size_t index, uint32_t *value);

/* The node after the value at a node and all that is below it, in one step. So all of a value is
 * read in as many steps as it has nodes: the first element of an array is the node after the
 * array's, and each further one is that after the one before. The first name of an object is the
 * node after the object's, its value comes next, and each further name is the node after the value
 * before it. How many there are is the `length` that mezdruk_read writes: the last one is followed
 * by what is after the whole value, which need not be a node. */
bool mezdruk_after(mezdruk_document *document, uint32_t node, uint32_t *after);

/* The double nearest to a number, of two that are equally near the even one. It is false if that is
 * not finite, and for any value that is not a number. */
bool mezdruk_real(mezdruk_document *document, uint32_t node, double *number);

/* The bytes of a string or a name, or of the literal of a number that is no integer of 64 bits, as
 * they are in the document: `*length` bytes at `*bytes`, with no zero after them. They stay until
 * the document is freed, or until it is the output of another call that succeeds. */
bool mezdruk_lend(mezdruk_document *document, uint32_t node, const uint8_t **bytes,
                  size_t *length);

/* The name of a member, lent in the same way. */
bool mezdruk_lend_name(mezdruk_document *document, uint32_t node, size_t index,
                       const uint8_t **bytes, size_t *length);

/* The same bytes as mezdruk_lend lends, copied to `bytes`. `*length` is the length of the text; no
 * byte is written if there is no room for it. */
bool mezdruk_text(mezdruk_document *document, uint32_t node, uint8_t *bytes, size_t room,
                  size_t *length);

/* The name of a member, copied in the same way. */
bool mezdruk_name(mezdruk_document *document, uint32_t node, size_t index, uint8_t *bytes,
                  size_t room, size_t *length);

/* The text of the value at a node. Its status is MEZDRUK_NOT_APPLIED if there is no such node. */
mezdruk_status mezdruk_print(mezdruk_document *document, uint32_t node,
                             const mezdruk_options *options, mezdruk_buffer *output,
                             mezdruk_fault *fault);

/* The value of the first member of an object that has this name, of `length` bytes of UTF-8. It
 * takes a step for each member up to that one. Returns false, and writes nothing, if the node is no
 * object or has no such member. This function is C over the calls above, and is tested, not proved. */
static inline bool mezdruk_find(mezdruk_document *document, uint32_t node, const uint8_t *name,
                                size_t length, uint32_t *value)
{
    mezdruk_node object;
    const uint8_t *bytes;
    size_t left, count;
    uint32_t member = node + 1; /* the node of a name, which is before that of its value */

    if (!mezdruk_read(document, node, &object) || object.kind != MEZDRUK_OBJECT)
        return false;
    for (left = object.length; left > 0; left--) {
        if (!mezdruk_lend(document, member, &bytes, &count))
            return false;
        if (count == length && memcmp(bytes, name, length) == 0) {
            *value = member + 1;
            return true;
        }
        if (!mezdruk_after(document, member + 1, &member))
            return false;
    }
    return false;
}

#ifdef __cplusplus
}
#endif

#endif
