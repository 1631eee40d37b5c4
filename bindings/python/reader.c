/* Reads a JSON text into Python objects by the calls of mezdruk.h. */
#define PY_SSIZE_T_CLEAN
#include <Python.h>
#include <stdbool.h>
#include <string.h>

#include "mezdruk.h"

/* A name that was read lately, so that it is not made again. */
enum { RECENT_NAMES = 128, RECENT_BYTES = 32 };

typedef struct {
    PyObject *name; /* or NULL */
    size_t length;
    char bytes[RECENT_BYTES];
} recent_name;

/* A document whose nodes are read in turn, which is the order of the text. */
typedef struct {
    mezdruk_document document;
    uint32_t next;         /* the node that is read next */
    PyObject *parse_int;   /* NULL for int */
    PyObject *parse_float; /* NULL for float */
    PyObject *object_hook; /* NULL for none */
    PyObject *names;       /* each name that was made: equal names share one object */
    recent_name recent[RECENT_NAMES];
} reader;

static PyObject *no_node(void)
{
    PyErr_SetString(PyExc_SystemError, "a document ends too early");
    return NULL;
}

/* ---- texts ---- */

/* Returns the text of a node where the document has it, with no zero after it. */
static const char *lend(reader *r, uint32_t node, size_t *length)
{
    const uint8_t *bytes;
    if (mezdruk_lend(&r->document, node, &bytes, length))
        return (const char *)bytes;
    no_node();
    return NULL;
}

static uint64_t word_at(const char *bytes)
{
    uint64_t word;
    memcpy(&word, bytes, 8);
    return word;
}

static uint64_t half_at(const char *bytes)
{
    uint32_t half;
    memcpy(&half, bytes, 4);
    return half;
}

/* Whether so many bytes, at least 2, are ASCII. The last block may overlap the one before it. */
static bool is_ascii(const char *bytes, size_t length)
{
    uint64_t all = 0;
    size_t i;
    if (length >= 8) {
        for (i = 0; i + 8 < length; i += 8)
            all |= word_at(bytes + i);
        all |= word_at(bytes + length - 8);
    } else if (length >= 4)
        all = half_at(bytes) | half_at(bytes + length - 4);
    else
        all = (uint8_t)(bytes[0] | bytes[1] | bytes[length - 1]);
    return !(all & 0x8080808080808080u);
}

/* Returns the object of a string: a copy of its bytes if it is ASCII, as most are. */
static PyObject *make_string(reader *r, uint32_t node)
{
    PyObject *made;
    size_t length;
    const char *bytes = lend(r, node, &length);
    if (!bytes)
        return NULL;
    if (length < 2 || !is_ascii(bytes, length))
        return PyUnicode_DecodeUTF8(bytes, (Py_ssize_t)length, NULL);
    made = PyUnicode_New((Py_ssize_t)length, 127);
    if (made)
        memcpy(PyUnicode_1BYTE_DATA(made), bytes, length);
    return made;
}

/* Returns the object of a name, and keeps it for equal names. */
static PyObject *shared_name(reader *r, const char *bytes, size_t length)
{
    PyObject *made = PyUnicode_DecodeUTF8(bytes, (Py_ssize_t)length, NULL), *shared;
    if (!made)
        return NULL;
    if (!r->names && !(r->names = PyDict_New())) {
        Py_DECREF(made);
        return NULL;
    }
    shared = PyDict_SetDefault(r->names, made, made);
    Py_XINCREF(shared);
    Py_DECREF(made);
    return shared;
}

/* Reads the next node as the name of a member. */
static PyObject *next_name(reader *r)
{
    PyObject *name;
    recent_name *recent;
    uint32_t hash = 2166136261u;
    size_t length, i;
    const char *bytes = lend(r, r->next++, &length);
    if (!bytes)
        return NULL;
    if (length > RECENT_BYTES)
        return shared_name(r, bytes, length);
    for (i = 0; i < length; i++)
        hash = (hash ^ (uint8_t)bytes[i]) * 16777619u;
    recent = &r->recent[(hash >> 8) % RECENT_NAMES];
    if (recent->name && recent->length == length && !memcmp(recent->bytes, bytes, length)) {
        Py_INCREF(recent->name);
        return recent->name;
    }
    name = shared_name(r, bytes, length);
    if (!name)
        return NULL;
    Py_INCREF(name);
    Py_XDECREF(recent->name);
    recent->name = name;
    recent->length = length;
    memcpy(recent->bytes, bytes, length);
    return name;
}

/* ---- numbers ---- */

/* Calls a function of the caller on a literal. */
static PyObject *parse_by(PyObject *function, const char *literal, size_t length)
{
    PyObject *made, *text = PyUnicode_FromStringAndSize(literal, (Py_ssize_t)length);
    if (!text)
        return NULL;
    made = PyObject_CallFunctionObjArgs(function, text, NULL);
    Py_DECREF(text);
    return made;
}

static bool is_integer(const char *literal, size_t length)
{
    return !memchr(literal, '.', length) && !memchr(literal, 'e', length)
        && !memchr(literal, 'E', length);
}

/* Returns the number of a literal that is no integer of 64 bits. */
static PyObject *make_literal(reader *r, uint32_t node)
{
    size_t length;
    double value;
    const char *literal = lend(r, node, &length);
    if (!literal)
        return NULL;
    if (is_integer(literal, length)) {
        PyObject *integer = r->parse_int ? r->parse_int : (PyObject *)&PyLong_Type;
        return parse_by(integer, literal, length);
    }
    if (r->parse_float)
        return parse_by(r->parse_float, literal, length);
    if (!mezdruk_real(&r->document, node, &value))
        value = *literal == '-' ? -Py_HUGE_VAL : Py_HUGE_VAL;
    return PyFloat_FromDouble(value);
}

static PyObject *make_number(reader *r, uint32_t node, const mezdruk_node *shown)
{
    char literal[24];
    int length;
    if (shown->form == MEZDRUK_LITERAL)
        return make_literal(r, node);
    if (!r->parse_int)
        return shown->form == MEZDRUK_NATURAL ? PyLong_FromUnsignedLongLong(shown->natural)
                                              : PyLong_FromLongLong(shown->negative);
    if (shown->form == MEZDRUK_NATURAL)
        length = PyOS_snprintf(literal, sizeof literal, "%llu", (unsigned long long)shown->natural);
    else
        length = PyOS_snprintf(literal, sizeof literal, "%lld", (long long)shown->negative);
    return parse_by(r->parse_int, literal, (size_t)length);
}

/* ---- values ---- */

static PyObject *next_value(reader *r);

static PyObject *make_list(reader *r, size_t length)
{
    PyObject *list = PyList_New((Py_ssize_t)length), *element;
    size_t i;
    for (i = 0; list && i < length; i++) {
        element = next_value(r);
        if (!element)
            Py_CLEAR(list);
        else
            PyList_SET_ITEM(list, (Py_ssize_t)i, element);
    }
    return list;
}

/* Of members of one name the last counts. The hook of the caller, if any, gets the dict. */
static PyObject *make_dict(reader *r, size_t length)
{
    PyObject *dict = PyDict_New(), *name, *value;
    size_t i;
    for (i = 0; dict && i < length; i++) {
        name = next_name(r);
        value = name ? next_value(r) : NULL;
        if (!value || PyDict_SetItem(dict, name, value))
            Py_CLEAR(dict);
        Py_XDECREF(name);
        Py_XDECREF(value);
    }
    if (!dict || !r->object_hook)
        return dict;
    value = PyObject_CallFunctionObjArgs(r->object_hook, dict, NULL);
    Py_DECREF(dict);
    return value;
}

/* Reads the next value. A document has at most 1,024 levels. */
static PyObject *next_value(reader *r)
{
    mezdruk_node shown;
    uint32_t node = r->next++;
    if (!mezdruk_read(&r->document, node, &shown))
        return no_node();
    switch (shown.kind) {
    case MEZDRUK_STRING:
        return make_string(r, node);
    case MEZDRUK_NUMBER:
        return make_number(r, node, &shown);
    case MEZDRUK_OBJECT:
        return make_dict(r, shown.length);
    case MEZDRUK_ARRAY:
        return make_list(r, shown.length);
    case MEZDRUK_BOOLEAN:
        return PyBool_FromLong(shown.boolean);
    }
    Py_RETURN_NONE;
}

/* ---- the call ---- */

/* Parses a text; other threads may run meanwhile if it is long. */
static mezdruk_status parse(reader *r, PyObject *text, const mezdruk_options *options,
                            mezdruk_fault *fault)
{
    const uint8_t *bytes = (const uint8_t *)PyBytes_AS_STRING(text);
    size_t length = (size_t)PyBytes_GET_SIZE(text);
    PyThreadState *state = length > 8192 ? PyEval_SaveThread() : NULL;
    mezdruk_status status = mezdruk_parse(bytes, length, options, &r->document, fault);
    if (state)
        PyEval_RestoreThread(state);
    return status;
}

/* Calls `fail`, which raises the error. */
static PyObject *raise_fault(PyObject *fail, mezdruk_status status, const mezdruk_fault *fault)
{
    PyObject *made = PyObject_CallFunction(
        fail, "iiKKKK", status, fault->code, (unsigned long long)fault->offset,
        (unsigned long long)fault->line, (unsigned long long)fault->column,
        (unsigned long long)fault->item);
    if (made)
        PyErr_SetString(PyExc_SystemError, "no error was raised");
    Py_XDECREF(made);
    return NULL;
}

static void clear(reader *r)
{
    size_t i;
    for (i = 0; i < RECENT_NAMES; i++)
        Py_XDECREF(r->recent[i].name);
    Py_XDECREF(r->names);
    mezdruk_free_document(&r->document);
    PyMem_Free(r);
}

static PyObject *read_text(PyObject *module, PyObject *const *arguments, Py_ssize_t count)
{
    mezdruk_options options = MEZDRUK_OPTIONS_INIT;
    mezdruk_fault fault = {0, 0, 0, 0, 0};
    mezdruk_status status;
    PyObject *value;
    reader *r;
    (void)module;
    if (count != 7 || !PyBytes_CheckExact(arguments[0])) {
        PyErr_SetString(PyExc_TypeError, "read takes bytes and six more arguments");
        return NULL;
    }
    options.depth = (uint32_t)PyLong_AsUnsignedLongMask(arguments[1]);
    options.unique_keys = arguments[2] == Py_True;
    if (PyErr_Occurred())
        return NULL;
    r = PyMem_Calloc(1, sizeof *r);
    if (!r)
        return PyErr_NoMemory();
    r->parse_int = arguments[3] == Py_None ? NULL : arguments[3];
    r->parse_float = arguments[4] == Py_None ? NULL : arguments[4];
    r->object_hook = arguments[5] == Py_None ? NULL : arguments[5];
    status = parse(r, arguments[0], &options, &fault);
    r->next = r->document.root;
    value = status == MEZDRUK_OK ? next_value(r) : raise_fault(arguments[6], status, &fault);
    clear(r);
    return value;
}

static PyMethodDef METHODS[] = {
    {"read", (PyCFunction)(void (*)(void))read_text, METH_FASTCALL,
     "read(text, depth, unique_keys, parse_int, parse_float, object_hook, fail)\n--\n\n"
     "Returns the value of a JSON text, or calls fail(status, code, offset, line, column, item)."},
    {NULL, NULL, 0, NULL},
};

static PyModuleDef MODULE = {
    PyModuleDef_HEAD_INIT, "mezdruk._reader", NULL, 0, METHODS, NULL, NULL, NULL, NULL,
};

PyMODINIT_FUNC PyInit__reader(void)
{
    return PyModuleDef_Init(&MODULE);
}
