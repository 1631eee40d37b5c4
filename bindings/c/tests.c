/* Calls each function of the library on worked rows, on damaged texts and with memory that runs out.
 * Run it under AddressSanitizer and UndefinedBehaviorSanitizer: ./tests ROWS. */
#include "tests.h"

/* ---- all calls on a text ---- */

static const char EDITS[] = "[[\"set\",[\"a\",0],{\"x\":[1.50]}],[\"remove\",[],\"b\"]]";
static const char PATCH[] =
    "[{\"op\":\"add\",\"path\":\"/a/0\",\"value\":{\"y\":-0}},"
    "{\"op\":\"move\",\"from\":\"/b\",\"path\":\"/c~1d\"},{\"op\":\"copy\",\"from\":\"/a\","
    "\"path\":\"/e\"},{\"op\":\"test\",\"path\":\"/a/0/y\",\"value\":-0}]";
static const char MERGE[] =
    "{\"a\":{\"z\":null,\"q\":[\"\\ud83d\\ude04\"]},\"b\":null}";
static const char POINTER[] = "/a/0";

static const char COLUMNS[] = "[[[\"a\",0],\"json\"],[[\"b\"],\"text\"],[[],\"int\"]]";
static const char ALL[] = "[]";

static const char *const ARGUMENTS[] = {EDITS, PATCH, MERGE, POINTER};

enum { ARGUMENT_COUNT = sizeof ARGUMENTS / sizeof *ARGUMENTS };

static const mezdruk_options PLAIN = MEZDRUK_OPTIONS_INIT;
static const mezdruk_options SORTED = {20, 1, 1, MEZDRUK_SPACES(3)};

/* What is lent of a node, and the double of a number, agree with what is copied of it. */
static void try_lent(mezdruk_document *document, uint32_t node, const mezdruk_node *shown)
{
    uint8_t *copy = __real_malloc(shown->length ? shown->length : 1);
    const uint8_t *lent = NULL;
    size_t copied = 0, length = 0;
    double number = 0;
    bool has_text = mezdruk_text(document, node, copy, shown->length, &copied);
    expect(mezdruk_lend(document, node, &lent, &length) == has_text, "a text is lent", (long)node);
    if (has_text)
        expect(length == copied && copied == shown->length && !memcmp(lent, copy, length),
               "the bytes that are lent", (long)node);
    else
        expect(!lent && !length, "nothing is lent", (long)node);
    if (mezdruk_real(document, node, &number) && shown->form == MEZDRUK_LITERAL) {
        char literal[64] = "";
        if (length < sizeof literal) {
            memcpy(literal, lent, length);
            expect(strtod(literal, NULL) == number, "the double of a literal", (long)node);
        }
    } else
        expect(shown->kind == MEZDRUK_NUMBER || number == 0, "the double of no number", (long)node);
    free(copy);
}

/* The names that are lent and copied of a member agree, and are those of the node before its
 * value. */
static void try_name(mezdruk_document *document, uint32_t node, size_t index, uint32_t value)
{
    const uint8_t *lent, *before;
    uint8_t copy[8];
    size_t length, copied, before_length;
    expect(mezdruk_name(document, node, index, copy, sizeof copy, &copied)
           && mezdruk_lend_name(document, node, index, &lent, &length) && length == copied
           && (length > sizeof copy || !memcmp(lent, copy, length)), "a name", (long)index);
    expect(mezdruk_lend(document, value - 1, &before, &before_length) && before == lent
           && before_length == length, "the node of a name", (long)index);
}

/* A member is found by its name, or one before it that has the same name. */
static void try_find(mezdruk_document *document, uint32_t node, uint32_t value)
{
    const uint8_t *name, *first;
    size_t length, first_length;
    uint32_t found = 0;
    expect(mezdruk_lend(document, value - 1, &name, &length)
           && mezdruk_find(document, node, name, length, &found) && found <= value
           && mezdruk_lend(document, found - 1, &first, &first_length) && first_length == length
           && !memcmp(first, name, length), "a member by its name", (long)value);
}

/* Reads each node below one, and returns how many there are. */
static long walk(mezdruk_document *document, uint32_t node, int levels)
{
    mezdruk_node shown;
    size_t i;
    uint32_t child, next = node + 1;
    long count = 1;
    if (!mezdruk_read(document, node, &shown))
        return 0;
    try_lent(document, node, &shown);
    for (i = 0; levels && i < shown.length; i++) {
        if (shown.kind == MEZDRUK_ARRAY && mezdruk_element(document, node, i, &child)) {
            expect(child == next, "the node of an element", (long)i);
            count += walk(document, child, levels - 1);
            expect(mezdruk_after(document, child, &next), "what is after an element", (long)i);
        }
        if (shown.kind == MEZDRUK_OBJECT && mezdruk_member(document, node, i, &child)) {
            expect(child == next + 1, "the node of a member", (long)i);
            try_name(document, node, i, child);
            if (i < 100)
                try_find(document, node, child);
            count += 1 + walk(document, child, levels - 1);
            expect(mezdruk_after(document, child, &next), "what is after a member", (long)i);
        }
    }
    if (levels)
        expect(next == node + count && mezdruk_after(document, node, &child) && child == next,
               "what is after a value", (long)node);
    expect(!mezdruk_element(document, node, shown.length, &child), "an element too many",
           (long)node);
    expect(!mezdruk_member(document, node, SIZE_MAX, &child), "a member too many", (long)node);
    return count;
}

static void read_document(bytes text, mezdruk_status expected, long where)
{
    mezdruk_document document = MEZDRUK_DOCUMENT_INIT;
    mezdruk_buffer output = MEZDRUK_BUFFER_INIT;
    mezdruk_fault fault;
    mezdruk_node shown;
    mezdruk_status status = mezdruk_parse(text.at, text.length, &PLAIN, &document, &fault);
    expect(status == expected || status == MEZDRUK_NO_MEMORY, "parse and check differ", where);
    if (status == MEZDRUK_OK) {
        uint32_t root = document.root, after = 7;
        expect(walk(&document, document.root, 300) > 0, "no root", where);
        expect(!mezdruk_read(&document, UINT32_MAX, &shown), "a node too many", where);
        expect(!mezdruk_after(&document, UINT32_MAX, &after) && after == 7, "after a node too many",
               where);
        expect(document.root == root, "reading moves the root", where);
        if (mezdruk_print(&document, document.root, &SORTED, &output, &fault) == MEZDRUK_OK)
            expect(output.length > 0, "an empty text", where);
    } else
        expect(!mezdruk_read(&document, 0, &shown), "a node of nothing", where);
    mezdruk_free(&output);
    mezdruk_free_document(&document);
    mezdruk_free_document(&document);
}

/* A result is a JSON text, or the call tells why there is none. */
static void expect_result(mezdruk_status status, mezdruk_buffer *output, long where)
{
    mezdruk_options deep = {1024, 0, 0, 0};
    mezdruk_fault fault;
    if (status == MEZDRUK_OK) {
        status = mezdruk_check(output->bytes, output->length, &deep, &fault);
        expect(status == MEZDRUK_OK || status == MEZDRUK_NO_MEMORY, "a result that is no text",
               where);
    } else
        expect(status <= 3 || status == MEZDRUK_NO_MEMORY, "an unknown status", where);
    mezdruk_free(output);
}

/* Changes a text by an argument in each way, compact and laid out. */
static void try_changes(bytes text, bytes argument, long where)
{
    const mezdruk_options *const options[] = {&PLAIN, &SORTED};
    mezdruk_buffer output = MEZDRUK_BUFFER_INIT;
    mezdruk_fault fault;
    size_t i, k;
    for (i = 0; i < CHANGE_COUNT; i++)
        for (k = 0; k < 2; k++)
            expect_result(CHANGES[i].call(text.at, text.length, argument.at, argument.length,
                                          options[k], &output, &fault), &output, where);
}

/* Filters a text by columns and a path. There are errors exactly if a line is bad. */
static mezdruk_status try_lines(bytes text, bytes columns, bytes has, long where)
{
    mezdruk_buffer output = MEZDRUK_BUFFER_INIT, errors = MEZDRUK_BUFFER_INIT;
    mezdruk_fault fault = {0, 0, 0, 0, 0};
    mezdruk_status status = mezdruk_lines(text.at, text.length, columns.at, columns.length, has.at,
                                          has.length, &output, &errors, &fault);
    expect(status == MEZDRUK_OK || status == MEZDRUK_BAD_ARGUMENT || status == MEZDRUK_NO_MEMORY,
           "the status of lines", where);
    if (status == MEZDRUK_OK) {
        expect(!output.length || output.bytes[output.length - 1] == '\n', "a row without an end",
               where);
        expect(!errors.length || errors.bytes[errors.length - 1] == '\n', "an error without an end",
               where);
    } else
        expect(!output.length && !errors.length && fault.code, "what failed lines leave", where);
    mezdruk_free(&output);
    mezdruk_free(&errors);
    return status;
}

static void try_text(const void *from, size_t length, long where)
{
    bytes text = copy_of(from, length);
    mezdruk_fault fault = {0, 0, 0, 0, 0};
    mezdruk_status status = mezdruk_check(text.at, length, &PLAIN, &fault);
    size_t i;
    expect(status <= 1 || status == MEZDRUK_NO_MEMORY, "the status of a check", where);
    if (status == MEZDRUK_BAD_TEXT && fault.offset != MEZDRUK_NONE)
        expect(fault.offset <= length && fault.line > 0, "the place of a fault", where);
    for (i = 0; i < ARGUMENT_COUNT; i++) {
        bytes argument = copy_of(ARGUMENTS[i], strlen(ARGUMENTS[i]));
        try_changes(text, argument, where);
        try_changes(argument, text, where);
        free(argument.at);
    }
    try_changes(text, text, where);
    if (status != MEZDRUK_NO_MEMORY)
        read_document(text, status, where);
    bytes columns = copy_of(COLUMNS, strlen(COLUMNS)), all = copy_of(ALL, strlen(ALL));
    try_lines(text, columns, all, where);
    try_lines(columns, text, all, where);
    try_lines(columns, columns, text, where);
    free(columns.at);
    free(all.at);
    free(text.at);
}

/* ---- damaged texts ---- */

static const char *const TEXTS[] = {
    "{\"a\": [1, -0, 1e400, {\"b\": null}], \"b\": \"\\ud83d\\ude04\\n\", \"\": true}",
    EDITS,
    PATCH,
    MERGE,
    " [18446744073709551615, -9223372036854775808, 18446744073709551616, \"\xc3\xa9\"] ",
};

static const uint8_t DAMAGE[] = {0, '"', '\\', '[', '}', ',', '0', 'e', 0x80, 0xc3, 0xff};

static long try_damaged(void)
{
    long count = 0;
    size_t i, k, d;
    for (i = 0; i < sizeof TEXTS / sizeof *TEXTS; i++) {
        size_t length = strlen(TEXTS[i]);
        uint8_t damaged[512];
        for (k = 0; k <= length; k++, count++)
            try_text(TEXTS[i], k, count);
        for (k = 0; k < length; k++)
            for (d = 0; d < sizeof DAMAGE; d++, count++) {
                memcpy(damaged, TEXTS[i], length);
                damaged[k] = DAMAGE[d];
                try_text(damaged, length, count);
            }
    }
    return count;
}

/* Texts of random pieces. */
static long try_random(long count)
{
    static const char *const PIECES[] = {"{", "}", "[", "]", ",", ":", "\"a\"", "\"\\u00e9\"", "1",
                                         "-0.5e3", "true", "null", " ", "\"", "\\ud800", "\xff"};
    uint64_t seed = 20;
    long i;
    for (i = 0; i < count; i++) {
        char text[256] = "";
        int pieces = (int)(i % 24);
        while (pieces--) {
            seed = seed * 6364136223846793005u + 1442695040888963407u;
            strcat(text, PIECES[(seed >> 33) % (sizeof PIECES / sizeof *PIECES)]);
        }
        try_text(text, strlen(text), i);
    }
    return count;
}

/* ---- memory that runs out at each request in turn ---- */

/* Calls until no request is refused, and returns how often. */
static long try_refused(change *call, bytes text, bytes argument, long where)
{
    mezdruk_buffer output = MEZDRUK_BUFFER_INIT;
    mezdruk_fault fault = {0, 0, 0, 0, 0};
    mezdruk_status status = MEZDRUK_NO_MEMORY;
    long requests;
    for (requests = 0; status == MEZDRUK_NO_MEMORY && requests < 1000; requests++) {
        requests_left = requests;
        status = call(text.at, text.length, argument.at, argument.length, &SORTED, &output, &fault);
        requests_left = -1;
        if (status == MEZDRUK_NO_MEMORY)
            expect(fault.code == MEZDRUK_CODE_NO_MEMORY && output.length == 0, "a refusal", where);
    }
    expect(status != MEZDRUK_NO_MEMORY, "memory that never suffices", where);
    expect_result(status, &output, where);
    return requests;
}

/* Lines that are good and bad, with each request refused in turn. */
static long refuse_lines(void)
{
    static const char LINES[] = "{\"a\": [1], \"b\": \"c\"}\n[\nx\n{\"a\": [{}]}";
    bytes text = copy_of(LINES, strlen(LINES)), columns = copy_of(COLUMNS, strlen(COLUMNS));
    bytes all = copy_of(ALL, strlen(ALL));
    mezdruk_status status = MEZDRUK_NO_MEMORY;
    long requests;
    for (requests = 0; status == MEZDRUK_NO_MEMORY && requests < 1000; requests++) {
        requests_left = requests;
        status = try_lines(text, columns, all, requests);
        requests_left = -1;
    }
    expect(status == MEZDRUK_OK && requests > 10, "lines with all memory", requests);
    free(text.at);
    free(columns.at);
    free(all.at);
    return requests;
}

static long try_refusals(void)
{
    bytes text = copy_of(TEXTS[0], strlen(TEXTS[0]));
    long count = 0, requests;
    size_t i, k;
    for (i = 0; i < CHANGE_COUNT; i++)
        for (k = 0; k < ARGUMENT_COUNT; k++) {
            bytes argument = copy_of(ARGUMENTS[k], strlen(ARGUMENTS[k]));
            count += try_refused(CHANGES[i].call, text, argument, (long)(10 * i + k));
            free(argument.at);
        }
    for (requests = 0; requests < 60; requests++, count++) {
        requests_left = requests;
        read_document(text, MEZDRUK_OK, requests);
        requests_left = -1;
    }
    count += refuse_lines();
    free(text.at);
    return count;
}

/* ---- numbers, and texts that do not fit ---- */

static void try_reals(void)
{
    static const struct {
        const char *text;
        bool finite;
        double number;
    } ROWS[] = {
        {"1.5", true, 1.5}, {"-0", true, -0.0}, {"0.1", true, 0.1}, {"12", true, 12},
        {"-7", true, -7}, {"1e400", false, 0}, {"-1e400", false, 0}, {"1e-400", true, 0},
        {"9007199254740993", true, 9007199254740992.0}, {"true", false, 0}, {"\"1\"", false, 0},
        {"18446744073709551615", true, 18446744073709551616.0}, {"[1]", false, 0},
    };
    size_t i;
    for (i = 0; i < sizeof ROWS / sizeof *ROWS; i++) {
        mezdruk_document document = MEZDRUK_DOCUMENT_INIT;
        mezdruk_fault fault;
        double number = 99;
        const uint8_t *text = (const uint8_t *)ROWS[i].text;
        expect(mezdruk_parse(text, strlen(ROWS[i].text), &PLAIN, &document, &fault) == MEZDRUK_OK,
               "a number", (long)i);
        expect(mezdruk_real(&document, document.root, &number) == ROWS[i].finite, "is it finite",
               (long)i);
        expect(number == (ROWS[i].finite ? ROWS[i].number : 99), "the nearest double", (long)i);
        mezdruk_free_document(&document);
    }
}

static void try_room(void)
{
    mezdruk_document document = MEZDRUK_DOCUMENT_INIT;
    mezdruk_fault fault;
    uint8_t copy[4] = {9, 9, 9, 9};
    size_t length = 0;
    const uint8_t *text = (const uint8_t *)"[\"abc\",1]";
    expect(mezdruk_parse(text, 9, &PLAIN, &document, &fault) == MEZDRUK_OK, "a string", 0);
    expect(mezdruk_text(&document, 1, copy, 2, &length) && length == 3 && copy[0] == 9,
           "no byte is written without room", 0);
    expect(mezdruk_text(&document, 1, copy, 4, &length) && !memcmp(copy, "abc\t", 4),
           "a text and no more is written", 0);
    length = 77;
    expect(!mezdruk_text(&document, 2, copy, 4, &length) && length == 77, "an integer has no text",
           0);
    mezdruk_free_document(&document);
}

/* ---- members by their names ---- */

static void try_members(void)
{
    static const struct {
        const char *name;
        uint32_t node, value;
    } ROWS[] = {
        {"a", 0, 2}, {"b", 0, 8}, {"", 0, 13}, {"c", 2, 4}, {"c", 0, 0}, {"A", 0, 0},
        {"ab", 0, 0}, {"a", 8, 0}, {"a", 5, 0}, {"a", 6, 0}, {"a", UINT32_MAX, 0},
    };
    mezdruk_document document = MEZDRUK_DOCUMENT_INIT;
    mezdruk_fault fault;
    const char *text = "{\"a\":{\"c\":1},\"a\":2,\"b\":[\"a\"],\"\\u0000\":3,\"\":4}";
    size_t i;
    expect(mezdruk_parse((const uint8_t *)text, strlen(text), &PLAIN, &document, &fault)
           == MEZDRUK_OK, "an object", 0);
    for (i = 0; i < sizeof ROWS / sizeof *ROWS; i++) {
        uint32_t value = 0;
        bool found = mezdruk_find(&document, ROWS[i].node, (const uint8_t *)ROWS[i].name,
                                  strlen(ROWS[i].name), &value);
        expect(found == (ROWS[i].value != 0) && value == ROWS[i].value, "a name", (long)i);
    }
    mezdruk_free_document(&document);
}

/* ---- names of codes ---- */

static void try_codes(void)
{
    static const struct {
        uint8_t code;
        const char *name;
    } ROWS[] = {
        {MEZDRUK_CODE_NO_MEMORY, "NoMemory"},
        {MEZDRUK_CODE_TOO_LARGE, "TooLarge"},
        {MEZDRUK_CODE_INVALID_UTF8, "InvalidUTF8"},
        {MEZDRUK_CODE_EOF_WHILE_PARSING, "EofWhileParsing"},
        {MEZDRUK_CODE_INVALID_LITERAL, "InvalidLiteral"},
        {MEZDRUK_CODE_INVALID_NUMBER, "InvalidNumber"},
        {MEZDRUK_CODE_EXPECTED_COLON, "ExpectedColon"},
        {MEZDRUK_CODE_EXPECTED_ARRAY_COMMA_OR_END, "ExpectedArrayCommaOrEnd"},
        {MEZDRUK_CODE_EXPECTED_OBJECT_COMMA_OR_END, "ExpectedObjectCommaOrEnd"},
        {MEZDRUK_CODE_EXPECT_OBJECT_KEY_OR_END, "ExpectObjectKeyOrEnd"},
        {MEZDRUK_CODE_TRAILING_COMMA, "TrailingComma"},
        {MEZDRUK_CODE_INVALID_JSON_VALUE, "InvalidJsonValue"},
        {MEZDRUK_CODE_CONTROL_CHARACTER, "ControlCharacter"},
        {MEZDRUK_CODE_INVALID_ESCAPE, "InvalidEscape"},
        {MEZDRUK_CODE_INVALID_SURROGATE, "InvalidSurrogate"},
        {MEZDRUK_CODE_TRAILING_CHARACTERS, "TrailingCharacters"},
        {MEZDRUK_CODE_RECURSION_LIMIT_EXCEEDED, "RecursionLimitExceeded"},
        {MEZDRUK_CODE_NOT_FOUND, "NotFound"},
        {MEZDRUK_CODE_TYPE_UNMATCHED, "TypeUnmatched"},
        {MEZDRUK_CODE_NUMBER_OUT_OF_RANGE, "NumberOutOfRange"},
        {MEZDRUK_CODE_DUPLICATE_KEY, "DuplicateKey"},
        {MEZDRUK_CODE_BAD_POINTER, "BadPointer"},
        {MEZDRUK_CODE_BAD_PATCH, "BadPatch"},
        {MEZDRUK_CODE_TEST_FAILED, "TestFailed"},
        {MEZDRUK_CODE_BAD_OPTIONS, "BadOptions"},
        {MEZDRUK_CODE_NO_MERGE_PATCH, "NoMergePatch"},
    };
    mezdruk_slice name = MEZDRUK_SLICE_INIT;
    size_t i, named = 0;
    int code;
    for (i = 0; i < sizeof ROWS / sizeof *ROWS; i++)
        expect(mezdruk_code_name(ROWS[i].code, &name) && name.length == strlen(ROWS[i].name)
               && !memcmp(name.bytes, ROWS[i].name, name.length), ROWS[i].name, (long)i);
    for (code = 0; code < 256; code++)
        named += mezdruk_code_name((uint8_t)code, &name);
    expect(named == sizeof ROWS / sizeof *ROWS, "how many codes have names", (long)named);
    mezdruk_version(&name);
    expect(name.length == 5 && !memcmp(name.bytes, "0.1.0", 5), "the version", 0);
}

/* ---- options ---- */

static void try_options(void)
{
    mezdruk_options options = {1025, 0, 0, 0};
    mezdruk_buffer output = MEZDRUK_BUFFER_INIT;
    mezdruk_fault fault;
    const uint8_t *text = (const uint8_t *)"[]";
    expect(mezdruk_check(text, 2, &options, &fault) == MEZDRUK_BAD_ARGUMENT
           && fault.code == MEZDRUK_CODE_BAD_OPTIONS, "too many levels", 0);
    options = (mezdruk_options){254, 0, 0, 11};
    expect(mezdruk_edit(text, 2, text, 2, &options, &output, &fault) == MEZDRUK_BAD_ARGUMENT
           && fault.code == MEZDRUK_CODE_BAD_OPTIONS, "no such indent", 0);
    options = (mezdruk_options){254, 255, 255, MEZDRUK_TABS};
    expect(mezdruk_edit(text, 2, text, 2, &options, &output, &fault) == MEZDRUK_OK
           && output.length == 2, "any number is true", 0);
    mezdruk_free(&output);
    expect(mezdruk_check(text, 0, &PLAIN, &fault) == MEZDRUK_BAD_TEXT && fault.offset == 0
           && fault.code == MEZDRUK_CODE_EOF_WHILE_PARSING, "no bytes", 0);
}

int main(int count, char **arguments)
{
    if (count != 2) {
        fprintf(stderr, "usage: tests ROWS\n");
        return 2;
    }
    printf("%ld rows\n", try_rows(arguments[1]));
    try_options();
    try_reals();
    try_room();
    try_members();
    try_codes();
    printf("%ld damaged texts\n", try_damaged());
    printf("%ld random texts\n", try_random(20000));
    printf("%ld refusals of memory\n", try_refusals());
    if (failures)
        fprintf(stderr, "tests: %ld failures\n", failures);
    return failures != 0;
}
