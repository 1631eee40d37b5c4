/* Tries worked rows, in the form that rows.py writes. */
#include "tests.h"

/* A row of a change has no path and no errors; one of lines has no `call`. */
typedef struct {
    char name[16];
    change *call;
    unsigned status, code;
    long long offset, line, column, item;
    mezdruk_options options;
    bytes input, argument, output, has, errors;
} row;

static bytes read_hex(FILE *rows)
{
    size_t length = 0, room = 64;
    uint8_t *at = __real_malloc(room);
    unsigned byte;
    int c;
    while ((c = fgetc(rows)) == ' ')
        ;
    while (c != ' ' && c != '\n' && c != EOF && c != '.') {
        int d = fgetc(rows);
        char pair[3] = {(char)c, (char)d, 0};
        if (sscanf(pair, "%2x", &byte) != 1)
            abort();
        if (length == room)
            at = __real_realloc(at, room *= 2);
        at[length++] = (uint8_t)byte;
        c = fgetc(rows);
    }
    bytes read = copy_of(at, length);
    free(at);
    return read;
}

static bool read_row(FILE *rows, row *r)
{
    unsigned depth, unique, sort, indent;
    size_t i;
    if (fscanf(rows, "%15s %u %u %lld %lld %lld %lld %u %u %u %u", r->name, &r->status, &r->code,
               &r->offset, &r->line, &r->column, &r->item, &depth, &unique, &sort, &indent) != 11)
        return false;
    r->call = NULL;
    for (i = 0; i < CHANGE_COUNT; i++)
        if (!strcmp(CHANGES[i].name, r->name))
            r->call = CHANGES[i].call;
    if (!r->call && strcmp("lines", r->name))
        abort();
    r->options = (mezdruk_options){depth, (uint8_t)unique, (uint8_t)sort, (uint8_t)indent};
    r->input = read_hex(rows);
    r->argument = read_hex(rows);
    r->output = read_hex(rows);
    r->has = read_hex(rows);
    r->errors = read_hex(rows);
    return true;
}

static bool is_fault(const row *r, const mezdruk_fault *fault)
{
    if (r->status == MEZDRUK_BAD_ARGUMENT)
        return true;
    return fault->code == r->code
        && fault->offset == (r->offset < 0 ? MEZDRUK_NONE : (size_t)r->offset)
        && fault->line == (size_t)r->line && fault->column == (size_t)r->column
        && fault->item == (r->item < 0 ? MEZDRUK_NONE : (size_t)r->item);
}

/* A text is checked and parsed as it is read before it is changed. */
static void try_input(const row *r, long number)
{
    mezdruk_document document = MEZDRUK_DOCUMENT_INIT;
    mezdruk_buffer printed = MEZDRUK_BUFFER_INIT;
    mezdruk_fault fault = {0, 0, 0, 0, 0};
    mezdruk_status status = mezdruk_check(r->input.at, r->input.length, &r->options, &fault);
    if (r->status <= MEZDRUK_BAD_TEXT) {
        expect(status == r->status, "the status of check", number);
        expect(status == MEZDRUK_OK || is_fault(r, &fault), "the fault of check", number);
    }
    expect(mezdruk_parse(r->input.at, r->input.length, &r->options, &document, &fault) == status,
           "the status of parse", number);
    if (status == MEZDRUK_OK && r->status == MEZDRUK_OK && r->call == mezdruk_edit
        && r->argument.length == 2) {
        status = mezdruk_print(&document, document.root, &r->options, &printed, &fault);
        expect(status == MEZDRUK_OK && same(&printed, r->output), "the output of print", number);
    }
    mezdruk_free(&printed);
    mezdruk_free_document(&document);
}

static void try_row(const row *r, long number)
{
    mezdruk_buffer output = MEZDRUK_BUFFER_INIT;
    mezdruk_fault fault = {0, 0, 0, 0, 0};
    mezdruk_status status = r->call(r->input.at, r->input.length, r->argument.at,
                                    r->argument.length, &r->options, &output, &fault);
    expect(status == r->status, r->name, number);
    if (status == MEZDRUK_OK)
        expect(same(&output, r->output), "the output of a change", number);
    else
        expect(output.length == 0 && is_fault(r, &fault), "the fault of a change", number);
    try_input(r, number);
    mezdruk_free(&output);
}

static void try_lines_row(const row *r, long number)
{
    mezdruk_buffer output = MEZDRUK_BUFFER_INIT, errors = MEZDRUK_BUFFER_INIT;
    mezdruk_fault fault = {0, 0, 0, 0, 0};
    mezdruk_status status = mezdruk_lines(r->input.at, r->input.length, r->argument.at,
                                          r->argument.length, r->has.at, r->has.length, &output,
                                          &errors, &fault);
    expect(status == r->status, r->name, number);
    if (status == MEZDRUK_OK) {
        expect(same(&output, r->output), "the rows of lines", number);
        expect(same(&errors, r->errors), "the errors of lines", number);
    } else
        expect(!output.length && !errors.length && fault.code == r->code, "the fault of lines",
               number);
    mezdruk_free(&output);
    mezdruk_free(&errors);
}

long try_rows(const char *path)
{
    FILE *rows = fopen(path, "r");
    row r;
    long number = 0;
    if (!rows) {
        perror(path);
        exit(2);
    }
    while (read_row(rows, &r)) {
        number++;
        if (r.call)
            try_row(&r, number);
        else
            try_lines_row(&r, number);
        free(r.input.at);
        free(r.argument.at);
        free(r.output.at);
        free(r.has.at);
        free(r.errors.at);
    }
    fclose(rows);
    return number;
}
