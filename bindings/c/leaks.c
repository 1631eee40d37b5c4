/* Makes a million calls, and looks whether memory stays flat. */
#include "mezdruk.h"

#include <malloc.h>
#include <stdio.h>
#include <string.h>

static const char TEXT[] = "{\"a\": [1, -0, 1e400, {\"b\": null}], \"b\": \"\\n\", \"\": true}";
static const char EDITS[] = "[[\"set\",[\"a\",0],{\"x\":[1.50]}]]";
static const char UNFIT[] = "[[\"set\",[\"c\",0],1]]";
static const char PATCH[] = "[{\"op\":\"copy\",\"from\":\"/a\",\"path\":\"/c\"}]";
static const char FAILS[] = "[{\"op\":\"test\",\"path\":\"/a/0\",\"value\":2}]";
static const char MERGE[] = "{\"a\":{\"z\":[1.50]},\"b\":null}";

static const char COLUMNS[] = "[[[\"a\",1],\"json\"]]";

static const uint8_t *bytes(const char *text) { return (const uint8_t *)text; }

static void calls(int count)
{
    mezdruk_options options = MEZDRUK_OPTIONS_INIT;
    mezdruk_buffer output = MEZDRUK_BUFFER_INIT, errors = MEZDRUK_BUFFER_INIT;
    mezdruk_document document = MEZDRUK_DOCUMENT_INIT;
    mezdruk_fault fault;
    const uint8_t *text = bytes(TEXT);
    size_t length = strlen(TEXT);
    int i;
    for (i = 0; i < count; i += 12) {
        if (i % 12000 == 0)
            mezdruk_lines(text, length, bytes(COLUMNS), strlen(COLUMNS), bytes("[]"), 2, &output,
                          &errors, &fault);
        mezdruk_diff(text, length, bytes(MERGE), strlen(MERGE), &options, &output, &fault);
        mezdruk_merge_diff(text, length, bytes(MERGE), strlen(MERGE), &options, &output, &fault);
        mezdruk_check(text, length - (size_t)(i / 12 % 2), &options, &fault);
        mezdruk_edit(text, length, bytes(EDITS), strlen(EDITS), &options, &output, &fault);
        mezdruk_edit(text, length, bytes(UNFIT), strlen(UNFIT), &options, &output, &fault);
        mezdruk_patch(text, length, bytes(PATCH), strlen(PATCH), &options, &output, &fault);
        mezdruk_patch(text, length, bytes(FAILS), strlen(FAILS), &options, &output, &fault);
        mezdruk_merge(text, length, bytes(MERGE), strlen(MERGE), &options, &output, &fault);
        mezdruk_get(text, length, bytes("/a/3"), 4, &options, &output, &fault);
        mezdruk_get(text, length, bytes("/c"), 2, &options, &output, &fault);
        mezdruk_parse(text, length, &options, &document, &fault);
        mezdruk_print(&document, document.root, &options, &output, &fault);
    }
    mezdruk_free(&output);
    mezdruk_free(&errors);
    mezdruk_free_document(&document);
}

int main(void)
{
    size_t before, after;
    calls(1000);
    before = mallinfo2().uordblks;
    calls(1000000);
    after = mallinfo2().uordblks;
    printf("%zu bytes in use before a million calls, %zu after\n", before, after);
    return after > before;
}
