/* What the tests of the library share. */
#include "tests.h"

/* ---- memory that runs out: the linker hands each request of the library to these ---- */

long requests_left = -1;

/* Only the linker calls these. */
void *__wrap_malloc(size_t size);
void *__wrap_realloc(void *block, size_t size);

static bool refuses(void)
{
    if (requests_left < 0)
        return false;
    if (requests_left == 0)
        return true;
    requests_left--;
    return false;
}

void *__wrap_malloc(size_t size) { return refuses() ? NULL : __real_malloc(size); }

void *__wrap_realloc(void *block, size_t size)
{
    return refuses() ? NULL : __real_realloc(block, size);
}

/* ---- what the tests share ---- */

long failures;

void expect(bool holds, const char *what, long where)
{
    if (holds)
        return;
    failures++;
    if (failures <= 20)
        fprintf(stderr, "tests: %s (%ld)\n", what, where);
}

bytes copy_of(const void *from, size_t length)
{
    bytes copy = {__real_malloc(length ? length : 1), length};
    if (!copy.at)
        abort();
    memcpy(copy.at, from, length);
    return copy;
}

bool same(const mezdruk_buffer *buffer, bytes text)
{
    return buffer->length == text.length
        && (text.length == 0 || memcmp(buffer->bytes, text.at, text.length) == 0);
}

/* ---- the calls that make a text of a text and an argument ---- */

const named_change CHANGES[CHANGE_COUNT] = {
    {"edit", mezdruk_edit},
    {"patch", mezdruk_patch},
    {"merge", mezdruk_merge},
    {"diff", mezdruk_diff},
    {"merge_diff", mezdruk_merge_diff},
    {"get", mezdruk_get},
};
