/* What the tests of the library share. */
#ifndef TESTS_H
#define TESTS_H

#include "mezdruk.h"

#include <stdio.h>
#include <stdlib.h>
#include <string.h>

/* What the linker hands each request of the library to, and how many requests still succeed: all of
 * them if it is negative. */
void *__real_malloc(size_t size);
void *__real_realloc(void *block, size_t size);
extern long requests_left;

/* How many expectations failed. */
extern long failures;

void expect(bool holds, const char *what, long where);

/* Bytes in a block of their own length, so that a read past them is seen. */
typedef struct {
    uint8_t *at;
    size_t length;
} bytes;

bytes copy_of(const void *from, size_t length);
bool same(const mezdruk_buffer *buffer, bytes text);

/* A call that changes a text, takes a part of it, or makes a patch from it to another. */
typedef mezdruk_status change(const uint8_t *text, size_t length, const uint8_t *argument,
                              size_t argument_length, const mezdruk_options *options,
                              mezdruk_buffer *output, mezdruk_fault *fault);

enum { CHANGE_COUNT = 6 };

typedef struct {
    const char *name;
    change *call;
} named_change;

extern const named_change CHANGES[CHANGE_COUNT];

/* Tries the worked rows of a file, and returns how many there are. */
long try_rows(const char *path);

#endif
