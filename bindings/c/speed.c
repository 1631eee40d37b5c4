/* The time of a call over a file: ./speed CALL FILE EDITS TIMES prints the processor seconds, the
 * least of so many calls. CALL is check, edit or parse. */
#include "mezdruk.h"

#include <stdio.h>
#include <stdlib.h>
#include <string.h>
#include <time.h>

static double now(void)
{
    struct timespec t;
    clock_gettime(CLOCK_PROCESS_CPUTIME_ID, &t);
    return (double)t.tv_sec + (double)t.tv_nsec * 1e-9;
}

/* Reads a file, or ends the process. */
static uint8_t *read_file(const char *path, size_t *length)
{
    FILE *file = fopen(path, "rb");
    uint8_t *text;
    long end;
    if (!file || fseek(file, 0, SEEK_END) || (end = ftell(file)) < 0)
        exit(2);
    rewind(file);
    text = malloc((size_t)end + 1);
    *length = (size_t)end;
    if (!text || fread(text, 1, *length, file) != *length)
        exit(2);
    fclose(file);
    return text;
}

static mezdruk_status call(char which, const uint8_t *text, size_t length, const char *edits)
{
    mezdruk_options options = MEZDRUK_OPTIONS_INIT;
    mezdruk_buffer output = MEZDRUK_BUFFER_INIT;
    mezdruk_document document = MEZDRUK_DOCUMENT_INIT;
    mezdruk_fault fault;
    mezdruk_status status;
    if (which == 'c')
        return mezdruk_check(text, length, &options, &fault);
    if (which == 'p')
        status = mezdruk_parse(text, length, &options, &document, &fault);
    else
        status = mezdruk_edit(text, length, (const uint8_t *)edits, strlen(edits), &options,
                              &output, &fault);
    mezdruk_free(&output);
    mezdruk_free_document(&document);
    return status;
}

int main(int count, char **arguments)
{
    double least = 1e9, start, spent;
    uint8_t *text;
    size_t length;
    int times;
    if (count != 5)
        return 2;
    text = read_file(arguments[2], &length);
    for (times = atoi(arguments[4]); times > 0; times--) {
        start = now();
        if (call(arguments[1][0], text, length, arguments[3]))
            return 1;
        spent = now() - start;
        least = spent < least ? spent : least;
    }
    printf("%.6f\n", least);
    free(text);
    return 0;
}
