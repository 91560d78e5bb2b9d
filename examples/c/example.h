/* What the six examples share: the exit status, reading files and numbers, and saying why a call was refused. */
#ifndef EXAMPLE_H
#define EXAMPLE_H

#include <errno.h>
#include <stdio.h>
#include <stdlib.h>

#include <zomuwedli.h>

/* The exit status of each example. Each but DONE has its reason on standard error. */
enum { DONE = 0, REFUSED = 1, USAGE = 2, FAILED = 3 };

/* One byte more than the longest sheet has, so that a longer file is turned away and not cut to a sheet. */
enum { SHEET_ROOM = ZOMUWEDLI_MAX_SHEET + 1 };

/* Reads the first `room` bytes of a file, or all of it where it is shorter. 1 where it was read. */
static inline int read_file(const char *name, uint8_t *bytes, size_t room, size_t *length)
{
    FILE *file = fopen(name, "rb");
    if (file == NULL) {
        perror(name);
        return 0;
    }
    *length = fread(bytes, 1, room, file);
    int failed = ferror(file);
    if (failed) {
        perror(name);
    }
    if (fclose(file) != 0 && !failed) {
        perror(name);
        failed = 1;
    }
    return !failed;
}

/* Reads a decimal number of digits only, not above `most`. 1 where the text is one. */
static inline int read_number(const char *text, uint64_t most, uint64_t *number)
{
    char *end;
    if (text[0] < '0' || text[0] > '9') {
        return 0;
    }
    errno = 0;
    unsigned long long value = strtoull(text, &end, 10);
    *number = value;
    return errno == 0 && *end == '\0' && value <= most;
}

static inline int usage(const char *program, const char *arguments)
{
    fprintf(stderr, "usage: %s %s\n", program, arguments);
    return USAGE;
}

/* Says on standard error why a call was refused; what it was made for is a sheet, a file or an item, by its name. */
static inline int explain(const char *what, const char *name, unsigned number)
{
    fprintf(stderr, "%s %s: refused %u: %s\n", what, name, number, zomuwedli_text(number));
    return REFUSED;
}

/* The same for a sheet, with the one line that is then printed. */
static inline int refuse(const char *sheet, unsigned number)
{
    printf("refused %u\n", number);
    return explain("sheet", sheet, number);
}

/* The status, once all that was printed is written. */
static inline int finish(int status)
{
    if (ferror(stdout) || fclose(stdout) != 0) {
        perror("standard output");
        return FAILED;
    }
    return status;
}

/* What a program does that is given one sheet and nothing else. */
static inline int on_sheet(int argc, char **argv, int (*print)(const char *name, const uint8_t *sheet, size_t length))
{
    static uint8_t sheet[SHEET_ROOM];
    size_t length;
    if (argc != 2) {
        return usage(argv[0], "SHEET");
    }
    if (!read_file(argv[1], sheet, sizeof sheet, &length)) {
        return FAILED;
    }
    return finish(print(argv[1], sheet, length));
}

static inline unsigned count_bits(uint32_t x)
{
    unsigned sum = 0;
    for (; x != 0; x >>= 1) {
        sum += x & 1;
    }
    return sum;
}

/* The settings on at all items in. An item that is out has none. */
static inline unsigned count_settings(const uint8_t *state)
{
    unsigned sum = 0;
    for (unsigned i = 0; i < ZOMUWEDLI_MAX_ITEMS; i++) {
        sum += count_bits(zomuwedli_settings_on(state, i));
    }
    return sum;
}

/* A plan of the full sheet: the setting of each item. */
static inline void print_plan(const uint8_t *plan, unsigned n)
{
    printf("plan");
    for (unsigned i = 0; i < n; i++) {
        printf(" %u", plan[i]);
    }
    printf("\n");
}

#endif
