/* Reads a sheet from a file, runs it, and prints what the program reduce_sheet prints.
 *
 *     make examples
 *     target/c/run examples/B.sheet
 */
#include "example.h"

static void print_step(unsigned number, const struct zomuwedli_record *record)
{
    printf("%u %s %u %u", number, zomuwedli_kind_text(record->kind), record->item, record->third);
    if (record->fields == 4) {
        printf(" %u", record->fourth);
    }
    printf("\n");
}

static void print_steps(const uint8_t *trace, size_t length)
{
    struct zomuwedli_record record;
    size_t at = ZOMUWEDLI_TRACE_FIRST;
    for (unsigned number = 1; zomuwedli_next_record(trace, length, &at, &record) == 1; number++) {
        print_step(number, &record);
    }
}

/* Byte 5 of a sheet is its number of items, and the sizes stand from byte 8 on. */
static unsigned size_sum(const uint8_t *sheet)
{
    unsigned sum = 0;
    for (unsigned i = 0; i < sheet[5]; i++) {
        sum += sheet[8 + i];
    }
    return sum;
}

static int print_run(const char *name, const uint8_t *sheet, size_t length)
{
    static const char *const ends[] = {"impossible", "solved", "rest"};
    uint8_t trace[ZOMUWEDLI_MAX_TRACE];
    uint8_t state[ZOMUWEDLI_STATE_LENGTH];
    uint64_t answer = zomuwedli_run(sheet, length, trace, sizeof trace, state, sizeof state);
    if (zomuwedli_number(answer) != 0) {
        return refuse(name, zomuwedli_number(answer));
    }
    printf("sheet %u %u\n", sheet[5], size_sum(sheet));
    print_steps(trace, zomuwedli_written(answer));
    printf("%s %u %u %u\n", ends[zomuwedli_end(answer)], zomuwedli_steps(answer), count_bits(zomuwedli_items_in(state)),
           count_settings(state));
    return DONE;
}

int main(int argc, char **argv)
{
    return on_sheet(argc, argv, print_run);
}
