/* Puts a lent trace back: from a sheet, a trace, whoever wrote it, and a plan for the items left, the plan of the full sheet. The plan is
 * named item by item, 255 for an item that is out. After `refused 17` stand the record's number, from 0, and the item where its cover
 * breaks and the setting that spoils it, or 255 and 255.
 *
 *     make examples
 *     target/c/put_back examples/B.sheet examples/B.trace 255 255
 */
#include "example.h"

/* One record more than the longest lawful trace has: the first fault of a longer file stands within it. */
enum { TRACE_ROOM = ZOMUWEDLI_MAX_TRACE + 5 };

struct lent {
    uint8_t sheet[SHEET_ROOM], trace[TRACE_ROOM], plan[ZOMUWEDLI_MAX_ITEMS + 1];
    size_t sheet_length, trace_length, plan_length;
};

/* A plan longer than every sheet asks for is cut to a byte too many, which is refused just so. */
static int read_plan(struct lent *lent, char **settings)
{
    for (; *settings != NULL; settings++) {
        uint64_t setting;
        if (!read_number(*settings, 255, &setting)) {
            return 0;
        }
        if (lent->plan_length < sizeof lent->plan) {
            lent->plan[lent->plan_length++] = (uint8_t)setting;
        }
    }
    return 1;
}

/* 17 says which record it is and, where a cover breaks, what spoils it. */
static int refuse_record(const char *name, uint64_t answer)
{
    unsigned number = zomuwedli_number(answer), record = zomuwedli_unlawful_record(answer);
    unsigned item = zomuwedli_unlawful_item(answer), setting = zomuwedli_unlawful_setting(answer);
    printf("refused %u %u %u %u\n", number, record, item, setting);
    fprintf(stderr, "sheet %s: refused %u: %s; it is record %u", name, number, zomuwedli_text(number), record);
    if (item != ZOMUWEDLI_NOT_NAMED) {
        fprintf(stderr, ", and at item %u setting %u spoils the cover", item, setting);
    }
    fprintf(stderr, "\n");
    return REFUSED;
}

/* The read check tells how long the result is: one byte for each item. */
static int print_put_back(const struct lent *lent, const char *name)
{
    uint8_t result[ZOMUWEDLI_MAX_ITEMS];
    uint64_t answer = zomuwedli_read(lent->sheet, lent->sheet_length);
    unsigned n = zomuwedli_items(answer);
    if (zomuwedli_number(answer) == 0) {
        answer = zomuwedli_put_back(lent->sheet, lent->sheet_length, lent->trace, lent->trace_length, lent->plan, lent->plan_length,
                                    result, n);
    }
    if (zomuwedli_number(answer) == ZOMUWEDLI_REFUSED_RECORD_UNLAWFUL) {
        return refuse_record(name, answer);
    }
    if (zomuwedli_number(answer) != 0) {
        return refuse(name, zomuwedli_number(answer));
    }
    print_plan(result, n);
    return DONE;
}

int main(int argc, char **argv)
{
    static struct lent lent;
    if (argc < 3 || !read_plan(&lent, argv + 3)) {
        return usage(argv[0], "SHEET TRACE [SETTING]...");
    }
    if (!read_file(argv[1], lent.sheet, sizeof lent.sheet, &lent.sheet_length)
        || !read_file(argv[2], lent.trace, sizeof lent.trace, &lent.trace_length)) {
        return FAILED;
    }
    return finish(print_put_back(&lent, argv[1]));
}
