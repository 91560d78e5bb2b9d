/* Takes items out by hand: starts, makes a hand call for each item named, in turn, and prints what each answered and the state left. A
 * refused call leaves the state as it was, and the next one goes on from there.
 *
 *     make examples
 *     target/c/hand examples/F.sheet 0 2
 *
 * A line for each call, `hand ITEM setting V` or `hand ITEM refused NUMBER`; then `left`, the number of items in and of settings on; then,
 * for each item in, `item I on` and its settings on. A sheet that is refused prints `refused NUMBER` alone.
 */
#include "example.h"

struct lent {
    const uint8_t *sheet;
    size_t length;
    uint8_t state[ZOMUWEDLI_HAND_STATE_LENGTH];
};

/* The item is printed as it was named. */
static int print_call(struct lent *lent, const char *name, uint64_t item)
{
    uint64_t answer = zomuwedli_hand_call(lent->sheet, lent->length, lent->state, sizeof lent->state, item);
    if (zomuwedli_number(answer) != 0) {
        printf("hand %s refused %u\n", name, zomuwedli_number(answer));
        return explain("item", name, zomuwedli_number(answer));
    }
    printf("hand %s setting %u\n", name, zomuwedli_setting(answer));
    return DONE;
}

static void print_item(const uint8_t *state, unsigned i)
{
    printf("item %u on", i);
    for (unsigned c = 0; c < ZOMUWEDLI_MAX_SETTINGS; c++) {
        if ((zomuwedli_settings_on(state, i) >> c & 1) != 0) {
            printf(" %u", c);
        }
    }
    printf("\n");
}

static void print_left(const uint8_t *state)
{
    printf("left %u %u\n", count_bits(zomuwedli_items_in(state)), count_settings(state));
    for (unsigned i = 0; i < ZOMUWEDLI_MAX_ITEMS; i++) {
        if ((zomuwedli_items_in(state) >> i & 1) != 0) {
            print_item(state, i);
        }
    }
}

/* REFUSED where any call was. The names are numbers: main has looked. */
static int print_calls(struct lent *lent, char **names)
{
    int status = DONE;
    for (; *names != NULL; names++) {
        if (print_call(lent, *names, strtoull(*names, NULL, 10)) != DONE) {
            status = REFUSED;
        }
    }
    return status;
}

static int print_hand(struct lent *lent, const char *name, char **items)
{
    uint64_t answer = zomuwedli_start(lent->sheet, lent->length, lent->state, sizeof lent->state);
    if (zomuwedli_number(answer) != 0) {
        return refuse(name, zomuwedli_number(answer));
    }
    int status = print_calls(lent, items);
    print_left(lent->state);
    return status;
}

static int are_numbers(char **names)
{
    uint64_t item;
    while (*names != NULL && read_number(*names, UINT64_MAX, &item)) {
        names++;
    }
    return *names == NULL;
}

int main(int argc, char **argv)
{
    static uint8_t sheet[SHEET_ROOM];
    struct lent lent = {.sheet = sheet};
    if (argc < 2 || !are_numbers(argv + 2)) {
        return usage(argv[0], "SHEET [ITEM]...");
    }
    if (!read_file(argv[1], sheet, sizeof sheet, &lent.length)) {
        return FAILED;
    }
    return finish(print_hand(&lent, argv[1], argv + 2));
}
