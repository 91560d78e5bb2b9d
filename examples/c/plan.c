/* From a sheet to a finished plan, in one call: prints the setting of each item, or that the sheet has no plan.
 *
 *     make examples
 *     target/c/plan examples/F.sheet
 */
#include "example.h"

/* Byte 5 of a sheet counts its items, and the plan has a byte for each; where it is missing or counts too many, the call refuses the sheet.
 * "no plan" is an answer, and no refusal. */
static int print_finished(const char *name, const uint8_t *sheet, size_t length)
{
    uint8_t trace[ZOMUWEDLI_MAX_TRACE], plan[ZOMUWEDLI_MAX_ITEMS], state[ZOMUWEDLI_STATE_LENGTH];
    unsigned n = length > 5 && sheet[5] <= ZOMUWEDLI_MAX_ITEMS ? sheet[5] : 0;
    uint64_t answer = zomuwedli_pick(sheet, length, trace, sizeof trace, plan, n, state, sizeof state);
    if (zomuwedli_number(answer) != 0) {
        return refuse(name, zomuwedli_number(answer));
    }
    if (zomuwedli_has_plan(answer)) {
        print_plan(plan, n);
    } else {
        printf("no plan\n");
    }
    return DONE;
}

int main(int argc, char **argv)
{
    return on_sheet(argc, argv, print_finished);
}
