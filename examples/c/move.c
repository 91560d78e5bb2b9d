/* Writes a sheet in the other version to standard output: version 2 of a sheet of version 1, and version 1 of a sheet of version 2.
 *
 *     make examples
 *     target/c/move examples/B.sheet >B.moved
 *     target/c/run B.moved
 */
#include "example.h"

static int print_moved(const char *name, const uint8_t *sheet, size_t length)
{
    uint8_t target[ZOMUWEDLI_MAX_SHEET];
    uint64_t answer = zomuwedli_move(sheet, length, target, sizeof target);
    if (zomuwedli_number(answer) != 0) {
        return refuse(name, zomuwedli_number(answer));
    }
    fwrite(target, 1, zomuwedli_sheet_written(answer), stdout);
    return DONE;
}

int main(int argc, char **argv)
{
    return on_sheet(argc, argv, print_moved);
}
