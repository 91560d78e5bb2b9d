/* Writes the sheet of a DIMACS graph colouring file and a number of channels to standard output. Its plans are the proper colourings.
 *
 *     make examples
 *     target/c/colour examples/petersen.col 3 >petersen-3.sheet
 *     target/c/plan petersen-3.sheet
 */
#include "example.h"

/* One byte more than the longest colouring file has, so that a longer one is turned away and not cut to one that is taken. */
enum { FILE_ROOM = ZOMUWEDLI_MAX_FILE + 1 };

static int print_sheet(const char *name, const uint8_t *file, size_t length, uint64_t channels)
{
    uint8_t sheet[ZOMUWEDLI_MAX_SHEET];
    uint64_t answer = zomuwedli_colour(file, length, channels, sheet, sizeof sheet);
    if (zomuwedli_number(answer) != 0) {
        printf("refused %u\n", zomuwedli_number(answer));
        return explain("file", name, zomuwedli_number(answer));
    }
    fwrite(sheet, 1, zomuwedli_sheet_written(answer), stdout);
    return DONE;
}

int main(int argc, char **argv)
{
    static uint8_t file[FILE_ROOM];
    size_t length;
    uint64_t channels;
    if (argc != 3 || !read_number(argv[2], UINT64_MAX, &channels)) {
        return usage(argv[0], "FILE CHANNELS");
    }
    if (!read_file(argv[1], file, sizeof file, &length)) {
        return FAILED;
    }
    return finish(print_sheet(argv[1], file, length, channels));
}
