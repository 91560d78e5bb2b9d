// Gecode on one sheet, for rust/corpus.sh: one thread, a table constraint for each block, and the items' order (`first`: items rising,
// settings rising, so that the plan is the first of the full sheet) or its own (`any`: by failures over sizes). Prints the microseconds of
// posting and of the search, the best of a few times, and `plan` or `none`.
#include <chrono>
#include <cstdint>
#include <cstdio>
#include <cstdlib>
#include <cstring>
#include <fstream>
#include <iterator>
#include <vector>

#include <gecode/int.hh>
#include <gecode/search.hh>

using namespace Gecode;
using Bytes = std::vector<uint8_t>;
using Clock = std::chrono::steady_clock;

// Of a sheet that keeps the layout (docs/FORMAT.md, "The sheet").
class Sheet : public Space {
    IntVarArray items;

public:
    Sheet(const Bytes &sheet, bool first) : items(*this, sheet[5])
    {
        const uint8_t *sizes = sheet.data() + 8;
        for (int i = 0; i < items.size(); i++) {
            items[i] = IntVar(*this, 0, sizes[i] - 1);
        }
        for (size_t at = 8 + sheet[5]; at < sheet.size();) {
            at = post_block(sheet, sizes, at);
        }
        if (first) {
            branch(*this, items, INT_VAR_NONE(), INT_VAL_MIN());
        } else {
            branch(*this, items, INT_VAR_AFC_SIZE_MAX(), INT_VAL_MIN());
        }
    }

    Sheet(Sheet &other) : Space(other) { items.update(*this, other.items); }

    Space *copy() override { return new Sheet(*this); }

private:
    // Answers the place after the block.
    size_t post_block(const Bytes &sheet, const uint8_t *sizes, size_t at)
    {
        int i = sheet[at], j = sheet[at + 1];
        TupleSet allowed(2);
        at += 2;
        for (int a = 0; a < sizes[i]; a++, at += 2) {
            int row = sheet[at] << 8 | sheet[at + 1];
            for (int b = 0; b < sizes[j]; b++) {
                if (row >> b & 1) {
                    allowed.add(IntArgs({a, b}));
                }
            }
        }
        allowed.finalize();
        extensional(*this, IntVarArgs({items[i], items[j]}), allowed);
        return at;
    }
};

struct Times {
    double posting, search;
    bool has_plan;
};

static double micros(Clock::time_point from, Clock::time_point to) { return std::chrono::duration<double, std::micro>(to - from).count(); }

static Times solve(const Bytes &sheet, bool first)
{
    auto begun = Clock::now();
    Sheet *root = new Sheet(sheet, first);
    auto posted = Clock::now();
    Search::Options options;
    options.threads = 1;
    DFS<Sheet> search(root, options);
    delete root;
    Sheet *plan = search.next();
    auto found = Clock::now();
    Times times = {micros(begun, posted), micros(posted, found), plan != nullptr};
    delete plan;
    return times;
}

int main(int argc, char **argv)
{
    if (argc != 3 || (strcmp(argv[1], "first") != 0 && strcmp(argv[1], "any") != 0)) {
        fprintf(stderr, "usage: %s first|any SHEET\n", argv[0]);
        return 2;
    }
    std::ifstream file(argv[2], std::ios::binary);
    const Bytes sheet((std::istreambuf_iterator<char>(file)), std::istreambuf_iterator<char>());
    if (sheet.size() < 9) {
        fprintf(stderr, "%s: not read\n", argv[2]);
        return 3;
    }
    bool first = strcmp(argv[1], "first") == 0;
    Times best = solve(sheet, first);
    // what takes long is done once
    for (int k = 0; k < (best.posting + best.search < 50000 ? 4 : 2) && best.posting + best.search < 1000000; k++) {
        Times again = solve(sheet, first);
        if (again.posting + again.search < best.posting + best.search) {
            best = again;
        }
    }
    printf("%.1f %.1f %s\n", best.posting, best.search, best.has_plan ? "plan" : "none");
    return 0;
}
