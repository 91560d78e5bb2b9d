/* Measures the stack that each exported function uses and fails above the limits that include/zomuwedli.h states: no contract speaks of
 * the stack. Each call runs in a thread whose stack was filled with a pattern; what is no longer the pattern was used. A job is measured
 * on several sheets, of both versions, or on files of which these are the sheets, and the most counts. A thread that does not start, a
 * call that does not answer as expected, and a figure too small to be one of a call that was made are failures. */
#define _POSIX_C_SOURCE 200809L
#include <pthread.h>
#include <stdio.h>
#include <stdlib.h>

#include "longest.h"

/* A call that used less than LEAST bytes was not made. */
enum { STACK = 1 << 20, PATTERN = 0xa5, LEAST = 32, ITEMS = ZOMUWEDLI_MAX_ITEMS, SETTINGS = ZOMUWEDLI_MAX_SETTINGS };

/* ---- The sheets: 32 items of 16 settings, without a block, or with a block for each pair that a relation bars something of; and 32 items
 * whose run takes slides, in version 2 too, where the rows have one byte. */
struct sheet {
    const char *name;
    size_t length;
    uint8_t bytes[ZOMUWEDLI_MAX_SHEET];
};

static struct sheet no_block = {.name = "no block"}, unequal = {.name = "unequal"}, less = {.name = "less"},
                    parity = {.name = "unlike parity"}, equal = {.name = "equal"}, sliding = {.name = "slides"},
                    shorter = {.name = "slides, version 2"}, one = {.name = "one plan"},
                    circle = {.name = "unlike parity round a circle"}, deep = {.name = "a deep search"};

/* Whether setting a of item i and setting b of item j, the higher one, may stand together. */
typedef unsigned relation(unsigned i, unsigned a, unsigned j, unsigned b);

static unsigned is_unequal(unsigned i, unsigned a, unsigned j, unsigned b)
{
    (void)i, (void)j;
    return a != b;
}

static unsigned is_less(unsigned i, unsigned a, unsigned j, unsigned b)
{
    (void)i, (void)j;
    return a < b;
}

static unsigned is_of_unlike_parity(unsigned i, unsigned a, unsigned j, unsigned b)
{
    (void)i, (void)j;
    return (a + b) % 2;
}

static unsigned is_equal(unsigned i, unsigned a, unsigned j, unsigned b)
{
    (void)i, (void)j;
    return a == b;
}

/* The run switches off every setting but the last of each item by itself, and then takes the items out: no run has more steps. */
static unsigned is_last(unsigned i, unsigned a, unsigned j, unsigned b)
{
    (void)i, (void)j;
    return a == SETTINGS - 1 && b == SETTINGS - 1;
}

/* Only neighbours in the circle of all items are linked. The run switches off all settings but two of each item, and there are plans. */
static unsigned is_of_unlike_parity_round(unsigned i, unsigned a, unsigned j, unsigned b)
{
    return (j - i != 1 && j - i != ITEMS - 1) || (a + b) % 2;
}

/* Each item but the last two has setting 15 in the first plan, and each lower setting fails at once: it leaves both of the last two setting 0
 * alone, and these are unequal. No search is deeper: once two items are left, each setting with a partner is in a plan. What is barred
 * between the others lets no setting cover another; the run takes the last two down to settings 0 and 15, and no other item. */
static unsigned is_deep(unsigned i, unsigned a, unsigned j, unsigned b)
{
    if (i >= ITEMS - 2) {
        return a != b;
    }
    return j >= ITEMS - 2 ? a == SETTINGS - 1 || b == 0 : b != (a + 1 + (i * i + i * j + 3 * j * j) % 15) % SETTINGS;
}

/* Copies a block, and answers the place after it; the same place where it would bar nothing. */
static uint8_t *fill_block(uint8_t *at, unsigned i, unsigned j, relation *allowed)
{
    unsigned barred = 0;
    uint8_t *row = at + 2;
    at[0] = (uint8_t)i;
    at[1] = (uint8_t)j;
    for (unsigned a = 0; a < SETTINGS; a++, row += 2) {
        unsigned bits = 0;
        for (unsigned b = 0; b < SETTINGS; b++) {
            bits |= allowed(i, a, j, b) << b;
        }
        row[0] = (uint8_t)(bits >> 8);
        row[1] = (uint8_t)bits;
        barred |= bits ^ 0xffff;
    }
    return barred != 0 ? row : at;
}

static void fill_pairs(struct sheet *sheet, relation *allowed)
{
    uint8_t *first = sheet->bytes + 8 + ITEMS, *at = first;
    for (unsigned i = 0; i < ITEMS; i++) {
        for (unsigned j = i + 1; j < ITEMS; j++) {
            at = fill_block(at, i, j, allowed);
        }
    }
    size_t blocks = (size_t)(at - first) / (2 + 2 * SETTINGS);
    sheet->length = (size_t)(at - sheet->bytes);
    memcpy(sheet->bytes,
           (const uint8_t[]){1, 0, 0, (uint8_t)(sheet->length >> 8), (uint8_t)sheet->length, ITEMS, (uint8_t)(blocks >> 8), (uint8_t)blocks},
           8);
    memset(sheet->bytes + 8, SETTINGS, ITEMS);
}

/* Sheets K and L of docs/FORMAT.md, "Bench sheets", by turns, five of each, and two items of 16 settings without a block. K's run is a slide,
 * a fold and two snakes, L's a slide and a bare step. */
static void fill_sliding(struct sheet *sheet, uint8_t version)
{
    static const uint8_t sizes[2][3] = {{3, 2, 2}, {3, 3, 2}};
    static const uint8_t pairs[3][2] = {{0, 1}, {0, 2}, {1, 2}};
    static const uint8_t rows[2][3][3] = {{{1, 2, 1}, {2, 1, 1}, {2, 3}}, {{6, 1, 4}, {1, 1, 3}, {1, 3, 2}}};
    uint8_t *at = sheet->bytes + 8 + ITEMS;
    memset(sheet->bytes + 8, SETTINGS, ITEMS);
    for (unsigned group = 0; group < 10; group++) {
        memcpy(sheet->bytes + 8 + 3 * group, sizes[group % 2], 3);
        for (unsigned pair = 0; pair < 3; pair++) {
            *at++ = (uint8_t)(3 * group + pairs[pair][0]);
            *at++ = (uint8_t)(3 * group + pairs[pair][1]);
            for (unsigned a = 0; a < sizes[group % 2][pairs[pair][0]]; a++) {
                if (version == 1) {
                    *at++ = 0;
                }
                *at++ = rows[group % 2][pair][a];
            }
        }
    }
    sheet->length = (size_t)(at - sheet->bytes);
    memcpy(sheet->bytes, (const uint8_t[]){version, 0, 0, (uint8_t)(sheet->length >> 8), (uint8_t)sheet->length, ITEMS, 0, 30}, 8);
}

/* ---- The jobs. Each answers what the function answers, and a figure of what was written, so that a call that did nothing shows. */
static uint8_t trace[ZOMUWEDLI_MAX_TRACE], state[ZOMUWEDLI_STATE_LENGTH], plan[ITEMS], result[ITEMS];
static uint8_t long_trace[LONGEST_TRACE];
static size_t written;

/* A colouring file of 64 KiB has a p line and so many lines after it. */
enum { FRONT = 16, LINE = 8, LINES = (ZOMUWEDLI_MAX_FILE - FRONT) / LINE };

static uint8_t file[FRONT + LINES * LINE], coloured[ZOMUWEDLI_MAX_SHEET];
_Static_assert(sizeof file == ZOMUWEDLI_MAX_FILE, "the lines do not fill the file");

static void prepare_nothing(const struct sheet *sheet) { (void)sheet; }

static uint64_t nothing(const struct sheet *sheet)
{
    (void)sheet;
    return 0;
}

static uint64_t read_check(const struct sheet *sheet) { return zomuwedli_read(sheet->bytes, sheet->length); }

static uint64_t run(const struct sheet *sheet)
{
    return zomuwedli_run(sheet->bytes, sheet->length, trace, sizeof trace, state, sizeof state);
}

static void prepare_start(const struct sheet *sheet)
{
    (void)sheet;
    memset(state, 0, sizeof state);
}

/* The items then in stand above the answer. */
static uint64_t start(const struct sheet *sheet)
{
    uint64_t answer = zomuwedli_start(sheet->bytes, sheet->length, state, sizeof state);
    return answer | (uint64_t)zomuwedli_items_in(state) << 32;
}

static void prepare_hand_call(const struct sheet *sheet)
{
    memset(state, 0, sizeof state);
    zomuwedli_start(sheet->bytes, sheet->length, state, sizeof state);
}

static uint64_t hand_call(const struct sheet *sheet)
{
    uint64_t answer = zomuwedli_hand_call(sheet->bytes, sheet->length, state, sizeof state, ITEMS - 1);
    return answer | (uint64_t)zomuwedli_items_in(state) << 32;
}

/* The run's own trace, with the highest setting for each item left; for the sheet without a block the longest trace there is. */
static void prepare_put_back(const struct sheet *sheet)
{
    memset(result, PATTERN, sizeof result);
    written = zomuwedli_written(run(sheet));
    memset(plan, zomuwedli_items_in(state) == 0 ? ZOMUWEDLI_OUT : SETTINGS - 1, sizeof plan);
    if (sheet == &no_block) {
        memcpy(trace, long_trace, sizeof long_trace);
        written = sizeof long_trace;
    }
}

static uint64_t result_sum(void)
{
    uint64_t sum = 0;
    for (unsigned i = 0; i < ITEMS; i++) {
        sum += result[i];
    }
    return sum;
}

/* The sum of the result's bytes stands above the answer. */
static uint64_t put_back(const struct sheet *sheet)
{
    uint64_t answer = zomuwedli_put_back(sheet->bytes, sheet->length, trace, written, plan, sizeof plan, result, sizeof result);
    return answer | result_sum() << 32;
}

static void prepare_pick(const struct sheet *sheet)
{
    (void)sheet;
    memset(result, 0, sizeof result);
}

/* The sum of the plan's bytes stands above the answer, which has 49 bits. */
static uint64_t pick(const struct sheet *sheet)
{
    uint64_t answer = zomuwedli_pick(sheet->bytes, sheet->length, trace, sizeof trace, result, sizeof result, state, sizeof state);
    return answer | result_sum() << 49;
}

/* A line of the file: an edge, or, where the sheet has no block, a comment of as many bytes. */
static void fill_line(uint8_t *at, char form, unsigned a, unsigned b)
{
    char line[LINE + 1];
    snprintf(line, sizeof line, "%c %02u %02u\n", form, a % 100, b % 100);
    memcpy(at, line, LINE);
}

/* A file of 64 KiB whose sheet this one is: the p line, and the pairs again and again. */
static void prepare_colour(const struct sheet *sheet)
{
    const char form = sheet == &no_block ? 'c' : 'e';
    char front[FRONT + 1];
    snprintf(front, sizeof front, "p edge 32 %05u\n", form == 'e' ? (unsigned)LINES : 0u);
    memcpy(file, front, FRONT);
    for (unsigned k = 0; k < LINES; k++) {
        unsigned a = k / ITEMS % ITEMS, b = (a + 1 + k % (ITEMS - 1)) % ITEMS;
        fill_line(file + FRONT + LINE * k, form, a + 1, b + 1);
    }
    memset(coloured, PATTERN, sizeof coloured);
}

/* Whether the sheet is this one stands above the answer. */
static uint64_t colour(const struct sheet *sheet)
{
    uint64_t answer = zomuwedli_colour(file, sizeof file, SETTINGS, coloured, sizeof coloured);
    return answer | (uint64_t)(memcmp(coloured, sheet->bytes, sheet->length) == 0) << 32;
}

static uint8_t target[ZOMUWEDLI_MAX_SHEET], again[ZOMUWEDLI_MAX_SHEET];

static void prepare_move(const struct sheet *sheet)
{
    (void)sheet;
    memset(target, PATTERN, sizeof target);
    memset(again, PATTERN, sizeof again);
}

/* Both ways. Whether the sheet came back, by way of the other version, stands above the first answer. */
static uint64_t move(const struct sheet *sheet)
{
    uint64_t answer = zomuwedli_move(sheet->bytes, sheet->length, target, sizeof target);
    uint64_t back = zomuwedli_move(target, zomuwedli_sheet_written(answer), again, sizeof again);
    int came_back = zomuwedli_sheet_written(back) == sheet->length && memcmp(again, sheet->bytes, sheet->length) == 0;
    return answer | (uint64_t)(came_back && target[0] == 3 - sheet->bytes[0]) << 32;
}

/* ---- What is measured, and what each call answers. */
#define READ_ANSWER(blocks) ((uint64_t)ITEMS << 8 | (uint64_t)(blocks) << 16)
#define RUN_ANSWER(end, steps, bytes) ((uint64_t)(end) << 8 | (uint64_t)(steps) << 16 | (uint64_t)(bytes) << 32)
#define SLIDING_ANSWER RUN_ANSWER(ZOMUWEDLI_REST, 2 + 5 * (4 + 2), 1 + 4 * 2 + 5 * (17 + 10))
#define PICK_ANSWER(run, has_plan, figure) ((run) | (uint64_t)(has_plan) << 48 | (uint64_t)(figure) << 49)
#define SHEET_ANSWER(bytes) ((uint64_t)(bytes) << 8)
#define AND(answer, figure) ((uint64_t)(answer) | (uint64_t)(figure) << 32)

/* What is enough for any call but putting back and picking is enough for each of them. */
_Static_assert(ZOMUWEDLI_READ_STACK <= ZOMUWEDLI_STACK && ZOMUWEDLI_RUN_STACK <= ZOMUWEDLI_STACK
                   && ZOMUWEDLI_START_STACK <= ZOMUWEDLI_STACK && ZOMUWEDLI_HAND_CALL_STACK <= ZOMUWEDLI_STACK
                   && ZOMUWEDLI_COLOUR_STACK <= ZOMUWEDLI_STACK && ZOMUWEDLI_MOVE_STACK <= ZOMUWEDLI_STACK,
               "ZOMUWEDLI_STACK is less than some call's own");

enum { MOST_CALLS = 9 };

struct job {
    const char *name;
    size_t limit;
    void (*prepare)(const struct sheet *);
    uint64_t (*call)(const struct sheet *);
    struct {
        const struct sheet *sheet;
        uint64_t answer;
    } on[MOST_CALLS];
};

static const struct job baseline = {"a thread alone", STACK, prepare_nothing, nothing, {{&no_block, 0}}};

/* The runs take steps of kinds 2, none, 1, 4 and 3, and the last two of 5, 3, 2 and 1. */
static const struct job jobs[] = {
    {"read",
     ZOMUWEDLI_READ_STACK,
     prepare_nothing,
     read_check,
     {{&no_block, READ_ANSWER(0)}, {&unequal, READ_ANSWER(496)}, {&shorter, READ_ANSWER(30)}}},
    {"run",
     ZOMUWEDLI_RUN_STACK,
     prepare_nothing,
     run,
     {{&no_block, RUN_ANSWER(ZOMUWEDLI_SOLVED, 32, 1 + 4 * 32)},
      {&unequal, RUN_ANSWER(ZOMUWEDLI_REST, 0, 1)},
      {&less, RUN_ANSWER(ZOMUWEDLI_IMPOSSIBLE, 241, 1 + 5 * 241)},
      {&parity, RUN_ANSWER(ZOMUWEDLI_REST, 448, 1 + 5 * 448)},
      {&equal, RUN_ANSWER(ZOMUWEDLI_SOLVED, 32, 1 + 4 * 32)},
      {&sliding, SLIDING_ANSWER},
      {&shorter, SLIDING_ANSWER}}},
    {"start",
     ZOMUWEDLI_START_STACK,
     prepare_start,
     start,
     {{&no_block, AND(0, UINT32_MAX)},
      {&unequal, AND(0, UINT32_MAX)},
      {&less, AND(0, UINT32_MAX)},
      {&parity, AND(0, UINT32_MAX)},
      {&shorter, AND(0, UINT32_MAX)}}},
    {"hand call",
     ZOMUWEDLI_HAND_CALL_STACK,
     prepare_hand_call,
     hand_call,
     {{&no_block, AND(0, UINT32_MAX >> 1)},
      {&unequal, AND(14, UINT32_MAX)},
      {&less, AND(13, UINT32_MAX)},
      {&parity, AND(14, UINT32_MAX)},
      {&shorter, AND(0, UINT32_MAX >> 1)}}},
    {"put back",
     ZOMUWEDLI_PUT_BACK_STACK,
     prepare_put_back,
     put_back,
     {{&no_block, AND(0, 0)},
      {&parity, AND(19, ITEMS * PATTERN)},
      {&equal, AND(0, 0)},
      {&sliding, AND(19, ITEMS * PATTERN)},
      {&shorter, AND(19, ITEMS * PATTERN)}}},
    /* The last three put back through 512 records, as many as there can be, put back through 448 after a search, and search deepest. */
    {"pick",
     ZOMUWEDLI_PICK_STACK,
     prepare_pick,
     pick,
     {{&no_block, PICK_ANSWER(RUN_ANSWER(ZOMUWEDLI_SOLVED, 32, 1 + 4 * 32), 1, 0)},
      {&less, PICK_ANSWER(RUN_ANSWER(ZOMUWEDLI_IMPOSSIBLE, 241, 1 + 5 * 241), 0, 0)},
      {&parity, PICK_ANSWER(RUN_ANSWER(ZOMUWEDLI_REST, 448, 1 + 5 * 448), 0, 0)},
      {&equal, PICK_ANSWER(RUN_ANSWER(ZOMUWEDLI_SOLVED, 32, 1 + 4 * 32), 1, 0)},
      {&sliding, PICK_ANSWER(SLIDING_ANSWER, 1, 5 * (1 + 1))},
      {&shorter, PICK_ANSWER(SLIDING_ANSWER, 1, 5 * (1 + 1))},
      {&one, PICK_ANSWER(RUN_ANSWER(ZOMUWEDLI_SOLVED, 512, LONGEST_TRACE), 1, ITEMS * 15)},
      {&circle, PICK_ANSWER(RUN_ANSWER(ZOMUWEDLI_REST, 448, 1 + 5 * 448), 1, 16 * 14 + 16 * 15)},
      {&deep, PICK_ANSWER(RUN_ANSWER(ZOMUWEDLI_REST, 2 * 14, 1 + 5 * 2 * 14), 1, 31 * 15)}}},
    {"colour",
     ZOMUWEDLI_COLOUR_STACK,
     prepare_colour,
     colour,
     {{&no_block, AND(SHEET_ANSWER(LONGEST_SHEET), 1)}, {&unequal, AND(SHEET_ANSWER(ZOMUWEDLI_MAX_SHEET), 1)}}},
    {"move",
     ZOMUWEDLI_MOVE_STACK,
     prepare_move,
     move,
     {{&no_block, AND(SHEET_ANSWER(LONGEST_SHEET), 1)},
      {&unequal, AND(SHEET_ANSWER(ZOMUWEDLI_MAX_SHEET), 1)},
      {&sliding, AND(SHEET_ANSWER(185), 1)},
      {&shorter, AND(SHEET_ANSWER(270), 1)}}},
};

/* ---- Measuring. */
struct call {
    const struct job *job;
    const struct sheet *sheet;
    uint64_t answer;
};

static void *perform(void *argument)
{
    struct call *call = argument;
    call->answer = call->job->call(call->sheet);
    return NULL;
}

static _Noreturn void fail(const struct call *call, const char *what, uint64_t figure)
{
    printf("stack: %s on %s: %s (%#llx)\n", call->job->name, call->sheet->name, what, (unsigned long long)figure);
    exit(1);
}

/* The bytes of its stack that a thread used which made this call. */
static size_t used(struct call *call, uint64_t expected)
{
    uint8_t *stack = aligned_alloc(4096, STACK);
    pthread_attr_t attributes;
    pthread_t thread;
    size_t untouched = 0;
    int error;
    if (stack == NULL) {
        fail(call, "no memory", STACK);
    }
    memset(stack, PATTERN, STACK);
    call->job->prepare(call->sheet);
    if ((error = pthread_attr_init(&attributes)) != 0 || (error = pthread_attr_setstack(&attributes, stack, STACK)) != 0
        || (error = pthread_create(&thread, &attributes, perform, call)) != 0) {
        fail(call, "the thread does not start", (uint64_t)error);
    }
    if ((error = pthread_join(thread, NULL)) != 0) {
        fail(call, "the thread does not end", (uint64_t)error);
    }
    pthread_attr_destroy(&attributes);
    if (call->answer != expected) {
        fail(call, "another answer than expected", call->answer);
    }
    while (untouched < STACK && stack[untouched] == PATTERN) {
        untouched++;
    }
    free(stack);
    return STACK - untouched;
}

/* The most bytes that a job uses on its sheets beyond those of a thread that does nothing. */
static size_t most_used(const struct job *job, size_t own)
{
    size_t most = 0;
    for (unsigned k = 0; k < MOST_CALLS && job->on[k].sheet != NULL; k++) {
        struct call call = {job, job->on[k].sheet, ~job->on[k].answer};
        size_t bytes = used(&call, job->on[k].answer);
        if (bytes < own + LEAST) {
            fail(&call, "too few bytes for a call that was made", bytes > own ? bytes - own : 0);
        }
        most = bytes - own > most ? bytes - own : most;
    }
    return most;
}

int main(void)
{
    int within = 1;
    fill_longest(no_block.bytes, long_trace);
    no_block.length = LONGEST_SHEET;
    fill_pairs(&unequal, is_unequal);
    fill_pairs(&less, is_less);
    fill_pairs(&parity, is_of_unlike_parity);
    fill_pairs(&equal, is_equal);
    fill_sliding(&sliding, 1);
    fill_sliding(&shorter, 2);
    fill_pairs(&one, is_last);
    fill_pairs(&circle, is_of_unlike_parity_round);
    fill_pairs(&deep, is_deep);
    struct call alone = {&baseline, &no_block, 1};
    size_t own = used(&alone, 0);
    for (unsigned k = 0; k < sizeof jobs / sizeof jobs[0]; k++) {
        size_t most = most_used(&jobs[k], own);
        int fits = most <= jobs[k].limit;
        printf("stack: %s %zu bytes, limit %zu%s\n", jobs[k].name, most, jobs[k].limit, fits ? "" : ": too much");
        within = within && fits;
    }
    return within ? 0 : 1;
}
