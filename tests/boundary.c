/* Calls every function of include/zomuwedli.h from C, so that the header's declarations are tried against the library: answers, fields,
 * each refusal by its constant, bytes that a refusal leaves alone, and the longest trace there is. Then what the header has of its own: the
 * version, the texts, and walking a trace, which is held against putting back. Says nothing where all is well. */
#include <limits.h>
#include <stdio.h>
#include <stdlib.h>

#include "longest.h"

static unsigned failures;

static void expect(int holds, const char *what)
{
    if (!holds) {
        printf("boundary: %s\n", what);
        failures++;
    }
}

#define EXPECT(claim) expect((claim), #claim)

/* A buffer of exactly so many bytes on the heap, in a pattern, so that memcheck sees a byte beyond it and a changed byte shows. */
static uint8_t *lent(size_t length)
{
    uint8_t *bytes = malloc(length);
    if (bytes == NULL && length != 0) {
        exit(2);
    }
    for (size_t k = 0; k < length; k++) {
        bytes[k] = (uint8_t)(37 * k + 11);
    }
    return bytes;
}

static int as_lent(const uint8_t *bytes, size_t length)
{
    for (size_t k = 0; k < length; k++) {
        if (bytes[k] != (uint8_t)(37 * k + 11)) {
            return 0;
        }
    }
    return 1;
}

/* B: two items of 2, unequal; and the same in version 2. */
static const uint8_t sheet_b[] = {1, 0, 0, 0, 16, 2, 0, 1, 2, 2, 0, 1, 0, 2, 0, 1};
static const uint8_t moved_b[] = {2, 0, 0, 0, 14, 2, 0, 1, 2, 2, 0, 1, 2, 1};

/* C: three items of 2, each pair unequal. */
static const uint8_t sheet_c[] = {1, 0, 0, 0, 29, 3, 0, 3, 2, 2, 2, 0, 1, 0, 2, 0, 1, 0, 2, 0, 2, 0, 1, 1, 2, 0, 2, 0, 1};

/* D: two items of 1, the pair barred. */
static const uint8_t sheet_d[] = {1, 0, 0, 0, 14, 2, 0, 1, 1, 1, 0, 1, 0, 0};

/* K: three items of 3, 2 and 2, whose run begins with a slide; and the trace of that. */
static const uint8_t sheet_k[] = {1, 0, 0, 0, 33, 3, 0, 3, 3, 2, 2, 0, 1, 0, 1, 0, 2, 0, 1, 0, 2, 0, 2, 0, 1, 0, 1, 1, 2, 0, 2, 0, 3};
static const uint8_t trace_k[] = {1, 4, 5, 0, 2, 0, 3, 3, 1, 0, 3, 2, 0, 0, 3, 2, 2, 0};

static const uint8_t trace_b[] = {1, 3, 2, 0, 0, 3, 2, 1, 0};

/* A copy of exactly so many bytes on the heap, so that memcheck sees a byte beyond it. */
static uint8_t *copied(const uint8_t *bytes, size_t length)
{
    uint8_t *copy = lent(length);
    for (size_t k = 0; k < length; k++) {
        copy[k] = bytes[k];
    }
    return copy;
}

/* A move into a target of so many bytes: the length, the bytes, and the old ones after them. */
static void move_done(const uint8_t *bytes, size_t length, const uint8_t *expected, size_t written, size_t target_length)
{
    uint8_t *sheet = copied(bytes, length), *target = lent(target_length), *old = lent(target_length);
    uint64_t answer = zomuwedli_move(sheet, length, target, target_length);
    EXPECT(zomuwedli_number(answer) == ZOMUWEDLI_DONE);
    EXPECT(zomuwedli_sheet_written(answer) == written);
    EXPECT(answer >> 32 == 0);
    EXPECT(memcmp(sheet, bytes, length) == 0);
    EXPECT(memcmp(target, expected, written) == 0);
    EXPECT(memcmp(target + written, old + written, target_length - written) == 0);
    free(sheet);
    free(target);
    free(old);
}

/* The whole answer is the number, and no byte of sheet or target is changed. */
static void move_refused(const uint8_t *bytes, size_t length, size_t target_length, uint64_t number)
{
    uint8_t *sheet = copied(bytes, length), *target = lent(target_length);
    EXPECT(zomuwedli_move(sheet, length, target, target_length) == number);
    EXPECT(memcmp(sheet, bytes, length) == 0);
    EXPECT(as_lent(target, target_length));
    free(sheet);
    free(target);
}

/* A sheet that the read check refuses, and the move too, whatever its target is. */
static void sheet_refused(const uint8_t *bytes, size_t length, uint64_t number)
{
    uint8_t *sheet = copied(bytes, length);
    EXPECT(zomuwedli_read(sheet, length) == number);
    move_refused(sheet, length, 0, number);
    move_refused(sheet, length, ZOMUWEDLI_MAX_SHEET, number);
    free(sheet);
}

static void changed_refused(const uint8_t *bytes, size_t length, size_t place, uint8_t value, uint64_t number)
{
    uint8_t *sheet = copied(bytes, length);
    sheet[place] = value;
    sheet_refused(sheet, length, number);
    free(sheet);
}

/* Sheet B, in either version, with each fault that a sheet can have; `row` is the byte of its first row that has settings 0 to 7. */
static void faults(const uint8_t *bytes, size_t length, size_t row)
{
    uint8_t *full_row = copied(bytes, length);
    full_row[row] = 3;
    sheet_refused(bytes, 0, ZOMUWEDLI_REFUSED_SHEET_FRONT);
    sheet_refused(bytes, 7, ZOMUWEDLI_REFUSED_SHEET_FRONT);
    changed_refused(bytes, length, 0, 0, ZOMUWEDLI_REFUSED_SHEET_VERSION);
    changed_refused(bytes, length, 0, 3, ZOMUWEDLI_REFUSED_SHEET_VERSION);
    sheet_refused(bytes, length - 1, ZOMUWEDLI_REFUSED_SHEET_LENGTH);
    changed_refused(bytes, length, 5, 33, ZOMUWEDLI_REFUSED_ITEM_COUNT);
    changed_refused(bytes, length, 8, 17, ZOMUWEDLI_REFUSED_ITEM_SIZE);
    changed_refused(bytes, length, 0, 3 - bytes[0], ZOMUWEDLI_REFUSED_BLOCK_BYTES);
    changed_refused(bytes, length, 7, 2, ZOMUWEDLI_REFUSED_BLOCK_BYTES);
    changed_refused(bytes, length, 10, 1, ZOMUWEDLI_REFUSED_BLOCK_ORDER);
    changed_refused(bytes, length, row, 4, ZOMUWEDLI_REFUSED_ROW_BEYOND);
    changed_refused(full_row, length, length - 1, 3, ZOMUWEDLI_REFUSED_BARS_NOTHING);
    free(full_row);
}

static void read_check(void)
{
    uint64_t answer = zomuwedli_read(sheet_c, sizeof sheet_c);
    EXPECT(zomuwedli_number(answer) == ZOMUWEDLI_DONE);
    EXPECT(zomuwedli_items(answer) == 3);
    EXPECT(zomuwedli_blocks(answer) == 3);
    EXPECT(zomuwedli_read(NULL, 0) == ZOMUWEDLI_REFUSED_SHEET_FRONT);
    faults(sheet_b, sizeof sheet_b, 13);
    faults(moved_b, sizeof moved_b, 12);
}

static void run_done(size_t trace_length)
{
    uint8_t *trace = lent(trace_length), *state = lent(ZOMUWEDLI_STATE_LENGTH), *old = lent(trace_length);
    uint64_t answer = zomuwedli_run(sheet_b, sizeof sheet_b, trace, trace_length, state, ZOMUWEDLI_STATE_LENGTH);
    EXPECT(zomuwedli_number(answer) == 0);
    EXPECT(zomuwedli_end(answer) == ZOMUWEDLI_SOLVED);
    EXPECT(zomuwedli_steps(answer) == 2);
    EXPECT(zomuwedli_written(answer) == sizeof trace_b);
    EXPECT(memcmp(trace, trace_b, sizeof trace_b) == 0);
    EXPECT(memcmp(trace + sizeof trace_b, old + sizeof trace_b, trace_length - sizeof trace_b) == 0);
    EXPECT(zomuwedli_items_in(state) == 0);
    EXPECT(zomuwedli_settings_on(state, 1) == 0);
    free(trace);
    free(state);
    free(old);
}

static void run_refused(const uint8_t *sheet, size_t sheet_length, size_t trace_length, size_t state_length, uint64_t number)
{
    uint8_t *trace = lent(trace_length), *state = lent(state_length);
    EXPECT(zomuwedli_run(sheet, sheet_length, trace, trace_length, state, state_length) == number);
    EXPECT(as_lent(trace, trace_length));
    EXPECT(as_lent(state, state_length));
    free(trace);
    free(state);
}

static void start_and_call(void)
{
    uint8_t *state = lent(ZOMUWEDLI_HAND_STATE_LENGTH), started[ZOMUWEDLI_HAND_STATE_LENGTH];
    EXPECT(zomuwedli_start(sheet_b, 15, state, ZOMUWEDLI_HAND_STATE_LENGTH) == ZOMUWEDLI_REFUSED_SHEET_LENGTH);
    EXPECT(as_lent(state, ZOMUWEDLI_HAND_STATE_LENGTH));
    EXPECT(zomuwedli_start(sheet_c, sizeof sheet_c, state, ZOMUWEDLI_HAND_STATE_LENGTH) == 0);
    EXPECT(zomuwedli_items_in(state) == 7);
    EXPECT(zomuwedli_settings_on(state, 2) == 3);
    EXPECT(zomuwedli_settings_on(state, 3) == 0);
    memcpy(started, state, sizeof started);
    EXPECT(zomuwedli_hand_call(sheet_c, sizeof sheet_c, state, ZOMUWEDLI_HAND_STATE_LENGTH, 0) == ZOMUWEDLI_REFUSED_NO_SNAKE);
    EXPECT(zomuwedli_hand_call(sheet_c, sizeof sheet_c, state, ZOMUWEDLI_HAND_STATE_LENGTH, UINT64_MAX) == ZOMUWEDLI_REFUSED_ITEM_NOT_IN);
    EXPECT(zomuwedli_hand_call(sheet_b, sizeof sheet_b, state, ZOMUWEDLI_HAND_STATE_LENGTH, 0) == ZOMUWEDLI_REFUSED_STATE_MISFIT);
    EXPECT(zomuwedli_hand_call(sheet_b, 15, state, ZOMUWEDLI_HAND_STATE_LENGTH, 0) == ZOMUWEDLI_REFUSED_SHEET_LENGTH);
    EXPECT(memcmp(state, started, sizeof started) == 0);
    EXPECT(zomuwedli_start(sheet_d, sizeof sheet_d, state, ZOMUWEDLI_HAND_STATE_LENGTH) == 0);
    EXPECT(zomuwedli_hand_call(sheet_d, sizeof sheet_d, state, ZOMUWEDLI_HAND_STATE_LENGTH, 0) == ZOMUWEDLI_REFUSED_ITEM_EMPTY);
    EXPECT(zomuwedli_start(sheet_b, sizeof sheet_b, state, ZOMUWEDLI_HAND_STATE_LENGTH) == 0);
    uint64_t answer = zomuwedli_hand_call(sheet_b, sizeof sheet_b, state, ZOMUWEDLI_HAND_STATE_LENGTH, 1);
    EXPECT(zomuwedli_number(answer) == 0);
    EXPECT(zomuwedli_setting(answer) == 0);
    EXPECT(zomuwedli_items_in(state) == 1);
    EXPECT(zomuwedli_settings_on(state, 0) == 3);
    EXPECT(zomuwedli_settings_on(state, 1) == 0);
    free(state);
}

static void hand_state_refused(size_t length)
{
    uint8_t *state = lent(length);
    EXPECT(zomuwedli_start(sheet_b, sizeof sheet_b, state, length) == ZOMUWEDLI_REFUSED_HAND_STATE_LENGTH);
    EXPECT(zomuwedli_hand_call(sheet_b, sizeof sheet_b, state, length, 0) == ZOMUWEDLI_BAD_HAND_STATE);
    EXPECT(as_lent(state, length));
    free(state);
}

/* Each refusal but 17, which has a part of its own below: the whole answer is the number. */
static void put_back(void)
{
    const uint8_t plan[] = {ZOMUWEDLI_OUT, ZOMUWEDLI_OUT};
    uint8_t *result = lent(2);
    EXPECT(zomuwedli_put_back(sheet_b, 15, trace_b, sizeof trace_b, plan, 2, result, 2) == ZOMUWEDLI_REFUSED_SHEET_LENGTH);
    EXPECT(zomuwedli_put_back(sheet_b, sizeof sheet_b, trace_b, sizeof trace_b, plan, 1, result, 2) == ZOMUWEDLI_REFUSED_PLAN_LENGTH);
    EXPECT(zomuwedli_put_back(sheet_b, sizeof sheet_b, trace_b, sizeof trace_b, plan, 2, result, 1) == ZOMUWEDLI_REFUSED_RESULT_LENGTH);
    EXPECT(zomuwedli_put_back(sheet_b, sizeof sheet_b, NULL, 0, plan, 2, result, 2) == ZOMUWEDLI_REFUSED_TRACE_FRONT);
    EXPECT(zomuwedli_put_back(sheet_b, sizeof sheet_b, trace_b, 8, plan, 2, result, 2) == ZOMUWEDLI_REFUSED_RECORD_SHAPE);
    EXPECT(zomuwedli_put_back(sheet_b, sizeof sheet_b, trace_b, 5, plan, 2, result, 2) == ZOMUWEDLI_REFUSED_PLAN_UNFIT);
    EXPECT(as_lent(result, 2));
    EXPECT(zomuwedli_put_back(sheet_b, sizeof sheet_b, trace_b, sizeof trace_b, plan, 2, result, 2) == 0);
    EXPECT(result[0] == 0 && result[1] == 1);
    free(result);
}

/* A run that takes a slide, and what is put back; slides that others wrote, with a plan, and with a pair that is barred. */
static void slides(void)
{
    const uint8_t slide[] = {1, 4, ZOMUWEDLI_SLIDE, 0, 0, 1}, out[] = {ZOMUWEDLI_OUT, ZOMUWEDLI_OUT, ZOMUWEDLI_OUT};
    const uint8_t plan[] = {1, 0}, barred[] = {1, 1};
    uint8_t *trace = lent(36), *state = lent(ZOMUWEDLI_STATE_LENGTH), *result = lent(3), *pair = lent(2);
    struct zomuwedli_record record;
    size_t at = ZOMUWEDLI_TRACE_FIRST;
    uint64_t answer = zomuwedli_run(sheet_k, sizeof sheet_k, trace, 36, state, ZOMUWEDLI_STATE_LENGTH);
    EXPECT(zomuwedli_number(answer) == ZOMUWEDLI_DONE && zomuwedli_end(answer) == ZOMUWEDLI_SOLVED);
    EXPECT(zomuwedli_steps(answer) == 4 && zomuwedli_written(answer) == sizeof trace_k);
    EXPECT(memcmp(trace, trace_k, sizeof trace_k) == 0);
    EXPECT(zomuwedli_next_record(trace, zomuwedli_written(answer), &at, &record) == 1);
    EXPECT(record.kind == ZOMUWEDLI_SLIDE && record.item == 0 && record.third == 2 && record.fourth == 0);
    EXPECT(zomuwedli_put_back(sheet_k, sizeof sheet_k, trace_k, sizeof trace_k, out, 3, result, 3) == 0);
    EXPECT(result[0] == 0 && result[1] == 0 && result[2] == 1);
    EXPECT(zomuwedli_put_back(sheet_b, sizeof sheet_b, slide, sizeof slide, barred, 2, pair, 2) == ZOMUWEDLI_REFUSED_PLAN_UNFIT);
    EXPECT(as_lent(pair, 2));
    EXPECT(zomuwedli_put_back(sheet_b, sizeof sheet_b, slide, sizeof slide, plan, 2, pair, 2) == 0);
    EXPECT(pair[0] == 1 && pair[1] == 0);
    free(trace);
    free(state);
    free(result);
    free(pair);
}

/* Putting back with 17 and these three numbers, and nothing beside them; no byte of the result is changed. The trace is a copy of exactly so
 * many bytes on the heap, so that memcheck sees a byte beyond it. */
static void unlawful(const uint8_t *sheet, size_t sheet_length, const uint8_t *bytes, size_t length, unsigned record, unsigned item,
                     unsigned setting)
{
    const uint8_t plan[32] = {0};
    uint8_t *trace = copied(bytes, length), *result = lent(sheet[5]);
    uint64_t answer = zomuwedli_put_back(sheet, sheet_length, trace, length, plan, sheet[5], result, sheet[5]);
    EXPECT(zomuwedli_number(answer) == ZOMUWEDLI_REFUSED_RECORD_UNLAWFUL);
    EXPECT(zomuwedli_unlawful_record(answer) == record);
    EXPECT(zomuwedli_unlawful_item(answer) == item);
    EXPECT(zomuwedli_unlawful_setting(answer) == setting);
    EXPECT(answer == (17 | (uint64_t)record << 8 | (uint64_t)item << 24 | (uint64_t)setting << 32));
    EXPECT(as_lent(result, sheet[5]));
    free(trace);
    free(result);
}

/* A pick with buffers of exactly so many bytes on the heap: what it answers, the plan, or that this is as it was, and that trace, state and
 * the fields below bit 48 are the run's. */
static void pick_done(const uint8_t *sheet, size_t sheet_length, size_t trace_length, const uint8_t *expected, uint64_t word)
{
    uint8_t *trace = lent(trace_length), *plan = lent(sheet[5]), *state = lent(ZOMUWEDLI_STATE_LENGTH);
    uint8_t *run_trace = lent(trace_length), *run_state = lent(ZOMUWEDLI_STATE_LENGTH);
    uint64_t answer = zomuwedli_pick(sheet, sheet_length, trace, trace_length, plan, sheet[5], state, ZOMUWEDLI_STATE_LENGTH);
    uint64_t ran = zomuwedli_run(sheet, sheet_length, run_trace, trace_length, run_state, ZOMUWEDLI_STATE_LENGTH);
    EXPECT(answer == word);
    EXPECT(zomuwedli_number(answer) == ZOMUWEDLI_DONE);
    EXPECT(zomuwedli_has_plan(answer) == (expected != NULL));
    EXPECT(zomuwedli_end(answer) == zomuwedli_end(ran) && zomuwedli_steps(answer) == zomuwedli_steps(ran));
    EXPECT(zomuwedli_written(answer) == zomuwedli_written(ran) && (answer & UINT64_C(0xffffffffffff)) == ran);
    EXPECT(memcmp(trace, run_trace, trace_length) == 0);
    EXPECT(memcmp(state, run_state, ZOMUWEDLI_STATE_LENGTH) == 0);
    EXPECT(expected != NULL ? memcmp(plan, expected, sheet[5]) == 0 : as_lent(plan, sheet[5]));
    free(trace);
    free(plan);
    free(state);
    free(run_trace);
    free(run_state);
}

/* The whole answer is the number, and no byte of any buffer is changed. */
static void pick_refused(const uint8_t *sheet, size_t sheet_length, size_t trace_length, size_t plan_length, size_t state_length,
                         uint64_t number)
{
    uint8_t *trace = lent(trace_length), *plan = lent(plan_length), *state = lent(state_length);
    EXPECT(zomuwedli_pick(sheet, sheet_length, trace, trace_length, plan, plan_length, state, state_length) == number);
    EXPECT(as_lent(trace, trace_length) && as_lent(plan, plan_length) && as_lent(state, state_length));
    free(trace);
    free(plan);
    free(state);
}

/* A plan with no item left, and with all of them left; none at rest, and where the end is impossible; and a plan that is not the first of the
 * full sheet, which is 0 0 0. */
static void picks(void)
{
    static const uint8_t sheet_l[] = {1, 0, 0, 0, 35, 3, 0, 3, 3, 3, 2, 0, 1, 0, 6, 0, 1, 0,
                                      4, 0, 2, 0, 1, 0, 1, 0, 3, 1, 2, 0, 1, 0, 3, 0, 2};
    static const uint8_t sheet_fold[] = {1, 0, 0, 0, 23, 3, 0, 2, 2, 2, 2, 0, 1, 0, 1, 0, 2, 1, 2, 0, 1, 0, 3};
    pick_done(sheet_b, sizeof sheet_b, 21, (const uint8_t[]){0, 1}, UINT64_C(0x0001000900020100));
    pick_done(sheet_b, sizeof sheet_b, ZOMUWEDLI_MAX_TRACE, (const uint8_t[]){0, 1}, UINT64_C(0x0001000900020100));
    pick_done(sheet_k, sizeof sheet_k, 36, (const uint8_t[]){0, 0, 1}, UINT64_C(0x0001001200040100));
    pick_done(sheet_l, sizeof sheet_l, 41, (const uint8_t[]){0, 1, 0}, UINT64_C(0x0001000b00020200));
    pick_done(sheet_fold, sizeof sheet_fold, 31, (const uint8_t[]){1, 1, 0}, UINT64_C(0x0001000d00030100));
    pick_done(sheet_c, sizeof sheet_c, 31, NULL, UINT64_C(0x0000000100000200));
    pick_done(sheet_d, sizeof sheet_d, 11, NULL, UINT64_C(0x0000000600010000));
    pick_refused(sheet_b, 7, 21, 2, ZOMUWEDLI_STATE_LENGTH, ZOMUWEDLI_REFUSED_SHEET_FRONT);
    pick_refused(sheet_b, 15, 20, 3, ZOMUWEDLI_STATE_LENGTH, ZOMUWEDLI_REFUSED_SHEET_LENGTH);
    pick_refused(sheet_b, sizeof sheet_b, 20, 2, ZOMUWEDLI_STATE_LENGTH, ZOMUWEDLI_REFUSED_TRACE_BUFFER);
    pick_refused(sheet_b, sizeof sheet_b, 20, 3, ZOMUWEDLI_STATE_LENGTH, ZOMUWEDLI_REFUSED_TRACE_BUFFER);
    pick_refused(sheet_b, sizeof sheet_b, 0, 0, ZOMUWEDLI_STATE_LENGTH, ZOMUWEDLI_REFUSED_TRACE_BUFFER);
    pick_refused(sheet_b, sizeof sheet_b, 21, 3, ZOMUWEDLI_STATE_LENGTH, ZOMUWEDLI_REFUSED_RESULT_LENGTH);
    pick_refused(sheet_b, sizeof sheet_b, 21, 1, ZOMUWEDLI_STATE_LENGTH, ZOMUWEDLI_REFUSED_RESULT_LENGTH);
    pick_refused(sheet_b, sizeof sheet_b, 21, 0, ZOMUWEDLI_STATE_LENGTH, ZOMUWEDLI_REFUSED_RESULT_LENGTH);
    pick_refused(sheet_b, 7, 20, 3, ZOMUWEDLI_STATE_LENGTH - 1, ZOMUWEDLI_BAD_STATE);
    pick_refused(sheet_b, sizeof sheet_b, 21, 2, ZOMUWEDLI_STATE_LENGTH + 1, ZOMUWEDLI_REFUSED_RUN_STATE_LENGTH);
    EXPECT(zomuwedli_pick(NULL, 0, NULL, 0, NULL, 0, NULL, 0) == ZOMUWEDLI_BAD_STATE);
}

/* The sheet of docs/FORMAT.md, "Putting back": setting 1 of item 0 is barred with setting 1 of item 1 and with setting 3 of item 2. */
static const uint8_t sheet_cover[] = {1, 0, 0, 0, 23, 3, 0, 2, 2, 2, 4, 0, 1, 0, 3, 0, 1, 0, 2, 0, 15, 0, 7};

static void unlawful_records(void)
{
    const uint8_t spoiled[] = {1, 3, ZOMUWEDLI_SNAKE, 1, 0, 4, ZOMUWEDLI_COVER, 0, 0, 1};
    const uint8_t exchanged[] = {1, 4, ZOMUWEDLI_COVER, 0, 0, 1, 3, ZOMUWEDLI_SNAKE, 1, 0};
    const uint8_t mended[] = {1, 3, ZOMUWEDLI_SNAKE, 1, 0, 4, ZOMUWEDLI_COVER, 2, 3, 2, 4, ZOMUWEDLI_COVER, 0, 0, 1};
    const uint8_t itself[] = {1, 3, ZOMUWEDLI_SNAKE, 1, 0, 4, ZOMUWEDLI_COVER, 0, 1, 1}, out[] = {1, 3, 2, 1, 0, 3, 2, 1, 0};
    const uint8_t slide[] = {1, 4, ZOMUWEDLI_SLIDE, 0, 0, 1}, plan[] = {1, ZOMUWEDLI_OUT, 2};
    uint8_t *result = lent(3);
    unlawful(sheet_cover, sizeof sheet_cover, spoiled, sizeof spoiled, 1, 2, 3);
    unlawful(sheet_cover, sizeof sheet_cover, exchanged, sizeof exchanged, 0, 1, 1);
    unlawful(sheet_cover, sizeof sheet_cover, itself, sizeof itself, 1, ZOMUWEDLI_NOT_NAMED, ZOMUWEDLI_NOT_NAMED);
    unlawful(sheet_cover, sizeof sheet_cover, out, sizeof out, 1, ZOMUWEDLI_NOT_NAMED, ZOMUWEDLI_NOT_NAMED);
    unlawful(sheet_c, sizeof sheet_c, slide, sizeof slide, 0, ZOMUWEDLI_NOT_NAMED, ZOMUWEDLI_NOT_NAMED);
    EXPECT(zomuwedli_put_back(sheet_cover, sizeof sheet_cover, spoiled, sizeof spoiled, plan, 3, result, 3) == UINT64_C(0x0000000302000111));
    EXPECT(zomuwedli_put_back(sheet_cover, sizeof sheet_cover, mended, sizeof mended, plan, 3, result, 3) == 0);
    EXPECT(result[0] == 1 && result[1] == 0 && result[2] == 2);
    free(result);
}

/* Record numbers that one byte does not hold, named and not: the longest sheet's, with setting 15 of item 30 barred with every setting of
 * item 31; its trace takes covers at the items before, 15 for each. */
static void unlawful_far_on(void)
{
    enum { COVERS = 300, AT = 1 + 5 * COVERS };
    uint8_t free_sheet[LONGEST_SHEET], trace[LONGEST_TRACE + 4], sheet[LONGEST_SHEET + 34];
    fill_longest(free_sheet, trace);
    memcpy(trace + LONGEST_TRACE, (const uint8_t[]){3, ZOMUWEDLI_SNAKE, 31, 0}, 4);
    unlawful(free_sheet, sizeof free_sheet, trace, sizeof trace, 512, ZOMUWEDLI_NOT_NAMED, ZOMUWEDLI_NOT_NAMED);
    memset(sheet, 0xff, sizeof sheet);
    memcpy(sheet, free_sheet, sizeof free_sheet);
    memcpy(sheet + LONGEST_SHEET, (const uint8_t[]){30, 31}, 2);
    memset(sheet + sizeof sheet - 2, 0, 2);
    sheet[4] = sizeof sheet;
    sheet[7] = 1;
    memcpy(trace + AT, (const uint8_t[]){4, ZOMUWEDLI_COVER, 30, 0, 15}, 5);
    unlawful(sheet, sizeof sheet, trace, AT + 5, COVERS, 31, 0);
    memcpy(trace + AT, (const uint8_t[]){4, ZOMUWEDLI_COVER, 0, 1, 15}, 5);
    unlawful(sheet, sizeof sheet, trace, AT + 5, COVERS, ZOMUWEDLI_NOT_NAMED, ZOMUWEDLI_NOT_NAMED);
}

static void longest_trace(void)
{
    const uint8_t nought[32] = {0};
    uint8_t sheet[LONGEST_SHEET], trace[LONGEST_TRACE], plan[32], *result = lent(32);
    fill_longest(sheet, trace);
    memset(plan, ZOMUWEDLI_OUT, sizeof plan);
    EXPECT(zomuwedli_put_back(sheet, sizeof sheet, trace, sizeof trace, plan, 32, result, 32) == 0);
    EXPECT(memcmp(result, nought, 32) == 0);
    free(result);
}

/* A path of four vertices, the second edge given again the other way round, and its sheet for 2 channels. */
static const char path[] = "c a path\np edge 4 4\ne 2 1\ne 2 3\ne 3 2\ne 3 4\n";
static const uint8_t path_sheet[] = {1, 0, 0, 0, 30, 4, 0, 3, 2, 2, 2, 2, 0, 1, 0, 2, 0, 1, 1, 2, 0, 2, 0, 1, 2, 3, 0, 2, 0, 1};

/* The call with a file of exactly so many bytes on the heap, so that memcheck sees a byte beyond it. */
static uint64_t coloured(const char *text, size_t length, uint64_t channels, uint8_t *sheet, size_t sheet_length)
{
    uint8_t *file = copied((const uint8_t *)text, length);
    uint64_t answer = zomuwedli_colour(file, length, channels, sheet, sheet_length);
    EXPECT(memcmp(file, text, length) == 0);
    free(file);
    return answer;
}

static void colour_done(size_t sheet_length)
{
    uint8_t *sheet = lent(sheet_length), *old = lent(sheet_length);
    uint64_t answer = coloured(path, strlen(path), 2, sheet, sheet_length);
    EXPECT(zomuwedli_number(answer) == ZOMUWEDLI_DONE);
    EXPECT(zomuwedli_sheet_written(answer) == sizeof path_sheet);
    EXPECT(answer >> 32 == 0);
    EXPECT(memcmp(sheet, path_sheet, sizeof path_sheet) == 0);
    EXPECT(memcmp(sheet + sizeof path_sheet, old + sizeof path_sheet, sheet_length - sizeof path_sheet) == 0);
    EXPECT(zomuwedli_items(zomuwedli_read(sheet, sizeof path_sheet)) == 4);
    free(sheet);
    free(old);
}

/* The whole answer is the number, and no byte of the buffer is changed. */
static void colour_refused(const char *text, size_t length, uint64_t channels, size_t sheet_length, uint64_t number)
{
    uint8_t *sheet = lent(sheet_length);
    expect(coloured(text, length, channels, sheet, sheet_length) == number, text);
    EXPECT(as_lent(sheet, sheet_length));
    free(sheet);
}

/* A text that is refused, for 2 channels and a buffer that is long enough. */
static void text_refused(const char *text, uint64_t number) { colour_refused(text, strlen(text), 2, sizeof path_sheet, number); }

/* Each number by its causes, and before the later ones: what comes later stands in the text, the channels or the buffer. */
static void colour_causes(void)
{
    text_refused("", ZOMUWEDLI_REFUSED_GRAPH_FILE);
    text_refused("p col 2 1\ne 1 2\n", ZOMUWEDLI_REFUSED_GRAPH_FILE);
    text_refused("p edge 2 1\ne 1 2\n\n", ZOMUWEDLI_REFUSED_GRAPH_FILE);
    text_refused("p edge 2 2\ne 1 2\np edge 2 2\ne 1 2\n", ZOMUWEDLI_REFUSED_GRAPH_FILE);
    text_refused("e 1 2\np edge 2 1\n", ZOMUWEDLI_REFUSED_GRAPH_FILE);
    text_refused("p edge 2 1\ne 1 3\n", ZOMUWEDLI_REFUSED_GRAPH_FILE);
    text_refused("p edge 40 3\ne 1 1\ne 0 1\n", ZOMUWEDLI_REFUSED_GRAPH_FILE);
    text_refused("p edge 40 3\ne 1 2\ne 1 01\n", ZOMUWEDLI_REFUSED_GRAPH_LOOP);
    text_refused("p edge 40 3\ne 1 2\ne 1 40\n", ZOMUWEDLI_REFUSED_EDGE_COUNT);
    text_refused("p edge 33 1\ne 1 33\n", ZOMUWEDLI_REFUSED_COLOUR_RANGE);
    text_refused("p edge 0 0", ZOMUWEDLI_REFUSED_COLOUR_RANGE);
    colour_refused(path, strlen(path), 0, 0, ZOMUWEDLI_REFUSED_COLOUR_RANGE);
    colour_refused(path, strlen(path), 17, 0, ZOMUWEDLI_REFUSED_COLOUR_RANGE);
    colour_refused(path, strlen(path), UINT64_C(1) << 40 | 2, 0, ZOMUWEDLI_REFUSED_COLOUR_RANGE);
    colour_refused(path, strlen(path), 2, 0, ZOMUWEDLI_REFUSED_SHEET_BUFFER);
    colour_refused(path, strlen(path), 2, sizeof path_sheet - 1, ZOMUWEDLI_REFUSED_SHEET_BUFFER);
    EXPECT(zomuwedli_colour(NULL, 0, 2, NULL, 0) == ZOMUWEDLI_REFUSED_GRAPH_FILE);
    EXPECT(zomuwedli_colour((const uint8_t *)path, sizeof path - 1, 2, NULL, 0) == ZOMUWEDLI_REFUSED_SHEET_BUFFER);
}

/* A file of 64 KiB, and one byte more: the path, and one long comment after it. */
static void longest_file(void)
{
    static char text[ZOMUWEDLI_MAX_FILE + 2];
    uint8_t *sheet = lent(sizeof path_sheet);
    memset(text, 'c', ZOMUWEDLI_MAX_FILE + 1);
    memcpy(text, path, strlen(path));
    colour_refused(text, ZOMUWEDLI_MAX_FILE + 1, 2, sizeof path_sheet, ZOMUWEDLI_REFUSED_GRAPH_FILE);
    EXPECT(zomuwedli_sheet_written(coloured(text, ZOMUWEDLI_MAX_FILE, 2, sheet, sizeof path_sheet)) == sizeof path_sheet);
    EXPECT(memcmp(sheet, path_sheet, sizeof path_sheet) == 0);
    free(sheet);
}

/* The sheet of docs/FORMAT.md, "The sheet", that has both widths: items of 8, 9 and 8 settings. */
static const uint8_t sheet_widths[] = {1, 0, 0, 0, 49, 3, 0, 2, 8, 9, 8,
                                       0, 1, 0, 3, 0, 6, 0, 12, 0, 24, 0, 48, 0, 96, 0, 192, 1, 128,
                                       1, 2, 0, 1, 0, 2, 0, 4, 0, 8, 0, 16, 0, 32, 0, 64, 0, 128, 0, 1};
static const uint8_t moved_widths[] = {2, 0, 0, 0, 40, 3, 0, 2, 8, 9, 8,
                                       0, 1, 0, 3, 0, 6, 0, 12, 0, 24, 0, 48, 0, 96, 0, 192, 1, 128,
                                       1, 2, 1, 2, 4, 8, 16, 32, 64, 128, 1};

/* Both ways, with targets just long enough, longer, and too short: 26 goes by the length of what is written. */
static void moves(void)
{
    move_done(sheet_b, sizeof sheet_b, moved_b, sizeof moved_b, sizeof moved_b);
    move_done(sheet_b, sizeof sheet_b, moved_b, sizeof moved_b, ZOMUWEDLI_MAX_SHEET);
    move_done(moved_b, sizeof moved_b, sheet_b, sizeof sheet_b, sizeof sheet_b);
    move_done(moved_b, sizeof moved_b, sheet_b, sizeof sheet_b, sizeof sheet_b + 5);
    move_done(sheet_widths, sizeof sheet_widths, moved_widths, sizeof moved_widths, sizeof moved_widths);
    move_done(moved_widths, sizeof moved_widths, sheet_widths, sizeof sheet_widths, sizeof sheet_widths);
    move_refused(sheet_b, sizeof sheet_b, sizeof moved_b - 1, ZOMUWEDLI_REFUSED_TARGET_BUFFER);
    move_refused(moved_b, sizeof moved_b, sizeof sheet_b - 1, ZOMUWEDLI_REFUSED_TARGET_BUFFER);
    move_refused(moved_b, sizeof moved_b, sizeof moved_b, ZOMUWEDLI_REFUSED_TARGET_BUFFER);
    EXPECT(zomuwedli_move(sheet_b, sizeof sheet_b, NULL, 0) == ZOMUWEDLI_REFUSED_TARGET_BUFFER);
    EXPECT(zomuwedli_move(NULL, 0, NULL, 0) == ZOMUWEDLI_REFUSED_SHEET_FRONT);
}

/* What the other calls answer on one sheet, and all that they write. */
struct told {
    uint64_t read, run, start, calls[ZOMUWEDLI_MAX_ITEMS + 1], put_back, pick;
    uint8_t trace[ZOMUWEDLI_MAX_TRACE], state[ZOMUWEDLI_STATE_LENGTH], hand_state[ZOMUWEDLI_HAND_STATE_LENGTH], result[ZOMUWEDLI_MAX_ITEMS];
    uint8_t pick_trace[ZOMUWEDLI_MAX_TRACE], plan[ZOMUWEDLI_MAX_ITEMS], pick_state[ZOMUWEDLI_STATE_LENGTH];
};

/* A hand call names each item, and one that there is not. */
static void tell(struct told *told, const uint8_t *sheet, size_t length, const uint8_t *trace, size_t trace_length, const uint8_t *plan)
{
    const size_t n = sheet[5];
    memset(told, 0xa5, sizeof *told);
    told->read = zomuwedli_read(sheet, length);
    told->run = zomuwedli_run(sheet, length, told->trace, sizeof told->trace, told->state, sizeof told->state);
    told->start = zomuwedli_start(sheet, length, told->hand_state, sizeof told->hand_state);
    for (size_t item = 0; item <= n; item++) {
        told->calls[item] = zomuwedli_hand_call(sheet, length, told->hand_state, sizeof told->hand_state, item);
    }
    told->put_back = zomuwedli_put_back(sheet, length, trace, trace_length, plan, n, told->result, n);
    told->pick = zomuwedli_pick(sheet, length, told->pick_trace, sizeof told->pick_trace, told->plan, n, told->pick_state,
                                sizeof told->pick_state);
}

/* Every other call answers on the moved sheet as on the sheet, whatever else it is lent, and leaves the same bytes; putting back is expected
 * to answer so. */
static void alike(const uint8_t *sheet, size_t length, const uint8_t *trace, size_t trace_length, const uint8_t *plan, uint64_t expected)
{
    static struct told here, there;
    uint8_t *target = lent(length);
    size_t written = zomuwedli_sheet_written(zomuwedli_move(sheet, length, target, length));
    uint8_t *moved = copied(target, written);
    EXPECT(moved[0] == 2);
    tell(&here, sheet, length, trace, trace_length, plan);
    tell(&there, moved, written, trace, trace_length, plan);
    EXPECT(here.read == there.read && here.run == there.run && here.start == there.start && here.pick == there.pick);
    EXPECT(zomuwedli_number(there.read) == 0 && zomuwedli_number(there.run) == 0 && there.start == 0 && zomuwedli_number(there.pick) == 0);
    EXPECT(here.put_back == expected && there.put_back == expected);
    EXPECT(memcmp(&here, &there, sizeof here) == 0);
    free(target);
    free(moved);
}

/* Traces and plans that were made with version 1 serve with version 2, and are refused with it as they were. A trace has no version 2. */
static void version_2(void)
{
    const uint8_t out[] = {ZOMUWEDLI_OUT, ZOMUWEDLI_OUT, ZOMUWEDLI_OUT}, barred[] = {0, 1, 0}, trace_2[] = {2};
    const uint8_t bare_d[] = {1, 4, ZOMUWEDLI_BARE, 0, 0, 1}, cut[] = {1, 3}, none[] = {1};
    const uint8_t spoiled[] = {1, 3, ZOMUWEDLI_SNAKE, 1, 0, 4, ZOMUWEDLI_COVER, 0, 0, 1};
    const uint8_t widths[] = {1, 3, ZOMUWEDLI_SNAKE, 1, 0, 3, ZOMUWEDLI_SNAKE, 0, 0, 3, ZOMUWEDLI_SNAKE, 2, 0};
    alike(sheet_b, sizeof sheet_b, trace_b, sizeof trace_b, out, ZOMUWEDLI_DONE);
    alike(sheet_b, sizeof sheet_b, trace_2, sizeof trace_2, barred, ZOMUWEDLI_REFUSED_TRACE_FRONT);
    alike(sheet_c, sizeof sheet_c, none, sizeof none, barred, ZOMUWEDLI_REFUSED_PLAN_UNFIT);
    alike(sheet_c, sizeof sheet_c, cut, sizeof cut, barred, ZOMUWEDLI_REFUSED_RECORD_SHAPE);
    alike(sheet_d, sizeof sheet_d, bare_d, sizeof bare_d, out, ZOMUWEDLI_REFUSED_PLAN_UNFIT);
    alike(sheet_k, sizeof sheet_k, trace_k, sizeof trace_k, out, ZOMUWEDLI_DONE);
    alike(sheet_cover, sizeof sheet_cover, spoiled, sizeof spoiled, out, UINT64_C(0x0000000302000111));
    alike(sheet_widths, sizeof sheet_widths, widths, sizeof widths, out, ZOMUWEDLI_DONE);
    run_refused(moved_b, sizeof moved_b, 20, ZOMUWEDLI_STATE_LENGTH, ZOMUWEDLI_REFUSED_TRACE_BUFFER);
    pick_done(moved_b, sizeof moved_b, 21, (const uint8_t[]){0, 1}, UINT64_C(0x0001000900020100));
    pick_refused(moved_b, sizeof moved_b, 21, 3, ZOMUWEDLI_STATE_LENGTH, ZOMUWEDLI_REFUSED_RESULT_LENGTH);
    pick_refused(moved_b, sizeof moved_b - 1, 20, 3, ZOMUWEDLI_STATE_LENGTH, ZOMUWEDLI_REFUSED_SHEET_LENGTH);
}

static void version(void)
{
    char text[32];
    snprintf(text, sizeof text, "%d.%d.%d", ZOMUWEDLI_VERSION_MAJOR, ZOMUWEDLI_VERSION_MINOR, ZOMUWEDLI_VERSION_PATCH);
    EXPECT(strcmp(text, ZOMUWEDLI_VERSION) == 0);
    EXPECT(ZOMUWEDLI_VERSION_MINOR < 100 && ZOMUWEDLI_VERSION_PATCH < 100);
}

/* The numbers that the format has. They stand here again, so that one that the header lacks is missed. */
static int is_refusal(unsigned number) { return (number >= 1 && number <= 26) || number == 200 || number == 201; }

/* Each refusal has a text of its own, 0 has "done", and every other number has one text, which is none of these. */
static void texts(void)
{
    const char *unknown = zomuwedli_text(UINT_MAX);
    EXPECT(strcmp(zomuwedli_text(0), "done") == 0);
    EXPECT(strlen(unknown) > 8 && strcmp(unknown, "done") != 0);
    for (unsigned number = 1; number < 300; number++) {
        const char *text = zomuwedli_text(number);
        if ((strcmp(text, unknown) != 0) != is_refusal(number) || strlen(text) < 8) {
            printf("boundary: %u has the text: %s\n", number, text);
            failures++;
        }
        for (unsigned other = 0; is_refusal(number) && other < number; other++) {
            expect(strcmp(text, zomuwedli_text(other)) != 0, text);
        }
    }
}

static void kinds(void)
{
    static const char *const words[] = {"unknown", "bare", "snake", "fold", "cover", "slide", "unknown"};
    for (unsigned kind = 0; kind < sizeof words / sizeof words[0]; kind++) {
        expect(strcmp(zomuwedli_kind_text(kind), words[kind]) == 0, words[kind]);
    }
    EXPECT(ZOMUWEDLI_BARE == 1 && ZOMUWEDLI_SNAKE == 2 && ZOMUWEDLI_FOLD == 3 && ZOMUWEDLI_COVER == 4 && ZOMUWEDLI_SLIDE == 5);
    EXPECT(zomuwedli_kind_fields(0) == 0 && zomuwedli_kind_fields(6) == 0 && zomuwedli_kind_fields(UINT_MAX) == 0);
}

static const uint8_t trace_of_all_kinds[] = {1, 4, 1, 2, 3, 4, 3, 2, 5, 6, 3, 3, 7, 8, 4, 4, 9, 10, 11, 4, 5, 12, 13, 255};

static void walk_fields(void)
{
    static const struct zomuwedli_record expected[] = {
        {4, ZOMUWEDLI_BARE, 2, 3, 4}, {3, ZOMUWEDLI_SNAKE, 5, 6, 0},     {3, ZOMUWEDLI_FOLD, 7, 8, 0},
        {4, ZOMUWEDLI_COVER, 9, 10, 11}, {4, ZOMUWEDLI_SLIDE, 12, 13, 255},
    };
    struct zomuwedli_record record;
    size_t at = ZOMUWEDLI_TRACE_FIRST;
    for (unsigned k = 0; k < 5; k++) {
        memset(&record, 0xa5, sizeof record);
        EXPECT(zomuwedli_next_record(trace_of_all_kinds, sizeof trace_of_all_kinds, &at, &record) == 1);
        EXPECT(record.fields == expected[k].fields && record.kind == expected[k].kind && record.item == expected[k].item);
        EXPECT(record.third == expected[k].third && record.fourth == expected[k].fourth);
    }
    EXPECT(at == sizeof trace_of_all_kinds);
    EXPECT(zomuwedli_next_record(trace_of_all_kinds, sizeof trace_of_all_kinds, &at, &record) == 0);
    EXPECT(at == sizeof trace_of_all_kinds);
}

/* Every field goes here, so that the compiler keeps its reading, which memcheck looks at. */
static volatile unsigned seen;

/* Walks a copy of exactly so many bytes on the heap, so that memcheck sees a byte beyond it. Answers the records, or -1 - them where what
 * stands after them is malformed. */
static int walked(const uint8_t *bytes, size_t length)
{
    uint8_t *trace = copied(bytes, length);
    struct zomuwedli_record record;
    size_t at = ZOMUWEDLI_TRACE_FIRST, from = at;
    int records = 0, more;
    while ((more = zomuwedli_next_record(trace, length, &at, &record)) == 1) {
        records++;
        seen = record.item + record.third + record.fourth;
        EXPECT((record.fields == 3 || record.fields == 4) && at == from + 1 + record.fields);
        from = at;
    }
    EXPECT(more == 0 ? at == length : more == -1 && at == from);
    free(trace);
    return more == 0 ? records : -1 - records;
}

/* The trace of all kinds, cut to each of its lengths: a record is whole, or the cut shows. */
static void walk_cut(void)
{
    static const int expected[] = {-1, 0, -1, -1, -1, -1, 1, -2, -2, -2, 2, -3, -3, -3, 3, -4, -4, -4, -4, 4, -5, -5, -5, -5, 5};
    for (size_t length = 0; length <= sizeof trace_of_all_kinds; length++) {
        EXPECT(walked(trace_of_all_kinds, length) == expected[length]);
    }
}

/* A place that no record begins at is refused, and nothing is moved or written. */
static void walk_astray(void)
{
    static const size_t places[] = {0, 2, sizeof trace_b + 1, SIZE_MAX};
    const struct zomuwedli_record untouched = {91, 92, 93, 94, 95};
    uint8_t *trace = copied(trace_b, sizeof trace_b);
    for (unsigned k = 0; k < sizeof places / sizeof places[0]; k++) {
        struct zomuwedli_record record = untouched;
        size_t at = places[k];
        EXPECT(zomuwedli_next_record(trace, sizeof trace_b, &at, &record) == -1);
        EXPECT(at == places[k]);
        EXPECT(memcmp(&record, &untouched, sizeof record) == 0);
    }
    free(trace);
    struct zomuwedli_record record;
    size_t at = 0;
    EXPECT(zomuwedli_next_record(NULL, 0, &at, &record) == -1);
}

/* Putting back, on sheet B with both items left, of a trace of one record: the walk finds it malformed exactly where putting back does. */
static void walk_as_put_back(const uint8_t *trace, size_t length)
{
    const uint8_t plan[] = {0, 1};
    uint8_t result[2];
    uint64_t number = zomuwedli_put_back(sheet_b, sizeof sheet_b, trace, length, plan, 2, result, 2);
    int malformed = number == ZOMUWEDLI_REFUSED_TRACE_FRONT || number == ZOMUWEDLI_REFUSED_RECORD_SHAPE;
    EXPECT((walked(trace, length) < 0) == malformed);
}

/* Every length byte and kind near the known ones and at the far end, whole and cut at each place, under each version. */
static void walk_shapes(void)
{
    static const uint8_t near[] = {0, 1, 2, 3, 4, 5, 6, 7, 254, 255};
    for (unsigned k = 0; k < sizeof near; k++) {
        for (unsigned j = 0; j < sizeof near; j++) {
            const uint8_t good[] = {1, near[k], near[j], 0, 0, 1}, bad[] = {2, near[k], near[j], 0, 0, 1};
            size_t whole = near[j] == ZOMUWEDLI_SNAKE || near[j] == ZOMUWEDLI_FOLD ? 5 : 6;
            for (size_t length = 0; length <= whole; length++) {
                walk_as_put_back(good, length);
                walk_as_put_back(bad, length);
            }
        }
    }
}

int main(void)
{
    version();
    texts();
    kinds();
    walk_fields();
    walk_cut();
    walk_astray();
    walk_shapes();
    read_check();
    run_done(21);
    run_done(ZOMUWEDLI_MAX_TRACE);
    run_refused(sheet_b, sizeof sheet_b, 20, ZOMUWEDLI_STATE_LENGTH, ZOMUWEDLI_REFUSED_TRACE_BUFFER);
    run_refused(sheet_b, 7, 20, ZOMUWEDLI_STATE_LENGTH, ZOMUWEDLI_REFUSED_SHEET_FRONT);
    run_refused(sheet_b, 7, 20, ZOMUWEDLI_STATE_LENGTH - 1, ZOMUWEDLI_BAD_STATE);
    run_refused(sheet_b, sizeof sheet_b, 21, ZOMUWEDLI_STATE_LENGTH + 1, ZOMUWEDLI_REFUSED_RUN_STATE_LENGTH);
    run_refused(sheet_b, sizeof sheet_b, 21, 0, ZOMUWEDLI_BAD_STATE);
    start_and_call();
    hand_state_refused(0);
    hand_state_refused(ZOMUWEDLI_HAND_STATE_LENGTH - 1);
    hand_state_refused(ZOMUWEDLI_HAND_STATE_LENGTH + 1);
    put_back();
    slides();
    unlawful_records();
    unlawful_far_on();
    longest_trace();
    picks();
    colour_done(sizeof path_sheet);
    colour_done(ZOMUWEDLI_MAX_SHEET);
    colour_causes();
    longest_file();
    moves();
    version_2();
    return failures == 0 ? 0 : 1;
}
