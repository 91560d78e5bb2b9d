/* Zomuwedli for C: every job of the proved library, over numbers and byte buffers. What each job does is in docs/FORMAT.md; the answers and
 * the bytes of a state are under "The state's bytes and the C boundary". Programs that use it stand in examples/c/.
 *
 * Link libzomuwedli.a, which `make` writes to target/staticlib/ for x86-64 Linux. It allocates nothing, keeps nothing between calls, so that
 * threads need no lock, and calls nothing of the C library but memset and memcpy (tests/callers looks at the archive). The functions that are
 * written out here are the caller's own code and nothing of them is proved; tests/boundary.c tries them.
 *
 * Buffers. Each is an address and then a length in bytes. It is read, and written, within that length only. An address is not followed
 * where the length is 0. The caller's part, which nothing checks: the lengths are those of its memory, and a buffer that a call writes
 * overlaps no other buffer of that call.
 *
 * Answers. Each call answers one number. Its low byte, zomuwedli_number(answer), is 0 where the job was done, and otherwise the one number
 * of the call's first fault, as ZOMUWEDLI_REFUSALS lists them. A refused call changes no byte of any buffer. The other fields of an answer
 * are 0 where the call was refused, but for 17 of putting back, which has fields of its own; the functions after each declaration take them
 * out. To compare a refused answer with a constant, take its number first.
 *
 * Stack. No contract speaks of it. Leave each call as much as its constant says, which is above what tests/stack.c measures on sheets of
 * 32 items of 16 settings, a trace of 512 records and colouring files of 64 KiB:
 *
 *     zomuwedli_read         ZOMUWEDLI_READ_STACK         4 KiB
 *     zomuwedli_run          ZOMUWEDLI_RUN_STACK         56 KiB, since it remembers which tests failed
 *     zomuwedli_start        ZOMUWEDLI_START_STACK       40 KiB
 *     zomuwedli_hand_call    ZOMUWEDLI_HAND_CALL_STACK   40 KiB
 *     zomuwedli_put_back     ZOMUWEDLI_PUT_BACK_STACK   320 KiB, since it keeps a state for each record of the trace
 *     zomuwedli_pick         ZOMUWEDLI_PICK_STACK       320 KiB, since it puts back inside
 *     zomuwedli_colour       ZOMUWEDLI_COLOUR_STACK      40 KiB
 *     zomuwedli_move         ZOMUWEDLI_MOVE_STACK        40 KiB
 */
#ifndef ZOMUWEDLI_H
#define ZOMUWEDLI_H

#include <stddef.h>
#include <stdint.h>

#ifdef __cplusplus
extern "C" {
#endif

/* The version, and as one number to compare with: 100 for 0.1.0, 10203 for 1.2.3. */
#define ZOMUWEDLI_VERSION_MAJOR 0
#define ZOMUWEDLI_VERSION_MINOR 1
#define ZOMUWEDLI_VERSION_PATCH 0
#define ZOMUWEDLI_VERSION "0.1.0"
#define ZOMUWEDLI_VERSION_NUMBER (ZOMUWEDLI_VERSION_MAJOR * 10000 + ZOMUWEDLI_VERSION_MINOR * 100 + ZOMUWEDLI_VERSION_PATCH)

/* The longest sheet, which has as many bytes in version 1 as in version 2, the most items, and the most settings of one item. */
#define ZOMUWEDLI_MAX_SHEET 16904
#define ZOMUWEDLI_MAX_ITEMS 32
#define ZOMUWEDLI_MAX_SETTINGS 16

/* A trace buffer that is long enough for every sheet: 1 + 5 x 512 bytes. */
#define ZOMUWEDLI_MAX_TRACE 2561

/* The longest colouring file. */
#define ZOMUWEDLI_MAX_FILE 65536

/* The bytes of a run's state, big-endian: the items in (4 bytes, bit i for item i), then the settings on of items 0 to 31 (2 bytes each,
 * bit c for setting c). */
#define ZOMUWEDLI_STATE_LENGTH 68

/* The bytes of a hand state. It has a length of its own; today its bytes are those of a run's state. */
#define ZOMUWEDLI_HAND_STATE_LENGTH 68

/* The plan's byte for an item that is out. */
#define ZOMUWEDLI_OUT 255

/* The item and the setting of 17 where none is named. */
#define ZOMUWEDLI_NOT_NAMED 255

/* The stack for each call, as above, and for any but putting back and picking. */
#define ZOMUWEDLI_READ_STACK (4 * 1024)
#define ZOMUWEDLI_RUN_STACK (56 * 1024)
#define ZOMUWEDLI_START_STACK (40 * 1024)
#define ZOMUWEDLI_HAND_CALL_STACK (40 * 1024)
#define ZOMUWEDLI_PUT_BACK_STACK (320 * 1024)
#define ZOMUWEDLI_PICK_STACK (320 * 1024)
#define ZOMUWEDLI_COLOUR_STACK (40 * 1024)
#define ZOMUWEDLI_MOVE_STACK (40 * 1024)
#define ZOMUWEDLI_STACK (56 * 1024)

/* ---- The refusals: the constant, the number and the text of each. The numbers are those of docs/FORMAT.md, "Where each thing is turned
 * away"; in which order they are looked for stands with each call. A new number is one line here. */
#define ZOMUWEDLI_REFUSALS(ROW) \
    /* the sheet, in every call that is lent one */ \
    ROW(ZOMUWEDLI_REFUSED_SHEET_FRONT, 1, "the sheet has fewer than 8 bytes") \
    ROW(ZOMUWEDLI_REFUSED_SHEET_VERSION, 2, "byte 0 of the sheet is neither 1 nor 2") \
    ROW(ZOMUWEDLI_REFUSED_SHEET_LENGTH, 3, "the sheet's stated length is not the length lent") \
    ROW(ZOMUWEDLI_REFUSED_ITEM_COUNT, 4, "the number of items is 0 or above 32") \
    ROW(ZOMUWEDLI_REFUSED_ITEM_SIZE, 5, "a size is missing, 0 or above 16") \
    ROW(ZOMUWEDLI_REFUSED_BLOCK_BYTES, 6, "a block's bytes are missing or cut short, or bytes are left over after the blocks") \
    ROW(ZOMUWEDLI_REFUSED_BLOCK_ORDER, 7, "a block is without i < j < n, or not after the block before") \
    ROW(ZOMUWEDLI_REFUSED_ROW_BEYOND, 8, "a row has a bit for a setting that item j lacks") \
    ROW(ZOMUWEDLI_REFUSED_BARS_NOTHING, 9, "a block bars nothing") \
    /* the run, and picking, which has 20 after it */ \
    ROW(ZOMUWEDLI_REFUSED_TRACE_BUFFER, 10, "the trace buffer is shorter than 1 + 5 x the sum of the sizes") \
    /* the hand call */ \
    ROW(ZOMUWEDLI_REFUSED_STATE_MISFIT, 11, "the state does not fit the sheet") \
    ROW(ZOMUWEDLI_REFUSED_ITEM_NOT_IN, 12, "the named item is not on the sheet or not in") \
    ROW(ZOMUWEDLI_REFUSED_ITEM_EMPTY, 13, "some item in has no setting on") \
    ROW(ZOMUWEDLI_REFUSED_NO_SNAKE, 14, "the snake rule holds for no setting of the named item") \
    /* putting back; 18 and 20 come before 15 */ \
    ROW(ZOMUWEDLI_REFUSED_TRACE_FRONT, 15, "the trace has no byte, or its byte 0 is not 1") \
    ROW(ZOMUWEDLI_REFUSED_RECORD_SHAPE, 16, "a record is cut short, of an unknown kind, or has a wrong length byte") \
    ROW(ZOMUWEDLI_REFUSED_RECORD_UNLAWFUL, 17, "a record is not lawful in the state reached, or an item in has no setting on there") \
    ROW(ZOMUWEDLI_REFUSED_PLAN_LENGTH, 18, "the plan does not have one byte for each item") \
    ROW(ZOMUWEDLI_REFUSED_PLAN_UNFIT, 19, "the plan has an item out that is not 255, a setting not on, or a barred pair") \
    ROW(ZOMUWEDLI_REFUSED_RESULT_LENGTH, 20, "the buffer for the finished plan does not have one byte for each item") \
    /* the sheet of a colouring file */ \
    ROW(ZOMUWEDLI_REFUSED_GRAPH_FILE, 21, "the colouring file is over 64 KiB, has a line of no known form, has no p line or a second one or one after an e line, or names a vertex outside the stated range") \
    ROW(ZOMUWEDLI_REFUSED_GRAPH_LOOP, 22, "both ends of an edge are one vertex") \
    ROW(ZOMUWEDLI_REFUSED_EDGE_COUNT, 23, "the e lines are not as many as the p line states") \
    ROW(ZOMUWEDLI_REFUSED_COLOUR_RANGE, 24, "the vertices are not 1 to 32, or the channels not 1 to 16") \
    ROW(ZOMUWEDLI_REFUSED_SHEET_BUFFER, 25, "the sheet buffer is shorter than the sheet") \
    /* the move */ \
    ROW(ZOMUWEDLI_REFUSED_TARGET_BUFFER, 26, "the target buffer is shorter than the moved sheet") \
    /* the boundary's own, before every other of their calls */ \
    ROW(ZOMUWEDLI_REFUSED_RUN_STATE_LENGTH, 200, "the buffer for the run's state is not 68 bytes") \
    ROW(ZOMUWEDLI_REFUSED_HAND_STATE_LENGTH, 201, "the buffer for the hand state is not 68 bytes")

#define ZOMUWEDLI_CONSTANT_ROW(name, number, text) name = number,
#define ZOMUWEDLI_TEXT_ROW(name, number, text) \
    case number: \
        return text;

enum zomuwedli_refusal { ZOMUWEDLI_DONE = 0, ZOMUWEDLI_REFUSALS(ZOMUWEDLI_CONSTANT_ROW) };

/* The shorter names of the boundary's two. */
#define ZOMUWEDLI_BAD_STATE ZOMUWEDLI_REFUSED_RUN_STATE_LENGTH
#define ZOMUWEDLI_BAD_HAND_STATE ZOMUWEDLI_REFUSED_HAND_STATE_LENGTH

/* 0, or the number of the first fault. */
static inline unsigned zomuwedli_number(uint64_t answer) { return (unsigned)(answer & 0xff); }

/* What a number says, without a full stop, for a message. Never NULL. */
static inline const char *zomuwedli_text(unsigned number)
{
    switch (number) {
        ZOMUWEDLI_REFUSALS(ZOMUWEDLI_TEXT_ROW)
    case ZOMUWEDLI_DONE:
        return "done";
    default:
        return "no refusal has this number";
    }
}

/* ---- The read check: whether the bytes are a sheet, of version 1 or 2. Every call that is lent a sheet takes both, and every one but the
 * move answers alike on a sheet and on the same sheet in the other version. Refused: 1 to 9. */
uint64_t zomuwedli_read(const uint8_t *sheet, size_t sheet_length);

static inline unsigned zomuwedli_items(uint64_t answer) { return (unsigned)(answer >> 8 & 0xff); }
static inline unsigned zomuwedli_blocks(uint64_t answer) { return (unsigned)(answer >> 16 & 0xffff); }

/* ---- The run: works the sheet down to its end. Refused: 200, then 1 to 9, then 10.
 * Writes the trace at the front of its buffer, which keeps its old bytes after that, and the last state. The trace buffer has at least
 * 1 + 5 x the sum of the sizes. */
uint64_t zomuwedli_run(const uint8_t *sheet, size_t sheet_length, uint8_t *trace, size_t trace_length, uint8_t *state,
                       size_t state_length);

/* How a run ends. */
#define ZOMUWEDLI_IMPOSSIBLE 0 /* an item in has no setting on: the full sheet has no plan */
#define ZOMUWEDLI_SOLVED 1     /* no item is in: the full sheet has a plan, and putting back gives one */
#define ZOMUWEDLI_REST 2       /* items are in and no rule holds: a search decides */

static inline unsigned zomuwedli_end(uint64_t answer) { return (unsigned)(answer >> 8 & 0xff); }
static inline unsigned zomuwedli_steps(uint64_t answer) { return (unsigned)(answer >> 16 & 0xffff); }
static inline unsigned zomuwedli_written(uint64_t answer) { return (unsigned)(answer >> 32 & 0xffff); }

/* ---- Starting to take out by hand. Refused: 201, then 1 to 9.
 * Writes the state with all items in and the largest sets of settings in which each has a partner at every other item. (By docs/FORMAT.md,
 * "Taking out by hand", a refused start answers the state without items; here the buffer is left as it was.) */
uint64_t zomuwedli_start(const uint8_t *sheet, size_t sheet_length, uint8_t *state, size_t state_length);

/* ---- One hand call: takes the named item out under the snake rule. Refused: 201, then 1 to 9, then 11, 12, 13, 14.
 * Reads the state and writes the new one over it. The item may be any number. */
uint64_t zomuwedli_hand_call(const uint8_t *sheet, size_t sheet_length, uint8_t *state, size_t state_length, uint64_t item);

static inline unsigned zomuwedli_setting(uint64_t answer) { return (unsigned)(answer >> 8 & 0xff); }

/* ---- Putting back: from a trace, whoever wrote it, and a plan for the items left, the plan of the full sheet.
 * Refused: 1 to 9, then 18, 20, 15, then 16 and 17 record by record, then 19. The plan has one byte an item, ZOMUWEDLI_OUT for an item
 * out; the result has as many. */
uint64_t zomuwedli_put_back(const uint8_t *sheet, size_t sheet_length, const uint8_t *trace, size_t trace_length, const uint8_t *plan,
                            size_t plan_length, uint8_t *result, size_t result_length);

/* What an answer with 17, ZOMUWEDLI_REFUSED_RECORD_UNLAWFUL, carries; of any other answer these are without meaning. The record's number
 * counts from 0, and the records before it are lawful. Where it is a cover (kind 4, b and a at item i) against which nothing else speaks,
 * the item is the lowest at which a does not cover b, and the setting is the lowest on there that is allowed with b and barred with a:
 * switch it off first, or name another a. With every other cause both are ZOMUWEDLI_NOT_NAMED. */
static inline unsigned zomuwedli_unlawful_record(uint64_t answer) { return (unsigned)(answer >> 8 & 0xffff); }
static inline unsigned zomuwedli_unlawful_item(uint64_t answer) { return (unsigned)(answer >> 24 & 0xff); }
static inline unsigned zomuwedli_unlawful_setting(uint64_t answer) { return (unsigned)(answer >> 32 & 0xff); }

/* ---- Picking a plan: from a sheet to a finished plan of it, in one call. It runs the sheet, searches among the items left, lowest item
 * first, lowest setting first, and puts the first plan in that order back. Refused: 200, then 1 to 9, then 10, then 20.
 * Writes the run's trace at the front of its buffer, which keeps its old bytes after that, and the run's last state, with a plan and
 * without; and the plan, one byte an item, where there is one. Where there is none, zomuwedli_has_plan is 0, the sheet has no plan at all,
 * and the lent plan is as it was: that is an answer, and no refusal. What the plan holds before the call is not read. The trace buffer has
 * at least 1 + 5 x the sum of the sizes, the plan exactly one byte for each item, which sheet[5] counts.
 * The time has no bound but the sheet: in the worst case it is exponential in the number of items left, and the call cannot be broken off.
 * Most sheets take milliseconds; docs/PERFORMANCE.md says which of a corpus of 200 were hard. */
uint64_t zomuwedli_pick(const uint8_t *sheet, size_t sheet_length, uint8_t *trace, size_t trace_length, uint8_t *plan, size_t plan_length,
                        uint8_t *state, size_t state_length);

/* Whether there is a plan, and it was written. The other fields are those of the run: zomuwedli_end, zomuwedli_steps, zomuwedli_written. */
static inline int zomuwedli_has_plan(uint64_t answer) { return (int)(answer >> 48 & 1); }

/* ---- The sheet of a colouring file: from a DIMACS graph colouring file and a number of channels, the sheet whose plans are the proper
 * colourings. Vertex v is item v - 1, each item's settings are the channels, and each edge's block bars equal settings and nothing else.
 * Refused, each over the whole file before the next: 21, 22, 23, 24, 25. The channels may be any number.
 * Writes the sheet at the front of its buffer, which keeps its old bytes after that. A buffer of ZOMUWEDLI_MAX_SHEET bytes is long enough
 * for every file. */
uint64_t zomuwedli_colour(const uint8_t *file, size_t file_length, uint64_t channels, uint8_t *sheet, size_t sheet_length);

/* How many bytes of sheet a call wrote, this one or the move. */
static inline unsigned zomuwedli_sheet_written(uint64_t answer) { return (unsigned)(answer >> 8 & 0xffffff); }

/* ---- The move: the sheet in the other version, version 2 of a sheet of version 1 and version 1 of a sheet of version 2. Version 2 has
 * rows of one byte where item j has 8 settings or fewer. Moved again it is the sheet it was, byte for byte; a trace, a plan or a state that
 * was made with one version serves with the other. Refused: 1 to 9, then 26.
 * Writes the moved sheet at the target's front, which keeps its old bytes after that; zomuwedli_sheet_written takes its length out. A target
 * of ZOMUWEDLI_MAX_SHEET bytes is long enough for every sheet. Sheet and target do not overlap: a sheet is not moved in its place. */
uint64_t zomuwedli_move(const uint8_t *sheet, size_t sheet_length, uint8_t *target, size_t target_length);

/* ---- What a state's bytes say: which items are in, and which settings of item i (below 32) are on. */
static inline uint32_t zomuwedli_items_in(const uint8_t *state)
{
    return (uint32_t)state[0] << 24 | (uint32_t)state[1] << 16 | (uint32_t)state[2] << 8 | state[3];
}

static inline uint16_t zomuwedli_settings_on(const uint8_t *state, unsigned i)
{
    return (uint16_t)(state[4 + 2 * i] << 8 | state[5 + 2 * i]);
}

/* ---- What a trace's bytes say. Byte 0 is the version, 1; then each record is a length byte, which counts the fields after it, and the
 * fields, one byte each: the kind, the item i, a third and, in some kinds, a fourth. The kinds, by number, fields and word; what each does
 * is in docs/FORMAT.md, "State and the five rules". */
#define ZOMUWEDLI_KINDS(ROW) \
    ROW(ZOMUWEDLI_BARE, 1, 4, "bare")   /* third b, fourth k: setting b of i has no partner at item k, and is switched off */ \
    ROW(ZOMUWEDLI_SNAKE, 2, 3, "snake") /* third v: i is taken out with setting v */ \
    ROW(ZOMUWEDLI_FOLD, 3, 3, "fold")   /* third j: i is taken out, and goes where item j goes */ \
    ROW(ZOMUWEDLI_COVER, 4, 4, "cover") /* third b, fourth a: setting b of i is switched off, since a covers it */ \
    ROW(ZOMUWEDLI_SLIDE, 5, 4, "slide") /* third b, fourth a: setting b of i is switched off, since it can slide to a */

#define ZOMUWEDLI_KIND_ROW(name, kind, fields, word) name = kind,
#define ZOMUWEDLI_FIELDS_ROW(name, kind, fields, word) \
    case kind: \
        return fields;
#define ZOMUWEDLI_WORD_ROW(name, kind, fields, word) \
    case kind: \
        return word;

enum zomuwedli_kind { ZOMUWEDLI_KINDS(ZOMUWEDLI_KIND_ROW) };

/* How many fields a record of this kind has, or 0 where there is no such kind. */
static inline unsigned zomuwedli_kind_fields(unsigned kind)
{
    switch (kind) {
        ZOMUWEDLI_KINDS(ZOMUWEDLI_FIELDS_ROW)
    default:
        return 0;
    }
}

/* The word of a kind. Never NULL. */
static inline const char *zomuwedli_kind_text(unsigned kind)
{
    switch (kind) {
        ZOMUWEDLI_KINDS(ZOMUWEDLI_WORD_ROW)
    default:
        return "unknown";
    }
}

struct zomuwedli_record {
    unsigned fields; /* 4, or 3 */
    unsigned kind;   /* ZOMUWEDLI_BARE and so on */
    unsigned item;   /* i */
    unsigned third;  /* b, v or j, by the kind */
    unsigned fourth; /* k or a, by the kind; 0 in a record of 3 fields */
};

/* Where the first record of a trace begins. */
#define ZOMUWEDLI_TRACE_FIRST 1

/* Takes the record that begins at byte *at of the trace, and moves *at behind it. Answers 1 where there was one, 0 where *at is the trace's
 * end, and -1 where the trace's front (15) or this record (16) is malformed; then nothing is moved or written. Whether a record is lawful
 * is not looked at. No byte outside the length is read, whatever the bytes are and wherever *at is. To walk a trace:
 *
 *     size_t at = ZOMUWEDLI_TRACE_FIRST;
 *     struct zomuwedli_record record;
 *     int more;
 *     while ((more = zomuwedli_next_record(trace, length, &at, &record)) == 1) { ... }
 *     if (more < 0) { ... }
 */
static inline int zomuwedli_next_record(const uint8_t *trace, size_t length, size_t *at, struct zomuwedli_record *record)
{
    if (length == 0 || trace[0] != 1 || *at > length) {
        return -1;
    }
    size_t left = length - *at;
    if (left == 0) {
        return 0;
    }
    const uint8_t *bytes = trace + *at;
    if (left == 1 || bytes[0] == 0 || bytes[0] != zomuwedli_kind_fields(bytes[1]) || left - 1 < bytes[0]) {
        return -1;
    }
    record->fields = bytes[0];
    record->kind = bytes[1];
    record->item = bytes[2];
    record->third = bytes[3];
    record->fourth = bytes[0] == 4 ? bytes[4] : 0;
    *at += 1 + (size_t)bytes[0];
    return 1;
}

#undef ZOMUWEDLI_CONSTANT_ROW
#undef ZOMUWEDLI_TEXT_ROW
#undef ZOMUWEDLI_KIND_ROW
#undef ZOMUWEDLI_FIELDS_ROW
#undef ZOMUWEDLI_WORD_ROW

#ifdef __cplusplus
}
#endif

#endif
