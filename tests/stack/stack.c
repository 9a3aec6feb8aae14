/* How much stack each call of include/lg.h needs at most: it is made on memory that was painted, and the deepest byte that changed is
 * looked for. The pools are full ones that calls made, one of them as deep as calls can make it and one whose grants all hold one point,
 * and scrambled ones whose cells hang down to level 112; the lists, files, pools and records of openings have the most that there can be.
 *
 *     stack      prints a row for each call; status 1 where one needs more than LG_STACK_BYTES */
#define _XOPEN_SOURCE 700
#include "lg.h"

#include <stdio.h>
#include <stdlib.h>
#include <string.h>
#include <ucontext.h>

/* The words of a cell: two links, the number, rank and kind, the six ends of the box, and the parent. */
enum { LEFT, RIGHT, NUMBER, RANK_KIND, STAFF_FROM, STAFF_TO, DOOR_FROM, DOOR_TO, QUARTER_FROM, QUARTER_TO, PARENT, CELL_WORDS };

enum { CELLS = 2048, WORDS = 3 + CELL_WORDS * CELLS, FILE_BYTES = 512 * 68, LEVELS = 112, AXES = 7, PAINTED = 256 * 1024 };
enum { MIDDLE = 32767, TOP = 65535 };
enum { ENTRIES = 4096, ENTRY_BYTES = 8, RECORD_BYTES = ENTRY_BYTES * ENTRIES };

static uint16_t pool[WORDS], kept[WORDS], list[CELLS], decided[10];
static uint8_t file[FILE_BYTES], bytes[FILE_BYTES], door_record[RECORD_BYTES], panel_record[RECORD_BYTES];
static size_t file_bytes;
static uint16_t number, point;
static uint64_t answer;

static void fail(const char *why)
{
    fprintf(stderr, "stack: %s\n", why);
    exit(1);
}

/* The quarter at a point: one that a grant can cover, since none covers the last. */
static uint16_t quarter(void)
{
    return point < TOP ? point : TOP - 1;
}

/* The calls, each with arguments that take it as far as the pool and the file let it go. */
static void call_start(void) { answer = lg_start(pool, WORDS); }
static void call_grant(void)
{
    answer = lg_grant(pool, WORDS, number, 255, 1, point, point, point, point, quarter(), quarter() + 1);
}
static void call_revoke(void) { answer = lg_revoke(pool, WORDS, number); }
static void call_list(void) { answer = lg_list(pool, WORDS, 0, TOP, 0, TOP, 0, TOP, list, CELLS); }
static void call_list_holding(void) { answer = lg_list_holding(pool, WORDS, 0, TOP, 0, TOP, 0, TOP, list, CELLS); }
static void call_list_holding_point(void)
{
    answer = lg_list_holding(pool, WORDS, point, point, point, point, quarter(), quarter() + 1, list, CELLS);
}
static void call_decide(void) { answer = lg_decide(pool, WORDS, point, point, quarter(), decided); }
static void call_count(void) { answer = lg_count(pool, WORDS); }
static void call_write(void) { answer = lg_write(pool, WORDS, 0, TOP, bytes, FILE_BYTES); }
static void call_load(void) { answer = lg_load(pool, WORDS, file, file_bytes); }
static void call_match(void) { answer = lg_match(pool, WORDS, file, file_bytes); }
static void call_block(void) { answer = lg_block(file, file_bytes, 67); }
static void call_part(void) { answer = lg_block_part(file, file_bytes, 67); }
static void call_openings(void) { answer = lg_compare_openings(door_record, RECORD_BYTES, panel_record, RECORD_BYTES); }

static struct {
    const char *name;
    void (*call)(void);
    size_t most;
    unsigned made, refused;
} calls[] = {
    {"lg_start", call_start, 0, 0, 0},   {"lg_grant", call_grant, 0, 0, 0},     {"lg_revoke", call_revoke, 0, 0, 0},
    {"lg_list", call_list, 0, 0, 0},
    {"lg_list_holding", call_list_holding, 0, 0, 0},
    {"lg_list_holding of a point", call_list_holding_point, 0, 0, 0},
    {"lg_decide", call_decide, 0, 0, 0}, {"lg_count", call_count, 0, 0, 0},
    {"lg_write", call_write, 0, 0, 0},   {"lg_load", call_load, 0, 0, 0},       {"lg_match", call_match, 0, 0, 0},
    {"lg_block", call_block, 0, 0, 0},   {"lg_block_part", call_part, 0, 0, 0}, {"lg_compare_openings", call_openings, 0, 0, 0},
};
enum { CALLS = sizeof calls / sizeof *calls };

static _Alignas(64) uint8_t painted[PAINTED];
static ucontext_t here, there;
static void (*call)(void);
static uint8_t *top;

static void on_painted(void)
{
    top = __builtin_frame_address(0);
    call();
}

/* How many bytes below the caller's frame the call changes, of memory painted in one colour. */
static size_t depth(uint8_t colour)
{
    memset(painted, colour, PAINTED);
    if (getcontext(&there) != 0)
        fail("no context");
    there.uc_stack.ss_sp = painted;
    there.uc_stack.ss_size = PAINTED;
    there.uc_link = &here;
    makecontext(&there, on_painted, 0);
    if (swapcontext(&here, &there) != 0)
        fail("no context");
    size_t untouched = 0;
    while (painted[untouched] == colour)
        untouched++;
    if (untouched == 0)
        fail("a call needs more than is painted");
    return (size_t)(top - (painted + untouched));
}

/* Makes every call on the pool, each on the pool as it was, in two colours: what is stored may be one of them. */
static void measure(void)
{
    memcpy(kept, pool, sizeof pool);
    for (size_t i = 0; i < CALLS; i++)
        for (int colour = 0x5A; colour <= 0xA5; colour += 0x4B) {
            call = calls[i].call;
            size_t needs = depth((uint8_t)colour);
            if (calls[i].most < needs)
                calls[i].most = needs;
            calls[i].made++;
            calls[i].refused += LG_FAULT(answer) != 0;
            memcpy(pool, kept, sizeof pool);
        }
}

static uint32_t seed = 1;

static uint16_t any(void)
{
    seed = seed * 1664525u + 1013904223u;
    return (uint16_t)(seed >> 16);
}

static void add(uint16_t n, const uint16_t box[6])
{
    const uint8_t rank = 200 + any() % 56; /* high enough for any doors */
    if (lg_grant(pool, WORDS, n, rank, any() & 1, box[0], box[1], box[2], box[3], box[4], box[5]) != 0)
        fail("a grant was refused");
}

/* Fills the pool with grants of boxes at random, from a number on. Their quarters cover one at least. */
static void fill_from(uint16_t n)
{
    for (; LG_B(lg_count(pool, WORDS)) != 0; n++) {
        uint16_t box[6];
        for (int i = 0; i < 6; i += 2) {
            uint16_t a = any(), b = any();
            box[i] = a < b ? a : b;
            box[i + 1] = a < b ? b : a;
        }
        if (box[4] == box[5]) {
            box[4] = 0;
            box[5] = TOP;
        }
        add(n, box);
    }
}

static void make_spread(void)
{
    lg_start(pool, WORDS);
    fill_from(1);
}

/* The deepest tree that calls make: grants of one box, and numbers of which each shares more leading bits with 65,535. Seven hang
 * between two levels that halve the number; the last eight numbers share 13 bits and more. */
static void make_deep(void)
{
    const uint16_t box[6] = {TOP, TOP, TOP, TOP, TOP - 1, TOP};
    lg_start(pool, WORDS);
    for (int bits = 0; bits < 13; bits++)
        for (uint16_t i = 0; i < 7; i++)
            add((uint16_t)(TOP - (0x8000u >> bits) - i), box);
    for (uint16_t n = TOP - 7; n < TOP; n++)
        add(n, box);
    fill_from(1);
}

/* Grants at random that all hold the point in the middle: a list of it has all of them. */
static void make_nested(void)
{
    point = MIDDLE;
    lg_start(pool, WORDS);
    for (uint16_t n = 1; n <= CELLS; n++) {
        uint16_t box[6];
        for (int i = 0; i < 6; i += 2) {
            box[i] = any() % (MIDDLE + 1);
            box[i + 1] = MIDDLE + 1 + any() % (TOP - MIDDLE);
        }
        add(n, box);
    }
    call_list_holding_point();
    if (answer != (uint64_t)CELLS << 8)
        fail("not all grants hold the point in the middle");
}

static uint16_t *cell(unsigned k)
{
    return pool + 3 + CELL_WORDS * (k - 1);
}

/* Whether the way to a point, and to a number, goes right at a level. */
static int goes_right(unsigned level)
{
    const uint16_t coordinates[AXES] = {point, point, quarter(), point, point, quarter() + 1, number};
    return coordinates[level % AXES] >> (15 - level / AXES) & 1;
}

/* Hangs a cell below another, behind one of its links. */
static void hang(unsigned parent, int link, unsigned child)
{
    cell(parent)[link] = (uint16_t)child;
    cell(child)[PARENT] = (uint16_t)parent;
}

/* A scrambled pool: cells 1 to 113 hang below each other on the way to the point and the number, the last at level 112; the other
 * cells hang where the way does not go, one below the other too. All have the point; their numbers are equal or fall. */
static void make_scrambled(int equal)
{
    memset(pool, 0, sizeof pool);
    pool[0] = CELLS;
    pool[1] = 1;
    for (unsigned k = 1; k <= CELLS; k++) {
        uint16_t *words = cell(k);
        for (int i = STAFF_FROM; i < QUARTER_FROM; i++)
            words[i] = point;
        words[QUARTER_FROM] = quarter();
        words[QUARTER_TO] = quarter() + 1;
        words[NUMBER] = equal ? number : (uint16_t)(30000 - k);
        words[RANK_KIND] = any() & 511;
    }
    for (unsigned level = 0; level < LEVELS; level++)
        hang(level + 1, goes_right(level) ? RIGHT : LEFT, level + 2);
    unsigned next = LEVELS + 2;
    for (unsigned level = 0; level < LEVELS; level++) {
        unsigned parent = level + 1;
        int link = goes_right(level) ? LEFT : RIGHT;
        for (unsigned below = level + 1; below <= LEVELS && next <= CELLS; below++) {
            hang(parent, link, next);
            parent = next++;
            link = below & 1 ? LEFT : RIGHT;
        }
    }
}

/* Puts the i-th entry of a record: door, quarter and staff, high byte first. */
static void put_entry(uint8_t *record, unsigned i, uint16_t door, uint16_t quarter, uint32_t staff)
{
    uint64_t fields = (uint64_t)door << 48 | (uint64_t)quarter << 32 | staff;
    for (unsigned at = 0; at < ENTRY_BYTES; at++)
        record[ENTRY_BYTES * i + at] = (uint8_t)(fields >> 8 * (ENTRY_BYTES - 1 - at));
}

/* Full records: entries at random in rising quarters; those of one quarter, rising against falling; one entry throughout. */
enum { SPREAD, OPPOSED, EQUAL, SHAPES };

static void make_records(int shape)
{
    for (unsigned i = 0; i < ENTRIES; i++)
        if (shape == SPREAD) {
            put_entry(door_record, i, any(), (uint16_t)i, (uint32_t)any() << 16 | any());
            put_entry(panel_record, i, any(), (uint16_t)i, (uint32_t)any() << 16 | any());
        } else {
            put_entry(door_record, i, TOP, TOP, shape == EQUAL ? 0 : i);
            put_entry(panel_record, ENTRIES - 1 - i, TOP, TOP, shape == EQUAL ? 0 : i);
        }
}

/* Every call beside full records of each shape, and beside one whose last quarter falls. */
static void measure_records(void)
{
    for (int shape = 0; shape < SHAPES; shape++) {
        make_records(shape);
        call_openings();
        if (LG_FAULT(answer) != 0)
            fail("full records are refused");
        measure();
    }
    put_entry(panel_record, ENTRIES - 1, TOP, 0, 0);
    call_openings();
    if (LG_FAULT(answer) != 25)
        fail("a quarter that falls is not refused");
    measure();
}

/* Every call on scrambled pools along the way to a point and a number: whole, where the number is the deepest cell's or none's, and
 * with a link at level 112. */
static void measure_scrambled(uint16_t to_point, uint16_t to_number)
{
    point = to_point;
    number = to_number;
    for (int equal = 0; equal < 2; equal++) {
        make_scrambled(equal);
        if (lg_count(pool, WORDS) != (uint64_t)CELLS << 8)
            fail("a scrambled pool has not all cells on it");
        measure();
        make_scrambled(0);
        cell(LEVELS + 1)[NUMBER] = number;
        if (equal)
            cell(LEVELS + 1)[LEFT] = 1;
        measure();
    }
}

int main(void)
{
    make_spread();
    file_bytes = LG_B(lg_write(pool, WORDS, 0, TOP, file, FILE_BYTES));
    if (file_bytes != FILE_BYTES)
        fail("the file of a full pool is not 68 blocks");
    number = 1;
    measure();
    make_deep();
    number = TOP;
    point = TOP;
    measure();
    lg_revoke(pool, WORDS, 1);
    measure();
    make_nested();
    measure();
    measure_scrambled(TOP, TOP);
    measure_scrambled(0, 1);
    measure_records();
    file[FILE_BYTES - 1] ^= 1;
    measure();

    int status = 0;
    for (size_t i = 0; i < CALLS; i++) {
        int more = calls[i].most > LG_STACK_BYTES;
        printf("%-26s %6zu bytes at most in %u calls, %u of them refused%s\n", calls[i].name, calls[i].most, calls[i].made,
               calls[i].refused, more ? ": more than LG_STACK_BYTES" : "");
        status |= more;
    }
    return status;
}
