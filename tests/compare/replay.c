/* Replays a trace through include/lg.h: every answer and every digest must be as the trace has it.
 *
 *     replay TRACE
 *
 * A line `pool WORDS` begins anew; every other line is a call, `=`, the answer's word, and the digests of pool and lent memory. */
#define _POSIX_C_SOURCE 200809L
#include "lg.h"

#include <stdio.h>
#include <stdlib.h>
#include <string.h>

/* The guards have the bytes of a cell, and more. */
enum { GUARDS = 32, GUARD = 0xA5 };

/* Memory with guards before and behind it that must stay. */
struct memory {
    uint8_t *all;
    size_t bytes;
};

/* What a call is made on, what is left of its line, and how many were made. */
struct replay {
    struct memory pool;
    struct memory lent;
    char *next;
    size_t made;
};

static void fail(const char *why)
{
    fprintf(stderr, "compare: %s\n", why);
    exit(1);
}

static struct memory lend(size_t bytes)
{
    struct memory memory = {malloc(bytes + 2 * GUARDS), bytes};
    if (memory.all == NULL)
        fail("no memory");
    memset(memory.all, GUARD, bytes + 2 * GUARDS);
    return memory;
}

static void *contents(struct memory memory)
{
    return memory.all + GUARDS;
}

static int guards_stand(struct memory memory)
{
    for (size_t i = 0; i < GUARDS; i++)
        if (memory.all[i] != GUARD || memory.all[GUARDS + memory.bytes + i] != GUARD)
            return 0;
    return 1;
}

/* CRC-32, as zlib has it. */
static uint32_t digest(struct memory memory)
{
    const uint8_t *byte = contents(memory);
    uint32_t sum = 0xFFFFFFFFu;
    for (size_t i = 0; i < memory.bytes; i++) {
        sum ^= byte[i];
        for (int bit = 0; bit < 8; bit++)
            sum = sum >> 1 ^ (0xEDB88320u & -(sum & 1));
    }
    return ~sum;
}

static uint64_t number(struct replay *r)
{
    return strtoull(r->next, &r->next, 10);
}

/* The next field's hexadecimal digits as elements of `digits` digits each, high ones first; a stroke is nothing at all. */
static struct memory elements(struct replay *r, size_t digits)
{
    r->next += strspn(r->next, " ");
    size_t length = strspn(r->next, "0123456789abcdef") / digits;
    struct memory memory = lend(length * digits / 2);
    for (size_t i = 0; i < length; i++) {
        char element[5] = {0};
        memcpy(element, r->next + i * digits, digits);
        uint16_t value = (uint16_t)strtoul(element, NULL, 16);
        if (digits == 4)
            ((uint16_t *)contents(memory))[i] = value;
        else
            ((uint8_t *)contents(memory))[i] = (uint8_t)value;
    }
    r->next += length == 0 ? 1 : length * digits;
    return memory;
}

/* What lent memory holds before a call. */
static uint16_t pattern(size_t i)
{
    return (uint16_t)(i * 40503 + 42405);
}

static void lend_anew(struct replay *r, size_t bytes)
{
    free(r->lent.all);
    r->lent = lend(bytes);
}

static uint16_t *lend_words(struct replay *r, size_t length)
{
    lend_anew(r, 2 * length);
    uint16_t *words = contents(r->lent);
    for (size_t i = 0; i < length; i++)
        words[i] = pattern(i);
    return words;
}

static uint8_t *lend_bytes(struct replay *r, size_t length)
{
    lend_anew(r, length);
    uint8_t *bytes = contents(r->lent);
    for (size_t i = 0; i < length; i++)
        bytes[i] = (uint8_t)pattern(i);
    return bytes;
}

static uint16_t *pool(struct replay *r)
{
    return contents(r->pool);
}

static size_t pool_words(struct replay *r)
{
    return r->pool.bytes / 2;
}

static uint64_t call_start(struct replay *r)
{
    return lg_start(pool(r), pool_words(r));
}

static uint64_t call_grant(struct replay *r)
{
    uint16_t f[9];
    for (int i = 0; i < 9; i++)
        f[i] = (uint16_t)number(r);
    return lg_grant(pool(r), pool_words(r), f[0], (uint8_t)f[1], (uint8_t)f[2], f[3], f[4], f[5], f[6], f[7], f[8]);
}

static uint64_t call_revoke(struct replay *r)
{
    return lg_revoke(pool(r), pool_words(r), (uint16_t)number(r));
}

typedef uint64_t list_function(const uint16_t *pool, size_t pool_words, uint16_t staff_from, uint16_t staff_to, uint16_t door_from,
                               uint16_t door_to, uint16_t quarter_from, uint16_t quarter_to, uint16_t *list, size_t list_words);

static uint64_t list_by(struct replay *r, list_function *function)
{
    uint16_t f[6];
    for (int i = 0; i < 6; i++)
        f[i] = (uint16_t)number(r);
    size_t length = number(r);
    uint16_t *list = lend_words(r, length);
    return function(pool(r), pool_words(r), f[0], f[1], f[2], f[3], f[4], f[5], list, length);
}

static uint64_t call_list(struct replay *r)
{
    return list_by(r, lg_list);
}

static uint64_t call_list_holding(struct replay *r)
{
    return list_by(r, lg_list_holding);
}

static uint64_t call_decide(struct replay *r)
{
    uint16_t staff = (uint16_t)number(r), door = (uint16_t)number(r), quarter = (uint16_t)number(r);
    return lg_decide(pool(r), pool_words(r), staff, door, quarter, lend_words(r, 10));
}

static uint64_t call_count(struct replay *r)
{
    return lg_count(pool(r), pool_words(r));
}

static uint64_t call_write(struct replay *r)
{
    uint16_t from = (uint16_t)number(r), to = (uint16_t)number(r);
    size_t length = number(r);
    uint8_t *bytes = lend_bytes(r, length);
    return lg_write(pool(r), pool_words(r), from, to, bytes, length);
}

static uint64_t call_load(struct replay *r)
{
    struct memory file = elements(r, 2);
    uint64_t word = lg_load(pool(r), pool_words(r), contents(file), file.bytes);
    free(file.all);
    return word;
}

static uint64_t call_match(struct replay *r)
{
    struct memory file = elements(r, 2);
    uint64_t word = lg_match(pool(r), pool_words(r), contents(file), file.bytes);
    free(file.all);
    return word;
}

static uint64_t call_block(struct replay *r)
{
    uint64_t block = number(r);
    struct memory file = elements(r, 2);
    uint64_t word = lg_block(contents(file), file.bytes, block);
    free(file.all);
    return word;
}

static uint64_t call_part(struct replay *r)
{
    uint64_t block = number(r);
    struct memory file = elements(r, 2);
    uint64_t word = lg_block_part(contents(file), file.bytes, block);
    free(file.all);
    return word;
}

/* Both records are in one memory, the panel record behind the door record; where the line says `same`, the door record is both. */
static uint64_t call_openings(struct replay *r)
{
    struct memory door = elements(r, 2);
    int same = strncmp(r->next, " same ", 6) == 0;
    struct memory panel = same ? lend(0) : elements(r, 2);
    uint8_t *records = lend_bytes(r, door.bytes + panel.bytes);
    memcpy(records, contents(door), door.bytes);
    memcpy(records + door.bytes, contents(panel), panel.bytes);
    const uint8_t *panel_record = same ? records : records + door.bytes;
    uint64_t word = lg_compare_openings(records, door.bytes, panel_record, same ? door.bytes : panel.bytes);
    free(door.all);
    free(panel.all);
    return word;
}

static const struct {
    const char *name;
    uint64_t (*call)(struct replay *);
} calls[] = {
    {"start", call_start}, {"grant", call_grant}, {"revoke", call_revoke}, {"list", call_list}, {"list_holding", call_list_holding},
    {"decide", call_decide}, {"count", call_count}, {"write", call_write}, {"load", call_load},
    {"match", call_match}, {"block", call_block}, {"part", call_part}, {"openings", call_openings},
};

/* Makes the call of a name; the line goes on behind it. */
static uint64_t make(struct replay *r, const char *name, size_t length)
{
    lend_anew(r, 0);
    for (size_t i = 0; i < sizeof calls / sizeof *calls; i++)
        if (strlen(calls[i].name) == length && memcmp(calls[i].name, name, length) == 0)
            return calls[i].call(r);
    fail("a call of another name");
    return 0;
}

/* Whether a line's call answers and leaves what the line says. */
static int agrees(struct replay *r, char *line)
{
    size_t length = strcspn(line, " \n");
    r->next = line + length;
    if (length == 4 && memcmp(line, "pool", 4) == 0) {
        free(r->pool.all);
        r->pool = elements(r, 4);
        return 1;
    }
    uint64_t word = make(r, line, length);
    char given[64];
    snprintf(given, sizeof given, "= %016llx %08x %08x\n", (unsigned long long)word, digest(r->pool), digest(r->lent));
    r->made++;
    return strcmp(strchr(line, '='), given) == 0 && guards_stand(r->pool) && guards_stand(r->lent);
}

int main(int argc, char **argv)
{
    FILE *trace = argc == 2 ? fopen(argv[1], "r") : NULL;
    if (trace == NULL)
        fail("replay TRACE: no trace to read");
    struct replay r = {lend(0), lend(0), NULL, 0};
    char *line = NULL;
    size_t size = 0;
    while (getline(&line, &size, trace) > 0)
        if (!agrees(&r, line)) {
            fprintf(stderr, "compare: C answers otherwise to: %s", line);
            return 1;
        }
    printf("compare: %zu calls answered alike through the C header\n", r.made);
    free(line);
    free(r.pool.all);
    free(r.lent.all);
    fclose(trace);
    return 0;
}
