/* Writes and reads 200 words a row, as the C codec of docs/BENCHMARKS.md was counted; callgrind dumps what the calls of each row took. */
#include <stdint.h>
#include <stdio.h>
#include <stdlib.h>
#include <string.h>
#include <valgrind/callgrind.h>

#include "burgzemi.h"

enum { WORDS = 200, LONGEST = 1024, BURSTS = 6 };

struct row { uint32_t n, m, q, b; };

/* The C codec's rows; b is the largest, at most 16, that it fits. */
static const struct row rows[] = {
    {64, 1, 2, 15},    {64, 1, 16, 16},   {64, 1, 256, 16},   {64, 3, 2, 1},     {64, 3, 16, 6},    {64, 3, 256, 7},
    {64, 6, 256, 1},   {256, 1, 2, 16},   {256, 1, 16, 16},   {256, 1, 256, 16}, {256, 3, 2, 16},   {256, 3, 16, 16},
    {256, 3, 256, 16}, {256, 6, 16, 6},   {256, 6, 256, 7},   {1024, 1, 2, 16},  {1024, 1, 16, 16}, {1024, 1, 256, 16},
    {1024, 3, 2, 16},  {1024, 3, 16, 16}, {1024, 3, 256, 16}, {1024, 6, 2, 16},  {1024, 6, 16, 16}, {1024, 6, 256, 16},
};

static uint8_t words[WORDS][LONGEST], messages[WORDS][LONGEST], starts[WORDS][2 * BURSTS];
static uint8_t read_message[LONGEST], read_starts[2 * BURSTS];

/* A number below `bound`: the same ones in every run. */
static uint32_t below(uint32_t bound)
{
    static uint64_t state = 88172645463325252u;
    state ^= state << 13;
    state ^= state >> 7;
    state ^= state << 17;
    return (uint32_t)((state >> 11) % bound);
}

static int ascending(const void *a, const void *b) { return *(const int *)a - *(const int *)b; }

/* A placement of the row: distinct reduced starts, ascending. */
static void place(struct row r, uint8_t *bytes)
{
    int reduced[BURSTS], distinct;
    do {
        for (uint32_t j = 0; j < r.m; j++) reduced[j] = (int)below(r.n - r.m * r.b + r.m);
        qsort(reduced, r.m, sizeof *reduced, ascending);
        distinct = 1;
        for (uint32_t j = 1; j < r.m; j++) distinct &= reduced[j] != reduced[j - 1];
    } while (!distinct);
    for (uint32_t j = 0; j < r.m; j++) {
        uint32_t start = (uint32_t)reduced[j] + j * (r.b - 1);
        bytes[2 * j] = (uint8_t)(start / 256);
        bytes[2 * j + 1] = (uint8_t)(start % 256);
    }
}

/* Any symbols inside the bursts of a word. */
static void damage(struct row r, const uint8_t *bytes, uint8_t *word)
{
    for (uint32_t j = 0; j < r.m; j++)
        for (uint32_t x = 0; x < r.b; x++) word[bytes[2 * j] * 256 + bytes[2 * j + 1] + x] = (uint8_t)below(r.q);
}

static int write_word(struct row r, uint32_t k, int i)
{
    return burgzemi_encode(r.n, r.q, r.m, r.b, starts[i], 2 * r.m, messages[i], k, words[i], r.n);
}

static int read_word(struct row r, uint32_t k, int i)
{
    return burgzemi_decode(r.n, r.q, r.m, r.b, words[i], r.n, read_message, k, read_starts, 2 * r.m);
}

static void dump(const char *call, struct row r)
{
    char name[48];
    snprintf(name, sizeof name, "%s %u %u %u %u", call, (unsigned)r.n, (unsigned)r.m, (unsigned)r.q, (unsigned)r.b);
    CALLGRIND_DUMP_STATS_AT(name);
}

/* Whether every word of the row is served, and read back as it was written. */
static int run(struct row r)
{
    uint32_t k = burgzemi_message_len(r.n, r.q, r.m, r.b);
    int refused = 0;
    for (int i = 0; i < WORDS; i++) {
        for (uint32_t j = 0; j < k; j++) messages[i][j] = (uint8_t)below(r.q);
        place(r, starts[i]);
    }
    CALLGRIND_ZERO_STATS;
    for (int i = 0; i < WORDS; i++) refused |= write_word(r, k, i);
    dump("write", r);
    for (int i = 0; i < WORDS; i++) damage(r, starts[i], words[i]);
    CALLGRIND_ZERO_STATS;
    for (int i = 0; i < WORDS; i++) refused |= read_word(r, k, i);
    dump("read", r);
    for (int i = 0; i < WORDS; i++)
        refused |= read_word(r, k, i) || memcmp(read_message, messages[i], k) || memcmp(read_starts, starts[i], 2 * r.m);
    return !refused;
}

int main(void)
{
    for (size_t i = 0; i < sizeof rows / sizeof *rows; i++)
        if (!run(rows[i])) {
            fprintf(stderr, "beside-c: row %zu was refused, or read as another\n", i + 1);
            return 1;
        }
    return 0;
}
