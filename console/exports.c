/* Calls the functions of libexports.a on document 01's bench strips, its transfer example, on prescriptions and on words side by side, under each code, and on
 * moves between the older trays and Construction A, and sees that each refusal comes in its place and leaves every buffer as it was. Ends with 0 where all is
 * right. */
#include "burgzemi.h"

#include <stdio.h>
#include <string.h>

static int wrong;

/* The answer that is wanted, and the bytes that a buffer should then hold. */
static void see(const char *what, unsigned answer, unsigned wanted, const void *buffer, const void *expected, size_t len)
{
    if (answer != wanted || memcmp(buffer, expected, len) != 0) {
        printf("exports: %s: answer %u, wanted %u, buffer %s\n", what, answer, wanted, memcmp(buffer, expected, len) == 0 ? "as it should be" : "other");
        wrong = 1;
    }
}

/* A buffer that holds what no function writes into one of its kind as a whole. */
static const uint8_t untouched[64] = {
    0xA5, 0x5A, 0xA5, 0x5A, 0xA5, 0x5A, 0xA5, 0x5A, 0xA5, 0x5A, 0xA5, 0x5A, 0xA5, 0x5A, 0xA5, 0x5A,
    0xA5, 0x5A, 0xA5, 0x5A, 0xA5, 0x5A, 0xA5, 0x5A, 0xA5, 0x5A, 0xA5, 0x5A, 0xA5, 0x5A, 0xA5, 0x5A,
    0xA5, 0x5A, 0xA5, 0x5A, 0xA5, 0x5A, 0xA5, 0x5A, 0xA5, 0x5A, 0xA5, 0x5A, 0xA5, 0x5A, 0xA5, 0x5A,
    0xA5, 0x5A, 0xA5, 0x5A, 0xA5, 0x5A, 0xA5, 0x5A, 0xA5, 0x5A, 0xA5, 0x5A, 0xA5, 0x5A, 0xA5, 0x5A,
};

/* What a strip is written in: Construction A, Construction B for one long burst, or the Larsson code of the older trays. */
enum code { CONSTRUCTION_A, CONSTRUCTION_B, LARSSON };

/* A call under `code` and the figures n, q, m and b of where it stands; one long burst has m 1. */
#define ANY(call, ...) \
    (code == CONSTRUCTION_B ? burgzemi_long_##call(n, q, b, __VA_ARGS__) \
                            : (code == LARSSON ? burgzemi_larsson_##call : burgzemi_##call)(n, q, m, b, __VA_ARGS__))

/* ---- Figures alone: T, r, k and K, worked out by hand; four numbers, and 3 for any other count of them */

static void fit(const char *what, enum code code, uint32_t n, uint32_t q, uint32_t m, uint32_t b, uint64_t t, uint64_t r, uint64_t k, uint64_t payload)
{
    uint64_t got[5] = {1, 2, 3, 4, 5};
    const uint64_t lent[5] = {1, 2, 3, 4, 5}, expected[5] = {t, r, k, payload, 5};
    see(what, ANY(figures, got, 3), BURGZEMI_LENGTH, got, lent, sizeof got);
    see(what, ANY(figures, got, 5), BURGZEMI_LENGTH, got, lent, sizeof got);
    see(what, ANY(figures, got, 4), BURGZEMI_SERVED, got, expected, sizeof got);
}

static void misfit(const char *what, unsigned wanted, enum code code, uint32_t n, uint32_t q, uint32_t m, uint32_t b)
{
    uint64_t got[4] = {1, 2, 3, 4};
    const uint64_t lent[4] = {1, 2, 3, 4};
    see(what, ANY(figures, got, 4), wanted, got, lent, sizeof got);
    see(what, ANY(figures, got, 0), wanted, got, lent, sizeof got);
}

/* K, or 0 where the figures are refused. */
static size_t payload_len(enum code code, uint32_t n, uint32_t q, uint32_t m, uint32_t b)
{
    uint64_t figures[BURGZEMI_FIGURES_LEN];
    return ANY(figures, figures, BURGZEMI_FIGURES_LEN) == BURGZEMI_SERVED ? figures[BURGZEMI_FIGURE_PAYLOAD] : 0;
}

/* ---- Word write: n 30, q 2, m 1, b 3; start 12, message all 1 */

static const uint8_t first_word[30] = {0, 1, 1, 1, 1, 1, 1, 1, 1, 1, 1, 1, 0, 0, 0, 1, 1, 1, 1, 1, 1, 0, 1, 1, 0, 0, 1, 1, 1, 1};

static void first_strip(const char *what, unsigned wanted, uint32_t q, uint32_t b, uint16_t start, size_t starts_len, uint8_t last,
                        size_t message_len, size_t word_len)
{
    uint8_t starts[4] = {(uint8_t)(start >> 8), (uint8_t)start, 0, 0}, message[24], word[64];
    memset(message, 1, sizeof message);
    message[19] = last;
    memcpy(word, untouched, sizeof word);
    unsigned answer = burgzemi_encode(30, q, 1, b, starts, starts_len, message, message_len, word, word_len);
    see(what, answer, wanted, word, wanted == BURGZEMI_SERVED ? first_word : untouched, 30);
    see(what, answer, wanted, word + 30, untouched + 30, sizeof word - 30);
}

static void words(void)
{
    first_strip("first strip", BURGZEMI_SERVED, 2, 3, 12, 2, 1, 20, 30);
    first_strip("q of 1", BURGZEMI_INVALID, 1, 6, 12, 1, 2, 21, 29);
    first_strip("b of 6", BURGZEMI_UNFIT, 2, 6, 12, 1, 2, 21, 29);
    first_strip("starts short", BURGZEMI_LENGTH, 2, 3, 28, 1, 2, 20, 30);
    first_strip("starts odd", BURGZEMI_LENGTH, 2, 3, 28, 3, 2, 20, 30);
    first_strip("starts long", BURGZEMI_LENGTH, 2, 3, 12, 4, 1, 20, 30);
    first_strip("no starts", BURGZEMI_LENGTH, 2, 3, 12, 0, 1, 20, 30);
    first_strip("message long", BURGZEMI_LENGTH, 2, 3, 12, 2, 1, 21, 30);
    first_strip("word long", BURGZEMI_LENGTH, 2, 3, 12, 2, 1, 20, 31);
    first_strip("start past the end, a symbol of 2", BURGZEMI_STARTS, 2, 3, 28, 2, 2, 20, 30);
    first_strip("start of two bytes", BURGZEMI_STARTS, 2, 3, 256 + 12, 2, 1, 20, 30);
    first_strip("a symbol of 2", BURGZEMI_SYMBOL, 2, 3, 12, 2, 2, 20, 30);

    /* Two bursts; the index blocks begin 1 0 0 and 3 3 0. */
    static const uint8_t second_word[61] = "111111110000000011111001111111330111111101111111110111111111";
    uint8_t starts[4] = {0, 8, 0, 12}, message[44], word[60], expected[60];
    memset(message, 1, sizeof message);
    for (int i = 0; i < 60; i++)
        expected[i] = (uint8_t)(second_word[i] - '0');
    see("starts 8 and 12", burgzemi_encode(60, 4, 2, 4, starts, 4, message, 44, word, 60), BURGZEMI_SERVED, word, expected, 60);
    starts[3] = 11;
    see("starts 8 and 11", burgzemi_encode(60, 4, 2, 4, starts, 4, message, 44, word, 60), BURGZEMI_STARTS, word, expected, 60);
    static const uint8_t least_word[3] = {0, 1, 0};
    starts[1] = 0;
    see("no message", burgzemi_encode(3, 4, 1, 1, starts, 2, message, 0, word, 3), BURGZEMI_SERVED, word, least_word, 3);
    see("q of 3", burgzemi_encode(3, 3, 1, 1, starts, 2, message, 0, word, 3), BURGZEMI_UNFIT, word, least_word, 3);

    fit("the longest word", CONSTRUCTION_A, BURGZEMI_MAX_WORD, 256, 6, 112, 2251811127310162425, 1, 3388, 3388);
    fit("the most bursts", CONSTRUCTION_A, 999, 256, BURGZEMI_MAX_BURSTS, 15, 9207044098280898870, 0, 823, 823);
    misfit("n of 2", BURGZEMI_INVALID, CONSTRUCTION_A, 2, 2, 1, 3);
    misfit("a word too long", BURGZEMI_INVALID, CONSTRUCTION_A, BURGZEMI_MAX_WORD + 1, 256, 6, 112);
    misfit("a burst too many", BURGZEMI_INVALID, CONSTRUCTION_A, 999, 256, BURGZEMI_MAX_BURSTS + 1, 15);
    misfit("too many placements", BURGZEMI_UNFIT, CONSTRUCTION_A, 999, 256, BURGZEMI_MAX_BURSTS, 14);
    fit("message", CONSTRUCTION_A, 30, 2, 1, 3, 28, 5, 20, 2);
    fit("payload of the first strip", CONSTRUCTION_A, 30, 2, 1, 3, 28, 5, 20, 2);
    fit("payload of the transfer example", CONSTRUCTION_A, 15, 256, 1, 2, 14, 0, 11, 11);
    fit("payload of no message", CONSTRUCTION_A, 3, 4, 1, 1, 3, 0, 0, 0);
    misfit("payload of b 6", BURGZEMI_UNFIT, CONSTRUCTION_A, 30, 2, 1, 6);
    misfit("payload of m 9", BURGZEMI_INVALID, CONSTRUCTION_A, 30, 2, 9, 3);
}

/* ---- The longest word and the most bursts: written, covered, damaged and read, all with q 256, where a byte takes one symbol */

/* Each burst one position from the next, the last one from the end, and a map that only they cover. */
static void last_bursts(uint32_t n, uint32_t m, uint32_t b, uint8_t *starts, uint8_t *map)
{
    memset(map, 0, n);
    for (uint32_t i = 0; i < m; i++) {
        uint32_t start = n - (m - i) * (b + 1);
        starts[2 * i] = (uint8_t)(start >> 8);
        starts[2 * i + 1] = (uint8_t)start;
        map[start] = map[start + b - 1] = 1;
    }
}

static void large_strip(const char *what, enum code code, uint32_t n, uint32_t m, uint32_t b, uint32_t k)
{
    static uint8_t word[BURGZEMI_MAX_WORD], damaged[BURGZEMI_MAX_WORD], message[BURGZEMI_MAX_WORD], map[BURGZEMI_MAX_WORD], got[BURGZEMI_MAX_WORD];
    uint8_t table[BURGZEMI_TABLE_LEN] = {0}, starts[2 * BURGZEMI_MAX_BURSTS + 2] = {0}, other[2 * BURGZEMI_MAX_BURSTS + 2] = {0};
    const uint32_t q = 256;
    uint64_t figures[4];
    see(what, ANY(figures, figures, 4), BURGZEMI_SERVED, &figures[2], &(uint64_t[2]){k, k}, 2 * sizeof *figures);
    for (uint32_t i = 0; i < k; i++)
        message[i] = (uint8_t)(i * 7 + 1);
    last_bursts(n, m, b, starts, map);
    see(what, ANY(cover, map, n, other, 2 * m), BURGZEMI_SERVED, other, starts, sizeof starts);

    memset(word, 0xA5, n);
    memset(got, 0xA5, n);
    see(what, ANY(encode, starts, 2 * m + 2, message, k, word, n), BURGZEMI_LENGTH, word, got, n);
    unsigned answer = ANY(encode, starts, 2 * m, message, k, word, n);
    memcpy(damaged, word, n);
    for (uint32_t i = 0; i < m; i++)
        memset(damaged + n - (m - i) * (b + 1), 0xFF, b);
    memset(other, 0, sizeof other);
    see(what, ANY(decode, damaged, n, got, k, other, 2 * m), answer, got, message, k);
    see(what, answer, BURGZEMI_SERVED, other, starts, sizeof starts);
    see(what, ANY(verify, starts, 2 * m, message, k, damaged, n), BURGZEMI_SERVED, got, message, k);

    /* The job whose number the message begins with. */
    see(what, burgzemi_open(table, sizeof table, 0x01080F16), BURGZEMI_SERVED, got, message, k);
    see(what, ANY(job_write, table, sizeof table, starts, 2 * m, message, k, got, n), BURGZEMI_SERVED, got, word, n);
    see(what, ANY(job_read, table, sizeof table, damaged, n, got, k), BURGZEMI_SERVED, got, message, k);
}

/* ---- Covering: n 30, q 2, m 1, b 3 */

static void covering(const char *what, unsigned wanted, uint32_t b, int one, int other, uint8_t worn, size_t map_len, size_t starts_len, uint8_t start)
{
    uint8_t map[32] = {0}, starts[4], expected[4];
    if (one >= 0)
        map[one] = worn;
    if (other >= 0)
        map[other] = worn;
    memcpy(starts, untouched, sizeof starts);
    memcpy(expected, untouched, sizeof expected);
    unsigned answer = burgzemi_cover(30, 2, 1, b, map, map_len, starts, starts_len);
    if (wanted == BURGZEMI_SERVED) {
        expected[0] = 0;
        expected[1] = start;
    }
    see(what, answer, wanted, starts, expected, sizeof starts);
}

static void maps(void)
{
    covering("27 and 29", BURGZEMI_SERVED, 3, 27, 29, 1, 30, 2, 27);
    covering("no worn position", BURGZEMI_SERVED, 3, -1, -1, 1, 30, 2, 0);
    covering("12", BURGZEMI_SERVED, 3, 12, -1, 1, 30, 2, 10);
    covering("26 and 29", BURGZEMI_UNCOVERED, 3, 26, 29, 1, 30, 2, 0);
    covering("26 and 29 with bytes of 2", BURGZEMI_SYMBOL, 3, 26, 29, 2, 30, 2, 0);
    covering("map long", BURGZEMI_LENGTH, 3, 26, 29, 2, 31, 2, 0);
    covering("starts long", BURGZEMI_LENGTH, 3, 26, 29, 2, 30, 4, 0);
    covering("starts short", BURGZEMI_LENGTH, 3, 27, 29, 1, 30, 1, 0);
    covering("b of 6", BURGZEMI_UNFIT, 6, 26, 29, 2, 31, 3, 0);
    covering("b of 0", BURGZEMI_INVALID, 0, 26, 29, 2, 31, 3, 0);
}

/* ---- Words side by side: n 3, q 4, m 1, b 1, under each code */

static const uint8_t two_words[8] = {0, 1, 2, 3, 2, 1, 4, 4}, two_laid[6] = {0, 3, 1, 2, 2, 1};

/* Both ways: laid where `into` is 1, taken apart where it is 0. The fifth symbol is `fifth`. */
static void lanes(const char *what, unsigned wanted, enum code code, int into, uint32_t q, uint32_t b, uint32_t depth, uint8_t fifth, size_t from_len,
                  size_t to_len)
{
    const uint32_t n = 3, m = 1;
    uint8_t from[8], to[8];
    memcpy(from, into ? two_words : two_laid, 6);
    memset(from + 6, 4, 2);
    from[4] = fifth;
    memcpy(to, untouched, sizeof to);
    unsigned answer = into ? ANY(interleave, depth, from, from_len, to, to_len) : ANY(deinterleave, depth, from, from_len, to, to_len);
    see(what, answer, wanted, to, wanted == BURGZEMI_SERVED ? (into ? two_laid : two_words) : untouched, 6);
    see(what, answer, wanted, to + 6, untouched + 6, 2);
}

static void side_by_side(enum code code)
{
    for (int into = 0; into <= 1; into++) {
        lanes("two words", BURGZEMI_SERVED, code, into, 4, 1, 2, 2, 6, 6);
        /* 1 2 18 3 4, each beside what would be refused later */
        lanes("q of 257", BURGZEMI_INVALID, code, into, 257, 2, 0, 4, 5, 6);
        lanes("b of 2", BURGZEMI_UNFIT, code, into, 4, 2, 0, 4, 5, 6);
        lanes("depth 0", BURGZEMI_DEPTH, code, into, 4, 1, 0, 4, 5, 6);
        lanes("depth 0, no symbols", BURGZEMI_DEPTH, code, into, 4, 1, 0, 2, 0, 0);
        lanes("depth 17", BURGZEMI_DEPTH, code, into, 4, 1, 17, 4, 6, 6);
        lanes("depth of 32 bits", BURGZEMI_DEPTH, code, into, 4, 1, UINT32_MAX, 2, 6, 6);
        lanes("a symbol short", BURGZEMI_LENGTH, code, into, 4, 1, 2, 4, 5, 6);
        lanes("a symbol more", BURGZEMI_LENGTH, code, into, 4, 1, 2, 4, 7, 6);
        lanes("no room for a symbol", BURGZEMI_LENGTH, code, into, 4, 1, 2, 4, 6, 5);
        lanes("room for a symbol more", BURGZEMI_LENGTH, code, into, 4, 1, 2, 4, 6, 7);
        lanes(into ? "a symbol of q laid" : "a value above q taken apart", BURGZEMI_SYMBOL, code, into, 4, 1, 2, into ? 4 : 5, 6, 6);
    }

    /* Silent cells are taken apart as any other. */
    const uint32_t n = 3, q = 4, m = 1, b = 1;
    uint8_t silent[6], taken[6];
    memset(silent, 4, sizeof silent);
    see("silent cells taken apart", ANY(deinterleave, 2, silent, 6, taken, 6), BURGZEMI_SERVED, taken, silent, 6);
}

/* Figures that fit some codes and not others: a word all 1 beside one all 0. */
static void figures_of_some(enum code code)
{
    static const struct { uint32_t n, q, m, b; uint8_t answers[3]; } rows[] = {
        {6, 5, 2, 1, {BURGZEMI_SERVED, BURGZEMI_SERVED, BURGZEMI_UNFIT}}, {3, 2, 3, 1, {BURGZEMI_UNFIT, BURGZEMI_SERVED, BURGZEMI_SERVED}},
        {6, 2, 1, 2, {BURGZEMI_UNFIT, BURGZEMI_SERVED, BURGZEMI_UNFIT}}, {15, 256, 1, 7, {BURGZEMI_UNFIT, BURGZEMI_UNFIT, BURGZEMI_SERVED}},
    };
    for (size_t i = 0; i < sizeof rows / sizeof *rows; i++) {
        const uint32_t n = rows[i].n, q = rows[i].q, m = rows[i].m, b = rows[i].b;
        const unsigned wanted = rows[i].answers[code];
        uint8_t words[30] = {0}, laid[30], strip[30], apart[30];
        memset(words, 1, n);
        for (size_t t = 0; t < sizeof laid; t++)
            laid[t] = t % 2 == 0;
        memcpy(strip, untouched, sizeof strip);
        memcpy(apart, untouched, sizeof apart);
        see("figures of some codes, laid", ANY(interleave, 2, words, 2 * n, strip, 2 * n), wanted, strip, wanted ? untouched : laid, 2 * n);
        see("figures of some codes, apart", ANY(deinterleave, 2, laid, 2 * n, apart, 2 * n), wanted, apart, wanted ? untouched : words, 2 * n);
    }
}

/* Words of n symbols, all q 256, m 1 and b 1: each cell of the strip is where it belongs, and the words come back. */
static void strip_of(enum code code, uint32_t n, uint32_t depth)
{
    const uint32_t q = 256, m = 1, b = 1;
    static uint8_t words[BURGZEMI_MAX_DEPTH * BURGZEMI_MAX_WORD], strip[sizeof words], back[sizeof words];
    size_t len = (size_t)n * depth;
    uint32_t state = n + depth;
    for (size_t i = 0; i < len; i++)
        words[i] = (uint8_t)((state = state * 1664525 + 1013904223) >> 24);
    unsigned answer = ANY(interleave, depth, words, len, strip, len);
    for (size_t t = 0; t < len && answer == BURGZEMI_SERVED; t++)
        if (strip[t] != words[t % depth * n + t / depth])
            answer = 255;
    see("a strip", answer, BURGZEMI_SERVED, words, words, len);
    see("a strip taken apart", ANY(deinterleave, depth, strip, len, back, len), BURGZEMI_SERVED, back, words, len);
}

/* README's picture: four words of n 15, q 256, m 1, b 2 under one scratch of 8 cells, from cell 26 on; and one of 20 cells with one long burst, b 5. */
static void scratch(enum code code, uint32_t b, uint32_t k)
{
    const uint32_t n = 15, q = 256, m = 1;
    uint8_t map[60] = {0}, maps_apart[60], words[60], strip[60], found[60], message[11], got[11], starts[2], covers[8];
    static const uint8_t planned[8] = {0, 7, 0, 7, 0, 6, 0, 6};
    memset(map + 26, 1, 4 * b);
    see("a scratch taken apart", ANY(deinterleave, 4, map, 60, maps_apart, 60), BURGZEMI_SERVED, map, map, 60);
    for (int j = 0; j < 4; j++) {
        memset(message, 'A' + j, sizeof message);
        see("a lane covered", ANY(cover, maps_apart + 15 * j, 15, covers + 2 * j, 2), BURGZEMI_SERVED, covers, planned, 2 * (size_t)j + 2);
        see("a lane written", ANY(encode, covers + 2 * j, 2, message, k, words + 15 * j, 15), BURGZEMI_SERVED, covers, planned, 2);
    }
    see("four lanes laid", ANY(interleave, 4, words, 60, strip, 60), BURGZEMI_SERVED, map, map, 60);
    memset(strip + 26, 0xFF, 4 * b);
    see("four lanes taken apart", ANY(deinterleave, 4, strip, 60, found, 60), BURGZEMI_SERVED, map, map, 60);
    for (int j = 0; j < 4; j++) {
        memset(message, 'A' + j, sizeof message);
        unsigned answer = ANY(decode, found + 15 * j, 15, got, k, starts, 2);
        see("a lane read", answer, BURGZEMI_SERVED, got, message, k);
        see("a lane's starts", answer, BURGZEMI_SERVED, starts, planned + 2 * j, 2);
    }
}

/* ---- Calls on a table, and jobs */

static void set_slot(uint8_t *table, int i, uint8_t state, uint32_t number)
{
    uint8_t slot[5] = {state, (uint8_t)(number >> 24), (uint8_t)(number >> 16), (uint8_t)(number >> 8), (uint8_t)number};
    memcpy(table + 5 * i, slot, 5);
}

static void calls(void)
{
    uint8_t table[BURGZEMI_TABLE_LEN] = {0}, expected[BURGZEMI_TABLE_LEN] = {0};
#define CALL(what, call, number, wanted) see(what, burgzemi_##call(table, sizeof table, number), wanted, table, expected, sizeof table)
    for (uint32_t n = 1; n <= 64; n++) {
        set_slot(expected, (int)n - 1, 1, n);
        CALL("1 to 64 opened", open, n, BURGZEMI_SERVED);
    }
    CALL("65 opened", open, 65, BURGZEMI_FULL);
    CALL("65 cancelled", cancel, 65, BURGZEMI_FULL);
    CALL("0 opened in a full table", open, 0, BURGZEMI_NUMBER_ZERO);
    CALL("0 cancelled in a full table", cancel, 0, BURGZEMI_NUMBER_ZERO);
    CALL("64 opened again", open, 64, BURGZEMI_ALREADY_OPEN);
    set_slot(expected, 0, 0, 0);
    CALL("1 finished", finish, 1, BURGZEMI_SERVED);
    CALL("1 finished again", finish, 1, BURGZEMI_NOT_OPEN);
    set_slot(expected, 0, 1, 65);
    CALL("65 opened in the free slot", open, 65, BURGZEMI_SERVED);
    set_slot(expected, 1, 2, 2);
    CALL("2 cancelled", cancel, 2, BURGZEMI_SERVED);
    CALL("2 opened", open, 2, BURGZEMI_CANCELLED);
    CALL("2 finished", finish, 2, BURGZEMI_CANCELLED);
    CALL("65 reinstated, which is open", reinstate, 65, BURGZEMI_NOT_CANCELLED);
    CALL("66 reinstated, which is unknown", reinstate, 66, BURGZEMI_NOT_CANCELLED);
    set_slot(expected, 1, 1, 2);
    CALL("2 reinstated: open", reinstate, 2, BURGZEMI_SERVED);
    CALL("2 reinstated again", reinstate, 2, BURGZEMI_NOT_CANCELLED);
    CALL("2 opened, which is open again", open, 2, BURGZEMI_ALREADY_OPEN);
    CALL("2 released, which is open", release, 2, BURGZEMI_NOT_HELD);
    CALL("66 held, which is unknown", hold, 66, BURGZEMI_NOT_OPEN);
    CALL("66 released, which is unknown", release, 66, BURGZEMI_NOT_HELD);
    set_slot(expected, 1, 4, 2);
    CALL("2 held", hold, 2, BURGZEMI_SERVED);
    CALL("2 held again", hold, 2, BURGZEMI_HELD);
    CALL("2 finished, which is on hold", finish, 2, BURGZEMI_HELD);
    CALL("2 opened, which is on hold", open, 2, BURGZEMI_ALREADY_OPEN);
    CALL("2 reinstated, which is on hold", reinstate, 2, BURGZEMI_NOT_CANCELLED);
    CALL("66 opened, with 63 open and one on hold", open, 66, BURGZEMI_FULL);
    set_slot(expected, 1, 5, 2);
    CALL("2 cancelled, which is on hold", cancel, 2, BURGZEMI_SERVED);
    CALL("2 held, which is cancelled", hold, 2, BURGZEMI_CANCELLED);
    CALL("2 released, which is cancelled", release, 2, BURGZEMI_CANCELLED);
    set_slot(expected, 1, 4, 2);
    CALL("2 reinstated: on hold", reinstate, 2, BURGZEMI_SERVED);
    set_slot(expected, 1, 1, 2);
    CALL("2 released: open", release, 2, BURGZEMI_SERVED);
    CALL("2 released again", release, 2, BURGZEMI_NOT_HELD);

    memset(table, 0, sizeof table);
    memset(expected, 0, sizeof expected);
    set_slot(expected, 0, 3, 9);
    CALL("unknown 9 cancelled", cancel, 9, BURGZEMI_SERVED);
    CALL("9 opened", open, 9, BURGZEMI_CANCELLED);
    set_slot(expected, 0, 0, 0);
    CALL("9 reinstated: unknown, and its slot free", reinstate, 9, BURGZEMI_SERVED);
    CALL("9 finished, which is unknown again", finish, 9, BURGZEMI_NOT_OPEN);
    set_slot(expected, 0, 3, 9);
    CALL("9 cancelled again", cancel, 9, BURGZEMI_SERVED);
    set_slot(expected, 1, 1, 0xFEDCBA98);
    CALL("a number of four bytes", open, 0xFEDCBA98, BURGZEMI_SERVED);

    set_slot(table, 63, 1, 9);
    set_slot(expected, 63, 1, 9);
#define EACH(what, len, wanted) \
    see(what, burgzemi_open(table, len, 10), wanted, table, expected, sizeof table); \
    see(what, burgzemi_cancel(table, len, 10), wanted, table, expected, sizeof table); \
    see(what, burgzemi_finish(table, len, 10), wanted, table, expected, sizeof table); \
    see(what, burgzemi_reinstate(table, len, 10), wanted, table, expected, sizeof table); \
    see(what, burgzemi_hold(table, len, 10), wanted, table, expected, sizeof table); \
    see(what, burgzemi_release(table, len, 10), wanted, table, expected, sizeof table)
    EACH("9 in two slots", sizeof table, BURGZEMI_INVALID);
    set_slot(table, 63, 6, 10);
    set_slot(expected, 63, 6, 10);
    EACH("a state of 6", sizeof table, BURGZEMI_INVALID);
    EACH("a byte short", sizeof table - 1, BURGZEMI_LENGTH);
    EACH("no table", 0, BURGZEMI_LENGTH);
#undef EACH
#undef CALL
}

/* Number 0 alone, in the first slot, two between and the last: open, cancelled, finished, reinstated, held. */
static void number_zero(void)
{
    for (int at = 0; at <= 63; at += 21) {
        uint8_t table[BURGZEMI_TABLE_LEN] = {0}, expected[BURGZEMI_TABLE_LEN] = {0};
#define CALL(what, call, wanted) see(what, burgzemi_##call(table, sizeof table, 0), wanted, table, expected, sizeof table)
        CALL("an unknown 0 opened", open, BURGZEMI_NUMBER_ZERO);
        CALL("an unknown 0 cancelled", cancel, BURGZEMI_NUMBER_ZERO);
        CALL("an unknown 0 finished", finish, BURGZEMI_NOT_OPEN);
        CALL("an unknown 0 reinstated", reinstate, BURGZEMI_NOT_CANCELLED);
        CALL("an unknown 0 held", hold, BURGZEMI_NOT_OPEN);
        CALL("an unknown 0 released", release, BURGZEMI_NOT_HELD);
        set_slot(table, at, 2, 0);
        set_slot(expected, at, 2, 0);
        CALL("a cancelled 0 opened", open, BURGZEMI_NUMBER_ZERO);
        CALL("a cancelled 0 cancelled", cancel, BURGZEMI_CANCELLED);
        CALL("a cancelled 0 finished", finish, BURGZEMI_CANCELLED);
        set_slot(table, at, 1, 0);
        CALL("an open 0 cancelled", cancel, BURGZEMI_SERVED);
        set_slot(expected, at, 1, 0);
        CALL("a 0 reinstated that was open", reinstate, BURGZEMI_SERVED);
        CALL("an open 0 reinstated", reinstate, BURGZEMI_NOT_CANCELLED);
        CALL("an open 0 opened", open, BURGZEMI_NUMBER_ZERO);
        set_slot(expected, at, 4, 0);
        CALL("an open 0 held", hold, BURGZEMI_SERVED);
        CALL("a 0 on hold opened", open, BURGZEMI_NUMBER_ZERO);
        CALL("a 0 on hold finished", finish, BURGZEMI_HELD);
        set_slot(expected, at, 5, 0);
        CALL("a 0 on hold cancelled", cancel, BURGZEMI_SERVED);
        set_slot(expected, at, 4, 0);
        CALL("a 0 reinstated that was on hold", reinstate, BURGZEMI_SERVED);
        set_slot(expected, at, 1, 0);
        CALL("a 0 released", release, BURGZEMI_SERVED);
        memset(expected, 0, sizeof expected);
        CALL("an open 0 finished", finish, BURGZEMI_SERVED);
        set_slot(table, at, 3, 0);
        CALL("a 0 reinstated that was absent", reinstate, BURGZEMI_SERVED);
#undef CALL
    }
}

/* What a job in each of the six states is answered. */
static const uint8_t by_state[6] = {BURGZEMI_NOT_OPEN, BURGZEMI_SERVED, BURGZEMI_CANCELLED, BURGZEMI_CANCELLED, BURGZEMI_HELD, BURGZEMI_CANCELLED};

/* A strip of number 0 in each state, in the same slots: it is read as any other job, and never written. */
static void zero_on_strips(enum code code)
{
    static const uint8_t payload0[11] = {0, 0, 0, 0, 0x41}, starts[2] = {0, 6};
    const uint32_t n = 15, q = 256, m = 1, b = 2;
    uint8_t word[15];
    see("number 0 as a word", ANY(encode, starts, 2, payload0, 11, word, 15), BURGZEMI_SERVED, starts, starts, 2);
    for (int i = 0; i < 24; i++) {
        uint8_t table[BURGZEMI_TABLE_LEN] = {0}, got[15], payload[11], state = (uint8_t)(i / 4);
        set_slot(table, i % 4 * 21, state, 0);
        memcpy(got, untouched, sizeof got);
        memcpy(payload, untouched, sizeof payload);
        see("number 0 written", ANY(job_write, table, sizeof table, starts, 2, payload0, 11, got, 15), BURGZEMI_NUMBER_ZERO, got, untouched, 15);
        const uint8_t *held = by_state[state] == BURGZEMI_SERVED ? payload0 : untouched;
        see("number 0 read", ANY(job_read, table, sizeof table, word, 15, payload, 11), by_state[state], payload, held, 11);
    }
}

/* The transfer example under each code: n 15, q 256, m 1, b 2; start 6, job 7. The burst ends in the second part, at its third position: the third part spells
 * rank 6 or place 2, plus 1. Sub-blocks are at 0, 7 and 14: the burst touches the second, and the others spell 6. */
static const uint8_t payload7[11] = {0, 0, 0, 7, 0x41, 0x42, 0x43, 0x44, 0x45, 0x46, 0x47};
static const uint8_t written7[3][15] = {
    {0, 0, 0, 0, 7, 0x41, 0, 0, 0x42, 0x43, 7, 0x44, 0x45, 0x46, 0x47},
    {0, 0, 0, 0, 7, 0x41, 0, 0, 0x42, 0x43, 3, 0x44, 0x45, 0x46, 0x47},
    {6, 0, 0, 0, 7, 0x41, 0, 0, 0x42, 0x43, 0x44, 0x45, 0x46, 0x47, 6},
};

static void write7(const char *what, unsigned wanted, enum code code, uint32_t q, uint32_t b, const uint8_t *table, size_t table_len, uint8_t start,
                   size_t starts_len, size_t payload_len, size_t word_len)
{
    const uint32_t n = 15, m = 1;
    uint8_t starts[4] = {0, start, 0, 0}, word[16];
    memcpy(word, untouched, sizeof word);
    unsigned answer = ANY(job_write, table, table_len, starts, starts_len, payload7, payload_len, word, word_len);
    see(what, answer, wanted, word, wanted == BURGZEMI_SERVED ? written7[code] : untouched, 15);
    see(what, answer, wanted, word + 15, untouched + 15, 1);
}

/* The word as it is found, with damage in its burst; or a word that is given. */
static void read7(const char *what, unsigned wanted, enum code code, uint32_t q, uint32_t b, const uint8_t *table, size_t table_len, const uint8_t *word,
                  size_t word_len, size_t payload_len)
{
    const uint32_t n = 15, m = 1;
    uint8_t payload[16], found[15];
    memcpy(payload, untouched, sizeof payload);
    memcpy(found, word ? word : written7[code], sizeof found);
    if (!word)
        memset(found + 6, 0xFF, 2);
    unsigned answer = ANY(job_read, table, table_len, found, word_len, payload, payload_len);
    see(what, answer, wanted, payload, wanted == BURGZEMI_SERVED ? payload7 : untouched, 11);
    see(what, answer, wanted, payload + 11, untouched + 11, sizeof payload - 11);
}

/* 1 2 10 3 5, or 1 2 10 3 and 7 or 21, each beside what would be refused later */
static void refused_jobs(enum code code)
{
    uint8_t empty[BURGZEMI_TABLE_LEN] = {0}, word[15];
    const size_t len = sizeof empty;
    write7("q of 257, written", BURGZEMI_INVALID, code, 257, 9, empty, len, 14, 1, 4, 14);
    write7("b of 9, written", BURGZEMI_UNFIT, code, 256, 9, empty, len - 1, 14, 1, 4, 14);
    write7("three symbols for a byte, written", BURGZEMI_PAYLOAD, code, 15, 2, empty, 0, 14, 1, 4, 14);
    write7("table short, written", BURGZEMI_LENGTH, code, 256, 2, empty, len - 1, 14, 2, 11, 15);
    write7("starts odd, written", BURGZEMI_LENGTH, code, 256, 2, empty, len, 14, 3, 11, 15);
    write7("payload short, written", BURGZEMI_LENGTH, code, 256, 2, empty, len, 14, 2, 10, 15);
    write7("word short, written", BURGZEMI_LENGTH, code, 256, 2, empty, len, 14, 2, 11, 14);
    write7("word long, written", BURGZEMI_LENGTH, code, 256, 2, empty, len, 14, 2, 11, 16);
    write7("past the end, written", BURGZEMI_STARTS, code, 256, 2, empty, len, 14, 2, 11, 15);

    /* No first symbol is 0, and no two sub-blocks have one value. */
    memset(word, 1, sizeof word);
    word[7] = 2;
    word[14] = 3;
    read7("q of 257, read", BURGZEMI_INVALID, code, 257, 9, empty, len, word, 14, 10);
    read7("b of 9, read", BURGZEMI_UNFIT, code, 256, 9, empty, len, word, 14, 10);
    read7("three symbols for a byte, read", BURGZEMI_PAYLOAD, code, 15, 2, empty, 1, word, 14, 10);
    read7("table short, read", BURGZEMI_LENGTH, code, 256, 2, empty, len - 1, word, 15, 11);
    read7("word short, read", BURGZEMI_LENGTH, code, 256, 2, empty, len, word, 14, 11);
    read7("payload short, read", BURGZEMI_LENGTH, code, 256, 2, empty, len, word, 15, 10);
    read7("payload long, read", BURGZEMI_LENGTH, code, 256, 2, empty, len, word, 15, 12);
    read7("no pattern, or no majority", code == LARSSON ? BURGZEMI_MAJORITY : BURGZEMI_PATTERN, code, 256, 2, empty, len, word, 15, 11);
}

/* A state of 6, or a number in two slots, is 1, but not in a table of another length. */
static void refused_tables(enum code code)
{
    uint8_t table[BURGZEMI_TABLE_LEN] = {0};
    const size_t len = sizeof table;
    set_slot(table, 0, 1, 7);
    table[315] = 6;
    write7("a state of 6, written", BURGZEMI_INVALID, code, 256, 9, table, len, 14, 1, 4, 14);
    read7("a state of 6, read", BURGZEMI_INVALID, code, 256, 9, table, len, NULL, 14, 10);
    table[315] = 0;
    set_slot(table, 40, 2, 7);
    write7("7 in two slots, written", BURGZEMI_INVALID, code, 256, 9, table, len, 14, 1, 4, 14);
    read7("7 in two slots, read", BURGZEMI_INVALID, code, 256, 9, table, len, NULL, 14, 10);
    write7("7 in two slots of a short table", BURGZEMI_LENGTH, code, 256, 2, table, len - 1, 6, 2, 11, 15);
    read7("7 in two slots of a short table", BURGZEMI_LENGTH, code, 256, 2, table, len - 1, NULL, 15, 11);
}

/* Job 7 written and read after each call of a list, and then in each state. */
static void transfer_example(enum code code)
{
    static const struct { uint8_t (*call)(uint8_t *, size_t, uint32_t); uint8_t called, used; } list[] = {
        {burgzemi_finish, BURGZEMI_NOT_OPEN, BURGZEMI_NOT_OPEN}, {burgzemi_open, BURGZEMI_SERVED, BURGZEMI_SERVED},
        {burgzemi_cancel, BURGZEMI_SERVED, BURGZEMI_CANCELLED}, {burgzemi_open, BURGZEMI_CANCELLED, BURGZEMI_CANCELLED},
        {burgzemi_reinstate, BURGZEMI_SERVED, BURGZEMI_SERVED}, {burgzemi_hold, BURGZEMI_SERVED, BURGZEMI_HELD},
        {burgzemi_release, BURGZEMI_SERVED, BURGZEMI_SERVED}, {burgzemi_finish, BURGZEMI_SERVED, BURGZEMI_NOT_OPEN},
    };
    uint8_t table[BURGZEMI_TABLE_LEN] = {0};
    const size_t len = sizeof table;
    for (size_t i = 0; i < sizeof list / sizeof *list; i++) {
        see("a call on job 7", list[i].call(table, len, 7), list[i].called, payload7, payload7, 1);
        write7("job 7 after a call, written", list[i].used, code, 256, 2, table, len, 6, 2, 11, 15);
        read7("job 7 after a call, read", list[i].used, code, 256, 2, table, len, NULL, 15, 11);
    }
    for (uint8_t state = 0; state < 6; state++) {
        set_slot(table, 63, state, 7);
        write7("job 7 by its state, written", by_state[state], code, 256, 2, table, len, 6, 2, 11, 15);
        read7("job 7 by its state, read", by_state[state], code, 256, 2, table, len, NULL, 15, 11);
    }
}

/* ---- Prescriptions */

struct eye {
    uint8_t kind;
    double sphere, cylinder;
    uint8_t axis;
};

static const struct eye plano = {BURGZEMI_PLANO, 0, 0, 0}, toric = {BURGZEMI_TORIC, -1.25, 0.5, 90};

/* Doubles bit by bit, so that minus zero is another than plus zero. */
static void see_powers(const char *what, const double *powers, const double *expected, size_t len)
{
    if (memcmp(powers, expected, len * sizeof *powers) != 0) {
        printf("exports: %s: other powers\n", what);
        wrong = 1;
    }
}

/* Transposed: the eye that is wanted, or the refusal with both buffers as they were. Transposed again, the bits of the eye that was given. */
static void turn(const char *what, unsigned wanted, struct eye given, struct eye expected, size_t marks_len, size_t powers_len)
{
    uint8_t marks[4], kept[4] = {expected.kind, expected.axis, 0xA5, 0xA5};
    double powers[3] = {7, 7, 7}, kept_powers[3] = {expected.sphere, expected.cylinder, 7}, untouched_powers[3] = {7, 7, 7};
    memset(marks, 0xA5, sizeof marks);
    unsigned answer = burgzemi_transpose(given.kind, given.sphere, given.cylinder, given.axis, marks, marks_len, powers, powers_len);
    if (wanted != BURGZEMI_SERVED)
        memset(kept, 0xA5, sizeof kept);
    see(what, answer, wanted, marks, kept, sizeof kept);
    see_powers(what, powers, wanted == BURGZEMI_SERVED ? kept_powers : untouched_powers, 3);
    if (wanted != BURGZEMI_SERVED)
        return;
    const uint8_t first[2] = {given.kind, given.axis};
    const double first_powers[2] = {given.sphere, given.cylinder};
    answer = burgzemi_transpose(marks[0], powers[0], powers[1], marks[1], marks, 2, powers, 2);
    see(what, answer, BURGZEMI_SERVED, marks, first, 2);
    see_powers(what, powers, first_powers, 2);
}

static void equivalent(const char *what, unsigned wanted, struct eye given, double expected, size_t power_len)
{
    double power[2] = {7, 7}, kept[2] = {wanted == BURGZEMI_SERVED ? expected : 7, 7};
    unsigned answer = burgzemi_spherical_equivalent(given.kind, given.sphere, given.cylinder, given.axis, power, power_len);
    see(what, answer, wanted, untouched, untouched, 1);
    see_powers(what, power, kept, 2);
}

/* An eye outside the rules is 16 for each call that it is given to. */
static void outside(const char *what, struct eye given)
{
    const uint32_t n = 25, q = 256, m = 1, b = 2;
    uint8_t table[BURGZEMI_TABLE_LEN] = {1, 0, 0, 0, 7}, starts[2] = {0, 6}, word[25];
    turn(what, BURGZEMI_PRESCRIPTION, given, given, 2, 2);
    equivalent(what, BURGZEMI_PRESCRIPTION, given, 0, 1);
    memcpy(word, untouched, sizeof word);
    for (enum code code = CONSTRUCTION_A; code <= LARSSON; code++) {
        unsigned answer = ANY(prescription_write, table, sizeof table, starts, 2, 7, given.kind, given.sphere, given.cylinder, given.axis,
                              BURGZEMI_PLANO, 0, 0, 0, 63.5, word, sizeof word);
        see(what, answer, BURGZEMI_PRESCRIPTION, word, untouched, sizeof word);
        answer = ANY(prescription_write, table, sizeof table, starts, 2, 7, BURGZEMI_PLANO, 0, 0, 0,
                     given.kind, given.sphere, given.cylinder, given.axis, 63.5, word, sizeof word);
        see(what, answer, BURGZEMI_PRESCRIPTION, word, untouched, sizeof word);
    }
}

static void eyes(void)
{
    const double minus_zero = -0.0, huge = 1e308 * 10, no_number = huge - huge;
    const struct eye sphere = {BURGZEMI_SPHERE, -30, 0, 0}, turned = {BURGZEMI_TORIC, -0.75, -0.5, 180};

    turn("a toric", BURGZEMI_SERVED, toric, turned, 2, 2);
    turn("an axis of 91", BURGZEMI_SERVED, (struct eye){BURGZEMI_TORIC, 0, 0.125, 91}, (struct eye){BURGZEMI_TORIC, 0.125, -0.125, 1}, 2, 2);
    turn("a sum of plus zero", BURGZEMI_SERVED, (struct eye){BURGZEMI_TORIC, -0.5, 0.5, 1}, (struct eye){BURGZEMI_TORIC, 0, -0.5, 91}, 2, 2);
    turn("the widest cylinder", BURGZEMI_SERVED, (struct eye){BURGZEMI_TORIC, -30, 60, 180}, (struct eye){BURGZEMI_TORIC, 30, -60, 90}, 2, 2);
    turn("a sphere", BURGZEMI_SERVED, sphere, sphere, 2, 2);
    turn("a plano", BURGZEMI_SERVED, plano, plano, 2, 2);
    equivalent("a toric's equivalent", BURGZEMI_SERVED, toric, -1, 1);
    equivalent("an equivalent in sixteenths", BURGZEMI_SERVED, (struct eye){BURGZEMI_TORIC, 0, 0.125, 1}, 0.0625, 1);
    equivalent("a sphere's equivalent", BURGZEMI_SERVED, sphere, -30, 1);
    equivalent("a plano's equivalent", BURGZEMI_SERVED, plano, 0, 1);
    for (size_t len = 0; len < 4; len++) {
        if (len != 2) {
            turn("marks of another length", BURGZEMI_LENGTH, toric, toric, len, 2);
            turn("powers of another length", BURGZEMI_LENGTH, toric, toric, 2, len < 3 ? len : 3);
        }
        if (len == 0 || len == 2)
            equivalent("a power of another length", BURGZEMI_LENGTH, toric, 0, len);
    }
    turn("a length before the eye", BURGZEMI_LENGTH, (struct eye){3, 0, 0, 0}, toric, 1, 2);
    equivalent("a length before the eye", BURGZEMI_LENGTH, (struct eye){3, 0, 0, 0}, 0, 0);

    outside("a kind of 3", (struct eye){3, 1, 0, 0});
    outside("a kind of 255", (struct eye){255, 0, 0, 0});
    outside("a plano with a sphere", (struct eye){BURGZEMI_PLANO, 1, 0, 0});
    outside("a plano with a cylinder", (struct eye){BURGZEMI_PLANO, 0, 1, 0});
    outside("a plano with an axis", (struct eye){BURGZEMI_PLANO, 0, 0, 1});
    outside("a plano with minus zero", (struct eye){BURGZEMI_PLANO, minus_zero, 0, 0});
    outside("a plano with a second minus zero", (struct eye){BURGZEMI_PLANO, 0, minus_zero, 0});
    outside("a plano with a NaN", (struct eye){BURGZEMI_PLANO, no_number, 0, 0});
    outside("a sphere of 0", (struct eye){BURGZEMI_SPHERE, 0, 0, 0});
    outside("a sphere of minus zero", (struct eye){BURGZEMI_SPHERE, minus_zero, 0, 0});
    outside("a sphere with minus zero unused", (struct eye){BURGZEMI_SPHERE, 1, minus_zero, 0});
    outside("a sphere with a cylinder", (struct eye){BURGZEMI_SPHERE, 1, 1, 0});
    outside("a sphere with an axis", (struct eye){BURGZEMI_SPHERE, 1, 0, 90});
    outside("a sphere of 30.125", (struct eye){BURGZEMI_SPHERE, 30.125, 0, 0});
    outside("a sixteenth", (struct eye){BURGZEMI_SPHERE, 0.0625, 0, 0});
    outside("infinity", (struct eye){BURGZEMI_SPHERE, huge, 0, 0});
    outside("a NaN", (struct eye){BURGZEMI_SPHERE, no_number, 0, 0});
    outside("a toric with a sphere of minus zero", (struct eye){BURGZEMI_TORIC, minus_zero, 1, 90});
    outside("a toric without cylinder", (struct eye){BURGZEMI_TORIC, 1, 0, 90});
    outside("a toric with a cylinder of minus zero", (struct eye){BURGZEMI_TORIC, 1, minus_zero, 90});
    outside("a sum of 30.125", (struct eye){BURGZEMI_TORIC, 30, 0.125, 90});
    outside("a toric with a NaN", (struct eye){BURGZEMI_TORIC, 1, no_number, 90});
    outside("an axis of 0", (struct eye){BURGZEMI_TORIC, 1, 1, 0});
    outside("an axis of 181", (struct eye){BURGZEMI_TORIC, 1, 1, 181});
}

/* ---- Prescriptions on a strip under each code: n 25, q 256, m 1, b 2; start 6, job 7. The burst ends in the first part, at its last position, 7: the second
 * part spells rank 6 or place 7, plus 1. Sub-blocks are at 0, 12 and 24: the burst touches none, and the first two spell 6. */

static const uint8_t prescribed[3][25] = {
    {0, 0, 0, 7, 2, 255, 0, 0, 7, 246, 0, 4, 90, 0, 0, 0, 0, 0, 0, 0, 127, 0, 0, 0, 0},
    {0, 0, 0, 7, 2, 255, 0, 0, 8, 246, 0, 4, 90, 0, 0, 0, 0, 0, 0, 0, 127, 0, 0, 0, 0},
    {6, 0, 0, 0, 7, 2, 0, 0, 255, 246, 0, 4, 6, 90, 0, 0, 0, 0, 0, 0, 127, 0, 0, 0, 0},
};

struct lengths {
    size_t table, starts, word, marks, powers;
};

static const struct lengths right_lengths = {BURGZEMI_TABLE_LEN, 2, 25, BURGZEMI_MARKS_LEN, BURGZEMI_POWERS_LEN};

static void write_prescription(const char *what, unsigned wanted, enum code code, uint32_t n, uint8_t state, uint32_t number, uint8_t start, double distance,
                               struct lengths lens)
{
    const uint32_t q = 256, m = 1, b = 2;
    uint8_t table[BURGZEMI_TABLE_LEN + 5], starts[4] = {0, start, 0, 0}, word[64];
    memset(table, 0, sizeof table);
    table[0] = state;
    table[4] = 7;
    memcpy(word, untouched, sizeof word);
    unsigned answer = ANY(prescription_write, table, lens.table, starts, lens.starts, number, toric.kind, toric.sphere, toric.cylinder, toric.axis,
                          plano.kind, plano.sphere, plano.cylinder, plano.axis, distance, word, lens.word);
    see(what, answer, wanted, word, wanted == BURGZEMI_SERVED ? prescribed[code] : untouched, 25);
    see(what, answer, wanted, word + 25, untouched + 25, sizeof word - 25);
}

static void read_prescription(const char *what, unsigned wanted, enum code code, uint32_t b, uint8_t state, uint8_t number, uint8_t kind, struct lengths lens)
{
    const uint32_t n = 25, q = 256, m = 1;
    uint8_t table[BURGZEMI_TABLE_LEN + 5], word[32], marks[12], handed[12] = {0, 0, 0, 7, 2, 90, 0, 0, 0xA5, 0xA5, 0xA5, 0xA5};
    double powers[7] = {7, 7, 7, 7, 7, 7, 7}, handed_powers[7] = {-1.25, 0.5, 0, 0, 63.5, 7, 7}, kept[7] = {7, 7, 7, 7, 7, 7, 7};
    memset(table, 0, sizeof table);
    table[0] = state;
    table[4] = number;
    memset(word, 0, sizeof word);
    memcpy(word, prescribed[code], 25);
    word[code == LARSSON ? 5 : 4] = kind;
    word[6] = 0xFF; /* damage inside the burst */
    memset(marks, 0xA5, sizeof marks);
    unsigned answer = ANY(prescription_read, table, lens.table, word, lens.word, marks, lens.marks, powers, lens.powers);
    if (wanted != BURGZEMI_SERVED)
        memset(handed, 0xA5, sizeof handed);
    see(what, answer, wanted, marks, handed, sizeof handed);
    see_powers(what, powers, wanted == BURGZEMI_SERVED ? handed_powers : kept, 7);
}

static struct lengths with(size_t table, size_t starts, size_t word, size_t marks, size_t powers)
{
    return (struct lengths){table, starts, word, marks, powers};
}

/* 1 2 10 3 5 16 17 12 23 14, each beside what would be refused later */
static void prescriptions_written(enum code code)
{
    const size_t len = BURGZEMI_TABLE_LEN;
    write_prescription("prescription write", BURGZEMI_SERVED, code, 25, 1, 7, 6, 63.5, right_lengths);
    write_prescription("an unknown state", BURGZEMI_INVALID, code, 25, 6, 7, 24, 0, with(len, 1, 24, 0, 0));
    write_prescription("n of 2", BURGZEMI_INVALID, code, 2, 1, 7, 24, 0, with(319, 1, 24, 0, 0));
    write_prescription("unfit", BURGZEMI_UNFIT, code, 4, 1, 7, 24, 0, with(319, 1, 24, 0, 0));
    write_prescription("no room for a job", BURGZEMI_PAYLOAD, code, 8, 1, 7, 24, 0, with(319, 1, 24, 0, 0));
    write_prescription("table short, and an unknown state", BURGZEMI_LENGTH, code, 25, 6, 7, 24, 0, with(319, 2, 25, 0, 0));
    write_prescription("table long", BURGZEMI_LENGTH, code, 25, 1, 7, 24, 0, with(325, 2, 25, 0, 0));
    write_prescription("starts short", BURGZEMI_LENGTH, code, 25, 1, 7, 24, 0, with(len, 1, 25, 0, 0));
    write_prescription("starts long", BURGZEMI_LENGTH, code, 25, 1, 7, 24, 0, with(len, 4, 25, 0, 0));
    write_prescription("word short", BURGZEMI_LENGTH, code, 25, 1, 7, 24, 0, with(len, 2, 24, 0, 0));
    write_prescription("word long", BURGZEMI_LENGTH, code, 25, 1, 7, 24, 0, with(len, 2, 26, 0, 0));
    write_prescription("a start past the end", BURGZEMI_STARTS, code, 25, 1, 7, 24, 0, right_lengths);
    write_prescription("16 bytes, and a start past the end", BURGZEMI_STARTS, code, 20, 1, 7, 19, 63.5, with(len, 2, 20, 0, 0));
    write_prescription("16 bytes", BURGZEMI_PRESCRIPTION, code, 20, 1, 0, 6, 63.5, with(len, 2, 20, 0, 0));
    write_prescription("a distance of 39.5", BURGZEMI_PRESCRIPTION, code, 25, 1, 0, 6, 39.5, right_lengths);
    write_prescription("a distance of 80.5", BURGZEMI_PRESCRIPTION, code, 25, 1, 0, 6, 80.5, right_lengths);
    write_prescription("a quarter of a millimetre", BURGZEMI_PRESCRIPTION, code, 25, 1, 0, 6, 63.25, right_lengths);
    write_prescription("a distance of minus 63.5", BURGZEMI_PRESCRIPTION, code, 25, 1, 0, 6, -63.5, right_lengths);
    write_prescription("number 0", BURGZEMI_NUMBER_ZERO, code, 25, 1, 0, 6, 63.5, right_lengths);
    for (uint8_t state = 0; state < 6; state++)
        write_prescription("a job by its state", by_state[state], code, 25, state, 7, 6, 63.5, right_lengths);
}

/* A payload of 4 bytes is 10, whatever the lengths. */
static void no_room_to_read(enum code code)
{
    const uint32_t n = 8, q = 256, m = 1, b = 2;
    uint8_t table[1] = {0}, word[1] = {0}, marks[1] = {0xA5};
    double powers[1] = {7}, kept[1] = {7};
    see("no room for a job, read", ANY(prescription_read, table, 0, word, 0, marks, 0, powers, 0), BURGZEMI_PAYLOAD, marks, untouched, 1);
    see_powers("no room for a job, read", powers, kept, 1);
}

/* 1 2 10 3 16 12 23 14, likewise; what a found word is refused with stands with the moves */
static void prescriptions_read(enum code code)
{
    const size_t len = BURGZEMI_TABLE_LEN;
    no_room_to_read(code);
    read_prescription("prescription read", BURGZEMI_SERVED, code, 2, 1, 7, 2, right_lengths);
    read_prescription("an unknown state before marks and powers", BURGZEMI_INVALID, code, 2, 6, 7, 3, with(len, 0, 24, 7, 4));
    read_prescription("unfit before marks and powers", BURGZEMI_UNFIT, code, 13, 1, 7, 3, with(len, 0, 24, 7, 4));
    read_prescription("table short", BURGZEMI_LENGTH, code, 2, 1, 7, 3, with(319, 0, 25, 8, 5));
    for (size_t other = 0; other <= 10; other++) {
        if (other != BURGZEMI_MARKS_LEN)
            read_prescription("marks of another length", BURGZEMI_LENGTH, code, 2, 0, 7, 3, with(len, 0, 25, other, 5));
        if (other != BURGZEMI_POWERS_LEN && other <= 6)
            read_prescription("powers of another length", BURGZEMI_LENGTH, code, 2, 0, 7, 3, with(len, 0, 25, 8, other));
    }
    read_prescription("word short", BURGZEMI_LENGTH, code, 2, 0, 7, 3, with(len, 0, 24, 8, 5));
    read_prescription("word long", BURGZEMI_LENGTH, code, 2, 0, 7, 3, with(len, 0, 26, 8, 5));
    read_prescription("a kind of 3, and an unknown job", BURGZEMI_PRESCRIPTION, code, 2, 0, 7, 3, right_lengths);
    read_prescription("another job", BURGZEMI_NOT_OPEN, code, 2, 1, 8, 2, right_lengths);
    for (uint8_t state = 0; state < 6; state++)
        read_prescription("a job by its state", by_state[state], code, 2, state, 7, 2, right_lengths);
}

/* ---- One long burst: n 20, q 2, b 5; start 9, message all 1. The parts begin at 0, 6 and 13: the burst ends at the begin of the third, so the first
 * spells 0 and the second has the fixed symbol. */

static const char long_word[21] = "10001101100000111111";

/* Symbols from characters 0 to 9. */
static void symbols_of(const char *text, uint8_t *word)
{
    for (size_t i = 0; text[i] != '\0'; i++)
        word[i] = (uint8_t)(text[i] - '0');
}

static void long_figures(void)
{
    fit("one long burst", CONSTRUCTION_B, 20, 2, 1, 5, 16, 3, 10, 1);
    fit("the longest burst of n 20", CONSTRUCTION_B, 20, 2, 1, 6, 15, 3, 9, 1);
    misfit("a burst above a third", BURGZEMI_UNFIT, CONSTRUCTION_B, 20, 2, 1, 7);
    misfit("no room for the digits", BURGZEMI_UNFIT, CONSTRUCTION_B, 4, 2, 1, 1);
    fit("the least figures", CONSTRUCTION_B, 3, 2, 1, 1, 3, 0, 0, 0);
    fit("payload of one long burst", CONSTRUCTION_B, 20, 2, 1, 5, 16, 3, 10, 1);
    fit("payload of the example with one long burst", CONSTRUCTION_B, 15, 256, 1, 5, 11, 0, 8, 8);
    misfit("payload of b 7", BURGZEMI_UNFIT, CONSTRUCTION_B, 20, 2, 1, 7);
}

static void long_written(void)
{
    uint8_t start[4] = {0, 16, 0, 0}, message[12], word[24], expected[24];
    memset(message, 1, sizeof message);
    message[9] = 2;
    memcpy(word, untouched, sizeof word);
    memcpy(expected, untouched, sizeof expected);
#define WRITE(what, wanted, n, q, b, starts_len, message_len, word_len) \
    see(what, burgzemi_long_encode(n, q, b, start, starts_len, message, message_len, word, word_len), wanted, word, expected, sizeof word)
    /* 1 2 3 5 4, each beside what would be refused later */
    WRITE("n of 4097", BURGZEMI_INVALID, 4097, 2, 7, 1, 11, 19);
    WRITE("q of 1", BURGZEMI_INVALID, 20, 1, 7, 1, 11, 19);
    WRITE("b of 0", BURGZEMI_INVALID, 20, 2, 0, 1, 11, 19);
    WRITE("b of 7", BURGZEMI_UNFIT, 20, 2, 7, 1, 11, 19);
    WRITE("half a start", BURGZEMI_LENGTH, 20, 2, 5, 1, 10, 20);
    WRITE("two starts", BURGZEMI_LENGTH, 20, 2, 5, 4, 10, 20);
    WRITE("message long", BURGZEMI_LENGTH, 20, 2, 5, 2, 11, 20);
    WRITE("word short", BURGZEMI_LENGTH, 20, 2, 5, 2, 10, 19);
    WRITE("word long", BURGZEMI_LENGTH, 20, 2, 5, 2, 10, 21);
    WRITE("start past the end", BURGZEMI_STARTS, 20, 2, 5, 2, 10, 20);
    start[1] = 9;
    WRITE("a symbol of 2", BURGZEMI_SYMBOL, 20, 2, 5, 2, 10, 20);
    message[9] = 1;
    symbols_of(long_word, expected);
    WRITE("one long burst written", BURGZEMI_SERVED, 20, 2, 5, 2, 10, 20);
#undef WRITE
}

/* Reads a word of 20 characters: the start, or the refusal with both buffers as they were. */
static void long_read(const char *what, unsigned wanted, uint32_t q, uint32_t b, const char *text, size_t word_len, size_t message_len,
                      size_t starts_len, uint8_t start)
{
    uint8_t word[21] = {0}, message[12], starts[4], kept[4] = {0, start, 0xA5, 0x5A};
    symbols_of(text, word);
    memcpy(message, untouched, sizeof message);
    memcpy(starts, untouched, sizeof starts);
    unsigned answer = burgzemi_long_decode(20, q, b, word, word_len, message, message_len, starts, starts_len);
    see(what, answer, wanted, starts, wanted == BURGZEMI_SERVED ? kept : untouched, sizeof starts);
    if (wanted != BURGZEMI_SERVED)
        see(what, answer, wanted, message, untouched, sizeof message);
}

static void long_found(void)
{
    long_read("as it is written", BURGZEMI_SERVED, 2, 5, long_word, 20, 10, 2, 9);
    long_read("damage in the burst", BURGZEMI_SERVED, 2, 5, "10001101101010111111", 20, 10, 2, 9);
    long_read("a silent burst", BURGZEMI_SERVED, 2, 5, "10001101122222111111", 20, 10, 2, 9);
    /* 1 2 3 4 7 19 8 9 19, each beside what would be refused later */
    long_read("q of 257", BURGZEMI_INVALID, 257, 7, "33333333333333333333", 19, 9, 1, 0);
    long_read("b of 7", BURGZEMI_UNFIT, 2, 7, "33333333333333333333", 19, 9, 1, 0);
    long_read("word short", BURGZEMI_LENGTH, 2, 5, "33333333333333333333", 19, 10, 2, 0);
    long_read("message short", BURGZEMI_LENGTH, 2, 5, "33333333333333333333", 20, 9, 2, 0);
    long_read("starts short", BURGZEMI_LENGTH, 2, 5, "33333333333333333333", 20, 10, 1, 0);
    long_read("starts long", BURGZEMI_LENGTH, 2, 5, "33333333333333333333", 20, 10, 4, 0);
    long_read("a value of 3 in the burst", BURGZEMI_SYMBOL, 2, 5, "11121111133333111111", 20, 10, 2, 0);
    long_read("no part with a fixed symbol", BURGZEMI_PATTERN, 2, 5, "11121111122222111112", 20, 10, 2, 0);
    long_read("three fixed symbols", BURGZEMI_PATTERN, 2, 5, "00000000000000000000", 20, 10, 2, 0);
    long_read("a silent digit of a value too large", BURGZEMI_ERASED, 2, 5, "11121101100000111112", 20, 10, 2, 0);
    long_read("a value of 7 in a part of 7", BURGZEMI_VALUE, 2, 5, "11111101100000111112", 20, 10, 2, 0);
    long_read("a value of 6 in a part of 7", BURGZEMI_SERVED, 2, 5, "11101101100000000000", 20, 10, 2, 15);
    long_read("a value of 6 in a part of 6", BURGZEMI_VALUE, 2, 5, "11111111101110111112", 20, 10, 2, 0);
    long_read("a burst before position 0", BURGZEMI_DISAGREES, 2, 5, "11111110111110111112", 20, 10, 2, 0);
    long_read("a burst from position 0", BURGZEMI_SERVED, 2, 5, "11111111001110111111", 20, 10, 2, 0);
    long_read("a silent message cell", BURGZEMI_ERASED, 2, 5, "10001101100000111112", 20, 10, 2, 0);
}

static void long_maps(void)
{
    uint8_t map[21] = {0}, starts[4], expected[4];
    memcpy(starts, untouched, sizeof starts);
    memcpy(expected, untouched, sizeof expected);
#define COVER(what, wanted, b, map_len, starts_len) \
    see(what, burgzemi_long_cover(20, 2, b, map, map_len, starts, starts_len), wanted, starts, expected, sizeof starts)
    map[9] = map[14] = 2;
    COVER("b of 0", BURGZEMI_INVALID, 0, 21, 4);
    COVER("b of 7", BURGZEMI_UNFIT, 7, 21, 4);
    COVER("map long", BURGZEMI_LENGTH, 5, 21, 2);
    COVER("two starts", BURGZEMI_LENGTH, 5, 20, 4);
    COVER("bytes of 2", BURGZEMI_SYMBOL, 5, 20, 2);
    map[9] = map[14] = 1;
    COVER("9 and 14", BURGZEMI_UNCOVERED, 5, 20, 2);
    map[14] = 0;
    map[13] = 1;
    expected[0] = 0;
    expected[1] = 9;
    COVER("9 and 13", BURGZEMI_SERVED, 5, 20, 2);
#undef COVER
}

/* The transfer program's example with one long burst: n 15, q 256, b 5; start 6, job 7. */
static const uint8_t long_payload7[8] = {0, 0, 0, 7, 0x41, 0x42, 0x43, 0x44};
static const uint8_t long_written7[15] = {1, 0, 0, 0, 7, 0, 0, 0, 0, 0, 0, 0x41, 0x42, 0x43, 0x44};

static void long_jobs(void)
{
    uint8_t table[BURGZEMI_TABLE_LEN] = {6}, start[2] = {0, 11}, payload[8] = {0}, word[16], expected[16], found[16] = {0}, got[9], kept[9];
    memcpy(word, untouched, sizeof word);
    memcpy(expected, untouched, sizeof expected);
    memcpy(got, untouched, sizeof got);
    memcpy(kept, untouched, sizeof kept);
    memset(found, 1, sizeof found);
#define WRITE(what, wanted, n, q, b, table_len, starts_len, payload_len, word_len) \
    see(what, burgzemi_long_job_write(n, q, b, table, table_len, start, starts_len, payload, payload_len, word, word_len), wanted, word, expected, sizeof word)
#define READ(what, wanted, n, q, b, table_len, word_len, payload_len) \
    see(what, burgzemi_long_job_read(n, q, b, table, table_len, found, word_len, got, payload_len), wanted, got, kept, sizeof got)
    /* 1 2 10 3 5 and 17, or 3 7 8 9, each beside what would be refused later */
    WRITE("an unknown state, written", BURGZEMI_INVALID, 15, 256, 6, sizeof table, 1, 7, 14);
    READ("an unknown state, read", BURGZEMI_INVALID, 15, 256, 6, sizeof table, 14, 7);
    table[0] = 0;
    WRITE("b of 6, written", BURGZEMI_UNFIT, 15, 256, 6, 319, 1, 7, 14);
    READ("b of 6, read", BURGZEMI_UNFIT, 15, 256, 6, 319, 14, 7);
    WRITE("a payload of 4 bytes, written", BURGZEMI_PAYLOAD, 9, 256, 3, 319, 1, 7, 14);
    READ("a payload of 4 bytes, read", BURGZEMI_PAYLOAD, 9, 256, 3, 319, 14, 7);
    WRITE("table short, written", BURGZEMI_LENGTH, 15, 256, 5, 319, 2, 8, 15);
    READ("table short, read", BURGZEMI_LENGTH, 15, 256, 5, 319, 15, 8);
    WRITE("half a start", BURGZEMI_LENGTH, 15, 256, 5, sizeof table, 1, 8, 15);
    WRITE("payload short, written", BURGZEMI_LENGTH, 15, 256, 5, sizeof table, 2, 7, 15);
    READ("payload long, read", BURGZEMI_LENGTH, 15, 256, 5, sizeof table, 15, 9);
    WRITE("word long, written", BURGZEMI_LENGTH, 15, 256, 5, sizeof table, 2, 8, 16);
    READ("word short, read", BURGZEMI_LENGTH, 15, 256, 5, sizeof table, 14, 8);
    WRITE("start past the end", BURGZEMI_STARTS, 15, 256, 5, sizeof table, 2, 8, 15);
    READ("no pattern", BURGZEMI_PATTERN, 15, 256, 5, sizeof table, 15, 8);
    found[10] = 0;
    READ("a burst before position 0", BURGZEMI_DISAGREES, 15, 256, 5, sizeof table, 15, 8);
    found[5] = 6;
    READ("a value of 5 in a part of 5", BURGZEMI_VALUE, 15, 256, 5, sizeof table, 15, 8);
    start[1] = 6;
    WRITE("number 0", BURGZEMI_NUMBER_ZERO, 15, 256, 5, sizeof table, 2, 8, 15);
    /* the job's states but for open */
    memcpy(payload, long_payload7, sizeof payload);
    memcpy(found, long_written7, sizeof long_written7);
    memset(found + 6, 0xFF, 5);
    static const uint8_t states[5][2] = {
        {0, BURGZEMI_NOT_OPEN}, {2, BURGZEMI_CANCELLED}, {3, BURGZEMI_CANCELLED}, {4, BURGZEMI_HELD}, {5, BURGZEMI_CANCELLED},
    };
    for (int i = 0; i < 5; i++) {
        set_slot(table, 63, states[i][0], 7);
        WRITE("job 7 by its state, written", states[i][1], 15, 256, 5, sizeof table, 2, 8, 15);
        READ("job 7 by its state, read", states[i][1], 15, 256, 5, sizeof table, 15, 8);
    }
    set_slot(table, 63, 1, 7);
    memcpy(expected, long_written7, sizeof long_written7);
    memcpy(kept, long_payload7, sizeof long_payload7);
    WRITE("job 7 written with one long burst", BURGZEMI_SERVED, 15, 256, 5, sizeof table, 2, 8, 15);
    READ("job 7 read with one long burst", BURGZEMI_SERVED, 15, 256, 5, sizeof table, 15, 8);
#undef WRITE
#undef READ
}

/* Prescriptions with one long burst: n 30, q 256, b 10; start 8, job 7, whose burst is damaged before the reading. */
static void long_prescriptions(void)
{
    uint8_t table[BURGZEMI_TABLE_LEN] = {0}, start[2] = {0, 8}, word[30], expected[30], marks[8], kept[8];
    static const uint8_t handed[8] = {0, 0, 0, 7, 2, 90, 0, 0};
    static const double handed_powers[5] = {-1.25, 0.5, 0, 0, 63.5};
    double powers[5] = {7, 7, 7, 7, 7}, kept_powers[5] = {7, 7, 7, 7, 7};
    memcpy(word, untouched, sizeof word);
    memcpy(expected, untouched, sizeof expected);
    memcpy(marks, untouched, sizeof marks);
    memcpy(kept, untouched, sizeof kept);
#define WRITE(what, wanted, n, b, starts_len, distance, word_len) \
    see(what, burgzemi_long_prescription_write(n, 256, b, table, sizeof table, start, starts_len, 7, toric.kind, toric.sphere, toric.cylinder, toric.axis, \
                                               plano.kind, plano.sphere, plano.cylinder, plano.axis, distance, word, word_len), \
        wanted, word, expected, sizeof word)
#define READ(what, wanted, n, b, word_len, marks_len, powers_len) \
    do { \
        unsigned answer = burgzemi_long_prescription_read(n, 256, b, table, sizeof table, word, word_len, marks, marks_len, powers, powers_len); \
        see(what, answer, wanted, marks, kept, sizeof marks); \
        see_powers(what, powers, kept_powers, 5); \
    } while (0)
    /* 1 2 10 3 5 16 14, each beside what would be refused later */
    WRITE("n of 2", BURGZEMI_INVALID, 2, 11, 1, 0, 29);
    WRITE("b of 11", BURGZEMI_UNFIT, 30, 11, 1, 0, 29);
    WRITE("no room for a job", BURGZEMI_PAYLOAD, 9, 3, 1, 0, 29);
    WRITE("word short", BURGZEMI_LENGTH, 30, 10, 2, 0, 29);
    start[1] = 21;
    WRITE("start past the end", BURGZEMI_STARTS, 30, 10, 2, 0, 30);
    start[1] = 8;
    WRITE("no distance", BURGZEMI_PRESCRIPTION, 30, 10, 2, 0, 30);
    WRITE("a payload of 16 bytes", BURGZEMI_PRESCRIPTION, 27, 9, 2, 63.5, 27);
    WRITE("an unknown job", BURGZEMI_NOT_OPEN, 30, 10, 2, 63.5, 30);
    set_slot(table, 5, 1, 7);
    /* The burst ends at 17, in the second part, 7 after its begin; the third spells that, the first has the fixed symbol. */
    memset(expected, 0, sizeof expected);
    memcpy(expected + 1, (const uint8_t[]){0, 0, 0, 7, 2, 255, 246}, 7);
    memcpy(expected + 18, (const uint8_t[]){0, 4, 8, 90}, 4);
    expected[28] = 127;
    WRITE("a prescription with one long burst", BURGZEMI_SERVED, 30, 10, 2, 63.5, 30);
    memset(word + 8, 0xFF, 10);
    READ("marks short", BURGZEMI_LENGTH, 30, 10, 30, 7, 5);
    READ("powers short", BURGZEMI_LENGTH, 30, 10, 30, 8, 4);
    word[5] = 3;
    READ("a kind of 3", BURGZEMI_PRESCRIPTION, 30, 10, 30, 8, 5);
    word[5] = 2;
    memcpy(kept, handed, sizeof kept);
    memcpy(kept_powers, handed_powers, sizeof kept_powers);
    READ("a prescription read with one long burst", BURGZEMI_SERVED, 30, 10, 30, 8, 5);
#undef WRITE
#undef READ
}

/* ---- The older trays: n 20, q 2, m 1, b 3; start 9, message all 1. Sub-blocks of 5 begin at 0, 7 and 15. The burst touches the second, so the first and
 * the third spell 9. */

static const char larsson_word[21] = "01001111100011101001";

static void larsson_figures(void)
{
    fit("an older tray", LARSSON, 20, 2, 1, 3, 18, 5, 7, 0);
    misfit("a burst above the gap", BURGZEMI_UNFIT, LARSSON, 20, 2, 1, 4);
    misfit("sub-blocks longer than the word", BURGZEMI_UNFIT, LARSSON, 8, 2, 1, 1);
    misfit("bursts longer than the word", BURGZEMI_UNFIT, LARSSON, 3, 256, 4, 1);
    misfit("too many placements", BURGZEMI_UNFIT, LARSSON, 888, 256, 8, 1);
    fit("one placement", LARSSON, 3, 2, 3, 1, 1, 0, 0, 0);
    fit("one placement of bursts of 2", LARSSON, 6, 2, 3, 2, 1, 0, 0, 0);
    misfit("one placement of bursts of 3", BURGZEMI_UNFIT, LARSSON, 9, 2, 3, 3);
    misfit("m of 9", BURGZEMI_INVALID, LARSSON, 20, 2, 9, 1);
    /* Which code figures fit: Construction A alone, this one alone (above), both. */
    fit("Construction A alone", CONSTRUCTION_A, 6, 5, 2, 1, 15, 0, 0, 0);
    misfit("Construction A alone, not an older tray", BURGZEMI_UNFIT, LARSSON, 6, 5, 2, 1);
    misfit("an older tray alone", BURGZEMI_UNFIT, CONSTRUCTION_A, 3, 2, 3, 1);
    fit("either", CONSTRUCTION_A, 3, 4, 1, 1, 3, 0, 0, 0);
    fit("either, an older tray", LARSSON, 3, 4, 1, 1, 3, 1, 0, 0);
    fit("payload of an older tray", LARSSON, 15, 256, 1, 2, 14, 1, 11, 11);
    fit("payload of one bit a symbol", LARSSON, 30, 2, 1, 3, 28, 5, 17, 2);
    misfit("payload of a burst above the gap", BURGZEMI_UNFIT, LARSSON, 20, 2, 1, 4);
}

static void larsson_written(void)
{
    uint8_t start[4] = {0, 18, 0, 0}, message[8], word[24], expected[24];
    memset(message, 1, sizeof message);
    message[6] = 2;
    memcpy(word, untouched, sizeof word);
    memcpy(expected, untouched, sizeof expected);
#define WRITE(what, wanted, n, q, m, b, starts_len, message_len, word_len) \
    see(what, burgzemi_larsson_encode(n, q, m, b, start, starts_len, message, message_len, word, word_len), wanted, word, expected, sizeof word)
    /* 1 2 3 5 4, each beside what would be refused later */
    WRITE("n of 4097", BURGZEMI_INVALID, 4097, 2, 1, 4, 1, 8, 19);
    WRITE("q of 257", BURGZEMI_INVALID, 20, 257, 1, 4, 1, 8, 19);
    WRITE("m of 0", BURGZEMI_INVALID, 20, 2, 0, 4, 1, 8, 19);
    WRITE("b of 0", BURGZEMI_INVALID, 20, 2, 1, 0, 1, 8, 19);
    WRITE("b of 4", BURGZEMI_UNFIT, 20, 2, 1, 4, 1, 8, 19);
    WRITE("half a start", BURGZEMI_LENGTH, 20, 2, 1, 3, 1, 7, 20);
    WRITE("two starts", BURGZEMI_LENGTH, 20, 2, 1, 3, 4, 7, 20);
    WRITE("message long", BURGZEMI_LENGTH, 20, 2, 1, 3, 2, 8, 20);
    WRITE("word short", BURGZEMI_LENGTH, 20, 2, 1, 3, 2, 7, 19);
    WRITE("word long", BURGZEMI_LENGTH, 20, 2, 1, 3, 2, 7, 21);
    WRITE("start past the end", BURGZEMI_STARTS, 20, 2, 1, 3, 2, 7, 20);
    start[1] = 9;
    WRITE("a symbol of 2", BURGZEMI_SYMBOL, 20, 2, 1, 3, 2, 7, 20);
    message[6] = 1;
    symbols_of(larsson_word, expected);
    WRITE("an older tray written", BURGZEMI_SERVED, 20, 2, 1, 3, 2, 7, 20);

    /* Sub-blocks of one symbol at 0, 2, 4, 7 and 10, starts 2 and 5: the second is touched, and the last is past the first 3 that aren't. Rank 2 + 10. */
    static const uint8_t two_bursts[11] = {12, 1, 0, 1, 12, 0, 1, 12, 1, 1, 1};
    memcpy(start, (const uint8_t[]){0, 2, 0, 5}, sizeof start);
    memcpy(expected, two_bursts, sizeof two_bursts);
    WRITE("starts 2 and 5", BURGZEMI_SERVED, 11, 256, 2, 1, 4, 6, 11);
    start[3] = 2;
    WRITE("starts 2 and 2", BURGZEMI_STARTS, 11, 256, 2, 1, 4, 6, 11);
#undef WRITE
}

/* Reads a word of 20 characters: the start and a message all 0 or all 1, or the refusal with both buffers as they were. */
static void larsson_read(const char *what, unsigned wanted, uint32_t q, uint32_t b, const char *text, size_t word_len, size_t message_len, size_t starts_len,
                         uint8_t start, uint8_t symbol)
{
    uint8_t word[21] = {0}, message[9], expected[9], starts[4], kept[4] = {0, start, 0xA5, 0x5A};
    symbols_of(text, word);
    memcpy(message, untouched, sizeof message);
    memcpy(expected, untouched, sizeof expected);
    memcpy(starts, untouched, sizeof starts);
    if (wanted == BURGZEMI_SERVED)
        memset(expected, symbol, 7);
    unsigned answer = burgzemi_larsson_decode(20, q, 1, b, word, word_len, message, message_len, starts, starts_len);
    see(what, answer, wanted, starts, wanted == BURGZEMI_SERVED ? kept : untouched, sizeof starts);
    see(what, answer, wanted, message, expected, sizeof message);
}

static void larsson_found(void)
{
    larsson_read("as it is written", BURGZEMI_SERVED, 2, 3, larsson_word, 20, 7, 2, 9, 1);
    larsson_read("damage in the burst", BURGZEMI_SERVED, 2, 3, "01001111101011101001", 20, 7, 2, 9, 1);
    larsson_read("a silent burst", BURGZEMI_SERVED, 2, 3, "01001111122211101001", 20, 7, 2, 9, 1);
    larsson_read("a value in all three sub-blocks", BURGZEMI_SERVED, 2, 3, "00000000000000000000", 20, 7, 2, 0, 0);
    larsson_read("the last placement", BURGZEMI_SERVED, 2, 3, "10001111000111111222", 20, 7, 2, 17, 1);
    /* 1 2 3 4 21 8 9 19, each beside what would be refused later */
    larsson_read("q of 257", BURGZEMI_INVALID, 257, 4, "33333333333333333333", 19, 6, 1, 0, 0);
    larsson_read("b of 4", BURGZEMI_UNFIT, 2, 4, "33333333333333333333", 19, 6, 1, 0, 0);
    larsson_read("word short", BURGZEMI_LENGTH, 2, 3, "33333333333333333333", 19, 7, 2, 0, 0);
    larsson_read("message long", BURGZEMI_LENGTH, 2, 3, "33333333333333333333", 20, 8, 2, 0, 0);
    larsson_read("starts short", BURGZEMI_LENGTH, 2, 3, "33333333333333333333", 20, 7, 1, 0, 0);
    larsson_read("starts long", BURGZEMI_LENGTH, 2, 3, "33333333333333333333", 20, 7, 4, 0, 0);
    larsson_read("a value of 3 in the burst", BURGZEMI_SYMBOL, 2, 3, "01001211133311101011", 20, 7, 2, 0, 0);
    larsson_read("three values", BURGZEMI_MAJORITY, 2, 3, "01001211100011101011", 20, 7, 2, 0, 0);
    larsson_read("three values that are no rank", BURGZEMI_MAJORITY, 2, 3, "11111111110011111101", 20, 7, 2, 0, 0);
    larsson_read("two sub-blocks with the same silent cell", BURGZEMI_MAJORITY, 2, 3, "01002111100011101002", 20, 7, 2, 0, 0);
    larsson_read("a value of 18 in two sub-blocks", BURGZEMI_VALUE, 2, 3, "10010211100011110010", 20, 7, 2, 0, 0);
    larsson_read("a value of 31 in all three", BURGZEMI_VALUE, 2, 3, "11111111111111111111", 20, 7, 2, 0, 0);
    larsson_read("a value in the touched sub-block", BURGZEMI_DISAGREES, 2, 3, "01001210100111111111", 20, 7, 2, 0, 0);
    larsson_read("a silent cell in a bearer", BURGZEMI_DISAGREES, 2, 3, "01001110100111101002", 20, 7, 2, 0, 0);
    larsson_read("a silent message cell", BURGZEMI_ERASED, 2, 3, "01001111100011201001", 20, 7, 2, 0, 0);
    larsson_read("a silent message cell of the touched sub-block", BURGZEMI_ERASED, 2, 3, "01001112100011101001", 20, 7, 2, 0, 0);

    /* One placement: no symbol tells of it, and every word is accepted. */
    static const uint8_t all_starts[6] = {0, 0, 0, 1, 0, 2};
    uint8_t word[3] = {2, 1, 0}, message[1] = {7}, kept[1] = {7}, starts[6], expected[6];
    memcpy(starts, untouched, sizeof starts);
    memcpy(expected, untouched, sizeof expected);
    word[2] = 3;
    unsigned answer = burgzemi_larsson_decode(3, 2, 3, 1, word, 3, message, 0, starts, 6);
    see("a value of 3 in the one placement", answer, BURGZEMI_SYMBOL, starts, expected, sizeof starts);
    word[2] = 0;
    memcpy(expected, all_starts, sizeof expected);
    answer = burgzemi_larsson_decode(3, 2, 3, 1, word, 3, message, 0, starts, 6);
    see("the one placement", answer, BURGZEMI_SERVED, starts, expected, sizeof starts);
    see("the one placement's message", 0, 0, message, kept, sizeof message);
}

static void larsson_maps(void)
{
    uint8_t map[21] = {0}, starts[4], expected[4];
    memcpy(starts, untouched, sizeof starts);
    memcpy(expected, untouched, sizeof expected);
#define COVER(what, wanted, b, map_len, starts_len) \
    see(what, burgzemi_larsson_cover(20, 2, 1, b, map, map_len, starts, starts_len), wanted, starts, expected, sizeof starts)
    /* 1 2 3 4 6, each beside what would be refused later */
    map[9] = map[12] = 2;
    COVER("b of 0", BURGZEMI_INVALID, 0, 21, 4);
    COVER("b of 4", BURGZEMI_UNFIT, 4, 21, 4);
    COVER("map long", BURGZEMI_LENGTH, 3, 21, 2);
    COVER("two starts", BURGZEMI_LENGTH, 3, 20, 4);
    COVER("bytes of 2", BURGZEMI_SYMBOL, 3, 20, 2);
    map[9] = map[12] = 1;
    COVER("9 and 12", BURGZEMI_UNCOVERED, 3, 20, 2);
    map[12] = 0;
    map[11] = 1;
    expected[0] = 0;
    expected[1] = 9;
    COVER("9 and 11", BURGZEMI_SERVED, 3, 20, 2);
#undef COVER
}

/* ---- The check of a word under each code: the three strips above with a message all 1 */

struct strip {
    enum code code;
    uint32_t n, q, b;
    uint8_t start;
    size_t k;
    const uint8_t *word;
};

/* The check with a last message symbol and a value in one cell as they are given. Nothing that is lent changes. */
static void check(const char *what, unsigned wanted, struct strip s, uint8_t last, size_t at, uint8_t value, size_t starts_len, size_t message_len,
                  size_t word_len)
{
    const enum code code = s.code;
    const uint32_t n = s.n, q = s.q, m = 1, b = s.b;
    uint8_t starts[4] = {0, s.start, 0, 0}, message[24], word[32] = {0}, starts_before[4], message_before[24], word_before[32];
    memset(message, 1, sizeof message);
    message[s.k - 1] = last;
    memcpy(word, s.word, n);
    word[at] = value;
    memcpy(starts_before, starts, sizeof starts);
    memcpy(message_before, message, sizeof message);
    memcpy(word_before, word, sizeof word);
    unsigned answer = ANY(verify, starts, starts_len, message, message_len, word, word_len);
    see(what, answer, wanted, starts, starts_before, sizeof starts);
    see(what, answer, wanted, message, message_before, sizeof message);
    see(what, answer, wanted, word, word_before, sizeof word);
}

/* Each value in each cell, another message, and each other start. */
static void checked_cells(struct strip s)
{
    for (uint32_t at = 0; at < s.n; at++) {
        int inside = at >= s.start && at < s.start + s.b;
        for (uint8_t value = 0; value <= 3; value++) {
            unsigned wanted = value > s.q ? BURGZEMI_SYMBOL : inside || value == s.word[at] ? BURGZEMI_SERVED : BURGZEMI_DIFFERS;
            check("a value in a cell", wanted, s, 1, at, value, 2, s.k, s.n);
        }
    }
    check("another message", BURGZEMI_DIFFERS, s, 0, 0, s.word[0], 2, s.k, s.n);
    struct strip other = s;
    for (other.start = 0; other.start + s.b <= s.n; other.start++)
        check("a start", other.start == s.start ? BURGZEMI_SERVED : BURGZEMI_DIFFERS, other, 1, 0, s.word[0], 2, s.k, s.n);
}

/* 1 2 3 5 4, each beside what would be refused later */
static void refused_checks(struct strip s, uint32_t unfit_b)
{
    struct strip past = s, unfit = s, invalid = s;
    past.start = (uint8_t)(s.n - s.b + 1);
    unfit.b = invalid.b = unfit_b;
    invalid.q = 1;
    check("q of 1", BURGZEMI_INVALID, invalid, 2, 10, 3, 1, s.k + 1, s.n - 1);
    invalid.q = 257;
    check("q of 257", BURGZEMI_INVALID, invalid, 2, 10, 3, 1, s.k + 1, s.n - 1);
    check("b too large", BURGZEMI_UNFIT, unfit, 2, 10, 3, 1, s.k + 1, s.n - 1);
    check("starts short", BURGZEMI_LENGTH, past, 2, 10, 3, 1, s.k, s.n);
    check("starts long", BURGZEMI_LENGTH, past, 2, 10, 3, 4, s.k, s.n);
    check("message short", BURGZEMI_LENGTH, past, 2, 10, 3, 2, s.k - 1, s.n);
    check("message long", BURGZEMI_LENGTH, past, 2, 10, 3, 2, s.k + 1, s.n);
    check("word short", BURGZEMI_LENGTH, past, 2, 10, 3, 2, s.k, s.n - 1);
    check("word long", BURGZEMI_LENGTH, past, 2, 10, 3, 2, s.k, s.n + 1);
    check("start past the end", BURGZEMI_STARTS, past, 2, 10, 3, 2, s.k, s.n);
    check("a message symbol of 2", BURGZEMI_SYMBOL, s, 2, 0, s.word[0] ^ 1, 2, s.k, s.n);
}

static void checks(void)
{
    uint8_t long_symbols[20], larsson_symbols[20];
    symbols_of(long_word, long_symbols);
    symbols_of(larsson_word, larsson_symbols);
    const struct strip strips[3] = {
        {CONSTRUCTION_A, 30, 2, 3, 12, 20, first_word}, {CONSTRUCTION_B, 20, 2, 5, 9, 10, long_symbols}, {LARSSON, 20, 2, 3, 9, 7, larsson_symbols},
    };
    static const uint32_t unfit[3] = {6, 7, 4};
    for (int i = 0; i < 3; i++) {
        checked_cells(strips[i]);
        refused_checks(strips[i], unfit[i]);
    }
}

/* ---- Moves between the older trays and Construction A */

/* A move of a strip of at most 24 cells: the moved strip, or the refusal with its buffer as it was. The strip and the table stay as they were. */
static void move(const char *what, unsigned wanted, int to_a, uint32_t n, uint32_t q, uint32_t m, uint32_t b, const uint8_t *table, size_t table_len,
                 const uint8_t *strip, size_t strip_len, size_t moved_len, const uint8_t *expected)
{
    uint8_t moved[24], kept[24], strip_before[24], table_before[BURGZEMI_TABLE_LEN];
    memcpy(moved, untouched, sizeof moved);
    memcpy(kept, untouched, sizeof kept);
    memcpy(strip_before, strip, strip_len);
    memcpy(table_before, table, sizeof table_before);
    if (wanted == BURGZEMI_SERVED)
        memcpy(kept, expected, n);
    unsigned answer = (to_a ? burgzemi_move_to_a : burgzemi_move_to_larsson)(n, q, m, b, table, table_len, strip, strip_len, moved, moved_len);
    see(what, answer, wanted, moved, kept, sizeof moved);
    see(what, answer, wanted, strip, strip_before, strip_len);
    see(what, answer, wanted, table, table_before, sizeof table_before);
}

/* Job 7 there and back, each time with damage in the bursts. */
static void moved_strip(const char *what, uint32_t n, uint32_t m, uint32_t b, const uint8_t *starts, const uint8_t *older, const uint8_t *newer)
{
    uint8_t table[BURGZEMI_TABLE_LEN] = {0}, found_older[24], found_newer[24];
    set_slot(table, 63, 1, 7);
    memcpy(found_older, older, n);
    memcpy(found_newer, newer, n);
    for (uint32_t i = 0; i < m; i++) {
        memset(found_older + starts[i], 0xFF, b);
        memset(found_newer + starts[i], 0xFF, b);
    }
    move(what, BURGZEMI_SERVED, 1, n, 256, m, b, table, sizeof table, found_older, n, n, newer);
    move(what, BURGZEMI_SERVED, 0, n, 256, m, b, table, sizeof table, found_newer, n, n, older);
}

static void moved_strips(void)
{
    static const uint8_t six[1] = {6}, two_and_five[2] = {2, 5}, three[3] = {2, 6, 9};
    moved_strip("payloads as long", 15, 1, 2, six, written7[LARSSON], written7[CONSTRUCTION_A]);

    /* Rank 12. The older tray has 6 bytes, of which the last has no room and is 0. Sub-blocks begin at 0, 2, 4, 7 and 10, blocks at 0, 1, 3, 5, 7 and 9. */
    static const uint8_t older_six[11] = {12, 0, 0, 0, 12, 0, 0, 12, 7, 0x41, 0}, newer_five[11] = {0, 0, 0, 0, 0, 0, 0, 1, 7, 13, 0x41};
    moved_strip("a payload of 6 bytes and one of 5", 11, 2, 1, two_and_five, older_six, newer_five);

    /* Rank 2 + 15 + 84. Sub-blocks of 2 begin at 0, 2, 4, 6, 8, 11 and 14: those from 2, 6 and 8 are touched. Blocks begin at 0, 1, 3, 5, 6, 8, 10, 12 and
     * 14; bursts end in the second, fifth and sixth, so the last three spell the rank, and the first, third and fourth begin with 0. */
    static const uint8_t older_five[16] = {0, 101, 0, 0, 0, 101, 0, 0, 0, 0, 7, 0, 101, 0x41, 0, 101};
    static const uint8_t newer_seven[16] = {0, 0, 0, 0, 0, 0, 0, 0, 7, 0, 1, 0x41, 1, 0, 102, 0};
    moved_strip("a payload of 5 bytes and one of 7", 16, 3, 1, three, older_five, newer_seven);
}

/* A found strip of n 21, q 17, m 1, b 2 is refused by each call that reads it: as it is moved, as a job and as a prescription. Its payload is too short for a
 * prescription, so that this reading never asks for the job. */
static void refused(const char *what, unsigned wanted, enum code code, const uint8_t *strip)
{
    const uint32_t n = 21, q = 17, m = 1, b = 2;
    uint8_t table[BURGZEMI_TABLE_LEN] = {0}, payload[8], marks[BURGZEMI_MARKS_LEN];
    double powers[BURGZEMI_POWERS_LEN] = {7, 7, 7, 7, 7}, kept[BURGZEMI_POWERS_LEN] = {7, 7, 7, 7, 7};
    memcpy(payload, untouched, sizeof payload);
    memcpy(marks, untouched, sizeof marks);
    move(what, wanted, code == LARSSON, n, q, m, b, table, sizeof table, strip, 21, 21, NULL);
    see(what, ANY(job_read, table, sizeof table, strip, 21, payload, payload_len(code, n, q, m, b)), wanted, payload, untouched, sizeof payload);
    unsigned answer = ANY(prescription_read, table, sizeof table, strip, 21, marks, sizeof marks, powers, BURGZEMI_POWERS_LEN);
    see(what, answer, wanted == BURGZEMI_NOT_OPEN ? BURGZEMI_PRESCRIPTION : wanted, marks, untouched, sizeof marks);
    see_powers(what, powers, kept, BURGZEMI_POWERS_LEN);
}

/* Start 12: sub-blocks begin at 0, 9 and 19, of which the first two bear the rank. The message begins with a symbol that no byte does. */
static void refused_older(void)
{
    uint8_t start[2] = {0, 12}, message[15], strip[21];
    memset(message, 1, sizeof message);
    message[0] = 16;
    /* 4 21 8 9 19 10 14, each beside what would be refused later */
    see("an older tray to read", burgzemi_larsson_encode(21, 17, 1, 2, start, 2, message, 15, strip, 21), BURGZEMI_SERVED, start, start, 2);
    strip[0] = 3;
    strip[12] = 18;
    strip[14] = 17;
    refused("a value of 18 in the burst of an older tray", BURGZEMI_SYMBOL, LARSSON, strip);
    strip[12] = 17;
    refused("three values", BURGZEMI_MAJORITY, LARSSON, strip);
    strip[0] = strip[9] = 1;
    strip[1] = strip[10] = 3;
    refused("a value of 20 in two sub-blocks", BURGZEMI_VALUE, LARSSON, strip);
    strip[9] = strip[19] = 0;
    strip[10] = strip[20] = 12;
    refused("a bearer without the value", BURGZEMI_DISAGREES, LARSSON, strip);
    strip[0] = 0;
    strip[1] = 12;
    refused("a silent message cell of an older tray", BURGZEMI_ERASED, LARSSON, strip);
    strip[14] = 1;
    refused("a byte of 273 of an older tray", BURGZEMI_PAYLOAD, LARSSON, strip);
    strip[2] = 1;
    refused("a leftover symbol", BURGZEMI_PAYLOAD, LARSSON, strip);
    strip[20] = 0;
    refused("an unknown job of an older tray", BURGZEMI_NOT_OPEN, LARSSON, strip);
}

/* Start 12: parts begin at 0, 7 and 14, of which the last spells the rank. The message begins with a symbol that no byte does. */
static void refused_newer(void)
{
    uint8_t start[2] = {0, 12}, message[16], strip[21];
    memset(message, 1, sizeof message);
    message[0] = 16;
    /* 4 7 19 8 9 19 10 14, likewise */
    see("a strip to read", burgzemi_encode(21, 17, 1, 2, start, 2, message, 16, strip, 21), BURGZEMI_SERVED, start, start, 2);
    strip[0] = 1;
    strip[12] = 18;
    strip[15] = strip[20] = 17;
    refused("a value of 18 in the burst", BURGZEMI_SYMBOL, CONSTRUCTION_A, strip);
    strip[12] = 17;
    refused("no part with a fixed symbol", BURGZEMI_PATTERN, CONSTRUCTION_A, strip);
    strip[0] = 0;
    strip[14] = 2;
    refused("a silent digit", BURGZEMI_ERASED, CONSTRUCTION_A, strip);
    strip[15] = 3;
    refused("a value of 20", BURGZEMI_VALUE, CONSTRUCTION_A, strip);
    strip[14] = 1;
    strip[15] = 0;
    refused("another placement", BURGZEMI_DISAGREES, CONSTRUCTION_A, strip);
    strip[15] = 12;
    refused("a silent message cell", BURGZEMI_ERASED, CONSTRUCTION_A, strip);
    strip[20] = 1;
    refused("a byte of 273", BURGZEMI_PAYLOAD, CONSTRUCTION_A, strip);
    strip[1] = 1;
    refused("an unknown job", BURGZEMI_NOT_OPEN, CONSTRUCTION_A, strip);
}

/* 1 2 10 3, each beside what would be refused later */
static void refused_figures(int to_a)
{
    uint8_t table[BURGZEMI_TABLE_LEN] = {6}, strip[24];
    memset(strip, 18, sizeof strip);
#define MOVE(what, wanted, n, q, m, b, table_len, strip_len, moved_len) \
    move(what, wanted, to_a, n, q, m, b, table, table_len, strip, strip_len, moved_len, NULL)
    MOVE("an unknown state", BURGZEMI_INVALID, 21, 17, 1, 8, sizeof table, 20, 20);
    table[0] = 1;
    table[5] = 4;
    MOVE("number 0 in two slots", BURGZEMI_INVALID, 21, 17, 1, 8, sizeof table, 20, 20);
    table[5] = 0;
    MOVE("n of 4097", BURGZEMI_INVALID, 4097, 17, 1, 8, 319, 20, 20);
    MOVE("q of 257", BURGZEMI_INVALID, 21, 257, 1, 8, 319, 20, 20);
    MOVE("m of 9", BURGZEMI_INVALID, 21, 17, 9, 8, 319, 20, 20);
    MOVE("b of 0", BURGZEMI_INVALID, 21, 17, 1, 0, 319, 20, 20);
    MOVE("figures for an older tray alone", BURGZEMI_UNFIT, 3, 2, 3, 1, 319, 20, 20);
    MOVE("figures for Construction A alone", BURGZEMI_UNFIT, 6, 5, 2, 1, 319, 20, 20);
    MOVE("figures for neither", BURGZEMI_UNFIT, 21, 17, 1, 10, 319, 20, 20);
    MOVE("4 bytes by Construction A, 5 on an older tray", BURGZEMI_PAYLOAD, 10, 256, 2, 1, 319, 20, 20);
    MOVE("6 bytes by Construction A, 4 on an older tray", BURGZEMI_PAYLOAD, 15, 256, 3, 1, 319, 20, 20);
    MOVE("table short", BURGZEMI_LENGTH, 21, 17, 1, 2, 319, 21, 21);
    MOVE("no table", BURGZEMI_LENGTH, 21, 17, 1, 2, 0, 21, 21);
    MOVE("strip short", BURGZEMI_LENGTH, 21, 17, 1, 2, sizeof table, 20, 21);
    MOVE("strip long", BURGZEMI_LENGTH, 21, 17, 1, 2, sizeof table, 22, 21);
    MOVE("moved strip short", BURGZEMI_LENGTH, 21, 17, 1, 2, sizeof table, 21, 20);
    MOVE("moved strip long", BURGZEMI_LENGTH, 21, 17, 1, 2, sizeof table, 21, 22);
#undef MOVE
}

/* Jobs 7 and 0 in each state, with a last byte that has no room and is 0 or isn't: 12, 23 and 14 go before 22, and 22 before 17. */
static void moved_states(int to_a)
{
    const uint32_t n = to_a ? 11 : 16, m = to_a ? 2 : 3, len = to_a ? 6 : 7;
    const uint8_t starts[6] = {0, 2, 0, 5, 0, 9};
    for (int i = 0; i < 24; i++) {
        uint8_t table[BURGZEMI_TABLE_LEN] = {0}, payload[7] = {0, 0, 0, i % 2 ? 7 : 0, 0x41}, strip[16], expected[16];
        uint8_t state = (uint8_t)(i / 4), surplus = i / 2 % 2;
        set_slot(table, 21, state, payload[3]);
        see("a payload of 5", (to_a ? burgzemi_encode : burgzemi_larsson_encode)(n, 256, m, 1, starts, 2 * m, payload, 5, expected, n), 0, starts, starts, 6);
        payload[len - 1] = surplus;
        see("a payload", (to_a ? burgzemi_larsson_encode : burgzemi_encode)(n, 256, m, 1, starts, 2 * m, payload, len, strip, n), 0, starts, starts, 6);
        unsigned wanted = by_state[state];
        if (wanted == BURGZEMI_SERVED)
            wanted = surplus ? BURGZEMI_SURPLUS : payload[3] ? BURGZEMI_SERVED : BURGZEMI_NUMBER_ZERO;
        const char *what = to_a ? "a job by its state, to A" : "a job by its state, to an older tray";
        move(what, wanted, to_a, n, 256, m, 1, table, sizeof table, strip, n, n, expected);
    }
}

/* The longest word and the most bursts, with q 256: there and back with damage in between. */
static void large_move(const char *what, uint32_t n, uint32_t m, uint32_t b)
{
    static uint8_t strip[BURGZEMI_MAX_WORD], moved[BURGZEMI_MAX_WORD], back[BURGZEMI_MAX_WORD], message[BURGZEMI_MAX_WORD], got[BURGZEMI_MAX_WORD];
    uint8_t table[BURGZEMI_TABLE_LEN] = {0}, starts[2 * BURGZEMI_MAX_BURSTS] = {0};
    size_t older = payload_len(LARSSON, n, 256, m, b), newer = payload_len(CONSTRUCTION_A, n, 256, m, b);
    memset(message, 0, sizeof message);
    for (uint32_t i = 0; i < older && i < newer; i++)
        message[i] = (uint8_t)(i * 7 + 1);
    for (uint32_t i = 0; i < m; i++) {
        uint32_t start = n - (m - i) * (b + 1);
        starts[2 * i] = (uint8_t)(start >> 8);
        starts[2 * i + 1] = (uint8_t)start;
    }
    set_slot(table, 0, 1, 0x01080F16);
    see(what, burgzemi_larsson_encode(n, 256, m, b, starts, 2 * m, message, older, strip, n), BURGZEMI_SERVED, message, message, n);
    see(what, burgzemi_job_write(n, 256, m, b, table, sizeof table, starts, 2 * m, message, newer, got, n), BURGZEMI_SERVED, message, message, n);
    see(what, burgzemi_move_to_a(n, 256, m, b, table, sizeof table, strip, n, moved, n), BURGZEMI_SERVED, moved, got, n);
    for (uint32_t i = 0; i < m; i++)
        memset(moved + n - (m - i) * (b + 1), 0xFF, b);
    see(what, burgzemi_move_to_larsson(n, 256, m, b, table, sizeof table, moved, n, back, n), BURGZEMI_SERVED, back, strip, n);
}

/* What is tested alike under each code. */
static void under_each_code(enum code code)
{
    side_by_side(code);
    figures_of_some(code);
    for (uint32_t depth = 1; depth <= BURGZEMI_MAX_DEPTH; depth++) {
        strip_of(code, 3, depth);
        strip_of(code, 47, depth);
        strip_of(code, 1024, depth);
    }
    strip_of(code, BURGZEMI_MAX_WORD, BURGZEMI_MAX_DEPTH);
    scratch(code, 2, 11);
    zero_on_strips(code);
    refused_jobs(code);
    refused_tables(code);
    transfer_example(code);
    prescriptions_written(code);
    prescriptions_read(code);
}

int main(void)
{
    words();
    large_strip("4096 symbols, 6 bursts", CONSTRUCTION_A, BURGZEMI_MAX_WORD, 6, 112, 3388);
    large_strip("999 symbols, 8 bursts", CONSTRUCTION_A, 999, BURGZEMI_MAX_BURSTS, 15, 823);
    large_strip("4096 symbols, one long burst", CONSTRUCTION_B, BURGZEMI_MAX_WORD, 1, 1365, 2728);
    large_strip("4096 symbols, 6 bursts, an older tray", LARSSON, BURGZEMI_MAX_WORD, 6, 333, 2042);
    large_strip("1631 symbols, 8 bursts, an older tray", LARSSON, 1631, BURGZEMI_MAX_BURSTS, 94, 807);
    maps();
    for (enum code code = CONSTRUCTION_A; code <= LARSSON; code++)
        under_each_code(code);
    scratch(CONSTRUCTION_B, 5, 8);
    calls();
    number_zero();
    eyes();
    long_figures();
    long_written();
    long_found();
    long_maps();
    long_jobs();
    long_prescriptions();
    larsson_figures();
    larsson_written();
    larsson_found();
    larsson_maps();
    checks();
    moved_strips();
    refused_older();
    refused_newer();
    for (int to_a = 0; to_a <= 1; to_a++) {
        refused_figures(to_a);
        moved_states(to_a);
    }
    large_move("4096 symbols, 6 bursts, moved", BURGZEMI_MAX_WORD, 6, 112);
    large_move("999 symbols, 8 bursts, moved", 999, BURGZEMI_MAX_BURSTS, 15);
    large_move("85 symbols, 8 bursts, moved", 85, BURGZEMI_MAX_BURSTS, 1);
    return wrong;
}
