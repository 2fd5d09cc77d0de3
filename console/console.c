/*
 * A console for one strip: reads a found word given as hex and prints its placement and message, or the refusal by name; then the positions of its
 * silent cells, which the heads report as q, where it has any.
 *
 *     console N Q M B WORD                e.g. console 15 256 1 2 000000000741FFFF42430744454647
 *
 * With a job number behind the word it prints the prescription that the strip carries for this job, as a job table hands it out that has this job open and
 * no other. A strip of another job is refused.
 *
 *     console N Q M B WORD JOB            e.g. console 25 256 1 2 0000000702FF000007F600045A000000000000007F00000000 7
 *
 * An L in the place of M is for strips with one long burst.
 *
 *     console N Q L B WORD [JOB]          e.g. console 15 256 L 5 010000000700FFFFFFFFFF41424344
 *
 * The word larsson before the figures is for strips of the older trays.
 *
 *     console larsson N Q M B WORD [JOB]  e.g. console larsson 25 256 1 2 060000000702FFFFFFF60004065A0000000000007F00000000 7
 *
 * The words move-to-a and move-to-larsson before the figures print the strip that a job is moved to: from an older tray's strip to one of Construction A, or
 * back. The job table is as for a prescription.
 *
 *     console move-to-a N Q M B WORD JOB        e.g. console move-to-a 15 256 1 2 060000000741FFFF42434445464706 7
 *     console move-to-larsson N Q M B WORD JOB  e.g. console move-to-larsson 15 256 1 2 000000000741FFFF42430744454647 7
 *
 * Exit status: 0 for a word that is accepted, 1 for one that is refused, 2 for a call that can't be understood.
 */
#include "burgzemi.h"

#include <errno.h>
#include <inttypes.h>
#include <stdio.h>
#include <stdlib.h>
#include <string.h>

/* The longest word that is looked at: one symbol more than any word has, so that the reader refuses it by its length. */
#define MAX_SYMBOLS (BURGZEMI_MAX_WORD + 1)

static const char *refusal_text(unsigned answer)
{
    switch (answer) {
    case BURGZEMI_INVALID: return "a figure out of range";
    case BURGZEMI_UNFIT: return "figures don't fit";
    case BURGZEMI_LENGTH: return "the word has another length than the figures give";
    case BURGZEMI_SYMBOL: return "a value above q";
    case BURGZEMI_PATTERN: return "first symbols in no listed pattern";
    case BURGZEMI_VALUE: return "the written value is too large";
    case BURGZEMI_DISAGREES: return "the placement disagrees with the blocks";
    case BURGZEMI_MAJORITY: return "no value in most of the sub-blocks";
    case BURGZEMI_PAYLOAD: return "no room for a job, or symbols that spell none";
    case BURGZEMI_NOT_OPEN: return "the strip of another job";
    case BURGZEMI_PRESCRIPTION: return "the job's text is no prescription";
    case BURGZEMI_ERASED: return "a silent cell where a symbol is needed";
    case BURGZEMI_SURPLUS: return "bytes that have no room on the other strip";
    case BURGZEMI_NUMBER_ZERO: return "job number 0 is no job";
    default: return "an unlisted number";
    }
}

static int usage(const char *what)
{
    fprintf(stderr, "console: %s\nusage: console N Q M B WORD [JOB], where WORD has two hex digits for each symbol, and M is L for one long burst\n"
                    "       console larsson N Q M B WORD [JOB], for the older trays\n"
                    "       console move-to-a|move-to-larsson N Q M B WORD JOB, between these and Construction A\n", what);
    return 2;
}

/* A figure of at most 32 bits, in decimal; 0 where the text is none. */
static int figure(const char *text, uint32_t *value)
{
    char *end;
    errno = 0;
    unsigned long long v = strtoull(text, &end, 10);
    if (text[0] < '0' || text[0] > '9' || *end != '\0' || errno != 0 || v > UINT32_MAX)
        return 0;
    *value = (uint32_t)v;
    return 1;
}

static int hex_digit(char c)
{
    if (c >= '0' && c <= '9') return c - '0';
    if (c >= 'A' && c <= 'F') return c - 'A' + 10;
    if (c >= 'a' && c <= 'f') return c - 'a' + 10;
    return -1;
}

/* The symbols of a word in hex; -1 where the text is none, or too long to be looked at. */
static int symbols(const char *hex, uint8_t *word)
{
    size_t digits = strlen(hex);
    if (digits % 2 != 0 || digits / 2 > MAX_SYMBOLS)
        return -1;
    for (size_t i = 0; i < digits; i += 2) {
        int high = hex_digit(hex[i]), low = hex_digit(hex[i + 1]);
        if (high < 0 || low < 0)
            return -1;
        word[i / 2] = (uint8_t)(high * 16 + low);
    }
    return (int)(digits / 2);
}

static void print_symbols(const char *what, const uint8_t *symbols, size_t len)
{
    printf("%s ", what);
    for (size_t i = 0; i < len; i++)
        printf("%02X", symbols[i]);
    printf("\n");
}

static void print_accepted(const uint8_t *starts, size_t starts_len, const uint8_t *message, size_t message_len)
{
    printf("starts");
    for (size_t i = 0; i < starts_len; i += 2)
        printf(" %u", 256u * starts[i] + starts[i + 1]);
    printf("\n");
    print_symbols("message", message, message_len);
}

/* The positions of cells without a reading; a line only where there are any. */
static void print_silent(const uint8_t *word, size_t word_len, uint32_t q)
{
    const char *before = "silent ";
    for (size_t x = 0; x < word_len; x++) {
        if (word[x] == q) {
            printf("%s%zu", before, x);
            before = " ";
        }
    }
    if (before[0] == ' ')
        printf("\n");
}

/* Dioptres with their sign, and with two decimals, or three where an eighth needs them. */
static void print_power(double dioptres)
{
    long eighths = (long)(8 * dioptres);
    printf(" %+.*f", eighths % 2 == 0 ? 2 : 3, dioptres);
}

static void print_eye(char which, uint8_t kind, uint8_t axis, const double *powers)
{
    printf("%c", which);
    if (kind == BURGZEMI_PLANO)
        printf(" plano");
    else
        print_power(powers[0]);
    if (kind == BURGZEMI_TORIC) {
        print_power(powers[1]);
        printf(" \u00D7 %u", (unsigned)axis);
    }
    printf("\n");
}

/* A table with one job open. */
static void open_alone(uint8_t *table, uint32_t job)
{
    memset(table, 0, BURGZEMI_TABLE_LEN);
    table[0] = 1;
    for (int i = 0; i < 4; i++)
        table[1 + i] = (uint8_t)(job >> (24 - 8 * i));
}

/* What a strip is written in: Construction A, Construction B for one long burst, or the Larsson code of the older trays. */
enum code { CONSTRUCTION_A, CONSTRUCTION_B, LARSSON };

/* The figures of a strip; one long burst has m 1. */
struct figures {
    uint32_t n, q, m, b;
    enum code code;
};

/* The library's calls under figures of any code: only these three know which function that is. */

static unsigned figures_alone(struct figures f, uint64_t *numbers, size_t count)
{
    switch (f.code) {
    case CONSTRUCTION_B: return burgzemi_long_figures(f.n, f.q, f.b, numbers, count);
    case LARSSON: return burgzemi_larsson_figures(f.n, f.q, f.m, f.b, numbers, count);
    default: return burgzemi_figures(f.n, f.q, f.m, f.b, numbers, count);
    }
}

static unsigned decode(struct figures f, const uint8_t *word, size_t word_len, uint8_t *message, size_t message_len, uint8_t *starts, size_t starts_len)
{
    switch (f.code) {
    case CONSTRUCTION_B: return burgzemi_long_decode(f.n, f.q, f.b, word, word_len, message, message_len, starts, starts_len);
    case LARSSON: return burgzemi_larsson_decode(f.n, f.q, f.m, f.b, word, word_len, message, message_len, starts, starts_len);
    default: return burgzemi_decode(f.n, f.q, f.m, f.b, word, word_len, message, message_len, starts, starts_len);
    }
}

/* `marks` has BURGZEMI_MARKS_LEN bytes, `powers` BURGZEMI_POWERS_LEN doubles. */
static unsigned prescription(struct figures f, const uint8_t *table, const uint8_t *word, size_t word_len, uint8_t *marks, double *powers)
{
    const size_t table_len = BURGZEMI_TABLE_LEN, marks_len = BURGZEMI_MARKS_LEN, powers_len = BURGZEMI_POWERS_LEN;
    switch (f.code) {
    case CONSTRUCTION_B: return burgzemi_long_prescription_read(f.n, f.q, f.b, table, table_len, word, word_len, marks, marks_len, powers, powers_len);
    case LARSSON: return burgzemi_larsson_prescription_read(f.n, f.q, f.m, f.b, table, table_len, word, word_len, marks, marks_len, powers, powers_len);
    default: return burgzemi_prescription_read(f.n, f.q, f.m, f.b, table, table_len, word, word_len, marks, marks_len, powers, powers_len);
    }
}

static unsigned read_prescription(struct figures f, const uint8_t *word, size_t word_len, uint32_t job)
{
    uint8_t table[BURGZEMI_TABLE_LEN], marks[BURGZEMI_MARKS_LEN];
    double powers[BURGZEMI_POWERS_LEN];

    open_alone(table, job);
    unsigned answer = prescription(f, table, word, word_len, marks, powers);
    if (answer != BURGZEMI_SERVED)
        return answer;
    printf("job %" PRIu32 "\n", (uint32_t)marks[0] << 24 | (uint32_t)marks[1] << 16 | (uint32_t)marks[2] << 8 | marks[3]);
    print_eye('R', marks[4], marks[5], powers);
    print_eye('L', marks[6], marks[7], powers + 2);
    printf("PD %.1f\n", powers[4]);
    return answer;
}

static unsigned read_word(struct figures f, const uint8_t *word, size_t word_len)
{
    static uint8_t message[BURGZEMI_MAX_WORD], starts[2 * BURGZEMI_MAX_BURSTS];

    uint64_t figures[BURGZEMI_FIGURES_LEN];
    unsigned answer = figures_alone(f, figures, BURGZEMI_FIGURES_LEN);
    if (answer != BURGZEMI_SERVED)
        return answer;
    size_t message_len = figures[BURGZEMI_FIGURE_MESSAGE], starts_len = 2 * (size_t)f.m;
    answer = decode(f, word, word_len, message, message_len, starts, starts_len);
    if (answer == BURGZEMI_SERVED)
        print_accepted(starts, starts_len, message, message_len);
    return answer;
}

/* A function that moves a job's strip to the other code. */
typedef uint8_t move_function(uint32_t n, uint32_t q, uint32_t m, uint32_t b, const uint8_t *table, size_t table_len, const uint8_t *strip, size_t strip_len,
                              uint8_t *moved, size_t moved_len);

/* The function that a word before the figures asks for; NULL for every other word. */
static move_function *moving(const char *text)
{
    if (strcmp(text, "move-to-a") == 0) return burgzemi_move_to_a;
    if (strcmp(text, "move-to-larsson") == 0) return burgzemi_move_to_larsson;
    return NULL;
}

static unsigned move_strip(move_function *move, struct figures f, const uint8_t *strip, size_t strip_len, uint32_t job)
{
    static uint8_t moved[BURGZEMI_MAX_WORD];
    uint8_t table[BURGZEMI_TABLE_LEN];

    open_alone(table, job);
    /* A longer word is refused by its figures, whatever the buffers are. */
    size_t moved_len = f.n <= BURGZEMI_MAX_WORD ? f.n : 0;
    unsigned answer = move(f.n, f.q, f.m, f.b, table, sizeof table, strip, strip_len, moved, moved_len);
    if (answer == BURGZEMI_SERVED)
        print_symbols("moved", moved, moved_len);
    return answer;
}

/* The figures in four texts; 0 where one of them is none. Where it may be a long burst, an L in the place of M says so. */
static int strip_figures(char **texts, int may_be_long, struct figures *f)
{
    if (may_be_long && strcmp(texts[2], "L") == 0)
        f->code = CONSTRUCTION_B;
    return figure(texts[0], &f->n) && figure(texts[1], &f->q) && (f->code == CONSTRUCTION_B || figure(texts[2], &f->m)) && figure(texts[3], &f->b);
}

int main(int argc, char **argv)
{
    static uint8_t word[MAX_SYMBOLS];
    struct figures f = {.m = 1, .code = CONSTRUCTION_A};
    uint32_t job = 0;
    move_function *move = argc > 1 ? moving(argv[1]) : NULL;

    if (argc > 1 && strcmp(argv[1], "larsson") == 0)
        f.code = LARSSON;
    /* Whether the figures come first. */
    int plain = f.code != LARSSON && move == NULL;
    if (!plain) {
        argc--;
        argv++;
    }
    if (argc != 7 && (argc != 6 || move != NULL))
        return usage("four figures and a word are wanted; a job number may follow, and must where a job is moved");
    if (!strip_figures(argv + 1, plain, &f))
        return usage("a figure is no number of 32 bits");
    int len = symbols(argv[5], word);
    if (len < 0)
        return usage("the word is no hex, or longer than any word");
    if (argc == 7 && !figure(argv[6], &job))
        return usage("the job is no number of 32 bits");

    unsigned answer = move != NULL ? move_strip(move, f, word, (size_t)len, job)
                    : argc == 7 ? read_prescription(f, word, (size_t)len, job) : read_word(f, word, (size_t)len);
    if (answer != BURGZEMI_SERVED)
        printf("refused %u: %s\n", answer, refusal_text(answer));
    print_silent(word, (size_t)len, f.q);
    return answer != BURGZEMI_SERVED;
}
