/*
 * words CODE N Q M B ..: writes a word for each five arguments. CODE is a, b or larsson, or a copy of N symbols in C: `straight`, or `room`, which goes
 * through a buffer. Prints the address of a mark that it stores to before and after each word, so that a trace of stores shows where the words begin
 * and end. The trace's reader knows the order of the words.
 */
#include <stdio.h>
#include <stdlib.h>
#include <string.h>

#include "burgzemi.h"

static volatile uint8_t mark;
static uint8_t message[BURGZEMI_MAX_WORD], word[BURGZEMI_MAX_WORD], starts[2 * BURGZEMI_MAX_BURSTS];

struct figures {
    uint32_t n, q, m, b;
};

typedef uint8_t measure(struct figures f, uint64_t *figures);
typedef uint8_t writer(struct figures f, size_t k);

static uint8_t measure_a(struct figures f, uint64_t *figures)
{
    return burgzemi_figures(f.n, f.q, f.m, f.b, figures, BURGZEMI_FIGURES_LEN);
}

static uint8_t write_a(struct figures f, size_t k)
{
    return burgzemi_encode(f.n, f.q, f.m, f.b, starts, 2 * f.m, message, k, word, f.n);
}

static uint8_t measure_b(struct figures f, uint64_t *figures)
{
    return burgzemi_long_figures(f.n, f.q, f.b, figures, BURGZEMI_FIGURES_LEN);
}

static uint8_t write_b(struct figures f, size_t k)
{
    return burgzemi_long_encode(f.n, f.q, f.b, starts, 2, message, k, word, f.n);
}

static uint8_t measure_larsson(struct figures f, uint64_t *figures)
{
    return burgzemi_larsson_figures(f.n, f.q, f.m, f.b, figures, BURGZEMI_FIGURES_LEN);
}

static uint8_t write_larsson(struct figures f, size_t k)
{
    return burgzemi_larsson_encode(f.n, f.q, f.m, f.b, starts, 2 * f.m, message, k, word, f.n);
}

static uint8_t measure_copy(struct figures f, uint64_t *figures)
{
    figures[BURGZEMI_FIGURE_MESSAGE] = f.n;
    return 0;
}

static uint8_t copy_straight(struct figures f, size_t k)
{
    (void)f;
    memcpy(word, message, k);
    return 0;
}

static uint8_t copy_by_room(struct figures f, size_t k)
{
    uint8_t room[64];
    (void)f;
    for (size_t done = 0; done + sizeof room <= k; done += sizeof room) {
        memcpy(room, message + done, sizeof room);
        /* nothing that the compiler may leave out */
        __asm__ volatile("" : : "r"(room) : "memory");
        memcpy(word + done, room, sizeof room);
    }
    return 0;
}

static const struct code {
    const char *name;
    measure *measure;
    writer *write;
} codes[] = {
    {"a", measure_a, write_a},
    {"b", measure_b, write_b},
    {"larsson", measure_larsson, write_larsson},
    {"straight", measure_copy, copy_straight},
    {"room", measure_copy, copy_by_room},
};

static const struct code *code_of(const char *name)
{
    for (size_t i = 0; i < sizeof codes / sizeof *codes; i++)
        if (strcmp(codes[i].name, name) == 0)
            return &codes[i];
    fprintf(stderr, "words: no code %s\n", name);
    exit(2);
}

/* One word, its bursts evenly spread; whether it was written. */
static int written(const struct code *code, struct figures f)
{
    uint64_t figures[BURGZEMI_FIGURES_LEN];
    uint8_t answer = code->measure(f, figures);
    if (answer != 0)
        return 0;
    for (uint32_t i = 0; i < f.m; i++) {
        uint32_t start = f.n / f.m * i;
        starts[2 * i] = start >> 8;
        starts[2 * i + 1] = start & 255;
    }
    for (size_t i = 0; i < figures[BURGZEMI_FIGURE_MESSAGE]; i++)
        message[i] = i % f.q;
    mark = 1;
    answer = code->write(f, figures[BURGZEMI_FIGURE_MESSAGE]);
    mark = 0;
    return answer == 0;
}

int main(int argc, char **argv)
{
    printf("%p\n", (void *)&mark);
    for (int i = 1; i + 4 < argc; i += 5) {
        struct figures f = {atoi(argv[i + 1]), atoi(argv[i + 2]), atoi(argv[i + 3]), atoi(argv[i + 4])};
        if (!written(code_of(argv[i]), f)) {
            fprintf(stderr, "words: refused: %s %s %s %s %s\n", argv[i], argv[i + 1], argv[i + 2], argv[i + 3], argv[i + 4]);
            return 1;
        }
    }
    return 0;
}
