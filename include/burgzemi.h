/*
 * Burgzemi's functions for C and other languages, proved. Link with target/staticlib/libexports.a, made by `.ci/made exports`.
 *
 * A strip carries a word of symbols. Some stretches of the strip are worn: the bursts. The writer is told where they are. The reader is not: it finds them
 * by the word itself, and what the worn cells hold makes no difference. Three codes do this. Construction A has up to 8 bursts. Construction B has one
 * long burst. The Larsson code is that of the older trays. Every call on a strip of one code exists under every code:
 *
 *                        Construction A               Construction B                    Larsson code
 *   figures alone        burgzemi_figures             burgzemi_long_figures             burgzemi_larsson_figures
 *   word write           burgzemi_encode              burgzemi_long_encode              burgzemi_larsson_encode
 *   word read            burgzemi_decode              burgzemi_long_decode              burgzemi_larsson_decode
 *   check                burgzemi_verify              burgzemi_long_verify              burgzemi_larsson_verify
 *   covering             burgzemi_cover               burgzemi_long_cover               burgzemi_larsson_cover
 *   job write            burgzemi_job_write           burgzemi_long_job_write           burgzemi_larsson_job_write
 *   job read             burgzemi_job_read            burgzemi_long_job_read            burgzemi_larsson_job_read
 *   prescription write   burgzemi_prescription_write  burgzemi_long_prescription_write  burgzemi_larsson_prescription_write
 *   prescription read    burgzemi_prescription_read   burgzemi_long_prescription_read   burgzemi_larsson_prescription_read
 *   words side by side   burgzemi_interleave          burgzemi_long_interleave          burgzemi_larsson_interleave
 *                        burgzemi_deinterleave        burgzemi_long_deinterleave        burgzemi_larsson_deinterleave
 *
 * Eight calls belong to no code:
 *
 *   job table            burgzemi_open, burgzemi_cancel, burgzemi_finish, burgzemi_reinstate, burgzemi_hold, burgzemi_release
 *   eyes                 burgzemi_transpose, burgzemi_spherical_equivalent
 *
 * Two calls move a job from a strip of one code to a strip of another:
 *
 *   Larsson code to Construction A   burgzemi_move_to_a
 *   Construction A to Larsson code   burgzemi_move_to_larsson
 */
#ifndef BURGZEMI_H
#define BURGZEMI_H

#include <stddef.h>
#include <stdint.h>

#ifdef __cplusplus
extern "C" {
#endif

/* ---- Answers */

/*
 * Every call answers 0, or why it was refused. A check has one answer more, BURGZEMI_DIFFERS. The comment of a call lists its refusals in the order in which
 * they are looked for.
 */
enum burgzemi_answer {
    BURGZEMI_SERVED = 0,
    /* from the input */
    BURGZEMI_INVALID = 1,      /* a figure out of range, or a job table with one number twice or with an unknown state */
    BURGZEMI_UNFIT = 2,        /* the figures don't fit the code */
    BURGZEMI_LENGTH = 3,       /* a list, a placement or a buffer has another length than the call needs */
    BURGZEMI_SYMBOL = 4,       /* a symbol of q or more; in a found word a value above q; a byte above 1 in a defect map */
    BURGZEMI_STARTS = 5,       /* starts too close, descending, or past the end */
    BURGZEMI_UNCOVERED = 6,    /* no placement covers the defect map */
    BURGZEMI_PATTERN = 7,      /* Constructions A and B: the blocks' first symbols are in no pattern that a word can have */
    BURGZEMI_VALUE = 8,        /* the value that tells of the bursts is too large */
    BURGZEMI_DISAGREES = 9,    /* the bursts that the value tells of disagree with the word */
    BURGZEMI_PAYLOAD = 10,     /* no room for a job, a byte's symbols that spell 256 or more, or a leftover symbol other than 0 */
    BURGZEMI_RECORD = 11,      /* a record unreadable or one too many: the transfer program's alone, no call answers it */
    BURGZEMI_PRESCRIPTION = 16, /* an eye, a pupil distance or a job's text outside the rules of prescriptions, or a payload below 17 bytes */
    BURGZEMI_DEPTH = 18,       /* a depth outside 1 to 16 */
    BURGZEMI_ERASED = 19,      /* a silent cell, q, where a symbol is needed */
    BURGZEMI_MAJORITY = 21,    /* Larsson code: no value stands in most of the sub-blocks */
    BURGZEMI_SURPLUS = 22,     /* bytes of a moved payload that have no room on the other strip aren't all 0 */
    /* from the state of the job table */
    BURGZEMI_CANCELLED = 12,   /* the job number is cancelled */
    BURGZEMI_ALREADY_OPEN = 13, /* the job number that is opened is open already, or on hold */
    BURGZEMI_NOT_OPEN = 14,    /* the job number is not in the table */
    BURGZEMI_FULL = 15,        /* 64 numbers are in the table, open, on hold or cancelled, and a new one is needed */
    BURGZEMI_NUMBER_ZERO = 17, /* job number 0 is no job: opened, written, or cancelled where the table doesn't hold it */
    BURGZEMI_NOT_CANCELLED = 20, /* the job number that is reinstated is not cancelled */
    BURGZEMI_HELD = 23,        /* the job is on hold: not read, written, finished or held again before it is released */
    BURGZEMI_NOT_HELD = 24     /* the job number that is released is not on hold */
};

/* What a check answers for a word that disagrees. No refusal has this number. */
#define BURGZEMI_DIFFERS 255

/* ---- Codes and their figures */

/*
 * A strip has up to four figures:
 *
 *   n   how many symbols a word has, 3 to 4096
 *   q   how many different symbols there are, 2 to 256; a symbol is a byte below q
 *   m   how many bursts a word has, 1 to 8
 *   b   how many positions a burst has, at least 1
 *
 * Construction A and the Larsson code take n, q, m and b. Construction B takes n, q and b; it has one burst, so m is 1 wherever it is named below.
 *
 * A placement is where the m bursts lie. They don't overlap. All placements are numbered from 0, and the number of one is its rank.
 *
 * The figures give two lengths. A message has k symbols, and k may be 0. A payload has K bytes: the job number, 4 bytes, and then the text. K is k / w,
 * rounded down, where w is the least number of symbols that can spell 256 values. No job has room where K is below 5.
 *
 * Refusal 1 is for a figure out of range, refusal 2 for figures that don't fit the code. Figures that fit one code may not fit another.
 *
 * Construction A: the word is cut into p parts, and p is the larger of 3 and m. Each part is cut into m blocks. Lengths are as equal as possible, shorter
 * ones first. The first 1 + r symbols of m blocks, the index blocks, spell the rank. The first symbol of an index block has q - 1 values, each of the r
 * others has q. r is the least number with which they can spell every rank. 2 is for m * b above n, for more than 9223372036854775807 placements, or for a
 * shortest block of fewer than b + r symbols. k is n - m * (b + p + r - 1).
 *
 * Construction B: the word is cut into three parts, each of them one block. The first 1 + r symbols of one part, the index block, spell where in another
 * part the burst ends, counted from that part's start. r is the least number with which they can spell n / 3 values, rounded up. 2 is for a b above n / 3,
 * or for an r that is not below n / 3, both rounded down. k is n - b - r - 2.
 *
 * Larsson code: the word has 2 * m + 1 sub-blocks of R symbols. The first is at position 0, the last at the end of the word, with gaps between them as
 * equal as possible, shorter ones first. Each of the first m + 1 that no burst touches, the bearers, spells the rank. R is the least number of symbols
 * that can spell every rank. 2 is for m * b above n, for more than 9223372036854775807 placements, for sub-blocks that are together longer than n, or for
 * a b above the shortest gap plus 1. k is n - m * b - (m + 1) * R.
 */

/*
 * The largest figures: no word, and so no message and no payload, is longer, and no placement has more bursts. BURGZEMI_MAX_WORD bytes hold any of those,
 * 2 * BURGZEMI_MAX_BURSTS bytes the starts of any placement; the length that is passed is still exactly n, k, K or 2 * m. Not all go together, as longer
 * words have too many placements. Under Construction A, figures with 7 bursts fit up to n 1999, with 8 up to n 999; under the Larsson code up to n 3343
 * and n 1631.
 */
#define BURGZEMI_MAX_WORD 4096
#define BURGZEMI_MAX_BURSTS 8

/* Figures alone are lent so many numbers, and each stands in its place. */
#define BURGZEMI_FIGURES_LEN 4
enum burgzemi_figure {
    BURGZEMI_FIGURE_PLACEMENTS, /* how many placements there are, at most 9223372036854775807 */
    BURGZEMI_FIGURE_R,          /* r, and the Larsson code's R */
    BURGZEMI_FIGURE_MESSAGE,    /* k, the symbols of a message */
    BURGZEMI_FIGURE_PAYLOAD     /* K, the bytes of a payload */
};

/* The most words that lie side by side: BURGZEMI_MAX_DEPTH * BURGZEMI_MAX_WORD bytes hold any strip of them. */
#define BURGZEMI_MAX_DEPTH 16

/*
 * A found word is what the heads report of a strip: n values. A value is a symbol, or q for a silent cell, one that could not be read. Where q is 256
 * there is no such value. Inside the bursts any value may stand.
 *
 * These are the refusals of a found word, in their order. Constructions A and B have one list, the Larsson code has another; 8 and 9 have their
 * conditions by code. Of the other refusals only 1 and 2 go by the code, as its figures do.
 *
 *   Constructions A and B   4 7 19 8 9 19
 *   Larsson code            4 21 8 9 19
 *
 *   4    A value is above q.
 *   7    The blocks' first symbols are in no pattern that a word can have.
 *   21   No value stands in at least m + 1 sub-blocks. A sub-block with a silent cell has none.
 *   19   Before 8: a silent cell is among the first 1 + r symbols of an index block.
 *   8    The value that is spelt is no rank. Construction B: it is not below the length of the part where the burst ends.
 *   9    Construction A: the placement of that rank has other index blocks, or a fixed block that doesn't start with 0. Construction B: the burst would start
 *        before position 0. Larsson code: a bearer of that placement doesn't hold the value.
 *   19   At the end: a silent cell is among the message.
 *
 * 7, 21, 19, 8 and 9 are for a word that no writing and no damage inside the bursts can give.
 */

/* ---- The job table and eyes */

/*
 * The bytes of a job table: 64 slots of 5, a state and the job number, high byte first. The states: 0 free, 1 open, 2 cancelled and before that open, 3
 * cancelled and before that not in the table, 4 on hold, 5 cancelled and before that on hold. All 0 is the empty table. Refusal 1 is for a table of this
 * length with a state above 5, or with one number in two slots that aren't free.
 */
#define BURGZEMI_TABLE_SLOTS 64
#define BURGZEMI_TABLE_LEN 320

/*
 * An eye is given and answered as four values: its kind, sphere and cylinder in dioptres, and its axis in degrees. A plano has none of the three, a sphere
 * its power as the sphere; what the kind doesn't use is 0, and plus zero where it is a double. Powers are whole eighths of a dioptre: a sphere, and a
 * toric's sphere plus cylinder, from -30 to 30, a sphere's power and a cylinder never 0, an axis 1 to 180. A pupil distance is in millimetres, whole
 * halves from 40 to 80. Every other value, a part of an eighth, a minus zero and a NaN included, is outside the rules, and refused with 16.
 */
#define BURGZEMI_PLANO 0
#define BURGZEMI_SPHERE 1
#define BURGZEMI_TORIC 2

/* What a prescription read is lent: bytes of marks, and doubles of powers. */
#define BURGZEMI_MARKS_LEN 8
#define BURGZEMI_POWERS_LEN 5

/* ---- What holds for every function */

/*
 * Starts are positions from 0, ascending, 2 bytes each, high byte first. Each buffer comes with its own length, counted in what it holds: bytes, numbers or
 * doubles. Nothing past that length is read or written. Buffers of one call must not overlap. No buffer is NULL, not even where its length is 0. A buffer
 * that is only written need not be initialised. A refusal leaves every buffer as it was; of a double that is a NaN, that it is one.
 *
 * Each function always returns and touches no other memory, which is what its proof says. It keeps nothing between calls, so that several
 * threads may call it at once with buffers of their own.
 */

/* ---- Construction A: the figures n, q, m and b. What is said of a function here holds for its row of the table, under every code. */

/*
 * Figures alone. Puts into `figures`, BURGZEMI_FIGURES_LEN numbers, what the figures give: how many placements there are, r, k and K.
 *
 * Refusals: 1 and 2 for the figures; 3 where figures_len is not BURGZEMI_FIGURES_LEN.
 */
uint8_t burgzemi_figures(uint32_t n, uint32_t q, uint32_t m, uint32_t b,
                         uint64_t *figures, size_t figures_len);

/*
 * Word write. Writes the word of a placement, given by its m starts, and of a message of k symbols into `word`, of n bytes. The bursts hold 0.
 *
 * Refusals: 1 and 2 for the figures; 3 where starts_len is not 2 * m, message_len not k or word_len not n; 5 for starts too close, descending or past the
 * end; 4 for a symbol of q or more.
 */
uint8_t burgzemi_encode(uint32_t n, uint32_t q, uint32_t m, uint32_t b,
                        const uint8_t *starts, size_t starts_len,
                        const uint8_t *message, size_t message_len,
                        uint8_t *word, size_t word_len);

/*
 * Word read. Reads a found word. `message` gets its k symbols, and `starts` the start of each of the m bursts.
 *
 * Refusals: 1 and 2 for the figures; 3 where word_len is not n, message_len not k or starts_len not 2 * m; then those of a found word.
 */
uint8_t burgzemi_decode(uint32_t n, uint32_t q, uint32_t m, uint32_t b,
                        const uint8_t *word, size_t word_len,
                        uint8_t *message, size_t message_len,
                        uint8_t *starts, size_t starts_len);

/*
 * Check. Compares a found word with the word that a word write gives for the placement and the message. BURGZEMI_SERVED is yes: the two agree at every
 * position outside the bursts. BURGZEMI_DIFFERS is no. What the cells inside the bursts hold makes no difference. A silent cell outside them disagrees.
 * Only 0 is yes.
 *
 * Refusals: those of a word write, in its order; 4 also for a value above q anywhere in the found word.
 */
uint8_t burgzemi_verify(uint32_t n, uint32_t q, uint32_t m, uint32_t b,
                        const uint8_t *starts, size_t starts_len,
                        const uint8_t *message, size_t message_len,
                        const uint8_t *word, size_t word_len);

/*
 * Covering. `map` has n bytes, 1 where a position is defective and 0 elsewhere. `starts` gets the placement of least rank whose bursts cover every defect.
 *
 * Refusals: 1 and 2 for the figures; 3 where map_len is not n or starts_len not 2 * m; 4 for a byte above 1; 6 where no placement covers the map.
 */
uint8_t burgzemi_cover(uint32_t n, uint32_t q, uint32_t m, uint32_t b,
                       const uint8_t *map, size_t map_len,
                       uint8_t *starts, size_t starts_len);

/*
 * Job write. Writes a payload of K bytes, which begins with the job number, high byte first, with the bursts at `starts` into `word`, of n bytes. The job
 * must be open, and its number not 0.
 *
 * Refusals: 1 for the figures and for the table; 2 for the figures; 10 where K is below 5; 3 where table_len is not BURGZEMI_TABLE_LEN, starts_len not
 * 2 * m, payload_len not K or word_len not n; 5 for the starts; 17 for number 0, open or not; 12, 23 and 14 for the job.
 */
uint8_t burgzemi_job_write(uint32_t n, uint32_t q, uint32_t m, uint32_t b,
                           const uint8_t *table, size_t table_len,
                           const uint8_t *starts, size_t starts_len,
                           const uint8_t *payload, size_t payload_len,
                           uint8_t *word, size_t word_len);

/*
 * Job read. Reads a found word, and puts the payload that it carries into `payload`, of K bytes. The job must be open; a 0 that the table holds open is
 * read too.
 *
 * Refusals: 1, 2 and 10 as for a job write; 3 where table_len is not BURGZEMI_TABLE_LEN, word_len not n or payload_len not K; those of a found word; 10
 * for a message that spells no payload; 12, 23 and 14 for the job.
 */
uint8_t burgzemi_job_read(uint32_t n, uint32_t q, uint32_t m, uint32_t b,
                          const uint8_t *table, size_t table_len,
                          const uint8_t *word, size_t word_len,
                          uint8_t *payload, size_t payload_len);

/*
 * Prescription write. Writes a job's number and its prescription, both eyes and the pupil distance, with the bursts at `starts` into `word`, of n bytes.
 * The job must be open, and its number not 0. The payload, of K bytes, is the number, thirteen bytes of prescription and zeros.
 *
 * Refusals: 1, 2 and 10 as for a job write; 3 where table_len is not BURGZEMI_TABLE_LEN, starts_len not 2 * m or word_len not n; 5 for the starts; 16
 * where K is below 17, or for an eye or a distance outside the rules; 17 for number 0, open or not; 12, 23 and 14 for the job.
 */
uint8_t burgzemi_prescription_write(uint32_t n, uint32_t q, uint32_t m, uint32_t b,
                                    const uint8_t *table, size_t table_len,
                                    const uint8_t *starts, size_t starts_len,
                                    uint32_t number,
                                    uint8_t right_kind, double right_sphere, double right_cylinder, uint8_t right_axis,
                                    uint8_t left_kind, double left_sphere, double left_cylinder, uint8_t left_axis,
                                    double distance,
                                    uint8_t *word, size_t word_len);

/*
 * Prescription read. Reads a found word, and the prescription that its job's text is. `marks` gets the job number, 4 bytes, high byte first, then kind and
 * axis of the right eye and kind and axis of the left: BURGZEMI_MARKS_LEN bytes. `powers` gets sphere and cylinder of the right eye, sphere and cylinder
 * of the left, and the pupil distance: BURGZEMI_POWERS_LEN doubles. The job must be open; a 0 that the table holds open is read too.
 *
 * Refusals: 1, 2 and 10 as for a job write; 3 where table_len is not BURGZEMI_TABLE_LEN, word_len not n, marks_len not 8 or powers_len not 5; those of a
 * found word; 10 for a message that spells no payload; 16 where K is below 17, or for a text that is no prescription; 12, 23 and 14 for the job.
 */
uint8_t burgzemi_prescription_read(uint32_t n, uint32_t q, uint32_t m, uint32_t b,
                                   const uint8_t *table, size_t table_len,
                                   const uint8_t *word, size_t word_len,
                                   uint8_t *marks, size_t marks_len,
                                   double *powers, size_t powers_len);

/*
 * Words side by side. Lays `depth` words of n symbols, 1 to 16 of them, on one strip. `words` has them one after another. `strip` gets depth * n symbols:
 * cell t holds symbol t / depth (rounded down) of word t % depth.
 *
 * Where at most m stretches of the strip are worn, each of at most depth * b cells, each word's share of the strip's map, found by taking the map apart,
 * can be covered; and each word that is written on its cover reads back, whatever values up to q the worn cells hold.
 *
 * Refusals: 1 and 2 for the figures; 18 for the depth; 3 where words_len or strip_len is not depth * n; 4 for a symbol of q or more.
 */
uint8_t burgzemi_interleave(uint32_t n, uint32_t q, uint32_t m, uint32_t b, uint32_t depth,
                            const uint8_t *words, size_t words_len,
                            uint8_t *strip, size_t strip_len);

/*
 * Takes such a strip apart again: `words` gets the words one after another. A found strip may have silent cells. Refusals: as for laying, but 4 for a
 * value above q.
 */
uint8_t burgzemi_deinterleave(uint32_t n, uint32_t q, uint32_t m, uint32_t b, uint32_t depth,
                              const uint8_t *strip, size_t strip_len,
                              uint8_t *words, size_t words_len);

/* ---- Construction B, one long burst: the figures n, q and b. The parameters are those of Construction A without m, and `start` has 2 bytes. */

uint8_t burgzemi_long_figures(uint32_t n, uint32_t q, uint32_t b,
                              uint64_t *figures, size_t figures_len);

uint8_t burgzemi_long_encode(uint32_t n, uint32_t q, uint32_t b,
                             const uint8_t *start, size_t start_len,
                             const uint8_t *message, size_t message_len,
                             uint8_t *word, size_t word_len);

uint8_t burgzemi_long_decode(uint32_t n, uint32_t q, uint32_t b,
                             const uint8_t *word, size_t word_len,
                             uint8_t *message, size_t message_len,
                             uint8_t *start, size_t start_len);

uint8_t burgzemi_long_verify(uint32_t n, uint32_t q, uint32_t b,
                             const uint8_t *start, size_t start_len,
                             const uint8_t *message, size_t message_len,
                             const uint8_t *word, size_t word_len);

uint8_t burgzemi_long_cover(uint32_t n, uint32_t q, uint32_t b,
                            const uint8_t *map, size_t map_len,
                            uint8_t *start, size_t start_len);

uint8_t burgzemi_long_job_write(uint32_t n, uint32_t q, uint32_t b,
                                const uint8_t *table, size_t table_len,
                                const uint8_t *start, size_t start_len,
                                const uint8_t *payload, size_t payload_len,
                                uint8_t *word, size_t word_len);

uint8_t burgzemi_long_job_read(uint32_t n, uint32_t q, uint32_t b,
                               const uint8_t *table, size_t table_len,
                               const uint8_t *word, size_t word_len,
                               uint8_t *payload, size_t payload_len);

uint8_t burgzemi_long_prescription_write(uint32_t n, uint32_t q, uint32_t b,
                                         const uint8_t *table, size_t table_len,
                                         const uint8_t *start, size_t start_len,
                                         uint32_t number,
                                         uint8_t right_kind, double right_sphere, double right_cylinder, uint8_t right_axis,
                                         uint8_t left_kind, double left_sphere, double left_cylinder, uint8_t left_axis,
                                         double distance,
                                         uint8_t *word, size_t word_len);

uint8_t burgzemi_long_prescription_read(uint32_t n, uint32_t q, uint32_t b,
                                        const uint8_t *table, size_t table_len,
                                        const uint8_t *word, size_t word_len,
                                        uint8_t *marks, size_t marks_len,
                                        double *powers, size_t powers_len);

uint8_t burgzemi_long_interleave(uint32_t n, uint32_t q, uint32_t b, uint32_t depth,
                                 const uint8_t *words, size_t words_len,
                                 uint8_t *strip, size_t strip_len);

uint8_t burgzemi_long_deinterleave(uint32_t n, uint32_t q, uint32_t b, uint32_t depth,
                                   const uint8_t *strip, size_t strip_len,
                                   uint8_t *words, size_t words_len);

/* ---- The Larsson code, of the older trays: the figures n, q, m and b. The parameters are those of Construction A. */

uint8_t burgzemi_larsson_figures(uint32_t n, uint32_t q, uint32_t m, uint32_t b,
                                 uint64_t *figures, size_t figures_len);

uint8_t burgzemi_larsson_encode(uint32_t n, uint32_t q, uint32_t m, uint32_t b,
                                const uint8_t *starts, size_t starts_len,
                                const uint8_t *message, size_t message_len,
                                uint8_t *word, size_t word_len);

uint8_t burgzemi_larsson_decode(uint32_t n, uint32_t q, uint32_t m, uint32_t b,
                                const uint8_t *word, size_t word_len,
                                uint8_t *message, size_t message_len,
                                uint8_t *starts, size_t starts_len);

uint8_t burgzemi_larsson_verify(uint32_t n, uint32_t q, uint32_t m, uint32_t b,
                                const uint8_t *starts, size_t starts_len,
                                const uint8_t *message, size_t message_len,
                                const uint8_t *word, size_t word_len);

uint8_t burgzemi_larsson_cover(uint32_t n, uint32_t q, uint32_t m, uint32_t b,
                               const uint8_t *map, size_t map_len,
                               uint8_t *starts, size_t starts_len);

uint8_t burgzemi_larsson_job_write(uint32_t n, uint32_t q, uint32_t m, uint32_t b,
                                   const uint8_t *table, size_t table_len,
                                   const uint8_t *starts, size_t starts_len,
                                   const uint8_t *payload, size_t payload_len,
                                   uint8_t *word, size_t word_len);

uint8_t burgzemi_larsson_job_read(uint32_t n, uint32_t q, uint32_t m, uint32_t b,
                                  const uint8_t *table, size_t table_len,
                                  const uint8_t *word, size_t word_len,
                                  uint8_t *payload, size_t payload_len);

uint8_t burgzemi_larsson_prescription_write(uint32_t n, uint32_t q, uint32_t m, uint32_t b,
                                            const uint8_t *table, size_t table_len,
                                            const uint8_t *starts, size_t starts_len,
                                            uint32_t number,
                                            uint8_t right_kind, double right_sphere, double right_cylinder, uint8_t right_axis,
                                            uint8_t left_kind, double left_sphere, double left_cylinder, uint8_t left_axis,
                                            double distance,
                                            uint8_t *word, size_t word_len);

uint8_t burgzemi_larsson_prescription_read(uint32_t n, uint32_t q, uint32_t m, uint32_t b,
                                           const uint8_t *table, size_t table_len,
                                           const uint8_t *word, size_t word_len,
                                           uint8_t *marks, size_t marks_len,
                                           double *powers, size_t powers_len);

uint8_t burgzemi_larsson_interleave(uint32_t n, uint32_t q, uint32_t m, uint32_t b, uint32_t depth,
                                    const uint8_t *words, size_t words_len,
                                    uint8_t *strip, size_t strip_len);

uint8_t burgzemi_larsson_deinterleave(uint32_t n, uint32_t q, uint32_t m, uint32_t b, uint32_t depth,
                                      const uint8_t *strip, size_t strip_len,
                                      uint8_t *words, size_t words_len);

/* ---- Of no code: the job table and eyes */

/*
 * The calls on the job table, which then holds what it has afterwards. An accepted call leaves 0 in the number bytes of every free slot.
 *
 * Refusals of each: 3 where table_len is not BURGZEMI_TABLE_LEN; 1 for the table; then its own. Number 0 is no job. A table from before that rule may hold it,
 * open or cancelled: it can then be finished, cancelled, reinstated, held or released as any other.
 */

/* Opens a number, which takes the first free slot. Refusals: 3 1 17 12 13 15, where 17 is for every opening of 0 and 13 for a number on hold too. */
uint8_t burgzemi_open(uint8_t *table, size_t table_len, uint32_t number);

/*
 * Cancels a number, also one that the table doesn't hold, which takes the first free slot. Refusals: 3 1 17 12 15, where 17 is for a 0 that the table doesn't
 * hold.
 */
uint8_t burgzemi_cancel(uint8_t *table, size_t table_len, uint32_t number);

/* Finishes an open number, and frees its slot. Refusals: 3 1 12 23 14. */
uint8_t burgzemi_finish(uint8_t *table, size_t table_len, uint32_t number);

/*
 * Takes a cancellation back: the number is again what it was before, open, on hold, or not in the table and its slot free. Refusals: 3 1 20, where 20 is for a
 * number that is not cancelled.
 */
uint8_t burgzemi_reinstate(uint8_t *table, size_t table_len, uint32_t number);

/* Puts an open number on hold. It takes its slot as before, and is open again once it is released. Refusals: 3 1 12 23 14. */
uint8_t burgzemi_hold(uint8_t *table, size_t table_len, uint32_t number);

/* Makes a number on hold open again. Refusals: 3 1 12 24, where 24 is for an open number and for one that the table doesn't hold. */
uint8_t burgzemi_release(uint8_t *table, size_t table_len, uint32_t number);

/*
 * Transposes an eye: the cylinder is added to the sphere and changes its sign, the axis turns by 90; a plano or a sphere stays as it is. `marks` gets the
 * kind and the axis, 2 bytes, `powers` the sphere and the cylinder, 2 doubles. Transposed again, these give the values that were given, bit by bit.
 *
 * Refusals: 3 where marks_len or powers_len is not 2; 16 for an eye outside the rules.
 */
uint8_t burgzemi_transpose(uint8_t kind, double sphere, double cylinder, uint8_t axis,
                           uint8_t *marks, size_t marks_len,
                           double *powers, size_t powers_len);

/*
 * Puts the spherical equivalent of an eye, its sphere plus half its cylinder, into `power`, 1 double: exact, and plus zero for a plano.
 *
 * Refusals: 3 where power_len is not 1; 16 for an eye outside the rules.
 */
uint8_t burgzemi_spherical_equivalent(uint8_t kind, double sphere, double cylinder, uint8_t axis,
                                      double *power, size_t power_len);

/* ---- Moves between the Larsson code and Construction A */

/*
 * Moves a job from an older tray's strip to one of Construction A, with the same figures and placement. `older` is a found word, and is read as
 * burgzemi_larsson_job_read reads it. `newer`, of n bytes, gets the word that burgzemi_job_write writes for the same starts, number and text. Where its
 * payload is longer than the one that was read, it ends in bytes of 0. Where it is shorter, the surplus bytes that were read must be 0. The job must be
 * open, and its number not 0.
 *
 * Moved back by burgzemi_move_to_larsson, with the same table and whatever values up to q the bursts of `newer` then hold, it has the message that it had,
 * and 0 in its bursts.
 *
 * Refusals: 1 for the figures and for the table; 2 where the figures don't fit both codes; 10 where either payload is below 5 bytes; 3 where table_len is
 * not BURGZEMI_TABLE_LEN, or older_len or newer_len not n; 4 21 8 9 19 for the word; 10 for a message that spells no payload; 12, 23 and 14 for the job;
 * 22 for surplus bytes that aren't all 0; 17 for number 0, which is then open.
 */
uint8_t burgzemi_move_to_a(uint32_t n, uint32_t q, uint32_t m, uint32_t b,
                           const uint8_t *table, size_t table_len,
                           const uint8_t *older, size_t older_len,
                           uint8_t *newer, size_t newer_len);

/*
 * Moves it back, or any job from a strip of Construction A to one of the older trays, likewise. Refusals: as above, but 4 7 19 8 9 19 for the word.
 */
uint8_t burgzemi_move_to_larsson(uint32_t n, uint32_t q, uint32_t m, uint32_t b,
                                 const uint8_t *table, size_t table_len,
                                 const uint8_t *newer, size_t newer_len,
                                 uint8_t *older, size_t older_len);

#ifdef __cplusplus
}
#endif

#endif
