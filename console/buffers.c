/* Calls the reader with buffers of every wrong length, and sees that a refusal leaves both buffers as they were. Ends with 0 where all is right. */
#include "burgzemi.h"

#include <stdio.h>
#include <string.h>

/* Document 01's first strip: n 30, q 2, m 1, b 3; start 12, message all 1. */
static const uint8_t good[30] = {0, 1, 1, 1, 1, 1, 1, 1, 1, 1, 1, 1, 0, 0, 0, 1, 1, 1, 1, 1, 1, 0, 1, 1, 0, 0, 1, 1, 1, 1};

static int wrong;

/* One call on a word of 30 symbols: the answer that is wanted, with both buffers as they were where it is a refusal. */
static void call(const char *what, unsigned wanted, uint32_t b, const uint8_t *word, size_t word_len, size_t message_len, size_t starts_len)
{
    uint8_t message[32], starts[16], message_before[32], starts_before[16];
    memset(message, 0xA5, sizeof message);
    memset(starts, 0x5A, sizeof starts);
    memcpy(message_before, message, sizeof message);
    memcpy(starts_before, starts, sizeof starts);
    unsigned answer = burgzemi_decode(30, 2, 1, b, word, word_len, message, message_len, starts, starts_len);
    int kept = memcmp(message, message_before, sizeof message) == 0 && memcmp(starts, starts_before, sizeof starts) == 0;
    if (answer != wanted || kept != (wanted != BURGZEMI_SERVED)) {
        printf("buffers: %s: answer %u, wanted %u, buffers %s\n", what, answer, wanted, kept ? "kept" : "changed");
        wrong = 1;
    }
}

int main(void)
{
    uint8_t word[30];

    call("all right", BURGZEMI_SERVED, 3, good, 30, 20, 2);
    call("unfit", BURGZEMI_UNFIT, 6, good, 30, 20, 2);
    call("word short", BURGZEMI_LENGTH, 3, good, 29, 20, 2);
    call("message short", BURGZEMI_LENGTH, 3, good, 30, 19, 2);
    call("message long", BURGZEMI_LENGTH, 3, good, 30, 21, 2);
    call("no message", BURGZEMI_LENGTH, 3, good, 30, 0, 2);
    call("starts short", BURGZEMI_LENGTH, 3, good, 30, 20, 1);
    call("starts long", BURGZEMI_LENGTH, 3, good, 30, 20, 4);
    call("no starts", BURGZEMI_LENGTH, 3, good, 30, 20, 0);

    memset(word, 1, sizeof word);
    call("no pattern", BURGZEMI_PATTERN, 3, word, 30, 20, 2);
    word[29] = 3;
    call("a value of 3 in no pattern", BURGZEMI_SYMBOL, 3, word, 30, 20, 2);
    memcpy(word, good, sizeof word);
    word[21] = 1;
    word[24] = 1;
    word[25] = 1;
    call("value too large", BURGZEMI_VALUE, 3, word, 30, 20, 2);
    memset(word + 21, 0, 5);
    call("another placement", BURGZEMI_DISAGREES, 3, word, 30, 20, 2);
    memcpy(word, good, sizeof word);
    word[20] = 2;
    call("a silent digit", BURGZEMI_ERASED, 3, word, 30, 20, 2);
    memcpy(word, good, sizeof word);
    word[29] = 2;
    call("a silent message cell", BURGZEMI_ERASED, 3, word, 30, 20, 2);

    return wrong;
}
