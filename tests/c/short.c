/*
 * short CALL MISSING: makes the call of this number (1 open, 2 step, 3 settle, 4 tally, 5 run, 6 run_steps, 7 refusal,
 * 8 log_length, 9 log) on a bank, or for 9 into a buffer, that has so many bytes fewer than the call reaches. Under
 * valgrind that must be found, and with 0 missing nothing may be.
 */
#include <stdio.h>
#include <stdlib.h>
#include <string.h>

#include "loargwen.h"
#include "words.h"

enum { WORDS = LOARGWEN_BANK_BYTES / 2, LENGTHS = 20, LENGTHS_END = 36, LOG = 2 };

static uint16_t full[WORDS] = {16, LOARGWEN_ALL_ACK, 32, 0xFFFF, [LENGTHS] = LOG};

static size_t call(int number, uint16_t *bank, uint16_t *out)
{
    const struct step last_word = {LOARGWEN_RECEIVE, 15, 0, 31};
    uint8_t *bytes = (uint8_t *)bank;

    switch (number) {
    case 1:
        return loargwen_open(bytes, LOARGWEN_BANK_BYTES, 16, LOARGWEN_ALL_ACK);
    case 2:
        return loargwen_step(bytes, LOARGWEN_BANK_BYTES, LOARGWEN_CRASH, 0, 0, 0);
    case 3:
        return loargwen_settle(bytes, LOARGWEN_BANK_BYTES, 65535).refusal;
    case 4:
        return loargwen_tally(bytes, LOARGWEN_BANK_BYTES, 0, 0).refusal;
    case 5:
        return words_run(bank, WORDS, &last_word.kind, 4).refusal;
    case 6:
        return run_steps(bank, WORDS, &last_word, 1).refusal;
    case 7:
        return words_refusal(bank, WORDS, LOARGWEN_RECEIVE, 15, 0, 31);
    case 8:
        return words_log_length(bank, WORDS, 15).refusal;
    default:
        return words_log(bank, WORDS, 0, out, LOG);
    }
}

static void *lend(const void *bytes, size_t length)
{
    void *lent = malloc(length);

    if (lent == NULL)
        exit(2);
    return memcpy(lent, bytes, length);
}

int main(int words, char **word)
{
    static const size_t expected[] = {0, 0, 0, 0, 0, 8, 8, 8, 0, LOG};
    const uint16_t empty[LOG] = {0};

    if (words != 3)
        return 2;
    int number = atoi(word[1]);
    size_t missing = strtoul(word[2], NULL, 10);
    if (number < 1 || number > 9 || missing > 1)
        return 2;
    size_t bank_bytes = number == 8 ? 2 * LENGTHS_END : sizeof full, out_bytes = sizeof empty;
    *(number == 9 ? &out_bytes : &bank_bytes) -= missing;
    uint16_t *bank = lend(full, bank_bytes), *out = lend(empty, out_bytes);
    size_t answer = call(number, bank, out);
    free(bank);
    free(out);
    return answer == expected[number] ? 0 : 1;
}
