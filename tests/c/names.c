/*
 * Holds every number that include/loargwen.h names to what the archive does: each limit on both sides, each mode and
 * each kind by what it alone brings about, each refusal by a call that must answer it. The first that differs ends the
 * program with 1.
 */
#include <stdio.h>
#include <stdlib.h>
#include <string.h>

#include "loargwen.h"
#include "words.h"

enum { ROOM = 8192, UP_AT = 6, LENGTHS_AT = 40 };

static uint8_t bank[ROOM];

static void must(unsigned got, unsigned want, const char *what)
{
    if (got != want) {
        fprintf(stderr, "names: %s: %u, and the header's is %u\n", what, got, want);
        exit(1);
    }
}

static uint16_t open_group(uint16_t n, uint16_t mode)
{
    return loargwen_open(bank, LOARGWEN_BANK_BYTES, n, mode);
}

static uint16_t step(uint16_t kind, uint16_t a, uint16_t b, uint16_t c)
{
    return loargwen_step(bank, LOARGWEN_BANK_BYTES, kind, a, b, c);
}

static uint16_t tally(uint16_t who, uint16_t day)
{
    return loargwen_tally(bank, LOARGWEN_BANK_BYTES, who, day).refusal;
}

static void limits(void)
{
    must(loargwen_open(bank, LOARGWEN_BANK_BYTES - 1, 1, LOARGWEN_ALL_ACK), LOARGWEN_UNFIT, "a byte short");
    must(loargwen_open(bank, LOARGWEN_BANK_BYTES + 1, 1, LOARGWEN_ALL_ACK), LOARGWEN_UNFIT, "a byte too long");
    must(open_group(LOARGWEN_CONTROLLERS + 1, LOARGWEN_ALL_ACK), LOARGWEN_BAD_SIZE, "one controller too many");
    must(open_group(LOARGWEN_CONTROLLERS, LOARGWEN_ALL_ACK), LOARGWEN_DONE, "as many controllers as there may be");
    for (uint16_t i = 0; i < LOARGWEN_MESSAGES; i++)
        must(step(LOARGWEN_BROADCAST, 0, i, 0), LOARGWEN_DONE, "as many messages as there may be");
    must(step(LOARGWEN_BROADCAST, 0, 0, 0), LOARGWEN_MESSAGES_FULL, "one message too many");
    must(tally(0, LOARGWEN_LAST_DAY), LOARGWEN_DONE, "the last day");
    must(tally(0, LOARGWEN_LAST_DAY + 1), LOARGWEN_BAD_DAY, "the day after it");
}

static void modes(void)
{
    must(open_group(2, 0), LOARGWEN_BAD_MODE, "no mode");
    must(open_group(2, LOARGWEN_MAJORITY), LOARGWEN_DONE, "majority");
    must(step(LOARGWEN_DETECT, 0, 1, 0), LOARGWEN_NO_DETECTION, "a detect in majority mode");
    must(open_group(2, LOARGWEN_ALL_ACK), LOARGWEN_DONE, "all-ack");
    must(step(LOARGWEN_DETECT, 0, 1, 0), LOARGWEN_NOT_YET, "a detect of one that is up");
}

/* a life of two controllers: each step does what its name says, and where it is asked for again is refused */
static void kinds(void)
{
    must(open_group(2, LOARGWEN_ALL_ACK), LOARGWEN_DONE, "an open");
    must(step(LOARGWEN_SEND, 0, 1, 0), LOARGWEN_NO_MESSAGE, "a send of what was not broadcast");
    must(step(LOARGWEN_BROADCAST, 0, 96, 500), LOARGWEN_DONE, "a broadcast");
    must(step(LOARGWEN_SEND, 0, 1, 0), LOARGWEN_DONE, "a send");
    must(step(LOARGWEN_SEND, 0, 1, 0), LOARGWEN_NO_COPY, "the same send");
    must(step(LOARGWEN_LOSE, 0, 1, 0), LOARGWEN_NOT_YET, "a loss with both ends up");
    must(step(LOARGWEN_CRASH, 1, 0, 0), LOARGWEN_DONE, "a crash");
    must(bank[UP_AT], 1, "who is up");
    must(step(LOARGWEN_CRASH, 1, 0, 0), LOARGWEN_ACTOR_DOWN, "the same crash");
    must(step(LOARGWEN_LOSE, 0, 1, 0), LOARGWEN_DONE, "a loss");
    must(step(LOARGWEN_DETECT, 0, 1, 0), LOARGWEN_DONE, "a detect");
    must(step(LOARGWEN_DETECT, 0, 1, 0), LOARGWEN_ALREADY, "the same detect");
    must(step(LOARGWEN_SEND, 0, 0, 0), LOARGWEN_DONE, "a send to itself");
    must(step(LOARGWEN_RECEIVE, 0, 0, 0), LOARGWEN_DONE, "a receipt");
    must(step(LOARGWEN_RECEIVE, 0, 0, 0), LOARGWEN_NO_COPY, "the same receipt");
    must(step(LOARGWEN_DELIVER, 0, 0, 0), LOARGWEN_DONE, "a delivery");
    must(step(LOARGWEN_DELIVER, 0, 0, 0), LOARGWEN_ALREADY, "the same delivery");
    must(bank[LENGTHS_AT], 1, "entries in the log");
    must(step(LOARGWEN_CRASH, 2, 0, 0), LOARGWEN_NO_CONTROLLER, "a controller that is not there");
    must(step(0, 0, 0, 0), LOARGWEN_NO_STEP, "no kind");
}

static void list_of_three_words(void) /* the only kind of call that answers it, of those on a bank */
{
    uint16_t words[LOARGWEN_BANK_BYTES / 2], list[3] = {0};

    memcpy(words, bank, sizeof words);
    must(words_run(words, sizeof words / 2, list, 3).refusal, LOARGWEN_BAD_RECORD, "a list of three words");
}

int main(void)
{
    limits();
    modes();
    kinds();
    list_of_three_words();
    return 0;
}
