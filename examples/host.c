/*
 * A small scheduler: five chambers tell each other their readings, one of them is lost half way through its sends, and
 * the others still agree on every day's sum. What it prints is in host.out.
 *
 *   cc -Wall -Wextra -Werror -I include examples/host.c target/staticlib/libloargwen.a -o host
 */
#include <stdio.h>
#include <stdlib.h>
#include <string.h>

#include "loargwen.h"

enum { CHAMBERS = 5, TURN = 50 /* steps that the scheduler takes before it looks up */ };

struct reading {
    uint16_t chamber, stamp, value;
};

/* quarter hours 288 to 383 are day 3; 384 is the first of day 4 */
static const struct reading readings[] = {
    {0, 290, 412}, {1, 301, 388}, {2, 383, 405}, {4, 384, 399},
};
static const struct reading last_words = {3, 330, 500};

static uint8_t bank[LOARGWEN_BANK_BYTES];
static uint16_t messages; /* numbers given so far */

static void must(const char *what, uint16_t refusal)
{
    if (refusal != LOARGWEN_DONE) {
        fprintf(stderr, "%s: refused with %u\n", what, refusal);
        exit(1);
    }
}

static uint16_t step(uint16_t kind, uint16_t a, uint16_t b, uint16_t c)
{
    return loargwen_step(bank, sizeof bank, kind, a, b, c);
}

/* gives back the message's number */
static uint16_t broadcast(struct reading r)
{
    must("broadcast", step(LOARGWEN_BROADCAST, r.chamber, r.stamp, r.value));
    printf("chamber %u broadcasts %u at quarter hour %u: message %u\n", r.chamber, r.value, r.stamp, messages);
    return messages++;
}

static void settle(void)
{
    struct loargwen_settled s;
    unsigned steps = 0, turns = 0;
    do {
        s = loargwen_settle(bank, sizeof bank, TURN);
        must("settle", s.refusal);
        steps += s.steps;
        turns++;
    } while (!s.quiet);
    printf("settled: steps %u, turns %u\n", steps, turns);
}

/* chamber 3 reaches chambers 0 and 1 and nobody else */
static void lose_half_way(void)
{
    uint8_t before[sizeof bank];
    uint16_t who = last_words.chamber, refusal, message = broadcast(last_words);
    must("send", step(LOARGWEN_SEND, who, 0, message));
    must("send", step(LOARGWEN_SEND, who, 1, message));
    must("crash", step(LOARGWEN_CRASH, who, 0, 0));
    printf("chamber %u is lost after two of %d sends\n", who, CHAMBERS);

    memcpy(before, bank, sizeof bank);
    refusal = step(LOARGWEN_SEND, who, 2, message);
    printf("its third send: refused with %u, %s\n", refusal,
           memcmp(before, bank, sizeof bank) == 0 ? "no byte changed" : "the bank was changed");
}

static void print_day(uint16_t day)
{
    printf("day %u\n", day);
    for (uint16_t who = 0; who < CHAMBERS; who++) {
        struct loargwen_day d = loargwen_tally(bank, sizeof bank, who, day);
        must("tally", d.refusal);
        printf("  chamber %u%s: readings %u, sum %lu\n", who, who == last_words.chamber ? " (lost)" : "", d.count,
               (unsigned long)d.sum);
    }
}

int main(void)
{
    must("open", loargwen_open(bank, sizeof bank, CHAMBERS, LOARGWEN_ALL_ACK));
    for (size_t i = 0; i < sizeof readings / sizeof readings[0]; i++)
        broadcast(readings[i]);
    settle();
    lose_half_way();
    settle();
    print_day(3);
    print_day(4);
    return 0;
}
