/*
 * loargwen.h: a group of up to 16 chamber controllers that broadcast readings and orders to each other. Once it has
 * settled, in all-ack mode, or in majority mode with more than half of the controllers up, a message that any of them
 * has acted on, also one that is down by now, stands exactly once in the log of every controller that is up; so does
 * every message whose sender is up. In majority mode with half of the controllers up or fewer, a message may stand in
 * one such log and not in another. The order inside two logs may always differ.
 *
 * Link libloargwen.a: where it was installed `pkg-config --cflags --libs loargwen` says how, and in the repository
 * `make archive` makes target/staticlib/libloargwen.a. It is code for x86-64 Linux.
 *
 * The whole state of a group is its bank: LOARGWEN_BANK_BYTES bytes of yours, at any address. Each call takes the
 * bank's address and its length in bytes. The library keeps nothing between calls, allocates nothing and touches no
 * other memory of yours but some 5,000 bytes of the stack; of the C library it calls memcpy and memset alone. A bank
 * may be copied, saved and put back like any other bytes. Calls on different banks may run at the same time. During a
 * call nobody else may touch the bank that it was given.
 *
 * Of every call, on any bytes and any numbers, spoilt banks included:
 *   - it ends, and never reads or writes outside the bank;
 *   - its answer and every byte of the bank afterwards are those of the written rules, and nothing else is possible;
 *   - where it answers a refusal, every byte of the bank is as it was.
 *
 * Of every bank since the last loargwen_open on it that answered LOARGWEN_DONE, where only the calls below have changed
 * it, in whatever order they came and whatever they answered:
 *   - it is what the accepted steps made of the open group, one after another: those of loargwen_step that answered
 *     LOARGWEN_DONE, and as many of loargwen_settle's as it counted;
 *   - a controller that is down stays down; the number of controllers and the mode stay;
 *   - a log only grows at its end; it holds messages that were broadcast, none twice, and their records hold the
 *     senders' own stamps and values;
 *   - the group settles: loargwen_settle with a budget of 65535 leaves no send, receipt, detect or delivery. In
 *     whatever other order these are taken, by loargwen_step, the group settles after equally many of them, with the
 *     same sets and the same logs but for the order inside each;
 *   - so the first sentences hold: of what was acted on at any moment since that open. Settled means that none of these
 *     steps is left: loargwen_settle then answers quiet.
 *
 * Both lists are proved of the code as it is written, with the definitions in the repository: docs/PROMISES.md says
 * where; but that loargwen_tally, which may only read the bank, leaves it as it is rests on its type. That the compiled
 * library does the same, and that this header fits it, is tested. A bank that was put back is one that these calls led
 * to up to the moment when it was saved: what was acted on since then need be in no log, and numbers of messages are
 * given again.
 *
 * A bank is unfit, and every call but loargwen_open refuses it with LOARGWEN_UNFIT, when it is not LOARGWEN_BANK_BYTES
 * long or its bytes cannot be a group's: a wrong number of controllers, an unknown mode, more than 32 messages, or a
 * log of one of its controllers longer than there are messages. If the length is right it was never opened, or somebody
 * else has written to it: open it, or put a saved bank back. A bank that somebody spoilt need not be unfit.
 *
 * In the bank each number is two bytes, the low one first. Controller i's log has as many entries as the number at byte
 * 40 + 2*i says, from byte 72 + 64*i on; an entry is a message's number. A bank has room for 32 messages; for more the
 * group is opened anew.
 */
#ifndef LOARGWEN_H
#define LOARGWEN_H

#include <stddef.h>
#include <stdint.h>

#ifdef __cplusplus
extern "C" {
#endif

#define LOARGWEN_BANK_BYTES 4488
#define LOARGWEN_CONTROLLERS 16 /* a group has 1 to 16 controllers, numbered from 0 */
#define LOARGWEN_MESSAGES 32    /* a group carries at most 32 messages, numbered from 0 in the order of broadcast */
#define LOARGWEN_LAST_DAY 682   /* it ends at stamp 65,535 */

/* When a controller may deliver a message that it holds. */
enum loargwen_mode {
    LOARGWEN_ALL_ACK = 1,  /* once everyone whom it takes to be up has acknowledged it */
    LOARGWEN_MAJORITY = 2, /* once more than half of the group have */
};

/* The kinds of step. The brackets say what the numbers a, b and c of loargwen_step mean; those not named are 0. */
enum loargwen_kind {
    LOARGWEN_BROADCAST = 1, /* [who, stamp, value] the next message; who must then send it to all, itself included */
    LOARGWEN_SEND = 2,      /* [from, to, message] the copy leaves; it may go to a controller that is down */
    LOARGWEN_RECEIVE = 3,   /* [at, from, message] the copy arrives; at, if it did not hold it, must send it to all */
    LOARGWEN_DELIVER = 4,   /* [at, message] at acts on the message: it joins at's log */
    LOARGWEN_CRASH = 5,     /* [who] who is down from now on; what it has sent stays on its way */
    LOARGWEN_DETECT = 6,    /* [at, of] at no longer waits for of, which must be down; all-ack only */
    LOARGWEN_LOSE = 7,      /* [from, to, message] the copy on its way is lost; one of the two must be down */
};

/*
 * What a call answers. Where several apply the lowest is given; but the last two causes of LOARGWEN_UNFIT come after
 * all other tests.
 */
enum loargwen_refusal {
    LOARGWEN_DONE = 0,
    LOARGWEN_UNFIT = 1,          /* the bank is unfit. A deliver answers it too, after all other tests, where the log
                                    has as many entries as there are messages; a tally where it has one that is no
                                    message. No bank that loargwen_open wrote and only the calls below changed,
                                    given with its own length, comes to any of these. */
    LOARGWEN_NO_STEP = 2,        /* the kind is not 1 to 7, or a number that the kind does not use is not 0 */
    LOARGWEN_NO_CONTROLLER = 3,  /* a controller's number is not below the number of controllers */
    LOARGWEN_NO_MESSAGE = 4,     /* a message's number has not been given yet */
    LOARGWEN_NO_DETECTION = 5,   /* detect in majority mode */
    LOARGWEN_ACTOR_DOWN = 6,     /* who is to act is down */
    LOARGWEN_MESSAGES_FULL = 7,  /* broadcast: there are 32 messages already */
    LOARGWEN_NO_COPY = 8,        /* send: not to be sent; receive, lose: not on its way; deliver: not held */
    LOARGWEN_NOT_YET = 9,        /* deliver: too few acknowledgements; detect: of is up; lose: both ends are up */
    LOARGWEN_ALREADY = 10,       /* deliver: already delivered; detect: already known */
    LOARGWEN_BAD_SIZE = 11,      /* open: the number of controllers is not 1 to 16 */
    LOARGWEN_BAD_MODE = 12,      /* open: the mode is not 1 or 2 */
    LOARGWEN_BAD_RECORD = 13,    /* of the bench and its files: no call here answers it */
    LOARGWEN_BAD_DAY = 14,       /* tally: the day is above LOARGWEN_LAST_DAY */
};

/*
 * Opens a group of n controllers, all up, with no message. The whole bank is written anew, whatever it held.
 * Refusals: LOARGWEN_UNFIT (the length alone), LOARGWEN_BAD_SIZE, LOARGWEN_BAD_MODE.
 */
uint16_t loargwen_open(uint8_t *bank, size_t len, uint16_t n, uint16_t mode);

/*
 * Takes one step, of one of the kinds above. An accepted step changes what its kind says and nothing else. An accepted
 * broadcast takes the next message number: the first is 0.
 * Refusals: LOARGWEN_UNFIT to LOARGWEN_ALREADY.
 */
uint16_t loargwen_step(uint8_t *bank, size_t len, uint16_t kind, uint16_t a, uint16_t b, uint16_t c);

/*
 * Takes steps for the group, at most `budget`, until none is left: detects, then message by message sends, receipts and
 * deliveries, always the first that nothing refuses, from the lowest numbers. It never broadcasts, crashes or loses.
 * `quiet` is 1 where no such step is left afterwards, also where the budget was just enough, and else 0: where it was
 * not refused, call again with a budget above 0.
 * A group opened with n controllers that has broadcast c messages takes at most 2*n*n*c + n*c + n*(n-1) of these steps
 * in its life, 17,136 at the most; any other bank that is fit takes at most 41,712. So a budget of 65535 leaves none.
 * Refusal: LOARGWEN_UNFIT; steps and quiet are then 0.
 */
struct loargwen_settled {
    uint16_t refusal;
    uint16_t steps;
    uint16_t quiet;
};
struct loargwen_settled loargwen_settle(uint8_t *bank, size_t len, uint16_t budget);

/*
 * How many messages of a day controller `who` has delivered, and the sum of their values. A stamp counts quarter hours
 * from the season's first midnight; day d has stamps 96*d to 96*d + 95. The bank is only read.
 * Refusals, in this order: LOARGWEN_UNFIT, LOARGWEN_NO_CONTROLLER, LOARGWEN_BAD_DAY, then LOARGWEN_UNFIT for a spoilt
 * log; count and sum are then 0.
 */
struct loargwen_day {
    uint16_t refusal;
    uint16_t count;
    uint32_t sum;
};
struct loargwen_day loargwen_tally(const uint8_t *bank, size_t len, uint16_t who, uint16_t day);

#ifdef __cplusplus
}
#endif

#endif
