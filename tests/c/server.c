/*
 * Serves the archives over standard input and output, so that a program that is not linked with them can call them.
 *
 * A request is the call's number (1 open, 2 step, 3 settle, 4 tally; on words 5 run, 6 run_steps, 7 refusal, 8
 * log_length, 9 log), four arguments, two bytes each, the numbers of the bank's bytes and of those lent beside it, the
 * list or the buffer, in four each, and all these bytes. The answer is the refusal and two numbers, two bytes each, a
 * third in four, and both runs of bytes afterwards. In every number and word the low byte comes first; numbers that a
 * call does not have are 0.
 *
 * Each call gets a bank, and a list or a buffer, of its own on the heap, of exactly the bytes sent, between guard
 * bytes: where one of these was changed the program ends with 2, at the end of its input with 0. The argument `bank` or
 * `beside` is a fault: each call is followed by a write to the byte after that run, which must be found.
 */
#include <stdio.h>
#include <stdlib.h>
#include <string.h>

#include "loargwen.h"
#include "words.h"

_Static_assert(__BYTE_ORDER__ == __ORDER_LITTLE_ENDIAN__, "bytes are lent as the words that they are");

enum { OPEN = 1, STEP, SETTLE, TALLY, RUN, RUN_STEPS, REFUSAL, LOG_LENGTH, LOG };
enum { REQUEST_BYTES = 18, ANSWER_BYTES = 10, GUARD = 64, SHIFTS = 8, PIPE_BYTES = 1 << 16 };

struct request {
    uint16_t call, args[4];
    uint32_t len, beside_len;
};

struct answer {
    uint16_t refusal, first, second;
    uint32_t third;
};

/* one allocation: guard bytes, what is lent, guard bytes */
struct field {
    uint8_t *bytes;
    size_t start, end, whole;
};

static void fail(const char *what)
{
    fprintf(stderr, "server: %s\n", what);
    exit(2);
}

static uint16_t get16(const uint8_t *at)
{
    return (uint16_t)(at[0] | at[1] << 8);
}

static uint32_t get32(const uint8_t *at)
{
    return get16(at) | (uint32_t)get16(at + 2) << 16;
}

static void put16(uint8_t *at, uint16_t number)
{
    at[0] = (uint8_t)number;
    at[1] = (uint8_t)(number >> 8);
}

static void put32(uint8_t *at, uint32_t number)
{
    put16(at, (uint16_t)number);
    put16(at + 2, (uint16_t)(number >> 16));
}

/* 0 at the end of the input */
static int read_request(struct request *request)
{
    uint8_t bytes[REQUEST_BYTES];
    size_t got = fread(bytes, 1, sizeof bytes, stdin);
    if (got == 0 && feof(stdin))
        return 0;
    if (got != sizeof bytes)
        fail("a request is cut short");
    request->call = get16(bytes);
    for (size_t i = 0; i < 4; i++)
        request->args[i] = get16(bytes + 2 + 2 * i);
    request->len = get32(bytes + 10);
    request->beside_len = get32(bytes + 14);
    return 1;
}

static uint8_t guard(size_t place)
{
    return (uint8_t)(place * 37 ^ 0xA5);
}

/* the shift gives what is lent every alignment in turn */
static struct field read_field(size_t len, size_t shift)
{
    struct field field = {NULL, GUARD + shift, GUARD + shift + len, GUARD + shift + len + GUARD};
    field.bytes = malloc(field.whole);
    if (field.bytes == NULL)
        fail("no memory for what is lent");
    for (size_t i = 0; i < field.start; i++)
        field.bytes[i] = guard(i);
    for (size_t i = field.end; i < field.whole; i++)
        field.bytes[i] = guard(i);
    if (fread(field.bytes + field.start, 1, len, stdin) != len)
        fail("what is lent is cut short");
    return field;
}

static uint8_t *lent(const struct field *field)
{
    return field->bytes + field->start;
}

static size_t length(const struct field *field)
{
    return field->end - field->start;
}

static void check_guards(const struct field *field)
{
    for (size_t i = 0; i < field->whole; i++) {
        if (i == field->start)
            i = field->end;
        if (field->bytes[i] != guard(i)) {
            fprintf(stderr, "server: guard byte at %ld from the start of what is lent was changed\n",
                    (long)i - (long)field->start);
            exit(2);
        }
    }
}

static struct answer refusal_alone(uint16_t refusal)
{
    return (struct answer){refusal, 0, 0, 0};
}

static struct answer settle(uint8_t *bank, size_t len, uint16_t budget)
{
    struct loargwen_settled settled = loargwen_settle(bank, len, budget);
    return (struct answer){settled.refusal, settled.steps, settled.quiet, 0};
}

static struct answer tally(const uint8_t *bank, size_t len, uint16_t who, uint16_t day)
{
    struct loargwen_day tallied = loargwen_tally(bank, len, who, day);
    return (struct answer){tallied.refusal, tallied.count, 0, tallied.sum};
}

static struct answer ran(struct ran ran)
{
    return (struct answer){ran.refusal, 0, 0, (uint32_t)ran.accepted};
}

static struct answer log_length(const uint16_t *bank, size_t len, uint16_t who)
{
    struct log_length found = words_log_length(bank, len, who);
    return (struct answer){found.refusal, found.length, 0, 0};
}

static struct answer copy_log(const uint16_t *bank, size_t len, uint16_t who, uint16_t *out, size_t room)
{
    return (struct answer){0, 0, 0, (uint32_t)words_log(bank, len, who, out, room)};
}

static struct answer call_on_bytes(const struct request *request, uint8_t *bank, size_t len)
{
    const uint16_t *args = request->args;
    switch (request->call) {
    case OPEN:
        return refusal_alone(loargwen_open(bank, len, args[0], args[1]));
    case STEP:
        return refusal_alone(loargwen_step(bank, len, args[0], args[1], args[2], args[3]));
    case SETTLE:
        return settle(bank, len, args[0]);
    case TALLY:
        return tally(bank, len, args[0], args[1]);
    default:
        fail("no such call");
        return refusal_alone(0);
    }
}

/* the lengths are of words */
static struct answer call_on_words(const struct request *request, uint16_t *bank, size_t len, uint16_t *beside,
                                   size_t beside_len)
{
    const uint16_t *args = request->args;
    switch (request->call) {
    case RUN:
        return ran(words_run(bank, len, beside, beside_len));
    case RUN_STEPS:
        return ran(run_steps(bank, len, (const struct step *)beside, beside_len / 4));
    case REFUSAL:
        return refusal_alone(words_refusal(bank, len, args[0], args[1], args[2], args[3]));
    case LOG_LENGTH:
        return log_length(bank, len, args[0]);
    case LOG:
        return copy_log(bank, len, args[0], beside, beside_len);
    default:
        fail("no such call");
        return refusal_alone(0);
    }
}

static int on_words(const struct request *request)
{
    return request->call > TALLY;
}

static struct answer call(const struct request *request, const struct field *bank, const struct field *beside)
{
    if (!on_words(request))
        return call_on_bytes(request, lent(bank), length(bank));
    if (length(bank) % 2 != 0 || length(beside) % 2 != 0)
        fail("half a word is lent");
    return call_on_words(request, (uint16_t *)lent(bank), length(bank) / 2, (uint16_t *)lent(beside),
                         length(beside) / 2);
}

static int write_lent(const struct field *field)
{
    return fwrite(lent(field), 1, length(field), stdout) == length(field);
}

static void write_answer(const struct answer *answer, const struct field *bank, const struct field *beside)
{
    uint8_t bytes[ANSWER_BYTES];
    put16(bytes, answer->refusal);
    put16(bytes + 2, answer->first);
    put16(bytes + 4, answer->second);
    put32(bytes + 6, answer->third);
    if (fwrite(bytes, 1, sizeof bytes, stdout) != sizeof bytes || !write_lent(bank) || !write_lent(beside) ||
        fflush(stdout) != 0)
        fail("the answer cannot be written");
}

static void serve(const struct request *request, size_t shift, const char *strayed)
{
    if (on_words(request))
        shift -= shift % sizeof(uint16_t);
    struct field bank = read_field(request->len, shift);
    struct field beside = read_field(request->beside_len, shift);
    struct answer answer = call(request, &bank, &beside);
    if (strcmp(strayed, "bank") == 0)
        bank.bytes[bank.end] ^= 1;
    if (strcmp(strayed, "beside") == 0)
        beside.bytes[beside.end] ^= 1;
    check_guards(&bank);
    check_guards(&beside);
    write_answer(&answer, &bank, &beside);
    free(bank.bytes);
    free(beside.bytes);
}

int main(int words, char **word)
{
    struct request request;
    setvbuf(stdin, NULL, _IOFBF, PIPE_BYTES);
    setvbuf(stdout, NULL, _IOFBF, PIPE_BYTES);
    for (size_t made = 0; read_request(&request); made++)
        serve(&request, made % SHIFTS, words > 1 ? word[1] : "");
    return 0;
}
