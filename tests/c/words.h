/*
 * The calls on words that the tests link beside the C face: libstep_records.a has run_steps, libword_face.a the others.
 * A bank is lent with the number of its words, a list or a buffer with the number of its own.
 */
#ifndef WORDS_H
#define WORDS_H

#include <stddef.h>
#include <stdint.h>

struct step {
    uint16_t kind, a, b, c;
};

_Static_assert(sizeof(struct step) == 8, "a record is its four words");

struct ran {
    size_t accepted;
    uint16_t refusal;
};

struct log_length {
    uint16_t refusal, length;
};

struct ran run_steps(uint16_t *bank, size_t words, const struct step *steps, size_t count);
struct ran words_run(uint16_t *bank, size_t words, const uint16_t *steps, size_t count);
uint16_t words_refusal(const uint16_t *bank, size_t words, uint16_t kind, uint16_t a, uint16_t b, uint16_t c);
struct log_length words_log_length(const uint16_t *bank, size_t words, uint16_t who);
size_t words_log(const uint16_t *bank, size_t words, uint16_t who, uint16_t *out, size_t room);

#endif
