/*
 * Calls the proved walk over a caller's own step records, and holds it to the flat form, words_run, on the same steps
 * and banks: some lists chosen, some hundreds drawn. The first check that fails ends the program. An argument is a
 * fault in what the flat form gets, which must be found. With `refused` each list lacks the step that is refused and
 * all after it, so that the answers alone differ. With `value` a list that begins with a broadcast has another value
 * there, so that the banks alone do.
 */
#include <stdio.h>
#include <stdlib.h>
#include <string.h>

#include "words.h"

enum { WORDS = 2244, COUNT = 2, UP = 3, VIEWS = 4, LENGTHS = 20, RECORD = 548, HELD = 3, UNSENT = 21, FLIGHT = 37 };
enum { BROADCAST = 1, CONTROLLERS = 16, MESSAGES = 32, MOST = 40, DRAWN = 400, TRIES = 200 };

static uint16_t bank[WORDS];
static const char *fault = "";

static void must(int holds, const char *what)
{
    if (!holds) {
        fprintf(stderr, "step_records: %s: does not hold\n", what);
        exit(1);
    }
}

static void open_group(uint16_t n, uint16_t mode) /* as the scope paper's opening leaves it */
{
    uint16_t all = (uint16_t)((1u << n) - 1);

    memset(bank, 0, sizeof bank);
    bank[0] = n;
    bank[1] = mode;
    bank[UP] = all;
    for (size_t i = 0; i < n; i++)
        bank[VIEWS + i] = all;
}

static void check_stopped(void)
{
    const struct step twice[] = {{1, 0, 95, 7}, {2, 0, 1, 0}, {2, 0, 1, 0}, {5, 0, 0, 0}};

    open_group(2, 1);
    struct ran ran = run_steps(bank, WORDS, twice, 4);
    must(ran.accepted == 2 && ran.refusal == 8, "a send twice stops the list after two steps with 8");
    must(bank[COUNT] == 1 && bank[UP] == 3, "the steps before it stay, the one after it is not done");
    must(bank[RECORD] == 0 && bank[RECORD + 1] == 95 && bank[RECORD + 2] == 7, "the record has the numbers");
    must(bank[RECORD + HELD] == 1 && bank[RECORD + UNSENT] == 1, "the sender holds it and has its own copy to send");
    must(bank[RECORD + FLIGHT + 1] == 1, "the copy to 1 is in flight from 0");
}

static void *copy_of(const void *bytes, size_t length) /* an allocation of its own, of exactly these bytes */
{
    void *copy = malloc(length > 0 ? length : 1);

    must(copy != NULL, "there is memory for a list");
    return memcpy(copy, bytes, length);
}

static int planted(const char *name)
{
    return strcmp(fault, name) == 0;
}

/* applies the steps as records, and in the flat form to a copy of the bank: both have to answer and leave the same */
static struct ran as_flat(size_t words, const struct step *steps, size_t count)
{
    static uint16_t flat_bank[WORDS];
    struct step *records = copy_of(steps, count * sizeof *steps);
    uint16_t *flat = copy_of(steps, count * sizeof *steps);

    if (count > 0 && steps[0].kind == BROADCAST && planted("value"))
        flat[3] ^= 1;
    memcpy(flat_bank, bank, sizeof bank);
    struct ran ran = run_steps(bank, words, records, count);
    struct ran flat_ran = words_run(flat_bank, words, flat, 4 * (planted("refused") ? ran.accepted : count));
    free(records);
    free(flat);
    must(ran.accepted == flat_ran.accepted && ran.refusal == flat_ran.refusal, "the answer is the flat form's");
    must(memcmp(bank, flat_bank, sizeof bank) == 0, "every word of the bank is the flat form's");
    return ran;
}

static void check_chosen(void)
{
    const struct step steps[] = {{1, 1, 96, 500}, {2, 1, 0, 0}, {3, 0, 1, 0}, {5, 1, 0, 0}, {6, 0, 1, 0}, {6, 0, 1, 0}};

    open_group(2, 1);
    must(as_flat(WORDS, steps, 5).accepted == 5, "five steps are accepted whole");
    open_group(2, 1);
    must(as_flat(WORDS, steps, 6).refusal == 10, "the sixth is refused with 10");
    must(as_flat(WORDS, steps, 0).refusal == 0, "an empty list is done");
    must(as_flat(WORDS - 1, steps, 5).refusal == 1, "a bank one word short is unfit");
    bank[1] = 3;
    must(as_flat(WORDS, steps, 5).refusal == 1, "a bank of mode 3 is unfit");
}

static uint32_t below(uint32_t limit) /* the next of a run of numbers that is always the same */
{
    static uint32_t state = 2024;

    state = state * 1664525 + 1013904223;
    return (uint32_t)((uint64_t)(state >> 8) * limit >> 24);
}

static void spoil(void) /* any words, but such that the bank is fit */
{
    for (size_t i = 0; i < WORDS; i++)
        bank[i] = (uint16_t)below(65536);
    bank[0] = (uint16_t)(1 + below(CONTROLLERS));
    bank[1] = (uint16_t)(1 + below(2));
    bank[COUNT] = (uint16_t)below(MESSAGES + 1);
    for (size_t i = 0; i < CONTROLLERS; i++)
        bank[LENGTHS + i] = (uint16_t)below(bank[COUNT] + 1u);
}

static struct step draw(void)
{
    uint32_t n = bank[0], message = below(bank[COUNT] + 1u);
    struct step step = {(uint16_t)(1 + below(7)), (uint16_t)below(n), (uint16_t)below(n), (uint16_t)message};

    if (step.kind == 4)
        step.b = (uint16_t)message;
    if (step.kind == 5)
        step.b = 0;
    if (step.kind > 3 && step.kind < 7)
        step.c = 0;
    return step;
}

/* a step that the bank allows, if one of many is, and that is then taken */
static struct step draw_allowed(void)
{
    struct step step = draw();

    for (int i = 0; i < TRIES && words_refusal(bank, WORDS, step.kind, step.a, step.b, step.c) != 0; i++)
        step = draw();
    run_steps(bank, WORDS, &step, 1);
    return step;
}

/* lists of allowed steps, half of them with any step at the end */
static void check_drawn(void)
{
    static uint16_t before[WORDS];
    struct step steps[MOST + 1];
    size_t whole = 0, stopped = 0, accepted = 0;

    for (size_t i = 0; i < DRAWN; i++) {
        size_t count = below(MOST);
        if (i % 2 == 0)
            open_group((uint16_t)(1 + below(5)), (uint16_t)(1 + below(2)));
        else
            spoil();
        memcpy(before, bank, sizeof bank);
        for (size_t k = 0; k < count; k++)
            steps[k] = draw_allowed();
        steps[count] = draw();
        memcpy(bank, before, sizeof bank);
        struct ran ran = as_flat(WORDS, steps, count + i / 2 % 2);
        accepted += ran.accepted;
        *(ran.refusal == 0 ? &whole : &stopped) += 1;
    }
    must(whole > DRAWN / 4 && stopped > DRAWN / 8 && accepted > DRAWN, "the lists drawn are of both kinds");
    printf("step_records: as the flat form; of %d lists drawn %zu accepted whole, %zu stopped; %zu steps accepted\n",
           DRAWN, whole, stopped, accepted);
}

int main(int words, char **word)
{
    if (words > 1)
        fault = word[1];
    check_stopped();
    check_chosen();
    check_drawn();
    return 0;
}
