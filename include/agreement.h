/*
 * Deposit agreements: reading, expanding, starting, calling and judging.
 *
 * Every argument gets an answer; nothing is kept between calls, nothing is allocated, and no function needs more than
 * the buffers that it is lent. An array parameter points to at least as many entries as it shows. Buffers that a
 * function writes must not overlap any other buffer of the same call.
 *
 * The first entry of every answer is the refusal's number (0: none); agreement_refusals.def has their texts. The second is
 * the place of the fault, an offset in the file, for 1 to 8, and 0 for the others.
 */
#ifndef AGREEMENT_H
#define AGREEMENT_H

#include <stddef.h>
#include <stdint.h>

#ifdef __cplusplus
extern "C" {
#endif

/* A state record: 0 the state, 1 to 16 the variables, 17 to 24 the balances, 25 the agreement's own balance. */
enum {
    AGREEMENT_RECORD = 26,
    AGREEMENT_STATE = 0,
    AGREEMENT_VARIABLES = 1,
    AGREEMENT_BALANCES = 17,
    AGREEMENT_OWN = 25
};

/* The most that a file has: bytes, and words of its expansion (1,024 steps of five). */
enum { AGREEMENT_BYTES = 32768, AGREEMENT_WORDS = 5120 };

/* A verdict. */
enum { AGREEMENT_BROKEN = 1, AGREEMENT_HELD = 2, AGREEMENT_SPENT = 3 };

/* The text of a refusal, by its number; a null pointer for a number that is none. */
static inline const char *agreement_refusal_text(uint32_t number)
{
    switch (number) {
#define AGREEMENT_REFUSAL(NUMBER, TEXT) \
    case NUMBER:                        \
        return TEXT;
#include "agreement_refusals.def"
#undef AGREEMENT_REFUSAL
    default:
        return NULL;
    }
}

/*
 * Reads a file.
 * answer: 0 refusal (0: accepted), 1 place.
 */
void agreement_read(const uint8_t *file, size_t len, uint32_t answer[2]);

/*
 * Writes the steps to the first words, five each: origin, target, kind, name, at. Later words stay as they are; so do
 * all words on a refusal.
 * answer: 0 refusal (0: completed), 1 place, 2 step count.
 */
void agreement_expand(const uint8_t *file, size_t len, uint32_t *words, size_t room, uint32_t answer[3]);

/*
 * Start and call. A refused start makes the record all zero; a refused call leaves it as it was.
 * answer: 0 refusal (0: completed), 1 place, 2 has a returned value (1 or 0), 3 that value or 0, 4 units.
 */
void agreement_start(const uint8_t *file, size_t len, uint32_t record[26], uint32_t answer[5]);

void agreement_call(const uint8_t *file, size_t len, uint32_t record[26],
                    uint8_t name, uint8_t sender, uint32_t coins, const uint32_t arguments[4], uint32_t answer[5]);

/* The same on the expanded form: words that begin with what agreement_expand writes for this file. */
void agreement_start_expanded(const uint8_t *file, size_t len, const uint32_t *words, size_t room,
                              uint32_t record[26], uint32_t answer[5]);

void agreement_call_expanded(const uint8_t *file, size_t len, const uint32_t *words, size_t room, uint32_t record[26],
                             uint8_t name, uint8_t sender, uint32_t coins, const uint32_t arguments[4],
                             uint32_t answer[5]);

/*
 * Judges a rule, counted from 0. The words are written as by agreement_expand, and stay as they are on a refusal.
 * answer: 0 refusal (0: judged), 1 place, 2 verdict (1 broken, 2 held, 3 spent; 0 on a refusal), 3 lists tried,
 * 4 length of the list that breaks the rule, 5 to 12 its rows, then zeros.
 * This function is in the searcher's archive; the others are in the runner's, which links without it.
 */
void agreement_verdict(const uint8_t *file, size_t len, uint32_t rule, uint32_t *words, size_t room,
                       uint32_t answer[13]);

#ifdef __cplusplus
}
#endif

#endif
