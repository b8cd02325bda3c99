/* Judges the rules of the counter agreement and prints what document 01 says of them. usage: verdicts FILE */
#include "agreement.h"

#include <stdio.h>

enum { DEPTH = 8, BOUND = 12 }; /* their places in a file */

static uint8_t bytes[AGREEMENT_BYTES];
static size_t size;

/* Judges a rule and prints the report's line for it. */
static void judge(const char *label, uint32_t rule)
{
    static const char *const verdicts[] = {"", "broken", "held", "spent"};
    static uint32_t words[AGREEMENT_WORDS];
    uint32_t answer[13];
    agreement_verdict(bytes, size, rule, words, AGREEMENT_WORDS, answer);
    if (answer[0]) {
        printf("%srefused %u\n", label, answer[0]);
        return;
    }
    printf("%srule %u %s %u", label, rule, verdicts[answer[2]], answer[3]);
    for (uint32_t i = 0; i < answer[4]; i++)
        printf(" %u", answer[5 + i]);
    putchar('\n');
}

/* The same where one byte of the file is another. */
static void judge_with(const char *label, size_t place, uint8_t byte, uint32_t rule)
{
    uint8_t before = bytes[place];
    bytes[place] = byte;
    judge(label, rule);
    bytes[place] = before;
}

int main(int count, char **words)
{
    FILE *in = count == 2 ? fopen(words[1], "rb") : NULL;
    if (!in) {
        fputs("usage: verdicts FILE\n", stderr);
        return 2;
    }
    size = fread(bytes, 1, sizeof bytes, in);
    fclose(in);
    judge("", 0);
    judge("", 1);
    judge_with("bound 1: ", BOUND, 1, 0);
    judge_with("depth 0: ", DEPTH, 0, 0);
    judge_with("bound 3: ", BOUND, 3, 1);
    judge_with("bound 2: ", BOUND, 2, 1);
    judge("no such rule: ", 2);
    return 0;
}
