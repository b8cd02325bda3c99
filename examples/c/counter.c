/* Runs the counter agreement on both forms and prints what document 01 says of it. usage: counter FILE */
#include "agreement.h"

#include <stdio.h>
#include <stdlib.h>
#include <string.h>

enum { LIMIT = 10 }; /* the unit limit's place in a file */

typedef struct {
    uint8_t bytes[AGREEMENT_BYTES];
    size_t size;
    uint32_t words[AGREEMENT_WORDS]; /* the expansion */
    size_t room;
} File;

/* What a start or a call hands back. */
typedef struct {
    uint32_t record[AGREEMENT_RECORD];
    uint32_t answer[5];
} Outcome;

static void load(File *file, const char *path)
{
    FILE *in = fopen(path, "rb");
    if (!in) {
        perror(path);
        exit(2);
    }
    file->size = fread(file->bytes, 1, sizeof file->bytes, in);
    fclose(in);
}

static void print_reading(const File *file, size_t size)
{
    uint32_t answer[2];
    agreement_read(file->bytes, size, answer);
    if (answer[0])
        printf("refused %u at %u\n", answer[0], answer[1]);
    else
        puts("accepted");
}

static void expand(File *file)
{
    uint32_t answer[3];
    agreement_expand(file->bytes, file->size, file->words, AGREEMENT_WORDS, answer);
    file->room = 5 * answer[2];
}

static void print_steps(const File *file)
{
    printf("steps %zu\n", file->room / 5);
    for (const uint32_t *step = file->words; step < file->words + file->room; step += 5)
        printf("%u %u %u %u %u\n", step[0], step[1], step[2], step[3], step[4]);
}

static void must_agree(const Outcome *one, const Outcome *other)
{
    if (memcmp(one, other, sizeof *one)) {
        puts("the two forms differ");
        exit(1);
    }
}

/* A start on both forms. */
static Outcome start(const File *file)
{
    Outcome plain, expanded;
    agreement_start(file->bytes, file->size, plain.record, plain.answer);
    agreement_start_expanded(file->bytes, file->size, file->words, file->room, expanded.record, expanded.answer);
    must_agree(&plain, &expanded);
    return plain;
}

/* A call by account 0 on both forms, each on a copy of the record that came before. */
static Outcome call(const File *file, Outcome before, uint8_t name, uint32_t coins)
{
    static const uint32_t none[4] = {0, 0, 0, 0};
    Outcome plain = before, expanded = before;
    agreement_call(file->bytes, file->size, plain.record, name, 0, coins, none, plain.answer);
    agreement_call_expanded(file->bytes, file->size, file->words, file->room, expanded.record, name, 0, coins, none,
                            expanded.answer);
    must_agree(&plain, &expanded);
    return plain;
}

static void print_outcome(const char *label, const Outcome *outcome)
{
    printf("%s: ", label);
    if (outcome->answer[0])
        printf("refused %u", outcome->answer[0]);
    else
        printf("completed");
    printf(", %u units, state %u, v0 = %u, own balance %u\n", outcome->answer[4], outcome->record[AGREEMENT_STATE],
           outcome->record[AGREEMENT_VARIABLES], outcome->record[AGREEMENT_OWN]);
}

static void print_call(const char *label, const File *file, Outcome before, uint8_t name, uint32_t coins)
{
    Outcome outcome = call(file, before, name, coins);
    print_outcome(label, &outcome);
}

int main(int count, char **words)
{
    static File file, other;
    if (count != 2) {
        fputs("usage: counter FILE\n", stderr);
        return 2;
    }
    load(&file, words[1]);
    print_reading(&file, file.size);
    expand(&file);
    print_steps(&file);
    Outcome fresh = start(&file);
    print_outcome("start", &fresh);
    Outcome once = call(&file, fresh, 1, 0);
    print_outcome("call 1", &once);
    print_call("call 1 again", &file, once, 1, 0);
    other = file;
    other.bytes[LIMIT] = 5;
    print_call("limit 5, call 1", &other, fresh, 1, 0);
    print_call("call 9", &file, fresh, 9, 0);
    print_call("coins 5 with call 1", &file, fresh, 1, 5);
    print_call("coins 6 with call 1", &file, fresh, 1, 6);
    printf("without its last byte: ");
    print_reading(&file, file.size - 1);
    return 0;
}
