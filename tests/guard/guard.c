/*
 * Runs every operation with each lent buffer flush against a page that can be neither read nor written: once with the
 * buffer's end at such a page, once with its beginning. What the library may only read is write-protected. A read or
 * write outside a buffer ends the program with a fault, which is told. Both runs must hand back the same.
 *
 * All of it runs in a thread with 256 KiB of stack, whose deepest use is printed.
 * Standard input has the files, each as its 32-bit length and its bytes.
 */
#define _GNU_SOURCE
#include "agreement.h"

#include <pthread.h>
#include <signal.h>
#include <stdio.h>
#include <stdlib.h>
#include <string.h>
#include <sys/mman.h>
#include <unistd.h>

enum { PAGE = 4096, STACK = 256 * 1024, UNTOUCHED = 0xA5, MOST_BYTES = 1 << 17, MOST_BOUND = 300 };

/* What is being done, for the tale of a fault. */
static struct {
    unsigned file;
    const char *operation;
    const char *side;
} now;

/* Pages between two that cannot be touched. */
typedef struct {
    uint8_t *first;
    size_t size;
} Pages;

static Pages file_pages, word_pages, record_pages, argument_pages, answer_pages;

static void *must(void *address)
{
    if (address == MAP_FAILED || !address) {
        perror("guard");
        exit(2);
    }
    return address;
}

static Pages fenced(size_t size)
{
    size = (size + PAGE - 1) / PAGE * PAGE;
    uint8_t *all = must(mmap(NULL, size + 2 * PAGE, PROT_NONE, MAP_PRIVATE | MAP_ANONYMOUS, -1, 0));
    Pages pages = {all + PAGE, size};
    mprotect(pages.first, pages.size, PROT_READ | PROT_WRITE);
    return pages;
}

/* Lends a copy of so many bytes, at the end of the pages or at their beginning. */
static void *lend(Pages pages, const void *bytes, size_t size, int at_end)
{
    mprotect(pages.first, pages.size, PROT_READ | PROT_WRITE);
    uint8_t *lent = at_end ? pages.first + pages.size - size : pages.first;
    if (size)
        memcpy(lent, bytes, size);
    return lent;
}

static const void *lend_to_read(Pages pages, const void *bytes, size_t size, int at_end)
{
    void *lent = lend(pages, bytes, size, at_end);
    mprotect(pages.first, pages.size, PROT_READ);
    return lent;
}

/* What a run hands back, gathered into one number. */
static uint64_t gathered;

static void gather(const uint32_t *words, size_t count)
{
    for (size_t i = 0; i < count; i++)
        gathered = (gathered ^ words[i]) * 0x100000001B3u;
}

static uint32_t some_words[AGREEMENT_WORDS + 16], table[AGREEMENT_WORDS + 16], some_record[AGREEMENT_RECORD];
static uint64_t operations_run;

static void begin(const char *operation)
{
    now.operation = operation;
    operations_run++;
}

static const uint32_t some_arguments[4] = {1, 2, 3, UINT32_MAX};

typedef struct {
    const uint8_t *bytes;
    size_t size;
    int at_end;
    uint32_t *answer;
} File;

static void run_read(File f)
{
    (void)f;
#ifdef LINKED_agreement_read
    begin("read");
    f.answer = lend(answer_pages, some_words, 2 * sizeof(uint32_t), f.at_end);
    agreement_read(f.bytes, f.size, f.answer);
    gather(f.answer, 2);
#endif
}

/* Expands into so many words; gives the step count. */
static uint32_t run_expand(File f, size_t room)
{
    (void)f, (void)room;
#ifdef LINKED_agreement_expand
    begin("expand");
    uint32_t *words = lend(word_pages, some_words, room * sizeof(uint32_t), f.at_end);
    f.answer = lend(answer_pages, some_words, 3 * sizeof(uint32_t), f.at_end);
    agreement_expand(f.bytes, f.size, words, room, f.answer);
    gather(f.answer, 3);
    gather(words, room);
    if (f.answer[0] == 0)
        memcpy(table, words, room * sizeof(uint32_t));
    return f.answer[2];
#else
    return 0;
#endif
}

static void run_verdict(File f, uint32_t rule, size_t room)
{
    (void)f, (void)rule, (void)room;
#ifdef LINKED_agreement_verdict
    begin("verdict");
    uint32_t *words = lend(word_pages, some_words, room * sizeof(uint32_t), f.at_end);
    f.answer = lend(answer_pages, some_words, 13 * sizeof(uint32_t), f.at_end);
    agreement_verdict(f.bytes, f.size, rule, words, room, f.answer);
    gather(f.answer, 13);
    gather(words, room);
#endif
}

/* Starts; room is the number of lent words, or below zero for the unexpanded form. The record goes to `to`. */
static void run_start(File f, long room, uint32_t *to)
{
    uint32_t *record = lend(record_pages, some_record, sizeof some_record, f.at_end);
    f.answer = lend(answer_pages, some_words, 5 * sizeof(uint32_t), f.at_end);
    if (room < 0) {
#ifdef LINKED_agreement_start
        begin("start");
        agreement_start(f.bytes, f.size, record, f.answer);
#endif
    } else {
#ifdef LINKED_agreement_start_expanded
        begin("start expanded");
        const uint32_t *words = lend_to_read(word_pages, table, (size_t)room * sizeof(uint32_t), f.at_end);
        agreement_start_expanded(f.bytes, f.size, words, (size_t)room, record, f.answer);
#endif
    }
    gather(f.answer, 5);
    gather(record, AGREEMENT_RECORD);
    memcpy(to, record, sizeof some_record);
}

/* One call on a record, which it changes. */
static void run_call(File f, long room, uint32_t *on, uint8_t name, uint8_t sender, uint32_t coins)
{
    uint32_t *record = lend(record_pages, on, sizeof some_record, f.at_end);
    const uint32_t *arguments = lend_to_read(argument_pages, some_arguments, sizeof some_arguments, f.at_end);
    (void)arguments, (void)name, (void)sender, (void)coins;
    f.answer = lend(answer_pages, some_words, 5 * sizeof(uint32_t), f.at_end);
    if (room < 0) {
#ifdef LINKED_agreement_call
        begin("call");
        agreement_call(f.bytes, f.size, record, name, sender, coins, arguments, f.answer);
#endif
    } else {
#ifdef LINKED_agreement_call_expanded
        begin("call expanded");
        const uint32_t *words = lend_to_read(word_pages, table, (size_t)room * sizeof(uint32_t), f.at_end);
        agreement_call_expanded(f.bytes, f.size, words, (size_t)room, record, name, sender, coins, arguments, f.answer);
#endif
    }
    gather(f.answer, 5);
    gather(record, AGREEMENT_RECORD);
    memcpy(on, record, sizeof some_record);
}

/* A start and calls on its record, then a call on a record of other numbers. */
static void run_list(File f, long room)
{
    static const uint8_t names[] = {1, 9, 0, 2, 3, 1, 255};
    uint32_t record[AGREEMENT_RECORD];
    run_start(f, room, record);
    for (size_t i = 0; i < sizeof names; i++) {
        run_call(f, room, record, names[i], 0, i == 3);
        run_call(f, room, record, names[i], i % 2 ? 255 : 1, 0);
    }
    run_call(f, room, record, 1, 0, UINT32_MAX);
    memcpy(record, some_record, sizeof record);
    run_call(f, room, record, 1, 0, 0);
}

/* The words that the file's expansion has. */
static size_t words_of(File f)
{
    return run_expand(f, AGREEMENT_WORDS) * 5u;
}

static void run_all(const uint8_t *bytes, size_t size, int at_end)
{
    File f = {lend_to_read(file_pages, bytes, size, at_end), size, at_end, NULL};
    run_read(f);
    size_t enough = words_of(f);
    size_t few = enough ? enough - 1 : 0;
    run_expand(f, few);
    run_expand(f, 0);
    run_list(f, -1);
    run_expand(f, enough);
    run_list(f, (long)enough);
    run_list(f, (long)enough + 3);
    run_list(f, (long)few);
    if (enough) {
        table[few] ^= 1;
        run_list(f, (long)enough);
    }
    for (uint32_t rule = 0; rule < 9; rule++)
        run_verdict(f, rule, enough + rule % 2);
    run_verdict(f, 0, few);
}

/* A lower bound, so that verdicts are quick. */
static void lower_bound(uint8_t *bytes, size_t size)
{
    if (size < 16)
        return;
    uint32_t bound = bytes[12] | bytes[13] << 8 | bytes[14] << 16 | (uint32_t)bytes[15] << 24;
    if (bound > MOST_BOUND && bound <= 1000000) {
        bytes[12] = MOST_BOUND & 255;
        bytes[13] = MOST_BOUND >> 8;
        bytes[14] = bytes[15] = 0;
    }
}

static unsigned failed;

static void run_file(uint8_t *bytes, size_t size)
{
    uint64_t both[2];
    lower_bound(bytes, size);
    for (int at_end = 0; at_end < 2; at_end++) {
        now.side = at_end ? "at their end" : "at their beginning";
        gathered = 0xCBF29CE484222325u;
        run_all(bytes, size, at_end);
        both[at_end] = gathered;
    }
    if (both[0] != both[1]) {
        printf("FAILED: file %u: other answers where the buffers stand elsewhere\n", now.file);
        failed++;
    }
}

static void *run_files(void *none)
{
    static uint8_t bytes[MOST_BYTES];
    uint32_t size;
    for (now.file = 0; fread(&size, sizeof size, 1, stdin) == 1; now.file++) {
        if (size > sizeof bytes || fread(bytes, 1, size, stdin) != size) {
            printf("FAILED: file %u is incomplete\n", now.file);
            failed++;
            break;
        }
        run_file(bytes, size);
    }
    return none;
}

/* Empty buffers may be null. */
static void run_null(void)
{
    File f = {NULL, 0, 1, NULL};
    now.side = "at their end";
    run_read(f);
    run_expand(f, 0);
    run_list(f, -1);
    run_list(f, 0);
    run_verdict(f, 0, 0);
}

static uint8_t *stack;

static void on_fault(int number, siginfo_t *info, void *context)
{
    (void)context;
    uint8_t *at = info->si_addr;
    int in_stack = number == SIGSEGV && at >= stack - PAGE && at < stack;
    char text[256];
    int length = snprintf(text, sizeof text, "FAILED: file %u, %s: signal %d%s, with guards of the buffers %s\n0 passed, 1 failed\n",
                          now.file, now.operation, number, in_stack ? " (stack used up)" : "", now.side);
    if (write(1, text, (size_t)length) < 0)
        _exit(2);
    _exit(1);
}

static void catch_faults(void)
{
    static uint8_t other_stack[64 * 1024];
    stack_t alternate = {.ss_sp = other_stack, .ss_size = sizeof other_stack};
    struct sigaction action = {.sa_sigaction = on_fault, .sa_flags = SA_SIGINFO | SA_ONSTACK};
    sigaltstack(&alternate, NULL);
    sigaction(SIGSEGV, &action, NULL);
    sigaction(SIGBUS, &action, NULL);
    sigaction(SIGILL, &action, NULL);
}

static void *thread(void *none)
{
    catch_faults();
    run_null();
    return run_files(none);
}

/* Runs the files in a thread with 256 KiB of stack; gives how deep it was used. */
static size_t on_small_stack(void)
{
    Pages pages = fenced(STACK);
    pthread_attr_t attributes;
    pthread_t id;
    stack = pages.first;
    memset(stack, UNTOUCHED, STACK);
    pthread_attr_init(&attributes);
    pthread_attr_setstack(&attributes, stack, STACK);
    if (pthread_create(&id, &attributes, thread, NULL) || pthread_join(id, NULL)) {
        puts("FAILED: no thread");
        failed++;
    }
    size_t untouched = 0;
    while (untouched < STACK && stack[untouched] == UNTOUCHED)
        untouched++;
    return STACK - untouched;
}

int main(void)
{
    file_pages = fenced(MOST_BYTES);
    word_pages = fenced(sizeof table);
    record_pages = fenced(sizeof some_record);
    argument_pages = fenced(sizeof some_arguments);
    answer_pages = fenced(13 * sizeof(uint32_t));
    memset(some_words, 0x5A, sizeof some_words);
    memset(some_record, 0x33, sizeof some_record);
    setvbuf(stdout, NULL, _IOLBF, 0);
    size_t deepest = on_small_stack();
    printf("%u files, %llu operations; deepest use of the stack, of 262144 bytes, with the test's own: %zu\n", now.file,
           (unsigned long long)operations_run, deepest);
    if (now.file == 0)
        failed++;
    printf("%u passed, %u failed\n", now.file - (failed > now.file ? now.file : failed), failed);
    return failed != 0;
}
