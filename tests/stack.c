/* How much stack each call takes. A call runs on a stack of its own, which was painted before: what is no longer
 * paint was used. A function that does nothing is measured in the same way and taken off.
 */
#define _GNU_SOURCE
#include "coil.h"

#include <stdio.h>
#include <string.h>
#include <ucontext.h>

enum { MOST = 1024, STACK = 65536, PAINT = 0xA5, COUNT = 3001, T = 10 };
#define EXAM UINT64_C(9)

static uint8_t stack[STACK];
static uint64_t words[COUNT], back[COUNT], fcm[COIL_TABLE_WORDS(T)], dfcm[COIL_TABLE_WORDS(T)];
static uint8_t block[COIL_WORST(COUNT)], bench[COIL_WORST(COUNT)], file[COIL_FILE_ROOM(3, COUNT)];
static uint8_t salvaged[sizeof file];
static const coil_record records[2] = { { 2, 1, COUNT - 1 }, { 3, 0, COUNT / 3 } };
static size_t length, block_length, file_length, offset, appended, kept, left_over;
static uint32_t answer, renumbered;

static void nothing(void)
{
    answer = COIL_DONE;
}

static void create(void)
{
    answer = coil_create(file, sizeof file, EXAM, T, &file_length);
}

static void append(void)
{
    answer = coil_append(file, sizeof file, file_length, EXAM, 1, words, COUNT, fcm, COIL_TABLE_WORDS(T),
                         dfcm, COIL_TABLE_WORDS(T), bench, sizeof bench, &file_length);
}

static void append_all(void)
{
    answer = coil_append_all(file, sizeof file, file_length, EXAM, records, 2, words, COUNT, fcm, COIL_TABLE_WORDS(T),
                             dfcm, COIL_TABLE_WORDS(T), bench, sizeof bench, &appended, &file_length);
}

static void replace_by_fewer(void)
{
    answer = coil_replace(file, sizeof file, file_length, EXAM, 1, words, COUNT / 3, fcm, COIL_TABLE_WORDS(T),
                          dfcm, COIL_TABLE_WORDS(T), bench, sizeof bench, &file_length);
}

static void replace_by_more(void)
{
    answer = coil_replace(file, sizeof file, file_length, EXAM, 1, words, COUNT, fcm, COIL_TABLE_WORDS(T),
                          dfcm, COIL_TABLE_WORDS(T), bench, sizeof bench, &file_length);
}

static void open_it(void)
{
    answer = coil_open(file, sizeof file, file_length, EXAM);
}

static void find(void)
{
    answer = coil_find(file, sizeof file, file_length, EXAM, 1, &offset, &length);
}

static void fetch(void)
{
    answer = coil_fetch(file, sizeof file, file_length, EXAM, 1, fcm, COIL_TABLE_WORDS(T),
                        dfcm, COIL_TABLE_WORDS(T), back, COUNT, &length);
}

/* All the blocks of the file are looked at and copied. */
static void salvage(void)
{
    answer = coil_salvage(file, file_length, salvaged, sizeof salvaged, EXAM, T, &length, &kept, &left_over,
                          &renumbered);
}

static void pack(void)
{
    answer = coil_pack(words, COUNT, fcm, COIL_TABLE_WORDS(T), dfcm, COIL_TABLE_WORDS(T), block, sizeof block,
                       &block_length);
}

static void check(void)
{
    answer = coil_check(block, block_length);
}

static void unpack(void)
{
    answer = coil_unpack(block, block_length, fcm, COIL_TABLE_WORDS(T), dfcm, COIL_TABLE_WORDS(T), back, COUNT,
                         &length);
}

static size_t depth(void (*call)(void))
{
    ucontext_t here, there;
    size_t untouched = 0;
    memset(stack, PAINT, sizeof stack);
    answer = 99;
    if (getcontext(&there) != 0) {
        return STACK;
    }
    there.uc_stack.ss_sp = stack;
    there.uc_stack.ss_size = sizeof stack;
    there.uc_link = &here;
    makecontext(&there, call, 0);
    if (swapcontext(&here, &there) != 0 || answer != COIL_DONE) {
        return STACK;
    }
    while (untouched < sizeof stack && stack[untouched] == PAINT)
        untouched++;
    return sizeof stack - untouched;
}

int main(void)
{
    static const struct {
        const char *name;
        void (*call)(void);
    } calls[] = { { "coil_create", create }, { "coil_append", append }, { "coil_append_all", append_all },
                  { "coil_replace by fewer words", replace_by_fewer },
                  { "coil_replace by more words", replace_by_more }, { "coil_open", open_it },
                  { "coil_find", find }, { "coil_fetch", fetch }, { "coil_salvage", salvage },
                  { "coil_pack", pack }, { "coil_check", check }, { "coil_unpack", unpack } };
    unsigned passed = 0, failed = 0;
    size_t around = depth(nothing);
    /* Zeros, a ramp and residuals of every length, so that every way through the packer is taken. */
    for (size_t i = 1000; i < 2000; i++)
        words[i] = 7 * i;
    for (size_t i = 2000; i < COUNT; i++)
        words[i] = UINT64_C(0x9E3779B97F4A7C15) * i >> (i % 8 * 8);
    for (size_t i = 0; i < sizeof calls / sizeof calls[0]; i++) {
        size_t used = depth(calls[i].call) - around;
        int fits = around < STACK && used > 0 && used < MOST;
        printf("%s%s: %zu bytes of stack\n", fits ? "" : "FAILED ", calls[i].name, used);
        passed += fits;
        failed += !fits;
    }
    printf("%u passed, %u failed\n", passed, failed);
    return failed != 0;
}
