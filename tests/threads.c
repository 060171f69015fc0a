/* Several threads call the library at once, each with its own memory. A global state in the library
 * would mix their blocks. Each thread compares its file with the one the reference made beforehand.
 */
#define _DEFAULT_SOURCE
#include "coil.h"
#include "reference.h"
#include "words.h"

#include <pthread.h>
#include <stdio.h>
#include <string.h>

#define THREADS 4
#define ROUNDS 300
#define SLOTS 3
#define COUNT 500u

typedef struct {
    uint32_t t;
    uint64_t words[SLOTS][COUNT];
    uint64_t fcm[1024], dfcm[1024], back[COUNT];
    uint8_t expected[COIL_EMPTY_FILE + SLOTS * COIL_APPEND_ROOM(0, COUNT)];
    uint8_t file[COIL_EMPTY_FILE + SLOTS * COIL_APPEND_ROOM(0, COUNT)];
    uint8_t salvaged[COIL_EMPTY_FILE + SLOTS * COIL_APPEND_ROOM(0, COUNT)];
    uint8_t bench[COIL_WORST(COUNT)];
    size_t expected_length;
    unsigned passed, failed;
} worker;

static worker workers[THREADS];

static void make_expected_file(worker *w, uint32_t t)
{
    size_t entries = COIL_TABLE_WORDS(t), length = 0;
    w->t = t;
    uint32_t answer = ref_create(w->expected, sizeof w->expected, 1 + t, t, &length);
    for (uint32_t slot = 0; slot < SLOTS; slot++) {
        make_words((kind_of_words)((t + slot) % KINDS), w->words[slot], COUNT);
        answer += ref_append(w->expected, sizeof w->expected, length, 1 + t, slot, w->words[slot], COUNT,
                             w->fcm, entries, w->dfcm, entries, w->bench, sizeof w->bench, &length);
    }
    w->expected_length = length;
    w->failed = answer != 0;
}

static uint32_t append_each(worker *w, size_t *length)
{
    size_t entries = COIL_TABLE_WORDS(w->t);
    uint32_t answer = 0;
    for (uint32_t slot = 0; slot < SLOTS; slot++) {
        answer += coil_append(w->file, sizeof w->file, *length, 1 + w->t, slot, w->words[slot], COUNT,
                              w->fcm, entries, w->dfcm, entries, w->bench, sizeof w->bench, length);
    }
    return answer;
}

static uint32_t append_in_one_call(worker *w, size_t *length)
{
    static const coil_record records[SLOTS] = { { 0, 0, COUNT }, { 1, COUNT, COUNT }, { 2, 2 * COUNT, COUNT } };
    size_t entries = COIL_TABLE_WORDS(w->t), appended;
    return coil_append_all(w->file, sizeof w->file, *length, 1 + w->t, records, SLOTS, w->words[0], SLOTS * COUNT,
                           w->fcm, entries, w->dfcm, entries, w->bench, sizeof w->bench, &appended, length);
}

/* Of all but the file's last byte. Its slots are 0, 1 and 2, so that the same file must come out. */
static int is_salvaged(worker *w, size_t length)
{
    size_t new_length = 0, kept = 0, left_over = 0;
    uint32_t renumbered = 0;
    memset(w->salvaged, 0, sizeof w->salvaged);
    uint32_t answer = coil_salvage(w->file, length - 1, w->salvaged, sizeof w->salvaged, 1 + w->t, w->t, &new_length,
                                   &kept, &left_over, &renumbered);
    return answer == 0 && kept == SLOTS && left_over == 12 * SLOTS + 31 && renumbered == 1
        && new_length == w->expected_length && memcmp(w->salvaged, w->expected, new_length) == 0;
}

static void store_and_fetch(worker *w, uint32_t round)
{
    size_t entries = COIL_TABLE_WORDS(w->t), length = 0, count = 0;
    uint64_t exam = 1 + w->t;
    uint32_t fetched_slot = round % SLOTS;
    uint32_t answer = coil_create(w->file, sizeof w->file, exam, w->t, &length);
    answer += round % 2 ? append_each(w, &length) : append_in_one_call(w, &length);
    answer += coil_fetch(w->file, sizeof w->file, length, exam, fetched_slot, w->fcm, entries,
                         w->dfcm, entries, w->back, COUNT, &count);
    if (answer == 0 && length == w->expected_length && memcmp(w->file, w->expected, length) == 0
        && count == COUNT && memcmp(w->back, w->words[fetched_slot], sizeof w->back) == 0
        && is_salvaged(w, length)) {
        w->passed++;
    } else {
        w->failed++;
    }
}

static void *work(void *given)
{
    for (uint32_t round = 0; round < ROUNDS; round++) {
        store_and_fetch(given, round);
    }
    return NULL;
}

int main(void)
{
    pthread_t threads[THREADS];
    unsigned passed = 0, failed = 0;
    seed_random(1);
    for (uint32_t i = 0; i < THREADS; i++) {
        make_expected_file(&workers[i], 3 * i);
    }
    for (unsigned i = 0; i < THREADS; i++) {
        if (pthread_create(&threads[i], NULL, work, &workers[i]) != 0) {
            printf("FAILED threads: cannot start a thread\n");
            return 1;
        }
    }
    for (unsigned i = 0; i < THREADS; i++) {
        pthread_join(threads[i], NULL);
        passed += workers[i].passed;
        failed += workers[i].failed;
    }
    printf("%u threads at once, %u files each\n%u passed, %u failed\n", THREADS, ROUNDS, passed, failed);
    return failed != 0;
}
