/* Files: created, filled, read back; every length, every room. */
#include "groups.h"
#include "inputs.h"
#include "words.h"

#include <string.h>

#define MOST 120
#define MOST_SLOTS 6

static uint64_t words[MOST];
static uint64_t kept_words[MOST_SLOTS][MOST];
static size_t kept_counts[MOST_SLOTS];
static uint32_t kept_slots[MOST_SLOTS];

/* ---- Creating ---- */

static void every_creation(void)
{
    static const uint64_t exams[] = {
        0, 1, 7, 255, 256, UINT64_C(0x100000000), UINT64_C(0x8000000000000000), UINT64_MAX
    };
    static const uint32_t odd_t[] = { 17, 18, 32, 64, 255, 256, 65535, 65536, 65546, 0x80000000, UINT32_MAX };
    for (size_t room = 0; room <= 40; room++) {
        for (size_t e = 0; e < sizeof exams / sizeof exams[0]; e++) {
            uint32_t t = (uint32_t)random_below(17);
            this_case_is("create in %zu bytes, exam %llu, t = %u", room, (unsigned long long)exams[e], t);
            must_answer(compare_create(room, exams[e], t), exams[e] == 0 ? 8 : room < 32 ? 3 : 0);
        }
    }
    for (uint32_t t = 0; t <= 16; t++) {
        this_case_is("create, t = %u", t);
        must_answer(compare_create(32 + t, 1 + t, t), 0);
    }
    for (size_t i = 0; i < sizeof odd_t / sizeof odd_t[0]; i++) {
        this_case_is("create, t = %u", odd_t[i]);
        must_answer(compare_create(32, 1, odd_t[i]), 7);
        must_answer(compare_create(31, 1, odd_t[i]), 7);
        must_answer(compare_create(31, 0, odd_t[i]), 8);
    }
}

/* ---- A file's life ---- */

static uint32_t next_slot(size_t index)
{
    if (index == 0) {
        return random_below(2) ? 0 : (uint32_t)random_below(1000);
    }
    if (index == MOST_SLOTS - 1) {
        return UINT32_MAX;
    }
    uint32_t last = kept_slots[index - 1];
    uint32_t step = (uint32_t)(random_below(2) ? 1 : 1 + random_below(500000000));
    return last + step;
}

static void refused_appends(const exam_file *f, uint32_t slot, size_t count)
{
    size_t room = 12 + WORST(count);
    table_sizes tables = tables_of(f->t);
    must_answer(compare_append(lend_with_spare(f, room - 1), slot, words, count, tables, WORST(count)), 3);
    must_answer(compare_append(lend_with_spare(f, room), slot, words, count, tables, WORST(count) - 1), 3);
    lent_file other_exam = lend_with_spare(f, room);
    other_exam.exam ^= (uint64_t)1 << random_below(64);
    must_answer(compare_append(other_exam, slot, words, count, tables, WORST(count)), 8);
    table_sizes other = tables_of(f->t == 0 ? 1 : f->t - 1);
    must_answer(compare_append(lend_with_spare(f, room), slot, words, count, other, WORST(count)), 1);
    other.dfcm = tables.dfcm;
    must_answer(compare_append(lend_with_spare(f, room), slot, words, count, other, WORST(count)), 1);
    if (f->entries > 0) {
        uint32_t last = kept_slots[f->entries - 1];
        must_answer(compare_append(lend_with_spare(f, room), last, words, count, tables, WORST(count)), 11);
        must_answer(compare_append(lend_with_spare(f, room), kept_slots[0], words, count, tables,
                                   WORST(count)), 11);
    }
}

static void append_one(exam_file *f, unsigned round)
{
    size_t index = f->entries;
    size_t count = random_below(3) == 0 ? random_below(4) : random_below(MOST + 1);
    kind_of_words kind = (kind_of_words)random_below(KINDS);
    uint32_t slot = next_slot(index);
    this_case_is("append slot %u, %zu words of %s, t = %u, entry %zu", slot, count, kind_names[kind],
                 f->t, index);
    make_words(kind, words, count);
    if ((index + round) % 3 == 0) {
        refused_appends(f, slot, count);
    }
    size_t more = random_below(2) ? 0 : random_below(30);
    outcome appended = compare_append(lend_with_spare(f, 12 + WORST(count) + more), slot, words, count,
                                      tables_of(f->t), WORST(count) + random_below(2) * more);
    must_answer(appended, 0);
    take_over(f, appended);
    kept_slots[index] = slot;
    kept_counts[index] = count;
    memcpy(kept_words[index], words, 8 * count);
}

static void read_one(const exam_file *f, size_t index)
{
    lent_file lending = lend_with_spare(f, random_below(2) * random_below(40));
    size_t count = kept_counts[index];
    must_answer(compare_find(lending, kept_slots[index]), 0);
    outcome fetched = compare_fetch(lending, kept_slots[index], tables_of(f->t), count);
    must_answer(fetched, 0);
    must_hold(fetched.first == count && memcmp(fetched.words, kept_words[index], 8 * count) == 0,
              "fetching gives the appended words");
    if (random_below(3) == 0) {
        must_answer(compare_fetch(lending, kept_slots[index], tables_of(f->t), count + 3), 0);
        table_sizes other = tables_of(f->t < 16 ? f->t + 1 : 15);
        must_answer(compare_fetch(lending, kept_slots[index], other, count), 1);
        other.fcm = (size_t)1 << f->t;
        must_answer(compare_fetch(lending, kept_slots[index], other, count), 1);
        if (count > 0) {
            must_answer(compare_fetch(lending, kept_slots[index], tables_of(f->t), count - 1), 3);
        }
    }
}

static void read_what_is_not_there(const exam_file *f)
{
    lent_file lending = lend_with_spare(f, 5);
    compare_find(lending, (uint32_t)random_word());
    compare_find(lending, kept_slots[random_below(f->entries)] + 1);
    compare_find(lending, kept_slots[random_below(f->entries)] - 1);
    compare_fetch(lending, kept_slots[random_below(f->entries)] + 1, tables_of(f->t), MOST);
    lending.exam = 0;
    must_answer(compare_open(lending), 8);
    must_answer(compare_find(lending, kept_slots[0]), 8);
    lending.exam = f->exam ^ ((uint64_t)1 << random_below(64));
    must_answer(compare_open(lending), 8);
    must_answer(compare_fetch(lending, kept_slots[0], tables_of(f->t), MOST), 8);
}

static uint64_t random_exam(void)
{
    return random_below(3) == 0 ? UINT64_MAX : random_below(2) ? 1 + random_below(99) : random_word() | 1;
}

static void whole_life(uint32_t t, unsigned round)
{
    size_t spare = t > 12 ? 2 : MOST_SLOTS;
    exam_file f = new_exam_file(32 + MOST_SLOTS * (12 + WORST(MOST)), random_exam(), t);
    for (size_t slots = 0; slots < (round % 2 ? MOST_SLOTS : spare); slots++) {
        append_one(&f, round);
        this_case_is("file of %zu entries, t = %u, round %u", f.entries, t, round);
        must_answer(compare_open(lend_with_spare(&f, random_below(20))), 0);
        read_one(&f, random_below(f.entries));
    }
    for (size_t index = 0; index < f.entries; index++) {
        read_one(&f, index);
    }
    read_what_is_not_there(&f);
    forget_exam_file(&f);
}

/* ---- Lengths ---- */

static const size_t huge_lengths[] = {
    SIZE_MAX, SIZE_MAX - 31, SIZE_MAX - 11, SIZE_MAX / 2, SIZE_MAX / 2 + 1, (size_t)1 << 32, (size_t)1 << 63
};

/* Every length from 0 to beyond the buffer, and lengths near the ends of 32 and 64 bits. */
static void every_length(unsigned round)
{
    exam_file f = small_exam_file((uint32_t)random_below(6), round % 4, 10);
    for (size_t length = 0; length <= f.length + 30; length++) {
        lent_file lending = lend_with_spare(&f, 20);
        this_case_is("length %zu of a file of %zu, buffer %zu", length, f.length, lending.buffer);
        lending.length = length;
        bool is_short = length < 32 || length > lending.buffer;
        must_answer(compare_open(lending), is_short ? 4 : length == f.length ? 0 : 7);
        compare_find(lending, (uint32_t)random_below(8));
        compare_fetch(lending, (uint32_t)random_below(8), tables_of(f.t), 10);
        compare_append(lending, 100, words, 1, tables_of(f.t), 17);
        compare_replace(lending, (uint32_t)random_below(8), words, 1, tables_of(f.t), 17);
        lending = lend_with_spare(&f, 0);
        lending.buffer = length;
        must_answer(compare_open(lending), length < f.length ? 4 : 0);
    }
    for (size_t i = 0; i < sizeof huge_lengths / sizeof huge_lengths[0]; i++) {
        lent_file lending = lend_with_spare(&f, 20);
        this_case_is("length %zu of a file of %zu", huge_lengths[i], f.length);
        lending.length = huge_lengths[i];
        must_answer(compare_open(lending), 4);
        must_answer(compare_replace(lending, 0, words, 1, tables_of(f.t), 17), 4);
        lending.length = huge_lengths[i] + f.length;
        compare_open(lending);
        compare_find(lending, 0);
        compare_append(lending, 100, words, 1, tables_of(f.t), 17);
        compare_replace(lending, 0, words, 1, tables_of(f.t), 17);
    }
    forget_exam_file(&f);
}

void group_files(unsigned rounds)
{
    every_creation();
    for (unsigned round = 0; round < rounds; round++) {
        for (uint32_t t = 0; t <= 16; t++) {
            whole_life(t, round);
        }
        every_length(round);
    }
}
