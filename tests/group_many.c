/* Lists of records, appended in one call: lives of files; the refusal at each place and with each number; sums that
 * would wrap; records that overlap; every room; 1,024 records and one more. The call is held against appends one after
 * another each time, in calls.c. Here the rules say which number, how many went in, and which words come back. */
#include "coil.h"
#include "groups.h"
#include "inputs.h"
#include "words.h"

#include <string.h>

#define FEW 5
#define MOST 300
#define TOO_MANY 65537
#define MOST_ENTRIES 1024
/* 1,024 short maps, or the long ones of a life. */
#define ROOM_FOR_ALL (32 + MOST_ENTRIES * (12 + WORST(FEW)) + 32 * (12 + WORST(MOST)))

/* The list of the next call, and the words that it is taken from. */
static coil_record list[MOST_ENTRIES + 2];
static uint64_t words[TOO_MANY];

/* What else the next call is lent. */
typedef struct {
    size_t records;
    size_t words;
    size_t spare;               /* bytes of buffer behind the file */
    size_t bench;
    table_sizes tables;
} lending;

/* Enough for each record that can go in. */
static lending enough_for(const exam_file *f, size_t records, size_t words_len)
{
    lending lent = { records, words_len, 0, WORST(0), tables_of(f->t) };
    for (size_t i = 0; i < records; i++) {
        size_t at_worst = WORST(list[i].count <= words_len ? list[i].count : 0);
        lent.spare += 12 + at_worst;
        lent.bench = at_worst > lent.bench ? at_worst : lent.bench;
    }
    return lent;
}

/* Whether the length that is answered is what the file states at its end, with so many entries. */
static bool is_stated(outcome result, size_t shortest, size_t longest, size_t entries)
{
    if (result.first < shortest || result.first > longest) {
        return false;
    }
    const uint8_t *trailer = result.bytes + result.first - 32;
    return get_field(trailer + AT_LENGTH, 8) == result.first && get_field(trailer + AT_ENTRIES, 4) == entries;
}

/* Number, how many went in and length, by the rules: a refusal with none in answers length 0. */
static outcome answers(const exam_file *f, lending lent, uint32_t number, size_t in)
{
    outcome result = compare_append_all(lend_with_spare(f, lent.spare), list, lent.records, words, lent.words,
                                        lent.tables, lent.bench);
    must_answer(result, number);
    must_hold(result.second == in, "as many records went in as the rules say");
    must_hold(number != 0 && in == 0
              ? result.first == 0
              : is_stated(result, f->length + 20 * in, f->length + lent.spare, f->entries + in),
              "the length is that of the file, or 0");
    return result;
}

static uint32_t last_slot(const exam_file *f)
{
    return (uint32_t)get_field(entry_of(f, f->entries - 1) + AT_SLOT, 4);
}

/* Takes the file over. What was in it is where it was, and the maps that went in give their words: each of them, or
 * some where they are many. */
static void is_in_the_file(exam_file *f, outcome result)
{
    size_t blocks = f->length - 32 - 12 * f->entries;
    must_hold(memcmp(result.bytes, f->bytes, blocks) == 0, "the blocks before are as they were");
    take_over_list(f, result);
    for (size_t i = 0; i < result.second; i += result.second > 100 ? 97 : 1) {
        outcome fetched = compare_fetch(lend_with_spare(f, 0), list[i].slot, tables_of(f->t), list[i].count);
        must_answer(fetched, 0);
        must_hold(fetched.first == list[i].count
                  && memcmp(fetched.words, words + list[i].first, 8 * list[i].count) == 0,
                  "each map that went in gives its words");
    }
}

/* ---- Files and lists to begin with ---- */

/* No block need be well formed: an append looks at none. */
static exam_file file_of(uint32_t t, size_t entries)
{
    exam_file f = new_exam_file(ROOM_FOR_ALL, 1 + random_below(1000), t);
    uint32_t slot = (uint32_t)random_below(3);
    for (size_t i = 0; i < entries; i++) {
        uint8_t any[12];
        random_bytes(any, sizeof any);
        add_block(&f, slot, any, 8 + random_below(5));
        slot += 1 + (uint32_t)random_below(3);
    }
    return f;
}

/* Records of at most so many words, anywhere in the buffer: they overlap, and lie there in any order. */
static void make_list(const exam_file *f, size_t records, size_t words_len, size_t most)
{
    uint32_t slot = f->entries == 0 ? (uint32_t)random_below(2) : last_slot(f) + 1;
    for (size_t i = 0; i < records; i++) {
        size_t first = random_below(words_len + 1), rest = words_len - first;
        list[i].slot = slot;
        list[i].first = first;
        list[i].count = random_below((rest < most ? rest : most) + 1);
        slot += 1 + (uint32_t)random_below(random_below(4) ? 3 : 1000000);
    }
}

static void make_some_words(size_t count)
{
    make_words((kind_of_words)random_below(KINDS), words, count);
}

/* ---- Lives ---- */

/* Between two lists: one map more, and other words for it. */
static void append_and_replace(exam_file *f)
{
    uint32_t slot = f->entries == 0 ? 7 : last_slot(f) + 1;
    size_t count = random_below(MOST + 1);
    outcome appended = compare_append(lend_with_spare(f, 12 + WORST(3)), slot, words, 3, tables_of(f->t), WORST(3));
    must_answer(appended, 0);
    take_over(f, appended);
    outcome replaced = compare_replace(lend_with_spare(f, WORST(count)), slot, words, count, tables_of(f->t),
                                       WORST(count));
    must_answer(replaced, 0);
    take_over_replaced(f, replaced);
}

static void life(uint32_t t, unsigned round)
{
    exam_file f = file_of(t, random_below(4));
    for (unsigned step = 0; step < (t > 12 ? 2u : 4u); step++) {
        size_t words_len = random_below(4) == 0 ? random_below(4) : random_below(MOST + 1);
        size_t records = random_below(8), more = random_below(2) * random_below(30);
        make_some_words(words_len);
        make_list(&f, records, words_len, MOST);
        this_case_is("%zu records of %zu words after %zu entries, t = %u, round %u", records, words_len, f.entries, t,
                     round);
        lending lent = enough_for(&f, records, words_len);
        lent.spare += more;
        lent.bench += more;
        is_in_the_file(&f, answers(&f, lent, 0, records));
        if (random_below(3) == 0) {
            append_and_replace(&f);
        }
    }
    forget_exam_file(&f);
}

static exam_file same_file(const exam_file *f)
{
    exam_file same = new_exam_file(f->capacity, f->exam, f->t);
    memcpy(same.bytes, f->bytes, f->length);
    same.length = f->length;
    same.entries = f->entries;
    return same;
}

/* A list that is refused at a place, mended there and gone on with leaves the file that the right list leaves. */
static void gone_on_with(size_t records, size_t place)
{
    exam_file f = file_of(2, 1), whole = same_file(&f);
    make_some_words(MOST);
    make_list(&f, records, MOST, 20);
    lending lent = enough_for(&f, records, MOST);
    this_case_is("record %zu of %zu refused, mended and gone on with", place, records);
    take_over_list(&whole, answers(&whole, lent, 0, records));
    size_t first = list[place].first;
    list[place].first = MOST + 1;
    take_over_list(&f, answers(&f, lent, COIL_BAD_RECORD, place));
    list[place].first = first;
    memmove(list, list + place, (records - place) * sizeof list[0]);
    lent.records = records - place;
    take_over_list(&f, answers(&f, lent, 0, records - place));
    must_hold(f.length == whole.length && memcmp(f.bytes, whole.bytes, f.length) == 0, "in two calls as in one");
    forget_exam_file(&f);
    forget_exam_file(&whole);
}

/* ---- The refusal at each place, with each number ---- */

#define MOST_PLACES 4
#define LARGE 60                /* words of the record that asks for more room than the others */

/* Breaks one rule at a place of a list that is right. */
typedef void break_rule(const exam_file *f, size_t place, lending *lent);

static void reaches_beyond(const exam_file *f, size_t place, lending *lent)
{
    (void)f;
    list[place].first = lent->words + 1 - list[place].count;
}

static void starts_beyond(const exam_file *f, size_t place, lending *lent)
{
    (void)f;
    list[place].first = lent->words + 1;
    list[place].count = 0;
}

static void wraps(const exam_file *f, size_t place, lending *lent)
{
    (void)f;
    (void)lent;
    list[place].first = SIZE_MAX;
    list[place].count = 2;
}

static uint32_t slot_before(const exam_file *f, size_t place)
{
    return place == 0 ? last_slot(f) : list[place - 1].slot;
}

static void has_the_slot_before(const exam_file *f, size_t place, lending *lent)
{
    (void)lent;
    list[place].slot = slot_before(f, place);
}

static void has_an_earlier_slot(const exam_file *f, size_t place, lending *lent)
{
    (void)lent;
    list[place].slot = (uint32_t)random_below((size_t)slot_before(f, place) + 1);
}

static void has_too_many_words(const exam_file *f, size_t place, lending *lent)
{
    (void)f;
    list[place].first = 0;
    list[place].count = TOO_MANY;
    lent->words = TOO_MANY;
    lent->spare += WORST(TOO_MANY);
    lent->bench = WORST(TOO_MANY);
}

/* One byte short for this record, and enough for the others. The length is known by the list up to there. */
static void asks_for_more_buffer(const exam_file *f, size_t place, lending *lent)
{
    lending up_to_there = *lent;
    up_to_there.records = place;
    size_t reached = answers(f, up_to_there, 0, place).first;
    list[place].first = 0;
    list[place].count = LARGE;
    lent->spare = reached - f->length + 12 + WORST(LARGE) - 1;
    lent->bench = WORST(LARGE);
}

static void asks_for_more_bench(const exam_file *f, size_t place, lending *lent)
{
    (void)f;
    list[place].first = 0;
    list[place].count = LARGE;
    lent->spare += WORST(LARGE);
    lent->bench = WORST(LARGE) - 1;
}

static const struct {
    const char *what;
    uint32_t number;
    break_rule *breaks;
} faults[] = {
    { "reaches beyond the words", 15, reaches_beyond }, { "starts beyond the words", 15, starts_beyond },
    { "wraps", 15, wraps }, { "has the slot before", 11, has_the_slot_before },
    { "has an earlier slot", 11, has_an_earlier_slot }, { "has too many words", 2, has_too_many_words },
    { "asks for more buffer", 3, asks_for_more_buffer }, { "asks for more bench", 3, asks_for_more_bench }
};

/* Short records, so that LARGE is more than they ask for. */
static lending short_list(const exam_file *f, size_t records)
{
    make_some_words(MOST);
    make_list(f, records, MOST, FEW);
    return enough_for(f, records, MOST);
}

static void every_fault(size_t records, size_t place)
{
    for (size_t i = 0; i < sizeof faults / sizeof faults[0]; i++) {
        exam_file f = file_of((uint32_t)random_below(8), 1 + random_below(3));
        lending lent = short_list(&f, records);
        this_case_is("record %zu of %zu %s", place, records, faults[i].what);
        faults[i].breaks(&f, place, &lent);
        is_in_the_file(&f, answers(&f, lent, faults[i].number, place));
        forget_exam_file(&f);
    }
}

static void full_at(size_t records, size_t place)
{
    exam_file f = file_of(1, MOST_ENTRIES - place);
    this_case_is("record %zu of %zu: the file is full", place, records);
    is_in_the_file(&f, answers(&f, short_list(&f, records), 12, place));
    forget_exam_file(&f);
}

/* The tables are the same for every record, so they are refused at the first. */
static void wrong_tables(size_t records)
{
    static const table_sizes wrong[] = {
        { 4, 4 }, { 16, 16 }, { 8, 4 }, { 4, 8 }, { 7, 7 }, { 0, 0 }, { 131072, 131072 }
    };
    for (size_t i = 0; i < sizeof wrong / sizeof wrong[0]; i++) {
        exam_file f = file_of(3, random_below(3));
        lending lent = short_list(&f, records);
        lent.tables = wrong[i];
        this_case_is("%zu records, tables of %zu and %zu", records, wrong[i].fcm, wrong[i].dfcm);
        answers(&f, lent, records == 0 ? 0 : 1, 0);
        forget_exam_file(&f);
    }
}

static void every_place(void)
{
    for (size_t records = 0; records <= MOST_PLACES; records++) {
        wrong_tables(records);
        for (size_t place = 0; place < records; place++) {
            every_fault(records, place);
            full_at(records, place);
            gone_on_with(records, place);
        }
    }
}

/* ---- Sums ---- */

/* Every pair of first word and count near the ends of the buffer, of 32 bits and of 64. Where 8 times a number wraps,
 * a place in bytes would come out inside. */
static void every_sum(size_t words_len, size_t place)
{
    const size_t ends[] = {
        0, 1, 2, words_len - 1, words_len, words_len + 1, 65536, 65537, UINT32_MAX, (size_t)1 << 32,
        ((size_t)1 << 32) + 1, (size_t)1 << 61, ((size_t)1 << 61) + 1, SIZE_MAX / 2, SIZE_MAX / 2 + 1,
        SIZE_MAX - words_len, SIZE_MAX - words_len + 1, SIZE_MAX - 2, SIZE_MAX - 1, SIZE_MAX
    };
    const size_t of_them = sizeof ends / sizeof ends[0];
    exam_file f = file_of(2, 1);
    for (size_t i = 0; i < of_them * of_them; i++) {
        make_list(&f, 3, words_len, FEW);
        list[place].first = ends[i / of_them];
        list[place].count = ends[i % of_them];
        size_t sum = list[place].first + list[place].count;
        bool outside = sum > words_len || sum < list[place].first;
        this_case_is("first word %zu and count %zu of %zu words, at record %zu", list[place].first,
                     list[place].count, words_len, place);
        answers(&f, enough_for(&f, 3, words_len), outside ? 15 : 0, outside ? place : 3);
    }
    forget_exam_file(&f);
}

/* Every length of the word buffer from none to more than enough: as many go in as end within it, and start there. */
static void every_length_of_words(size_t a, size_t b, size_t c)
{
    const coil_record records[3] = { { 10, 1, a }, { 20, 4, b }, { 30, 9, c } };
    exam_file f = file_of(2, 2);
    make_words(RUNS, words, MOST);
    memcpy(list, records, sizeof records);
    for (size_t words_len = 0; words_len <= 20; words_len++) {
        size_t in = 0;
        while (in < 3 && list[in].first + list[in].count <= words_len) {
            in++;
        }
        this_case_is("%zu words for records of %zu, %zu and %zu", words_len, a, b, c);
        answers(&f, enough_for(&f, 3, words_len), in < 3 ? 15 : 0, in);
    }
    forget_exam_file(&f);
}

/* ---- Records that share words ---- */

#define SHARED 24

static coil_record arranged(unsigned how, size_t i, size_t records)
{
    const coil_record in_some_way[] = {
        { 0, 3, 5 },                            /* all the same */
        { 0, 0, SHARED },                       /* each the whole buffer */
        { 0, 2 * i, 4 },                        /* half of each is the next one's too */
        { 0, 2 * (records - 1 - i), 4 },        /* the same from behind */
        { 0, i, SHARED - 2 * i },               /* each inside the one before */
        { 0, i * SHARED / records, SHARED / records },  /* one behind the other, up to the end */
        { 0, i * SHARED / (records - 1), 0 }    /* no words, at the very end too */
    };
    return in_some_way[how];
}

static void shared_words(void)
{
    const size_t records = 8;
    for (unsigned how = 0; how < 7; how++) {
        exam_file f = file_of(5, how % 2);
        make_words(how % 2 ? NOISE : FCM_WIDTHS, words, SHARED);
        for (size_t i = 0; i < records; i++) {
            list[i] = arranged(how, i, records);
            list[i].slot = (uint32_t)(100 + i);
        }
        this_case_is("records that share words, arranged in way %u", how);
        is_in_the_file(&f, answers(&f, enough_for(&f, records, SHARED), 0, records));
        forget_exam_file(&f);
    }
}

/* ---- Slots ---- */

/* As many go in as ascend, above those of the file, by all 32 bits and without a sign. */
static void every_order_of_slots(void)
{
    static const struct {
        size_t records, in_a_file, in_an_empty_file;    /* how many go in; the file has slot 9 */
        uint32_t slots[3];
    } lists[] = {
        { 3, 3, 3, { 10, 11, 12 } }, { 3, 0, 3, { 0, 1, 2 } }, { 3, 0, 3, { 9, 10, 11 } },
        { 3, 0, 3, { 8, 10, 11 } }, { 3, 1, 1, { 10, 10, 11 } }, { 3, 1, 1, { 11, 10, 12 } },
        { 3, 2, 2, { 10, 12, 11 } }, { 3, 2, 2, { 10, 11, 11 } }, { 3, 2, 2, { 11, 12, 11 } },
        { 3, 2, 2, { 10, 11, 9 } },
        { 2, 1, 1, { 256, 10, 0 } }, { 2, 1, 1, { 65536, 257, 0 } }, { 3, 3, 3, { 255, 256, 65536 } },
        { 2, 2, 2, { 0x7FFFFFFF, 0x80000000, 0 } }, { 2, 1, 1, { 0x80000000, 0x7FFFFFFF, 0 } },
        { 2, 1, 1, { UINT32_MAX, 0, 0 } }, { 2, 1, 1, { UINT32_MAX, UINT32_MAX, 0 } },
        { 2, 0, 1, { 0, 0, 0 } }, { 2, 0, 2, { 0, UINT32_MAX, 0 } }
    };
    static const uint8_t no_words[8] = { 0, 0, 0, 0, 8, 0, 0, 0 };
    for (size_t i = 0; i < sizeof lists / sizeof lists[0]; i++) {
        for (unsigned empty = 0; empty < 2; empty++) {
            exam_file f = file_of(4, 0);
            size_t in = empty ? lists[i].in_an_empty_file : lists[i].in_a_file;
            if (!empty) {
                add_block(&f, 9, no_words, sizeof no_words);
            }
            lending lent = short_list(&f, lists[i].records);
            for (size_t k = 0; k < lists[i].records; k++) {
                list[k].slot = lists[i].slots[k];
            }
            this_case_is("slots %u, %u, .. after %zu entries", list[0].slot, list[1].slot, f.entries);
            is_in_the_file(&f, answers(&f, lent, in == lists[i].records ? 0 : 11, in));
            forget_exam_file(&f);
        }
    }
}

/* ---- Rooms ---- */

/* What the three records ask for, each in its turn. */
typedef struct {
    size_t spare;
    size_t bench;
} need;

/* As many go in as find room, up to the first that does not. */
static void in_this_room(const exam_file *f, lending lent, const need needs[3])
{
    size_t in = 0;
    while (in < 3 && needs[in].spare <= lent.spare && needs[in].bench <= lent.bench) {
        in++;
    }
    this_case_is("records of %zu, %zu and %zu words, %zu bytes behind the file, a bench of %zu", list[0].count,
                 list[1].count, list[2].count, lent.spare, lent.bench);
    answers(f, lent, in < 3 ? 3 : 0, in);
}

/* The length that the records before have reached is known by the list up to there. */
static need need_of(const exam_file *f, lending enough, size_t place)
{
    const size_t at_worst = WORST(list[place].count);
    enough.records = place;
    this_case_is("the first %zu of three records", place);
    size_t reached = answers(f, enough, 0, place).first;
    need asked = { reached - f->length + 12 + at_worst, at_worst };
    return asked;
}

/* Every buffer from the file alone to enough for all, and every bench. */
static void every_room(size_t a, size_t b, size_t c)
{
    exam_file f = file_of(1, 2);
    const coil_record records[3] = { { 50, 0, a }, { 51, 40, b }, { 52, 80, c } };
    make_words(RUNS, words, MOST);
    memcpy(list, records, sizeof records);
    const lending enough = enough_for(&f, 3, MOST);
    const need needs[3] = { need_of(&f, enough, 0), need_of(&f, enough, 1), need_of(&f, enough, 2) };
    lending lent = enough;
    for (lent.spare = 0; lent.spare <= enough.spare; lent.spare++) {
        in_this_room(&f, lent, needs);
    }
    lent = enough;
    for (lent.bench = 0; lent.bench <= enough.bench; lent.bench++) {
        in_this_room(&f, lent, needs);
    }
    forget_exam_file(&f);
}

/* ---- 1,024 records and one more ---- */

static void most_entries(size_t already)
{
    const size_t fit = MOST_ENTRIES - already;
    exam_file f = file_of(1, already);
    lending lent = short_list(&f, fit + 1);
    this_case_is("%zu records and one more after %zu entries", fit, already);
    answers(&f, lent, 12, fit);
    list[fit].slot = 0;
    answers(&f, lent, 12, fit);
    list[fit].first = MOST + 1;
    answers(&f, lent, 15, fit);
    lent.records = fit;
    is_in_the_file(&f, answers(&f, lent, 0, fit));
    must_hold(f.entries == MOST_ENTRIES, "the file is full");
    must_answer(compare_open(lend_with_spare(&f, 0)), 0);
    this_case_is("a list for a full file");
    lent = short_list(&f, 2);
    answers(&f, lent, 12, 0);
    lent.records = 0;
    must_hold(answers(&f, lent, 0, 0).first == f.length, "an empty list answers the length of a full file");
    forget_exam_file(&f);
}

/* ---- Files that do not open ---- */

/* The file is opened for an empty list too, which asks for no tables, no words and no bench. */
static void as_open_answers(lent_file file, uint32_t t)
{
    const table_sizes none = { random_below(2), random_below(3) };
    uint32_t opened = compare_open(file).answer;
    outcome empty = compare_append_all(file, list, 0, words, random_below(3), none, 0);
    must_answer(empty, opened);
    must_hold(empty.first == (opened == 0 ? file.length : 0), "an empty list answers the length, where the file opens");
    outcome some = compare_append_all(file, list, 3, words, MOST, tables_of(t), WORST(FEW));
    must_hold(opened == 0 || some.answer == opened, "a list is refused as open refuses");
    list[0].first += MOST;
    some = compare_append_all(file, list, 3, words, MOST, tables_of(t), WORST(FEW));
    must_answer(some, opened ? opened : 15);
    list[0].first -= MOST;
}

static void as_open_answers_for_length(const exam_file *f, size_t length)
{
    lent_file file = lend_with_spare(f, 100);
    file.length = length;
    this_case_is("list for %zu bytes of a file of %zu", length, f->length);
    as_open_answers(file, f->t);
}

static void every_length(const exam_file *f)
{
    static const size_t huge[] = { SIZE_MAX, SIZE_MAX - 31, SIZE_MAX / 2, (size_t)1 << 32, (size_t)1 << 63 };
    for (size_t length = 0; length <= f->length + 102; length++) {
        as_open_answers_for_length(f, length);
    }
    for (size_t i = 0; i < sizeof huge / sizeof huge[0]; i++) {
        as_open_answers_for_length(f, huge[i]);
    }
}

static void every_bit(exam_file *f)
{
    for (size_t bit = 8 * (f->length - 32 - 12 * f->entries); bit < 8 * f->length; bit++) {
        this_case_is("list for a file of %zu bytes, bit %zu flipped", f->length, bit);
        f->bytes[bit / 8] ^= (uint8_t)(1u << bit % 8);
        as_open_answers(lend_with_spare(f, 100), f->t);
        f->bytes[bit / 8] ^= (uint8_t)(1u << bit % 8);
    }
    for (unsigned bit = 0; bit < 64; bit++) {
        lent_file file = lend_with_spare(f, 100);
        file.exam ^= (uint64_t)1 << bit;
        this_case_is("list for another exam, bit %u", bit);
        as_open_answers(file, f->t);
    }
}

static void every_bit_and_length(unsigned round)
{
    exam_file f = file_of(round % 3, round % 4);
    short_list(&f, 3);
    list[0].first = 1;
    list[0].count = 1;
    every_bit(&f);
    every_length(&f);
    forget_exam_file(&f);
}

/* ---- A list of one ---- */

/* It is an append: the same answer, and the same file where it is done. */
static void list_of_one(lent_file file, coil_record record, table_sizes tables, size_t bench)
{
    static uint8_t left[ROOM_FOR_ALL];
    outcome one = compare_append(file, record.slot, words + record.first, record.count, tables, bench);
    size_t length = one.first;
    memcpy(left, one.bytes, length);
    outcome listed = compare_append_all(file, &record, 1, words, record.first + record.count, tables, bench);
    must_answer(listed, one.answer);
    must_hold(listed.second == (one.answer == 0) && listed.first == length
              && memcmp(listed.bytes, left, length) == 0, "a list of one is an append");
}

static void lists_of_one(uint32_t t)
{
    exam_file f = file_of(t, 1 + random_below(3));
    coil_record record = { last_slot(&f) + 1, random_below(30), random_below(MOST - 30) };
    const size_t spare = 12 + WORST(record.count), bench = WORST(record.count);
    make_some_words(MOST);
    this_case_is("a list of one, %zu words, t = %u", record.count, t);
    list_of_one(lend_with_spare(&f, spare), record, tables_of(t), bench);
    list_of_one(lend_with_spare(&f, spare - 1), record, tables_of(t), bench);
    list_of_one(lend_with_spare(&f, spare), record, tables_of(t), bench - 1);
    list_of_one(lend_with_spare(&f, spare), record, tables_of(t + 1), bench);
    record.slot--;
    list_of_one(lend_with_spare(&f, spare), record, tables_of(t), bench);
    f.exam++;
    list_of_one(lend_with_spare(&f, spare), record, tables_of(t), bench);
    forget_exam_file(&f);
}

/* ---- Old tables ---- */

#define TABLE 64

/* A run of the library alone. */
typedef struct {
    uint8_t file[2000], bench[WORST(FEW)];
    uint64_t old_fcm[TABLE], old_dfcm[TABLE], fcm[TABLE], dfcm[TABLE];
    uint32_t answer;
    size_t appended, length;
} run;

static void run_library(run *r, const exam_file *f, size_t records)
{
    make_words(NOISE, r->old_fcm, TABLE);
    make_words(NOISE, r->old_dfcm, TABLE);
    memcpy(r->fcm, r->old_fcm, sizeof r->fcm);
    memcpy(r->dfcm, r->old_dfcm, sizeof r->dfcm);
    r->answer = coil_append_all(r->file, sizeof r->file, f->length, f->exam, list, records, words, MOST, r->fcm, TABLE,
                                r->dfcm, TABLE, r->bench, sizeof r->bench, &r->appended, &r->length);
}

static bool same_outcome(const run *a, const run *b)
{
    return a->answer == b->answer && a->appended == b->appended && a->length == b->length
        && memcmp(a->file, b->file, sizeof a->file) == 0 && memcmp(a->bench, b->bench, sizeof a->bench) == 0;
}

static bool has_tables(const run *r, const uint64_t *fcm, const uint64_t *dfcm)
{
    return memcmp(r->fcm, fcm, sizeof r->fcm) == 0 && memcmp(r->dfcm, dfcm, sizeof r->dfcm) == 0;
}

/* Twice with nothing but the tables' old words different: these play no part. Where no map went in, the tables are as
 * they were. */
static void other_old_tables(size_t records, size_t place)
{
    static run a, b;
    size_t in = place < records ? place : records;
    exam_file f = file_of(6, 2);
    short_list(&f, records);
    if (place < records) {
        list[place].first = MOST + 1;
    }
    random_bytes(a.file, sizeof a.file);
    random_bytes(a.bench, sizeof a.bench);
    memcpy(a.file, f.bytes, f.length);
    b = a;
    run_library(&a, &f, records);
    run_library(&b, &f, records);
    bool tables_are_right = in > 0 ? has_tables(&b, a.fcm, a.dfcm)
        : has_tables(&a, a.old_fcm, a.old_dfcm) && has_tables(&b, b.old_fcm, b.old_dfcm);
    this_case_is("other old tables, %zu records, refused at %zu", records, place);
    count_comparison("append_all", same_outcome(&a, &b) && tables_are_right && a.appended == in);
    forget_exam_file(&f);
}

void group_many(unsigned rounds)
{
    for (unsigned round = 0; round < rounds; round++) {
        for (uint32_t t = 0; t <= 16; t++) {
            life(t, round);
            lists_of_one(t);
        }
        for (size_t records = 0; records <= MOST_PLACES; records++) {
            for (size_t place = 0; place <= records; place++) {
                other_old_tables(records, place);
            }
        }
        every_bit_and_length(round);
    }
    every_place();
    for (size_t place = 0; place < 3; place++) {
        every_sum(0, place);
        every_sum(1, place);
        every_sum(10, place);
    }
    every_length_of_words(2, 5, 0);
    every_length_of_words(2, 9, 1);
    every_length_of_words(3, 0, 4);
    every_length_of_words(18, 1, 1);
    shared_words();
    every_order_of_slots();
    every_room(0, 1, 2);
    every_room(3, 0, 6);
    every_room(7, 4, 1);
    most_entries(0);
    most_entries(1);
    most_entries(1000);
    most_entries(1023);
}
