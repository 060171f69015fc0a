/* See calls.h. */
#include "calls.h"
#include "lent.h"
#include "reference.h"
#include "words.h"

#include <stdarg.h>
#include <stdio.h>
#include <stdlib.h>
#include <string.h>

/* More than any limit, so that one beyond each limit can be lent as well. */
#define FILE_BYTES ((size_t)17 << 20)
#define BLOCK_BYTES ((size_t)600000)
#define WORD_BYTES ((size_t)8 * 16 * 65536)
#define TABLE_BYTES ((size_t)8 << 17)
#define RECORD_BYTES (sizeof(coil_record) * 1100)

static lent the_file, the_old, the_block, the_words, the_records, the_fcm, the_dfcm;
static lent the_first, the_second, the_third, the_fourth;

static uint64_t seed_in_use;
static bool stops_at_first;
static unsigned long compared;
static unsigned long failed;
static char case_text[200];

void prepare_calls(uint64_t seed, bool stop_at_first)
{
    seed_in_use = seed;
    stops_at_first = stop_at_first;
    seed_random(seed);
    lent_prepare(&the_file, "file", FILE_BYTES);
    lent_prepare(&the_old, "old bytes", FILE_BYTES);
    lent_prepare(&the_block, "block", BLOCK_BYTES);
    lent_prepare(&the_words, "words", WORD_BYTES);
    lent_prepare(&the_records, "records", RECORD_BYTES);
    lent_prepare(&the_fcm, "fcm", TABLE_BYTES);
    lent_prepare(&the_dfcm, "dfcm", TABLE_BYTES);
    lent_prepare(&the_first, "first number", 8);
    lent_prepare(&the_second, "second number", 8);
    lent_prepare(&the_third, "third number", 8);
    lent_prepare(&the_fourth, "fourth number", 4);
}

void this_case_is(const char *format, ...)
{
    va_list arguments;
    va_start(arguments, format);
    vsnprintf(case_text, sizeof case_text, format, arguments);
    va_end(arguments);
}

const char *this_case(void)
{
    return case_text;
}

unsigned long comparisons(void)
{
    return compared;
}

unsigned long failures(void)
{
    return failed;
}

static void fail(const char *call, const char *what)
{
    failed++;
    printf("FAILED %s: %s\n    case: %s; seed %llu\n", call, what, case_text,
           (unsigned long long)seed_in_use);
    fflush(stdout);
}

static void stop_where_enough(void)
{
    if (failed >= (stops_at_first ? 1u : 20u)) {
        printf("%lu passed, %lu failed (stopped)\n", compared, failed);
        exit(1);
    }
}

void must_hold(bool holds, const char *what)
{
    if (!holds) {
        fail("rule", what);
        stop_where_enough();
    }
}

void must_answer(outcome result, uint32_t answer)
{
    if (result.answer != answer) {
        char what[80];
        snprintf(what, sizeof what, "the rules say %u, the reference answered %u", answer, result.answer);
        fail("rule", what);
        stop_where_enough();
    }
}

void count_comparison(const char *call, bool right)
{
    if (right) {
        compared++;
    } else {
        fail(call, "library, reference and rules differ");
        stop_where_enough();
    }
}

/* ---- What one call lends, and what it may change ---- */

typedef enum { ONLY_READ, WRITTEN, A_NUMBER } use_of_lent;

typedef struct {
    lent *what;
    use_of_lent use;
} loan;

/* What must be so after a call, beside both sides being equal. */
typedef struct {
    bool all_is_kept;           /* nothing is changed that the call may write, but for the numbers */
    bool numbers_are_0;
} demands;

static demands where_refused(uint32_t answer)
{
    demands both = { answer != 0, answer != 0 };
    return both;
}

/* A number has 8 bytes, or 4, the low ones first. */
static size_t number_of(const lent *l)
{
    size_t number = 0;
    memcpy(&number, lent_reference(l), l->size);
    return number;
}

static bool loan_is_right(const char *call, const loan *given, demands asked)
{
    bool unchanged = given->use == ONLY_READ || (given->use == WRITTEN && asked.all_is_kept);
    const char *fault = lent_fault(given->what, unchanged);
    if (fault != NULL) {
        fail(call, fault);
        lent_print_difference(given->what, unchanged);
        return false;
    }
    if (given->use == A_NUMBER && asked.numbers_are_0 && number_of(given->what) != 0) {
        fail(call, "a refusal left a number that is not 0");
        return false;
    }
    return true;
}

/* Compares everything after both sides were called. */
static void judge(const char *call, uint32_t library, uint32_t reference, demands asked,
                  const loan *loans, size_t count)
{
    bool right = true;
    if (library != reference) {
        char what[80];
        snprintf(what, sizeof what, "the library answered %u, the reference %u", library, reference);
        fail(call, what);
        right = false;
    }
    for (size_t i = 0; i < count; i++) {
        right = loan_is_right(call, &loans[i], asked) && right;
    }
    if (right) {
        compared++;
    }
    stop_where_enough();
}

#define JUDGE_AS(call, asked, loans) \
    judge(call, library, reference, asked, loans, sizeof loans / sizeof loans[0])
#define JUDGE(call, loans) JUDGE_AS(call, where_refused(reference), loans)

static outcome result_of(uint32_t answer)
{
    const uint8_t *block = lent_reference(&the_block);
    const uint64_t *fcm = (const uint64_t *)(const void *)lent_reference(&the_fcm);
    const uint64_t *dfcm = (const uint64_t *)(const void *)lent_reference(&the_dfcm);
    outcome result = { answer, 0, 0, 0, 0, block, NULL, block, fcm, dfcm };
    return result;
}

/* ---- Arguments as both sides take them ---- */

#define LIB(l) lent_library(&l), l.size
#define REF(l) lent_reference(&l), l.size
#define LIB_WORDS(l) (uint64_t *)(void *)lent_library(&l), l.size / 8
#define REF_WORDS(l) (uint64_t *)(void *)lent_reference(&l), l.size / 8
#define LIB_NUMBER(l) (size_t *)(void *)lent_library(&l)
#define REF_NUMBER(l) (size_t *)(void *)lent_reference(&l)

static void lend_tables(table_sizes tables)
{
    lent_set(&the_fcm, NULL, 0, 8 * tables.fcm);
    lent_set(&the_dfcm, NULL, 0, 8 * tables.dfcm);
}

static void lend_file(lent_file file)
{
    lent_set(&the_file, file.bytes, file.known, file.buffer);
}

static void lend_numbers(void)
{
    lent_set(&the_first, NULL, 0, 8);
    lent_set(&the_second, NULL, 0, 8);
}

/* ---- The calls ---- */

outcome compare_check(const uint8_t *block, size_t block_len)
{
    lent_set(&the_block, block, block_len, block_len);
    uint32_t library = coil_check(LIB(the_block));
    uint32_t reference = ref_check(REF(the_block));
    const loan loans[] = { { &the_block, ONLY_READ } };
    JUDGE("check", loans);
    return result_of(reference);
}

outcome compare_pack(const uint64_t *words, size_t count, table_sizes tables, size_t out_len)
{
    lent_set(&the_words, words, 8 * count, 8 * count);
    lent_set(&the_block, NULL, 0, out_len);
    lend_tables(tables);
    lend_numbers();
    uint32_t library = coil_pack(LIB_WORDS(the_words), LIB_WORDS(the_fcm), LIB_WORDS(the_dfcm),
                                 LIB(the_block), LIB_NUMBER(the_first));
    uint32_t reference = ref_pack(REF_WORDS(the_words), REF_WORDS(the_fcm), REF_WORDS(the_dfcm),
                                  REF(the_block), REF_NUMBER(the_first));
    const loan loans[] = {
        { &the_words, ONLY_READ }, { &the_fcm, WRITTEN }, { &the_dfcm, WRITTEN },
        { &the_block, WRITTEN }, { &the_first, A_NUMBER }
    };
    JUDGE("pack", loans);
    outcome result = result_of(reference);
    result.first = number_of(&the_first);
    return result;
}

outcome compare_unpack(const uint8_t *block, size_t block_len, table_sizes tables, size_t room)
{
    lent_set(&the_block, block, block_len, block_len);
    lent_set(&the_words, NULL, 0, 8 * room);
    lend_tables(tables);
    lend_numbers();
    uint32_t library = coil_unpack(LIB(the_block), LIB_WORDS(the_fcm), LIB_WORDS(the_dfcm),
                                   LIB_WORDS(the_words), LIB_NUMBER(the_first));
    uint32_t reference = ref_unpack(REF(the_block), REF_WORDS(the_fcm), REF_WORDS(the_dfcm),
                                    REF_WORDS(the_words), REF_NUMBER(the_first));
    const loan loans[] = {
        { &the_block, ONLY_READ }, { &the_fcm, WRITTEN }, { &the_dfcm, WRITTEN },
        { &the_words, WRITTEN }, { &the_first, A_NUMBER }
    };
    JUDGE("unpack", loans);
    outcome result = result_of(reference);
    result.first = number_of(&the_first);
    result.words = (const uint64_t *)(const void *)lent_reference(&the_words);
    return result;
}

outcome compare_create(size_t file_len, uint64_t exam, uint32_t t)
{
    lent_set(&the_file, NULL, 0, file_len);
    lend_numbers();
    uint32_t library = coil_create(LIB(the_file), exam, t, LIB_NUMBER(the_first));
    uint32_t reference = ref_create(REF(the_file), exam, t, REF_NUMBER(the_first));
    const loan loans[] = { { &the_file, WRITTEN }, { &the_first, A_NUMBER } };
    JUDGE("create", loans);
    outcome result = result_of(reference);
    result.first = number_of(&the_first);
    result.bytes = lent_reference(&the_file);
    return result;
}

outcome compare_open(lent_file file)
{
    lend_file(file);
    uint32_t library = coil_open(LIB(the_file), file.length, file.exam);
    uint32_t reference = ref_open(REF(the_file), file.length, file.exam);
    const loan loans[] = { { &the_file, ONLY_READ } };
    JUDGE("open", loans);
    return result_of(reference);
}

outcome compare_find(lent_file file, uint32_t slot)
{
    lend_file(file);
    lend_numbers();
    uint32_t library = coil_find(LIB(the_file), file.length, file.exam, slot,
                                 LIB_NUMBER(the_first), LIB_NUMBER(the_second));
    uint32_t reference = ref_find(REF(the_file), file.length, file.exam, slot,
                                  REF_NUMBER(the_first), REF_NUMBER(the_second));
    const loan loans[] = {
        { &the_file, ONLY_READ }, { &the_first, A_NUMBER }, { &the_second, A_NUMBER }
    };
    JUDGE("find", loans);
    outcome result = result_of(reference);
    result.first = number_of(&the_first);
    result.second = number_of(&the_second);
    must_hold(result.answer != 0 || result.second >= 8, "a found block has at least 8 bytes");
    must_hold(result.answer != 0 || (result.first <= file.length - 44
                                     && result.second <= file.length - 44 - result.first),
              "a found block lies inside the file");
    return result;
}

outcome compare_fetch(lent_file file, uint32_t slot, table_sizes tables, size_t room)
{
    lend_file(file);
    lent_set(&the_words, NULL, 0, 8 * room);
    lend_tables(tables);
    lend_numbers();
    uint32_t library = coil_fetch(LIB(the_file), file.length, file.exam, slot, LIB_WORDS(the_fcm),
                                  LIB_WORDS(the_dfcm), LIB_WORDS(the_words), LIB_NUMBER(the_first));
    uint32_t reference = ref_fetch(REF(the_file), file.length, file.exam, slot, REF_WORDS(the_fcm),
                                   REF_WORDS(the_dfcm), REF_WORDS(the_words), REF_NUMBER(the_first));
    const loan loans[] = {
        { &the_file, ONLY_READ }, { &the_fcm, WRITTEN }, { &the_dfcm, WRITTEN },
        { &the_words, WRITTEN }, { &the_first, A_NUMBER }
    };
    JUDGE("fetch", loans);
    outcome result = result_of(reference);
    result.first = number_of(&the_first);
    result.words = (const uint64_t *)(const void *)lent_reference(&the_words);
    return result;
}

/* A call that packs words into a file: append or replace. */
typedef uint32_t store_call(uint8_t *, size_t, size_t, uint64_t, uint32_t, const uint64_t *, size_t,
                            uint64_t *, size_t, uint64_t *, size_t, uint8_t *, size_t, size_t *);

static outcome compare_store(const char *name, store_call *in_library, store_call *in_reference, lent_file file,
                             uint32_t slot, const uint64_t *words, size_t count, table_sizes tables, size_t bench_len)
{
    lend_file(file);
    lent_set(&the_words, words, 8 * count, 8 * count);
    lent_set(&the_block, NULL, 0, bench_len);
    lend_tables(tables);
    lend_numbers();
    uint32_t library = in_library(LIB(the_file), file.length, file.exam, slot, LIB_WORDS(the_words),
                                  LIB_WORDS(the_fcm), LIB_WORDS(the_dfcm), LIB(the_block),
                                  LIB_NUMBER(the_first));
    uint32_t reference = in_reference(REF(the_file), file.length, file.exam, slot, REF_WORDS(the_words),
                                      REF_WORDS(the_fcm), REF_WORDS(the_dfcm), REF(the_block),
                                      REF_NUMBER(the_first));
    const loan loans[] = {
        { &the_file, WRITTEN }, { &the_words, ONLY_READ }, { &the_fcm, WRITTEN },
        { &the_dfcm, WRITTEN }, { &the_block, WRITTEN }, { &the_first, A_NUMBER }
    };
    JUDGE(name, loans);
    outcome result = result_of(reference);
    result.first = number_of(&the_first);
    result.bytes = lent_reference(&the_file);
    return result;
}

outcome compare_append(lent_file file, uint32_t slot, const uint64_t *words, size_t count,
                       table_sizes tables, size_t bench_len)
{
    return compare_store("append", coil_append, ref_append, file, slot, words, count, tables, bench_len);
}

/* Beside both sides being equal: what a shorter file leaves free is 0, and nothing beyond both ends changes. */
static void beyond_is_right(lent_file file, size_t new_length)
{
    const uint8_t *before = lent_before(&the_file), *after = lent_reference(&the_file);
    size_t both_ends = new_length > file.length ? new_length : file.length;
    bool all_zero = true;
    for (size_t i = new_length; i < file.length; i++) {
        all_zero = all_zero && after[i] == 0;
    }
    must_hold(all_zero, "the bytes that a shorter file leaves free are 0");
    must_hold(memcmp(before + both_ends, after + both_ends, file.buffer - both_ends) == 0,
              "beyond both ends the buffer is as it was");
}

outcome compare_replace(lent_file file, uint32_t slot, const uint64_t *words, size_t count,
                        table_sizes tables, size_t bench_len)
{
    outcome result = compare_store("replace", coil_replace, ref_replace, file, slot, words, count, tables, bench_len);
    if (result.answer == 0) {
        beyond_is_right(file, result.first);
    }
    return result;
}

/* ---- A list of appends ---- */

/* Both sides are lent the same bytes as records. */
typedef char laid_out_alike[sizeof(ref_record) == sizeof(coil_record)
                            && offsetof(ref_record, slot) == offsetof(coil_record, slot)
                            && offsetof(ref_record, first) == offsetof(coil_record, first)
                            && offsetof(ref_record, count) == offsetof(coil_record, count) ? 1 : -1];

/* Field by field: what lies between the fields is random, since no call may look at it. */
static void lend_records(const coil_record *records, size_t count)
{
    static uint8_t bytes[RECORD_BYTES];
    random_bytes(bytes, count * sizeof(coil_record));
    for (size_t i = 0; i < count; i++) {
        uint8_t *record = bytes + i * sizeof(coil_record);
        memcpy(record + offsetof(coil_record, slot), &records[i].slot, sizeof records[i].slot);
        memcpy(record + offsetof(coil_record, first), &records[i].first, sizeof records[i].first);
        memcpy(record + offsetof(coil_record, count), &records[i].count, sizeof records[i].count);
    }
    lent_set(&the_records, bytes, count * sizeof(coil_record), count * sizeof(coil_record));
}

static void *copy_of(const lent *l)
{
    void *copy = malloc(l->size + 1);
    if (copy == NULL) {
        printf("no memory for a copy of the %s\n", l->name);
        exit(2);
    }
    memcpy(copy, lent_before(l), l->size);
    return copy;
}

/* Whether the library left this in what it was lent. Frees the copy. */
static bool is_left(const lent *l, void *copy)
{
    bool same = memcmp(lent_library(l), copy, l->size) == 0;
    free(copy);
    return same;
}

static bool number_is_left(const lent *l, size_t number)
{
    return memcmp(lent_library(l), &number, sizeof number) == 0;
}

/* The library once more, with a loop of appends: the same number, count and length, and the same bytes. */
static void one_after_another(uint32_t library, lent_file file, const coil_record *records, size_t records_len)
{
    uint8_t *bytes = copy_of(&the_file), *bench = copy_of(&the_block);
    uint64_t *words = copy_of(&the_words), *fcm = copy_of(&the_fcm), *dfcm = copy_of(&the_dfcm);
    size_t words_len = the_words.size / 8, appended = 0, reached = file.length;
    uint32_t answer = coil_open(bytes, file.buffer, file.length, file.exam);
    while (answer == COIL_DONE && appended < records_len) {
        coil_record next = records[appended];
        bool inside = next.count <= words_len && next.first <= words_len - next.count;
        size_t longer = 0;
        answer = !inside ? COIL_BAD_RECORD
               : coil_append(bytes, file.buffer, reached, file.exam, next.slot, words + next.first, next.count,
                             fcm, the_fcm.size / 8, dfcm, the_dfcm.size / 8, bench, the_block.size, &longer);
        if (answer == COIL_DONE) {
            appended++;
            reached = longer;
        }
    }
    bool refused_at_once = answer != COIL_DONE && appended == 0;
    bool same = library == answer && number_is_left(&the_second, appended)
             && number_is_left(&the_first, refused_at_once ? 0 : reached);
    same = is_left(&the_file, bytes) && same;
    same = is_left(&the_block, bench) && same;
    same = is_left(&the_words, words) && same;
    same = is_left(&the_fcm, fcm) && same;
    same = is_left(&the_dfcm, dfcm) && same;
    count_comparison("append_all, against appends one after another", same);
}

outcome compare_append_all(lent_file file, const coil_record *records, size_t records_len,
                           const uint64_t *words, size_t words_len, table_sizes tables, size_t bench_len)
{
    lend_file(file);
    lend_records(records, records_len);
    lent_set(&the_words, words, 8 * words_len, 8 * words_len);
    lent_set(&the_block, NULL, 0, bench_len);
    lend_tables(tables);
    lend_numbers();
    const coil_record *for_library = (const coil_record *)(const void *)lent_library(&the_records);
    const ref_record *for_reference = (const ref_record *)(const void *)lent_reference(&the_records);
    uint32_t library = coil_append_all(LIB(the_file), file.length, file.exam, for_library, records_len,
                                       LIB_WORDS(the_words), LIB_WORDS(the_fcm), LIB_WORDS(the_dfcm),
                                       LIB(the_block), LIB_NUMBER(the_second), LIB_NUMBER(the_first));
    uint32_t reference = ref_append_all(REF(the_file), file.length, file.exam, for_reference, records_len,
                                        REF_WORDS(the_words), REF_WORDS(the_fcm), REF_WORDS(the_dfcm),
                                        REF(the_block), REF_NUMBER(the_second), REF_NUMBER(the_first));
    const loan loans[] = {
        { &the_file, WRITTEN }, { &the_records, ONLY_READ }, { &the_words, ONLY_READ }, { &the_fcm, WRITTEN },
        { &the_dfcm, WRITTEN }, { &the_block, WRITTEN }, { &the_first, A_NUMBER }, { &the_second, A_NUMBER }
    };
    /* A refusal keeps what went in before it. Where nothing went in, all is as it was, refused or not. */
    bool none_in = number_of(&the_second) == 0;
    demands asked = { none_in, none_in && reference != 0 };
    JUDGE_AS("append_all", asked, loans);
    one_after_another(library, file, records, records_len);
    outcome result = result_of(reference);
    result.first = number_of(&the_first);
    result.second = number_of(&the_second);
    result.bytes = lent_reference(&the_file);
    return result;
}

/* ---- A salvage ---- */

/* Beside both sides being equal: what the numbers say of each other, and what stays as it was. */
static void numbers_agree(size_t old_len, outcome result)
{
    must_hold(result.renumbered == (result.answer == 0), "the slots are renumbered, just where a salvage is done");
    if (result.answer != 0) {
        return;
    }
    size_t blocks = old_len - result.left_over;
    bool agree = result.left_over <= old_len && result.first == blocks + 12 * result.second + 32;
    must_hold(result.second <= COIL_MOST_ENTRIES, "at most 1,024 blocks are kept");
    must_hold(agree, "the new file has the kept blocks, an entry for each and a trailer");
    if (!agree || result.first > the_file.size) {
        return;
    }
    must_hold(memcmp(lent_reference(&the_file), lent_before(&the_old), blocks) == 0, "the blocks are as they stood");
    must_hold(memcmp(lent_reference(&the_file) + result.first, lent_before(&the_file) + result.first,
                     the_file.size - result.first) == 0, "beyond the new file the buffer is as it was");
}

outcome compare_salvage(const uint8_t *old, size_t old_len, size_t file_len, uint64_t exam, uint32_t t)
{
    lent_set(&the_old, old, old_len, old_len);
    lent_set(&the_file, NULL, 0, file_len);
    lend_numbers();
    lent_set(&the_third, NULL, 0, 8);
    lent_set(&the_fourth, NULL, 0, 4);
    uint32_t library = coil_salvage(LIB(the_old), LIB(the_file), exam, t, LIB_NUMBER(the_first),
                                    LIB_NUMBER(the_second), LIB_NUMBER(the_third),
                                    (uint32_t *)(void *)lent_library(&the_fourth));
    uint32_t reference = ref_salvage(REF(the_old), REF(the_file), exam, t, REF_NUMBER(the_first),
                                     REF_NUMBER(the_second), REF_NUMBER(the_third),
                                     (uint32_t *)(void *)lent_reference(&the_fourth));
    const loan loans[] = {
        { &the_old, ONLY_READ }, { &the_file, WRITTEN }, { &the_first, A_NUMBER }, { &the_second, A_NUMBER },
        { &the_third, A_NUMBER }, { &the_fourth, A_NUMBER }
    };
    JUDGE("salvage", loans);
    outcome result = result_of(reference);
    result.first = number_of(&the_first);
    result.second = number_of(&the_second);
    result.left_over = number_of(&the_third);
    result.renumbered = (uint32_t)number_of(&the_fourth);
    result.bytes = lent_reference(&the_file);
    numbers_agree(old_len, result);
    return result;
}
