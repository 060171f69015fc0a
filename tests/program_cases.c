/* Writes the cases of the two programs: for each an input, and what the rules say must come out.
 *
 *     program_cases FOLDER
 *
 * The file FOLDER/PROGRAM-NAME.in is standard input; .out and .err are what standard output and standard
 * error must hold. They come from the reference and from nothing of the library.
 */
#include "reference.h"
#include "words.h"

#include <stdio.h>
#include <stdlib.h>
#include <string.h>

enum { MOST_PACKED = 32768, MOST_LISTED = 65536, TABLE_WORDS = 1024, TRAILER = 32, ENTRY = 12 };
enum { ROOM = 200000, MOST_WORDS = 8192 };

static const char *folder;
static size_t cases;

static uint64_t fcm[65536], dfcm[65536], words[MOST_WORDS];
static uint8_t file[ROOM], bench[ROOM];

static void fail(const char *what)
{
    fprintf(stderr, "program_cases: %s\n", what);
    exit(1);
}

static void write_part(const char *name, const char *ending, const void *bytes, size_t count)
{
    char path[1024];
    snprintf(path, sizeof path, "%s/%s.%s", folder, name, ending);
    FILE *f = fopen(path, "wb");
    if (!f || fwrite(bytes, 1, count, f) != count || fclose(f) != 0)
        fail("cannot write a case");
}

static void write_case(const char *name, const void *in, size_t in_len, const void *out, size_t out_len,
                       uint32_t number)
{
    char refusal[32] = "";
    if (number != 0)
        snprintf(refusal, sizeof refusal, "refused %u\n", (unsigned)number);
    write_part(name, "in", in, in_len);
    write_part(name, "out", out, number == 0 ? out_len : 0);
    write_part(name, "err", refusal, strlen(refusal));
    cases++;
}

/* ---- the packer */

static void packer_case(const char *name, const uint8_t *in, size_t in_len)
{
    size_t length = 0;
    uint32_t number = in_len > MOST_PACKED ? 2 : in_len % 8 != 0 ? 4 : 0;
    if (number == 0) {
        for (size_t i = 0; i < in_len / 8; i++) {
            words[i] = 0;
            for (size_t j = 0; j < 8; j++)
                words[i] += (uint64_t)in[8 * i + j] << (8 * j);
        }
        number = ref_pack(words, in_len / 8, fcm, TABLE_WORDS, dfcm, TABLE_WORDS, bench, ROOM, &length);
        if (number != 0)
            fail("the reference refuses to pack");
    }
    write_case(name, in, in_len, bench, length, number);
}

static void bytes_of_words(uint8_t *bytes, size_t count)
{
    for (size_t i = 0; i < 8 * count; i++)
        bytes[i] = (uint8_t)(words[i / 8] >> (8 * (i % 8)));
}

static void packer_cases(void)
{
    static const size_t sizes[] = { 0, 1, 7, 8, 9, 16, 24, 4096, 8000, 32760, 32767, 32768, 32769, 40000 };
    char name[64];
    for (size_t s = 0; s < sizeof sizes / sizeof *sizes; s++)
        for (int kind = 0; kind < KINDS; kind++) {
            make_words((kind_of_words)kind, words, sizes[s] / 8 + 1);
            bytes_of_words(file, sizes[s] / 8 + 1);
            snprintf(name, sizeof name, "packer-%05zu-%s", sizes[s], kind_names[kind]);
            packer_case(name, file, sizes[s]);
        }
}

/* ---- the lister */

static uint64_t field(const uint8_t *at, int bytes)
{
    uint64_t value = 0;
    while (bytes-- > 0)
        value = value * 256 + at[bytes];
    return value;
}

static uint32_t lister_number(const uint8_t *in, size_t in_len)
{
    if (in_len > MOST_LISTED)
        return 3;
    uint64_t exam = in_len < TRAILER ? 1 : field(in + in_len - TRAILER + 8, 8);
    uint32_t number = ref_open(in, in_len, in_len, exam);
    if (number != 0)
        return number;
    size_t entries = (size_t)field(in + in_len - TRAILER + 20, 4);
    const uint8_t *entry = in + in_len - TRAILER - ENTRY * entries;
    for (size_t i = 0; i < entries && number == 0; i++, entry += ENTRY)
        number = ref_check(in + field(entry + 4, 4), (size_t)field(entry + 8, 4));
    return number;
}

static void lister_case(const char *name, const uint8_t *in, size_t in_len)
{
    static char text[ROOM];
    size_t at = 0;
    uint32_t number = lister_number(in, in_len);
    if (number == 0) {
        const uint8_t *trailer = in + in_len - TRAILER;
        size_t entries = (size_t)field(trailer + 20, 4);
        const uint8_t *entry = trailer - ENTRY * entries;
        at += (size_t)sprintf(text, "exam %llu table %lu slots %zu\nslot words bytes\n",
                              (unsigned long long)field(trailer + 8, 8), 1ul << field(trailer + 6, 2), entries);
        for (size_t i = 0; i < entries; i++, entry += ENTRY)
            at += (size_t)sprintf(text + at, "%lu %lu %lu\n", (unsigned long)field(entry, 4),
                                  (unsigned long)field(in + field(entry + 4, 4), 4),
                                  (unsigned long)field(entry + 8, 4));
    }
    write_case(name, in, in_len, text, at, number);
}

static size_t create(uint64_t exam, uint32_t t)
{
    size_t length;
    if (ref_create(file, ROOM, exam, t, &length) != 0)
        fail("the reference refuses to create");
    return length;
}

static size_t append(size_t length, uint64_t exam, uint32_t t, uint32_t slot, int kind, size_t count)
{
    make_words((kind_of_words)kind, words, count);
    if (ref_append(file, ROOM, length, exam, slot, words, count, fcm, (size_t)1 << t, dfcm, (size_t)1 << t,
                   bench, ROOM, &length) != 0)
        fail("the reference refuses to append");
    return length;
}

/* A file of one slot that has exactly 65,536 bytes: 7,704 codes 0, each with eight residual bytes, of which the top one
 * is not 0. */
static size_t longest_file(void)
{
    enum { COUNT = 7704, RESIDUALS = 8 + COUNT / 2, LENGTH = RESIDUALS + 8 * COUNT };
    static const uint8_t head[8] = { COUNT % 256, COUNT / 256, 0, 0, LENGTH % 256, LENGTH / 256, 0, 0 };
    size_t length = create(5, 16);
    length = append(length, 5, 16, 9, NOISE, 1);
    uint8_t entry_and_trailer[ENTRY + TRAILER];
    memcpy(entry_and_trailer, file + length - ENTRY - TRAILER, ENTRY + TRAILER);
    random_bytes(file, LENGTH);
    memcpy(file, head, 8);
    memset(file + 8, 0, COUNT / 2);
    for (size_t top = RESIDUALS + 7; top < LENGTH; top += 8)
        file[top] |= 1;
    entry_and_trailer[8] = LENGTH % 256;
    entry_and_trailer[9] = LENGTH / 256;
    memset(entry_and_trailer + ENTRY + 24, 0, 8);
    entry_and_trailer[ENTRY + 26] = 1;
    memcpy(file + LENGTH, entry_and_trailer, ENTRY + TRAILER);
    return LENGTH + ENTRY + TRAILER;
}

static void lister_size_cases(void)
{
    size_t length = longest_file();
    if (length != MOST_LISTED || lister_number(file, length) != 0)
        fail("the longest file is not a file");
    lister_case("lister-65536", file, length);
    file[length] = 0;
    lister_case("lister-65537", file, length + 1);
    lister_case("lister-70000", file, 70000);
    lister_case("lister-65535", file, length - 1);
    lister_case("lister-0", file, 0);
    lister_case("lister-1", file, 1);
    lister_case("lister-31", file, 31);
}

static void lister_table_cases(void)
{
    char name[64];
    for (uint32_t t = 0; t <= 16; t++) {
        uint64_t exam = t == 16 ? UINT64_MAX : t == 0 ? 1 : random_word() >> t;
        size_t length = create(exam, t);
        snprintf(name, sizeof name, "lister-empty-%02u", (unsigned)t);
        lister_case(name, file, length);
        for (uint32_t i = 0; i < 7; i++)
            length = append(length, exam, t, i < 6 ? i * i * (t + 1) : UINT32_MAX, (int)((i + t) % KINDS),
                            random_below(300) + i);
        snprintf(name, sizeof name, "lister-slots-%02u", (unsigned)t);
        lister_case(name, file, length);
    }
}

static void lister_many_slots(void)
{
    size_t length = create(1234567890, 3);
    for (uint32_t i = 0; i < 1024; i++)
        length = append(length, 1234567890, 3, 4194304 * i, (int)(i % KINDS), i % 4);
    lister_case("lister-1024-slots", file, length);
}

/* The worked file of 53 bytes: whole, cut at every length, grown, and with every bit turned. */
static void lister_damage_cases(void)
{
    char name[64];
    size_t length = create(7, 10);
    length = append(length, 7, 10, 3, ZEROS, 1);
    lister_case("lister-worked", file, length);
    for (size_t cut = 0; cut < length; cut++) {
        snprintf(name, sizeof name, "lister-cut-%02zu", cut);
        lister_case(name, file, cut);
    }
    for (size_t bit = 0; bit < 8 * length; bit++) {
        file[bit / 8] ^= (uint8_t)(1u << (bit % 8));
        snprintf(name, sizeof name, "lister-bit-%03zu", bit);
        lister_case(name, file, length);
        file[bit / 8] ^= (uint8_t)(1u << (bit % 8));
    }
    memset(file + length, 0, 8);
    lister_case("lister-grown", file, length + 8);
    memset(file + length - TRAILER + 8, 0, 8);
    lister_case("lister-exam-0", file, length);
}

/* The numbers are those of the rules: where the reference answers another, no case is written. */
static void lister_answers(const char *name, const uint8_t *in, size_t in_len, uint32_t number)
{
    if (lister_number(in, in_len) != number)
        fail("a case with a padded block is answered by another number");
    lister_case(name, in, in_len);
}

enum { BLOCK = 14, BLOCKS = 3, FILLED = BLOCKS * (BLOCK + ENTRY) + TRAILER };

/* Three blocks of the word 80000000, with the code 3 and the residual 00 00 00 80 00: one byte of 0 on top is right. */
static void three_blocks(void)
{
    size_t length = create(7, 10);
    const uint64_t word = 0x80000000;
    for (uint32_t slot = 0; slot < BLOCKS; slot++)
        if (ref_append(file, ROOM, length, 7, slot, &word, 1, fcm, TABLE_WORDS, dfcm, TABLE_WORDS, bench, ROOM,
                       &length) != 0)
            fail("the reference refuses to append");
    if (length != FILLED)
        fail("the file of three blocks has another length");
}

/* The lister checks all blocks, in their order in the file: the first that is wrong gives the number. */
static void lister_padded_cases(void)
{
    char name[64];
    three_blocks();
    lister_answers("lister-padded-none", file, FILLED, 0);
    for (size_t i = 0; i < BLOCKS; i++) {
        three_blocks();
        file[BLOCK * i + 12] = 0;
        snprintf(name, sizeof name, "lister-padded-%zu", i);
        lister_answers(name, file, FILLED, 13);
        file[BLOCK * i + 8] = 0x36;
        snprintf(name, sizeof name, "lister-padded-%zu-filler", i);
        lister_answers(name, file, FILLED, 6);
    }
    three_blocks();
    file[12] = 0;
    file[BLOCK + 8] = 0x36;
    lister_answers("lister-padded-before-6", file, FILLED, 13);
    file[8] = 0x36;
    file[BLOCK + 8] = 0x37;
    file[BLOCK + 12] = 0;
    lister_answers("lister-padded-behind-6", file, FILLED, 6);
    file[8] = 0x27;
    lister_answers("lister-padded-behind-5", file, FILLED, 5);
}

int main(int argc, char **argv)
{
    if (argc != 2) {
        fprintf(stderr, "usage: program_cases FOLDER\n");
        return 2;
    }
    folder = argv[1];
    seed_random(20070326);
    packer_cases();
    lister_size_cases();
    lister_table_cases();
    lister_many_slots();
    lister_damage_cases();
    lister_padded_cases();
    printf("%zu cases\n", cases);
    return 0;
}
