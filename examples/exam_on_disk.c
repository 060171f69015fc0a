/* Keeps an exam on disk: stores it, loads it, appends to it, replaces a map in it, and shows what is refused and
 * what to do then.
 *
 *     exam_on_disk FOLDER
 *
 * It writes 20240117.kept, changed.kept and cut.kept in that folder, over what stands there under these names.
 *
 * The library works in memory, and disks are your part. This is one way to do that part, in C99 and POSIX:
 *
 *   A kept exam is one file: 8 bytes of hash, then the exam file. With the hash in a file of its own, two names
 *   would have to change in one step, which POSIX cannot do: after a crash between the two, a good exam would
 *   be refused. (To list a kept exam: tail -c +9 NAME | target/bin/lister)
 *
 *   It is written under a new name, flushed, and renamed over the old name. So a reader sees the old exam or
 *   the new one and never a part. What a crash leaves under the new name is removed the next time. Two
 *   programs that store one exam at the same time need a lock of their own.
 */
#define _POSIX_C_SOURCE 200809L
#include "coil.h"

#include <errno.h>
#include <fcntl.h>
#include <inttypes.h>
#include <stdio.h>
#include <stdlib.h>
#include <string.h>
#include <unistd.h>

#define FIRST_MAPS 3u               /* slots 0, 1 and 2; slot 3 is appended after loading */
#define ALL_MAPS 4u
#define MOVED_COIL 5u               /* a place where none of the coils is at first */
#define SIDE 64u                    /* a map is SIDE x SIDE values */
#define VALUES (SIDE * SIDE)
#define T 10u                       /* tables of 2^10 words */
#define EXAM UINT64_C(20240117)
#define NAME "20240117.kept"
#define NEW_NAME "20240117.new"
#define HASH_BYTES 8u

/* A kept exam in memory, with room to append one map more than are ever stored. A file on disk that fills even
 * this was not stored here. */
static uint8_t kept[HASH_BYTES + COIL_FILE_ROOM(ALL_MAPS + 1, VALUES)];
static uint8_t *const file = kept + HASH_BYTES;
#define FILE_ROOM (sizeof kept - HASH_BYTES)

static uint8_t bench[COIL_WORST(VALUES)];
static uint64_t fcm[COIL_TABLE_WORDS(T)];
static uint64_t dfcm[COIL_TABLE_WORDS(T)];
static uint64_t words[VALUES];
static uint64_t fetched[VALUES];
static int folder;

/* ---- Answers ---- */

/* What an engineer does about each number. */
static const char *what_to_do(uint32_t number)
{
    switch (number) {
    case COIL_DONE:
        return "done";
    case COIL_BAD_TABLES:
        return "the tables are not of 2^t words: lend such; if they are, the file is damaged: take the copy";
    case COIL_TOO_MANY_WORDS:
        return "more than 65,536 words: split the map over several slots; at a fetch: damaged, take the copy";
    case COIL_NO_ROOM:
        return "lend more room; near 16,777,216 bytes: begin another file, or make two of this one to replace in";
    case COIL_TOO_SHORT:
        return "too few bytes, or a length beyond the buffer: read the file again, whole, or take the copy";
    case COIL_BAD_TRAILER:
        return "not the file's length (a list leaves a new one), or damaged: take the copy, or see docs/CUT_FILES.md; "
               "to create or salvage: t above 16";
    case COIL_BAD_BLOCK_LENGTH:
    case COIL_BAD_FILLER:
    case COIL_PADDED:
        return "the block is damaged: take the copy, or see docs/CUT_FILES.md";
    case COIL_BAD_DIRECTORY:
        return "the file is damaged: take the copy, or see docs/CUT_FILES.md";
    case COIL_WRONG_EXAM:
        return "not this exam's file, or damaged: do not use it; look up the exam number, which is never 0";
    case COIL_NO_SUCH_SLOT:
        return "no such slot: look up the slot number; where it was stored, the file is damaged: take the copy";
    case COIL_SLOT_NOT_ABOVE:
        return "slots ascend: append above the last, or begin another file; a slot that is there can be replaced";
    case COIL_FILE_FULL:
        return "the file has its 1,024 maps: begin another file";
    case COIL_BAD_RECORD:
        return "a record of a list reaches beyond the words: mend it, and go on from it with the new length";
    default:
        return "no such number: header and library are not of one version";
    }
}

/* Every answer goes through here: a call that was not done must not go by unseen. */
static int done(const char *call, uint32_t answer)
{
    if (answer != COIL_DONE)
        printf("    %s answers %u: %s\n", call, (unsigned)answer, what_to_do(answer));
    return answer == COIL_DONE;
}

static void must_be_true(int true_here, const char *what)
{
    if (!true_here) {
        printf("this must not happen: %s\n", what);
        exit(1);
    }
}

/* Where the system refuses, the exam on disk is the old one or, where only the last flush failed, the new one: never
 * a part. */
static void system_must(int did, const char *what)
{
    if (!did) {
        perror(what);
        exit(1);
    }
}

/* ---- The disk ---- */

/* FNV-1a of 64 bits. It sees accidents, not attackers: for those take SHA-256 of your own library, and keep it
 * where they cannot write. */
static uint64_t hash_of(const uint8_t *bytes, size_t length)
{
    uint64_t hash = UINT64_C(14695981039346656037);
    for (size_t i = 0; i < length; i++)
        hash = (hash ^ bytes[i]) * UINT64_C(1099511628211);
    return hash;
}

/* A number of so many bytes, least significant byte first, as the exam file itself has them. */
static uint64_t number_at(const uint8_t *bytes, unsigned length)
{
    uint64_t number = 0;
    for (unsigned i = 0; i < length; i++)
        number |= (uint64_t)bytes[i] << (8 * i);
    return number;
}

static void write_all(int to, const uint8_t *bytes, size_t length)
{
    while (length > 0) {
        ssize_t wrote = write(to, bytes, length);
        if (wrote < 0 && errno == EINTR)
            continue;
        system_must(wrote > 0, "write");
        bytes += wrote;
        length -= (size_t)wrote;
    }
}

/* Puts the first bytes of kept on disk as they are, in one step for all who read, and readable for the owner
 * alone. The last flush is the folder's: without it a crash may undo the renaming. */
static void put_on_disk(const char *name, size_t length)
{
    int to;
    system_must(unlinkat(folder, NEW_NAME, 0) == 0 || errno == ENOENT, "remove " NEW_NAME);
    to = openat(folder, NEW_NAME, O_WRONLY | O_CREAT | O_EXCL, 0600);
    system_must(to >= 0, "open " NEW_NAME);
    write_all(to, kept, length);
    system_must(fsync(to) == 0, "flush " NEW_NAME);
    system_must(close(to) == 0, "close " NEW_NAME);
    system_must(renameat(folder, NEW_NAME, folder, name) == 0, "rename " NEW_NAME);
    system_must(fsync(folder) == 0, "flush the folder");
}

static void store(size_t length)
{
    uint64_t hash = hash_of(file, length);
    for (unsigned i = 0; i < HASH_BYTES; i++)
        kept[i] = (uint8_t)(hash >> (8 * i));
    put_on_disk(NAME, HASH_BYTES + length);
    printf("stored as %s: %zu bytes, hash %016" PRIx64 "\n", NAME, HASH_BYTES + length, hash);
}

/* As many bytes of it as there are and kept has room for. */
static size_t read_whole(const char *name)
{
    size_t length = 0;
    ssize_t got;
    int from = openat(folder, name, O_RDONLY);
    system_must(from >= 0, name);
    while ((got = read(from, kept + length, sizeof kept - length)) != 0) {
        if (got < 0 && errno == EINTR)
            continue;
        system_must(got > 0, name);
        length += (size_t)got;
    }
    system_must(close(from) == 0, name);
    return length;
}

/* Reads a kept exam and answers the length of its file, or 0 where it must not be used. */
static size_t load(const char *name)
{
    size_t length = read_whole(name);
    if (length == sizeof kept) {
        printf("    %s is longer than any exam stored here: do not use it\n", name);
        return 0;
    }
    if (length <= HASH_BYTES || number_at(kept, HASH_BYTES) != hash_of(file, length - HASH_BYTES)) {
        printf("    the hash refuses %s: do not use it, take the copy\n", name);
        return 0;
    }
    return length - HASH_BYTES;
}

/* ---- Maps ---- */

static uint32_t coil_at[ALL_MAPS] = { 0, 1, 2, 3 };     /* the coil whose map a slot holds */

/* A made map: the coil sees more of what is near, and outside a disc is air, 0. */
static void make_map(uint32_t coil)
{
    for (unsigned i = 0; i < VALUES; i++) {
        double x = (double)(i % SIDE), y = (double)(i / SIDE), value = 0.0;
        double from_coil = (x - 20.0 * coil) * (x - 20.0 * coil) + y * y;
        if ((x - 31.5) * (x - 31.5) + (y - 31.5) * (y - 31.5) < 260.0)
            value = 1.0 / (1.0 + from_coil / 400.0);
        memcpy(&words[i], &value, sizeof value);
    }
}

/* The new length comes in a variable of its own: a refusal sets it to 0, and the old length is still right. */
static size_t append_map(size_t length, uint32_t slot)
{
    size_t new_length;
    make_map(coil_at[slot]);
    if (!done("coil_append", coil_append(file, FILE_ROOM, length, EXAM, slot, words, VALUES,
                                         fcm, COIL_TABLE_WORDS(T), dfcm, COIL_TABLE_WORDS(T),
                                         bench, sizeof bench, &new_length)))
        exit(1);
    return new_length;
}

/* COIL_FILE_ROOM is room enough for this too. The bytes that a shorter file leaves free are 0 afterwards: no part of
 * the old map stays in memory behind the file. What is on disk goes when the new file is put there. */
static size_t replace_map(size_t length, uint32_t slot, uint32_t coil)
{
    size_t new_length;
    coil_at[slot] = coil;
    make_map(coil);
    if (!done("coil_replace", coil_replace(file, FILE_ROOM, length, EXAM, slot, words, VALUES,
                                           fcm, COIL_TABLE_WORDS(T), dfcm, COIL_TABLE_WORDS(T),
                                           bench, sizeof bench, &new_length)))
        exit(1);
    printf("coil %u was moved and calibrated again: replaced slot %u, the file had %zu bytes and has %zu\n",
           (unsigned)slot, (unsigned)slot, length, new_length);
    return new_length;
}

/* How many values of a slot are not those that were stored. */
static size_t fetch_and_compare(size_t length, uint32_t slot)
{
    size_t count, different = 0;
    if (!done("coil_fetch", coil_fetch(file, FILE_ROOM, length, EXAM, slot, fcm, COIL_TABLE_WORDS(T),
                                       dfcm, COIL_TABLE_WORDS(T), fetched, VALUES, &count)))
        exit(1);
    must_be_true(count == VALUES, "a map of another size");
    make_map(coil_at[slot]);
    for (size_t i = 0; i < count; i++)
        different += fetched[i] != words[i];
    return different;
}

/* An opened file must have the slots that were stored, no more and no fewer: it may be whole and another one.
 * coil.h says at coil_open where a file tells its entries; each begins with its slot. */
static int has_slots(size_t length, uint32_t slots)
{
    const uint8_t *end = file + length - COIL_EMPTY_FILE;
    if (number_at(file + length - 12, 4) != slots)
        return 0;
    for (uint32_t slot = 0; slot < slots; slot++)
        if (number_at(end - 12 * (size_t)(slots - slot), 4) != slot)
            return 0;
    return 1;
}

/* ---- An exam's life ---- */

static void store_first_maps(void)
{
    size_t length;
    if (!done("coil_create", coil_create(file, FILE_ROOM, EXAM, T, &length)))
        exit(1);
    for (uint32_t slot = 0; slot < FIRST_MAPS; slot++)
        length = append_map(length, slot);
    printf("made an exam of %u maps, %zu bytes each\n", FIRST_MAPS, sizeof words);
    store(length);
}

/* The order matters: the hash, then the exam, then its slots, then the maps. */
static size_t load_all(uint32_t slots)
{
    size_t length = load(NAME);
    if (length == 0 || !done("coil_open", coil_open(file, FILE_ROOM, length, EXAM)))
        exit(1);
    must_be_true(has_slots(length, slots), "other slots than were stored");
    for (uint32_t slot = 0; slot < slots; slot++)
        must_be_true(fetch_and_compare(length, slot) == 0, "a map that came back different");
    printf("loaded: the hash is right, it is exam %" PRIu64 ", slots 0 to %u came back, every bit as it was\n",
           EXAM, (unsigned)slots - 1);
    return length;
}

static void show_another_exam(size_t length)
{
    printf("it is asked for as exam %" PRIu64 "\n", EXAM + 1);
    must_be_true(!done("coil_open", coil_open(file, FILE_ROOM, length, EXAM + 1)), "opened for another exam");
}

static void show_a_changed_byte(size_t length)
{
    size_t offset, block_length;
    if (!done("coil_find", coil_find(file, FILE_ROOM, length, EXAM, 1, &offset, &block_length)))
        exit(1);
    printf("a bit of slot 1 changes on disk\n");
    file[offset + block_length - 1] ^= 1;
    put_on_disk("changed.kept", HASH_BYTES + length);
    must_be_true(load("changed.kept") == 0, "a changed file was loaded");
    printf("    without the hash nobody would see it: coil_fetch answers 0, and %zu values of %u are wrong\n",
           fetch_and_compare(length, 1), VALUES);
    file[offset + block_length - 1] ^= 1;
}

static void show_a_cut(size_t length)
{
    printf("the last byte is cut off on disk\n");
    put_on_disk("cut.kept", HASH_BYTES + length - 1);
    must_be_true(load("cut.kept") == 0, "a cut file was loaded");
    printf("    the library sees it too:\n");
    must_be_true(!done("coil_open", coil_open(file, FILE_ROOM, length - 1, EXAM)), "a cut file was opened");
}

int main(int argc, char **argv)
{
    size_t length;
    if (argc != 2) {
        fprintf(stderr, "usage: exam_on_disk FOLDER\n");
        return 2;
    }
    folder = open(argv[1], O_RDONLY | O_DIRECTORY);
    system_must(folder >= 0, argv[1]);
    store_first_maps();
    length = load_all(FIRST_MAPS);
    length = append_map(length, FIRST_MAPS);
    printf("appended a map as slot %u\n", FIRST_MAPS);
    store(length);
    length = load_all(ALL_MAPS);
    show_another_exam(length);
    show_a_changed_byte(length);
    show_a_cut(length);
    length = load_all(ALL_MAPS);
    store(replace_map(length, 1, MOVED_COIL));
    load_all(ALL_MAPS);
    printf("what to do for each number:\n");
    for (uint32_t number = 0; number <= COIL_BAD_RECORD; number++)
        if (number <= COIL_PADDED || number == COIL_BAD_RECORD)         /* no call answers 14 */
            printf("%6u  %s\n", (unsigned)number, what_to_do(number));
    return 0;
}
