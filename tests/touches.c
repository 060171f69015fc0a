/* What the file calls touch. The blocks of a large file stand in pages that may be neither read nor written:
 * opening, finding and appending, one map or a list, must get along without them, and replacing without those before
 * the block that it replaces. The old bytes of a salvage stand in pages that may only be read. A call that touches what
 * it may not ends the program.
 */
#define _DEFAULT_SOURCE
#include "coil.h"
#include "large_file.h"

#include <stdio.h>
#include <string.h>
#include <sys/mman.h>
#include <unistd.h>

enum { ROOM = COIL_MOST_FILE_BYTES + 65536 };

static unsigned passed, failed;

static const uint64_t words[3] = { 1, 2, 3 };
static uint64_t fcm[1], dfcm[1];
static uint8_t bench[COIL_WORST(3)];
static uint8_t *file;

static void is(const char *what, size_t value, size_t expected)
{
    if (value == expected) {
        passed++;
    } else {
        failed++;
        printf("FAILED %s: %zu, not %zu\n", what, value, expected);
    }
}

static void protect(size_t bytes, int allowed)
{
    if (mprotect(file, bytes, allowed) != 0) {
        perror("mprotect");
        failed++;
    }
}

/* Takes away all pages before the one in which the place is. */
static size_t lock_before(size_t place)
{
    size_t page = (size_t)sysconf(_SC_PAGESIZE);
    size_t locked = place / page * page;
    protect(locked, PROT_NONE);
    return locked;
}

static void unlock(size_t locked)
{
    protect(locked, PROT_READ | PROT_WRITE);
}

static size_t directory_of(size_t length, size_t entries)
{
    return length - TRAILER - ENTRY * entries;
}

static void open_and_find(size_t length)
{
    size_t offset, size;
    lay_out(file, length, 1024);
    size_t locked = lock_before(directory_of(length, 1024));
    printf("16,777,216 bytes and 1,024 entries, of which %zu bytes may not be touched\n", locked);
    is("open", coil_open(file, ROOM, length, EXAM), COIL_DONE);
    is("open as another exam", coil_open(file, ROOM, length, EXAM + 1), COIL_WRONG_EXAM);
    is("find the last slot", coil_find(file, ROOM, length, EXAM, 10230, &offset, &size), COIL_DONE);
    is("its end", offset + size, directory_of(length, 1024));
    is("find no slot", coil_find(file, ROOM, length, EXAM, 5, &offset, &size), COIL_NO_SUCH_SLOT);
    unlock(locked);
}

static void append(size_t length)
{
    size_t new_length;
    lay_out(file, length, 1023);
    size_t locked = lock_before(directory_of(length, 1023));
    is("append", coil_append(file, ROOM, length, EXAM, 10230, words, 1, fcm, 1, dfcm, 1, bench, sizeof bench,
                             &new_length), COIL_DONE);
    is("new length", new_length, length + ENTRY + 10);
    is("open after the append", coil_open(file, ROOM, new_length, EXAM), COIL_DONE);
    unlock(locked);
}

/* Two maps of 10 and 11 bytes go in, and the file is full for the third. */
static void append_all(size_t length)
{
    const coil_record records[3] = { { 10220, 0, 1 }, { 10230, 1, 2 }, { 10240, 0, 3 } };
    size_t appended, new_length;
    lay_out(file, length, 1022);
    size_t locked = lock_before(directory_of(length, 1022));
    is("append a list", coil_append_all(file, ROOM, length, EXAM, records, 3, words, 3, fcm, 1, dfcm, 1,
                                        bench, sizeof bench, &appended, &new_length), COIL_FILE_FULL);
    is("how many went in", appended, 2);
    is("new length after the list", new_length, length + 2 * ENTRY + 10 + 11);
    is("open after the list", coil_open(file, ROOM, new_length, EXAM), COIL_DONE);
    unlock(locked);
}

/* By one word, and then by three: what stands behind the block moves down, and then up again. */
static void replace(size_t length, uint32_t slot)
{
    size_t offset, size, shorter, longer;
    lay_out(file, length, 1024);
    is("find the slot", coil_find(file, ROOM, length, EXAM, slot, &offset, &size), COIL_DONE);
    size_t locked = lock_before(offset);
    printf("replacing slot %u, at byte %zu: %zu bytes may not be touched\n", (unsigned)slot, offset, locked);
    is("replace by fewer bytes", coil_replace(file, ROOM, length, EXAM, slot, words, 1, fcm, 1, dfcm, 1,
                                              bench, sizeof bench, &shorter), COIL_DONE);
    is("shorter", shorter, length - size + 10);
    is("replace by more bytes", coil_replace(file, ROOM, shorter, EXAM, slot, words, 3, fcm, 1, dfcm, 1,
                                             bench, sizeof bench, &longer), COIL_DONE);
    is("longer", longer, shorter + 1);
    is("open after the replaces", coil_open(file, ROOM, longer, EXAM), COIL_DONE);
    unlock(locked);
}

/* Blocks of 8 bytes without words, in a page that is not written to, not even with what stands there already. */
static void salvage(void)
{
    static uint8_t made[COIL_SALVAGE_ROOM(4096)];
    size_t length, kept, left_over;
    uint32_t renumbered;
    memset(file, 0, 4096);
    for (size_t i = 4; i < 4096; i += 8)
        file[i] = 8;
    protect(4096, PROT_READ);
    is("salvage", coil_salvage(file, 4096, made, sizeof made, EXAM, 0, &length, &kept, &left_over, &renumbered),
       COIL_DONE);
    is("blocks that were kept", kept, 512);
    is("the new file", length, sizeof made);
    is("open what was salvaged", coil_open(made, sizeof made, length, EXAM), COIL_DONE);
    protect(4096, PROT_READ | PROT_WRITE);
}

int main(void)
{
    void *memory = mmap(NULL, ROOM, PROT_READ | PROT_WRITE, MAP_PRIVATE | MAP_ANONYMOUS, -1, 0);
    if (memory == MAP_FAILED) {
        perror("mmap");
        return 1;
    }
    file = memory;
    open_and_find(COIL_MOST_FILE_BYTES);
    append(COIL_MOST_FILE_BYTES - 65536);
    append_all(COIL_MOST_FILE_BYTES - 65536);
    replace(COIL_MOST_FILE_BYTES, 5120);
    replace(COIL_MOST_FILE_BYTES, 10230);
    salvage();
    printf("%u passed, %u failed\n", passed, failed);
    return failed != 0;
}
