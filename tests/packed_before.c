/* A file that was packed before request L2, when whole zero bytes were compared, gives its maps bit for bit.
 *
 *     packed_before OLD NEW
 *
 * OLD is the sample exam as it was packed then, NEW as it is packed now. Every map is made once more, as it was before
 * any packing. The library fetches it from both files, and the reference from OLD. */
#include "../examples/sample_map.h"
#include "coil.h"
#include "reference.h"

#include <stdio.h>

#define TABLE COIL_TABLE_WORDS(T)

typedef struct {
    uint8_t bytes[COIL_FILE_ROOM(SLOTS, VALUES)];
    size_t length;
} exam;

static exam old, new;
static uint64_t fcm[TABLE], dfcm[TABLE];
static uint64_t words[VALUES], fetched[VALUES];
static unsigned passed;
static unsigned failed;

static void holds(int right, const char *what, uint32_t slot)
{
    if (right) {
        passed++;
    } else {
        failed++;
        printf("FAILED packed_before, slot %u: %s\n", (unsigned)slot, what);
    }
}

static int read_exam(exam *e, const char *path)
{
    FILE *from = fopen(path, "rb");
    if (from == NULL) {
        printf("FAILED packed_before: cannot read %s\n", path);
        return 0;
    }
    e->length = fread(e->bytes, 1, sizeof e->bytes, from);
    fclose(from);
    return e->length > 0;
}

typedef uint32_t fetch_call(const uint8_t *, size_t, size_t, uint64_t, uint32_t, uint64_t *, size_t,
                            uint64_t *, size_t, uint64_t *, size_t, size_t *);

static void gives_map(fetch_call *fetch, const exam *e, uint32_t slot, const char *what)
{
    size_t count = 0;
    uint32_t answer = fetch(e->bytes, e->length, e->length, EXAM, slot, fcm, TABLE, dfcm, TABLE, fetched, VALUES,
                            &count);
    make_map(slot, words);
    holds(answer == COIL_DONE && count == VALUES >> slot && memcmp(fetched, words, 8 * count) == 0, what, slot);
}

/* Both maps have equally long blocks, at the same place. Answers whether they have other bytes. */
static int same_place(uint32_t slot)
{
    size_t offset[2] = { 0, 0 }, size[2] = { 0, 0 };
    uint32_t first = coil_find(old.bytes, old.length, old.length, EXAM, slot, &offset[0], &size[0]);
    uint32_t second = coil_find(new.bytes, new.length, new.length, EXAM, slot, &offset[1], &size[1]);
    holds(first == COIL_DONE && second == COIL_DONE && offset[0] == offset[1] && size[0] == size[1],
          "its block has the place and the length that it had", slot);
    return memcmp(old.bytes + offset[0], new.bytes + offset[1], size[0]) != 0;
}

int main(int argc, char **argv)
{
    unsigned others = 0;
    if (argc != 3 || !read_exam(&old, argv[1]) || !read_exam(&new, argv[2])) {
        return 2;
    }
    holds(coil_open(old.bytes, old.length, old.length, EXAM) == COIL_DONE, "it opens", 0);
    holds(coil_open(old.bytes, old.length, old.length, EXAM + 1) == COIL_WRONG_EXAM, "for its own exam alone", 0);
    for (uint32_t slot = 0; slot < SLOTS; slot++) {
        gives_map(coil_fetch, &old, slot, "the file packed before gives the map");
        gives_map(coil_fetch, &new, slot, "so does the file packed now");
        gives_map(ref_fetch, &old, slot, "so does the reference");
        others += (unsigned)same_place(slot);
    }
    holds(others == 2, "two of the five blocks have other bytes now", 0);
    printf("%u passed, %u failed\n", passed, failed);
    return failed != 0;
}
