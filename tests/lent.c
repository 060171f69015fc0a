/* See lent.h. */
#define _DEFAULT_SOURCE
#include "lent.h"
#include "words.h"

#include <stdio.h>
#include <stdlib.h>
#include <string.h>
#include <sys/mman.h>

#define GUARD 64u
#define PAGE 65536u         /* a multiple of the page size of every machine we know */
#define POOL (1u << 20)

static uint8_t *pool;       /* random bytes to fill from: filling byte by byte would be slow */

static uint8_t *map_with_forbidden_page(size_t bytes)
{
    size_t whole = (bytes + PAGE - 1) / PAGE * PAGE;
    uint8_t *memory = mmap(NULL, whole + PAGE, PROT_READ | PROT_WRITE,
                           MAP_PRIVATE | MAP_ANONYMOUS | MAP_NORESERVE, -1, 0);
    if (memory == MAP_FAILED || mprotect(memory + whole, PAGE, PROT_NONE) != 0) {
        printf("cannot map memory for the buffers\n");
        exit(2);
    }
    return memory + whole;
}

void lent_prepare(lent *l, const char *name, size_t capacity)
{
    if (pool == NULL) {
        pool = map_with_forbidden_page(POOL) - POOL;
        random_bytes(pool, POOL);
    }
    l->name = name;
    l->capacity = capacity;
    l->size = 0;
    l->guard_behind = GUARD;
    l->before_end = map_with_forbidden_page(capacity + 2 * GUARD);
    l->library_end = map_with_forbidden_page(capacity + 2 * GUARD);
    l->reference_end = map_with_forbidden_page(capacity + 2 * GUARD);
}

static size_t whole_size(const lent *l)
{
    return GUARD + l->size + l->guard_behind;
}

static void fill_from_pool(uint8_t *bytes, size_t count)
{
    while (count > 0) {
        size_t start = random_below(POOL);
        size_t part = POOL - start < count ? POOL - start : count;
        memcpy(bytes, pool + start, part);
        bytes += part;
        count -= part;
    }
}

void lent_set(lent *l, const void *content, size_t content_size, size_t size)
{
    if (size > l->capacity) {
        printf("the tests lend more than they prepared: %s, %zu bytes\n", l->name, size);
        exit(2);
    }
    l->size = size;
    l->guard_behind = random_below(2) ? GUARD : 0;
    size_t known = content_size < size ? content_size : size;
    uint8_t *start = l->before_end - whole_size(l);
    fill_from_pool(start, GUARD);
    if (known > 0) {
        memcpy(start + GUARD, content, known);
    }
    fill_from_pool(start + GUARD + known, size - known + l->guard_behind);
    memcpy(l->library_end - whole_size(l), start, whole_size(l));
    memcpy(l->reference_end - whole_size(l), start, whole_size(l));
}

uint8_t *lent_library(const lent *l)
{
    return l->library_end - l->guard_behind - l->size;
}

uint8_t *lent_reference(const lent *l)
{
    return l->reference_end - l->guard_behind - l->size;
}

const uint8_t *lent_before(const lent *l)
{
    return l->before_end - l->guard_behind - l->size;
}

static bool guards_differ(const lent *l, const uint8_t *end)
{
    const uint8_t *before = l->before_end - whole_size(l);
    const uint8_t *after = end - whole_size(l);
    return memcmp(before, after, GUARD) != 0
        || memcmp(before + GUARD + l->size, after + GUARD + l->size, l->guard_behind) != 0;
}

const char *lent_fault(const lent *l, bool unchanged)
{
    size_t whole = whole_size(l);
    const uint8_t *before = l->before_end - whole;
    const uint8_t *library = l->library_end - whole;
    const uint8_t *reference = l->reference_end - whole;
    if (guards_differ(l, l->library_end)) {
        return "the library wrote outside";
    }
    if (guards_differ(l, l->reference_end)) {
        return "the reference wrote outside";
    }
    if (unchanged && memcmp(before, library, whole) != 0) {
        return "the library changed what must stay";
    }
    if (unchanged && memcmp(before, reference, whole) != 0) {
        return "the reference changed what must stay";
    }
    return memcmp(library, reference, whole) != 0 ? "library and reference differ" : NULL;
}

void lent_print_difference(const lent *l, bool unchanged)
{
    size_t whole = whole_size(l);
    const uint8_t *library = l->library_end - whole;
    const uint8_t *expected = (unchanged ? l->before_end : l->reference_end) - whole;
    for (size_t i = 0; i < whole; i++) {
        if (library[i] != expected[i]) {
            printf("    %s of %zu bytes: byte %ld is %02X, expected %02X\n", l->name, l->size,
                   (long)i - (long)GUARD, library[i], expected[i]);
            return;
        }
    }
}
