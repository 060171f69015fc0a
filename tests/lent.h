/* Buffers that are lent to both sides, with guards around them.
 *
 * Each buffer has three copies: as it was before the call, the library's and the reference's. Guard
 * bytes stand before each copy. Behind it stand guard bytes too, or, every second time, a page of
 * memory that may not even be read: a call that reads or writes past the end then stops the program.
 */
#ifndef LENT_H
#define LENT_H

#include <stdbool.h>
#include <stddef.h>
#include <stdint.h>

typedef struct {
    const char *name;
    size_t capacity;            /* most bytes that can be lent */
    size_t size;                /* bytes lent now */
    size_t guard_behind;        /* guard bytes behind; 0 where the forbidden page follows at once */
    uint8_t *before_end;        /* each copy ends, guard included, at its end */
    uint8_t *library_end;
    uint8_t *reference_end;
} lent;

/* The memory of one buffer, for the whole run. */
void lent_prepare(lent *l, const char *name, size_t capacity);

/* Lends size bytes: first those of content (as many as fit), then random ones. */
void lent_set(lent *l, const void *content, size_t content_size, size_t size);

uint8_t *lent_library(const lent *l);
uint8_t *lent_reference(const lent *l);
/* What both held before the call. */
const uint8_t *lent_before(const lent *l);

/* A fault of the library's or of the reference's copy after the call, in words; null where none.
 * Where unchanged is set, the content must be as it was before. */
const char *lent_fault(const lent *l, bool unchanged);

/* The first byte in which two copies differ, for the report. */
void lent_print_difference(const lent *l, bool unchanged);

#endif
