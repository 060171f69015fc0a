/* What all contenders of the benchmark have in common. */
#ifndef BENCH_CONTENDER_H
#define BENCH_CONTENDER_H

#include <stddef.h>
#include <stdint.h>

/* What is to be packed. The general codecs know no t; most know no rows. */
typedef struct {
    const uint64_t *words;
    size_t count;
    size_t row;       /* words in a row */
    unsigned t;
} job;

typedef struct {
    const char *name;
    const char *package;   /* the Debian package that adds it, or NULL where it is always there */
    unsigned t;            /* 0 where it knows no t */
    /* Answers the packed length, or 0 where it failed. NULL where the package was missing. */
    size_t (*pack)(const job *j, uint8_t *out, size_t room);
    /* Answers whether it gave j->count words. */
    int (*unpack)(const job *j, const uint8_t *packed, size_t length, uint64_t *words);
} contender;

/* Room for what any contender makes of the largest input. */
#define PACKED_ROOM (2u * 8u * 65536u + 65536u)

#define STORES 6
extern const contender stores[STORES];   /* the store, the independent C, the expert C: t = 10, then t = 16 */

#define CODECS 7
extern const contender codecs[CODECS];

/* Compares the store with both C versions: blocks, words and tables, for every t and for odd and even counts; and what
 * their checks answer to damaged blocks. Answers 0 and says what differs where anything does. */
int stores_agree(void);

#endif
