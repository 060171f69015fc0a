/* Blocks and exam files to try the calls on, written here byte by byte.
 *
 * Nothing here uses the library or the reference: it is a second look at the layout, and it can write
 * what no call would write.
 */
#ifndef INPUTS_H
#define INPUTS_H

#include "calls.h"

#include <stddef.h>
#include <stdint.h>

#define WORST(n) (8 + ((n) + 1) / 2 + 8 * (n))

/* Places of the fields, counted from the start of the trailer or of an entry. */
enum {
    AT_MARK = 0, AT_EDITION = 4, AT_T = 6, AT_EXAM = 8, AT_DISTANCE = 16, AT_ENTRIES = 20, AT_LENGTH = 24
};
enum { AT_SLOT = 0, AT_OFFSET = 4, AT_BLOCK_LENGTH = 8 };

void put_field(uint8_t *at, unsigned bytes, uint64_t value);
uint64_t get_field(const uint8_t *at, unsigned bytes);

/* Every kind of words, up to most of them, with every t, some rounds of each: made and then tried. */
typedef void try_words(size_t count, uint32_t t, unsigned round);
void every_kind_and_t(const char *title, unsigned rounds, uint64_t *words, size_t most, try_words *try);

/* Residual bytes, by the low three bits of a code. */
extern const unsigned residual_width[8];

/* The fewest bytes that any code writes for a residual. Each code is tried: nothing here counts zero bytes. */
unsigned fewest_bytes(uint64_t residual);

/* Of a block that can be read (none of 4, 2, 5, 6 answers): the code of a word, and where its residual starts. */
unsigned code_at(const uint8_t *block, size_t index);
size_t residual_at(const uint8_t *block, size_t index);

/* Whether some residual takes more bytes than another code would: what 13 refuses of a block that can be read. */
bool has_padding(const uint8_t *block);

/* Writes a block anew, each residual with as few bytes as any code does, by the predictor that was named. So it reads
 * as the words that the block would give if nothing of it were refused. Answers its length. */
size_t tighten(uint8_t *to, const uint8_t *block);

/* A block of these codes, or of random ones, and of random residual bytes, with no residual padded. At most 65,536
 * words. Answers its length. */
size_t forge_block_of(uint8_t *block, const uint8_t *codes, size_t count);
size_t forge_block(uint8_t *block, size_t count);

/* Makes the top byte of a residual 0; with low bits 3, its two top bytes. Answers false where the word has none. */
bool pad_residual(uint8_t *block, size_t index);

/* A block of random codes and bytes with one to three residuals padded. It needs a word. */
size_t forge_padded_block(uint8_t *block, size_t count);

/* Blocks without padding and with some, with every t, at most 200 words each: made and then tried. */
typedef void try_forged(size_t length, size_t count, uint32_t t);
void every_forged_block(const char *title, unsigned rounds, uint8_t *block, try_forged *try);
void every_padded_block(const char *title, unsigned rounds, uint8_t *block, try_forged *try);

typedef struct {
    uint8_t *bytes;
    size_t capacity;
    size_t length;
    size_t entries;
    uint64_t exam;
    uint32_t t;
} exam_file;

/* An empty file in new memory of that capacity. */
exam_file new_exam_file(size_t capacity, uint64_t exam, uint32_t t);
void forget_exam_file(exam_file *f);
/* Adds an entry, whatever the slot and the bytes of the block are. */
void add_block(exam_file *f, uint32_t slot, const uint8_t *block, size_t block_len);
/* Takes over what an append, a list of appends or a replace left. */
void take_over(exam_file *f, outcome appended);
void take_over_list(exam_file *f, outcome appended);
void take_over_replaced(exam_file *f, outcome replaced);

uint8_t *trailer_of(const exam_file *f);
uint8_t *entry_of(const exam_file *f, size_t index);

/* The file in a buffer with that many bytes more. */
lent_file lend_with_spare(const exam_file *f, size_t spare);

table_sizes tables_of(uint32_t t);

/* A small file of random slots with words of random kinds. */
exam_file small_exam_file(uint32_t t, size_t entries, size_t most_words);

#endif
