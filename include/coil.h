/* coil.h - pack 64-bit words into blocks and keep the blocks of one exam in one file.
 *
 * Link with libcoil.a, which is for x86-64 Linux and calls nothing but memset and memcpy. This header is
 * the manual. It is C99 and C++17.
 *
 * WHAT THE STORE DOES
 *
 * A word is 64 bits. The store never reads it as a number with a fraction. Copy your doubles into
 * words with memcpy: both zeros, infinities and every NaN pattern come back unchanged.
 *
 * A block holds 0 to 65,536 words. An exam file holds up to 1,024 blocks, each under its own slot
 * number, and one exam number for all of them. Both live in your memory. Reading and writing disks
 * is your part.
 *
 * WHAT YOU LEND
 *
 * Every pointer is lent for the time of the call only. The library allocates nothing, prints nothing
 * and keeps nothing between calls: no pointer, no table, no setting. It takes less than 1,024 bytes of
 * stack. (A dynamic linker takes more, once, to find memset and memcpy.) It has no global state. Two threads
 * may call at once as long as neither writes into memory that the other uses.
 *
 * The C side is checked by nothing. These four rules are yours to keep, and breaking one is undefined:
 *
 *   1. Each pointer must be valid for its length. The length of a byte buffer is in bytes, the length
 *      of a word buffer is in words of 8 bytes, the length of a list of records is in records of 24 bytes.
 *   2. Each pointer to words must be aligned for uint64_t, each pointer to a number for the number's type, the
 *      pointer to records for coil_record.
 *   3. No pointer may be null, not even where the length is 0.
 *   4. The buffers, the list of records and the numbers of one call must not overlap.
 *
 * WHAT IS ANSWERED
 *
 * Every call answers one number, 0 to 13 or 15, listed below. 0 is success.
 *
 *   On success, each lent number holds its result. Each buffer written holds its result first and its
 *   old content beyond, with two exceptions: coil_replace clears what a file that gets shorter leaves free, and
 *   coil_append_all leaves in its bench, beyond the last block, what the blocks before it left there. Both tables
 *   hold the state of the predictors after the last word (of a list, after its last map).
 *
 *   On a refusal, each lent number (length, count, offset, block_length, appended, new_length, kept, left_over,
 *   renumbered) is 0. Nothing else you lent has changed, the tables included. There is one exception: where
 *   coil_append_all refuses a record that is not its first, the maps before that record stay in the file, appended
 *   and new_length say how many they are and how long the file is now, and the tables and the bench are as those
 *   maps left them.
 *   The refused record itself has changed nothing. From then on the file's length is new_length: with the old one
 *   you would lend a file cut short.
 *
 * Where several rules are broken, the first check of the call's list answers.
 *
 * A FILE THAT THESE CALLS MADE
 *
 * So is called below a file that coil_create made, or that coil_salvage made of such a file, whole or cut short, with
 * the t that it was made with; and then any coil_append, coil_append_all and coil_replace. A refused call changes
 * nothing of this; of a list that was refused, what went in counts. The file may have been copied, to disk and back,
 * say, as long as no byte was changed.
 *
 * TABLES
 *
 * Packing and unpacking need two tables, fcm and dfcm, both of 2^t words with t from 0 to 16. The call
 * clears both before it uses them, so old content does not matter, and the same two tables can serve
 * every call, one call after the other. t = 10 (1,024 words, 8 KiB a table) is a fair start.
 *
 * FOUR WARNINGS
 *
 *   A block does not tell its t. Unpacking a block with tables of another size than it was packed with
 *   may answer 0 and give other words. So keep maps in exam files: a file tells its t, and coil_fetch
 *   refuses tables of another size.
 *
 *   There is no checksum. Damage that breaks a rule is refused. Damage that breaks none is believed. It
 *   can be in the residual bytes, the codes or the word count of a block: then other words come out. It can
 *   be in the file's t: then coil_fetch refuses tables of the right size, and gives other words if you take t
 *   from the file. It can be in a slot number or in the exam number: then the words answer to another slot or
 *   exam. 13 is none: it sees few changes of residual bytes. Where storage can damage bytes, keep a checksum of
 *   your own.
 *
 *   A file that these calls made and that was cut short hardly ever opens, but it may: where what is left
 *   happens to end like a file. Then coil_fetch refuses at least one of its slots. Of a file that
 *   another program made, a first part may open with nothing refused. A block that was cut short is always
 *   refused. docs/CUT_FILES.md has the details. coil_salvage gives back the maps whose blocks end at or before the cut.
 *
 *   Packing the same words again may give other bytes than before request L2 (16 November 2026), of the same length:
 *   the choice between the two predictors goes by leading zero bits since. Nothing needs to be converted. Earlier blocks
 *   and files are checked, opened, unpacked and fetched as they were, you can append to and replace in them, and a
 *   library from before reads what this one packs. docs/FORMAT.md, "Blocks packed before", has the details.
 */
#ifndef COIL_H
#define COIL_H

#include <stddef.h>
#include <stdint.h>

#ifdef __cplusplus
extern "C" {
#endif

/* ---- Limits and room -------------------------------------------------------------------------- */

/* Most words in one block. */
#define COIL_MOST_WORDS 65536u
/* Most bytes in one exam file. */
#define COIL_MOST_FILE_BYTES 16777216u
/* Most entries (slots) in one exam file. */
#define COIL_MOST_ENTRIES 1024u
/* Largest t. */
#define COIL_MOST_T 16u
/* Bytes of an exam file without a slot. */
#define COIL_EMPTY_FILE 32u

/* Words in each of the two tables for t from 0 to 16. */
#define COIL_TABLE_WORDS(t) ((size_t)1 << (t))

/* Bytes that the block of n words needs at worst: 8 + n/2 rounded up + 8n. For 65,536 words this is
 * 557,064. Packing asks for this room beforehand, whatever the words are. */
#define COIL_WORST(n) ((size_t)8 + ((size_t)(n) + 1) / 2 + 8 * (size_t)(n))

/* Bytes of buffer that appending n words asks for, where the file has length bytes now. The answer of
 * the append is the new length, often much smaller. */
#define COIL_APPEND_ROOM(length, n) ((size_t)(length) + 12 + COIL_WORST(n))

/* Bytes of buffer that replacing the words of a slot by n words asks for, where the file has length bytes now
 * and the slot's block has block_length of them: the file itself, and more where the new block may be longer.
 * The answer of the replace is the new length. */
#define COIL_REPLACE_ROOM(length, block_length, n) \
    ((size_t)(length) + (COIL_WORST(n) > (size_t)(block_length) ? COIL_WORST(n) - (size_t)(block_length) : 0))

/* Bytes of buffer in which k maps of at most n words can be kept, appended one by one or as a list, each replaced
 * as often as you like. For maps of different lengths add COIL_APPEND_ROOM(0, n) of each to COIL_EMPTY_FILE, with
 * the larger n where a map is to be replaced by a longer one. A file has at most COIL_MOST_ENTRIES maps and
 * COIL_MOST_FILE_BYTES bytes: beyond that an append answers 12 or 3, and a replace 3. */
#define COIL_FILE_ROOM(k, n) (COIL_EMPTY_FILE + (size_t)(k) * COIL_APPEND_ROOM(0, n))

/* Bytes of buffer in which the salvage of old_len bytes always has room: the old bytes, an entry for each block that
 * they can hold, the trailer. No more than COIL_MOST_FILE_BYTES are ever needed: a longer file is refused, whatever you
 * lend. Of a file that these calls made, a buffer as long as the file was before it was cut is enough, too. */
#define COIL_SALVAGE_ROOM(old_len) \
    ((size_t)(old_len) + COIL_EMPTY_FILE \
     + 12 * ((size_t)(old_len) / 8 < COIL_MOST_ENTRIES ? (size_t)(old_len) / 8 : COIL_MOST_ENTRIES))

/* ---- Numbers answered ------------------------------------------------------------------------- */

/* Done. */
#define COIL_DONE 0u
/* The two tables differ in length, or the length is not a power of two from 1 to 65,536. For a file:
 * the length is not 2^t with the file's own t. */
#define COIL_BAD_TABLES 1u
/* More than 65,536 words given, or declared by the block. */
#define COIL_TOO_MANY_WORDS 2u
/* A buffer you lent for the result has not enough room; or COIL_APPEND_ROOM, for an append (each record of
 * coil_append_all is one), or COIL_REPLACE_ROOM, for a replace, passes 16,777,216 bytes; or the new file of a
 * salvage does. */
#define COIL_NO_ROOM 3u
/* The block is under 8 bytes, or the file under 32; or the file's length is beyond its buffer. */
#define COIL_TOO_SHORT 4u
/* The block's length field is not the length of the bytes given, or is not what its codes add up to. */
#define COIL_BAD_BLOCK_LENGTH 5u
/* The block has an odd count, and the unused half of its last code byte is not 7. */
#define COIL_BAD_FILLER 6u
/* The file's trailer breaks a rule other than the exam number (as what stands in its place mostly does where length is
 * not the file's own), or the file is over 16,777,216 bytes. At creation, and for a salvage: t is above 16. */
#define COIL_BAD_TRAILER 7u
/* The exam number is 0, or is not the one asked for. At creation, and for a salvage: it is 0. */
#define COIL_WRONG_EXAM 8u
/* The file's directory breaks a rule. */
#define COIL_BAD_DIRECTORY 9u
/* The slot is not in the file. */
#define COIL_NO_SUCH_SLOT 10u
/* Append, and each record of coil_append_all: the slot is not above the last slot that the file has by then. */
#define COIL_SLOT_NOT_ABOVE 11u
/* Append, and each record of coil_append_all: the file has 1,024 entries already. */
#define COIL_FILE_FULL 12u
/* A code of the block is padded: its residual has zero bytes on top that a code with fewer bytes would have left out. No
 * block that coil_pack and its like wrote has one, now or before, so it was damaged, or another program wrote it. (A
 * library from before request L6 took such a block; where it was damaged, the words were wrong.) docs/CUT_FILES.md says
 * what to do. */
#define COIL_PADDED 13u
/* A record of coil_append_all: its first word plus its count is above the length of the word buffer. (14 is not
 * used.) */
#define COIL_BAD_RECORD 15u

/* ---- Blocks ----------------------------------------------------------------------------------- */

/* Pack words into a block.
 *
 *   words, words_len   the words; read only
 *   fcm, dfcm          the two tables; cleared and used
 *   out, out_len       room for the block; lend at least COIL_WORST(words_len) bytes
 *   length             becomes the length of the block in bytes
 *
 * Checks in order: 1 tables; 2 more than 65,536 words; 3 out_len under COIL_WORST(words_len).
 * On success the first *length bytes of out are the block and the rest of out is as it was. No block is shorter: any
 * bytes that are a block of the same words, with tables of the same size, are at least as many, padded or not. */
uint32_t coil_pack(const uint64_t *words, size_t words_len,
                   uint64_t *fcm, size_t fcm_len, uint64_t *dfcm, size_t dfcm_len,
                   uint8_t *out, size_t out_len, size_t *length);

/* Check that bytes are one well-formed block, neither more nor less. Needs no table and writes nothing.
 *
 *   block, block_len   the bytes; read only
 *
 * Checks in order: 4 under 8 bytes; 2 declares more than 65,536 words; 5 length; 6 filler; 13 a padded code.
 * A block that passes is not refused by coil_unpack, given two valid tables and the room. It need
 * not be a block that coil_pack would write: blocks packed before request L2 pass too. The number of words it
 * declares is its first 4 bytes, least significant byte first: so much room coil_unpack asks for. */
uint32_t coil_check(const uint8_t *block, size_t block_len);

/* Unpack a block into words.
 *
 *   block, block_len   the block, exactly its bytes; read only
 *   fcm, dfcm          the two tables, of the size the block was packed with; cleared and used
 *   words, words_len   room for the words; as many as the block declares are enough
 *   count              becomes the number of words
 *
 * Checks in order: 1 tables; then those of coil_check (4, 2, 5, 6, 13); 3 words_len under the count.
 * On success the first *count words are the result and the rest of words is as it was.
 * Tables of another size than the block was packed with may give other words and the answer 0. */
uint32_t coil_unpack(const uint8_t *block, size_t block_len,
                     uint64_t *fcm, size_t fcm_len, uint64_t *dfcm, size_t dfcm_len,
                     uint64_t *words, size_t words_len, size_t *count);

/* ---- Exam files ------------------------------------------------------------------------------- */

/* A file is lent as a buffer of file_len bytes. The file itself is the first length bytes of it. What
 * lies beyond length is free room for appending and replacing. Keep the length with the buffer: each call that makes
 * or changes a file answers the new one. To store the file on disk, write its first length bytes, best under
 * a new name that then replaces the old one, with a hash. To go on with it, read it into a buffer with room to
 * append or replace. examples/exam_on_disk.c does both.
 *
 * "open" in the lists of checks below is all of coil_open's checks in their order. */

/* Make an empty exam file at the start of a buffer. What the buffer held there is lost.
 *
 *   file, file_len     the buffer; 32 bytes (COIL_EMPTY_FILE) are enough to create
 *   exam               the exam number, any but 0
 *   t                  tables of 2^t words will be used for every slot; 0 to 16
 *   length             becomes the file's length, 32
 *
 * Checks in order: 8 exam number 0; 7 t above 16; 3 file_len under 32. */
uint32_t coil_create(uint8_t *file, size_t file_len, uint64_t exam, uint32_t t, size_t *length);

/* Check that bytes are an exam file of the exam asked for. Writes nothing. There is nothing to close.
 *
 *   file, file_len     the buffer; read only
 *   length             the file's length
 *   exam               the exam number asked for
 *
 * Checks in order: 4 length under 32 or beyond file_len; 7 file over 16,777,216 bytes or trailer;
 * 8 exam number; 9 directory.
 * The blocks themselves are not checked here. coil_fetch checks the block it reads.
 * A program that does not know the t of a file it has opened finds it in the 2 bytes from
 * file[length - 26], and the number of entries in the 4 bytes from file[length - 12], both least
 * significant byte first. The exam number is the 8 bytes from file[length - 24]; the entries, 12 bytes each,
 * slot first, end before file[length - 32]. docs/FORMAT.md has every byte. */
uint32_t coil_open(const uint8_t *file, size_t file_len, size_t length, uint64_t exam);

/* Find the block of a slot.
 *
 *   file .. exam       as for coil_open
 *   slot               the slot asked for, any 32-bit number
 *   offset             becomes the block's first byte in the file
 *   block_length       becomes the block's length in bytes
 *
 * Checks in order: open (4, 7, 8, 9); 10 slot not in the file.
 * On success the block is file[*offset] up to file[*offset + *block_length - 1], inside the file, at
 * least 8 bytes, and not yet checked. On a refusal both numbers are 0; a block_length of 0 always
 * means refused. */
uint32_t coil_find(const uint8_t *file, size_t file_len, size_t length, uint64_t exam, uint32_t slot,
                   size_t *offset, size_t *block_length);

/* Fetch the words of a slot.
 *
 *   file .. slot       as for coil_find
 *   fcm, dfcm          the two tables, of 2^t words with the file's t; cleared and used
 *   words, words_len   room for the words; as many as the slot holds are enough. A program that does not
 *                      know how many finds them, by coil_find, in the block's first 4 bytes, least
 *                      significant byte first; COIL_MOST_WORDS are always enough
 *   count              becomes the number of words
 *
 * Checks in order: open (4, 7, 8, 9); 10 slot; 1 tables; the block's checks (2, 5, 6, 13; not 4, since a block
 * in a file has at least 8 bytes); 3 words_len under the count.
 * On success the first *count words are the result and the rest of words is as it was. */
uint32_t coil_fetch(const uint8_t *file, size_t file_len, size_t length, uint64_t exam, uint32_t slot,
                    uint64_t *fcm, size_t fcm_len, uint64_t *dfcm, size_t dfcm_len,
                    uint64_t *words, size_t words_len, size_t *count);

/* Append words under a new slot, which must be above every slot in the file.
 *
 *   file, file_len     the buffer; lend at least COIL_APPEND_ROOM(length, words_len) bytes
 *   length, exam       as for coil_open
 *   slot               the new slot
 *   words, words_len   the words; read only
 *   fcm, dfcm          the two tables, of 2^t words with the file's t; cleared and used
 *   bench, bench_len   room to pack in; lend at least COIL_WORST(words_len) bytes
 *   new_length         becomes the file's new length, and 0 on a refusal: lend another variable than the
 *                      one that holds the old length, which is still right then
 *
 * Checks in order: open (4, 7, 8, 9); 12 file has 1,024 entries; 11 slot not above the last; 1 tables;
 * 2 more than 65,536 words; 3 COIL_APPEND_ROOM(length, words_len) above file_len or above 16,777,216,
 * or bench_len under COIL_WORST(words_len).
 * On success the new block is also in the first bytes of bench. Earlier blocks are where they were.
 * The buffer beyond *new_length, and the bench beyond the block, are as they were. */
uint32_t coil_append(uint8_t *file, size_t file_len, size_t length, uint64_t exam, uint32_t slot,
                     const uint64_t *words, size_t words_len,
                     uint64_t *fcm, size_t fcm_len, uint64_t *dfcm, size_t dfcm_len,
                     uint8_t *bench, size_t bench_len, size_t *new_length);

/* A map of a list: its slot, and its words, which are words[first] up to words[first + count - 1] of the one word
 * buffer that is lent with the list. sizeof(coil_record) is 24. What lies between the fields is not read. */
typedef struct coil_record {
    uint32_t slot;
    size_t first;
    size_t count;
} coil_record;

/* Append the maps of a list, one after another, up to the first that is refused. The outcome is that of coil_append
 * called for each record in turn: the same file, tables and bench.
 *
 *   file, file_len     the buffer; each append asks for COIL_APPEND_ROOM of the length reached by then. Enough are:
 *                      for k records of at most n words COIL_FILE_ROOM(k, n) bytes, where the file has no slot yet;
 *                      always, length plus COIL_APPEND_ROOM(0, count) of each record. (A file has at most
 *                      COIL_MOST_FILE_BYTES, whatever you lend.)
 *   length, exam       as for coil_open
 *   records            the list; read only. Each slot must be above the one before, and the first above every slot
 *                      in the file
 *   records_len        how many; there may be none, and more than fit: then those that fit go in, and the next is
 *                      answered 12 (entries) or 3 (bytes)
 *   words, words_len   the words of all the maps; read only. Records may take them in any order, share them, leave
 *                      some out, and have none (a count of 0, with a first of at most words_len)
 *   fcm, dfcm          the two tables, of 2^t words with the file's t; cleared and used for each record
 *   bench, bench_len   room to pack in; lend at least COIL_WORST(n) bytes, with the largest count n
 *   appended           becomes the number of maps that went in
 *   new_length         becomes the file's new length, and 0 where the call is refused with none in: lend another
 *                      variable than the one that holds the old length, which is still right then
 *
 * Checks in order: open (4, 7, 8, 9). Then for each record: 15 first + count above words_len (a sum that would wrap
 * is above it too); 12 file has 1,024 entries; 11 slot not above the last; 1 tables (at the first record, since they
 * are the same for all); 2 count above 65,536; 3 as for coil_append, with the length reached by then.
 * On success *appended is records_len. A list without a record changes nothing: where the file opens, 0 is answered,
 * *appended is 0 and *new_length is length; nothing else is looked at.
 * On a refusal by 4, 7, 8 or 9 the file did not open. By any other, records[*appended] is the record that was refused;
 * the maps before it stay in the file, which has *new_length bytes and opens. With none in, *appended and *new_length
 * are 0 and nothing has changed. So, refused or not:
 *
 *     if (new_length != 0)
 *         length = new_length;
 *
 * Refused or not, where maps went in: the last one's block is also in the first bytes of bench, and beyond it stands
 * what the blocks before left there; the tables are as that block left them; earlier blocks are where they were; the
 * buffer beyond *new_length is as it was.
 *
 * To go on after a refusal, do what its number asks for, and call again with that length, records + appended and
 * records_len - appended. 15, 11: mend the record. 2: cut the map, over more records. 1: lend tables of 2^t words.
 * 3, with n = records[appended].count: lend a larger bench where COIL_WORST(n) is above bench_len; begin another file
 * where COIL_APPEND_ROOM(length, n) is above COIL_MOST_FILE_BYTES; else lend a larger buffer. 12: begin another file.
 * To have all maps or none, work on a copy of the buffer: maps that went in cannot be taken out. */
uint32_t coil_append_all(uint8_t *file, size_t file_len, size_t length, uint64_t exam,
                         const coil_record *records, size_t records_len,
                         const uint64_t *words, size_t words_len,
                         uint64_t *fcm, size_t fcm_len, uint64_t *dfcm, size_t dfcm_len,
                         uint8_t *bench, size_t bench_len, size_t *appended, size_t *new_length);

/* Replace the words of a slot that is in the file. The file may get longer or shorter.
 *
 *   file, file_len     the buffer; lend at least COIL_REPLACE_ROOM(length, block_length, words_len) bytes, with
 *                      the block_length that coil_find answers for the slot; length + COIL_WORST(words_len) bytes
 *                      of buffer are always enough (a file has at most COIL_MOST_FILE_BYTES, whatever you lend)
 *   length, exam       as for coil_open
 *   slot               the slot whose words go
 *   words, words_len   the new words, more or fewer than before; read only
 *   fcm, dfcm          the two tables, of 2^t words with the file's t; cleared and used
 *   bench, bench_len   room to pack in; lend at least COIL_WORST(words_len) bytes
 *   new_length         becomes the file's new length, and 0 on a refusal: lend another variable than the
 *                      one that holds the old length, which is still right then
 *
 * Checks in order: open (4, 7, 8, 9); 10 slot not in the file; 1 tables; 2 more than 65,536 words;
 * 3 length - block_length + COIL_WORST(words_len) above file_len or above 16,777,216, or bench_len under
 * COIL_WORST(words_len). No words always have room.
 * The old block is not looked at, so a damaged one can be replaced.
 * On success the new block starts where the old one did, and is also in the first bytes of bench. Earlier blocks
 * are where they were. Later blocks have moved by the difference of the two lengths, with their bytes as they
 * were: ask coil_find again for their place. Every slot keeps its number, and exam number and t are as they were.
 * A file that these calls made, with all its maps packed since request L2, is then, byte for byte, the one that
 * coil_create and coil_append make afresh from the changed maps, where none of those appends is refused. Of any
 * other file the other blocks' bytes are kept as found.
 * Where the file got shorter, the bytes from *new_length up to the old length are 0, since they were patient
 * data. The buffer beyond both lengths, and the bench beyond the block, are as they were. Nothing else is cleared:
 * the bench, the tables and the words that you lend may hold patient data, and so may an older file on disk. */
uint32_t coil_replace(uint8_t *file, size_t file_len, size_t length, uint64_t exam, uint32_t slot,
                      const uint64_t *words, size_t words_len,
                      uint64_t *fcm, size_t fcm_len, uint64_t *dfcm, size_t dfcm_len,
                      uint8_t *bench, size_t bench_len, size_t *new_length);

/* Salvage a file without its end: make a new file, in another buffer, of the blocks that stand whole at the start of
 * the old bytes. For a file that a full disk cut before its directory and trailer were written, or whose end is damaged.
 *
 *   old, old_len       the old bytes, of any length, 0 too (and even then the pointer must not be null); read only.
 *                      They need be no file
 *   file, file_len     the buffer for the new file; COIL_SALVAGE_ROOM(old_len) bytes are always enough (a file has at
 *                      most COIL_MOST_FILE_BYTES, whatever you lend). To append to it afterwards, lend more
 *   exam               the exam number of the new file, any but 0: take it from the scan log
 *   t                  the t that the old file was made with, 0 to 16: take it from the scan log
 *   new_length         becomes the new file's length
 *   kept               becomes the number of blocks kept, 0 to 1,024
 *   left_over          becomes the number of old bytes behind them: those from old[old_len - *left_over] on
 *   renumbered         becomes 1, also where nothing was kept: the old slot numbers stood in the directory and are
 *                      lost. The blocks have the slots 0, 1, 2 and so on, in the order in which they stood. (This
 *                      number is a uint32_t, the other three are size_t)
 *
 * Checks in order: 8 exam number 0; 7 t above 16; 3 the new file's length above file_len or above 16,777,216. That is
 * its true length: the blocks kept, 12 bytes for each, and 32. There is no other refusal. (A file that these calls made
 * never passes 16,777,216. Where 3 comes for that, the bytes are not of one file: lend fewer.)
 * From the first byte on, a block is taken while one stands whole: the length that it states is within what is left,
 * and coil_check takes just those bytes (so fewer than 8 bytes are none). It ends at the first that does not stand, and
 * what is behind that one is left over, whole or not (docs/CUT_FILES.md says how to see why). It also ends after 1,024
 * blocks. Nothing kept is a success, and gives an empty file, as coil_create does.
 * On success the new file opens for exam, and has the old blocks, byte for byte, as they stood. The buffer beyond
 * *new_length is as it was. Of a file that these calls made, cut anywhere, it has just the maps whose blocks end at or
 * before the cut, and coil_fetch gives back their words, with the t that the file was made with. Of a file that opens
 * and whose blocks all pass coil_check it has all blocks. In both cases no byte of the directory is taken for a block.
 * Where the directory is damaged it may be taken for one, and one bit is enough: then kept is more than the maps that
 * you stored. The slots from that number on are no maps.
 *
 * What you lend is believed:
 *
 *   No block tells whose it is, nor with which t it was packed. Under another exam number the maps answer to that exam.
 *   With another t, coil_fetch with tables of that size answers 0 all the same, and mostly gives other words; only
 *   tables of the right size are refused, with 1.
 *
 *   Lend only what was written, as many bytes as write answered, say. Where a file was written over an older one, or its
 *   length was set before it was filled, other bytes stand behind the cut. They may end the block that was cut, so that
 *   its map has wrong words; and whole blocks of the older file may follow and be kept: maps of another exam, under your
 *   exam number. kept and left_over do not show it.
 *
 *   A hash that was kept with the whole file says nothing of what is salvaged. */
uint32_t coil_salvage(const uint8_t *old, size_t old_len, uint8_t *file, size_t file_len,
                      uint64_t exam, uint32_t t,
                      size_t *new_length, size_t *kept, size_t *left_over, uint32_t *renumbered);

#ifdef __cplusplus
}
#endif

#endif
