/* The general codecs, each where its library was there when the benchmark was compiled. All run in one
 * thread. gzip, bzip2 and zstd run at the level that their own commands take. */
#include "contender.h"

#define MISSING NULL, NULL

#ifdef HAVE_GZIP
#include <zlib.h>

static size_t gzip_pack(const job *j, uint8_t *out, size_t room)
{
    uLongf length = room;
    return compress2(out, &length, (const Bytef *)j->words, 8 * j->count, 6) == Z_OK ? length : 0;
}

static int gzip_unpack(const job *j, const uint8_t *packed, size_t length, uint64_t *words)
{
    uLongf bytes = 8 * j->count;
    return uncompress((Bytef *)words, &bytes, packed, length) == Z_OK && bytes == 8 * j->count;
}
#define GZIP gzip_pack, gzip_unpack
#else
#define GZIP MISSING
#endif

#ifdef HAVE_BZIP2
#include <bzlib.h>

/* bzip2 takes its input as char that it could change, and does not. */
static char *bytes_of(const void *from)
{
    return (char *)(uintptr_t)from;
}

static size_t bzip2_pack(const job *j, uint8_t *out, size_t room)
{
    unsigned length = (unsigned)room, bytes = (unsigned)(8 * j->count);
    int answer = BZ2_bzBuffToBuffCompress((char *)out, &length, bytes_of(j->words), bytes, 9, 0, 0);
    return answer == BZ_OK ? length : 0;
}

static int bzip2_unpack(const job *j, const uint8_t *packed, size_t length, uint64_t *words)
{
    unsigned bytes = (unsigned)(8 * j->count);
    char *from = bytes_of(packed), *to = (char *)words;
    int answer = BZ2_bzBuffToBuffDecompress(to, &bytes, from, (unsigned)length, 0, 0);
    return answer == BZ_OK && bytes == 8 * j->count;
}
#define BZIP2 bzip2_pack, bzip2_unpack
#else
#define BZIP2 MISSING
#endif

#ifdef HAVE_ZSTD
#include <zstd.h>

static size_t zstd_pack(const job *j, uint8_t *out, size_t room)
{
    size_t length = ZSTD_compress(out, room, j->words, 8 * j->count, 3);
    return ZSTD_isError(length) ? 0 : length;
}

static int zstd_unpack(const job *j, const uint8_t *packed, size_t length, uint64_t *words)
{
    return ZSTD_decompress(words, 8 * j->count, packed, length) == 8 * j->count;
}
#define ZSTD zstd_pack, zstd_unpack
#else
#define ZSTD MISSING
#endif

#ifdef HAVE_LZ4
#include <lz4.h>

static size_t lz4_pack(const job *j, uint8_t *out, size_t room)
{
    int length = LZ4_compress_default((const char *)j->words, (char *)out, (int)(8 * j->count), (int)room);
    return length > 0 ? (size_t)length : 0;
}

static int lz4_unpack(const job *j, const uint8_t *packed, size_t length, uint64_t *words)
{
    int bytes = (int)(8 * j->count);
    return LZ4_decompress_safe((const char *)packed, (char *)words, (int)length, bytes) == bytes;
}
#define LZ4 lz4_pack, lz4_unpack
#else
#define LZ4 MISSING
#endif

#ifdef HAVE_BLOSC
#include <blosc.h>

static size_t blosc_pack(const job *j, uint8_t *out, size_t room)
{
    int length = blosc_compress_ctx(5, BLOSC_SHUFFLE, 8, 8 * j->count, j->words, out, room, "blosclz", 0, 1);
    return length > 0 ? (size_t)length : 0;
}

static int blosc_unpack(const job *j, const uint8_t *packed, size_t length, uint64_t *words)
{
    (void)length;   /* blosc reads it from its own header */
    return blosc_decompress_ctx(packed, words, 8 * j->count, 1) == (int)(8 * j->count);
}
#define BLOSC blosc_pack, blosc_unpack
#else
#define BLOSC MISSING
#endif

#ifdef HAVE_FPZIP
#include <fpzip.h>

static void fpzip_shape(FPZ *stream, const job *j)
{
    stream->type = FPZIP_TYPE_DOUBLE;
    stream->prec = 0;   /* all bits */
    stream->nx = (int)j->row;
    stream->ny = (int)(j->count / j->row);
    stream->nz = 1;
    stream->nf = 1;
}

static size_t fpzip_pack(const job *j, uint8_t *out, size_t room)
{
    FPZ *stream = fpzip_write_to_buffer(out, room);
    fpzip_shape(stream, j);
    size_t length = fpzip_write(stream, j->words);
    fpzip_write_close(stream);
    return length;
}

static int fpzip_unpack(const job *j, const uint8_t *packed, size_t length, uint64_t *words)
{
    FPZ *stream = fpzip_read_from_buffer(packed);
    fpzip_shape(stream, j);
    size_t read = fpzip_read(stream, words);
    fpzip_read_close(stream);
    return read == length;
}
#define FPZIP fpzip_pack, fpzip_unpack
#else
#define FPZIP MISSING
#endif

#ifdef HAVE_ZFP
#include <zfp.h>

/* Packs or unpacks, and answers the length. */
static size_t zfp_turn(const job *j, uint64_t *words, uint8_t *packed, size_t room, int packs)
{
    zfp_field *field = zfp_field_2d(words, zfp_type_double, j->row, j->count / j->row);
    zfp_stream *stream = zfp_stream_open(NULL);
    bitstream *bits = stream_open(packed, room);
    zfp_stream_set_reversible(stream);
    zfp_stream_set_bit_stream(stream, bits);
    zfp_stream_rewind(stream);
    size_t length = packs ? zfp_compress(stream, field) : zfp_decompress(stream, field);
    zfp_field_free(field);
    zfp_stream_close(stream);
    stream_close(bits);
    return length;
}

static size_t zfp_pack(const job *j, uint8_t *out, size_t room)
{
    return zfp_turn(j, (uint64_t *)(uintptr_t)j->words, out, room, 1);
}

static int zfp_unpack(const job *j, const uint8_t *packed, size_t length, uint64_t *words)
{
    return zfp_turn(j, words, (uint8_t *)(uintptr_t)packed, length, 0) == length;
}
#define ZFP zfp_pack, zfp_unpack
#else
#define ZFP MISSING
#endif

const contender codecs[CODECS] = {
    { "gzip", "zlib1g-dev", 0, GZIP },
    { "bzip2", "libbz2-dev", 0, BZIP2 },
    { "zstd", "libzstd-dev", 0, ZSTD },
    { "lz4", "liblz4-dev", 0, LZ4 },
    { "blosc", "libblosc-dev", 0, BLOSC },
    { "fpzip", "libfpzip-dev", 0, FPZIP },
    { "zfp", "libzfp-dev", 0, ZFP },
};
