/* before TABLE: the store as it was and as it is, against both C versions, in one run.
 *
 * Linked with two objects of the store: the one of today under its own names, the earlier one with before_ in
 * front of each. */
#include "inputs.h"
#include "measure.h"
#include "stores.h"

#include <stdio.h>

pack_call before_coil_pack;
unpack_call before_coil_unpack;

static size_t before_pack(const job *j, uint8_t *out, size_t room)
{
    return pack_by(before_coil_pack, j, out, room);
}

static int before_unpack(const job *j, const uint8_t *packed, size_t length, uint64_t *words)
{
    return unpack_by(before_coil_unpack, j, packed, length, words);
}

static const contender before[2] = {
    { "before", NULL, 10, before_pack, before_unpack },
    { "before", NULL, 16, before_pack, before_unpack },
};

enum { AFTER, INDEPENDENT, EXPERT, BEFORE, CONTENDERS };

static int all_exact(const result *results, const char *input)
{
    for (int i = 0; i < CONTENDERS; i++) {
        if (results[i].stands != IS_EXACT || results[i].length != results[AFTER].length) {
            fprintf(stderr, "bench: %s is not exact on %s\n", results[i].who->name, input);
            return 0;
        }
    }
    return 1;
}

static void write_row(FILE *to, const char *input, const result *r)
{
    const result *e = &r[EXPERT];
    fprintf(to, "| %s | %u | %.2f | %.2f | **%.2f** | %.2f | %.2f | **%.2f** |\n", input, e->who->t,
            r[INDEPENDENT].pack_ns / e->pack_ns, r[BEFORE].pack_ns / e->pack_ns, r[AFTER].pack_ns / e->pack_ns,
            r[INDEPENDENT].unpack_ns / e->unpack_ns, r[BEFORE].unpack_ns / e->unpack_ns,
            r[AFTER].unpack_ns / e->unpack_ns);
}

static int write_rows(FILE *to)
{
    static uint64_t words[MOST_WORDS];
    fprintf(to, "| input | t | pack: independent C | before | after | unpack: independent C | before | after |\n"
                "|---|--:|--:|--:|--:|--:|--:|--:|\n");
    for (size_t i = 0; i < INPUTS; i++) {
        inputs[i].fill(words, MOST_WORDS);
        for (size_t k = 0; k < 2; k++) {
            const contender *three = &stores[3 * k];
            const contender *whom[CONTENDERS] = { &three[0], &three[1], &three[2], &before[k] };
            result results[CONTENDERS];
            measure(whom, CONTENDERS, words, MOST_WORDS, results);
            if (!all_exact(results, inputs[i].name)) {
                return 0;
            }
            write_row(to, inputs[i].name, results);
        }
    }
    return 1;
}

int main(int argc, char **argv)
{
    if (argc != 2) {
        fprintf(stderr, "usage: before TABLE\n");
        return 2;
    }
    int status = prepare();
    if (status != 0) {
        return status;
    }
    FILE *to = fopen(argv[1], "w");
    if (to == NULL || !write_rows(to)) {
        return 1;
    }
    return fclose(to) == 0 ? 0 : 2;
}
