/* See checks.h. */
#include "checks.h"
#include "clock.h"
#include "expert.h"
#include "inputs.h"

#include "../include/coil.h"
#include "../tests/reference.h"

#define ROUNDS 200

typedef uint32_t check_call(const uint8_t *, size_t);
static check_call *const calls[] = { coil_check, ref_check, expert_check };
enum { CALLS = sizeof calls / sizeof calls[0], T = 10 };

static size_t packed(const input *in, uint8_t *block, size_t room)
{
    static uint64_t words[MOST_WORDS], fcm[COIL_TABLE_WORDS(T)], dfcm[COIL_TABLE_WORDS(T)];
    size_t length = 0;
    in->fill(words, MOST_WORDS);
    coil_pack(words, MOST_WORDS, fcm, COIL_TABLE_WORDS(T), dfcm, COIL_TABLE_WORDS(T), block, room, &length);
    return length;
}

/* The shortest time of each, all taking turns. */
static int measure_all(const uint8_t *block, size_t length, double *shortest)
{
    for (int round = 0; round < ROUNDS; round++) {
        for (int i = 0; i < CALLS; i++) {
            double start = now_ns();
            uint32_t number = calls[i](block, length);
            double taken = now_ns() - start;
            if (number != COIL_DONE) {
                fprintf(stderr, "bench: a check answers %u\n", (unsigned)number);
                return 0;
            }
            if (round == 0 || taken < shortest[i]) {
                shortest[i] = taken;
            }
        }
    }
    return 1;
}

int write_checks(FILE *to)
{
    static uint8_t block[COIL_WORST(MOST_WORDS)];
    double ns[CALLS];
    fprintf(to, "\n### Checking a block, %u words\n\n", MOST_WORDS);
    fprintf(to, "Times as ratios to those of expert C, t = %u.\n\n", T);
    fprintf(to, "| input | store, ns a word | store | independent C |\n|---|--:|--:|--:|\n");
    for (size_t i = 0; i < INPUTS; i++) {
        if (!measure_all(block, packed(&inputs[i], block, sizeof block), ns)) {
            return 0;
        }
        fprintf(to, "| %s | %.3f | %.2f | %.2f |\n", inputs[i].name, ns[0] / MOST_WORDS, ns[0] / ns[2],
                ns[1] / ns[2]);
    }
    return 1;
}
