/* Compares every call of coil.h with the reference.
 *
 *     compare [ROUNDS [SEED [first [GROUP]]]]
 *
 * More rounds try more random inputs. The seed fixes them all. With "first" it stops at the first
 * failure, otherwise after twenty. All groups are run; with the name of a group it begins with that one,
 * so that a failure that is expected there comes soon.
 */
#define _DEFAULT_SOURCE
#include "calls.h"
#include "groups.h"

#include <signal.h>
#include <stdio.h>
#include <stdlib.h>
#include <string.h>
#include <unistd.h>

typedef struct {
    const char *name;
    void (*run)(unsigned rounds);
    const char *about;
} group;

static const group groups[] = {
    { "blocks", group_blocks, "pack, check, unpack: every kind of words, every t, room and table size" },
    { "before", group_before, "packed before request L2: as long, checked, unpacked, fetched, appended to, replaced in" },
    { "files", group_files, "create, append, open, find, fetch: lives of files, every length and room" },
    { "damage", group_damage, "every bit flipped, every cut, changed and forged fields" },
    { "replace", group_replace, "lives with replaces, made afresh again; every size, place, distance and room" },
    { "many", group_many, "lists of records: each refusal at each place, sums that wrap, every room, 1,024 and one" },
    { "salvage", group_salvage, "every cut and bit, a wrong block at each place, any bytes, 1,024 and more, rooms" },
    { "padded", group_padded, "padded residuals: each code and place, long and packed blocks, in files" },
    { "order", group_order, "several rules broken at once, in every combination" },
    { "far", group_far, "65,536 words, 1,024 entries, 16 MiB, lengths beyond 32 bits" },
    { "shortest", group_shortest, "rival blocks, blocks of random bytes, every short list of codes: none is shorter" }
};

/* A call that touches memory it was not lent ends here. Only calls that are safe in a handler. */
static void stopped_by_signal(int number)
{
    static const char text[] = "FAILED a call touched memory it was not lent, or stopped; case: ";
    const char *which = this_case();
    (void)number;
    if (write(1, text, sizeof text - 1) < 0 || write(1, which, strlen(which)) < 0 || write(1, "\n", 1) < 0) {
        _exit(3);
    }
    _exit(1);
}

static unsigned long number_from(const char *text, unsigned long otherwise)
{
    char *end;
    unsigned long number = text != NULL ? strtoul(text, &end, 10) : otherwise;
    if (text != NULL && (*text == '\0' || *end != '\0')) {
        printf("not a number: %s\n", text);
        exit(2);
    }
    return number;
}

#define GROUPS (sizeof groups / sizeof groups[0])

/* Where it begins; with the first group where the name is that of none. */
static size_t group_named(const char *name)
{
    size_t index = 0;
    while (index < GROUPS && strcmp(groups[index].name, name) != 0) {
        index++;
    }
    return index % GROUPS;
}

static void run_group(const group *g, unsigned rounds)
{
    unsigned long before = comparisons();
    g->run(rounds);
    printf("  %-8s %8lu comparisons  %s\n", g->name, comparisons() - before, g->about);
    fflush(stdout);
}

int main(int count, char **arguments)
{
    unsigned long rounds = number_from(count > 1 ? arguments[1] : NULL, 4);
    unsigned long seed = number_from(count > 2 ? arguments[2] : NULL, 1);
    signal(SIGSEGV, stopped_by_signal);
    signal(SIGBUS, stopped_by_signal);
    signal(SIGILL, stopped_by_signal);
    signal(SIGFPE, stopped_by_signal);
    signal(SIGABRT, stopped_by_signal);
    prepare_calls(seed, count > 3 && strcmp(arguments[3], "first") == 0);
    printf("compare: rounds %lu, seed %lu\n", rounds, seed);
    size_t begin = group_named(count > 4 ? arguments[4] : "");
    for (size_t i = 0; i < GROUPS; i++) {
        run_group(&groups[(begin + i) % GROUPS], (unsigned)rounds);
    }
    printf("%lu passed, %lu failed\n", comparisons(), failures());
    return failures() != 0;
}
