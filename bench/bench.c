/* bench TABLE LINES: measures the store against its yardsticks, writes the tables and the lines for the plot.
 *
 * Writes nothing at all where a time would say nothing, or where the store and the two C versions of its
 * rules differ in a single byte. */
#include "checks.h"
#include "files.h"
#include "inputs.h"
#include "measure.h"
#include "table.h"

/* The general codecs run on the larger inputs only: the smaller ones are for the cost of a word. */
static void fill_sheet(sheet *s, const input *in, size_t count)
{
    static uint64_t words[MOST_WORDS];
    const contender *whom[STORES + CODECS];
    *s = (sheet){ .in = in, .count = count, .number = count == MOST_WORDS ? STORES + CODECS : STORES };
    for (size_t i = 0; i < s->number; i++) {
        whom[i] = i < STORES ? &stores[i] : &codecs[i - STORES];
    }
    in->fill(words, MOST_WORDS);
    measure(whom, s->number, words, count, s->results);
    fprintf(stderr, "bench: %s, %zu words: measured\n", in->name, count);
}

/* The six that follow the rules must be exact, with one length for one t. */
static int sound(const sheet *s)
{
    for (size_t i = 0; i < STORES; i++) {
        const result *first = &s->results[i < 3 ? 0 : 3];
        if (s->results[i].stands != IS_EXACT || s->results[i].length != first->length) {
            fprintf(stderr, "bench: %s is not exact on %s\n", s->results[i].who->name, s->in->name);
            return 0;
        }
    }
    return 1;
}

static void say_missing(void)
{
    for (size_t i = 0; i < CODECS; i++) {
        if (codecs[i].pack == NULL) {
            fprintf(stderr, "bench: %s is missing; the Debian package %s adds it\n",
                    codecs[i].name, codecs[i].package);
        }
    }
}

static int write_all(const char *table, const char *lines, const sheet *sheets, size_t number)
{
    FILE *to_table = fopen(table, "w"), *to_lines = fopen(lines, "w");
    if (to_table == NULL || to_lines == NULL) {
        fprintf(stderr, "bench: cannot write the results\n");
        return 0;
    }
    write_same_rules(to_table, sheets, number);
    int whole = write_checks(to_table) && write_files(to_table);
    write_general(to_table, sheets, number);
    write_lines(to_lines, sheets, number);
    return fclose(to_table) == 0 && fclose(to_lines) == 0 && whole;
}

int main(int argc, char **argv)
{
    static const size_t counts[] = { 4096, MOST_WORDS };
    static sheet sheets[2 * INPUTS];
    size_t number = 0;
    if (argc != 3) {
        fprintf(stderr, "usage: bench TABLE LINES\n");
        return 2;
    }
    int status = prepare();
    if (status != 0) {
        return status;
    }
    say_missing();
    for (size_t i = 0; i < INPUTS; i++) {
        for (size_t k = 0; k < 2; k++, number++) {
            fill_sheet(&sheets[number], &inputs[i], counts[k]);
            if (!sound(&sheets[number])) {
                return 1;
            }
        }
    }
    return write_all(argv[1], argv[2], sheets, number) ? 0 : 2;
}
