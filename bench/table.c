/* See table.h. */
#include "table.h"

static double fraction(const result *r)
{
    return (double)r->length / (8.0 * MOST_WORDS);
}

/* Small sizes need more digits: all zeros pack to less than a thousandth. */
static void write_fraction(FILE *to, double f)
{
    fprintf(to, f < 0.01 ? " %.5f |" : " %.3f |", f);
}

static void write_ratio(FILE *to, double ratio)
{
    fprintf(to, ratio < 10 ? " %.2f |" : ratio < 100 ? " %.1f |" : " %.0f |", ratio);
}

/* ---- The same rules ---- */

/* Three results in a row: the store, the independent C, the expert C. */
static void write_same_rules_row(FILE *to, const sheet *s, const result *three)
{
    const result *expert = &three[2];
    fprintf(to, "| %s | %zu | %u |", s->in->name, s->count, three[0].who->t);
    write_fraction(to, fraction(&three[0]));
    fprintf(to, " %.2f |", three[0].pack_ns / MOST_WORDS);
    write_ratio(to, three[0].pack_ns / expert->pack_ns);
    write_ratio(to, three[1].pack_ns / expert->pack_ns);
    fprintf(to, " %.2f |", three[0].unpack_ns / MOST_WORDS);
    write_ratio(to, three[0].unpack_ns / expert->unpack_ns);
    write_ratio(to, three[1].unpack_ns / expert->unpack_ns);
    fprintf(to, "\n");
}

void write_same_rules(FILE *to, const sheet *sheets, size_t number)
{
    fprintf(to, "### Against C for the same rules\n\n");
    fprintf(to, "Times as ratios to those of expert C: below 1 is faster than expert C. Size as a part of the raw bytes, "
                "the same for\nall three. All rows of an input have the same 65,536 words; \"words\" is how many a "
                "call packs.\n\n");
    fprintf(to, "| input | words | t | size | pack: store, ns a word | store | independent C "
                "| unpack: store, ns a word | store | independent C |\n");
    fprintf(to, "|---|--:|--:|--:|--:|--:|--:|--:|--:|--:|\n");
    for (size_t i = 0; i < number; i++) {
        write_same_rules_row(to, &sheets[i], &sheets[i].results[0]);
        write_same_rules_row(to, &sheets[i], &sheets[i].results[3]);
    }
}

/* ---- General codecs ---- */

/* A codec or the store itself. */
static void write_general_row(FILE *to, const sheet *s, const result *r)
{
    const result *t10 = &s->results[0], *t16 = &s->results[3];
    if (r->who->t != 0) {
        fprintf(to, "| **%s, t = %u** |", r->who->name, r->who->t);
    } else {
        fprintf(to, "| %s |", r->who->name);
    }
    if (r->stands == IS_EXACT) {
        write_fraction(to, fraction(r));
        write_ratio(to, r->pack_ns / t10->pack_ns);
        write_ratio(to, r->pack_ns / t16->pack_ns);
        write_ratio(to, r->unpack_ns / t10->unpack_ns);
        write_ratio(to, r->unpack_ns / t16->unpack_ns);
    } else if (r->stands == IS_NOT_EXACT) {
        fprintf(to, " not exact | | | | |");
    } else {
        fprintf(to, " missing, see %s | | | | |", r->who->package);
    }
    fprintf(to, "\n");
}

static void write_general_sheet(FILE *to, const sheet *s)
{
    fprintf(to, "\n**%s**: %s\n\n", s->in->name, s->in->what);
    fprintf(to, "| codec | size | pack, to t = 10 | pack, to t = 16 | unpack, to t = 10 "
                "| unpack, to t = 16 |\n");
    fprintf(to, "|---|--:|--:|--:|--:|--:|\n");
    write_general_row(to, s, &s->results[0]);
    write_general_row(to, s, &s->results[3]);
    for (size_t k = STORES; k < s->number; k++) {
        write_general_row(to, s, &s->results[k]);
    }
}

void write_general(FILE *to, const sheet *sheets, size_t number)
{
    fprintf(to, "\n### Against general codecs, %u words\n\n", MOST_WORDS);
    fprintf(to, "Size as a part of the raw bytes. Times as ratios to the store's at t = 10 and at t = 16:\n"
                "below 1 is faster than the store.\n");
    for (size_t i = 0; i < number; i++) {
        if (sheets[i].number > STORES) {
            write_general_sheet(to, &sheets[i]);
        }
    }
}

/* ---- For the plot ---- */

void write_lines(FILE *to, const sheet *sheets, size_t number)
{
    static const char *const standings[] = { "missing", "not exact", "exact" };
    fprintf(to, "input\twords\tt\tcontender\tstanding\tbytes\tpack_ns\tunpack_ns\n");
    for (size_t i = 0; i < number; i++) {
        for (size_t k = 0; k < sheets[i].number; k++) {
            const result *r = &sheets[i].results[k];
            fprintf(to, "%s\t%zu\t%u\t%s\t%s\t%zu\t%.1f\t%.1f\n", sheets[i].in->name, sheets[i].count,
                    r->who->t, r->who->name, standings[r->stands], r->length, r->pack_ns, r->unpack_ns);
        }
    }
}
