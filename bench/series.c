/* Rounds and turns, medians and quartiles, the table. */
#include "series.h"

#include "isal.h"

#include <stdio.h>
#include <stdlib.h>
#include <string.h>

enum { MOST_ROUNDS = 64 };

/* How a turn is cut from a list: the whole of it `repeats` times, or one of `parts` equal parts. */
struct cut {
    size_t parts, repeats;
};

static uint64_t play(struct stage *s, const struct contestant *c, struct cut cut, size_t part)
{
    size_t count = c->list.count / cut.parts;
    uint64_t ns = 0;
    for (size_t i = 0; i < cut.repeats; i++) {
        isal_clear(); /* no contestant pays for what another left */
        ns += c->turn(s, c, c->list.items + part * count, count);
    }
    return ns;
}

/*
 * Out of cache a turn takes the next part of one random order over the whole array, so that each contestant goes through
 * the array once; they begin at different parts, so that none finds in cache what another has just fetched.
 */
static struct cut choose_cut(struct stage *s, const struct contestant *c, struct settings set)
{
    if (!s->plan.in_cache)
        return (struct cut){c->list.count < set.rounds ? 1 : set.rounds, 1};
    struct cut cut = {1, 1};
    while (play(s, c, cut, 0) < set.turn_ns)
        cut.repeats *= 2;
    return cut;
}

static int by_size(const void *a, const void *b)
{
    double x = *(const double *)a, y = *(const double *)b;
    return (x > y) - (x < y);
}

/* Between two numbers of a sorted list, where it falls between. */
static double quantile(const double *sorted, size_t count, double q)
{
    double at = q * (double)(count - 1);
    size_t below = (size_t)at, above = below + 1 < count ? below + 1 : below;
    return sorted[below] + (at - (double)below) * (sorted[above] - sorted[below]);
}

static double median(double *numbers, size_t count)
{
    qsort(numbers, count, sizeof *numbers, by_size);
    return quantile(numbers, count, 0.5);
}

static double target_of(const struct contestant *peer, const struct plan *plan)
{
    switch (plan->block_len) {
    case 4096: return plan->in_cache ? peer->target_in : peer->target_out;
    case 64: return peer->target_short;
    default: return 0;
    }
}

static void add_row(struct report *report, const struct series *x, const struct contestant *peer, const struct stage *s,
                    double *ratios, size_t rounds, double ns)
{
    struct row row = {.call = x->name, .peer = peer->name, .plan = s->plan, .images_len = stage_lent(s).len};
    row.stripes = s->stripes;
    row.ns = ns;
    row.target = target_of(peer, &s->plan);
    row.median = median(ratios, rounds);
    row.low = quantile(ratios, rounds, 0.25);
    row.high = quantile(ratios, rounds, 0.75);
    must(report->count < sizeof report->rows / sizeof report->rows[0], "too many rows");
    report->rows[report->count++] = row;
}

/* By the name's text that the environment asks for, if it does. */
static bool is_wanted(const char *name)
{
    const char *only = getenv("ONLY");
    return only == NULL || strstr(name, only) != NULL;
}

void series_run(const struct series *x, struct stage *s, struct settings set, struct report *report)
{
    if (!is_wanted(x->name))
        return;
    static double times[4][MOST_ROUNDS];
    struct cut cut = choose_cut(s, &x->who[0], set);
    for (size_t c = 0; c < x->count; c++)
        play(s, &x->who[c], cut, cut.parts - 1); /* warm */
    for (size_t r = 0; r < set.rounds; r++)
        for (size_t c = 0; c < x->count; c++)
            times[c][r] = (double)play(s, &x->who[c], cut, (r + c * cut.parts / x->count) % cut.parts);

    double ratios[MOST_ROUNDS], ours[MOST_ROUNDS];
    double items = (double)(x->who[0].list.count / cut.parts * cut.repeats) * x->units;
    for (size_t r = 0; r < set.rounds; r++)
        ours[r] = times[0][r] / items;
    double ns = median(ours, set.rounds);
    for (size_t c = 1; c < x->count; c++) {
        for (size_t r = 0; r < set.rounds; r++)
            ratios[r] = times[c][r] / times[0][r];
        add_row(report, x, &x->who[c], s, ratios, set.rounds, ns);
    }
}

static int digits(double ns) { return ns < 100 ? 1 : 0; }

void report_print(const struct report *report, bool in_cache)
{
    printf("| call | shape | B | images | peer | ratio | lowest quartile | highest quartile | ours, ns | target | met |\n");
    printf("|---|---|--:|--:|---|--:|--:|--:|--:|--:|---|\n");
    for (size_t i = 0; i < report->count; i++) {
        const struct row *r = &report->rows[i];
        if (r->plan.in_cache != in_cache)
            continue;
        printf("| %s | %u + %u | %u | %.2f MiB | %s | %.3f | %.2f | %.2f | %.*f |", r->call, r->plan.n, r->plan.m,
               r->plan.block_len, (double)r->images_len / 1048576, r->peer, r->median, r->low, r->high,
               digits(r->ns), r->ns);
        if (r->target > 0)
            printf(" %.2f | %s |\n", r->target, r->median >= r->target ? "yes" : "**no**");
        else
            printf(" - | - |\n");
    }
}

static void print_measured(const struct row *r)
{
    printf(" %u | %.3f | %.2f to %.2f | %.*f |", r->stripes, r->median, r->low, r->high, digits(r->ns), r->ns);
}

void report_print_beside(const struct report *report)
{
    printf("| call | shape | B | peer | T, whole groups | ratio | quartiles | ours, ns | T, with a tail | ratio | quartiles "
           "| ours, ns |\n");
    printf("|---|---|--:|---|--:|--:|--:|--:|--:|--:|--:|--:|\n");
    for (size_t i = 0; i < report->count; i += 2) {
        const struct row *r = &report->rows[i];
        printf("| %s | %u + %u | %u | %s |", r->call, r->plan.n, r->plan.m, r->plan.block_len, r->peer);
        print_measured(r);
        print_measured(r + 1);
        printf("\n");
    }
}
