/* Counts the commits of a whole walk by school term, in UTC: autumn 2024 (September to December), winter (January to March 2025) and summer (May to
 * July). April is in no term. Then a list of terms that is out of order, which is refused.
 */
#include "history.h"

#include <inttypes.h>
#include <stdio.h>
#include <stdlib.h>

static const struct entry history[] = {
    {'1', "", 1725148799, "31 August 2024, 23:59:59\n"},
    {'2', "1", 1725148800, "1 September 2024\n"},
    {'3', "2", 1735689599, "31 December 2024, 23:59:59\n"},
    {'4', "3", 1735689600, "1 January 2025\n"},
    {'5', "4", 1744675200, "15 April 2025\n"},
    {'6', "5", 1747267200, "15 May 2025\n"},
};

/* A month as its number, counted from January 1970. */
#define MONTH(year, month) ((uint32_t)(12 * ((year) - 1970) + (month) - 1))

/* Two months a term, its first and its last. */
static const uint32_t terms[] = {
    MONTH(2024, 9), MONTH(2024, 12),
    MONTH(2025, 1), MONTH(2025, 3),
    MONTH(2025, 5), MONTH(2025, 7),
};
static const uint32_t out_of_order[] = {MONTH(2025, 1), MONTH(2025, 3), MONTH(2024, 9), MONTH(2024, 12)};

#define MONTHS(terms) (sizeof(terms) / sizeof *(terms))

static void report(struct file store, const uint32_t *months, size_t months_len)
{
    uint8_t tips[LINENHATCH_SHA1];
    struct lent lent = lent_store(LINENHATCH_SHA1, store.bytes, store.length);
    lent.tips = tips;
    lent.tips_len = ids_of(LINENHATCH_SHA1, "6", tips);
    lent.sorting = LINENHATCH_NEWEST;
    size_t places = linenhatch_places(
        lent.width, lent.store, lent.store_len, lent.graph, lent.graph_len, lent.tips, lent.tips_len, lent.hidden, lent.hidden_len);
    struct memory memory = memory_for(LINENHATCH_SHA1, places);
    uint64_t counts[LINENHATCH_MAX_TERMS], numbers[LINENHATCH_TERMS_NUMBERS];

    uint32_t result = linenhatch_terms(
        lent.width, lent.store, lent.store_len, lent.graph, lent.graph_len,
        lent.tips, lent.tips_len, lent.hidden, lent.hidden_len, lent.excluded, lent.excluded_len,
        lent.sorting, lent.has_cutoff, lent.cutoff, lent.first,
        months, months_len,
        memory.names, LINENHATCH_NAMES(lent.width, places),
        memory.marks, LINENHATCH_MARKS(places),
        memory.generations, LINENHATCH_GENERATIONS(places),
        memory.times, LINENHATCH_TIMES(places),
        memory.line, LINENHATCH_LINE(places),
        memory.parents, LINENHATCH_PARENTS(lent.width),
        counts, LINENHATCH_MAX_TERMS,
        numbers, LINENHATCH_TERMS_NUMBERS);
    if (result == LINENHATCH_ACCEPTED) {
        for (size_t i = 0; i < months_len / 2; i++)
            printf("term %zu: %" PRIu64 "\n", i + 1, counts[i]);
        printf("outside: %" PRIu64 "\n", numbers[LINENHATCH_OUTSIDE]);
    } else {
        printf("refused %" PRIu32 "\n", result);
    }
    memory_free(&memory);
}

int main(void)
{
    struct file store = store_of(LINENHATCH_SHA1, history, sizeof history / sizeof *history);
    report(store, terms, MONTHS(terms));
    report(store, out_of_order, MONTHS(out_of_order));
    free(store.bytes);
    return 0;
}
