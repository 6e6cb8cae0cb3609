/* Reports what the messages of a whole walk say of feeds: how many commits have both readings, one or neither, the sums, and cone less bed. Then
 * the same for an outside reader, while commit 4 is embargoed: it counts as neither. Then of a history with a message that gives one reading twice,
 * which is refused; and not so for an outside reader while that commit is embargoed.
 */
#include "history.h"

#include <inttypes.h>
#include <stdio.h>
#include <stdlib.h>

static const struct entry history[] = {
    {'1', "", 100, "Set up\n"},
    {'2', "1", 200, "Cone bench\n\nCone-feed: 1200\n"},
    {'3', "1", 300, "Needle bed\n\nBed-feed: 1250\n"},
    {'4', "23", 400, "Piece 1\n\nCone-feed: 1210\nBed-feed: 1245\n"},
    {'5', "4", 500, "Piece 2\n\nCone-feed: 1190\nBed-feed: 1180\n"},
};
static const struct entry twice[] = {
    {'5', "", 100, "Piece 1\n\nCone-feed: 1210\nCone-feed: 1211\n"},
};

/* The report of a walk from commit 5; the memory is that of an opening. outside: 0 for the shop's reader, who sees all. */
static void report(struct file store, const char *embargoed, uint32_t outside)
{
    uint8_t tips[LINENHATCH_SHA1], embargo[LINENHATCH_SHA1];
    size_t embargo_len = ids_of(LINENHATCH_SHA1, embargoed, embargo);
    struct lent lent = lent_store(LINENHATCH_SHA1, store.bytes, store.length);
    lent.tips = tips;
    lent.tips_len = ids_of(LINENHATCH_SHA1, "5", tips);
    lent.sorting = LINENHATCH_NEWEST;
    size_t places = linenhatch_places(
        lent.width, lent.store, lent.store_len, lent.graph, lent.graph_len, lent.tips, lent.tips_len, lent.hidden, lent.hidden_len);
    struct memory memory = memory_for(LINENHATCH_SHA1, places);
    uint64_t numbers[LINENHATCH_FEED_NUMBERS];
    int64_t difference[LINENHATCH_FEED_DIFFERENCES];

    uint32_t result = linenhatch_feed(
        lent.width, lent.store, lent.store_len, lent.graph, lent.graph_len,
        lent.tips, lent.tips_len, lent.hidden, lent.hidden_len, lent.excluded, lent.excluded_len,
        lent.sorting, lent.has_cutoff, lent.cutoff, lent.first,
        embargo, embargo_len, outside,
        memory.names, LINENHATCH_NAMES(lent.width, places),
        memory.marks, LINENHATCH_MARKS(places),
        memory.generations, LINENHATCH_GENERATIONS(places),
        memory.times, LINENHATCH_TIMES(places),
        memory.line, LINENHATCH_LINE(places),
        memory.parents, LINENHATCH_PARENTS(lent.width),
        numbers, LINENHATCH_FEED_NUMBERS,
        difference, LINENHATCH_FEED_DIFFERENCES);
    if (result == LINENHATCH_ACCEPTED)
        printf("both %" PRIu64 ", cone alone %" PRIu64 ", bed alone %" PRIu64 ", neither %" PRIu64 "\n"
               "cone %" PRIu64 " mm, bed %" PRIu64 " mm, cone less bed of both %" PRId64 " mm\n",
               numbers[LINENHATCH_FEED_BOTH], numbers[LINENHATCH_FEED_CONE], numbers[LINENHATCH_FEED_BED],
               numbers[LINENHATCH_FEED_NEITHER], numbers[LINENHATCH_CONE_SUM], numbers[LINENHATCH_BED_SUM], difference[0]);
    else
        printf("refused %" PRIu32 "\n", result);
    memory_free(&memory);
}

int main(void)
{
    struct file store = store_of(LINENHATCH_SHA1, history, sizeof history / sizeof *history), faulty = store_of(LINENHATCH_SHA1, twice, 1);
    report(store, "4", 0);
    report(store, "4", 1);
    report(faulty, "5", 0);
    report(faulty, "5", 1);
    free(store.bytes);
    free(faulty.bytes);
    return 0;
}
