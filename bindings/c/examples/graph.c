/* Writes the commit-graph file of a history whose second clock stood before the first one's, and opens tested without the file and with it. A
 * store beside its own graph file is always accepted, whatever the clocks say.
 */
#include "history.h"

#include <inttypes.h>
#include <stdio.h>
#include <stdlib.h>

static const struct entry history[] = {
    {'1', "", 700, ""},
    {'2', "1", 500, ""},
    {'3', "2", 800, ""},
};

#define COMMITS (sizeof history / sizeof *history)

static uint32_t opened(struct file store, struct file graph, size_t graph_len)
{
    uint8_t tips[LINENHATCH_SHA1];
    struct lent lent = lent_store(LINENHATCH_SHA1, store.bytes, store.length);
    lent.tips = tips;
    lent.tips_len = ids_of(LINENHATCH_SHA1, "3", tips);
    lent.graph = graph.bytes;
    lent.graph_len = graph_len;
    lent.sorting = LINENHATCH_NEWEST;
    struct walk walk;
    uint32_t result = walk_open_tested(&walk, &lent);
    if (result == LINENHATCH_ACCEPTED)
        while (walk_next(&walk) == LINENHATCH_COMMIT)
            printf("commit %c generation %" PRIu64 "\n", name_of(walk.id), walk.numbers[LINENHATCH_GENERATION]);
    walk_close(&walk);
    return result;
}

int main(void)
{
    struct file store = store_of(LINENHATCH_SHA1, history, COMMITS);
    uint32_t generations[COMMITS]; /* one for each entry of the store */
    uint64_t numbers[LINENHATCH_GRAPH_NUMBERS];

    /* How long it is, then the file. */
    uint32_t result = linenhatch_graph_length(
        LINENHATCH_SHA1, store.bytes, store.length, generations, COMMITS, numbers, LINENHATCH_GRAPH_NUMBERS);
    if (result != LINENHATCH_ACCEPTED)
        give_up("the graph file has no length", result);
    struct file graph = {lend((size_t)numbers[LINENHATCH_FILE_BYTES], 1), (size_t)numbers[LINENHATCH_FILE_BYTES]};
    result = linenhatch_write_graph(
        LINENHATCH_SHA1, store.bytes, store.length, generations, COMMITS,
        graph.bytes, graph.length, numbers, LINENHATCH_GRAPH_NUMBERS);
    if (result != LINENHATCH_ACCEPTED)
        give_up("the graph file is not written", result);
    printf("a graph file of %zu bytes\n", graph.length);

    printf("without it: %" PRIu32 "\n", opened(store, graph, 0));
    printf("with it: %" PRIu32 "\n", opened(store, graph, graph.length));
    free(store.bytes);
    free(graph.bytes);
    return 0;
}
