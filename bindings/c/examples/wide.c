/* A history with SHA-256, whose ids have 32 bytes: the store, its commit-graph file and the list are as with SHA-1, and the width alone is another. With the
 * width of SHA-1 the same store is refused (4), and beside a store of that width the file is (5).
 */
#include "history.h"

#include <inttypes.h>
#include <stdio.h>
#include <stdlib.h>

static const struct entry history[] = {
    {'1', "", 100, "Set up\n"},
    {'2', "1", 200, "Cone bench\n"},
    {'3', "1", 300, "Needle bed\n"},
    {'4', "23", 400, "Both readings\n"},
};

#define COMMITS (sizeof history / sizeof *history)

static void print_id(uint32_t width, const uint8_t *id)
{
    for (size_t i = 0; i < LINENHATCH_ID_BYTES(width); i++)
        printf("%02x", id[i]);
}

/* Opens tested, newest first from commit 4, and lists if it may. */
static void list(uint32_t width, struct file store, struct file graph)
{
    uint8_t tips[LINENHATCH_MAX_ID_BYTES];
    struct lent lent = lent_store(width, store.bytes, store.length);
    lent.tips = tips;
    lent.tips_len = ids_of(width, "4", tips);
    lent.graph = graph.bytes;
    lent.graph_len = graph.length;
    lent.sorting = LINENHATCH_NEWEST;

    struct walk walk;
    uint32_t result = walk_open_tested(&walk, &lent);
    printf("width %" PRIu32 ", a graph file of %zu bytes: %" PRIu32 "\n", width, graph.length, result);
    if (result == LINENHATCH_ACCEPTED)
        while (walk_next(&walk) == LINENHATCH_COMMIT) {
            print_id(width, walk.id);
            printf(" parents %" PRIu64 " generation %" PRIu64 "\n", walk.numbers[LINENHATCH_PARENT_IDS], walk.numbers[LINENHATCH_GENERATION]);
        }
    walk_close(&walk);
}

int main(void)
{
    struct file wide = store_of(LINENHATCH_SHA256, history, COMMITS), wide_graph = graph_of(LINENHATCH_SHA256, wide);
    struct file narrow = store_of(LINENHATCH_SHA1, history, COMMITS), narrow_graph = graph_of(LINENHATCH_SHA1, narrow);
    list(LINENHATCH_SHA256, wide, wide_graph);
    list(LINENHATCH_SHA1, wide, narrow_graph);
    list(LINENHATCH_SHA1, narrow, wide_graph);
    free(wide.bytes);
    free(wide_graph.bytes);
    free(narrow.bytes);
    free(narrow_graph.bytes);
    return 0;
}
