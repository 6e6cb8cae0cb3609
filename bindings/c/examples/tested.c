/* Opens tested, from the same tip over four histories: a good one, one that lacks a commit, one whose graph file is another history's, and one
 * with a clock that was set back. Only the first is accepted, and then no call is refused and the list cannot be wrong.
 */
#include "history.h"

#include <inttypes.h>
#include <stdio.h>
#include <stdlib.h>

static const struct entry good[] = {{'1', "", 100, ""}, {'2', "1", 200, ""}, {'3', "2", 300, ""}};
static const struct entry lacking[] = {{'2', "1", 200, ""}, {'3', "2", 300, ""}};
static const struct entry other[] = {{'1', "", 100, ""}, {'2', "1", 250, ""}, {'3', "2", 300, ""}};
static const struct entry set_back[] = {{'1', "", 100, ""}, {'2', "1", 50, ""}, {'3', "2", 300, ""}};

/* Opens tested, newest first from commit 3, and lists if it may. */
static void try_history(const char *what, struct file store, struct file graph)
{
    uint8_t tips[LINENHATCH_SHA1];
    struct lent lent = lent_store(LINENHATCH_SHA1, store.bytes, store.length);
    lent.tips = tips;
    lent.tips_len = ids_of(LINENHATCH_SHA1, "3", tips);
    lent.graph = graph.bytes;
    lent.graph_len = graph.length;
    lent.sorting = LINENHATCH_NEWEST;

    struct walk walk;
    uint32_t result = walk_open_tested(&walk, &lent);
    printf("%s: %" PRIu32, what, result);
    if (result == LINENHATCH_ACCEPTED)
        while ((result = walk_next(&walk)) == LINENHATCH_COMMIT)
            printf(" %c", name_of(walk.id));
    printf("%s\n", result == LINENHATCH_END ? " end" : "");
    walk_close(&walk);
    free(store.bytes);
}

int main(void)
{
    struct file elsewhere = store_of(LINENHATCH_SHA1, other, 3), graph = graph_of(LINENHATCH_SHA1, elsewhere), none = {lend(0, 1), 0};
    try_history("good", store_of(LINENHATCH_SHA1, good, 3), none);
    try_history("a commit is lacking", store_of(LINENHATCH_SHA1, lacking, 2), none);
    try_history("the graph file is another history's", store_of(LINENHATCH_SHA1, good, 3), graph);
    try_history("a clock was set back", store_of(LINENHATCH_SHA1, set_back, 3), none);
    free(elsewhere.bytes);
    free(graph.bytes);
    free(none.bytes);
    return 0;
}
