/* Hides what earlier tables used: the tip of one, of another, of both, and one of them twice in another order. What is left by both is what is left
 * by the one and by the other, and no commit that is left changes its place. The openings are tested, so the lists cannot be wrong.
 */
#include "history.h"

#include <inttypes.h>
#include <stdio.h>
#include <stdlib.h>

static const struct entry history[] = {
    {'1', "", 100, ""},
    {'2', "1", 200, "First table\n"},
    {'3', "1", 300, ""},
    {'4', "3", 400, "Second table\n"},
    {'5', "24", 500, ""},
    {'6', "5", 600, ""},
};

static void list(struct file store, const char *hidden)
{
    uint8_t tips[LINENHATCH_SHA1], hides[3 * LINENHATCH_SHA1];
    struct lent lent = lent_store(LINENHATCH_SHA1, store.bytes, store.length);
    lent.tips = tips;
    lent.tips_len = ids_of(LINENHATCH_SHA1, "6", tips);
    lent.hidden = hides;
    lent.hidden_len = ids_of(LINENHATCH_SHA1, hidden, hides);
    lent.sorting = LINENHATCH_NEWEST;

    struct walk walk;
    uint32_t result = walk_open_tested(&walk, &lent);
    if (result != LINENHATCH_ACCEPTED)
        give_up("the walk is not opened", result);
    printf("hidden %s:", *hidden ? hidden : "none");
    while ((result = walk_next(&walk)) == LINENHATCH_COMMIT)
        printf(" %c", name_of(walk.id));
    if (result != LINENHATCH_END)
        give_up("the walk does not end", result);
    printf("\n");
    walk_close(&walk);
}

int main(void)
{
    struct file store = store_of(LINENHATCH_SHA1, history, sizeof history / sizeof *history);
    list(store, "");
    list(store, "2");
    list(store, "4");
    list(store, "24");
    list(store, "424");
    free(store.bytes);
    return 0;
}
