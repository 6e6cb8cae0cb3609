/* Says where two series part. 6 and 7 both merge 4 and 5, so both of these are best: the newer one is given, whichever tip comes first. 8 is a
 * root, and has nothing in common with 7.
 */
#include "history.h"

#include <inttypes.h>
#include <stdio.h>
#include <stdlib.h>

static const struct entry history[] = {
    {'1', "", 100, ""},
    {'4', "1", 400, ""},
    {'5', "1", 500, ""},
    {'6', "45", 600, ""},
    {'7', "54", 700, ""},
    {'8', "", 800, ""},
};

/* The memory is that of a walk from the two tips, without a graph file. */
static void part(struct file store, const char *one, const char *other)
{
    static const uint8_t none[1];
    uint8_t tips[2 * LINENHATCH_SHA1];
    size_t half = ids_of(LINENHATCH_SHA1, one, tips);
    ids_of(LINENHATCH_SHA1, other, tips + half);
    struct memory memory = memory_for(
        LINENHATCH_SHA1, linenhatch_places(LINENHATCH_SHA1, store.bytes, store.length, none, 0, tips, sizeof tips, none, 0));
    uint8_t id[LINENHATCH_SHA1];
    uint64_t numbers[LINENHATCH_BASE_NUMBERS];

    uint32_t result = linenhatch_merge_base(
        LINENHATCH_SHA1, store.bytes, store.length, tips, half, tips + half, half,
        memory.names, LINENHATCH_NAMES(LINENHATCH_SHA1, memory.places),
        memory.marks, LINENHATCH_MARKS(memory.places),
        memory.generations, LINENHATCH_GENERATIONS(memory.places),
        memory.times, LINENHATCH_TIMES(memory.places),
        memory.line, LINENHATCH_LINE(memory.places),
        memory.parents, LINENHATCH_PARENTS(LINENHATCH_SHA1),
        id, LINENHATCH_SHA1,
        numbers, LINENHATCH_BASE_NUMBERS);
    if (result != LINENHATCH_ACCEPTED)
        printf("%s and %s: refused %" PRIu32 "\n", one, other, result);
    else if (numbers[LINENHATCH_HAS_BASE])
        printf("%s and %s part at %c\n", one, other, name_of(id));
    else
        printf("%s and %s have nothing in common\n", one, other);
    memory_free(&memory);
}

int main(void)
{
    struct file store = store_of(LINENHATCH_SHA1, history, sizeof history / sizeof *history);
    part(store, "6", "7");
    part(store, "7", "6");
    part(store, "4", "7");
    part(store, "7", "8");
    part(store, "7", "9");
    free(store.bytes);
    return 0;
}
