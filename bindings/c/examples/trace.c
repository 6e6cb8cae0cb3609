/* Traces back by turns from commit 8 to a calibration. The cone moves first, to 6 or to 7; from 6 the bed can go to 4, from 7 both ways lead to a
 * calibration. So with two moves the cone forces it by its second parent, and with one move it does not.
 */
#include "history.h"

#include <inttypes.h>
#include <stdio.h>
#include <stdlib.h>

static const struct entry history[] = {
    {'1', "", 100, "Calibration\n"},
    {'2', "", 200, "Calibration\n"},
    {'4', "", 400, ""},
    {'6', "14", 600, ""},
    {'7', "12", 700, ""},
    {'8', "67", 800, ""},
};

#define MEMO (26 * (sizeof history / sizeof *history)) /* as much as makes it quick; any length gives the same answer */

static void trace(struct file store, const char *start, uint32_t moves)
{
    uint8_t from[LINENHATCH_SHA1], list[2 * LINENHATCH_SHA1], memo[MEMO], id[LINENHATCH_SHA1];
    uint64_t numbers[LINENHATCH_TRACE_NUMBERS];
    size_t from_len = ids_of(LINENHATCH_SHA1, start, from), list_len = ids_of(LINENHATCH_SHA1, "12", list);
    uint32_t result = linenhatch_trace(
        LINENHATCH_SHA1, store.bytes, store.length, from, from_len, list, list_len, moves,
        memo, sizeof memo, id, sizeof id, numbers, LINENHATCH_TRACE_NUMBERS);
    printf("from %s with %" PRIu32 " moves: ", start, moves);
    if (result != LINENHATCH_ACCEPTED)
        printf("refused %" PRIu32 "\n", result);
    else if (numbers[LINENHATCH_FORCED] == 2)
        printf("forced by parent number %" PRIu64 ", %c\n", numbers[LINENHATCH_PARENT_NUMBER], name_of(id));
    else
        printf("%s\n", numbers[LINENHATCH_FORCED] == 1 ? "it is a calibration" : "not forced");
}

int main(void)
{
    struct file store = store_of(LINENHATCH_SHA1, history, sizeof history / sizeof *history);
    trace(store, "8", 1);
    trace(store, "8", 2);
    trace(store, "6", 1);
    trace(store, "1", 0);
    trace(store, "8", 13);
    free(store.bytes);
    return 0;
}
