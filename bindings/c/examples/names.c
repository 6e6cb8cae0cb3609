/* Checks that each commit of a store is under the id that git makes of its body. Two commits with their true ids pass, with their graph file too;
 * with their bodies exchanged the first is at fault, and a graph file with one bit of its checksum turned is.
 */
#include "history.h"
#include "store.h"

#include <inttypes.h>
#include <stdio.h>
#include <stdlib.h>

/* git hash-object -t commit gives them these ids. */
static const uint8_t first_id[LINENHATCH_SHA1] = {
    0x73, 0x79, 0x24, 0x11, 0x80, 0xca, 0x37, 0x4e, 0x69, 0x3f, 0x7d, 0xfa, 0x42, 0x98, 0x0d, 0x66, 0x3d, 0xa3, 0xb6, 0xe6};
static const char first_body[] =
    "tree 0000000000000000000000000000000000000000\n"
    "author Bench <bench@example.org> 100 +0100\n"
    "committer Bench <bench@example.org> 100 +0100\n"
    "\n"
    "Set up\n";
static const uint8_t second_id[LINENHATCH_SHA1] = {
    0x76, 0xe6, 0x2c, 0xd3, 0x91, 0xcb, 0xde, 0x18, 0x6a, 0x47, 0x7e, 0x69, 0x83, 0x07, 0xb5, 0x20, 0x0c, 0x72, 0x7f, 0x2e};
static const char second_body[] =
    "tree 0000000000000000000000000000000000000000\n"
    "parent 7379241180ca374e693f7dfa42980d663da3b6e6\n"
    "author Bench <bench@example.org> 200 +0100\n"
    "committer Bench <bench@example.org> 200 +0100\n"
    "\n"
    "Cone bench\n";

/* The store of two commits, by the store writer. They are given in the wrong order; it sorts them. */
static struct file store_with(const uint8_t *later_id, const uint8_t *earlier_id)
{
    linenhatch_commit commits[2] = {
        {later_id, second_body, sizeof second_body - 1},
        {earlier_id, first_body, sizeof first_body - 1},
    };
    linenhatch_store_size size;
    uint32_t result = linenhatch_store_length(LINENHATCH_SHA1, commits, 2, &size);
    struct file store = {lend((size_t)size.bytes, 1), (size_t)size.bytes};
    if (result == LINENHATCH_STORE_WRITTEN)
        result = linenhatch_write_store(LINENHATCH_SHA1, commits, 2, store.bytes, store.length, &size);
    if (result != LINENHATCH_STORE_WRITTEN)
        give_up("the store is not written", result);
    return store;
}

static void check(const char *what, struct file store, struct file graph, size_t graph_len)
{
    uint64_t numbers[LINENHATCH_CHECK_NUMBERS];
    uint32_t result = linenhatch_check_names(
        LINENHATCH_SHA1, store.bytes, store.length, graph.bytes, graph_len, numbers, LINENHATCH_CHECK_NUMBERS);
    printf("%s: %" PRIu32, what, result);
    if (result == LINENHATCH_FALSE_NAME)
        printf(", entry %" PRIu64, numbers[LINENHATCH_ENTRY]);
    printf("\n");
}

int main(void)
{
    struct file named = store_with(second_id, first_id), exchanged = store_with(first_id, second_id), graph = graph_of(LINENHATCH_SHA1, named);
    check("true names", named, graph, 0);
    check("with the graph file", named, graph, graph.length);
    check("bodies exchanged", exchanged, graph, 0);
    graph.bytes[graph.length - 1] ^= 1;
    check("a false checksum", named, graph, graph.length);
    free(named.bytes);
    free(exchanged.bytes);
    free(graph.bytes);
    return 0;
}
