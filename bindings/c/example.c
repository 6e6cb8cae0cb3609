/* Lists the commits of a small history, newest first: a store is written, a walk over it opened, and called until the end. Two benches each
 * made a run on the first commit, and a merge joins them. Each line is a commit's id, how many parents it has, its committer time and its zone
 * in minutes ahead of UTC; the last is the end, with how many commits ever waited. A refusal would be a line with its number.
 *
 *     tools/staticlib
 *     make -C bindings/c run
 */
#include "linenhatch.h"
#include "store.h"

#include <inttypes.h>
#include <stdio.h>
#include <stdlib.h>
#include <string.h>

#define WIDTH LINENHATCH_SHA1 /* of ids, in bytes */
#define COMMITS 4
#define STORE_ROOM 2048
#define TREE "tree 0000000000000000000000000000000000000000\n"
#define WHO(seconds) "author Bench <bench@example.org> " seconds " +0100\ncommitter Bench <bench@example.org> " seconds " +0100\n\n"

/* What `git cat-file commit` prints of each. The id of commit k is its digit 40 times, which git would not give it: no walk looks at that, the
 * check of names does. */
static const char *const bodies[COMMITS] = {
    TREE WHO("100") "Set up\n",
    TREE "parent 1111111111111111111111111111111111111111\n" WHO("200") "Cone bench\n",
    TREE "parent 1111111111111111111111111111111111111111\n" WHO("300") "Needle bed\n",
    TREE "parent 2222222222222222222222222222222222222222\n"
         "parent 3333333333333333333333333333333333333333\n" WHO("400") "Both readings\n",
};

/* The commits may come in any order: the writer sorts them. The result is the store's length. */
static size_t make_store(uint8_t ids[COMMITS][WIDTH], uint8_t *store)
{
    linenhatch_commit commits[COMMITS];
    linenhatch_store_size size;
    for (size_t k = 0; k < COMMITS; k++) {
        memset(ids[k], 0x11 * (int)(k + 1), WIDTH);
        commits[k].id = ids[k];
        commits[k].body = bodies[k];
        commits[k].body_len = strlen(bodies[k]);
    }
    uint32_t result = linenhatch_write_store(WIDTH, commits, COMMITS, store, STORE_ROOM, &size);
    if (result != LINENHATCH_STORE_WRITTEN) {
        fprintf(stderr, "the store is not written: %" PRIu32 "\n", result);
        exit(1);
    }
    return (size_t)size.bytes;
}

static void *lend(size_t n, size_t size)
{
    void *p = calloc(n + 1, size); /* one more, so that a buffer of no element has a pointer too */
    if (!p) {
        perror("calloc");
        exit(1);
    }
    return p;
}

static void print_commit(const uint8_t *id, const uint64_t *numbers, const int64_t *seconds)
{
    for (size_t i = 0; i < WIDTH; i++)
        printf("%02x", id[i]);
    printf(" parents %" PRIu64, numbers[LINENHATCH_PARENT_IDS]);
    if (numbers[LINENHATCH_HAS_TIME])
        printf(" seconds %" PRId64, seconds[LINENHATCH_TIME]);
    if (numbers[LINENHATCH_HAS_ZONE])
        printf(" zone %" PRId64, seconds[LINENHATCH_ZONE]);
    printf("\n");
}

int main(void)
{
    static const uint8_t none[1]; /* for what there is none of: a pointer is never null */
    uint8_t ids[COMMITS][WIDTH], store[STORE_ROOM];
    size_t store_len = make_store(ids, store);
    const uint8_t *tips = ids[COMMITS - 1];
    size_t tips_len = WIDTH;

    size_t places = linenhatch_places(WIDTH, store, store_len, none, 0, tips, tips_len, none, 0);
    uint8_t *names = lend(LINENHATCH_NAMES(WIDTH, places), sizeof *names);
    uint8_t *marks = lend(LINENHATCH_MARKS(places), sizeof *marks);
    uint32_t *generations = lend(LINENHATCH_GENERATIONS(places), sizeof *generations);
    int64_t *times = lend(LINENHATCH_TIMES(places), sizeof *times);
    uint32_t *line = lend(LINENHATCH_LINE(places), sizeof *line);
    uint8_t *parents = lend(LINENHATCH_PARENTS(WIDTH), sizeof *parents);
    uint64_t record[LINENHATCH_RECORD];
    uint8_t id[WIDTH];
    uint64_t numbers[LINENHATCH_NUMBERS];
    int64_t seconds[LINENHATCH_SECONDS];

    uint32_t result = linenhatch_open(
        WIDTH, store, store_len, none, 0, tips, tips_len, none, 0, none, 0,
        LINENHATCH_NEWEST, 0, 0, 0,
        names, LINENHATCH_NAMES(WIDTH, places),
        marks, LINENHATCH_MARKS(places),
        generations, LINENHATCH_GENERATIONS(places),
        times, LINENHATCH_TIMES(places),
        line, LINENHATCH_LINE(places),
        parents, LINENHATCH_PARENTS(WIDTH),
        record, LINENHATCH_RECORD,
        numbers, LINENHATCH_NUMBERS);
    if (result != LINENHATCH_ACCEPTED) {
        fprintf(stderr, "the walk is not opened: %" PRIu32 "\n", result);
        return 1;
    }

    /* The same files, lists, settings and memory for every call, and nobody writes to the memory in between. */
    do {
        result = linenhatch_next(
            WIDTH, record, LINENHATCH_RECORD,
            store, store_len, none, 0, none, 0, none, 0,
            LINENHATCH_NEWEST, 0, 0, 0,
            names, LINENHATCH_NAMES(WIDTH, places),
            marks, LINENHATCH_MARKS(places),
            generations, LINENHATCH_GENERATIONS(places),
            times, LINENHATCH_TIMES(places),
            line, LINENHATCH_LINE(places),
            parents, LINENHATCH_PARENTS(WIDTH),
            id, WIDTH,
            numbers, LINENHATCH_NUMBERS,
            seconds, LINENHATCH_SECONDS);
        if (result == LINENHATCH_COMMIT)
            print_commit(id, numbers, seconds);
        else if (result != LINENHATCH_END)
            printf("refused %" PRIu32 "\n", result); /* after 9 to 11 the walk goes on with the next commit */
    } while (result != LINENHATCH_END && result != LINENHATCH_CLOSED && result != LINENHATCH_NO_ROOM);
    if (result == LINENHATCH_END)
        printf("end admitted %" PRIu64 "\n", numbers[LINENHATCH_ADMITTED]);

    free(names);
    free(marks);
    free(generations);
    free(times);
    free(line);
    free(parents);
    return result == LINENHATCH_END ? 0 : 1;
}
