/* tested FOLDER TURNS: a tested opening of a history of the bench (histories.py) beside listing it. FOLDER has its files store, graph and facts.
 *
 * Each turn makes, one after another, a plain opening, a tested one and a whole list (a plain opening and every call), in memory that is lent again
 * from turn to turn; without and with the commit-graph file, breadth and newest first, from one tip. The least processor time of each counts.
 * Before that the commits of a list after a tested opening are set beside those of the list after a plain one. Ends with status 1 if a result is
 * wrong. */
#define _POSIX_C_SOURCE 200809L
#include <inttypes.h>
#include <stdio.h>
#include <stdlib.h>
#include <string.h>
#include <time.h>

#include "linenhatch.h"

struct bytes {
    uint8_t *at;
    size_t n;
};

static struct bytes store, graph, none = {(uint8_t[1]){0}, 0};
#define WIDTH LINENHATCH_SHA1

static uint8_t tip[WIDTH];
static uint32_t sorting;

static size_t places;
static uint8_t *names, *marks, *parents;
static uint32_t *generations, *line;
static int64_t *times;
static uint64_t record[LINENHATCH_RECORD], numbers[LINENHATCH_NUMBERS];

static double now(void)
{
    struct timespec t;
    clock_gettime(CLOCK_PROCESS_CPUTIME_ID, &t);
    return (double)t.tv_sec + (double)t.tv_nsec * 1e-9;
}

static void stop(const char *what)
{
    perror(what);
    exit(2);
}

static struct bytes read_file(const char *folder, const char *name)
{
    char path[4096];
    snprintf(path, sizeof path, "%s/%s", folder, name);
    FILE *f = fopen(path, "rb");
    struct bytes b = {malloc(16777217), 0};
    if (!f || !b.at)
        stop(path);
    b.n = fread(b.at, 1, 16777216, f);
    b.at[b.n] = 0;
    fclose(f);
    return b;
}

/* The tip among the facts: a line `tip ID`. */
static void read_tip(const char *folder)
{
    struct bytes facts = read_file(folder, "facts");
    const char *at = strstr((const char *)facts.at, "tip ");
    for (size_t k = 0; k < sizeof tip; k++) {
        unsigned byte = 0;
        if (!at || sscanf(at + 4 + 2 * k, "%2x", &byte) != 1)
            stop("facts: no tip");
        tip[k] = (uint8_t)byte;
    }
    free(facts.at);
}

static void *lend(size_t n, size_t size)
{
    void *at = calloc(n + 1, size);
    if (!at)
        stop("calloc");
    return at;
}

static void lend_all(void)
{
    places = linenhatch_places(WIDTH, store.at, store.n, graph.at, graph.n, tip, sizeof tip, none.at, 0);
    names = lend(LINENHATCH_NAMES(WIDTH, places), 1);
    marks = lend(LINENHATCH_MARKS(places), 1);
    generations = lend(LINENHATCH_GENERATIONS(places), 4);
    times = lend(LINENHATCH_TIMES(places), 8);
    line = lend(LINENHATCH_LINE(places), 4);
    parents = lend(LINENHATCH_PARENTS(WIDTH), 1);
}

typedef uint32_t opening(
    uint32_t, const uint8_t *, size_t, const uint8_t *, size_t, const uint8_t *, size_t, const uint8_t *, size_t, const uint8_t *, size_t,
    uint32_t, uint32_t, int64_t, uint32_t, uint8_t *, size_t, uint8_t *, size_t, uint32_t *, size_t, int64_t *, size_t, uint32_t *, size_t,
    uint8_t *, size_t, uint64_t *, size_t, uint64_t *, size_t);

static uint32_t open_by(opening *call, struct bytes g)
{
    return call(WIDTH, store.at, store.n, g.at, g.n, tip, sizeof tip, none.at, 0, none.at, 0, sorting, 0, 0, 0, names, LINENHATCH_NAMES(WIDTH, places), marks,
                LINENHATCH_MARKS(places), generations, LINENHATCH_GENERATIONS(places), times, LINENHATCH_TIMES(places), line,
                LINENHATCH_LINE(places), parents, LINENHATCH_PARENTS(WIDTH), record, LINENHATCH_RECORD, numbers, LINENHATCH_NUMBERS);
}

/* Calls to the end; how many commits came, and a number in which each id and its place have a part. */
static size_t list(struct bytes g, uint64_t *sum)
{
    uint8_t id[WIDTH];
    int64_t seconds[LINENHATCH_SECONDS];
    size_t count = 0;
    for (;;) {
        uint32_t result = linenhatch_next(
            WIDTH, record, LINENHATCH_RECORD, store.at, store.n, g.at, g.n, none.at, 0, none.at, 0, sorting, 0, 0, 0, names, LINENHATCH_NAMES(WIDTH, places), marks,
            LINENHATCH_MARKS(places), generations, LINENHATCH_GENERATIONS(places), times, LINENHATCH_TIMES(places), line,
            LINENHATCH_LINE(places), parents, LINENHATCH_PARENTS(WIDTH), id, sizeof id, numbers, LINENHATCH_NUMBERS, seconds, LINENHATCH_SECONDS);
        if (result != LINENHATCH_COMMIT)
            return result == LINENHATCH_END ? count : 0;
        uint64_t word;
        memcpy(&word, id, sizeof word);
        *sum = *sum * 0x100000001B3u + word;
        count++;
    }
}

static int run(const char *what, struct bytes g, int turns)
{
    double best[3] = {1e9, 1e9, 1e9};
    uint64_t plain = 0, tested = 0;
    uint32_t first = open_by(linenhatch_open, g);
    size_t count = list(g, &plain);
    uint32_t second = open_by(linenhatch_open_tested, g);
    size_t again = list(g, &tested);
    if (first || second || !count || count != again || plain != tested) {
        printf("%s: WRONG: openings %" PRIu32 " and %" PRIu32 ", %zu and %zu commits\n", what, first, second, count, again);
        return 1;
    }
    for (int turn = 0; turn < turns; turn++)
        for (int which = 0; which < 3; which++) {
            double t = now();
            (void)open_by(which == 1 ? linenhatch_open_tested : linenhatch_open, g);
            if (which == 2)
                (void)list(g, &plain);
            t = now() - t;
            if (t < best[which])
                best[which] = t;
        }
    printf("| %s | %zu | %.1f | %.1f | %.1f | %.2f |\n", what, count, best[0] * 1e3, best[1] * 1e3, best[2] * 1e3, best[1] / best[2]);
    return 0;
}

int main(int argc, char **argv)
{
    if (argc < 3)
        return 2;
    int turns = atoi(argv[2]), bad = 0;
    store = read_file(argv[1], "store");
    graph = read_file(argv[1], "graph");
    read_tip(argv[1]);
    lend_all();
    const char *name = strrchr(argv[1], '/') ? strrchr(argv[1], '/') + 1 : argv[1];
    static const char *const orders[] = {"breadth", "newest"};
    for (sorting = 0; sorting < 2; sorting++)
        for (int with = 0; with < 2; with++) {
            char what[256];
            snprintf(what, sizeof what, "%s | %s | %s", name, orders[sorting], with ? "yes" : "no");
            bad |= run(what, with ? graph : none, turns);
        }
    return bad;
}
