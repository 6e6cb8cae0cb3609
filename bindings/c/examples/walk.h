/* A walk as one struct: what is lent to an opening and to every call after it. A program of your own may take
 * walk.h and walk.c as they are. */
#ifndef WALK_H
#define WALK_H

#include "linenhatch.h"

/* Memory for count elements, zeros, one more than asked for so that the pointer is one also for none; the program ends if there is none left. */
void *lend(size_t count, size_t size);

/* Ends the program with a message. */
void give_up(const char *what, uint32_t result);

/* What the caller lends. The files and lists stay the caller's, and neither they nor the settings may change until the walk is closed. */
struct lent {
    uint32_t width; /* of ids: LINENHATCH_SHA1 or LINENHATCH_SHA256 */
    const uint8_t *store;
    size_t store_len;
    const uint8_t *graph; /* of length 0 where there is none */
    size_t graph_len;
    const uint8_t *tips, *hidden, *excluded; /* ids end to end */
    size_t tips_len, hidden_len, excluded_len;
    uint32_t sorting, has_cutoff, first;
    int64_t cutoff;
};

/* What the walk works in. Nobody else writes to it. */
struct memory {
    uint32_t width;
    size_t places;
    uint8_t *names, *marks, *parents;
    uint32_t *generations, *line;
    int64_t *times;
};

struct walk {
    struct lent lent;
    struct memory memory;
    uint64_t record[LINENHATCH_RECORD];
    /* the last answer; the parents' ids stand at the start of memory.parents */
    uint8_t id[LINENHATCH_MAX_ID_BYTES];
    uint64_t numbers[LINENHATCH_NUMBERS];
    int64_t seconds[LINENHATCH_SECONDS];
};

/* Files, lists and settings with nothing in them but a store: breadth order, no cutoff, all parents. */
struct lent lent_store(uint32_t width, const uint8_t *store, size_t store_len);

/* The memory for ids of a width and so many places, and its end. */
struct memory memory_for(uint32_t width, size_t places);
void memory_free(struct memory *memory);

/* Opens a walk, tested or not: 0 or the refusal. walk_close ends it, also after a refusal. */
uint32_t walk_open(struct walk *walk, const struct lent *lent);
uint32_t walk_open_tested(struct walk *walk, const struct lent *lent);
void walk_close(struct walk *walk);

/* The next answer: 0 where it is a commit, 100 at the end, else the refusal. */
uint32_t walk_next(struct walk *walk);

#endif
