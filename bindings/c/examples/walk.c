/* A walk as one struct: see walk.h. */
#include "walk.h"

#include <inttypes.h>
#include <stdio.h>
#include <stdlib.h>

static const uint8_t none[1];

void give_up(const char *what, uint32_t result)
{
    fprintf(stderr, "%s: %" PRIu32 "\n", what, result);
    exit(1);
}

void *lend(size_t count, size_t size)
{
    void *memory = calloc(count + 1, size);
    if (!memory)
        give_up("no memory", LINENHATCH_BUFFER_TOO_SMALL);
    return memory;
}

struct lent lent_store(uint32_t width, const uint8_t *store, size_t store_len)
{
    struct lent lent = {0};
    lent.width = width;
    lent.store = store;
    lent.store_len = store_len;
    lent.graph = lent.tips = lent.hidden = lent.excluded = none; /* no pointer is ever null */
    lent.sorting = LINENHATCH_BREADTH;
    return lent;
}

struct memory memory_for(uint32_t width, size_t places)
{
    struct memory memory;
    memory.width = width;
    memory.places = places;
    memory.names = lend(LINENHATCH_NAMES(width, places), sizeof *memory.names);
    memory.marks = lend(LINENHATCH_MARKS(places), sizeof *memory.marks);
    memory.generations = lend(LINENHATCH_GENERATIONS(places), sizeof *memory.generations);
    memory.times = lend(LINENHATCH_TIMES(places), sizeof *memory.times);
    memory.line = lend(LINENHATCH_LINE(places), sizeof *memory.line);
    memory.parents = lend(LINENHATCH_PARENTS(width), sizeof *memory.parents);
    return memory;
}

void memory_free(struct memory *memory)
{
    free(memory->names);
    free(memory->marks);
    free(memory->generations);
    free(memory->times);
    free(memory->line);
    free(memory->parents);
}

/* The two openings are lent the same. */
typedef uint32_t opening(
    uint32_t, const uint8_t *, size_t, const uint8_t *, size_t, const uint8_t *, size_t, const uint8_t *, size_t, const uint8_t *, size_t,
    uint32_t, uint32_t, int64_t, uint32_t,
    uint8_t *, size_t, uint8_t *, size_t, uint32_t *, size_t, int64_t *, size_t, uint32_t *, size_t, uint8_t *, size_t,
    uint64_t *, size_t, uint64_t *, size_t);

static uint32_t open_by(opening *open, struct walk *walk, const struct lent *lent)
{
    walk->lent = *lent;
    walk->memory = memory_for(lent->width, linenhatch_places(
        lent->width, lent->store, lent->store_len, lent->graph, lent->graph_len, lent->tips, lent->tips_len, lent->hidden, lent->hidden_len));
    struct memory *memory = &walk->memory;
    return open(
        lent->width, lent->store, lent->store_len, lent->graph, lent->graph_len,
        lent->tips, lent->tips_len, lent->hidden, lent->hidden_len, lent->excluded, lent->excluded_len,
        lent->sorting, lent->has_cutoff, lent->cutoff, lent->first,
        memory->names, LINENHATCH_NAMES(memory->width, memory->places),
        memory->marks, LINENHATCH_MARKS(memory->places),
        memory->generations, LINENHATCH_GENERATIONS(memory->places),
        memory->times, LINENHATCH_TIMES(memory->places),
        memory->line, LINENHATCH_LINE(memory->places),
        memory->parents, LINENHATCH_PARENTS(memory->width),
        walk->record, LINENHATCH_RECORD,
        walk->numbers, LINENHATCH_NUMBERS);
}

uint32_t walk_open(struct walk *walk, const struct lent *lent)
{
    return open_by(linenhatch_open, walk, lent);
}

uint32_t walk_open_tested(struct walk *walk, const struct lent *lent)
{
    return open_by(linenhatch_open_tested, walk, lent);
}

void walk_close(struct walk *walk)
{
    memory_free(&walk->memory);
}

uint32_t walk_next(struct walk *walk)
{
    const struct lent *lent = &walk->lent;
    struct memory *memory = &walk->memory;
    return linenhatch_next(
        lent->width, walk->record, LINENHATCH_RECORD,
        lent->store, lent->store_len, lent->graph, lent->graph_len, lent->hidden, lent->hidden_len, lent->excluded, lent->excluded_len,
        lent->sorting, lent->has_cutoff, lent->cutoff, lent->first,
        memory->names, LINENHATCH_NAMES(memory->width, memory->places),
        memory->marks, LINENHATCH_MARKS(memory->places),
        memory->generations, LINENHATCH_GENERATIONS(memory->places),
        memory->times, LINENHATCH_TIMES(memory->places),
        memory->line, LINENHATCH_LINE(memory->places),
        memory->parents, LINENHATCH_PARENTS(memory->width),
        walk->id, LINENHATCH_ID_BYTES(lent->width),
        walk->numbers, LINENHATCH_NUMBERS,
        walk->seconds, LINENHATCH_SECONDS);
}
