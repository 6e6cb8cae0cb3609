/* Small histories for the examples: see history.h. */
#include "history.h"

#include "store.h"

#include <stdio.h>
#include <stdlib.h>
#include <string.h>

#define BODY_ROOM 1024

static const char digits[] = "0123456789abcdef";

size_t ids_of(uint32_t width, const char *names, uint8_t *ids)
{
    size_t count = strlen(names), bytes = LINENHATCH_ID_BYTES(width);
    for (size_t i = 0; i < count; i++) {
        const char *digit = strchr(digits, names[i]);
        memset(ids + i * bytes, digit ? 0x11 * (int)(digit - digits) : 0, bytes);
    }
    return count * bytes;
}

char name_of(const uint8_t *id)
{
    return digits[id[0] & 15];
}

/* A digit 40 times, or 64. */
static void put_hex(uint32_t width, char *at, char digit)
{
    memset(at, digit, 2 * LINENHATCH_ID_BYTES(width));
    at[2 * LINENHATCH_ID_BYTES(width)] = 0;
}

/* What `git cat-file commit` would print of it. */
static size_t write_body(uint32_t width, const struct entry *commit, char *body)
{
    char hex[2 * LINENHATCH_MAX_ID_BYTES + 1];
    put_hex(width, hex, '0');
    int n = snprintf(body, BODY_ROOM, "tree %s\n", hex);
    for (const char *parent = commit->parents; *parent; parent++) {
        put_hex(width, hex, *parent);
        n += snprintf(body + n, (size_t)(BODY_ROOM - n), "parent %s\n", hex);
    }
    n += snprintf(body + n, (size_t)(BODY_ROOM - n), "author Bench <bench@example.org> %ld +0100\n", commit->seconds);
    n += snprintf(body + n, (size_t)(BODY_ROOM - n), "committer Bench <bench@example.org> %ld +0100\n", commit->seconds);
    n += snprintf(body + n, (size_t)(BODY_ROOM - n), "\n%s", commit->message);
    return (size_t)n;
}

struct file store_of(uint32_t width, const struct entry *entries, size_t count)
{
    size_t id_bytes = LINENHATCH_ID_BYTES(width);
    linenhatch_commit *commits = lend(count, sizeof *commits);
    uint8_t *ids = lend(count, id_bytes);
    char *bodies = lend(count, BODY_ROOM);
    for (size_t i = 0; i < count; i++) {
        char name[2] = {entries[i].name, 0};
        ids_of(width, name, ids + i * id_bytes);
        commits[i].id = ids + i * id_bytes;
        commits[i].body = bodies + i * BODY_ROOM;
        commits[i].body_len = write_body(width, &entries[i], bodies + i * BODY_ROOM);
    }
    linenhatch_store_size size;
    uint32_t result = linenhatch_store_length(width, commits, count, &size);
    if (result)
        give_up("the store has no length", result);
    struct file store = {lend((size_t)size.bytes, 1), (size_t)size.bytes};
    result = linenhatch_write_store(width, commits, count, store.bytes, store.length, &size);
    if (result)
        give_up("the store is not written", result);
    free(bodies);
    free(ids);
    free(commits);
    return store;
}

struct file graph_of(uint32_t width, struct file store)
{
    size_t commits = 0;
    for (size_t i = 4; i > 0; i--) /* the store's last four bytes say how many entries it has */
        commits = commits << 8 | store.bytes[store.length - i];
    uint32_t *generations = lend(commits, sizeof *generations);
    uint64_t numbers[LINENHATCH_GRAPH_NUMBERS];
    uint32_t result = linenhatch_graph_length(
        width, store.bytes, store.length, generations, commits, numbers, LINENHATCH_GRAPH_NUMBERS);
    struct file graph = {lend((size_t)numbers[LINENHATCH_FILE_BYTES], 1), (size_t)numbers[LINENHATCH_FILE_BYTES]};
    if (result == LINENHATCH_ACCEPTED)
        result = linenhatch_write_graph(
            width, store.bytes, store.length, generations, commits,
            graph.bytes, graph.length, numbers, LINENHATCH_GRAPH_NUMBERS);
    if (result != LINENHATCH_ACCEPTED)
        give_up("the graph file is not written", result);
    free(generations);
    return graph;
}
