/* Small histories for the examples: a table of commits made into a commit store, by the store writer. */
#ifndef HISTORY_H
#define HISTORY_H

#include "walk.h"

/* A file in memory, from malloc; give it back with free(file.bytes). */
struct file {
    uint8_t *bytes;
    size_t length;
};

/* A commit of a table. Its name is a hexadecimal digit, and its id is that digit 40 times, or 64. parents: the names of its parents, in order. */
struct entry {
    char name;
    const char *parents;
    long seconds;
    const char *message;
};

/* The commit store of a table; the program ends with a message if there is none. */
struct file store_of(uint32_t width, const struct entry *entries, size_t count);

/* The commit-graph file of a store: graph.c shows how it is written. */
struct file graph_of(uint32_t width, struct file store);

/* The ids of some names, end to end. The result is the number of bytes; ids has room for 20 or 32 for each name. */
size_t ids_of(uint32_t width, const char *names, uint8_t *ids);

/* The name of an id. */
char name_of(const uint8_t *id);

#endif
