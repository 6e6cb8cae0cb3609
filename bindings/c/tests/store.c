/* The store writer: what it writes is held to the bytes that the specification gives and to the library, which refuses a store of another layout. */
#include "linenhatch.h"
#include "store.h"

#include <stdio.h>
#include <stdlib.h>
#include <string.h>

#define ID LINENHATCH_SHA1

static int failed;

static void expect(int holds, const char *what)
{
    if (!holds) {
        printf("failed: %s\n", what);
        failed = 1;
    }
}

static void *room(size_t bytes)
{
    void *memory = malloc(bytes ? bytes : 1);
    if (!memory) {
        perror("malloc");
        exit(1);
    }
    return memory;
}

/* The result of an opening without tips, breadth first: the layout is tested, and nothing else can be refused. */
static uint32_t opened(uint32_t width, const uint8_t *store, size_t length)
{
    static const uint8_t none[1];
    size_t places = linenhatch_places(width, store, length, none, 0, none, 0, none, 0);
    uint64_t record[LINENHATCH_RECORD], numbers[LINENHATCH_OPEN_NUMBERS];
    uint8_t *names = room(LINENHATCH_NAMES(width, places)), *marks = room(LINENHATCH_MARKS(places)), *parents = room(LINENHATCH_PARENTS(width));
    uint32_t *generations = room(4 * LINENHATCH_GENERATIONS(places)), *line = room(4 * LINENHATCH_LINE(places));
    int64_t *times = room(8 * LINENHATCH_TIMES(places));
    uint32_t result = linenhatch_open(
        width, store, length, none, 0, none, 0, none, 0, none, 0, LINENHATCH_BREADTH, 0, 0, 0,
        names, LINENHATCH_NAMES(width, places), marks, LINENHATCH_MARKS(places), generations, LINENHATCH_GENERATIONS(places),
        times, LINENHATCH_TIMES(places), line, LINENHATCH_LINE(places), parents, LINENHATCH_PARENTS(width),
        record, LINENHATCH_RECORD, numbers, LINENHATCH_OPEN_NUMBERS);
    free(names);
    free(marks);
    free(parents);
    free(generations);
    free(line);
    free(times);
    return result;
}

static void the_empty_store(void)
{
    static const uint8_t zeros[8];
    uint8_t output[9];
    linenhatch_commit no_commit = {0};
    linenhatch_store_size size;
    memset(output, 0x5a, sizeof output);
    expect(linenhatch_write_store(ID, &no_commit, 0, output, sizeof output, &size) == 0, "the empty store is written");
    expect(size.bytes == 8 && size.commits == 0 && size.at == 0, "its size");
    expect(memcmp(output, zeros, 8) == 0 && output[8] == 0x5a, "8 zeros, and no byte more");
    expect(opened(ID, output, 8) == LINENHATCH_ACCEPTED, "it opens");
}

static void sorted_and_once(uint32_t width)
{
    uint8_t one[32], two[32], again[32], output[256], wanted[256];
    size_t id = width == 32 ? 32 : 20, n = 0;
    memset(one, 0x11, sizeof one);
    memset(two, 0x22, sizeof two);
    memset(again, 0x22, sizeof again);
    linenhatch_commit commits[] = {{two, "second", 6}, {one, "first ", 6}, {again, "second", 6}};
    linenhatch_store_size size;
    memset(output, 0x5a, sizeof output);
    expect(linenhatch_write_store(width, commits, 3, output, sizeof output, &size) == 0, "two commits are written");
    expect(size.bytes == 12 + 2 * (id + 4) + 8 && size.commits == 2, "their size, the repeated one counted once");
    expect(memcmp(commits[0].id, one, id) == 0 && memcmp(commits[2].id, two, id) == 0, "the commits are in order now");
    memcpy(wanted, "first second", 12);
    n += 12;
    memcpy(wanted + n, one, id);
    memcpy(wanted + n + id, "\0\0\0\6", 4);
    n += id + 4;
    memcpy(wanted + n, two, id);
    memcpy(wanted + n + id, "\0\0\0\14", 4);
    n += id + 4;
    memcpy(wanted + n, "\0\0\0\14\0\0\0\2", 8);
    expect(memcmp(output, wanted, n + 8) == 0, "every byte of the store");
    expect(opened(width, output, n + 8) == LINENHATCH_ACCEPTED, "it opens with its own width");
    expect(opened(id == 32 ? 20 : 32, output, n + 8) == LINENHATCH_CORRUPT_STORE, "it is 4 with the other");
    for (n += 8; n < sizeof output; n++)
        expect(output[n] == 0x5a, "no byte past it");
}

static void two_bodies(void)
{
    uint8_t ids[4][ID], output[256], before[256];
    for (size_t i = 0; i < 4; i++)
        memset(ids[i], 0x11 * (int)(4 - i / 2), ID); /* 44 44 33 33 */
    linenhatch_commit commits[] = {{ids[0], "a", 1}, {ids[1], "b", 1}, {ids[2], "c", 1}, {ids[3], "c", 1}};
    linenhatch_store_size size;
    memset(output, 0x5a, sizeof output);
    memcpy(before, output, sizeof output);
    expect(linenhatch_write_store(ID, commits, 4, output, sizeof output, &size) == LINENHATCH_STORE_TWO_BODIES, "102");
    expect(size.bytes == 0 && size.commits == 0 && size.at == 2, "it says which");
    expect(commits[size.at].id[0] == 0x44 && commits[size.at + 1].id[0] == 0x44, "that id");
    expect(memcmp(output, before, sizeof output) == 0, "nothing is written");
    linenhatch_commit longer[] = {{ids[0], "a", 1}, {ids[1], "ab", 2}};
    expect(linenhatch_store_length(ID, longer, 2, &size) == LINENHATCH_STORE_TWO_BODIES, "102 for a body that goes on");
}

static void short_output(void)
{
    uint8_t id[ID] = {1}, output[64], before[64];
    linenhatch_commit commit = {id, "", 0};
    linenhatch_store_size size;
    memset(output, 0x5a, sizeof output);
    memcpy(before, output, sizeof output);
    expect(linenhatch_write_store(ID, &commit, 1, output, 31, &size) == LINENHATCH_STORE_SHORT_OUTPUT, "20 with a byte too few");
    expect(size.bytes == 32, "it says how many it needs");
    expect(memcmp(output, before, sizeof output) == 0, "nothing is written");
    expect(linenhatch_write_store(ID, &commit, 1, output, 32, &size) == 0, "as many as it needs");
    expect(opened(ID, output, 32) == LINENHATCH_ACCEPTED, "a commit of no bytes opens");
}

static void too_large(void)
{
    uint8_t one[ID] = {1}, two[ID] = {2};
    size_t most = LINENHATCH_MAX_STORE - 24 - 8;
    char *body = room(most + 1);
    uint8_t *output = room(LINENHATCH_MAX_STORE);
    memset(body, 'x', most + 1);
    linenhatch_commit commit = {one, body, most};
    linenhatch_store_size size;
    expect(linenhatch_write_store(ID, &commit, 1, output, LINENHATCH_MAX_STORE, &size) == 0, "the largest store");
    expect(size.bytes == LINENHATCH_MAX_STORE && opened(ID, output, LINENHATCH_MAX_STORE) == LINENHATCH_ACCEPTED, "it opens");
    commit.body_len++;
    expect(linenhatch_write_store(ID, &commit, 1, output, LINENHATCH_MAX_STORE, &size) == LINENHATCH_STORE_TOO_LARGE, "a byte more is 2");
    expect(size.bytes == LINENHATCH_MAX_STORE + 1u && size.commits == 1, "it says how many it would have");
    linenhatch_commit huge[] = {{one, body, SIZE_MAX}, {two, body, SIZE_MAX}};
    expect(linenhatch_store_length(ID, huge, 2, &size) == LINENHATCH_STORE_TOO_LARGE, "lengths that no sum holds are 2");
    expect(size.bytes == UINT64_MAX, "the greatest number in their place");
    free(body);
    free(output);
}

/* Many commits in no order, each several times: what comes out is in order and opens. */
static void many(size_t count)
{
    uint8_t *ids = room(count * ID);
    linenhatch_commit *commits = room(count * sizeof *commits);
    uint32_t drawn = 1;
    for (size_t i = 0; i < count * ID; i++)
        ids[i] = (uint8_t)((drawn = drawn * 1664525u + 1013904223u) >> 29); /* few values, so that ids start alike */
    for (size_t i = 0; i < count; i++) {
        if (i % 3 == 2)
            memcpy(ids + i * ID, ids + (drawn % i) * ID, ID);
        commits[i].id = ids + i * ID;
        commits[i].body = "body";
        commits[i].body_len = 4;
        drawn = drawn * 1664525u + 1013904223u;
    }
    linenhatch_store_size size;
    expect(linenhatch_store_length(ID, commits, count, &size) == 0, "many have a length");
    uint8_t *output = room((size_t)size.bytes);
    expect(linenhatch_write_store(ID, commits, count, output, (size_t)size.bytes, &size) == 0, "many are written");
    expect(size.commits < count && size.bytes == 8 + 28 * (uint64_t)size.commits, "repeats are left out");
    for (size_t i = 1; i < count; i++)
        expect(memcmp(commits[i - 1].id, commits[i].id, ID) <= 0, "in order");
    expect(opened(ID, output, (size_t)size.bytes) == LINENHATCH_ACCEPTED, "many open");
    free(ids);
    free(commits);
    free(output);
}

int main(void)
{
    the_empty_store();
    sorted_and_once(ID);
    sorted_and_once(32);
    two_bodies();
    short_output();
    too_large();
    for (size_t count = 3; count < 40; count++)
        many(count);
    many(20000);
    if (!failed)
        printf("the store writer: as it should\n");
    return failed;
}
