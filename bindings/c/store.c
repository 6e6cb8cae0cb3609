/* Writing commit stores: see store.h. */
#include "store.h"

#include <string.h>

#define END_BYTES 4u
#define TRAILER_BYTES 8u

static size_t id_bytes(uint32_t width)
{
    return width == 32 ? 32 : 20;
}

static void swap(linenhatch_commit *one, linenhatch_commit *other)
{
    linenhatch_commit kept = *one;
    *one = *other;
    *other = kept;
}

/* Lets the commit at a place of a heap of count commits sink until none below it has a greater id. */
static void sink(size_t width, linenhatch_commit *commits, size_t at, size_t count)
{
    while (at < count / 2) {
        size_t child = 2 * at + 1;
        if (child + 1 < count && memcmp(commits[child].id, commits[child + 1].id, width) < 0)
            child++;
        if (memcmp(commits[at].id, commits[child].id, width) >= 0)
            return;
        swap(&commits[at], &commits[child]);
        at = child;
    }
}

/* Heap sort: n log n steps whatever the order was, and no memory of its own. */
static void sort(size_t width, linenhatch_commit *commits, size_t count)
{
    for (size_t at = count / 2; at-- > 0;)
        sink(width, commits, at, count);
    for (size_t left = count; left-- > 1;) {
        swap(&commits[0], &commits[left]);
        sink(width, commits, 0, left);
    }
}

/* Whether the commit at a place has the id of the one before it. */
static int repeats(size_t width, const linenhatch_commit *commits, size_t at)
{
    return at > 0 && memcmp(commits[at - 1].id, commits[at].id, width) == 0;
}

static int same_body(const linenhatch_commit *one, const linenhatch_commit *other)
{
    return one->body_len == other->body_len && (one->body_len == 0 || memcmp(one->body, other->body, one->body_len) == 0);
}

/* The sum, or the greatest number if it is greater. */
static uint64_t plus(uint64_t a, uint64_t b)
{
    return b > UINT64_MAX - a ? UINT64_MAX : a + b;
}

uint32_t linenhatch_store_length(uint32_t width, linenhatch_commit *commits, size_t count, linenhatch_store_size *size)
{
    size_t id = id_bytes(width);
    linenhatch_store_size found = {TRAILER_BYTES, 0, 0}, none = {0, 0, 0};
    sort(id, commits, count);
    for (size_t at = 0; at < count; at++) {
        if (!repeats(id, commits, at)) {
            found.bytes = plus(plus(found.bytes, commits[at].body_len), id + END_BYTES);
            found.commits++;
        } else if (!same_body(&commits[at - 1], &commits[at])) {
            *size = none;
            size->at = at - 1;
            return LINENHATCH_STORE_TWO_BODIES;
        }
    }
    *size = found;
    return found.bytes > LINENHATCH_MAX_STORE ? LINENHATCH_STORE_TOO_LARGE : LINENHATCH_STORE_WRITTEN;
}

static uint8_t *put_number(uint8_t *at, uint32_t n)
{
    at[0] = (uint8_t)(n >> 24);
    at[1] = (uint8_t)(n >> 16);
    at[2] = (uint8_t)(n >> 8);
    at[3] = (uint8_t)n;
    return at + 4;
}

static uint8_t *put_bytes(uint8_t *at, const void *bytes, size_t length)
{
    if (length > 0)
        memcpy(at, bytes, length);
    return at + length;
}

uint32_t linenhatch_write_store(
    uint32_t width, linenhatch_commit *commits, size_t count, uint8_t *output, size_t output_len, linenhatch_store_size *size)
{
    size_t id = id_bytes(width);
    uint32_t result = linenhatch_store_length(width, commits, count, size);
    if (result != LINENHATCH_STORE_WRITTEN)
        return result;
    if (output_len < size->bytes)
        return LINENHATCH_STORE_SHORT_OUTPUT;
    uint8_t *put = output;
    for (size_t at = 0; at < count; at++)
        if (!repeats(id, commits, at))
            put = put_bytes(put, commits[at].body, commits[at].body_len);
    uint32_t start = (uint32_t)(put - output), end = 0;
    for (size_t at = 0; at < count; at++)
        if (!repeats(id, commits, at)) {
            end += (uint32_t)commits[at].body_len;
            put = put_number(put_bytes(put, commits[at].id, id), end);
        }
    put_number(put_number(put, start), (uint32_t)size->commits);
    return LINENHATCH_STORE_WRITTEN;
}
