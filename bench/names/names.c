/* The check of names beside the same check in plain C and with OpenSSL's SHA-1: two stores of 16 MiB, one of a single body and one of commits of
 * 200 to 299 bytes. Each turn runs all three one after another; the best processor time of each counts. */
#define _POSIX_C_SOURCE 200809L
#include <openssl/sha.h>
#include <stdio.h>
#include <stdlib.h>
#include <string.h>
#include <time.h>

#include "linenhatch.h"

void plain_sha1(const uint8_t *prefix, size_t prefix_len, const uint8_t *body, size_t body_len, uint8_t *out);

static double now(void) {
    struct timespec t;
    clock_gettime(CLOCK_PROCESS_CPUTIME_ID, &t);
    return (double)t.tv_sec + (double)t.tv_nsec * 1e-9;
}

static uint32_t be32(const uint8_t *p) { return (uint32_t)p[0] << 24 | (uint32_t)p[1] << 16 | (uint32_t)p[2] << 8 | p[3]; }

static void put32(uint8_t *p, size_t n) { p[0] = (uint8_t)(n >> 24), p[1] = (uint8_t)(n >> 16), p[2] = (uint8_t)(n >> 8), p[3] = (uint8_t)n; }

static size_t header(uint8_t *out, size_t n) { return (size_t)sprintf((char *)out, "commit %zu", n) + 1; }

static void openssl_sha1(const uint8_t *prefix, size_t prefix_len, const uint8_t *body, size_t body_len, uint8_t *out) {
    SHA_CTX c;
    SHA1_Init(&c);
    SHA1_Update(&c, prefix, prefix_len);
    SHA1_Update(&c, body, body_len);
    SHA1_Final(out, &c);
}

typedef void digest(const uint8_t *, size_t, const uint8_t *, size_t, uint8_t *);

/* The same check over a good store; its layout is tested too, as the library tests it. */
static int check(digest *sha1, const uint8_t *store, size_t len) {
    size_t start = be32(store + len - 8), n = be32(store + len - 4), from = 0;
    if (len != start + 24 * n + 8) return 4;
    for (size_t k = 0; k < n; k++) {
        const uint8_t *entry = store + start + 24 * k;
        size_t end = be32(entry + 20);
        if (end < from || end > start || (k > 0 && memcmp(entry - 24, entry, 20) >= 0)) return 4;
        from = end;
    }
    from = 0;
    for (size_t k = 0; k < n; k++) {
        const uint8_t *entry = store + start + 24 * k;
        size_t end = be32(entry + 20);
        uint8_t head[32], out[20];
        sha1(head, header(head, end - from), store + from, end - from, out);
        if (memcmp(out, entry, 20) != 0) return 16;
        from = end;
    }
    return 0;
}

static int library(const uint8_t *store, size_t len) {
    uint64_t numbers[LINENHATCH_CHECK_NUMBERS];
    return (int)linenhatch_check_names(LINENHATCH_SHA1, store, len, store, 0, numbers, LINENHATCH_CHECK_NUMBERS);
}

struct commit {
    uint8_t id[20];
    const uint8_t *body;
    size_t len;
};

static int by_id(const void *a, const void *b) { return memcmp(a, b, 20); }

/* A store of 16 MiB at most with n true bodies of len to len + spread - 1 bytes. */
static size_t build(uint8_t *store, const uint8_t *bytes, size_t n, size_t len, size_t spread) {
    struct commit *c = malloc(n * sizeof *c);
    size_t at = 0, end;
    for (size_t k = 0; k < n; k++) {
        uint8_t head[32];
        c[k].len = len + k * 37 % spread;
        c[k].body = bytes + at;
        at += c[k].len;
        openssl_sha1(head, header(head, c[k].len), c[k].body, c[k].len, c[k].id);
    }
    qsort(c, n, sizeof *c, by_id);
    end = 0;
    for (size_t k = 0; k < n; k++) {
        memcpy(store + end, c[k].body, c[k].len);
        end += c[k].len;
    }
    size_t p = end, stop = 0;
    for (size_t k = 0; k < n; k++, p += 24) {
        stop += c[k].len;
        memcpy(store + p, c[k].id, 20);
        put32(store + p + 20, stop);
    }
    put32(store + p, end), put32(store + p + 4, n);
    free(c);
    return p + 8;
}

static void run(const char *what, const uint8_t *store, size_t len, int turns) {
    double best[3] = {1e9, 1e9, 1e9};
    int bad = 0;
    for (int i = 0; i < turns; i++)
        for (int w = 0; w < 3; w++) {
            double t = now();
            bad |= w == 0 ? library(store, len) : check(w == 1 ? plain_sha1 : openssl_sha1, store, len);
            t = now() - t;
            if (t < best[w]) best[w] = t;
        }
    printf("%s (%zu bytes)%s: library %.1f ms, %.0f MB/s; plain C %.1f ms, library over it %.2f; OpenSSL %.1f ms, library over it %.2f\n", what, len,
           bad ? ", A WRONG RESULT" : "", best[0] * 1e3, (double)len / best[0] / 1e6, best[1] * 1e3, best[0] / best[1], best[2] * 1e3, best[0] / best[2]);
}

int main(int argc, char **argv) {
    int turns = argc > 1 ? atoi(argv[1]) : 20;
    size_t most = 16777216;
    uint8_t *bytes = malloc(most), *store = malloc(most);
    for (size_t i = 0; i < most; i++) bytes[i] = (uint8_t)((i * 2654435761u) >> 13);
    run("one body", store, build(store, bytes, 1, most - 32, 1), turns);
    run("61000 commits", store, build(store, bytes, 61000, 200, 100), turns);
    return 0;
}
