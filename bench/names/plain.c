/* SHA-1 as FIPS 180-4 writes it, in plain C: a schedule of 80 words, four loops of 20 rounds, no intrinsics. The yardstick of `names.c`. */
#include <stddef.h>
#include <stdint.h>
#include <string.h>

static inline uint32_t rol(uint32_t x, int n) { return (x << n) | (x >> (32 - n)); }

static inline uint32_t be32(const uint8_t *p) { return (uint32_t)p[0] << 24 | (uint32_t)p[1] << 16 | (uint32_t)p[2] << 8 | p[3]; }

static void block(uint32_t h[5], const uint8_t *p) {
    uint32_t w[80], a = h[0], b = h[1], c = h[2], d = h[3], e = h[4], x;
    int t;
    for (t = 0; t < 16; t++) w[t] = be32(p + 4 * t);
    for (; t < 80; t++) w[t] = rol(w[t - 3] ^ w[t - 8] ^ w[t - 14] ^ w[t - 16], 1);
#define ROUND(f, k) x = rol(a, 5) + (f) + e + k + w[t], e = d, d = c, c = rol(b, 30), b = a, a = x
    for (t = 0; t < 20; t++) ROUND((b & c) ^ (~b & d), 0x5a827999u);
    for (; t < 40; t++) ROUND(b ^ c ^ d, 0x6ed9eba1u);
    for (; t < 60; t++) ROUND((b & c) ^ (b & d) ^ (c & d), 0x8f1bbcdcu);
    for (; t < 80; t++) ROUND(b ^ c ^ d, 0xca62c1d6u);
    h[0] += a, h[1] += b, h[2] += c, h[3] += d, h[4] += e;
}

/* The digest of a short prefix (under 64 bytes) and a body, which is read where it lies. */
void plain_sha1(const uint8_t *prefix, size_t prefix_len, const uint8_t *body, size_t body_len, uint8_t *out) {
    uint32_t h[5] = {0x67452301, 0xefcdab89, 0x98badcfe, 0x10325476, 0xc3d2e1f0};
    uint64_t bits = (uint64_t)(prefix_len + body_len) * 8;
    uint8_t last[128];
    size_t n = prefix_len, end;
    memcpy(last, prefix, n);
    if (n > 0 && n + body_len >= 64) {
        memcpy(last + n, body, 64 - n);
        block(h, last);
        body += 64 - n, body_len -= 64 - n, n = 0;
    }
    for (; n == 0 && body_len >= 64; body += 64, body_len -= 64) block(h, body);
    memcpy(last + n, body, body_len);
    n += body_len;
    last[n++] = 0x80;
    end = n <= 56 ? 64 : 128;
    memset(last + n, 0, end - 8 - n);
    for (int i = 0; i < 8; i++) last[end - 1 - i] = (uint8_t)(bits >> (8 * i));
    block(h, last);
    if (end == 128) block(h, last + 64);
    for (int i = 0; i < 20; i++) out[i] = (uint8_t)(h[i / 4] >> (24 - 8 * (i % 4)));
}
