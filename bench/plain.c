/* ChaCha20's block (RFC 8439), SHA-256 (FIPS 180-4), HMAC (RFC 2104) and the two sealers, as one would write them in
   plain C. */
#include "plain.h"
#include <string.h>

static uint32_t rotl(uint32_t x, int k) { return (x << k) | (x >> (32 - k)); }
static uint32_t rotr(uint32_t x, int k) { return (x >> k) | (x << (32 - k)); }

static uint32_t le32(const uint8_t *b)
{
    return b[0] | (uint32_t)b[1] << 8 | (uint32_t)b[2] << 16 | (uint32_t)b[3] << 24;
}

static uint32_t be32(const uint8_t *b)
{
    return (uint32_t)b[0] << 24 | (uint32_t)b[1] << 16 | (uint32_t)b[2] << 8 | b[3];
}

#define QUARTER(a, b, c, d)                                                    \
    a += b; d = rotl(d ^ a, 16);                                               \
    c += d; b = rotl(b ^ c, 12);                                               \
    a += b; d = rotl(d ^ a, 8);                                                \
    c += d; b = rotl(b ^ c, 7);

void plain_chacha_block(const uint8_t key[32], uint32_t counter, const uint8_t nonce[12], uint8_t out[64])
{
    uint32_t s[16], w[16];
    for (int i = 0; i < 4; i++) s[i] = le32((const uint8_t *)"expand 32-byte k" + 4 * i);
    for (int i = 0; i < 8; i++) s[4 + i] = le32(key + 4 * i);
    s[12] = counter;
    for (int i = 0; i < 3; i++) s[13 + i] = le32(nonce + 4 * i);
    memcpy(w, s, sizeof w);
    for (int i = 0; i < 10; i++) {
        QUARTER(w[0], w[4], w[8], w[12])
        QUARTER(w[1], w[5], w[9], w[13])
        QUARTER(w[2], w[6], w[10], w[14])
        QUARTER(w[3], w[7], w[11], w[15])
        QUARTER(w[0], w[5], w[10], w[15])
        QUARTER(w[1], w[6], w[11], w[12])
        QUARTER(w[2], w[7], w[8], w[13])
        QUARTER(w[3], w[4], w[9], w[14])
    }
    for (int i = 0; i < 16; i++) {
        uint32_t v = w[i] + s[i];
        out[4 * i] = v;
        out[4 * i + 1] = v >> 8;
        out[4 * i + 2] = v >> 16;
        out[4 * i + 3] = v >> 24;
    }
}

static const uint32_t K[64] = {
    0x428a2f98, 0x71374491, 0xb5c0fbcf, 0xe9b5dba5, 0x3956c25b, 0x59f111f1, 0x923f82a4, 0xab1c5ed5,
    0xd807aa98, 0x12835b01, 0x243185be, 0x550c7dc3, 0x72be5d74, 0x80deb1fe, 0x9bdc06a7, 0xc19bf174,
    0xe49b69c1, 0xefbe4786, 0x0fc19dc6, 0x240ca1cc, 0x2de92c6f, 0x4a7484aa, 0x5cb0a9dc, 0x76f988da,
    0x983e5152, 0xa831c66d, 0xb00327c8, 0xbf597fc7, 0xc6e00bf3, 0xd5a79147, 0x06ca6351, 0x14292967,
    0x27b70a85, 0x2e1b2138, 0x4d2c6dfc, 0x53380d13, 0x650a7354, 0x766a0abb, 0x81c2c92e, 0x92722c85,
    0xa2bfe8a1, 0xa81a664b, 0xc24b8b70, 0xc76c51a3, 0xd192e819, 0xd6990624, 0xf40e3585, 0x106aa070,
    0x19a4c116, 0x1e376c08, 0x2748774c, 0x34b0bcb5, 0x391c0cb3, 0x4ed8aa4a, 0x5b9cca4f, 0x682e6ff3,
    0x748f82ee, 0x78a5636f, 0x84c87814, 0x8cc70208, 0x90befffa, 0xa4506ceb, 0xbef9a3f7, 0xc67178f2,
};

static void compress(uint32_t h[8], const uint8_t *block)
{
    uint32_t w[64], s[8];
    for (int t = 0; t < 16; t++) w[t] = be32(block + 4 * t);
    for (int t = 16; t < 64; t++) {
        uint32_t x = w[t - 15], y = w[t - 2];
        w[t] = (rotr(y, 17) ^ rotr(y, 19) ^ (y >> 10)) + w[t - 7] + (rotr(x, 7) ^ rotr(x, 18) ^ (x >> 3)) + w[t - 16];
    }
    memcpy(s, h, sizeof s);
    for (int t = 0; t < 64; t++) {
        uint32_t a = s[0], e = s[4];
        uint32_t t1 = s[7] + (rotr(e, 6) ^ rotr(e, 11) ^ rotr(e, 25)) + ((e & s[5]) ^ (~e & s[6])) + K[t] + w[t];
        uint32_t t2 = (rotr(a, 2) ^ rotr(a, 13) ^ rotr(a, 22)) + ((a & s[1]) ^ (a & s[2]) ^ (s[1] & s[2]));
        s[7] = s[6]; s[6] = s[5]; s[5] = e; s[4] = s[3] + t1;
        s[3] = s[2]; s[2] = s[1]; s[1] = a; s[0] = t1 + t2;
    }
    for (int i = 0; i < 8; i++) h[i] += s[i];
}

typedef struct {
    uint32_t h[8];
    uint8_t tail[64];
    uint64_t total;
} sha;

static void sha_init(sha *s)
{
    static const uint32_t start[8] = {0x6a09e667, 0xbb67ae85, 0x3c6ef372, 0xa54ff53a, 0x510e527f, 0x9b05688c, 0x1f83d9ab, 0x5be0cd19};
    memcpy(s->h, start, sizeof start);
    s->total = 0;
}

static void sha_update(sha *s, const uint8_t *part, size_t length)
{
    size_t begun = s->total % 64;
    s->total += length;
    if (begun > 0) {
        size_t n = length < 64 - begun ? length : 64 - begun;
        memcpy(s->tail + begun, part, n);
        if (begun + n < 64) return;
        compress(s->h, s->tail);
        part += n;
        length -= n;
    }
    for (; length >= 64; part += 64, length -= 64) compress(s->h, part);
    memcpy(s->tail, part, length);
}

static void sha_final(sha *s, uint8_t out[32])
{
    size_t begun = s->total % 64;
    uint64_t bits = s->total * 8;
    s->tail[begun++] = 0x80;
    if (begun > 56) {
        memset(s->tail + begun, 0, 64 - begun);
        compress(s->h, s->tail);
        begun = 0;
    }
    memset(s->tail + begun, 0, 56 - begun);
    for (int i = 0; i < 8; i++) s->tail[63 - i] = bits >> 8 * i;
    compress(s->h, s->tail);
    for (int i = 0; i < 32; i++) out[i] = s->h[i / 4] >> (24 - 8 * (i % 4));
}

void plain_sha256(const uint8_t *message, size_t length, uint8_t out[32])
{
    sha s;
    sha_init(&s);
    sha_update(&s, message, length);
    sha_final(&s, out);
}

/* HMAC under a key of 32 bytes. */
typedef struct {
    sha inner, outer;
} mac;

static void mac_init(mac *m, const uint8_t key[32])
{
    uint8_t pad[64];
    for (int i = 0; i < 64; i++) pad[i] = (i < 32 ? key[i] : 0) ^ 0x36;
    sha_init(&m->inner);
    sha_update(&m->inner, pad, 64);
    for (int i = 0; i < 64; i++) pad[i] ^= 0x36 ^ 0x5c;
    sha_init(&m->outer);
    sha_update(&m->outer, pad, 64);
}

static void mac_final(mac *m, uint8_t out[32])
{
    sha_final(&m->inner, out);
    sha_update(&m->outer, out, 32);
    sha_final(&m->outer, out);
}

void plain_chacha_seal(const uint8_t key[32], const uint8_t heading[20], const uint8_t *plain, size_t length, uint8_t *out)
{
    static const uint8_t nonce[12];
    uint8_t block[64], tag[32];
    mac m;
    for (size_t i = 0; i < length; i++) {
        if (i % 64 == 0) plain_chacha_block(key, 1 + i / 64, nonce, block);
        out[i] = plain[i] ^ block[i % 64];
    }
    mac_init(&m, key);
    sha_update(&m.inner, heading, 20);
    sha_update(&m.inner, out, length);
    mac_final(&m, tag);
    memcpy(out + length, tag, 16);
}

void plain_hmac_seal(const uint8_t key[32], const uint8_t heading[20], const uint8_t *plain, size_t length, uint8_t *out)
{
    uint8_t block[32], place[5] = {1}, two = 2;
    mac m;
    for (size_t i = 0; i < length; i++) {
        if (i % 32 == 0) {
            place[4] = i / 32;
            mac_init(&m, key);
            sha_update(&m.inner, place, 5);
            mac_final(&m, block);
        }
        out[i] = plain[i] ^ block[i % 32];
    }
    mac_init(&m, key);
    sha_update(&m.inner, &two, 1);
    sha_update(&m.inner, heading, 20);
    sha_update(&m.inner, out, length);
    mac_final(&m, out + length);
}
