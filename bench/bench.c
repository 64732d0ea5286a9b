/* Times the library's ciphers and sealers beside plain C and OpenSSL, in one run, and prints ratios: how many times the other's
   time the library takes (below 1: the library is faster). Each case checks first that all three give the same bytes. */
#define OPENSSL_SUPPRESS_DEPRECATED
#include "plain.h"
#include <openssl/evp.h>
#include <openssl/hmac.h>
#include <openssl/sha.h>
#include <stdio.h>
#include <stdlib.h>
#include <string.h>
#include <time.h>

void fishqalgo_chacha_block(const uint8_t *key, uint32_t counter, const uint8_t *nonce, uint8_t *out);
void fishqalgo_sha256(const uint8_t *message, size_t length, uint8_t *out);

size_t fishqalgo_chacha_seal(const uint8_t *key, const uint8_t *heading, const uint8_t *plain, size_t length, uint8_t *out, size_t room, uint8_t *pad);
size_t fishqalgo_hmac_seal(const uint8_t *key, const uint8_t *heading, const uint8_t *plain, size_t length, uint8_t *out, size_t room, uint8_t *pad);

/* The longest record, and room for its sealing with the longer overhead. */
enum { RECORD = 87, SEALED = 119 };

static uint8_t key[32], nonce[12], heading[20], pad[64], text[65536], out[SEALED];
static size_t size;
static EVP_CIPHER_CTX *cipher;
static HMAC_CTX *hmac;

/* Each call feeds its result into the next one's key or message, so that none is left out. */
static void chain(void) { memcpy(key, out, 32); memcpy(text, out, 32); }

static void ours_block(void) { fishqalgo_chacha_block(key, 0, nonce, out); chain(); }
static void plain_block(void) { plain_chacha_block(key, 0, nonce, out); chain(); }
static void ssl_block(void)
{
    static const uint8_t zeros[64];
    uint8_t iv[16] = {0};
    int n;
    memcpy(iv + 4, nonce, 12);
    EVP_EncryptInit_ex(cipher, NULL, NULL, key, iv);
    EVP_EncryptUpdate(cipher, out, &n, zeros, 64);
    chain();
}

static void ours_sha(void) { fishqalgo_sha256(text, size, out); chain(); }
static void plain_sha(void) { plain_sha256(text, size, out); chain(); }
static void ssl_sha(void) { SHA256(text, size, out); chain(); }

static void ours_seal1(void) { fishqalgo_chacha_seal(key, heading, text, RECORD, out, SEALED, pad); chain(); }
static void plain_seal1(void) { plain_chacha_seal(key, heading, text, RECORD, out); chain(); }
static void ssl_seal1(void)
{
    uint8_t iv[16] = {1}, tag[32];
    int n;
    unsigned m;
    EVP_EncryptInit_ex(cipher, NULL, NULL, key, iv);
    EVP_EncryptUpdate(cipher, out, &n, text, RECORD);
    HMAC_Init_ex(hmac, key, 32, NULL, NULL);
    HMAC_Update(hmac, heading, 20);
    HMAC_Update(hmac, out, RECORD);
    HMAC_Final(hmac, tag, &m);
    memcpy(out + RECORD, tag, 16);
    chain();
}

static void ours_seal2(void) { fishqalgo_hmac_seal(key, heading, text, RECORD, out, SEALED, pad); chain(); }
static void plain_seal2(void) { plain_hmac_seal(key, heading, text, RECORD, out); chain(); }
static void ssl_seal2(void)
{
    uint8_t block[32], place[5] = {1}, two = 2;
    unsigned m;
    for (int i = 0; i < RECORD; i++) {
        if (i % 32 == 0) {
            place[4] = i / 32;
            HMAC_Init_ex(hmac, key, 32, NULL, NULL);
            HMAC_Update(hmac, place, 5);
            HMAC_Final(hmac, block, &m);
        }
        out[i] = text[i] ^ block[i % 32];
    }
    HMAC_Init_ex(hmac, key, 32, NULL, NULL);
    HMAC_Update(hmac, &two, 1);
    HMAC_Update(hmac, heading, 20);
    HMAC_Update(hmac, out, RECORD);
    HMAC_Final(hmac, out + RECORD, &m);
    chain();
}

static double now(void)
{
    struct timespec t;
    clock_gettime(CLOCK_THREAD_CPUTIME_ID, &t);
    return t.tv_sec + t.tv_nsec * 1e-9;
}

static void reset(void)
{
    memset(key, 7, sizeof key);
    memset(nonce, 9, sizeof nonce);
    memset(heading, 3, sizeof heading);
    memset(text, 5, sizeof text);
    memset(out, 0, sizeof out);
}

/* Nanoseconds per call. */
static double timed(void (*f)(void), long calls)
{
    double t = now();
    for (long i = 0; i < calls; i++) f();
    return (now() - t) / calls * 1e9;
}

static void compare(const char *name, void (*ours)(void), void (*plain)(void), void (*ssl)(void), size_t length, long calls)
{
    uint8_t a[SEALED], b[SEALED];
    size = length;
    reset(); ours(); ours(); memcpy(a, out, SEALED);
    reset(); plain(); plain(); memcpy(b, out, SEALED);
    reset(); ssl(); ssl();
    if (memcmp(a, b, SEALED) || memcmp(a, out, SEALED)) { printf("%s: the results differ\n", name); exit(1); }
    /* The three take turns, and the best of many turns counts, so that other load on the machine hits none of them. */
    double x = 1e9, y = 1e9, z = 1e9, t;
    for (int turn = 0; turn < 100; turn++) {
        if ((t = timed(ours, calls)) < x) x = t;
        if ((t = timed(plain, calls)) < y) y = t;
        if ((t = timed(ssl, calls)) < z) z = t;
    }
    printf("%-24s %10.1f ns   %.2f of plain C   %.2f of OpenSSL\n", name, x, x / y, x / z);
}

int main(void)
{
    cipher = EVP_CIPHER_CTX_new();
    EVP_EncryptInit_ex(cipher, EVP_chacha20(), NULL, NULL, NULL);
    hmac = HMAC_CTX_new();
    HMAC_Init_ex(hmac, key, 32, EVP_sha256(), NULL);
    compare("ChaCha20 block", ours_block, plain_block, ssl_block, 0, 20000);
    compare("SHA-256 of 64 bytes", ours_sha, plain_sha, ssl_sha, 64, 5000);
    compare("SHA-256 of 64 KiB", ours_sha, plain_sha, ssl_sha, 65536, 10);
    compare("a record by sealer 1", ours_seal1, plain_seal1, ssl_seal1, 0, 1000);
    compare("a record by sealer 2", ours_seal2, plain_seal2, ssl_seal2, 0, 400);
    EVP_CIPHER_CTX_free(cipher);
    HMAC_CTX_free(hmac);
    return 0;
}
