/* Plain C versions of the ciphers, written for comparison. */
#include <stddef.h>
#include <stdint.h>

void plain_chacha_block(const uint8_t key[32], uint32_t counter, const uint8_t nonce[12], uint8_t out[64]);
void plain_sha256(const uint8_t *message, size_t length, uint8_t out[32]);
void plain_chacha_seal(const uint8_t key[32], const uint8_t heading[20], const uint8_t *plain, size_t length, uint8_t *out);
void plain_hmac_seal(const uint8_t key[32], const uint8_t heading[20], const uint8_t *plain, size_t length, uint8_t *out);
