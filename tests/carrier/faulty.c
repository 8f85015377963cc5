/*
 * Calls that touch one byte, IN_SIGN or IN_VERIFY, and do nothing else. They stand in the place of libcarrier.a's, to show that
 * tests/carrier/host.c notices a touch that is not allowed.
 */
#include "carrier.h"

#pragma GCC diagnostic ignored "-Wunused-parameter"

#ifndef IN_SIGN
#define IN_SIGN (void)0
#endif
#ifndef IN_VERIFY
#define IN_VERIFY (void)0
#endif

static inline void reads(const uint8_t *byte) { (void)*(const volatile uint8_t *)byte; }

static inline void writes(const uint8_t *byte) { *(volatile uint8_t *)(uintptr_t)byte = 1; }

uint32_t carrier_sign(const uint8_t *method, size_t method_len, const uint8_t *authority, size_t authority_len,
                      const uint8_t *path, size_t path_len, const uint8_t *lines, size_t lines_len, const uint8_t *names,
                      size_t names_len, uint64_t created, const uint8_t *label, size_t label_len, const uint8_t *key_id,
                      size_t key_id_len, const uint8_t *key, size_t key_len, uint8_t *out, size_t out_len) {
    IN_SIGN;
    return CARRIER_BAD_SIZE;
}

uint32_t carrier_verify(const uint8_t *method, size_t method_len, const uint8_t *authority, size_t authority_len,
                        const uint8_t *path, size_t path_len, const uint8_t *lines, size_t lines_len, const uint8_t *names,
                        size_t names_len, const uint8_t *label, size_t label_len, const uint8_t *key_id, size_t key_id_len,
                        const uint8_t *key, size_t key_len, const uint8_t *input, size_t input_len,
                        const uint8_t *signature, size_t signature_len, uint8_t *created, size_t created_len) {
    IN_VERIFY;
    return CARRIER_BAD_SIZE;
}
