/*
 * Calls that touch one byte, IN_SCANNER_BEGIN, IN_SCANNER_SIGN or IN_SCANNER_HEAR, and do nothing else. They stand in the place
 * of libscanner.a's, to show that tests/scanner/host.c notices a touch that is not allowed.
 */
#include "scanner.h"

#pragma GCC diagnostic ignored "-Wunused-parameter"

#ifndef IN_SCANNER_BEGIN
#define IN_SCANNER_BEGIN (void)0
#endif
#ifndef IN_SCANNER_SIGN
#define IN_SCANNER_SIGN (void)0
#endif
#ifndef IN_SCANNER_HEAR
#define IN_SCANNER_HEAR (void)0
#endif

static inline void reads(const uint8_t *byte) { (void)*(const volatile uint8_t *)byte; }

static inline void writes(const uint8_t *byte) { *(volatile uint8_t *)(uintptr_t)byte = 1; }

uint32_t scanner_begin(uint32_t time, const uint8_t *setup_reply, size_t setup_reply_len, uint8_t *state, size_t state_len) {
    IN_SCANNER_BEGIN;
    return SCANNER_NO_SESSION;
}

uint32_t scanner_sign(uint32_t clock, const uint8_t *method, size_t method_len, const uint8_t *head, size_t head_len,
                      const uint8_t *path, size_t path_len, const uint8_t *body, size_t body_len, uint8_t *state,
                      size_t state_len, uint8_t *out, size_t out_len) {
    IN_SCANNER_SIGN;
    return SCANNER_NO_SESSION;
}

uint32_t scanner_hear(const uint8_t *value, size_t value_len, uint8_t *state, size_t state_len) {
    IN_SCANNER_HEAR;
    return SCANNER_NO_SESSION;
}
