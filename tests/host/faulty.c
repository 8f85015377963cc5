/*
 * An ending that touches a byte, FAULT, and does nothing else. It is linked in the place of gate_end, to show that
 * tests/host/host.c notices a touch that is not allowed.
 */
#include "gate.h"

static inline void reads(const uint8_t *byte) { (void)*(const volatile uint8_t *)byte; }

static inline void writes(const uint8_t *byte) { *(volatile uint8_t *)(uintptr_t)byte = 1; }

uint32_t __wrap_gate_end(const uint8_t *iv, size_t iv_len, uint8_t *table, size_t table_len, uint8_t *index, size_t index_len);

uint32_t __wrap_gate_end(const uint8_t *iv, size_t iv_len, uint8_t *table, size_t table_len, uint8_t *index, size_t index_len) {
    (void)iv;
    (void)iv_len;
    (void)table;
    (void)table_len;
    (void)index;
    (void)index_len;
    FAULT;
    return GATE_ACCEPTED;
}
