/* The functions of libprimitives as a C host calls them. Prints a line for each test, and last 'N passed, M failed'. */
#include <stddef.h>
#include <stdint.h>
#include <stdio.h>
#include <string.h>

uint32_t prim_sha256(const uint8_t *text, size_t text_len, uint8_t *out, size_t out_len);
uint32_t prim_sha512(const uint8_t *text, size_t text_len, uint8_t *out, size_t out_len);
uint32_t prim_hmac_sha256(const uint8_t *key, size_t key_len, const uint8_t *text, size_t text_len, uint8_t *out, size_t out_len);
uint32_t prim_hmac_sha512(const uint8_t *key, size_t key_len, const uint8_t *text, size_t text_len, uint8_t *out, size_t out_len);
uint32_t prim_gcm_seal(const uint8_t *key, size_t key_len, const uint8_t *iv, size_t iv_len, const uint8_t *text, size_t text_len,
                       uint8_t *out, size_t out_len, uint8_t *tag, size_t tag_len);
uint32_t prim_gcm_open(const uint8_t *key, size_t key_len, const uint8_t *iv, size_t iv_len, const uint8_t *text, size_t text_len,
                       const uint8_t *tag, size_t tag_len, uint8_t *out, size_t out_len);

static int passed, failed;

static void expect(const char *what, int holds) {
    printf("%s: %s\n", holds ? "ok" : "FAILED", what);
    if (holds) passed++; else failed++;
}

static int shows(const uint8_t *bytes, size_t count, const char *hex) {
    char text[257];
    for (size_t i = 0; i < count; i++) sprintf(text + 2 * i, "%02x", bytes[i]);
    return strcmp(text, hex) == 0;
}

static int all(const uint8_t *bytes, size_t count, uint8_t value) {
    for (size_t i = 0; i < count; i++) if (bytes[i] != value) return 0;
    return 1;
}

/* FIPS 180-4, examples "abc"; RFC 4231, case 2. */
static const struct hash {
    const char *name;
    size_t size;
    uint32_t (*hash)(const uint8_t *, size_t, uint8_t *, size_t);
    uint32_t (*mac)(const uint8_t *, size_t, const uint8_t *, size_t, uint8_t *, size_t);
    const char *abc, *jefe;
} known[] = {
    {"SHA-256", 32, prim_sha256, prim_hmac_sha256, "ba7816bf8f01cfea414140de5dae2223b00361a396177a9cb410ff61f20015ad",
     "5bdcc146bf60754e6a042426089575c75a003f089d2739839dec58b964ec3843"},
    {"SHA-512", 64, prim_sha512, prim_hmac_sha512,
     "ddaf35a193617abacc417349ae20413112e6fa4e89a97ea20a9eeee64b55d39a2192992a274fc1a836ba3c23a3feebbd454d4423643ce80e2a9ac94fa54ca49f",
     "164b7a7bfcf819e2e395fbe73b56e0a387bd64222e831fd610270cd7ea2505549758bf75c05a994a6d034f65f8f0e6fdcaeab1a34d4a6b4b636e070a38bce737"},
};

static uint32_t digest(const struct hash *by, uint8_t *out, size_t size) { return by->hash((const uint8_t *)"abc", 3, out, size); }

static uint32_t code(const struct hash *by, uint8_t *out, size_t size) {
    return by->mac((const uint8_t *)"Jefe", 4, (const uint8_t *)"what do ya want for nothing?", 28, out, size);
}

static void by_size(const struct hash *by, uint32_t (*call)(const struct hash *, uint8_t *, size_t), const char *published) {
    static const size_t sizes[] = {0, 1, 31, 32, 33, 63, 64, 65};
    uint8_t out[80];
    memset(out, 7, sizeof out);
    for (size_t i = 0; i < sizeof sizes / sizeof sizes[0]; i++) {
        if (sizes[i] != by->size) expect("answers 1 for a buffer of another size", call(by, out, sizes[i]) == 1);
    }
    expect("and touches nothing then", all(out, sizeof out, 7));
    expect("answers 0 for a buffer of its size", call(by, out, by->size) == 0);
    expect("what it writes is the published one", shows(out, by->size, published));
    expect("nothing stands past it", all(out + by->size, sizeof out - by->size, 7));
}

static void hashes(void) {
    for (const struct hash *by = known; by < known + sizeof known / sizeof known[0]; by++) {
        printf("%s:\n", by->name);
        by_size(by, digest, by->abc);
        printf("HMAC-%s:\n", by->name);
        by_size(by, code, by->jefe);
    }
}

/* The GCM specification's test case 14: a key, an IV and a text of zeros. */
static const char *const zeros_sealed = "cea7403d4d606b6e074ec5d3baf39d18", *const zeros_tag = "d0d1c8a799996bf0265b98b5d48ab919";

static void seals(void) {
    const uint8_t key[33] = {0}, iv[13] = {0}, text[17] = {0};
    uint8_t out[32], tag[32], back[32];
    memset(out, 7, sizeof out);
    memset(tag, 7, sizeof tag);
    expect("prim_gcm_seal answers 0", prim_gcm_seal(key, 32, iv, 12, text, 16, out, 16, tag, 16) == 0);
    expect("its text is the published one", shows(out, 16, zeros_sealed));
    expect("its tag is the published one", shows(tag, 16, zeros_tag));
    expect("nothing stands past them", all(out + 16, 16, 7) && all(tag + 16, 16, 7));
    memset(back, 7, sizeof back);
    expect("prim_gcm_open answers 0", prim_gcm_open(key, 32, iv, 12, out, 16, tag, 16, back, 16) == 0);
    expect("the text is back", all(back, 16, 0) && all(back + 16, 16, 7));
    memset(back, 7, sizeof back);
    for (int i = 0; i < 16; i++) {
        tag[i] ^= 1;
        expect("prim_gcm_open answers 2 for a tag with a bit turned", prim_gcm_open(key, 32, iv, 12, out, 16, tag, 16, back, 16) == 2);
        tag[i] ^= 1;
    }
    out[0] ^= 128;
    expect("prim_gcm_open answers 2 for a text with a bit turned", prim_gcm_open(key, 32, iv, 12, out, 16, tag, 16, back, 16) == 2);
    expect("and touches nothing then", all(back, sizeof back, 7));
}

static void seal_sizes(void) {
    const uint8_t key[33] = {0}, iv[13] = {0}, text[17] = {0};
    const size_t sizes[][5] = {{31, 12, 16, 16, 16}, {33, 12, 16, 16, 16}, {32, 11, 16, 16, 16}, {32, 13, 16, 16, 16},
                               {32, 12, 16, 15, 16}, {32, 12, 16, 17, 16}, {32, 12, 16, 16, 15}, {32, 12, 16, 16, 17}};
    for (size_t i = 0; i < sizeof sizes / sizeof sizes[0]; i++) {
        const size_t *n = sizes[i];
        uint8_t out[17], tag[17];
        memset(out, 7, sizeof out);
        memset(tag, 7, sizeof tag);
        expect("prim_gcm_seal answers 1 for a wrong size", prim_gcm_seal(key, n[0], iv, n[1], text, n[2], out, n[3], tag, n[4]) == 1);
        expect("prim_gcm_open answers 1 for a wrong size", prim_gcm_open(key, n[0], iv, n[1], text, n[2], tag, n[4], out, n[3]) == 1);
        expect("and neither touches anything", all(out, sizeof out, 7) && all(tag, sizeof tag, 7));
    }
}

int main(void) {
    hashes();
    seals();
    seal_sizes();
    printf("%d passed, %d failed\n", passed, failed);
    return failed != 0;
}
