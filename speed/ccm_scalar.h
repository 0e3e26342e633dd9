/* A plain scalar C form of AES-128-CCM: four tables of 256 words, one pass over the text for the tag and one for
   the mask, no vector or AES instruction written. Nonce of 13 bytes, tag of 16. */
#ifndef CCM_SCALAR_H
#define CCM_SCALAR_H

#include <stdint.h>
#include <string.h>

enum { TAG = 16 };

static uint8_t sub[256];
static uint32_t first[256], second[256], third[256], fourth[256];

static uint8_t times(uint8_t a, uint8_t b) {
    uint8_t product = 0;
    for (; a; a >>= 1, b = (uint8_t)(b << 1 ^ (b >> 7) * 0x1b))
        if (a & 1) product ^= b;
    return product;
}

/* Fills the tables (FIPS 197, 4.4, 5.1.1 and 5.1.3). */
static void make_tables(void) {
    for (int b = 0; b < 256; b++) {
        uint8_t inverse = 0;
        for (int c = 0; c < 256; c++)
            if (times((uint8_t)b, (uint8_t)c) == 1) inverse = (uint8_t)c;
        uint8_t s = 0x63;
        for (int turn = 0; turn < 5; turn++) s ^= (uint8_t)(inverse << turn | inverse >> (8 - turn));
        sub[b] = s;
        uint32_t word = (uint32_t)times(2, s) << 24 | (uint32_t)s << 16 | (uint32_t)s << 8 | times(3, s);
        first[b] = word;
        second[b] = word >> 8 | word << 24;
        third[b] = word >> 16 | word << 16;
        fourth[b] = word >> 24 | word << 8;
    }
}

static uint32_t load(const uint8_t *b) {
    return (uint32_t)b[0] << 24 | (uint32_t)b[1] << 16 | (uint32_t)b[2] << 8 | b[3];
}

static void store(uint8_t *b, uint32_t w) {
    b[0] = (uint8_t)(w >> 24), b[1] = (uint8_t)(w >> 16), b[2] = (uint8_t)(w >> 8), b[3] = (uint8_t)w;
}

static void expand(const uint8_t key[16], uint32_t words[44]) {
    uint8_t constant = 1;
    for (int i = 0; i < 4; i++) words[i] = load(key + 4 * i);
    for (int i = 4; i < 44; i++) {
        uint32_t last = words[i - 1];
        if (i % 4 == 0) {
            last = (uint32_t)(sub[last >> 16 & 255] ^ constant) << 24 | (uint32_t)sub[last >> 8 & 255] << 16
                   | (uint32_t)sub[last & 255] << 8 | sub[last >> 24];
            constant = times(2, constant);
        }
        words[i] = words[i - 4] ^ last;
    }
}

static uint32_t mixed(uint32_t a, uint32_t b, uint32_t c, uint32_t d, uint32_t key) {
    return first[a >> 24] ^ second[b >> 16 & 255] ^ third[c >> 8 & 255] ^ fourth[d & 255] ^ key;
}

static uint32_t plain(uint32_t a, uint32_t b, uint32_t c, uint32_t d, uint32_t key) {
    return ((uint32_t)sub[a >> 24] << 24 | (uint32_t)sub[b >> 16 & 255] << 16 | (uint32_t)sub[c >> 8 & 255] << 8
            | sub[d & 255]) ^ key;
}

static void encipher(const uint32_t words[44], const uint8_t in[16], uint8_t out[16]) {
    uint32_t a = load(in) ^ words[0], b = load(in + 4) ^ words[1];
    uint32_t c = load(in + 8) ^ words[2], d = load(in + 12) ^ words[3];
    for (int i = 4; i < 40; i += 4) {
        uint32_t e = mixed(a, b, c, d, words[i]), f = mixed(b, c, d, a, words[i + 1]);
        uint32_t g = mixed(c, d, a, b, words[i + 2]), h = mixed(d, a, b, c, words[i + 3]);
        a = e, b = f, c = g, d = h;
    }
    store(out, plain(a, b, c, d, words[40]));
    store(out + 4, plain(b, c, d, a, words[41]));
    store(out + 8, plain(c, d, a, b, words[42]));
    store(out + 12, plain(d, a, b, c, words[43]));
}

static void chain(const uint32_t words[44], uint8_t state[16], const uint8_t *bytes, size_t count) {
    for (size_t i = 0; i < count; i += 16) {
        size_t part = count - i < 16 ? count - i : 16;
        for (size_t j = 0; j < part; j++) state[j] ^= bytes[i + j];
        encipher(words, state, state);
    }
}

/* The tag of a plaintext under its mask; associated data has at most 14 bytes. */
static void tag_of(const uint32_t words[44], const uint8_t nonce[13], const uint8_t *aad, size_t aad_count,
                   const uint8_t *bytes, size_t count, uint8_t tag[16]) {
    uint8_t block[16], mask[16];
    block[0] = aad_count ? 0x79 : 0x39;
    memcpy(block + 1, nonce, 13);
    block[14] = (uint8_t)(count >> 8), block[15] = (uint8_t)count;
    encipher(words, block, tag);
    if (aad_count) {
        uint8_t head[16] = {(uint8_t)(aad_count >> 8), (uint8_t)aad_count};
        memcpy(head + 2, aad, aad_count);
        chain(words, tag, head, 16);
    }
    chain(words, tag, bytes, count);
    block[0] = 1, block[14] = block[15] = 0;
    encipher(words, block, mask);
    for (int j = 0; j < 16; j++) tag[j] ^= mask[j];
}

static void add_stream(const uint32_t words[44], const uint8_t nonce[13], uint8_t *bytes, size_t count) {
    uint8_t block[16] = {1}, stream[16];
    memcpy(block + 1, nonce, 13);
    for (size_t i = 0; i < count; i += 16) {
        size_t part = count - i < 16 ? count - i : 16, index = i / 16 + 1;
        block[14] = (uint8_t)(index >> 8), block[15] = (uint8_t)index;
        encipher(words, block, stream);
        for (size_t j = 0; j < part; j++) bytes[i + j] ^= stream[j];
    }
}

/* Seals so many bytes, behind which there is room for the tag; the length counts that. */
static void seal_under(const uint32_t words[44], const uint8_t nonce[13], const uint8_t *aad, size_t aad_count,
                       uint8_t *buf, size_t length) {
    uint8_t tag[16];
    tag_of(words, nonce, aad, aad_count, buf, length - TAG, tag);
    add_stream(words, nonce, buf, length - TAG);
    memcpy(buf + length - TAG, tag, TAG);
}

/* Opens what was sealed; where it was not, answers 0, and the bytes are as they were. */
static int unseal_under(const uint32_t words[44], const uint8_t nonce[13], const uint8_t *aad, size_t aad_count,
                        uint8_t *buf, size_t length) {
    uint8_t tag[16], differ = 0;
    add_stream(words, nonce, buf, length - TAG);
    tag_of(words, nonce, aad, aad_count, buf, length - TAG, tag);
    for (int j = 0; j < TAG; j++) differ |= tag[j] ^ buf[length - TAG + j];
    if (differ) add_stream(words, nonce, buf, length - TAG);
    return differ == 0;
}

#endif
