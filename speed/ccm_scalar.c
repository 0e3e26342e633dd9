/* How long a plain scalar C form of AES-128-CCM takes to seal and open messages, to set beside
   crates/speed.
   Build: gcc -O2 speed/ccm_scalar.c -o /tmp/ccm_scalar
   Both, side by side: speed/compare.sh */
#include "ccm_scalar.h"
#include <stdio.h>
#include <stdlib.h>
#include <time.h>

enum { LONGEST = 1200 };

static void seal(const uint8_t key[16], const uint8_t nonce[13], const uint8_t *aad, size_t aad_count, uint8_t *buf,
                 size_t length) {
    uint32_t words[44];
    expand(key, words);
    seal_under(words, nonce, aad, aad_count, buf, length);
}

static int unseal(const uint8_t key[16], const uint8_t nonce[13], const uint8_t *aad, size_t aad_count, uint8_t *buf,
                  size_t length) {
    uint32_t words[44];
    expand(key, words);
    return unseal_under(words, nonce, aad, aad_count, buf, length);
}

static double now(void) {
    struct timespec t;
    clock_gettime(CLOCK_MONOTONIC, &t);
    return (double)t.tv_sec * 1e9 + (double)t.tv_nsec;
}

/* Seals and opens a message of so many bytes, its tag among them, in each turn; answers nanoseconds a
   turn. */
static double measure(size_t length, long turns) {
    static const uint8_t key[16] = {0x51, 0x51, 0x51, 0x51, 0x51, 0x51, 0x51, 0x51,
                                    0x51, 0x51, 0x51, 0x51, 0x51, 0x51, 0x51, 0x51};
    static const uint8_t nonce[13] = {0, 0xe8, 3, 0, 0, 1}, header[8] = {0, 1, 0, 0, 0xe8, 3};
    uint8_t buf[LONGEST];
    memset(buf, 0x5a, sizeof buf);
    long opened = 0;
    double start = now();
    for (long i = 0; i < turns; i++) {
        seal(key, nonce, header, sizeof header, buf, length);
        opened += unseal(key, nonce, header, sizeof header, buf, length);
    }
    double took = now() - start;
    if (opened != turns) exit(1);
    return took / (double)turns;
}

int main(int argc, char **argv) {
    long turns = argc > 1 ? atol(argv[1]) : 20;
    make_tables();
    double whole = measure(1200, turns), small = measure(64, turns);
    printf("1200 bytes: %.0f ns, 64 bytes: %.0f ns\n", whole, small);
    return 0;
}
