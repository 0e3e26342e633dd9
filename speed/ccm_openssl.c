/* How many datagrams of 1,200 bytes OpenSSL seals and opens in a second with AES-128-CCM, to set beside
   crates/speed. Build: cc -O2 speed/ccm_openssl.c -lcrypto -o /tmp/ccm_openssl
   Without the processor's own AES and vector instructions: OPENSSL_ia32cap=0:0 /tmp/ccm_openssl 100000 */
#include <openssl/evp.h>
#include <stdio.h>
#include <stdlib.h>
#include <string.h>
#include <time.h>

enum { DATAGRAM = 1200, TAG = 16, PLAIN = DATAGRAM - TAG };

static const unsigned char NONCE[13] = {0, 0xe8, 3, 0, 0, 1};
static const unsigned char HEADER[8] = {0, 1, 0, 0, 0xe8, 3};

static double now(void) {
    struct timespec t;
    clock_gettime(CLOCK_MONOTONIC, &t);
    return t.tv_sec + t.tv_nsec / 1e9;
}

/* Seals or opens one datagram in place; the key is set at each call where `key` is given. */
static int turn(EVP_CIPHER_CTX *ctx, int seal, const unsigned char *key, unsigned char *buf) {
    int len;
    if (key) {
        EVP_CipherInit_ex(ctx, EVP_aes_128_ccm(), NULL, NULL, NULL, seal);
        EVP_CIPHER_CTX_ctrl(ctx, EVP_CTRL_AEAD_SET_IVLEN, 13, NULL);
    }
    EVP_CIPHER_CTX_ctrl(ctx, EVP_CTRL_AEAD_SET_TAG, TAG, seal ? NULL : buf + PLAIN);
    EVP_CipherInit_ex(ctx, NULL, NULL, key, NONCE, seal);
    EVP_CipherUpdate(ctx, NULL, &len, NULL, PLAIN);
    EVP_CipherUpdate(ctx, NULL, &len, HEADER, sizeof HEADER);
    int done = EVP_CipherUpdate(ctx, buf, &len, buf, PLAIN) > 0;
    if (seal) {
        EVP_CipherFinal_ex(ctx, buf, &len);
        EVP_CIPHER_CTX_ctrl(ctx, EVP_CTRL_AEAD_GET_TAG, TAG, buf + PLAIN);
    }
    return done;
}

static void measure(int seal, int each_key, long turns, const unsigned char *key, unsigned char *sealed) {
    unsigned char buf[DATAGRAM];
    EVP_CIPHER_CTX *ctx = EVP_CIPHER_CTX_new();
    EVP_CipherInit_ex(ctx, EVP_aes_128_ccm(), NULL, NULL, NULL, seal);
    EVP_CIPHER_CTX_ctrl(ctx, EVP_CTRL_AEAD_SET_IVLEN, 13, NULL);
    EVP_CIPHER_CTX_ctrl(ctx, EVP_CTRL_AEAD_SET_TAG, TAG, seal ? NULL : sealed + PLAIN);
    EVP_CipherInit_ex(ctx, NULL, NULL, key, NONCE, seal);
    long done = 0;
    double start = now();
    for (long i = 0; i < turns; i++) {
        memcpy(buf, sealed, DATAGRAM);
        done += turn(ctx, seal, each_key ? key : NULL, buf);
    }
    double took = now() - start;
    printf("%s, %s: %.0f a second (%ld of %ld)\n", seal ? "sealing" : "opening",
           each_key ? "key set at each call" : "key set once", turns / took, done, turns);
    if (seal && each_key) memcpy(sealed, buf, DATAGRAM);
    EVP_CIPHER_CTX_free(ctx);
}

int main(int argc, char **argv) {
    long turns = argc > 1 ? atol(argv[1]) : 20;
    unsigned char key[16], sealed[DATAGRAM];
    memset(key, 0x51, sizeof key);
    memset(sealed, 0x5a, sizeof sealed);
    measure(1, 0, turns, key, sealed);
    measure(1, 1, turns, key, sealed);
    measure(0, 0, turns, key, sealed);
    measure(0, 1, turns, key, sealed);
    return 0;
}
