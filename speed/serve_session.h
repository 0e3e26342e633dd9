/* What serve_load.c and serve_peer.c share: sessions with their keys, and messages sealed as datagrams
   (docs/formats/secured-messages.md). */
#ifndef SERVE_SESSION_H
#define SERVE_SESSION_H

#include "ccm_scalar.h"
#include <stdio.h>
#include <stdlib.h>

enum {
    HEADER = 8, MOST = 1280, SESSIONS = 64,
    INITIATOR = 1, ACKNOWLEDGES = 2, RELIABLE = 4,
    READ = 2, REPORT = 5, ACKNOWLEDGEMENT = 16
};

/* A row of the configuration: the node's id of the session and the peer's, their node ids, the keys of what
   comes to the node and of what goes from it, expanded, and the first counters of both. */
struct row {
    unsigned number, peer_number;
    unsigned long long own_node, peer_node;
    uint32_t in[44], out[44], counter_in, counter_out;
};

/* What stands in front of a payload. */
struct message {
    unsigned flags, opcode, exchange, protocol;
    uint32_t acknowledged;
};

static void fail(const char *what) {
    perror(what);
    exit(1);
}

static void put(uint8_t *at, unsigned long long number, int width) {
    for (int i = 0; i < width; i++) at[i] = (uint8_t)(number >> 8 * i);
}

static unsigned long long get(const uint8_t *at, int width) {
    unsigned long long number = 0;
    for (int i = width; i-- > 0;) number = number << 8 | at[i];
    return number;
}

static void read_key(const char *hex, uint32_t words[44]) {
    uint8_t key[16];
    for (int i = 0; i < 16; i++)
        if (sscanf(hex + 2 * i, "%2hhx", key + i) != 1) fail("key");
    expand(key, words);
}

/* Reads a file of rows: numbers in decimal, node ids and keys in hex. Answers how many there are. */
static int read_rows(const char *name, struct row rows[SESSIONS]) {
    FILE *file = fopen(name, "r");
    if (!file) fail(name);
    make_tables();
    char in[33], out[33];
    int count = 0;
    for (struct row *r = rows; count < SESSIONS; r++, count++) {
        if (fscanf(file, "%u %u %llx %llx %32s %32s %u %u", &r->number, &r->peer_number, &r->own_node, &r->peer_node,
                   in, out, &r->counter_in, &r->counter_out) != 8)
            break;
        read_key(in, r->in);
        read_key(out, r->out);
    }
    fclose(file);
    return count;
}

static void make_nonce(const uint8_t *header, unsigned long long node, uint8_t nonce[13]) {
    memcpy(nonce, header + 3, 5);
    put(nonce + 5, node, 8);
}

/* The datagram of a message to a session, under a key and a counter. Answers its length. */
static size_t seal_message(const uint32_t words[44], unsigned long long node, unsigned session, uint32_t counter,
                           const struct message *m, const uint8_t *payload, size_t count, uint8_t *datagram) {
    uint8_t nonce[13], *plain = datagram + HEADER, *at = plain;
    memset(datagram, 0, HEADER);
    put(datagram + 1, session, 2);
    put(datagram + 4, counter, 4);
    *at++ = (uint8_t)m->flags, *at++ = (uint8_t)m->opcode;
    put(at, m->exchange, 2), put(at + 2, m->protocol, 2), at += 4;
    if (m->flags & ACKNOWLEDGES) put(at, m->acknowledged, 4), at += 4;
    memcpy(at, payload, count);
    size_t length = (size_t)(at - plain) + count + TAG;
    make_nonce(datagram, node, nonce);
    seal_under(words, nonce, datagram, HEADER, plain, length);
    return HEADER + length;
}

/* Opens a datagram to a session in its place. Answers the length of the payload and where it begins, or -1. */
static int open_message(const uint32_t words[44], unsigned long long node, unsigned session, uint8_t *datagram,
                        size_t length, struct message *m, const uint8_t **payload) {
    uint8_t nonce[13], *plain = datagram + HEADER;
    if (length < HEADER + 6 + TAG || datagram[0] || datagram[3] || get(datagram + 1, 2) != session) return -1;
    make_nonce(datagram, node, nonce);
    if (!unseal_under(words, nonce, datagram, HEADER, plain, length - HEADER)) return -1;
    size_t count = length - HEADER - TAG, at = 6;
    m->flags = plain[0], m->opcode = plain[1];
    m->exchange = (unsigned)get(plain + 2, 2), m->protocol = (unsigned)get(plain + 4, 2);
    m->acknowledged = 0;
    if (m->flags & ACKNOWLEDGES) {
        if (count < 10) return -1;
        m->acknowledged = (uint32_t)get(plain + 6, 4), at = 10;
    }
    *payload = plain + at;
    return (int)(count - at);
}

#endif
