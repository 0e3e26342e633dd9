/* A yardstick for a node that serves: receives datagrams, opens them with AES-128-CCM, and answers each read
   with the same report of On/Off, sealed, 66 bytes in all. It has no node: no table of exchanges or counters, no
   attributes, no journal, no book.
   Build: gcc -O2 -pthread speed/serve_peer.c -o /tmp/serve_peer
   Run:   serve_peer SESSIONS PORT THREADS shared|own
   SESSIONS is a file as speed/serve_load.py writes it. The threads receive from one socket, or each has its own on
   the same port. */
#define _GNU_SOURCE
#include "serve_session.h"
#include <arpa/inet.h>
#include <pthread.h>
#include <stdatomic.h>
#include <sys/socket.h>

/* On/Off of endpoint 1 is false, at version 1. */
static const uint8_t REPORT_OF_OFF[] = {0x15, 0x36, 0x01, 0x15, 0x35, 0x01, 0x24, 0x00, 0x01, 0x37, 0x01,
                                        0x24, 0x02, 0x01, 0x24, 0x03, 0x06, 0x24, 0x04, 0x00, 0x18, 0x28,
                                        0x02, 0x18, 0x18, 0x18, 0x29, 0x04, 0x24, 0xff, 0x01, 0x18};

static struct row rows[SESSIONS];
static const struct row *row_of[65536];
static _Atomic uint32_t counters[65536];
static unsigned port;

static int open_socket(int own) {
    int link = socket(AF_INET, SOCK_DGRAM, 0), yes = 1, room = 4 << 20;
    struct sockaddr_in here = {.sin_family = AF_INET, .sin_port = htons((uint16_t)port)};
    here.sin_addr.s_addr = htonl(INADDR_LOOPBACK);
    if (own) setsockopt(link, SOL_SOCKET, SO_REUSEPORT, &yes, sizeof yes);
    setsockopt(link, SOL_SOCKET, SO_RCVBUF, &room, sizeof room);
    if (bind(link, (struct sockaddr *)&here, sizeof here)) fail("bind");
    return link;
}

static void *serve(void *argument) {
    int link = *(int *)argument;
    uint8_t datagram[MOST], answer[MOST];
    for (;;) {
        struct sockaddr_in from;
        socklen_t size = sizeof from;
        ssize_t length = recvfrom(link, datagram, sizeof datagram, 0, (struct sockaddr *)&from, &size);
        if (length < HEADER) continue;
        const struct row *r = row_of[get(datagram + 1, 2)];
        struct message m;
        const uint8_t *payload;
        uint32_t counter = (uint32_t)get(datagram + 4, 4);
        if (!r || open_message(r->in, r->peer_node, r->number, datagram, (size_t)length, &m, &payload) < 0) continue;
        if (m.protocol != 1 || m.opcode != READ) continue;
        struct message out = {ACKNOWLEDGES | RELIABLE, REPORT, m.exchange, 1, counter};
        size_t count = seal_message(r->out, r->own_node, r->peer_number, atomic_fetch_add(&counters[r->number], 1),
                                    &out, REPORT_OF_OFF, sizeof REPORT_OF_OFF, answer);
        sendto(link, answer, count, 0, (struct sockaddr *)&from, size);
    }
    return NULL;
}

int main(int argc, char **argv) {
    if (argc != 5) {
        fprintf(stderr, "serve_peer SESSIONS PORT THREADS shared|own\n");
        return 2;
    }
    int count = read_rows(argv[1], rows), threads = atoi(argv[3]), own = !strcmp(argv[4], "own");
    port = (unsigned)atoi(argv[2]);
    for (int i = 0; i < count; i++) row_of[rows[i].number] = rows + i, counters[rows[i].number] = rows[i].counter_out;
    int links[64] = {0};
    pthread_t thread;
    for (int i = 0; i < threads && i < 64; i++) {
        links[i] = own || i == 0 ? open_socket(own) : links[0];
        if (pthread_create(&thread, NULL, serve, links + i)) fail("thread");
    }
    pthread_join(thread, NULL);
    return 0;
}
