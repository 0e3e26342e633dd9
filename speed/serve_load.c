/* Reads On/Off of endpoint 1 over many sessions of a node that serves, and tells how fast and after how long it answers.
   Build: gcc -O2 -pthread speed/serve_load.c -o /tmp/serve_load
   Run:   serve_load SESSIONS HOST PORT READS RATE THREADS
   SESSIONS is a file as speed/serve_load.py writes it. With RATE 0 each session has one read under way, and the next
   follows its answer (a closed loop). Else so many reads a second are due in all, at even times and by turns of the
   sessions (an open loop); one that finds four of its session under way waits here, and its time counts from when it
   was due. An answer is acknowledged by the next read, which goes on the same exchange, or alone. A read that is not
   answered within two seconds is lost; nothing is sent again.
   Prints reads, answers, lost, other messages, datagrams sent, seconds, the 50th and 99th percentile and the longest time
   of an answer in microseconds, and how busy its busiest thread was, in percent. */
#define _GNU_SOURCE
#include "serve_session.h"
#include <arpa/inet.h>
#include <errno.h>
#include <pthread.h>
#include <sys/epoll.h>
#include <sys/prctl.h>
#include <sys/resource.h>
#include <sys/socket.h>
#include <time.h>

enum { SLOTS = 4, THREADS = 16 };
static const double LOST_AFTER = 2.0, ALONE_AFTER = 0.1, SWEEP = 0.05;
static const uint8_t READ_OF_ON_OFF[] = {0x15, 0x36, 0x00, 0x17, 0x24, 0x02, 0x01, 0x24, 0x03, 0x06, 0x24,
                                         0x04, 0x00, 0x18, 0x18, 0x29, 0x03, 0x24, 0xff, 0x01, 0x18};

/* An exchange: unused, with a read under way, or with an answer that is not acknowledged. */
enum state { UNUSED, ASKED, ANSWERED };
struct slot {
    enum state state;
    unsigned exchange;
    uint32_t asked, answered; /* counters of the read and of its answer */
    double due, since;
};

/* A session, with a socket of its own: how many reads are due and begun. */
struct seat {
    const struct row *row;
    int socket;
    uint32_t counter;
    unsigned exchange;
    long due, begun;
    struct slot slots[SLOTS];
};

/* What a thread has, and what it counts. */
struct crew {
    struct seat seats[SESSIONS];
    int count, epoll;
    long reads, scheduled, answers, lost, others, sent;
    double gap, begin, end, busy; /* the gap between two reads of this thread is 0 in a closed loop */
    uint32_t *took;
    uint8_t report[64];
    int report_length;
};

static double seconds_now(void) {
    struct timespec t;
    clock_gettime(CLOCK_MONOTONIC, &t);
    return (double)t.tv_sec + (double)t.tv_nsec * 1e-9;
}

static void give(struct crew *c, struct seat *s, const struct message *m, const uint8_t *payload, size_t count) {
    uint8_t datagram[MOST];
    size_t length = seal_message(s->row->in, s->row->peer_node, s->row->number, s->counter++, m, payload, count, datagram);
    if (send(s->socket, datagram, length, 0) < 0 && errno != ECONNREFUSED) fail("send");
    c->sent++;
}

static void acknowledge(struct crew *c, struct seat *s, unsigned exchange, unsigned began, uint32_t counter) {
    struct message m = {ACKNOWLEDGES | began, ACKNOWLEDGEMENT, exchange, 0, counter};
    give(c, s, &m, NULL, 0);
}

/* Begins a read where one is due and an exchange is free: rather one whose answer it then acknowledges. */
static int begin_read(struct crew *c, struct seat *s, double now) {
    struct slot *free_slot = NULL;
    if (s->begun == s->due) return 0;
    for (struct slot *x = s->slots; x < s->slots + SLOTS; x++)
        if (x->state == ANSWERED || (x->state == UNUSED && !free_slot)) {
            free_slot = x;
            if (x->state == ANSWERED) break;
        }
    if (!free_slot) return 0;
    struct message m = {INITIATOR | RELIABLE, READ, free_slot->exchange, 1, 0};
    if (free_slot->state == ANSWERED)
        m.flags |= ACKNOWLEDGES, m.acknowledged = free_slot->answered;
    else
        m.exchange = free_slot->exchange = s->exchange++ & 0xffff;
    long place = s - c->seats;
    free_slot->state = ASKED, free_slot->asked = s->counter, free_slot->since = now;
    free_slot->due = c->gap > 0 ? c->begin + c->gap * (double)(place + s->begun * c->count) : now;
    s->begun++;
    give(c, s, &m, READ_OF_ON_OFF, sizeof READ_OF_ON_OFF);
    return 1;
}

/* In a closed loop the next read of a session is due once the one before it is answered or lost. */
static void next_is_due(struct crew *c, struct seat *s) {
    if (c->gap > 0 || c->scheduled == c->reads) return;
    c->scheduled++;
    s->due++;
}

static void take(struct crew *c, struct seat *s, uint8_t *datagram, size_t length, double now) {
    struct message m;
    const uint8_t *payload;
    uint32_t counter = length < HEADER ? 0 : (uint32_t)get(datagram + 4, 4);
    int count = open_message(s->row->out, s->row->own_node, s->row->peer_number, datagram, length, &m, &payload);
    if (count < 0) {
        c->others++;
        return;
    }
    for (struct slot *x = s->slots; x < s->slots + SLOTS; x++) {
        if (x->state != ASKED || x->exchange != m.exchange || !(m.flags & ACKNOWLEDGES) || x->asked != m.acknowledged) continue;
        if (m.protocol != 1 || m.opcode != REPORT) break;
        if (!c->report_length && count <= (int)sizeof c->report) memcpy(c->report, payload, (size_t)(c->report_length = count));
        if (count != c->report_length || memcmp(c->report, payload, (size_t)count)) c->others++;
        x->state = ANSWERED, x->answered = counter, x->since = now;
        c->took[c->answers++] = (uint32_t)((now - x->due) * 1e6);
        next_is_due(c, s);
        while (begin_read(c, s, now)) {}
        return;
    }
    c->others++;
    if (m.flags & RELIABLE) acknowledge(c, s, m.exchange, ~m.flags & INITIATOR, counter);
}

/* Gives up what is lost, and acknowledges alone what has waited for a next read. Answers whether reads are under way. */
static int sweep(struct crew *c, double now, int last) {
    int open = 0;
    for (struct seat *s = c->seats; s < c->seats + c->count; s++) {
        for (struct slot *x = s->slots; x < s->slots + SLOTS; x++) {
            if (x->state == ASKED && now - x->since > LOST_AFTER) {
                x->state = UNUSED;
                c->lost++;
                next_is_due(c, s);
            } else if (x->state == ANSWERED && (last || now - x->since > ALONE_AFTER)) {
                acknowledge(c, s, x->exchange, INITIATOR, x->answered);
                x->state = UNUSED;
            }
            open |= x->state == ASKED;
        }
        while (begin_read(c, s, now)) open = 1;
        open |= s->begun < s->due;
    }
    return open;
}

static void schedule(struct crew *c, double now) {
    while (c->gap > 0 && c->scheduled < c->reads && c->begin + c->gap * (double)c->scheduled <= now) {
        struct seat *s = c->seats + c->scheduled++ % c->count;
        s->due++;
        begin_read(c, s, now);
    }
}

static void wait_and_take(struct crew *c, double until) {
    struct epoll_event ready[SESSIONS];
    double left = until - seconds_now();
    left = left < 0 ? 0 : left;
    struct timespec most = {(time_t)left, (long)((left - (double)(time_t)left) * 1e9)};
    int count = epoll_pwait2(c->epoll, ready, SESSIONS, &most, NULL);
    if (count < 0 && errno != EINTR) fail("epoll");
    for (int i = 0; i < count; i++) {
        struct seat *s = ready[i].data.ptr;
        uint8_t datagram[MOST];
        ssize_t length;
        while ((length = recv(s->socket, datagram, sizeof datagram, MSG_DONTWAIT)) >= 0)
            take(c, s, datagram, (size_t)length, seconds_now());
    }
}

static void *work(void *argument) {
    struct crew *c = argument;
    double next_sweep, now = c->begin = seconds_now();
    prctl(PR_SET_TIMERSLACK, 1);
    for (int i = 0; i < c->count; i++) {
        next_is_due(c, c->seats + i);
        begin_read(c, c->seats + i, now);
    }
    for (next_sweep = now + SWEEP;; now = seconds_now()) {
        schedule(c, now);
        if (now >= next_sweep || c->answers + c->lost == c->reads) {
            if (!sweep(c, now, 0) && c->scheduled == c->reads) break;
            next_sweep = now + SWEEP;
        }
        double due = c->begin + c->gap * (double)c->scheduled;
        wait_and_take(c, c->gap > 0 && c->scheduled < c->reads && due < next_sweep ? due : next_sweep);
    }
    c->end = now;
    sweep(c, now, 1);
    struct rusage used;
    getrusage(RUSAGE_THREAD, &used);
    c->busy = (double)(used.ru_utime.tv_sec + used.ru_stime.tv_sec) + (double)(used.ru_utime.tv_usec + used.ru_stime.tv_usec) * 1e-6;
    c->busy /= c->end - c->begin;
    return NULL;
}

static void join_session(struct crew *c, const struct row *row, const struct sockaddr_in *to) {
    struct seat *s = c->seats + c->count++;
    s->row = row, s->counter = row->counter_in, s->exchange = 1;
    s->socket = socket(AF_INET, SOCK_DGRAM, 0);
    if (connect(s->socket, (const struct sockaddr *)to, sizeof *to)) fail("connect");
    struct epoll_event event = {.events = EPOLLIN, .data.ptr = s};
    if (epoll_ctl(c->epoll, EPOLL_CTL_ADD, s->socket, &event)) fail("epoll");
}

static int by_size(const void *one, const void *other) {
    uint32_t a = *(const uint32_t *)one, b = *(const uint32_t *)other;
    return (a > b) - (a < b);
}

/* Adds up what the crews counted, and prints it. */
static void tell(struct crew *crews, int threads) {
    long reads = 0, answers = 0, lost = 0, others = 0, sent = 0;
    double begin = crews->begin, end = crews->end, busy = 0;
    for (struct crew *c = crews; c < crews + threads; c++) {
        reads += c->reads, answers += c->answers, lost += c->lost, others += c->others, sent += c->sent;
        begin = c->begin < begin ? c->begin : begin, end = c->end > end ? c->end : end, busy = c->busy > busy ? c->busy : busy;
    }
    uint32_t *all = malloc(((size_t)answers + 1) * sizeof *all);
    if (!all) fail("memory");
    long at = 0;
    for (struct crew *c = crews; c < crews + threads; at += c++->answers) memcpy(all + at, c->took, (size_t)c->answers * sizeof *all);
    qsort(all, (size_t)answers, sizeof *all, by_size);
    long last = answers ? answers - 1 : 0;
    printf("%ld %ld %ld %ld %ld %.3f %u %u %u %.0f\n", reads, answers, lost, others, sent, end - begin, answers ? all[last / 2] : 0,
           answers ? all[last * 99 / 100] : 0, answers ? all[last] : 0, busy * 100);
    free(all);
}

int main(int argc, char **argv) {
    static struct row rows[SESSIONS];
    static struct crew crews[THREADS];
    if (argc != 7) {
        fprintf(stderr, "serve_load SESSIONS HOST PORT READS RATE THREADS\n");
        return 2;
    }
    int count = read_rows(argv[1], rows), threads = atoi(argv[6]);
    long reads = atol(argv[4]);
    double rate = atof(argv[5]);
    struct sockaddr_in to = {.sin_family = AF_INET, .sin_port = htons((uint16_t)atoi(argv[3]))};
    if (threads < 1 || threads > THREADS || threads > count || !inet_aton(argv[2], &to.sin_addr)) {
        fprintf(stderr, "threads are 1 to %d and at most as many as sessions; HOST is four numbers\n", THREADS);
        return 2;
    }
    for (int i = 0; i < threads; i++) {
        crews[i].epoll = epoll_create1(0);
        crews[i].reads = reads / threads;
        crews[i].gap = rate > 0 ? threads / rate : 0;
        crews[i].took = malloc(((size_t)crews[i].reads + 1) * sizeof *crews[i].took);
        if (!crews[i].took) fail("memory");
    }
    for (int i = 0; i < count; i++) join_session(crews + i % threads, rows + i, &to);
    pthread_t all[THREADS];
    for (int i = 0; i < threads; i++)
        if (pthread_create(all + i, NULL, work, crews + i)) fail("thread");
    for (int i = 0; i < threads; i++) pthread_join(all[i], NULL);
    tell(crews, threads);
    return 0;
}
