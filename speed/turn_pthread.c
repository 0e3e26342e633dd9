/* How many turns a second 1, 2, 4 and 8 threads take at one pthread mutex, each adding a number to a total
   and to a list that grows, to set beside crates/speed_turn. Build: cc -O2 -pthread speed/turn_pthread.c
   -o /tmp/turn_pthread */
#include <pthread.h>
#include <stdint.h>
#include <stdio.h>
#include <stdlib.h>
#include <time.h>

enum { TURNS = 1000000 };

static pthread_mutex_t lock = PTHREAD_MUTEX_INITIALIZER;
static uint64_t total, *amounts;
static size_t length, capacity;

static double now(void) {
    struct timespec t;
    clock_gettime(CLOCK_MONOTONIC, &t);
    return t.tv_sec + t.tv_nsec / 1e9;
}

static void *take_turns(void *turns) {
    for (uint64_t amount = 0; amount < *(uint32_t *)turns; amount++) {
        pthread_mutex_lock(&lock);
        if (length == capacity) {
            size_t wanted = capacity ? 2 * capacity : 4;
            uint64_t *grown = realloc(amounts, wanted * sizeof *grown);
            if (!grown) abort();
            amounts = grown;
            capacity = wanted;
        }
        amounts[length++] = amount;
        total += amount;
        pthread_mutex_unlock(&lock);
    }
    return NULL;
}

int main(void) {
    for (int threads = 1; threads <= 8; threads *= 2) {
        pthread_t handles[8];
        uint32_t turns = TURNS / threads;
        free(amounts);
        amounts = NULL;
        total = length = capacity = 0;
        double start = now();
        for (int i = 0; i < threads; i++)
            if (pthread_create(&handles[i], NULL, take_turns, &turns)) abort();
        for (int i = 0; i < threads; i++) pthread_join(handles[i], NULL);
        double took = now() - start;
        printf("%d threads, %u turns each: %zu entries, which sum to %llu\n%.0f turns a second\n", threads, turns,
               length, (unsigned long long)total, TURNS / took);
    }
    free(amounts);
    return 0;
}
