/* Stands before the C library of a program, and hands it another clock. The monotonic clock goes as many times faster as the environment's
 * HOUR_FACTOR says, and the time-out of a socket's reads is as many times shorter. The file that HOUR_COUNTS names has two numbers, shared with
 * whoever looks on: how many pieces of memory the program has, and how many bytes these have. */
#define _GNU_SOURCE
#include <errno.h>
#include <fcntl.h>
#include <malloc.h>
#include <stddef.h>
#include <stdint.h>
#include <stdlib.h>
#include <sys/mman.h>
#include <sys/socket.h>
#include <sys/syscall.h>
#include <sys/time.h>
#include <time.h>
#include <unistd.h>

extern void *__libc_malloc(size_t size);
extern void *__libc_calloc(size_t count, size_t size);
extern void *__libc_realloc(void *old, size_t size);
extern void *__libc_memalign(size_t alignment, size_t size);
extern void __libc_free(void *old);

static volatile struct {
    int64_t pieces, bytes;
} *shared;

static int64_t factor = 1, begun;

static int64_t nanoseconds(clockid_t clock)
{
    struct timespec now;
    syscall(SYS_clock_gettime, clock, &now);
    return now.tv_sec * 1000000000LL + now.tv_nsec;
}

__attribute__((constructor)) static void begin(void)
{
    const char *times = getenv("HOUR_FACTOR"), *name = getenv("HOUR_COUNTS");
    factor = times ? atoll(times) : 1;
    begun = nanoseconds(CLOCK_MONOTONIC);
    int file = name ? open(name, O_RDWR | O_CLOEXEC) : -1;
    if (file < 0)
        return;
    void *at = mmap(NULL, sizeof *shared, PROT_READ | PROT_WRITE, MAP_SHARED, file, 0);
    close(file);
    if (at != MAP_FAILED)
        shared = at;
}

int clock_gettime(clockid_t clock, struct timespec *now)
{
    if (clock != CLOCK_MONOTONIC)
        return (int)syscall(SYS_clock_gettime, clock, now);
    int64_t time = begun + (nanoseconds(clock) - begun) * factor;
    now->tv_sec = time / 1000000000;
    now->tv_nsec = time % 1000000000;
    return 0;
}

int setsockopt(int socket, int level, int option, const void *value, socklen_t size)
{
    if (level == SOL_SOCKET && option == SO_RCVTIMEO && size == sizeof(struct timeval)) {
        const struct timeval *given = value;
        int64_t time = (given->tv_sec * 1000000LL + given->tv_usec) / factor;
        struct timeval shorter = {time / 1000000, time % 1000000 ? time % 1000000 : 1};
        return (int)syscall(SYS_setsockopt, socket, level, option, &shorter, sizeof shorter);
    }
    return (int)syscall(SYS_setsockopt, socket, level, option, value, size);
}

static void count(int64_t pieces, int64_t bytes)
{
    if (shared) {
        __atomic_add_fetch(&shared->pieces, pieces, __ATOMIC_SEQ_CST);
        __atomic_add_fetch(&shared->bytes, bytes, __ATOMIC_SEQ_CST);
    }
}

static void *counted(void *made)
{
    if (made)
        count(1, (int64_t)malloc_usable_size(made));
    return made;
}

void *malloc(size_t size)
{
    return counted(__libc_malloc(size));
}

void *calloc(size_t many, size_t size)
{
    return counted(__libc_calloc(many, size));
}

void *realloc(void *old, size_t size)
{
    int64_t had = old ? (int64_t)malloc_usable_size(old) : 0;
    void *made = __libc_realloc(old, size);
    if (made)
        count(old ? 0 : 1, (int64_t)malloc_usable_size(made) - had);
    return made;
}

void free(void *old)
{
    if (old)
        count(-1, -(int64_t)malloc_usable_size(old));
    __libc_free(old);
}

void *aligned_alloc(size_t alignment, size_t size)
{
    return counted(__libc_memalign(alignment, size));
}

int posix_memalign(void **out, size_t alignment, size_t size)
{
    void *made = counted(__libc_memalign(alignment, size));
    if (!made)
        return ENOMEM;
    *out = made;
    return 0;
}
