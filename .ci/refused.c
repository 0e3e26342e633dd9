/* Stands before the C library of a program, and refuses growths of memory and calls of devices. A growth is a call of malloc, calloc,
 * realloc, posix_memalign or aligned_alloc; a call of a device is one of read, write, pread, pwrite, fsync or fdatasync. The file that
 * REFUSED names has five numbers, shared with whoever looks on: how many growths there were; which of them is refused, none where it is 0;
 * whether all behind that one are refused too; how many calls of devices there were; and which of these is refused. */
#define _GNU_SOURCE
#include <errno.h>
#include <fcntl.h>
#include <stddef.h>
#include <stdint.h>
#include <stdlib.h>
#include <sys/mman.h>
#include <sys/syscall.h>
#include <unistd.h>

extern void *__libc_malloc(size_t size);
extern void *__libc_calloc(size_t count, size_t size);
extern void *__libc_realloc(void *old, size_t size);
extern void *__libc_memalign(size_t alignment, size_t size);

static volatile struct {
    uint64_t growths, growth, and_behind, calls, call;
} *shared;

__attribute__((constructor)) static void begin(void)
{
    const char *name = getenv("REFUSED");
    int file = name ? open(name, O_RDWR | O_CLOEXEC) : -1;
    if (file < 0)
        return;
    void *at = mmap(NULL, sizeof *shared, PROT_READ | PROT_WRITE, MAP_SHARED, file, 0);
    close(file);
    if (at != MAP_FAILED)
        shared = at;
}

static int is_growth_refused(void)
{
    if (!shared)
        return 0;
    uint64_t number = __atomic_add_fetch(&shared->growths, 1, __ATOMIC_SEQ_CST);
    if (!shared->growth || (shared->and_behind ? number < shared->growth : number != shared->growth))
        return 0;
    errno = ENOMEM;
    return 1;
}

static int is_call_refused(void)
{
    if (!shared || __atomic_add_fetch(&shared->calls, 1, __ATOMIC_SEQ_CST) != shared->call)
        return 0;
    errno = EIO;
    return 1;
}

void *malloc(size_t size)
{
    return is_growth_refused() ? NULL : __libc_malloc(size);
}

void *calloc(size_t count, size_t size)
{
    return is_growth_refused() ? NULL : __libc_calloc(count, size);
}

void *realloc(void *old, size_t size)
{
    return is_growth_refused() ? NULL : __libc_realloc(old, size);
}

void *aligned_alloc(size_t alignment, size_t size)
{
    return is_growth_refused() ? NULL : __libc_memalign(alignment, size);
}

int posix_memalign(void **out, size_t alignment, size_t size)
{
    void *found = is_growth_refused() ? NULL : __libc_memalign(alignment, size);
    if (!found)
        return ENOMEM;
    *out = found;
    return 0;
}

ssize_t read(int file, void *into, size_t count)
{
    return is_call_refused() ? -1 : syscall(SYS_read, file, into, count);
}

ssize_t write(int file, const void *from, size_t count)
{
    return is_call_refused() ? -1 : syscall(SYS_write, file, from, count);
}

ssize_t pread(int file, void *into, size_t count, off_t at)
{
    return is_call_refused() ? -1 : syscall(SYS_pread64, file, into, count, at);
}

ssize_t pread64(int file, void *into, size_t count, off64_t at)
{
    return pread(file, into, count, at);
}

ssize_t pwrite(int file, const void *from, size_t count, off_t at)
{
    return is_call_refused() ? -1 : syscall(SYS_pwrite64, file, from, count, at);
}

ssize_t pwrite64(int file, const void *from, size_t count, off64_t at)
{
    return pwrite(file, from, count, at);
}

int fsync(int file)
{
    return is_call_refused() ? -1 : (int)syscall(SYS_fsync, file);
}

int fdatasync(int file)
{
    return is_call_refused() ? -1 : (int)syscall(SYS_fdatasync, file);
}
