/* Loaded into a program by LD_PRELOAD, it refuses the program a call: of the calls of a kind, over all threads, the one whose number, from
 * 1, is in the variable REFUSED; of reads and writes all further ones, too. It then writes a byte to the file descriptor in REFUSED_TO. For
 * glibc.
 *
 *   cc -shared -fPIC -O2 -o refuse.so tools/refuse.c
 *
 *   REFUSED_KIND    allocation (if it is not set), open, read, or write: one to standard output
 *   REFUSED_ERROR   the error, a number of errno; 0 is a write that takes nothing
 *   REFUSED_FROM    input: allocations count from the first call of open or read
 *   REFUSED_SIZE    reads and writes to standard output are of so many bytes at most
 */
#define _GNU_SOURCE
#include <errno.h>
#include <fcntl.h>
#include <stdarg.h>
#include <stdatomic.h>
#include <stdlib.h>
#include <sys/syscall.h>
#include <unistd.h>

void *__libc_malloc(size_t size);
void *__libc_calloc(size_t count, size_t size);
void *__libc_realloc(void *old, size_t size);
void *__libc_memalign(size_t alignment, size_t size);

static atomic_long left;
static atomic_int counts;
static int report_to, error;
static size_t most;
static char kind;

static long number_of(const char *name, long otherwise)
{
    const char *text = getenv(name);
    return text ? atol(text) : otherwise;
}

__attribute__((constructor)) static void begin(void)
{
    const char *name = getenv("REFUSED_KIND");
    kind = name ? name[0] : 'a';
    report_to = number_of("REFUSED_TO", -1);
    error = number_of("REFUSED_ERROR", ENOMEM);
    most = number_of("REFUSED_SIZE", 0);
    counts = !getenv("REFUSED_FROM");
    left = number_of("REFUSED", 0);
}

static int is_refused(char called)
{
    if (called == 'o' || called == 'r')
        counts = 1;
    if (called != kind || !counts)
        return 0;
    long number = atomic_fetch_sub(&left, 1);
    int goes_on = kind == 'r' || kind == 'w';
    if (number > 1 || (number < 1 && !goes_on))
        return 0;
    if (report_to >= 0 && syscall(SYS_write, report_to, "x", 1) != 1)
        abort();
    errno = error;
    return 1;
}

static size_t part_of(size_t size) { return most && most < size ? most : size; }

void *malloc(size_t size) { return is_refused('a') ? NULL : __libc_malloc(size); }

void *calloc(size_t count, size_t size) { return is_refused('a') ? NULL : __libc_calloc(count, size); }

void *realloc(void *old, size_t size) { return is_refused('a') ? NULL : __libc_realloc(old, size); }

void *aligned_alloc(size_t alignment, size_t size) { return is_refused('a') ? NULL : __libc_memalign(alignment, size); }

void *memalign(size_t alignment, size_t size) { return is_refused('a') ? NULL : __libc_memalign(alignment, size); }

int posix_memalign(void **made, size_t alignment, size_t size)
{
    if (is_refused('a'))
        return ENOMEM;
    *made = __libc_memalign(alignment, size);
    return *made || !size ? 0 : ENOMEM;
}

int open(const char *path, int flags, ...)
{
    va_list rest;
    va_start(rest, flags);
    mode_t mode = flags & O_CREAT ? va_arg(rest, mode_t) : 0;
    va_end(rest);
    return is_refused('o') ? -1 : syscall(SYS_openat, AT_FDCWD, path, flags, mode);
}

ssize_t read(int file, void *to, size_t size) { return is_refused('r') ? -1 : syscall(SYS_read, file, to, part_of(size)); }

ssize_t write(int file, const void *from, size_t size)
{
    if (file != STDOUT_FILENO)
        return syscall(SYS_write, file, from, size);
    if (is_refused('w'))
        return error ? -1 : 0;
    return syscall(SYS_write, file, from, part_of(size));
}

ssize_t __write(int file, const void *from, size_t size) { return write(file, from, size); }
