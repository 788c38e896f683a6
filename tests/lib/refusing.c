/* Refuses one call: the allocation, the read or the write whose number, counted from 1, REFUSED_ALLOCATION, REFUSED_READ or
   REFUSED_WRITE has. An allocation is refused as where memory ran out, a read or a write as where the device fails. Once it
   has refused one, it makes the file that REFUSED_NOTE names, so that who asks knows whether there was such a call.
   A program gets it by LD_PRELOAD. */
#define _GNU_SOURCE
#include <errno.h>
#include <fcntl.h>
#include <stdlib.h>
#include <string.h>
#include <sys/syscall.h>
#include <sys/types.h>
#include <sys/uio.h>
#include <unistd.h>

extern void *__libc_malloc(size_t size);
extern void *__libc_calloc(size_t count, size_t size);
extern void *__libc_realloc(void *block, size_t size);
extern void *__libc_memalign(size_t alignment, size_t size);

static long allocation, reading, writing;
static const char *note;

static long number(const char *name)
{
    const char *text = getenv(name);
    return text ? atol(text) : 0;
}

/* What is asked for before is the loader's and the library's. */
__attribute__((constructor)) static void begin(void)
{
    note = getenv("REFUSED_NOTE");
    allocation = number("REFUSED_ALLOCATION");
    reading = number("REFUSED_READ");
    writing = number("REFUSED_WRITE");
}

/* Whether this call is the one that is refused. */
static int is_refused(long *left, int error)
{
    if (*left <= 0 || --*left > 0)
        return 0;
    if (note)
        syscall(SYS_close, syscall(SYS_openat, AT_FDCWD, note, O_CREAT | O_WRONLY | O_CLOEXEC, 0600));
    errno = error;
    return 1;
}

void *malloc(size_t size) { return is_refused(&allocation, ENOMEM) ? NULL : __libc_malloc(size); }

void *calloc(size_t count, size_t size) { return is_refused(&allocation, ENOMEM) ? NULL : __libc_calloc(count, size); }

void *realloc(void *block, size_t size) { return is_refused(&allocation, ENOMEM) ? NULL : __libc_realloc(block, size); }

void *aligned_alloc(size_t alignment, size_t size) { return is_refused(&allocation, ENOMEM) ? NULL : __libc_memalign(alignment, size); }

int posix_memalign(void **block, size_t alignment, size_t size)
{
    if (is_refused(&allocation, ENOMEM))
        return ENOMEM;
    *block = __libc_memalign(alignment, size);
    return *block ? 0 : ENOMEM;
}

ssize_t read(int file, void *bytes, size_t size) { return is_refused(&reading, EIO) ? -1 : syscall(SYS_read, file, bytes, size); }

ssize_t pread64(int file, void *bytes, size_t size, off64_t at)
{
    return is_refused(&reading, EIO) ? -1 : syscall(SYS_pread64, file, bytes, size, at);
}

ssize_t pread(int file, void *bytes, size_t size, off_t at) { return pread64(file, bytes, size, at); }

ssize_t write(int file, const void *bytes, size_t size) { return is_refused(&writing, EIO) ? -1 : syscall(SYS_write, file, bytes, size); }

ssize_t __write(int file, const void *bytes, size_t size) { return write(file, bytes, size); }

ssize_t pwrite64(int file, const void *bytes, size_t size, off64_t at)
{
    return is_refused(&writing, EIO) ? -1 : syscall(SYS_pwrite64, file, bytes, size, at);
}

ssize_t pwrite(int file, const void *bytes, size_t size, off_t at) { return pwrite64(file, bytes, size, at); }
