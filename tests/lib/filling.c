/* A disk that has no more room: once files have grown by as many bytes in all as FILLED_AFTER has, a write behind the end of a
   file fails, as on a full disk. A program gets it by LD_PRELOAD. */
#define _GNU_SOURCE
#include <errno.h>
#include <stdlib.h>
#include <sys/stat.h>
#include <sys/syscall.h>
#include <sys/types.h>
#include <unistd.h>

static long room;

__attribute__((constructor)) static void begin(void)
{
    const char *text = getenv("FILLED_AFTER");
    room = text ? atol(text) : 0;
}

ssize_t pwrite64(int file, const void *bytes, size_t size, off64_t at)
{
    struct stat found;
    if (fstat(file, &found) == 0 && S_ISREG(found.st_mode)) {
        off64_t grows = at + (off64_t)size - found.st_size;
        if (grows > room) {
            errno = ENOSPC;
            return -1;
        }
        if (grows > 0)
            room -= grows;
    }
    return syscall(SYS_pwrite64, file, bytes, size, at);
}

ssize_t pwrite(int file, const void *bytes, size_t size, off_t at) { return pwrite64(file, bytes, size, at); }
