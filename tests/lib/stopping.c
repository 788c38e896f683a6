/* Stops the program before one of its changes of files: before the write, the change of a length or the sync whose number,
   counted from 1, STOPPED_AT has. STOPPED_BY says what stops: `program`, and all that was written stays; `tearing`, and the
   first half of what was to be written is, too; `power`, and what was written to a file since it was last synced is lost.
   It then makes the file that STOPPED_NOTE names, and the program ends with status 137. A program gets it by LD_PRELOAD. */
#define _GNU_SOURCE
#include <fcntl.h>
#include <stdlib.h>
#include <string.h>
#include <sys/stat.h>
#include <sys/syscall.h>
#include <sys/types.h>
#include <unistd.h>

extern void *__libc_malloc(size_t size);
extern void __libc_free(void *block);

/* What a stretch of a file was before a change of it, the last change first. */
struct before {
    struct before *earlier;
    ino_t number;
    int file;
    off_t at, length;
    ssize_t size;
    char bytes[];
};

static struct before *unsynced;
static long left;
static const char *stopped_by = "program", *note;

__attribute__((constructor)) static void begin(void)
{
    const char *at = getenv("STOPPED_AT"), *by = getenv("STOPPED_BY");
    left = at ? atol(at) : 0;
    note = getenv("STOPPED_NOTE");
    if (by)
        stopped_by = by;
}

static int power_goes(void) { return strcmp(stopped_by, "power") == 0; }

/* Remembers what a change of a file takes away. A copy of the file's number stays open, so that it can be put back. */
static void remember(int file, off_t at, size_t size)
{
    struct stat found;
    if (!power_goes() || fstat(file, &found) || !S_ISREG(found.st_mode))
        return;
    struct before *it = __libc_malloc(sizeof *it + size);
    if (!it)
        _exit(70);
    it->earlier = unsynced;
    it->number = found.st_ino;
    it->file = dup(file);
    it->at = at;
    it->length = found.st_size;
    it->size = syscall(SYS_pread64, file, it->bytes, size, at);
    if (it->file < 0 || it->size < 0)
        _exit(70);
    unsynced = it;
}

/* What was written to the file before is on the disk now. */
static void keep(int file)
{
    struct stat found;
    if (fstat(file, &found))
        return;
    for (struct before **link = &unsynced; *link;) {
        struct before *it = *link;
        if (it->number != found.st_ino) {
            link = &it->earlier;
            continue;
        }
        *link = it->earlier;
        close(it->file);
        __libc_free(it);
    }
}

static void stop(void)
{
    for (struct before *it = unsynced; it; it = it->earlier) {
        if (it->size && syscall(SYS_pwrite64, it->file, it->bytes, it->size, it->at) != it->size)
            _exit(70);
        if (syscall(SYS_ftruncate, it->file, it->length))
            _exit(70);
    }
    if (note)
        syscall(SYS_close, syscall(SYS_openat, AT_FDCWD, note, O_CREAT | O_WRONLY | O_CLOEXEC, 0600));
    syscall(SYS_exit_group, 137);
}

/* Whether this is the change before which the program stops. */
static int is_last(void) { return left > 0 && --left == 0; }

static size_t torn(size_t size) { return strcmp(stopped_by, "tearing") == 0 ? size / 2 : 0; }

ssize_t pwrite64(int file, const void *bytes, size_t size, off64_t at)
{
    if (is_last()) {
        syscall(SYS_pwrite64, file, bytes, torn(size), at);
        stop();
    }
    remember(file, at, size);
    return syscall(SYS_pwrite64, file, bytes, size, at);
}

ssize_t pwrite(int file, const void *bytes, size_t size, off_t at) { return pwrite64(file, bytes, size, at); }

ssize_t write(int file, const void *bytes, size_t size)
{
    if (is_last()) {
        syscall(SYS_write, file, bytes, torn(size));
        stop();
    }
    return syscall(SYS_write, file, bytes, size);
}

ssize_t __write(int file, const void *bytes, size_t size) { return write(file, bytes, size); }

int ftruncate64(int file, off64_t length)
{
    struct stat found;
    if (is_last())
        stop();
    if (fstat(file, &found) == 0)
        remember(file, length, found.st_size > length ? found.st_size - length : 0);
    return syscall(SYS_ftruncate, file, length);
}

int ftruncate(int file, off_t length) { return ftruncate64(file, length); }

int fdatasync(int file)
{
    if (is_last())
        stop();
    keep(file);
    return syscall(SYS_fdatasync, file);
}

int fsync(int file)
{
    if (is_last())
        stop();
    keep(file);
    return syscall(SYS_fsync, file);
}
