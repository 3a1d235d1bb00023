/* Refuses allocations, reads, writes and changes of files of a program that is run with this library loaded before the C
   library (see refuse.py, faulty.py and faulty_store.py).

   REFUSE_AT     the first allocation that is refused, counted from 1; none where it is 0 or isn't given
   REFUSE_COUNT  how many are refused from there on; all where it is 0, one where it isn't given
   REFUSE_READ   the first read that fails, counted from 1; all later ones fail, too
   REFUSE_WRITE  the same of writes
   REFUSE_SHORT  where it is given, a read or a write moves one byte
   REFUSE_CHANGE the first write at a place of a file, cut or sync that fails; all later ones, too
   REFUSE_ALONE  where it is given, that one alone fails
   REFUSE_ERROR  the error's number; EIO if it isn't given
   REFUSE_TOLD   a file of 16 bytes: how many calls were counted, and how many were refused

   An allocation is a call of malloc, calloc, realloc or one that aligns. It needs glibc. */
#include <errno.h>
#include <fcntl.h>
#include <stddef.h>
#include <stdint.h>
#include <stdlib.h>
#include <sys/mman.h>
#include <sys/syscall.h>
#include <unistd.h>

void *__libc_malloc(size_t size);
void *__libc_calloc(size_t count, size_t size);
void *__libc_realloc(void *old, size_t size);
void *__libc_memalign(size_t alignment, size_t size);

struct counts {
    uint64_t asked, refused;
};

static struct counts none;
static struct counts *counts = &none;
static uint64_t first, last, first_read, first_write, first_change, reads, writes, changes;
static int is_short, is_alone, error;

static uint64_t number(const char *name, uint64_t otherwise) {
    const char *text = getenv(name);
    return text ? strtoull(text, NULL, 10) : otherwise;
}

__attribute__((constructor)) static void begin(void) {
    const char *path = getenv("REFUSE_TOLD");
    int file = path ? open(path, O_RDWR | O_CLOEXEC) : -1;
    if (file >= 0) {
        void *shared = mmap(NULL, sizeof(struct counts), PROT_READ | PROT_WRITE, MAP_SHARED, file, 0);
        close(file);
        if (shared != MAP_FAILED)
            counts = shared;
    }
    first = number("REFUSE_AT", 0);
    uint64_t count = number("REFUSE_COUNT", 1);
    last = count ? first + count - 1 : UINT64_MAX;
    first_read = number("REFUSE_READ", 0);
    first_write = number("REFUSE_WRITE", 0);
    first_change = number("REFUSE_CHANGE", 0);
    is_short = getenv("REFUSE_SHORT") != NULL;
    is_alone = getenv("REFUSE_ALONE") != NULL;
    error = (int)number("REFUSE_ERROR", EIO);
    counts->asked = counts->refused = 0;
}

static int is_refused(void) {
    uint64_t at = ++counts->asked;
    if (!first || at < first || at > last)
        return 0;
    ++counts->refused;
    errno = ENOMEM;
    return 1;
}

static int fails(uint64_t from, uint64_t at) {
    if (!from || at < from)
        return 0;
    ++counts->refused;
    errno = EIO;
    return 1;
}

ssize_t read(int file, void *bytes, size_t count) {
    if (fails(first_read, ++reads))
        return -1;
    return syscall(SYS_read, file, bytes, is_short && count ? 1 : count);
}

ssize_t write(int file, const void *bytes, size_t count) {
    if (file != STDERR_FILENO && fails(first_write, ++writes))
        return -1;
    return syscall(SYS_write, file, bytes, is_short && file != STDERR_FILENO && count ? 1 : count);
}

static int change_fails(void) {
    uint64_t at = ++changes;
    if (!first_change || at < first_change || (is_alone && at > first_change))
        return 0;
    ++counts->refused;
    errno = error;
    return 1;
}

ssize_t pwrite(int file, const void *bytes, size_t count, off_t at) {
    return change_fails() ? -1 : syscall(SYS_pwrite64, file, bytes, count, at);
}

ssize_t pwrite64(int file, const void *bytes, size_t count, off_t at) { return pwrite(file, bytes, count, at); }

int ftruncate(int file, off_t size) { return change_fails() ? -1 : (int)syscall(SYS_ftruncate, file, size); }

int ftruncate64(int file, off_t size) { return ftruncate(file, size); }

int fsync(int file) { return change_fails() ? -1 : (int)syscall(SYS_fsync, file); }

int fdatasync(int file) { return change_fails() ? -1 : (int)syscall(SYS_fdatasync, file); }

ssize_t __write(int file, const void *bytes, size_t count) { return write(file, bytes, count); }

void *malloc(size_t size) { return is_refused() ? NULL : __libc_malloc(size); }

void *calloc(size_t count, size_t size) { return is_refused() ? NULL : __libc_calloc(count, size); }

void *realloc(void *old, size_t size) { return is_refused() ? NULL : __libc_realloc(old, size); }

void *memalign(size_t alignment, size_t size) { return is_refused() ? NULL : __libc_memalign(alignment, size); }

void *aligned_alloc(size_t alignment, size_t size) { return memalign(alignment, size); }

int posix_memalign(void **place, size_t alignment, size_t size) {
    void *got = memalign(alignment, size);
    if (!got)
        return ENOMEM;
    *place = got;
    return 0;
}
