// Lets memory, reads and writes of a program fail, or give little. It is loaded before the C
// library (LD_PRELOAD). The environment says what it does:
//   REFUSE=N        request number N for memory is refused
//   READ_MOST=N     a read gives at most N bytes;   READ_FAILS=N    read number N fails
//   WRITE_MOST=N    the same of writes to standard output;   WRITE_FAILS=N
//   ERROR_MOST=N    and of those to the error stream;   ERROR_FAILS=N
//   INTERRUPTED=1   these calls are interrupted (EINTR) where they would fail
//   NO_ENTROPY=1    the machine gives no random bytes
//   CHANGED=FILE    before call number CHANGED_AT, of those that ask for the length of an input or
//                   read one, the file gets the bytes of the file BECOMES
//   COUNTS=FILE     at the end the number of requests for memory and of reads, and the sum of the
//                   bytes asked for, is written to the file
#define _GNU_SOURCE
#include <dlfcn.h>
#include <errno.h>
#include <fcntl.h>
#include <stdio.h>
#include <stdlib.h>
#include <string.h>
#include <unistd.h>
#include <sys/stat.h>
#include <sys/syscall.h>

static long requests, asked, reads, writes, errors;

static long number(const char *name) {
    const char *text = getenv(name);
    return text ? atol(text) : 0;
}

static int refused(size_t size) {
    asked += size;
    return ++requests == number("REFUSE");
}

void *malloc(size_t size) {
    static void *(*next)(size_t);
    if (!next) next = dlsym(RTLD_NEXT, "malloc");
    return refused(size) ? NULL : next(size);
}

void *realloc(void *at, size_t size) {
    static void *(*next)(void *, size_t);
    if (!next) next = dlsym(RTLD_NEXT, "realloc");
    return refused(size) ? NULL : next(at, size);
}

// Whether this call fails, counted from 1.
static int failed(long call, long fails) {
    if (call != fails) return 0;
    errno = getenv("INTERRUPTED") ? EINTR : EIO;
    return 1;
}

static size_t limited(size_t size, long most) {
    return most > 0 && size > (size_t)most ? (size_t)most : size;
}

// Gives the file CHANGED the bytes of the file BECOMES, if its time has come.
static void change(void) {
    static long calls;
    static char bytes[1 << 21];
    if (++calls != number("CHANGED_AT")) return;
    int from = open(getenv("BECOMES"), O_RDONLY), to = open(getenv("CHANGED"), O_WRONLY);
    long size = syscall(SYS_read, from, bytes, sizeof bytes);
    if (syscall(SYS_write, to, bytes, size) != size || ftruncate(to, size)) abort();
    close(from);
    close(to);
}

int statx(int fd, const char *restrict path, int flags, unsigned mask,
          struct statx *restrict about) {
    change();
    return syscall(SYS_statx, fd, path, flags, mask, about);
}

ssize_t read(int fd, void *into, size_t size) {
    change();
    if (failed(++reads, number("READ_FAILS"))) return -1;
    return syscall(SYS_read, fd, into, limited(size, number("READ_MOST")));
}

ssize_t write(int fd, const void *from, size_t size) {
    if (fd == 1) {
        if (failed(++writes, number("WRITE_FAILS"))) return -1;
        size = limited(size, number("WRITE_MOST"));
    } else if (fd == 2) {
        if (failed(++errors, number("ERROR_FAILS"))) return -1;
        size = limited(size, number("ERROR_MOST"));
    }
    return syscall(SYS_write, fd, from, size);
}

ssize_t __write(int fd, const void *from, size_t size) {
    return write(fd, from, size);
}

int getentropy(void *into, size_t size) {
    if (!getenv("NO_ENTROPY")) return syscall(SYS_getrandom, into, size, 0) == (long)size ? 0 : -1;
    errno = ENOSYS;
    return -1;
}

__attribute__((destructor)) static void tell(void) {
    const char *name = getenv("COUNTS");
    if (!name) return;
    char text[64];
    int size = snprintf(text, sizeof text, "%ld %ld %ld\n", requests, reads, asked);
    int fd = open(name, O_WRONLY | O_CREAT | O_TRUNC, 0600);
    syscall(SYS_write, fd, text, size);
    close(fd);
}
