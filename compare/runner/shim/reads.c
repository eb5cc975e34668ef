/* Stands before C's `read`, for LD_PRELOAD: the call numbered READS_FAIL, from 1, fails, and no call hands out more than READS_MOST bytes. */
#define _GNU_SOURCE
#include <errno.h>
#include <stdlib.h>
#include <sys/syscall.h>
#include <unistd.h>

static size_t setting(const char *name) {
    const char *text = getenv(name);
    return text ? strtoul(text, NULL, 10) : 0;
}

ssize_t read(int file, void *bytes, size_t size) {
    static size_t calls;
    size_t most = setting("READS_MOST");
    if (++calls == setting("READS_FAIL")) {
        errno = EIO;
        return -1;
    }
    return syscall(SYS_read, file, bytes, most && size > most ? most : size);
}
