/* Put before the C library (LD_PRELOAD), this lets one read of a program fail: the one whose number, from 1, is in FAILING_READ. The
 * reads after it go through. It exits with 9 where there was no such read, so that a test knows when it has tried them all. */
#define _GNU_SOURCE
#include <errno.h>
#include <stdlib.h>
#include <sys/syscall.h>
#include <unistd.h>

static long turn, failing;

__attribute__((constructor)) static void begin(void) {
    const char *number = getenv("FAILING_READ");
    failing = number ? atol(number) : 0;
}

__attribute__((destructor)) static void end(void) {
    if (turn < failing)
        _exit(9);
}

ssize_t read(int fd, void *buf, size_t count) {
    if (++turn == failing) {
        errno = EIO;
        return -1;
    }
    return syscall(SYS_read, fd, buf, count);
}
