/* Lets one read of standard input or one write to standard output fail: the call of the name FAIL, `read` or `write`,
   that has the number FAIL_AT, counted from 1, with the error FAIL_ERROR. Each of these calls is told in a line on the
   descriptor FAIL_FD: how many bytes were asked of it, and what it gave, -1 where it failed. Preloaded by programs.py. */
#define _GNU_SOURCE
#include <errno.h>
#include <stdio.h>
#include <stdlib.h>
#include <string.h>
#include <sys/syscall.h>
#include <unistd.h>

static ssize_t call(const char *name, long number, int file, void *bytes, size_t size) {
    static long count;
    const char *wanted = getenv("FAIL"), *told = getenv("FAIL_FD");
    int is_told = wanted && told && !strcmp(wanted, name) && file == (number == SYS_write);
    ssize_t given;
    if (is_told && ++count == atol(getenv("FAIL_AT"))) {
        errno = atoi(getenv("FAIL_ERROR"));
        given = -1;
    } else given = syscall(number, file, bytes, size);
    if (is_told) {
        int error = errno;
        dprintf(atoi(told), "%zu %zd\n", size, given);
        errno = error;
    }
    return given;
}

ssize_t read(int file, void *bytes, size_t size) { return call("read", SYS_read, file, bytes, size); }
ssize_t write(int file, const void *bytes, size_t size) { return call("write", SYS_write, file, (void *)bytes, size); }
