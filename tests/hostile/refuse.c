/* Refuses growth number REFUSE, counted over malloc and realloc from 1, and says so by a byte on the descriptor
   REFUSE_FD; a further byte there is a read behind it. Preloaded by programs.py. */
#include <stddef.h>
#include <stdlib.h>
#include <sys/syscall.h>
#include <unistd.h>

extern void *__libc_malloc(size_t size);
extern void *__libc_realloc(void *old, size_t size);

static int was_refused;

static void tell(const char *byte) {
    const char *file = getenv("REFUSE_FD");
    if (file && write(atoi(file), byte, 1) != 1) abort();
}

static int is_refused(void) {
    static long count;
    const char *number = getenv("REFUSE");
    if (!number || ++count != atol(number)) return 0;
    was_refused = 1;
    tell("m");
    return 1;
}

void *malloc(size_t size) { return is_refused() ? NULL : __libc_malloc(size); }
void *realloc(void *old, size_t size) { return is_refused() ? NULL : __libc_realloc(old, size); }

ssize_t read(int file, void *bytes, size_t size) {
    if (was_refused) tell("r");
    return syscall(SYS_read, file, bytes, size);
}
