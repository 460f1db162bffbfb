// Preloaded into the program, it refuses one of its calls. REFUSE=alloc:N has the Nth malloc or realloc find no memory, REFUSE=io:N the Nth
// open, read or write fail, and REFUSE=short:N the Nth read or write move one byte. Where there was such a call, the file MARK is made.
#define _GNU_SOURCE
#include <errno.h>
#include <fcntl.h>
#include <stdarg.h>
#include <stdatomic.h>
#include <stdlib.h>
#include <string.h>
#include <sys/syscall.h>
#include <unistd.h>

void *__libc_malloc(size_t);
void *__libc_realloc(void *, size_t);

static const char *kind = "";
static long wanted;
static atomic_long allocations, transfers, shorts;

__attribute__((constructor)) static void begin(void) {
    const char *words = getenv("REFUSE");
    const char *colon = words ? strchr(words, ':') : NULL;
    if (!colon) return;
    kind = words;
    wanted = atol(colon + 1);
}

// Whether this call is the one, of calls of this kind.
static int is_hit(const char *name, atomic_long *calls) {
    if (wanted == 0 || strncmp(kind, name, strlen(name)) != 0) return 0;
    if (atomic_fetch_add(calls, 1) + 1 != wanted) return 0;
    const char *mark = getenv("MARK");
    if (mark) syscall(SYS_close, syscall(SYS_open, mark, O_CREAT | O_WRONLY, 0600));
    return 1;
}

void *malloc(size_t n) {
    return is_hit("alloc:", &allocations) ? NULL : __libc_malloc(n);
}

void *realloc(void *p, size_t n) {
    return is_hit("alloc:", &allocations) ? NULL : __libc_realloc(p, n);
}

int open(const char *path, int flags, ...) {
    va_list rest;
    va_start(rest, flags);
    int mode = va_arg(rest, int);
    va_end(rest);
    if (is_hit("io:", &transfers)) { errno = EIO; return -1; }
    return syscall(SYS_openat, AT_FDCWD, path, flags, mode);
}

ssize_t read(int file, void *bytes, size_t n) {
    if (is_hit("io:", &transfers)) { errno = EIO; return -1; }
    return syscall(SYS_read, file, bytes, n > 1 && is_hit("short:", &shorts) ? 1 : n);
}

ssize_t write(int file, const void *bytes, size_t n) {
    if (is_hit("io:", &transfers)) { errno = EIO; return -1; }
    return syscall(SYS_write, file, bytes, n > 1 && is_hit("short:", &shorts) ? 1 : n);
}
