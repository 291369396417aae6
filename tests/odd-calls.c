/* Preloaded into a program: the system answers oddly.
 *
 * NO_RANDOM: it has no random bytes.
 * TAKES: to which descriptor at most how many bytes are written a call, as "1 0". 3 stands for all files.
 * INTERRUPTS: a signal interrupts each second call that reads or writes. */
#define _GNU_SOURCE
#include <dlfcn.h>
#include <errno.h>
#include <stdio.h>
#include <stdlib.h>
#include <unistd.h>

static int limited = -1, interrupts, calls;
static size_t most;

__attribute__((constructor)) static void begin(void) {
    const char *takes = getenv("TAKES");
    if (takes && sscanf(takes, "%d %zu", &limited, &most) != 2)
        _exit(99);
    interrupts = getenv("INTERRUPTS") != NULL;
}

static int is_interrupted(void) {
    if (!interrupts || calls++ % 2 == 1)
        return 0;
    errno = EINTR;
    return 1;
}

int getentropy(void *to, size_t size) {
    static __typeof__(getentropy) *own;
    if (getenv("NO_RANDOM")) {
        errno = EIO;
        return -1;
    }
    if (own == NULL)
        own = (__typeof__(getentropy) *)dlsym(RTLD_NEXT, "getentropy");
    return own(to, size);
}

ssize_t read(int from, void *to, size_t size) {
    static __typeof__(read) *own;
    if (own == NULL)
        own = (__typeof__(read) *)dlsym(RTLD_NEXT, "read");
    return is_interrupted() ? -1 : own(from, to, size);
}

ssize_t write(int to, const void *bytes, size_t size) {
    static __typeof__(write) *own;
    if (own == NULL)
        own = (__typeof__(write) *)dlsym(RTLD_NEXT, "write");
    if ((to < 3 ? to : 3) == limited && size > most)
        size = most;
    return is_interrupted() ? -1 : own(to, bytes, size);
}
