/* Preloaded into a program: refuses the growth of memory with the number REFUSE_AT, counted from 1 where main begins,
 * and all later ones too where REFUSE_ON is set. Each refusal writes one byte to the file descriptor REFUSE_TELL. */
#define _GNU_SOURCE
#include <dlfcn.h>
#include <errno.h>
#include <stdlib.h>
#include <unistd.h>

static long number, refused_at, tell_to;

__attribute__((constructor)) static void begin(void) {
    refused_at = atol(getenv("REFUSE_AT"));
    tell_to = atol(getenv("REFUSE_TELL"));
    number = 0;
}

static int is_refused(void) {
    number++;
    if (refused_at == 0 || number < refused_at || (number > refused_at && !getenv("REFUSE_ON")))
        return 0;
    if (write(tell_to, "x", 1) != 1)
        _exit(99);
    errno = ENOMEM;
    return 1;
}

/* A call of the C library's own function of this name, or `none` where it is refused. */
#define CALL(name, none, ...)                                                                  \
    static __typeof__(name) *own;                                                              \
    if (own == NULL)                                                                           \
        own = (__typeof__(name) *)dlsym(RTLD_NEXT, #name);                                     \
    return is_refused() ? none : own(__VA_ARGS__)

void *malloc(size_t size) { CALL(malloc, NULL, size); }
void *calloc(size_t count, size_t size) { CALL(calloc, NULL, count, size); }
void *realloc(void *old, size_t size) { CALL(realloc, NULL, old, size); }
void *aligned_alloc(size_t to, size_t size) { CALL(aligned_alloc, NULL, to, size); }
int posix_memalign(void **at, size_t to, size_t size) { CALL(posix_memalign, ENOMEM, at, to, size); }
