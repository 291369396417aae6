/* Preloaded into the launcher: refuses the fork with the number REFUSED, and those behind it where ALL is set. FORKS is a file that has
   a byte for each. */
#define _GNU_SOURCE
#include <dlfcn.h>
#include <errno.h>
#include <fcntl.h>
#include <stdlib.h>
#include <sys/stat.h>
#include <sys/types.h>
#include <unistd.h>

static off_t number_of_fork(void) {
    struct stat found;
    int file = open(getenv("FORKS"), O_WRONLY | O_APPEND | O_CREAT | O_CLOEXEC, 0666);
    if (file < 0 || write(file, ".", 1) != 1 || fstat(file, &found) != 0) abort();
    close(file);
    return found.st_size;
}

pid_t fork(void) {
    pid_t (*real)(void) = (pid_t (*)(void))dlsym(RTLD_NEXT, "fork");
    off_t number = number_of_fork(), refused = atol(getenv("REFUSED"));
    if (number == refused || (getenv("ALL") && number > refused)) {
        errno = ENOMEM;
        return -1;
    }
    return real();
}
