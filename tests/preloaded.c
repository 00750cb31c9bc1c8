/* Loaded before the C library into the bench program, for tests/failures.py. A timer interrupts its calls every millisecond, and no
   interrupted call is started again; each interrupted read, interrupted write and short write is noted as a letter in the file that
   NOTES names. Where SYNC_FAILS is set, no file can be stored; where TAKES_NOTHING is, standard output takes no byte; and where
   LOOK_INTERRUPTED is, a signal comes as a file is first looked for. */
#define _GNU_SOURCE
#include <errno.h>
#include <fcntl.h>
#include <signal.h>
#include <stdlib.h>
#include <sys/stat.h>
#include <sys/syscall.h>
#include <sys/time.h>
#include <unistd.h>

static int notes = -1;

static void ignore(int number) {
    (void)number;
}

__attribute__((constructor)) static void start(void) {
    const char *path = getenv("NOTES");
    if (path != NULL)
        notes = open(path, O_WRONLY | O_CREAT | O_APPEND | O_CLOEXEC, 0600);
    struct sigaction action = {.sa_handler = ignore};
    struct itimerval every = {{0, 1000}, {0, 1000}};
    sigaction(SIGALRM, &action, NULL);
    setitimer(ITIMER_REAL, &every, NULL);
}

static void note(char letter) {
    int said = errno;
    if (notes >= 0)
        syscall(SYS_write, notes, &letter, 1);
    errno = said;
}

ssize_t read(int descriptor, void *buffer, size_t size) {
    ssize_t got = syscall(SYS_read, descriptor, buffer, size);
    if (got < 0 && errno == EINTR)
        note('r');
    return got;
}

ssize_t write(int descriptor, const void *buffer, size_t size) {
    if (descriptor == 1 && getenv("TAKES_NOTHING") != NULL)
        return 0;
    ssize_t put = syscall(SYS_write, descriptor, buffer, size);
    if (put < 0 && errno == EINTR)
        note('w');
    else if (put >= 0 && (size_t)put < size)
        note('s');
    return put;
}

int fsync(int descriptor) {
    if (getenv("SYNC_FAILS") != NULL) {
        errno = EDQUOT;
        return -1;
    }
    return syscall(SYS_fsync, descriptor);
}

int statx(int folder, const char *restrict path, int flags, unsigned mask, struct statx *restrict found) {
    static int looked;
    if (getenv("LOOK_INTERRUPTED") != NULL && !looked++) {
        errno = EINTR;
        return -1;
    }
    return syscall(SYS_statx, folder, path, flags, mask, found);
}
