/* Loaded before the C library: while the file that FAILING_SWITCH names is there, the call that FAILING_CALL names (pwrite, which is pwrite64 too, or fdatasync) fails with the number
 * FAILING_NUMBER. */
#define _GNU_SOURCE

#include <dlfcn.h>
#include <errno.h>
#include <stdlib.h>
#include <string.h>
#include <sys/types.h>
#include <unistd.h>

static int fails(const char *call) {
    const char *which = getenv("FAILING_CALL"), *file = getenv("FAILING_SWITCH"), *number = getenv("FAILING_NUMBER");
    if (which == NULL || file == NULL || number == NULL || strcmp(which, call) != 0 || access(file, F_OK) != 0) {
        return 0;
    }
    errno = atoi(number);
    return 1;
}

ssize_t pwrite(int file, const void *bytes, size_t length, off_t place) {
    ssize_t (*real)(int, const void *, size_t, off_t) = (ssize_t(*)(int, const void *, size_t, off_t))dlsym(RTLD_NEXT, "pwrite");
    if (fails("pwrite")) {
        int number = errno;
        (void)!real(file, bytes, length / 2, place); /* a part of it, as a disk that gets full */
        errno = number;
        return -1;
    }
    return real(file, bytes, length, place);
}

/* What Rust calls. */
ssize_t pwrite64(int file, const void *bytes, size_t length, off_t place) { return pwrite(file, bytes, length, place); }

int fdatasync(int file) {
    int (*real)(int) = (int (*)(int))dlsym(RTLD_NEXT, "fdatasync");
    return fails("fdatasync") ? -1 : real(file);
}
