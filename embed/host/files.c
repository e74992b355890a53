#define _GNU_SOURCE

#include "files.h"

#include <errno.h>
#include <fcntl.h>
#include <stdio.h>
#include <sys/types.h>
#include <unistd.h>

bool write_at(int file, const uint8_t *bytes, size_t length, uint64_t place) {
    while (length > 0) {
        ssize_t count = pwrite(file, bytes, length, (off_t)place);
        if (count < 0 && errno == EINTR) {
            continue;
        }
        if (count == 0) {
            errno = EIO; /* no byte was taken, and no error said why */
        }
        if (count <= 0) {
            return false;
        }
        bytes += count;
        length -= (size_t)count;
        place += (uint64_t)count;
    }
    return true;
}

ssize_t read_at(int file, uint8_t *bytes, size_t length, uint64_t place) {
    size_t done = 0;
    while (done < length) {
        ssize_t count = pread(file, bytes + done, length - done, (off_t)(place + done));
        if (count < 0 && errno == EINTR) {
            continue;
        }
        if (count < 0) {
            return -1;
        }
        if (count == 0) {
            break;
        }
        done += (size_t)count;
    }
    return (ssize_t)done;
}

bool sync_data(int file) {
    while (fdatasync(file) != 0) {
        if (errno != EINTR) {
            return false;
        }
    }
    return true;
}

bool sync_folder(int folder) {
    while (fsync(folder) != 0) {
        if (errno != EINTR) {
            return false;
        }
    }
    return true;
}

polydb_host_cause put_file(int folder, const char *name, const char *beside, const uint8_t *bytes, size_t length, int *kept, polydb_host_error *error) {
    int file = openat(folder, beside, O_RDWR | O_CREAT | O_TRUNC | O_CLOEXEC | O_NOFOLLOW, 0600);
    if (file < 0) {
        return refuse_system(error, "open", beside);
    }
    polydb_host_cause cause = POLYDB_HOST_DONE;
    if (!write_at(file, bytes, length, 0)) {
        cause = refuse_system(error, "write", beside);
    } else if (!sync_data(file)) {
        cause = refuse_system(error, "fdatasync", beside);
    } else if (renameat(folder, beside, folder, name) != 0) {
        cause = refuse_system(error, "rename", beside);
    } else if (!sync_folder(folder)) {
        cause = refuse_system(error, "fsync of the folder of", name);
    }
    if (cause == POLYDB_HOST_DONE && kept != NULL) {
        *kept = file;
        return cause;
    }
    if (close(file) != 0 && cause == POLYDB_HOST_DONE) {
        cause = refuse_system(error, "close", name);
    }
    return cause;
}
