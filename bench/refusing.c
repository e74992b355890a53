/* Loaded before the C library, for bench/hostile: refuses one request of the process. REFUSED_KIND says of which kind (0 for memory, 1 a read, 2 a write, 3 a sync) and REFUSED_NUMBER
 * which, from 1. How many of each kind there were stands, also after a process that didn't end by itself, in the file that REQUEST_COUNTS names, eight bytes for each.
 *
 * With REFUSED_STEP, of which the process needs to have one thread, no open file but its streams, and files for these, it refuses the request of that number and each REFUSED_STEP-th after it,
 * each in a child that begins just then and so has done what the process has done. It waits for the child, looks at how that ended, and goes on as if nothing had been: its output is as
 * long as before, and its input stands where it stood. A child ends well with status REFUSED_STATUS, which is that of want of memory, and a beginning of the text that stands in the
 * file WHOLE, or as the process itself is to end: with status WHOLE_STATUS and all of that text. How many ended well stands behind the counts, and of the others a line on the standard
 * error. */
#define _GNU_SOURCE

#include <errno.h>
#include <fcntl.h>
#include <stddef.h>
#include <stdio.h>
#include <stdlib.h>
#include <string.h>
#include <sys/mman.h>
#include <sys/stat.h>
#include <sys/syscall.h>
#include <sys/wait.h>
#include <unistd.h>

enum kind { MEMORY, READ, WRITE, SYNC, KINDS };

extern void *__libc_malloc(size_t size);
extern void *__libc_calloc(size_t count, size_t size);
extern void *__libc_realloc(void *old, size_t size);
extern void *__libc_memalign(size_t align, size_t size);

/* Behind the counts of each kind: how many children ended well. */
enum { WELL = KINDS, NUMBERS };

/* How long a child may take. */
enum { SECONDS = 60 };

static unsigned long unseen[NUMBERS], refused_kind = KINDS, refused_number, refused_step, refused_status, whole_status;
static unsigned long *requests = unseen;
static const char *whole = "";
static size_t whole_length;
static int is_child;

static unsigned long number_of(const char *name, unsigned long otherwise) {
    const char *text = getenv(name);
    return text == NULL ? otherwise : strtoul(text, NULL, 10);
}

/* The process begins to count where its own code does: what the loader asked for before isn't its own. */
__attribute__((constructor)) static void begin(void) {
    const char *name = getenv("REQUEST_COUNTS");
    int file = name == NULL ? -1 : open(name, O_RDWR);
    if (file >= 0) {
        void *place = mmap(NULL, sizeof unseen, PROT_READ | PROT_WRITE, MAP_SHARED, file, 0);
        close(file);
        if (place != MAP_FAILED) {
            requests = place;
        }
    }
    for (int number = 0; number < NUMBERS; number++) {
        requests[number] = 0;
    }
    refused_kind = number_of("REFUSED_KIND", KINDS);
    refused_number = number_of("REFUSED_NUMBER", 0);
    refused_step = number_of("REFUSED_STEP", 0);
    refused_status = number_of("REFUSED_STATUS", 0);
    whole_status = number_of("WHOLE_STATUS", 0);
    whole = getenv("WHOLE");
    file = whole == NULL ? -1 : open(whole, O_RDONLY);
    if (file >= 0) {
        struct stat found;
        whole_length = fstat(file, &found) == 0 ? found.st_size : 0;
        whole = whole_length == 0 ? "" : mmap(NULL, whole_length, PROT_READ, MAP_PRIVATE, file, 0);
        close(file);
        if (whole == MAP_FAILED) {
            whole_length = 0;
        }
    }
}

/* Whether the standard output holds a beginning of the whole text, and of which length. */
static int is_beginning(size_t length) {
    static char part[1 << 16];
    size_t place = 0;
    while (place < length) {
        ssize_t read = syscall(SYS_pread64, 1, part, sizeof part, place);
        if (read <= 0 || place + read > whole_length || memcmp(part, whole + place, read) != 0) {
            return 0;
        }
        place += read;
    }
    return 1;
}

/* Whether this is the child, in which the request is refused. The process itself goes on when the child has ended. */
static int is_refused_in_a_child(unsigned long number) {
    off_t input = lseek(0, 0, SEEK_CUR), output = lseek(1, 0, SEEK_CUR);
    int status = -1;
    pid_t child = _Fork();
    if (child == 0) {
        memcpy(unseen, requests, sizeof unseen);
        requests = unseen;
        is_child = 1;
        alarm(SECONDS);
        return 1;
    }
    if (child > 0) {
        waitpid(child, &status, 0);
    }
    off_t length = lseek(1, 0, SEEK_END);
    int good = is_beginning(length) && WIFEXITED(status) &&
        ((unsigned long)WEXITSTATUS(status) == refused_status || ((unsigned long)WEXITSTATUS(status) == whole_status && (size_t)length == whole_length));
    if (good) {
        requests[WELL] += 1;
    } else {
        dprintf(2, "request %lu refused: ended as %#x, %zd bytes written\n", number, (unsigned)status, (ssize_t)length);
    }
    if (input < 0 || ftruncate(1, output) != 0 || lseek(1, output, SEEK_SET) != output || lseek(0, input, SEEK_SET) != input) {
        dprintf(2, "the streams of the process aren't files\n");
        _exit(1);
    }
    return 0;
}

static int is_refused(enum kind kind) {
    unsigned long number = __atomic_add_fetch(&requests[kind], 1, __ATOMIC_SEQ_CST);
    if (kind != refused_kind || is_child || number < refused_number) {
        return 0;
    }
    if (refused_step == 0 ? number != refused_number : (number - refused_number) % refused_step != 0 || !is_refused_in_a_child(number)) {
        return 0;
    }
    errno = kind == MEMORY ? ENOMEM : EIO;
    return 1;
}

void *malloc(size_t size) { return is_refused(MEMORY) ? NULL : __libc_malloc(size); }

void *calloc(size_t count, size_t size) { return is_refused(MEMORY) ? NULL : __libc_calloc(count, size); }

void *realloc(void *old, size_t size) { return is_refused(MEMORY) ? NULL : __libc_realloc(old, size); }

void *memalign(size_t align, size_t size) { return is_refused(MEMORY) ? NULL : __libc_memalign(align, size); }

void *aligned_alloc(size_t align, size_t size) { return memalign(align, size); }

int posix_memalign(void **place, size_t align, size_t size) {
    void *found = memalign(align, size);
    if (found == NULL) {
        return ENOMEM;
    }
    *place = found;
    return 0;
}

ssize_t read(int file, void *into, size_t count) { return is_refused(READ) ? -1 : syscall(SYS_read, file, into, count); }

ssize_t pread(int file, void *into, size_t count, off_t place) { return is_refused(READ) ? -1 : syscall(SYS_pread64, file, into, count, place); }

ssize_t pread64(int file, void *into, size_t count, off_t place) { return pread(file, into, count, place); }

ssize_t write(int file, const void *bytes, size_t count) { return is_refused(WRITE) ? -1 : syscall(SYS_write, file, bytes, count); }

/* What compiled code may call it by. */
ssize_t __write(int file, const void *bytes, size_t count) { return write(file, bytes, count); }

ssize_t pwrite(int file, const void *bytes, size_t count, off_t place) { return is_refused(WRITE) ? -1 : syscall(SYS_pwrite64, file, bytes, count, place); }

ssize_t pwrite64(int file, const void *bytes, size_t count, off_t place) { return pwrite(file, bytes, count, place); }

int fsync(int file) { return is_refused(SYNC) ? -1 : (int)syscall(SYS_fsync, file); }

int fdatasync(int file) { return is_refused(SYNC) ? -1 : (int)syscall(SYS_fdatasync, file); }
