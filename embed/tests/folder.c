/*
 * A site on a folder (`host/`): two openings, a fork, folders of another site or configuration, journals that are lost, empty, cut or long, processes that are killed
 * within a write, and writes, syncs and renames that fail in turn. Linked with its own pwrite, fdatasync, fsync, renameat and malloc, which fail when they are told.
 */
#define _GNU_SOURCE

#include <assert.h>
#include <errno.h>
#include <fcntl.h>
#include <signal.h>
#include <stdio.h>
#include <stdlib.h>
#include <string.h>
#include <sys/resource.h>
#include <sys/stat.h>
#include <sys/wait.h>
#include <unistd.h>

#include "host/polydb_host.h"
#include "polydb.h"

static const char CONFIG[] = "sites 1\nitem a 0 100\nitem b 0 50\n";
static const char GROWN[] = "sites 1\nitem a 0 100\nitem b 0 50\nitem c 0 0\n";
static const char SMALL[] = "sites 1\njournal 40\nitem a 0 100\n"; /* three starts have room */
static const char LARGER[] = "sites 1\njournal 4096\nitem a 0 100\n";
static const char TRANSFER[] = "a := a - 10 ; b := b + 10";

/* ---- calls that fail ---- */

typedef enum { NOTHING, PWRITE, FDATASYNC, FSYNC, RENAMEAT } call;
static call failing;
static int fails_in;   /* the call of this kind that fails, from 1 on; 0 for none */
static int fails_with; /* errno */
static bool dies;      /* it doesn't fail, but kills the process; a write is made in part before */
static unsigned syncs; /* of files, so far */

static bool is_hit(call which) {
    if (failing != which || fails_in == 0 || --fails_in > 0) {
        return false;
    }
    if (dies && which != PWRITE) {
        raise(SIGKILL);
    }
    errno = fails_with;
    return true;
}

ssize_t __real_pwrite(int file, const void *bytes, size_t length, off_t place);
ssize_t __wrap_pwrite(int file, const void *bytes, size_t length, off_t place);
ssize_t __wrap_pwrite(int file, const void *bytes, size_t length, off_t place) {
    if (!is_hit(PWRITE)) {
        return __real_pwrite(file, bytes, length, place);
    }
    ssize_t part = __real_pwrite(file, bytes, length / 2, place);
    if (dies) {
        raise(SIGKILL);
    }
    errno = fails_with;
    return part < 0 ? part : -1;
}

int __real_fdatasync(int file);
int __wrap_fdatasync(int file);
int __wrap_fdatasync(int file) {
    syncs++;
    return is_hit(FDATASYNC) ? -1 : __real_fdatasync(file);
}

int __real_fsync(int file);
int __wrap_fsync(int file);
int __wrap_fsync(int file) { return is_hit(FSYNC) ? -1 : __real_fsync(file); }

int __real_renameat(int from, const char *old, int to, const char *new);
int __wrap_renameat(int from, const char *old, int to, const char *new);
int __wrap_renameat(int from, const char *old, int to, const char *new) { return is_hit(RENAMEAT) ? -1 : __real_renameat(from, old, to, new); }

static void fail(call which, int nth, int with) {
    failing = which;
    fails_in = nth;
    fails_with = with;
}

/* ---- a folder, and a site on it ---- */

static char folder[64];
static int reports, commits;
static char last_report[128];
static uint64_t last_tag; /* of a number that was reported */
static bool dies_at_number;

static void on_report(void *context, const char *line, size_t length, uint64_t tag) {
    (void)context;
    assert(strlen(line) == length);
    reports++;
    commits += strncmp(line, "commit ", 7) == 0;
    snprintf(last_report, sizeof last_report, "%s", line);
    if (strncmp(line, "txn ", 4) == 0) {
        last_tag = tag;
        if (dies_at_number) {
            raise(SIGKILL);
        }
    } else {
        assert(tag == 0);
    }
}

static void on_message(void *context, uint8_t to, const uint8_t *bytes, size_t length) {
    (void)context, (void)bytes, (void)length;
    assert(to != 0 && "there is no other site");
}

static const char *path_of(const char *name) {
    static char path[128];
    snprintf(path, sizeof path, "%s/%s", folder, name);
    return path;
}

static void new_folder(void) {
    strcpy(folder, "/tmp/polydb-XXXXXX");
    assert(mkdtemp(folder) != NULL);
}

static void drop_folder(void) {
    static const char *const NAMES[] = {"site-0.pv", "site-0.id", "site-0.lock", "site-0.new", "site-0.id.new", "site-1.pv", "site-1.id", "site-1.lock"};
    for (size_t i = 0; i < sizeof NAMES / sizeof *NAMES; i++) {
        unlink(path_of(NAMES[i]));
    }
    assert(rmdir(folder) == 0);
}

static polydb_host_found found;
static polydb_host_error error;

static bool is_there; /* whether the site is said to be there */

static polydb_host_cause open_as(polydb_host **host, uint8_t site, const char *config, bool adopts) {
    polydb_host_setup setup = {.folder = folder,
                               .config = (const uint8_t *)config,
                               .config_length = strlen(config),
                               .site = site,
                               .is_there = is_there,
                               .adopts = adopts,
                               .message = on_message,
                               .report = on_report};
    polydb_host_cause cause = polydb_host_open(host, &setup, &found, &error);
    assert((cause == POLYDB_HOST_DONE) == (*host != NULL));
    assert(error.cause == cause);
    return cause;
}

static polydb_host *opened(void) {
    polydb_host *host;
    if (open_as(&host, 0, CONFIG, false) != POLYDB_HOST_DONE) {
        char words[160];
        fprintf(stderr, "%s\n", polydb_host_describe(&error, words, sizeof words));
        abort();
    }
    return host;
}

static void is_refused(polydb_host_cause wanted, uint8_t site, const char *config) {
    polydb_host *host;
    char words[160];
    assert(open_as(&host, site, config, false) == wanted);
    assert(strlen(polydb_host_describe(&error, words, sizeof words)) > 10);
}

static void settles(polydb_host *host) { assert(polydb_host_settle(host, &error) == POLYDB_HOST_DONE); }

/* A transfer, which commits. */
static void transfer(polydb_host *host) {
    int before = commits;
    assert(polydb_host_submit(host, (const uint8_t *)TRANSFER, sizeof TRANSFER - 1, false, &error) == POLYDB_HOST_DONE);
    settles(host);
    assert(commits == before + 1);
}

/* `item NAME ..` is what it shows of the item of this name. */
static void shows(polydb_host *host, const char *wanted) {
    const char *line, *name = wanted + strlen("item ");
    size_t length;
    settles(host);
    assert(polydb_host_read(host, (const uint8_t *)name, strcspn(name, " "), &line, &length, &error) == POLYDB_HOST_DONE);
    assert(strcmp(line, wanted) == 0 && length == strlen(wanted));
}

static ino_t inode_of(const char *name) {
    struct stat about;
    assert(stat(path_of(name), &about) == 0);
    return about.st_ino;
}

static void put(const char *name, const void *bytes, size_t length) {
    int file = open(path_of(name), O_RDWR | O_CREAT | O_TRUNC, 0600);
    assert(file >= 0 && write(file, bytes, length) == (ssize_t)length && close(file) == 0);
}

/* Lets time pass until an item shows one value; gives its line. */
static const char *certain(polydb_host *host, const char *name) {
    const char *line = NULL;
    size_t length;
    for (int ticks = 0; ticks < 20; ticks++) {
        settles(host);
        assert(polydb_host_read(host, (const uint8_t *)name, strlen(name), &line, &length, &error) == POLYDB_HOST_DONE);
        if (strstr(line, " if ") == NULL && strstr(line, " locked ") == NULL) {
            return line;
        }
        assert(polydb_host_tick(host, &error) == POLYDB_HOST_DONE);
    }
    abort();
}

/* Runs a part in a child, and gives whether it was killed. */
static bool was_killed(void (*part)(void)) {
    pid_t child = fork();
    assert(child >= 0);
    if (child == 0) {
        part();
        _exit(0);
    }
    int status;
    assert(waitpid(child, &status, 0) == child);
    assert(WIFSIGNALED(status) ? WTERMSIG(status) == SIGKILL : WEXITSTATUS(status) == 0);
    return WIFSIGNALED(status);
}

/* ---- the lock ---- */

static void child_is_refused(void) { is_refused(POLYDB_HOST_BUSY, 0, CONFIG); }

static polydb_host *shared;

static void child_calls(void) {
    const char *line;
    size_t length;
    assert(polydb_host_settle(shared, &error) == POLYDB_HOST_FORKED);
    assert(polydb_host_tick(shared, &error) == POLYDB_HOST_FORKED);
    assert(polydb_host_submit(shared, (const uint8_t *)TRANSFER, sizeof TRANSFER - 1, false, &error) == POLYDB_HOST_FORKED);
    assert(polydb_host_receive(shared, (const uint8_t *)"", 0, &error) == POLYDB_HOST_FORKED);
    assert(polydb_host_read(shared, (const uint8_t *)"a", 1, &line, &length, &error) == POLYDB_HOST_FORKED);
    polydb_host_close(shared); /* the parent keeps the lock */
}

static void one_at_a_time(void) {
    new_folder();
    polydb_host *host = opened();
    assert(found.is_new && !found.is_copied && found.records == 0 && found.length == 9);
    is_refused(POLYDB_HOST_BUSY, 0, CONFIG);
    assert(!was_killed(child_is_refused));
    close(open(path_of("site-0.lock"), O_RDONLY)); /* a lock of a process would be lost here */
    is_refused(POLYDB_HOST_BUSY, 0, CONFIG);
    assert(!was_killed(child_is_refused));
    shared = host;
    assert(!was_killed(child_calls));
    is_refused(POLYDB_HOST_BUSY, 0, CONFIG);
    transfer(host);
    polydb_host_close(host);
    host = opened();
    shows(host, "item a 90");
    assert(unlink(path_of("site-0.lock")) == 0); /* who removes the lock while the site is open gets two of them: a host owes not to */
    polydb_host_close(host);
    drop_folder();
}

/* A child that lives on has the descriptors: the parent lets go of the lock all the same. */
static void children_keep_no_lock(void) {
    new_folder();
    polydb_host *host = opened();
    int gate[2];
    assert(pipe(gate) == 0);
    pid_t child = fork();
    if (child == 0) {
        char byte;
        close(gate[1]);
        (void)!read(gate[0], &byte, 1);
        _exit(0);
    }
    polydb_host_close(host);
    polydb_host_close(opened());
    close(gate[0]);
    close(gate[1]);
    assert(waitpid(child, NULL, 0) == child);
    drop_folder();
}

/* ---- who the site is ---- */

static void names_are_compared(void) {
    new_folder();
    polydb_host *host = opened();
    settles(host);
    transfer(host);
    polydb_host_close(host);
    is_refused(POLYDB_HOST_OTHER_CONFIG, 0, "sites 1\n");
    is_refused(POLYDB_HOST_OTHER_CONFIG, 0, "sites 1\nitem a 0 100\nitem c 0 0\nitem b 0 50\n");
    assert(strstr(error.what, "line 3") != NULL);
    drop_folder();
}

/* A configuration with an item more is let in and takes the other's place, which isn't let in any more. */
static void configurations_grow(void) {
    new_folder();
    polydb_host *host = opened();
    settles(host);
    transfer(host);
    polydb_host_close(host);
    assert(open_as(&host, 0, GROWN, false) == POLYDB_HOST_DONE);
    settles(host);
    shows(host, "item a 90");
    shows(host, "item c 0");
    polydb_host_close(host);
    is_refused(POLYDB_HOST_OTHER_CONFIG, 0, CONFIG);
    assert(strstr(error.what, "line 4") != NULL);
    assert(open_as(&host, 0, GROWN, false) == POLYDB_HOST_DONE);
    polydb_host_close(host);
    drop_folder();
}

static call dying;
static int dies_in;

static void grows_until_it_dies(void) {
    polydb_host *host;
    dies = true;
    fail(dying, dies_in, 0);
    assert(open_as(&host, 0, GROWN, false) == POLYDB_HOST_DONE);
    settles(host);
    polydb_host_close(host);
}

static const call CALLS[] = {PWRITE, FDATASYNC, FSYNC, RENAMEAT};

/* Whatever call a process dies in that opens a site with a later configuration, the folder says the one before or the later one, and the later one is let in. */
static void deaths_leave_a_configuration(void) {
    for (size_t i = 0; i < sizeof CALLS / sizeof *CALLS; i++) {
        bool died = true;
        for (int nth = 1; died; nth++) {
            polydb_host *host;
            new_folder();
            host = opened();
            transfer(host);
            polydb_host_close(host);
            dying = CALLS[i];
            dies_in = nth;
            died = was_killed(grows_until_it_dies);
            if (open_as(&host, 0, CONFIG, false) == POLYDB_HOST_DONE) {
                assert(died);
                shows(host, "item a 90");
                polydb_host_close(host);
            } else {
                assert(error.cause == POLYDB_HOST_OTHER_CONFIG);
            }
            assert(open_as(&host, 0, GROWN, false) == POLYDB_HOST_DONE);
            shows(host, "item a 90");
            shows(host, "item c 0");
            polydb_host_close(host);
            drop_folder();
        }
    }
}

static void copy_file(const char *from, const char *to) {
    uint8_t bytes[4096];
    int file = open(path_of(from), O_RDONLY);
    ssize_t length = read(file, bytes, sizeof bytes);
    assert(length >= 0 && close(file) == 0);
    put(to, bytes, (size_t)length);
}

static void put_in_place(const char *from, const char *to) {
    int files = open(folder, O_RDONLY | O_DIRECTORY);
    assert(files >= 0 && renameat(files, from, files, to) == 0 && close(files) == 0);
}

/* A folder that was copied is refused, unless it is said that it may be, and one whose journal was set back to what it was before the last opening. */
static void copies_are_refused(void) {
    new_folder();
    polydb_host *host = opened();
    transfer(host);
    polydb_host_close(host);
    uint64_t first = found.length;
    copy_file("site-0.pv", "kept");
    host = opened();
    assert(found.length > first);
    transfer(host);
    polydb_host_close(host);
    host = opened();
    settles(host);
    polydb_host_close(host);
    copy_file("site-0.pv", "other");
    copy_file("kept", "site-0.pv");
    is_refused(POLYDB_HOST_LOST, 0, CONFIG);
    copy_file("other", "site-0.pv");
    polydb_host_close(opened());
    copy_file("site-0.lock", "other");
    put_in_place("other", "site-0.lock");
    is_refused(POLYDB_HOST_OTHER_STORE, 0, CONFIG);
    assert(open_as(&host, 0, CONFIG, true) == POLYDB_HOST_DONE);
    shows(host, "item a 80");
    polydb_host_close(host);
    polydb_host_close(opened());
    unlink(path_of("site-0.lock"));
    polydb_host_close(opened()); /* without it nothing shows */
    unlink(path_of("kept"));
    drop_folder();
}

static void sites_are_compared(void) {
    new_folder();
    polydb_host *host = opened();
    transfer(host);
    polydb_host_close(host);
    copy_file("site-0.id", "site-1.id");
    copy_file("site-0.pv", "site-1.pv");
    is_refused(POLYDB_HOST_OTHER_SITE, 1, CONFIG);
    put("site-0.id", "polydb site 1\nsite 0\nconfig 9\n", 30);
    is_refused(POLYDB_HOST_DAMAGED, 0, CONFIG);
    put("site-0.id", "nonsense", 8);
    is_refused(POLYDB_HOST_DAMAGED, 0, CONFIG);
    put("site-0.id", "", 0);
    is_refused(POLYDB_HOST_DAMAGED, 0, CONFIG);
    unlink(path_of("site-0.id"));
    is_refused(POLYDB_HOST_UNNAMED, 0, CONFIG);
    assert(open_as(&host, 0, CONFIG, true) == POLYDB_HOST_DONE);
    assert(!found.is_new && found.records > 1);
    settles(host);
    shows(host, "item a 90");
    polydb_host_close(host);
    polydb_host_close(opened());
    drop_folder();
}

/* ---- groups ---- */

/* All records that wait are written together, with two syncs: the promises of all requests, and then their outcomes. */
static void records_are_written_together(void) {
    enum { REQUESTS = 16 };
    char config[32 * (REQUESTS + 1)] = "sites 1\n", program[32];
    for (int i = 0; i < REQUESTS; i++) {
        sprintf(config + strlen(config), "item i%d 0 100\n", i);
    }
    new_folder();
    polydb_host *host;
    assert(open_as(&host, 0, config, false) == POLYDB_HOST_DONE);
    settles(host);
    int before = commits;
    unsigned synced = syncs;
    for (int i = 0; i < REQUESTS; i++) {
        int length = sprintf(program, "i%d := i%d - 1", i, i);
        assert(polydb_host_submit(host, (const uint8_t *)program, (size_t)length, false, &error) == POLYDB_HOST_DONE);
    }
    settles(host);
    assert(commits == before + REQUESTS && syncs == synced + 4);
    polydb_host_close(host);
    drop_folder();
}

/* ---- journals ---- */

static void empty_files_are_new(void) {
    new_folder();
    put("site-0.pv", "", 0);
    polydb_host *host = opened();
    assert(found.is_new);
    transfer(host);
    polydb_host_close(host);
    put("site-0.pv", "", 0);
    is_refused(POLYDB_HOST_LOST, 0, CONFIG);
    unlink(path_of("site-0.pv"));
    is_refused(POLYDB_HOST_LOST, 0, CONFIG);
    drop_folder();

    new_folder();
    put("site-0.pv", POLYDB_EMPTY_JOURNAL, sizeof POLYDB_EMPTY_JOURNAL);
    polydb_host_close(opened());
    assert(found.is_new);
    drop_folder();
}

/* A site that was there before, and whose files are gone, isn't taken for a new one. */
static void lost_sites_are_refused(void) {
    new_folder();
    is_there = true;
    is_refused(POLYDB_HOST_NOT_THERE, 0, CONFIG);
    put("site-0.pv", "", 0);
    is_refused(POLYDB_HOST_NOT_THERE, 0, CONFIG);
    put("site-0.pv", POLYDB_EMPTY_JOURNAL, sizeof POLYDB_EMPTY_JOURNAL);
    is_refused(POLYDB_HOST_NOT_THERE, 0, CONFIG);
    is_there = false;
    polydb_host_close(opened());
    is_there = true;
    polydb_host *host = opened();
    transfer(host);
    polydb_host_close(host);
    polydb_host_close(opened());
    assert(unlink(path_of("site-0.id")) == 0);
    is_refused(POLYDB_HOST_UNNAMED, 0, CONFIG);
    is_there = false;
    drop_folder();
}

static void no_journals_are_refused(void) {
    static const struct {
        const char *bytes;
        size_t length;
    } NONE[] = {{"P", 1}, {"PVJRNL0", 7}, {"PVJRNL01", 8}, {"QVJRNL01\0", 9}, {"PVJRNL01\1", 9}, {"PVJRNL01\1\0\0\0\0", 13}, {"PVJRNL01\1\xff\xff\xff\xff", 13}, {"PVJRNL01\1\0\0\0\5\1", 14}};
    for (size_t i = 0; i < sizeof NONE / sizeof *NONE; i++) {
        new_folder();
        put("site-0.pv", NONE[i].bytes, NONE[i].length);
        is_refused(POLYDB_HOST_ENGINE, 0, CONFIG);
        assert(error.status == POLYDB_NOT_OURS);
        assert(access(path_of("site-0.id"), F_OK) != 0); /* nothing else has come */
        drop_folder();
    }
    new_folder();
    is_refused(POLYDB_HOST_ENGINE, 0, "no configuration\n");
    assert(error.status == POLYDB_MALFORMED && access(path_of("site-0.pv"), F_OK) != 0);
    is_refused(POLYDB_HOST_ENGINE, 1, CONFIG);
    assert(error.status == POLYDB_NO_SITE);
    drop_folder();
    strcpy(folder, "/tmp/polydb-isn't-there");
    is_refused(POLYDB_HOST_SYSTEM, 0, CONFIG);
    assert(error.number == ENOENT);
}

/* A short journal in a long file takes no memory for what stands behind it. */
static void long_files_take_no_memory(void) {
    new_folder();
    polydb_host *host = opened();
    transfer(host);
    uint64_t length = polydb_host_length(host);
    polydb_host_close(host);
    assert(truncate(path_of("site-0.pv"), (off_t)400 << 20) == 0);
    struct rusage before, after;
    getrusage(RUSAGE_SELF, &before);
    host = opened();
    getrusage(RUSAGE_SELF, &after);
    assert(found.length == length);
    assert(after.ru_maxrss - before.ru_maxrss < 4096); /* KiB */
    shows(host, "item a 90");
    polydb_host_close(host);
    drop_folder();
}

/* Each start has its record. A journal that has no room for one more stays as it is. */
static void full_journals_stay(void) {
    new_folder();
    polydb_host *host;
    int starts = 0;
    while (open_as(&host, 0, SMALL, false) == POLYDB_HOST_DONE) {
        settles(host);
        polydb_host_close(host);
        starts++;
    }
    assert(starts == 3 && error.cause == POLYDB_HOST_ENGINE && error.status == POLYDB_FULL);
    ino_t file = inode_of("site-0.pv");
    is_refused(POLYDB_HOST_ENGINE, 0, SMALL);
    assert(error.status == POLYDB_FULL && inode_of("site-0.pv") == file);
    assert(open_as(&host, 0, LARGER, false) == POLYDB_HOST_DONE);
    shows(host, "item a 100");
    polydb_host_close(host);
    is_refused(POLYDB_HOST_OTHER_CONFIG, 0, SMALL);
    drop_folder();
}

/* ---- numbers of requests ---- */

static void tells(polydb_host *host, unsigned epoch, unsigned number, uint32_t wanted) {
    uint32_t outcome;
    assert(polydb_host_outcome(host, 0, epoch, number, &outcome, &error) == POLYDB_HOST_DONE && outcome == wanted);
}

static void tells_nothing(polydb_host *host, uint8_t coordinator, unsigned epoch, unsigned number, uint32_t status) {
    uint32_t outcome = UINT32_MAX;
    assert(polydb_host_outcome(host, coordinator, epoch, number, &outcome, &error) == POLYDB_HOST_ENGINE && error.status == status && outcome == 0);
}

static void tags_come_with_numbers(void) {
    new_folder();
    polydb_host *host = opened();
    tells_nothing(host, 0, 1, 0, POLYDB_UNWRITTEN);
    settles(host);
    tells_nothing(host, 0, 1, 0, POLYDB_NOTHING);
    tells_nothing(host, 1, 1, 0, POLYDB_NOT_HERE);
    assert(polydb_host_submit_tagged(host, (const uint8_t *)"nonsense", 8, false, 6, &error) == POLYDB_HOST_ENGINE && error.status == POLYDB_BAD_TEXT);
    assert(polydb_host_submit_tagged(host, (const uint8_t *)TRANSFER, sizeof TRANSFER - 1, false, UINT64_MAX, &error) == POLYDB_HOST_DONE);
    settles(host);
    assert(last_tag == UINT64_MAX && strncmp(last_report, "commit 0.1.0 ", 13) == 0);
    tells(host, 1, 0, POLYDB_COMMITTED);
    transfer(host);
    assert(last_tag == 0);
    polydb_host_close(host);
    host = opened();
    tells_nothing(host, 0, 1, 0, POLYDB_UNWRITTEN);
    settles(host);
    tells(host, 1, 1, POLYDB_COMMITTED);
    tells(host, 1, 2, POLYDB_NOT_COMMITTED); /* the epoch has passed, so no transaction has this number */
    polydb_host_close(host);
    drop_folder();
}

static void dies_with_its_number(void) {
    polydb_host *host = opened();
    settles(host);
    dies_at_number = true;
    transfer(host);
}

/* A program that has kept the number before it returns from `report`, and dies then, asks for it afterwards: the transaction hasn't committed, and never will. */
static void numbers_come_first(void) {
    new_folder();
    assert(was_killed(dies_with_its_number));
    polydb_host *host = opened();
    settles(host);
    tells(host, 1, 0, POLYDB_NOT_COMMITTED);
    shows(host, "item a 100");
    transfer(host);
    tells(host, 2, 0, POLYDB_COMMITTED);
    polydb_host_close(host);
    drop_folder();
}

/* ---- doubt ---- */

static void transfers_and_dies(void) {
    polydb_host *host = opened();
    settles(host);
    transfer(host);
    raise(SIGKILL);
}

static void doubt_makes_a_copy(void) {
    new_folder();
    polydb_host *host = opened();
    transfer(host);
    polydb_host_close(host);
    ino_t first = inode_of("site-0.pv");
    host = opened();
    assert(!found.is_copied && inode_of("site-0.pv") == first);
    polydb_host_close(host);

    assert(was_killed(transfers_and_dies));
    host = opened();
    ino_t second = inode_of("site-0.pv");
    assert(found.is_copied && second != first);
    settles(host);
    shows(host, "item a 80");
    fail(FDATASYNC, 1, EIO);
    assert(polydb_host_submit(host, (const uint8_t *)TRANSFER, sizeof TRANSFER - 1, false, &error) == POLYDB_HOST_DONE);
    assert(polydb_host_settle(host, &error) == POLYDB_HOST_SYSTEM && error.number == EIO);
    settles(host);
    shows(host, "item a 70");
    polydb_host_close(host); /* a sync has failed, so the next opening makes a copy */
    host = opened();
    assert(found.is_copied && inode_of("site-0.pv") != second);
    shows(host, "item a 70");
    polydb_host_close(host);
    drop_folder();
}

static void starts_and_dies(void) {
    polydb_host *host;
    assert(open_as(&host, 0, SMALL, false) == POLYDB_HOST_DONE);
    settles(host);
    raise(SIGKILL);
}

/* A sync that fails at an opening may be told once only, and what it was for is as good as lost. Where that opening is refused then, the next one makes the copy. */
static void refused_openings_keep_the_doubt(void) {
    static const call SYNCS[] = {FDATASYNC, FSYNC};
    for (size_t i = 0; i < sizeof SYNCS / sizeof *SYNCS; i++) {
        new_folder();
        for (int starts = 0; starts < 3; starts++) {
            assert(was_killed(starts_and_dies));
        }
        polydb_host *host;
        fail(SYNCS[i], 1, EIO);
        is_refused(POLYDB_HOST_ENGINE, 0, SMALL);
        assert(error.status == POLYDB_FULL && fails_in == 0);
        assert(open_as(&host, 0, LARGER, false) == POLYDB_HOST_DONE);
        assert(found.is_copied);
        polydb_host_close(host);
        assert(open_as(&host, 0, LARGER, false) == POLYDB_HOST_DONE);
        assert(!found.is_copied);
        polydb_host_close(host);

        assert(unlink(path_of("site-0.id")) == 0);
        fail(SYNCS[i], 1, EIO);
        is_refused(POLYDB_HOST_UNNAMED, 0, LARGER); /* after one that ended well, too */
        assert(fails_in == 0);
        assert(open_as(&host, 0, LARGER, true) == POLYDB_HOST_DONE);
        assert(found.is_copied);
        polydb_host_close(host);

        fail(SYNCS[i], 1, EIO);
        assert(open_as(&host, 0, LARGER, false) == POLYDB_HOST_DONE);
        assert(found.is_copied && fails_in == 0);
        polydb_host_close(host);
        assert(open_as(&host, 0, LARGER, false) == POLYDB_HOST_DONE);
        assert(!found.is_copied); /* the copy ended the doubt */
        shows(host, "item a 100");
        polydb_host_close(host);
        drop_folder();
    }
}

/* ---- each write, sync and rename failing in turn ---- */

static void failures_say_nothing_too_early(int with) {
    for (size_t i = 0; i < sizeof CALLS / sizeof *CALLS; i++) {
        for (int nth = 1;; nth++) {
            new_folder();
            commits = 0;
            fail(CALLS[i], nth, with);
            polydb_host *host;
            while (open_as(&host, 0, CONFIG, false) != POLYDB_HOST_DONE) {
                assert(error.cause == POLYDB_HOST_SYSTEM && error.number == with);
            }
            assert(polydb_host_submit(host, (const uint8_t *)TRANSFER, sizeof TRANSFER - 1, false, &error) == POLYDB_HOST_DONE);
            while (polydb_host_settle(host, &error) != POLYDB_HOST_DONE) {
                assert(error.cause == POLYDB_HOST_SYSTEM && error.number == with && commits == 0);
            }
            assert(commits == 1);
            bool was_hit = fails_in == 0;
            fail(NOTHING, 0, 0);
            polydb_host_close(host);
            host = opened();
            shows(host, "item a 90");
            polydb_host_close(host);
            drop_folder();
            if (!was_hit) {
                assert(nth > (CALLS[i] == PWRITE || CALLS[i] == FDATASYNC ? 5 : 2));
                break;
            }
        }
    }
}

static void lives_until_it_dies(void) {
    dies = true;
    fail(dying, dies_in, 0);
    polydb_host *host = opened();
    transfer(host);
    polydb_host_close(host);
}

static void deaths_leave_a_journal(void) {
    for (size_t i = 0; i < sizeof CALLS / sizeof *CALLS; i++) {
        bool died = true;
        for (int nth = 1; died; nth++) {
            new_folder();
            dying = CALLS[i];
            dies_in = nth;
            died = was_killed(lives_until_it_dies);
            commits = 0;
            polydb_host *host = opened();
            settles(host);
            transfer(host);
            int left = atoi(certain(host, "a") + 7);
            assert(left == (died ? left : 80) && (left == 90 || left == 80));
            assert(atoi(certain(host, "b") + 7) == 150 - left); /* a transfer is made whole or not at all */
            polydb_host_close(host);
            drop_folder();
        }
    }
}

int main(void) {
    one_at_a_time();
    children_keep_no_lock();
    names_are_compared();
    configurations_grow();
    deaths_leave_a_configuration();
    sites_are_compared();
    copies_are_refused();
    records_are_written_together();
    empty_files_are_new();
    lost_sites_are_refused();
    no_journals_are_refused();
    long_files_take_no_memory();
    full_journals_stay();
    tags_come_with_numbers();
    numbers_come_first();
    doubt_makes_a_copy();
    refused_openings_keep_the_doubt();
    failures_say_nothing_too_early(EIO);
    failures_say_nothing_too_early(ENOSPC);
    deaths_leave_a_journal();
    return 0;
}
