/*
 * A host in C: one site on a folder, by `host/polydb_host.h`. Ten go from `a` to `b`, the site is closed and opened again on its folder, and ten more go.
 *
 * It has one site, so no message leaves it. A host of one site of several sends what `on_message` is given to that site, and gives its own site what comes, by
 * polydb_host_receive: `node/` does, over ZeroMQ. What is hard about files stands in `host/`: a lock, syncs that fail, copies where there is doubt.
 */
#define _GNU_SOURCE

#include <errno.h>
#include <fcntl.h>
#include <stdio.h>
#include <stdlib.h>
#include <string.h>
#include <unistd.h>

#include "host/polydb_host.h"

static const char CONFIG[] = "sites 1\nitem a 0 100\nitem b 0 50\n";
static const char TRANSFER[] = "a := a - 10 ; b := b + 10";

static bool failed(const char *what) {
    fprintf(stderr, "host: %s: %s\n", what, strerror(errno));
    return false;
}

static bool refused(const polydb_host_error *error) {
    char words[160];
    fprintf(stderr, "host: %s\n", polydb_host_describe(error, words, sizeof words));
    return false;
}

static bool begins(const char *line, const char *front) { return strncmp(line, front, strlen(front)) == 0; }

/* The context is whether the request has its answer. */
static void on_report(void *context, const char *line, size_t length, uint64_t tag) {
    bool *has_ended = context;
    (void)tag; /* its requests have none */
    *has_ended |= begins(line, "commit ") || begins(line, "refuse ") || begins(line, "spent ");
    printf("%.*s\n", (int)length, line); /* `main` looks whether it got out */
}

static void on_message(void *context, uint8_t to, const uint8_t *bytes, size_t length) {
    (void)context, (void)to, (void)bytes, (void)length; /* there is no other site */
}

/* A request, and time, until it has its answer. A real host ticks by the clock, and does something else meanwhile. */
static bool request(polydb_host *host, const char *program, const bool *has_ended) {
    polydb_host_error error;
    if (polydb_host_submit(host, (const uint8_t *)program, strlen(program), false, &error) != POLYDB_HOST_DONE) {
        return refused(&error);
    }
    for (int ticks = 0; ticks < 10; ticks++) {
        if (polydb_host_settle(host, &error) != POLYDB_HOST_DONE) {
            refused(&error); /* what has failed comes again the next time */
        }
        if (*has_ended) {
            return true;
        }
        if (polydb_host_tick(host, &error) != POLYDB_HOST_DONE) {
            refused(&error); /* no memory: again later */
        }
    }
    fprintf(stderr, "host: no answer\n");
    return false;
}

static bool print_item(polydb_host *host, const char *name) {
    polydb_host_error error;
    const char *line;
    size_t length;
    if (polydb_host_read(host, (const uint8_t *)name, strlen(name), &line, &length, &error) != POLYDB_HOST_DONE) {
        return refused(&error);
    }
    printf("%.*s\n", (int)length, line);
    return true;
}

/* A life of the site: it is opened on its folder, a transfer is made, and it is closed. */
static bool live(const char *folder) {
    bool has_ended = false;
    polydb_host_setup setup = {.folder = folder,
                               .config = (const uint8_t *)CONFIG,
                               .config_length = sizeof CONFIG - 1,
                               .site = 0,
                               .context = &has_ended,
                               .message = on_message,
                               .report = on_report};
    polydb_host *host;
    polydb_host_found found;
    polydb_host_error error;
    if (polydb_host_open(&host, &setup, &found, &error) != POLYDB_HOST_DONE) {
        return refused(&error);
    }
    bool done = request(host, TRANSFER, &has_ended) && print_item(host, "a") && print_item(host, "b");
    polydb_host_close(host);
    return done;
}

/* Removes the files of a folder, which this program has made, and the folder. */
static void remove_folder(const char *path) {
    static const char *const NAMES[] = {"site-0.pv", "site-0.id", "site-0.lock"};
    int folder = open(path, O_RDONLY | O_DIRECTORY | O_CLOEXEC);
    for (size_t i = 0; i < sizeof NAMES / sizeof *NAMES; i++) {
        unlinkat(folder, NAMES[i], 0);
    }
    close(folder);
    rmdir(path);
}

int main(void) {
    char path[] = "/tmp/polydb-XXXXXX";
    if (mkdtemp(path) == NULL) {
        failed(path);
        return 1;
    }
    bool done = live(path);
    if (done) {
        puts("the site is opened again on its folder");
        done = live(path);
    }
    remove_folder(path);
    if (fflush(stdout) != 0 || ferror(stdout)) {
        done = failed("standard output");
    }
    return done ? 0 : 1;
}
