/*
 * What a site is given, lets out and shows, written down line by line beside it: linked into a `polydbd` for tests, by the linker's `--wrap`, before the calls of the host and of the library.
 *
 * POLYDB_TRACE names a folder, in which each process that has opened a site makes a file `site-S-N`: N is the number of its opening in etcd. Lines: `submit PROGRAM`, `query PROGRAM`,
 * `message HEXADECIMAL`, `tick`, in the order in which the site took them; `sent TO HEXADECIMAL` and `report LINE` before that is let out; `read LINE` before it is shown. `tests/traces.py` makes a
 * schedule of them. A line is in the file before anything rests on it, also where the process is killed at that moment.
 */
#define _GNU_SOURCE

#include <inttypes.h>
#include <stdio.h>
#include <stdlib.h>

#include "host/polydb_host.h"
#include "polydb.h"

#define REAL(call) __real_##call
#define WRAPPED(call) __wrap_##call

polydb_host_cause REAL(polydb_host_open)(polydb_host **, const polydb_host_setup *, polydb_host_found *, polydb_host_error *);
polydb_host_cause REAL(polydb_host_read)(polydb_host *, const uint8_t *, size_t, const char **, size_t *, polydb_host_error *);
uint32_t REAL(polydb_site_submit_tagged)(polydb_site *, const uint8_t *, size_t, bool, uint64_t, polydb_fault *);
uint32_t REAL(polydb_site_receive)(polydb_site *, const uint8_t *, size_t);
uint32_t REAL(polydb_site_tick)(polydb_site *);
polydb_host_cause WRAPPED(polydb_host_open)(polydb_host **, const polydb_host_setup *, polydb_host_found *, polydb_host_error *);
polydb_host_cause WRAPPED(polydb_host_read)(polydb_host *, const uint8_t *, size_t, const char **, size_t *, polydb_host_error *);
uint32_t WRAPPED(polydb_site_submit_tagged)(polydb_site *, const uint8_t *, size_t, bool, uint64_t, polydb_fault *);
uint32_t WRAPPED(polydb_site_receive)(polydb_site *, const uint8_t *, size_t);
uint32_t WRAPPED(polydb_site_tick)(polydb_site *);

static FILE *trace;
static polydb_host_setup setup_of_program;

static void put_text(const char *verb, const void *text, size_t length) {
    if (trace != NULL) {
        fprintf(trace, "%s %.*s\n", verb, (int)length, (const char *)text);
        fflush(trace);
    }
}

static void put_bytes(const char *verb, const uint8_t *bytes, size_t length) {
    if (trace != NULL) {
        fprintf(trace, "%s ", verb);
        for (size_t i = 0; i < length; i++) {
            fprintf(trace, "%02x", bytes[i]);
        }
        fputc('\n', trace);
        fflush(trace);
    }
}

static void on_message(void *context, uint8_t to, const uint8_t *bytes, size_t length) {
    char verb[16];
    snprintf(verb, sizeof verb, "sent %u", (unsigned)to);
    put_bytes(verb, bytes, length);
    setup_of_program.message(context, to, bytes, length);
}

static void on_report(void *context, const char *line, size_t length, uint64_t tag) {
    put_text("report", line, length);
    setup_of_program.report(context, line, length, tag);
}

polydb_host_cause WRAPPED(polydb_host_open)(polydb_host **host, const polydb_host_setup *setup, polydb_host_found *found, polydb_host_error *error) {
    const char *folder = getenv("POLYDB_TRACE");
    polydb_host_setup traced = setup_of_program = *setup;
    traced.message = on_message;
    traced.report = on_report;
    polydb_host_cause cause = REAL(polydb_host_open)(host, &traced, found, error);
    if (cause == POLYDB_HOST_DONE && folder != NULL) {
        char path[4096];
        snprintf(path, sizeof path, "%s/site-%u-%" PRIu64, folder, (unsigned)setup->site, found->owner);
        trace = fopen(path, "wx");
        if (trace == NULL) {
            perror(path);
            abort();
        }
    }
    return cause;
}

polydb_host_cause WRAPPED(polydb_host_read)(polydb_host *host, const uint8_t *name, size_t name_length, const char **line, size_t *length, polydb_host_error *error) {
    polydb_host_cause cause = REAL(polydb_host_read)(host, name, name_length, line, length, error);
    if (cause == POLYDB_HOST_DONE) {
        put_text("read", *line, *length);
    }
    return cause;
}

uint32_t WRAPPED(polydb_site_submit_tagged)(polydb_site *site, const uint8_t *program, size_t length, bool query, uint64_t tag, polydb_fault *fault) {
    uint32_t status = REAL(polydb_site_submit_tagged)(site, program, length, query, tag, fault);
    if (status == POLYDB_DONE) {
        put_text(query ? "query" : "submit", program, length);
    }
    return status;
}

uint32_t WRAPPED(polydb_site_receive)(polydb_site *site, const uint8_t *message, size_t length) {
    uint32_t status = REAL(polydb_site_receive)(site, message, length);
    if (status == POLYDB_DONE) {
        put_bytes("message", message, length);
    }
    return status;
}

uint32_t WRAPPED(polydb_site_tick)(polydb_site *site) {
    uint32_t status = REAL(polydb_site_tick)(site);
    if (status == POLYDB_DONE) {
        put_text("tick", "", 0);
    }
    return status;
}
