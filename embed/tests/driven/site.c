/*
 * A site with its journal in etcd that does what it is told, line by line, for `tests/etcd_sites.py`.
 *
 *     site URLS PREFIX SITE CONFIG PATIENCE
 *
 * First it says `open RECORDS LENGTH OWNER`. Then each line has an answer, which ends by `done`, or by `refused CAUSE STATUS WORDS`: `submit PROGRAM`, `query PROGRAM`,
 * `message HEXADECIMAL`, `tick`, `settle`, which says `message TO HEXADECIMAL` and `report LINE` before, and `read NAME`, which says `item ..` before.
 */
#define _GNU_SOURCE

#include <inttypes.h>
#include <stdio.h>
#include <stdlib.h>
#include <string.h>

#include "etcd/polydb_etcd.h"

static void on_message(void *context, uint8_t to, const uint8_t *bytes, size_t length) {
    (void)context;
    printf("message %u ", (unsigned)to);
    for (size_t i = 0; i < length; i++) {
        printf("%02x", bytes[i]);
    }
    puts("");
}

static void on_report(void *context, const char *line, size_t length, uint64_t tag) {
    (void)context, (void)tag;
    printf("report %.*s\n", (int)length, line);
}

static int answer(polydb_host_cause cause, const polydb_host_error *error) {
    char words[240];
    if (cause == POLYDB_HOST_DONE) {
        puts("done");
    } else {
        printf("refused %d %u %s\n", (int)cause, (unsigned)error->status, polydb_host_describe(error, words, sizeof words));
    }
    return cause == POLYDB_HOST_DONE ? 0 : 1;
}

/* Bytes in the place of their hexadecimal digits. */
static size_t unspell(char *digits) {
    size_t length = strlen(digits) / 2;
    for (size_t i = 0; i < length; i++) {
        char two[3] = {digits[2 * i], digits[2 * i + 1], '\0'};
        digits[i] = (char)strtoul(two, NULL, 16);
    }
    return length;
}

static void obey(polydb_host *host, char *line) {
    polydb_host_error error = {.cause = POLYDB_HOST_DONE};
    polydb_host_cause cause = POLYDB_HOST_DONE;
    char *rest = line + strcspn(line, " ");
    if (*rest != '\0') {
        *rest++ = '\0';
    }
    if (strcmp(line, "submit") == 0 || strcmp(line, "query") == 0) {
        cause = polydb_host_submit(host, (const uint8_t *)rest, strlen(rest), line[0] == 'q', &error);
    } else if (strcmp(line, "message") == 0) {
        size_t length = unspell(rest);
        cause = polydb_host_receive(host, (const uint8_t *)rest, length, &error);
    } else if (strcmp(line, "tick") == 0) {
        cause = polydb_host_tick(host, &error);
    } else if (strcmp(line, "settle") == 0) {
        cause = polydb_host_settle(host, &error);
    } else if (strcmp(line, "read") == 0) {
        const char *item;
        size_t length;
        cause = polydb_host_read(host, (const uint8_t *)rest, strlen(rest), &item, &length, &error);
        if (cause == POLYDB_HOST_DONE) {
            puts(item);
        }
    } else {
        abort();
    }
    answer(cause, &error);
}

int main(int count, char **words) {
    if (count != 6) {
        return 2;
    }
    setvbuf(stdout, NULL, _IOLBF, 0);
    polydb_etcd_setup etcd = {.urls = words[1], .prefix = words[2], .patience = (unsigned)atoi(words[5])};
    polydb_store *store;
    polydb_host *host;
    polydb_host_found found;
    polydb_host_error error;
    uint8_t site = (uint8_t)atoi(words[3]);
    if (polydb_etcd_open(&store, &etcd, site, &error) != POLYDB_HOST_DONE) {
        return answer(error.cause, &error);
    }
    polydb_host_setup setup = {
        .store = store, .config = (const uint8_t *)words[4], .config_length = strlen(words[4]), .site = site, .message = on_message, .report = on_report};
    if (polydb_host_open(&host, &setup, &found, &error) != POLYDB_HOST_DONE) {
        return answer(error.cause, &error);
    }
    printf("open %" PRIu64 " %" PRIu64 " %" PRIu64 "\n", found.records, found.length, found.owner);
    char *line = NULL;
    size_t room = 0;
    for (ssize_t length; (length = getline(&line, &room, stdin)) > 0;) {
        line[length - 1] = '\0';
        obey(host, line);
    }
    free(line);
    polydb_host_close(host);
    return 0;
}
