/*
 * Nodes in a C program with a loop of its own: two sites in one process, which talk over ZeroMQ as they would between machines, and a poll that waits for both. Ten go from `a` at the
 * one to `b` at the other.
 */
#define _GNU_SOURCE

#include <errno.h>
#include <inttypes.h>
#include <poll.h>
#include <stdio.h>
#include <stdlib.h>
#include <string.h>
#include <unistd.h>

#include "node/polydb_node.h"

enum { SITES = 2, TAG = 7, PATIENCE = 60000 };
static const char CONFIG[] = "sites 2\nitem a 0 100\nitem b 1 50\n";
static const char TRANSFER[] = "a := a - 10 ; b := b + 10";

/* What has become of the request. */
typedef struct {
    bool has_ended, has_committed;
} request;

static bool refused(const polydb_host_error *error) {
    char words[160];
    fprintf(stderr, "node: %s\n", polydb_node_describe(error, words, sizeof words));
    return false;
}

static void on_answer(void *context, uint64_t tag, const char *line, size_t length) {
    request *one = context;
    (void)length;
    if (strncmp(line, "txn ", 4) != 0) {
        one->has_ended = true;
        one->has_committed = strncmp(line, "commit ", 7) == 0;
        printf("request %" PRIu64 ": %s\n", tag, one->has_committed ? "committed" : line);
    }
}

static void on_notice(void *context, const char *words) { (void)context, (void)words; }

/* Makes keys, and the file of peers. */
static bool make_peers(const char *folder) {
    char path[128], key[POLYDB_NODE_KEY_ROOM];
    polydb_host_error error;
    snprintf(path, sizeof path, "%s/peers", folder);
    FILE *peers = fopen(path, "w");
    for (int site = 0; peers != NULL && site < SITES; site++) {
        snprintf(path, sizeof path, "%s/key-%d", folder, site);
        if (polydb_node_new_key(path, key, &error) != POLYDB_HOST_DONE) {
            fclose(peers);
            return refused(&error);
        }
        fprintf(peers, "%d ipc://%s/socket-%d %s\n", site, folder, site, key);
    }
    return peers != NULL && fclose(peers) == 0;
}

static bool open_node(polydb_node **node, const char *folder, int site, request *context) {
    char peers[128], key[128];
    snprintf(peers, sizeof peers, "%s/peers", folder);
    snprintf(key, sizeof key, "%s/key-%d", folder, site);
    polydb_node_setup setup = {.folder = folder,
                               .config = (const uint8_t *)CONFIG,
                               .config_length = sizeof CONFIG - 1,
                               .site = (uint8_t)site,
                               .peers = peers,
                               .key = key,
                               .tick = 1000,
                               .context = context,
                               .answer = on_answer,
                               .notice = on_notice};
    polydb_host_found found;
    polydb_host_error error;
    return polydb_node_open(node, &setup, &found, &error) == POLYDB_HOST_DONE || refused(&error);
}

/* One round of the program's loop: waits until one of the nodes has something to do. A real program waits here for its own descriptors too. */
static bool wait_and_work(polydb_node *const nodes[SITES]) {
    struct pollfd waits[SITES];
    polydb_host_error error;
    for (int site = 0; site < SITES; site++) {
        waits[site] = (struct pollfd){.fd = polydb_node_descriptor(nodes[site]), .events = POLLIN};
    }
    if (poll(waits, SITES, PATIENCE) <= 0 && errno != EINTR) {
        return false;
    }
    for (int site = 0; site < SITES; site++) {
        if (waits[site].revents != 0 && polydb_node_work(nodes[site], &error) != POLYDB_HOST_DONE) {
            return refused(&error);
        }
    }
    return true;
}

/* Asks until it commits: a transaction that is refused never does, so it may be asked for anew. */
static bool transfer(polydb_node *const nodes[SITES], request *one) {
    polydb_host_error error;
    while (!one->has_committed) {
        one->has_ended = false;
        if (polydb_node_submit(nodes[0], TAG, (const uint8_t *)TRANSFER, sizeof TRANSFER - 1, false, &error) != POLYDB_HOST_DONE) {
            return refused(&error);
        }
        while (!one->has_ended) {
            if (!wait_and_work(nodes)) {
                return false;
            }
        }
    }
    return true;
}

/* Prints an item once it has one value: the other site hears of the commit a moment later. */
static bool print_item(polydb_node *const nodes[SITES], int site, const char *name) {
    const char *line;
    size_t length;
    polydb_host_error error;
    for (;;) {
        if (polydb_node_read(nodes[site], (const uint8_t *)name, strlen(name), &line, &length, &error) != POLYDB_HOST_DONE) {
            return refused(&error);
        }
        if (strstr(line, " locked ") == NULL && strstr(line, " if ") == NULL) {
            puts(line);
            return true;
        }
        if (!wait_and_work(nodes)) {
            return false;
        }
    }
}

/* Removes what this program has made. */
static void remove_folder(const char *folder) {
    static const char *const NAMES[] = {"peers",     "key-0",     "key-1",     "site-0.pv",   "site-1.pv",  "site-0.id",
                                        "site-1.id", "socket-0",  "socket-1",  "site-0.lock", "site-1.lock"};
    char path[128];
    for (size_t i = 0; i < sizeof NAMES / sizeof *NAMES; i++) {
        snprintf(path, sizeof path, "%s/%s", folder, NAMES[i]);
        unlink(path);
    }
    rmdir(folder);
}

int main(void) {
    char folder[] = "/tmp/polydb-XXXXXX";
    polydb_node *nodes[SITES] = {NULL, NULL};
    request one = {.has_ended = false};
    if (mkdtemp(folder) == NULL) {
        perror(folder);
        return 1;
    }
    bool done = make_peers(folder) && open_node(&nodes[0], folder, 0, &one) && open_node(&nodes[1], folder, 1, &one) && transfer(nodes, &one) && print_item(nodes, 0, "a") &&
                print_item(nodes, 1, "b");
    for (int site = 0; site < SITES; site++) {
        polydb_node_close(nodes[site]);
    }
    remove_folder(folder);
    return done && fflush(stdout) == 0 ? 0 : 1;
}
