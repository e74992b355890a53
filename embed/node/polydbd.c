/*
 * polydbd: a site of polydb as a program of its own. It talks with the other sites over ZeroMQ, and takes requests as lines on a local socket.
 *
 * A client writes lines, and gets lines, or after the line `json` an object for each:
 *
 *     submit TAG PROGRAM     txn TAG T, and then commit TAG T .. or refuse TAG T ..
 *     query TAG PROGRAM      the same
 *     read TAG NAME          item TAG NAME ..
 *     outcome TAG T          outcome TAG T committed, .. not-committed, .. at-work, or .. none
 *     info TAG               info TAG ..
 *     json, text             nothing: how answers look from now on
 *
 * TAG is a number below 4,294,967,296 that the client chooses, and by which it knows the answer. What is refused before it begins has the answer error TAG WORDS.
 * The line `txn TAG T` is sent, as far as the client's socket takes it, before anything goes out on which the commit of T depends.
 */
#define _GNU_SOURCE

#include <errno.h>
#include <fcntl.h>
#include <getopt.h>
#include <inttypes.h>
#include <poll.h>
#include <signal.h>
#include <stdarg.h>
#include <stdio.h>
#include <stdlib.h>
#include <string.h>
#include <sys/signalfd.h>
#include <sys/socket.h>
#include <sys/stat.h>
#include <sys/un.h>
#include <unistd.h>

#include "polydb.h"
#include "polydb_node.h"
#include "text.h"
#ifndef POLYDB_WITHOUT_ETCD
#include "etcd/polydb_etcd.h"
#endif

enum { CLIENTS = 256, LINE = 2048, MOST_WAITING = 4 << 20, NO_FILE = -1 };

/* Exit statuses. */
enum { ENDED = 0, WRONG_USE = 2, NOT_OPENED = 3, SPENT = 4, REPLACED = 5 };

typedef struct {
    int file;        /* NO_FILE: nobody is here */
    uint32_t serial; /* no other client has had it */
    bool is_json;
    text in, out;
} client;

typedef struct {
    polydb_node *node;
    unsigned site;
    int listener, signals;
    uint32_t serials;
    client clients[CLIENTS];
} server;

static void say(unsigned site, const char *words, ...) __attribute__((format(printf, 2, 3)));
static void say(unsigned site, const char *words, ...) {
    va_list parts;
    fprintf(stderr, "polydbd: site %u: ", site);
    va_start(parts, words);
    vfprintf(stderr, words, parts);
    va_end(parts);
    fputc('\n', stderr);
}

/* ---- clients ---- */

static void drop(client *one) {
    if (one->file != NO_FILE) {
        close(one->file);
    }
    text_free(&one->in);
    text_free(&one->out);
    one->file = NO_FILE;
}

/* Sends what waits, as much as goes now; whether the client is still there. */
static bool send_waiting(client *one) {
    while (one->out.length > 0) {
        ssize_t count = send(one->file, one->out.bytes, one->out.length, MSG_DONTWAIT | MSG_NOSIGNAL);
        if (count < 0 && errno == EINTR) {
            continue;
        }
        if (count < 0) {
            return errno == EAGAIN || errno == EWOULDBLOCK;
        }
        text_drop(&one->out, (size_t)count);
    }
    return true;
}

/* The same, and drops who is gone or doesn't read. */
static void flush(client *one) {
    if (!send_waiting(one) || one->out.length > MOST_WAITING || one->out.has_failed) {
        drop(one);
    }
}

static void answer_client(client *one, uint64_t tag, const char *line) { text_answer(&one->out, one->is_json, tag, line); }

/* A tag of the node is the client's serial number and the client's own tag. */
static void on_answer(void *context, uint64_t tag, const char *line, size_t length) {
    server *all = context;
    (void)length;
    for (int i = 0; i < CLIENTS; i++) {
        client *one = &all->clients[i];
        if (one->file != NO_FILE && one->serial == tag >> 32) {
            answer_client(one, tag & UINT32_MAX, line);
            if (strncmp(line, "txn ", 4) == 0) {
                (void)send_waiting(one); /* so that no transaction commits whose number this process has to itself; who is gone is dropped later */
            }
            return;
        }
    }
}

static void on_notice(void *context, const char *words) { say(((server *)context)->site, "%s", words); }

/* ---- requests ---- */

static void refuse_client(client *one, uint64_t tag, const polydb_host_error *error) {
    char words[200], line[208];
    snprintf(line, sizeof line, "error %s", polydb_node_describe(error, words, sizeof words));
    answer_client(one, tag, line);
}

static void read_item(server *all, client *one, uint64_t tag, const char *name) {
    polydb_host_error error;
    const char *line;
    size_t length;
    if (polydb_node_read(all->node, (const uint8_t *)name, strlen(name), &line, &length, &error) == POLYDB_HOST_DONE) {
        answer_client(one, tag, line);
    } else {
        refuse_client(one, tag, &error);
    }
}

static void tell_outcome(server *all, client *one, uint64_t tag, const char *transaction) {
    static const char *const WORDS[] = {"none", [POLYDB_COMMITTED] = "committed", [POLYDB_NOT_COMMITTED] = "not-committed", [POLYDB_AT_WORK] = "at-work"};
    uint64_t parts[3];
    uint32_t outcome;
    int end = 0;
    char line[64];
    polydb_host_error error;
    bool is_one = sscanf(transaction, "%2" SCNu64 ".%10" SCNu64 ".%10" SCNu64 "%n", &parts[0], &parts[1], &parts[2], &end) == 3 && transaction[end] == '\0' && parts[0] < 16 &&
                  parts[1] <= UINT32_MAX && parts[2] <= UINT32_MAX;
    if (!is_one) {
        answer_client(one, tag, "error a transaction is three numbers: 0.1.0");
        return;
    }
    polydb_host_cause cause = polydb_node_outcome(all->node, (uint8_t)parts[0], (uint32_t)parts[1], (uint32_t)parts[2], &outcome, &error);
    if (cause != POLYDB_HOST_DONE && !(cause == POLYDB_HOST_ENGINE && error.status == POLYDB_NOTHING)) {
        refuse_client(one, tag, &error);
        return;
    }
    snprintf(line, sizeof line, "outcome %" PRIu64 ".%" PRIu64 ".%" PRIu64 " %s", parts[0], parts[1], parts[2], WORDS[outcome]);
    answer_client(one, tag, line);
}

static void tell_info(server *all, client *one, uint64_t tag) {
    polydb_node_counts counts = polydb_node_count(all->node);
    text words = {.bytes = NULL};
    text_print(&words, "info site %u journal %" PRIu64 " open %" PRIu64 " sent %" PRIu64 " taken %" PRIu64 " lost %" PRIu64 " refused %" PRIu64 " hears", all->site,
               counts.journal, counts.open, counts.sent, counts.taken, counts.lost, counts.refused);
    for (uint8_t site = 0; site < 16; site++) {
        if (polydb_node_hears(all->node, site)) {
            text_print(&words, " %u", (unsigned)site);
        }
    }
    answer_client(one, tag, words.has_failed ? "error no memory" : words.bytes);
    text_free(&words);
}

static void begin(server *all, client *one, uint32_t tag, const char *program, bool is_query) {
    polydb_host_error error;
    uint64_t of_node = (uint64_t)one->serial << 32 | tag;
    if (polydb_node_submit(all->node, of_node, (const uint8_t *)program, strlen(program), is_query, &error) != POLYDB_HOST_DONE) {
        refuse_client(one, tag, &error);
    }
}

static void obey(server *all, client *one, const char *line) {
    char verb[8];
    uint32_t tag = 0;
    int length = 0, verb_length = 0;
    if (strcmp(line, "json") == 0 || strcmp(line, "text") == 0) {
        one->is_json = line[0] == 'j';
        return;
    }
    bool is_tagged = sscanf(line, "%7[a-z]%n %" SCNu32 "%n", verb, &verb_length, &tag, &length) == 2 && line[verb_length] == ' ' && line[verb_length + 1] >= '0' &&
                     line[verb_length + 1] <= '9' && (line[length] == ' ' || line[length] == '\0');
    if (!is_tagged) {
        answer_client(one, 0, "error a line is: submit TAG PROGRAM, query TAG PROGRAM, read TAG NAME, outcome TAG TRANSACTION, info TAG, json, text");
        return;
    }
    const char *rest = line + length + strspn(line + length, " ");
    if (strcmp(verb, "submit") == 0 || strcmp(verb, "query") == 0) {
        begin(all, one, tag, rest, verb[0] == 'q');
    } else if (strcmp(verb, "read") == 0) {
        read_item(all, one, tag, rest);
    } else if (strcmp(verb, "outcome") == 0) {
        tell_outcome(all, one, tag, rest);
    } else if (strcmp(verb, "info") == 0) {
        tell_info(all, one, tag);
    } else {
        answer_client(one, tag, "error no such request");
    }
}

/* Obeys the whole lines that have come. A line with a zero within is cut there. */
static void obey_lines(server *all, client *one) {
    size_t done = 0;
    char *end;
    while (one->file != NO_FILE && (end = memchr(one->in.bytes + done, '\n', one->in.length - done)) != NULL) {
        char *line = one->in.bytes + done;
        *end = '\0';
        if (end > line && end[-1] == '\r') {
            end[-1] = '\0';
        }
        done = (size_t)(end - one->in.bytes) + 1;
        if (*line != '\0') {
            obey(all, one, line);
        }
    }
    text_drop(&one->in, done);
    if (one->in.length > LINE) {
        answer_client(one, 0, "error a line is too long");
        flush(one);
        drop(one);
    }
}

static void hear_client(server *all, client *one) {
    char bytes[16384];
    ssize_t count = recv(one->file, bytes, sizeof bytes, MSG_DONTWAIT);
    if (count < 0 && (errno == EAGAIN || errno == EWOULDBLOCK || errno == EINTR)) {
        return;
    }
    if (count <= 0) {
        drop(one);
        return;
    }
    text_add(&one->in, bytes, (size_t)count);
    if (one->in.has_failed) {
        drop(one);
    } else {
        obey_lines(all, one);
    }
}

static void accept_client(server *all) {
    int file = accept4(all->listener, NULL, NULL, SOCK_CLOEXEC | SOCK_NONBLOCK);
    if (file < 0) {
        return; /* gone again, or too many files: the next round */
    }
    for (int i = 0; i < CLIENTS; i++) {
        if (all->clients[i].file == NO_FILE) {
            all->clients[i] = (client){.file = file, .serial = ++all->serials};
            return;
        }
    }
    close(file);
}

/* ---- the loop ---- */

enum { NODE, LISTENER, SIGNALS, FIRST_CLIENT };

static void fill(const server *all, struct pollfd *waits) {
    waits[NODE] = (struct pollfd){.fd = polydb_node_descriptor(all->node), .events = POLLIN};
    waits[LISTENER] = (struct pollfd){.fd = all->listener, .events = POLLIN};
    waits[SIGNALS] = (struct pollfd){.fd = all->signals, .events = POLLIN};
    for (int i = 0; i < CLIENTS; i++) {
        const client *one = &all->clients[i];
        waits[FIRST_CLIENT + i] = (struct pollfd){.fd = one->file, .events = (short)(POLLIN | (one->out.length > 0 ? POLLOUT : 0))};
    }
}

/* Until a signal comes, or the site has no number left. */
static int serve(server *all) {
    struct pollfd waits[FIRST_CLIENT + CLIENTS];
    polydb_host_error error;
    for (;;) {
        fill(all, waits);
        if (poll(waits, FIRST_CLIENT + CLIENTS, -1) < 0 && errno != EINTR) {
            say(all->site, "poll: %s", strerror(errno));
            return NOT_OPENED;
        }
        if (waits[SIGNALS].revents != 0) {
            say(all->site, "stops");
            return ENDED;
        }
        for (int i = 0; i < CLIENTS; i++) {
            if (waits[FIRST_CLIENT + i].fd != NO_FILE && (waits[FIRST_CLIENT + i].revents & (POLLIN | POLLHUP | POLLERR)) != 0) {
                hear_client(all, &all->clients[i]);
                flush(&all->clients[i]); /* what a question to a store has answered doesn't wait for the next one */
            }
        }
        polydb_host_cause cause = polydb_node_work(all->node, &error);
        if (cause != POLYDB_HOST_DONE) {
            char words[200];
            say(all->site, "%s", polydb_node_describe(&error, words, sizeof words));
            return cause == POLYDB_HOST_REPLACED ? REPLACED : SPENT;
        }
        for (int i = 0; i < CLIENTS; i++) {
            if (all->clients[i].file != NO_FILE) {
                flush(&all->clients[i]);
            }
        }
        if (waits[LISTENER].revents != 0) {
            accept_client(all);
        }
    }
}

/* ---- starting ---- */

/* Removes a socket that a process has left, which is no more; and nothing else that has this name. */
static bool make_way(const struct sockaddr_un *address) {
    struct stat about;
    if (lstat(address->sun_path, &about) != 0) {
        return errno == ENOENT;
    }
    int file = socket(AF_UNIX, SOCK_STREAM | SOCK_CLOEXEC, 0);
    bool is_used = !S_ISSOCK(about.st_mode) || file < 0 || connect(file, (const struct sockaddr *)address, sizeof *address) == 0;
    if (file >= 0) {
        close(file);
    }
    if (is_used) {
        errno = EADDRINUSE;
        return false;
    }
    return unlink(address->sun_path) == 0;
}

/* Listens for clients. */
static int listen_for_clients(const char *path) {
    struct sockaddr_un address = {.sun_family = AF_UNIX};
    if (strlen(path) >= sizeof address.sun_path) {
        errno = ENAMETOOLONG;
        return NO_FILE;
    }
    strcpy(address.sun_path, path);
    int file = make_way(&address) ? socket(AF_UNIX, SOCK_STREAM | SOCK_CLOEXEC | SOCK_NONBLOCK, 0) : NO_FILE;
    if (file < 0) {
        return NO_FILE;
    }
    mode_t mask = umask(0177); /* the owner alone */
    bool is_bound = bind(file, (struct sockaddr *)&address, sizeof address) == 0 && listen(file, 64) == 0;
    umask(mask);
    if (!is_bound) {
        int number = errno;
        close(file);
        errno = number;
        return NO_FILE;
    }
    return file;
}

static int catch_signals(void) {
    sigset_t set;
    sigemptyset(&set);
    sigaddset(&set, SIGTERM);
    sigaddset(&set, SIGINT);
    signal(SIGPIPE, SIG_IGN); /* an older libcurl may cause it by https:// */
    if (sigprocmask(SIG_BLOCK, &set, NULL) != 0) {
        return NO_FILE;
    }
    return signalfd(NO_FILE, &set, SFD_CLOEXEC | SFD_NONBLOCK);
}

static bool read_file(const char *path, text *out) {
    FILE *file = fopen(path, "re");
    if (file == NULL) {
        return false;
    }
    char bytes[65536];
    size_t count;
    while ((count = fread(bytes, 1, sizeof bytes, file)) > 0) {
        text_add(out, bytes, count);
    }
    bool is_read = !ferror(file) && !out->has_failed;
    fclose(file);
    return is_read;
}

static void say_what_was_found(const server *all, const polydb_host_found *found, const char *place) {
    if (found->records == 0) {
        say(all->site, "new, on %s", place);
    } else {
        say(all->site, "on %s, whose journal has %" PRIu64 " records, %" PRIu64 " bytes", place, found->records, found->length);
    }
    if (found->owner != 0) {
        say(all->site, "taken by opening %" PRIu64, found->owner);
    } else if (found->records > 0) {
        say(all->site, found->is_copied ? "the process before didn't end well, so the journal was written anew" : "the process before ended well");
    }
}

typedef struct {
    const char *site, *config, *peers, *key, *data, *socket, *listen, *tick, *new_key;
    const char *etcd, *etcd_prefix, *etcd_limit, *etcd_authority, *etcd_certificate, *etcd_key;
    bool adopts, is_new;
} options;

static const char USAGE[] = "usage: polydbd --new --site NUMBER --config FILE --data FOLDER [--key FILE] [ETCD]\n"
                            "       polydbd --site NUMBER --config FILE --peers FILE --data FOLDER [ETCD]\n"
                            "               [--key FILE] [--socket PATH] [--listen ADDRESS] [--tick MILLISECONDS] [--adopt]\n"
                            "               with a journal in etcd, ETCD is --etcd URL,URL,URL [--etcd-prefix WORDS] [--etcd-limit BYTES]\n"
                            "               [--etcd-authority FILE] [--etcd-certificate FILE --etcd-key FILE]\n"
                            "       polydbd --new-key FILE\n"
                            "       polydbd --version\n";

static int make_key(const char *path) {
    char key[POLYDB_NODE_KEY_ROOM], words[200];
    polydb_host_error error;
    if (polydb_node_new_key(path, key, &error) != POLYDB_HOST_DONE) {
        fprintf(stderr, "polydbd: %s\n", polydb_node_describe(&error, words, sizeof words));
        return NOT_OPENED;
    }
    puts(key);
    return fflush(stdout) == 0 ? ENDED : NOT_OPENED;
}

/* ---- a journal in etcd ---- */

#ifdef POLYDB_WITHOUT_ETCD
static bool open_store(unsigned site, const options *with, polydb_store **store) {
    *store = NULL;
    if (with->etcd != NULL) {
        say(site, "--etcd: this polydbd was built without libcurl");
    }
    return with->etcd == NULL;
}
#else
/* Makes the store that was asked for; null for the folder. */
static bool open_store(unsigned site, const options *with, polydb_store **store) {
    polydb_etcd_setup setup = {.urls = with->etcd,
                               .prefix = with->etcd_prefix,
                               .authority = with->etcd_authority,
                               .certificate = with->etcd_certificate,
                               .key = with->etcd_key};
    char *end, words[200];
    polydb_host_error error;
    *store = NULL;
    if (with->etcd == NULL) {
        return true;
    }
    if (with->etcd_limit != NULL) {
        setup.limit = strtoull(with->etcd_limit, &end, 10);
    }
    if (with->etcd_limit != NULL && (with->etcd_limit[0] < '0' || with->etcd_limit[0] > '9' || *end != '\0')) {
        say(site, "--etcd-limit: %s is no number", with->etcd_limit);
        return false;
    }
    if (polydb_etcd_open(store, &setup, (uint8_t)site, &error) != POLYDB_HOST_DONE) {
        say(site, "%s", polydb_host_describe(&error, words, sizeof words));
        return false;
    }
    return true;
}
#endif

/* ---- making a site ---- */

/* Nothing is let out while a site is made. */
static void no_message(void *context, uint8_t to, const uint8_t *bytes, size_t length) { (void)context, (void)to, (void)bytes, (void)length; }
static void no_report(void *context, const char *line, size_t length, uint64_t tag) { (void)context, (void)line, (void)length, (void)tag; }

/* Makes the files of a site that isn't there yet, and prints its public key: of a new pair, where it has no key yet. */
static int make_site(unsigned site, const options *with, const text *config, const char *key_path) {
    char words[200], key[POLYDB_NODE_KEY_ROOM];
    polydb_host *host;
    polydb_host_found found;
    polydb_host_error error;
    if (mkdir(with->data, 0700) != 0 && errno != EEXIST) {
        say(site, "%s: %s", with->data, strerror(errno));
        return NOT_OPENED;
    }
    polydb_host_setup setup = {.folder = with->data,
                               .config = (const uint8_t *)(config->bytes == NULL ? "" : config->bytes),
                               .config_length = config->length,
                               .site = (uint8_t)site,
                               .is_new = true,
                               .message = no_message,
                               .report = no_report};
    if (!open_store(site, with, &setup.store)) {
        return NOT_OPENED;
    }
    polydb_host_cause cause = polydb_host_open(&host, &setup, &found, &error);
    if (cause == POLYDB_HOST_DONE) {
        polydb_host_close(host);
        cause = access(key_path, F_OK) == 0 ? polydb_node_public_key(key_path, key, &error) : polydb_node_new_key(key_path, key, &error);
    }
    if (cause != POLYDB_HOST_DONE) {
        say(site, "%s", polydb_node_describe(&error, words, sizeof words));
        return NOT_OPENED;
    }
    puts(key);
    return fflush(stdout) == 0 ? ENDED : NOT_OPENED;
}

/* A number below a limit; whether the text is one. */
static bool take_number(const char *words, unsigned limit, unsigned *number) {
    char *end;
    errno = 0;
    unsigned long value = strtoul(words, &end, 10);
    *number = (unsigned)value;
    return words[0] >= '0' && words[0] <= '9' && *end == '\0' && errno == 0 && value < limit;
}

/* Opens the node, and says what was found. */
static bool open_node(server *all, const options *with, polydb_node_setup *setup) {
    char words[200];
    polydb_host_found found;
    polydb_host_error error;
    if (!open_store(all->site, with, &setup->store)) {
        return false;
    }
    polydb_host_cause cause = polydb_node_open(&all->node, setup, &found, &error);
    if (cause != POLYDB_HOST_DONE) {
        say(all->site, "%s%s", polydb_node_describe(&error, words, sizeof words), cause == POLYDB_HOST_NOT_THERE ? "; a site that never was is made by --new" : "");
        return false;
    }
    say_what_was_found(all, &found, with->etcd == NULL ? with->data : with->etcd);
    return true;
}

static bool open_socket(server *all, const char *path) {
    all->listener = listen_for_clients(path);
    if (all->listener < 0) {
        say(all->site, "%s: %s", path, strerror(errno));
    }
    return all->listener >= 0;
}

/* Opens all that there is to open, and serves. A site in etcd is taken from the process that has it: so what else may fail comes before, as another process that has the socket; and on a folder
 * the lock says best what is wrong. */
static int open_and_serve(server *all, const options *with, polydb_node_setup *setup, const char *path) {
    bool takes = with->etcd != NULL, is_open = all->signals >= 0 && (!takes || open_socket(all, path)) && open_node(all, with, setup) && (takes || open_socket(all, path));
    int status = NOT_OPENED;
    if (is_open) {
        say(all->site, "ready, takes requests at %s", path);
        status = serve(all);
    }
    if (all->listener >= 0) {
        unlink(path);
    }
    return status;
}

static int run(const options *with) {
    static server all = {.listener = NO_FILE};
    char socket_path[4096], key_path[4096];
    unsigned site, tick = 0;
    if (!take_number(with->site, 16, &site) || (with->tick != NULL && !take_number(with->tick, 3600001, &tick))) {
        fputs(USAGE, stderr);
        return WRONG_USE;
    }
    for (int i = 0; i < CLIENTS; i++) {
        all.clients[i].file = NO_FILE;
    }
    all.site = site;
    snprintf(socket_path, sizeof socket_path, "%s/site-%u.sock", with->data, site);
    snprintf(key_path, sizeof key_path, "%s/site-%u.key", with->data, site);
    text config = {.bytes = NULL};
    if (!read_file(with->config, &config)) {
        say(site, "%s: %s", with->config, strerror(errno));
        return NOT_OPENED;
    }
    if (with->is_new) {
        int made = make_site(site, with, &config, with->key == NULL ? key_path : with->key);
        text_free(&config);
        return made;
    }
    all.signals = catch_signals();
    if (all.signals < 0) {
        say(site, "signals: %s", strerror(errno));
    }
    polydb_node_setup setup = {.folder = with->data,
                               .config = (const uint8_t *)(config.bytes == NULL ? "" : config.bytes),
                               .config_length = config.length,
                               .site = (uint8_t)site,
                               .is_there = true,
                               .adopts = with->adopts,
                               .peers = with->peers,
                               .key = with->key == NULL ? key_path : with->key,
                               .listen = with->listen,
                               .tick = tick,
                               .context = &all,
                               .answer = on_answer,
                               .notice = on_notice};
    int status = open_and_serve(&all, with, &setup, with->socket == NULL ? socket_path : with->socket);
    text_free(&config);
    for (int i = 0; i < CLIENTS; i++) {
        drop(&all.clients[i]);
    }
    polydb_node_close(all.node);
    return status;
}

int main(int count, char **words) {
    static const struct option NAMES[] = {{"site", required_argument, NULL, 's'},   {"config", required_argument, NULL, 'c'}, {"peers", required_argument, NULL, 'p'},
                                          {"key", required_argument, NULL, 'k'},    {"data", required_argument, NULL, 'd'},   {"socket", required_argument, NULL, 'o'},
                                          {"listen", required_argument, NULL, 'l'}, {"tick", required_argument, NULL, 't'},   {"new-key", required_argument, NULL, 'n'},
                                          {"adopt", no_argument, NULL, 'a'},        {"new", no_argument, NULL, 'w'},          {"version", no_argument, NULL, 'v'},
                                          {"etcd", required_argument, NULL, 'e'},   {"etcd-prefix", required_argument, NULL, 'f'},
                                          {"etcd-limit", required_argument, NULL, 'm'},       {"etcd-authority", required_argument, NULL, 'u'},
                                          {"etcd-certificate", required_argument, NULL, 'r'}, {"etcd-key", required_argument, NULL, 'y'},
                                          {NULL, 0, NULL, 0}};
    options with = {.site = NULL};
    for (int name; (name = getopt_long(count, words, "", NAMES, NULL)) != -1;) {
        switch (name) {
        case 's': with.site = optarg; break;
        case 'c': with.config = optarg; break;
        case 'p': with.peers = optarg; break;
        case 'k': with.key = optarg; break;
        case 'd': with.data = optarg; break;
        case 'o': with.socket = optarg; break;
        case 'l': with.listen = optarg; break;
        case 't': with.tick = optarg; break;
        case 'n': with.new_key = optarg; break;
        case 'e': with.etcd = optarg; break;
        case 'f': with.etcd_prefix = optarg; break;
        case 'm': with.etcd_limit = optarg; break;
        case 'u': with.etcd_authority = optarg; break;
        case 'r': with.etcd_certificate = optarg; break;
        case 'y': with.etcd_key = optarg; break;
        case 'a': with.adopts = true; break;
        case 'w': with.is_new = true; break;
        case 'v': puts("polydbd " POLYDB_VERSION); return ENDED;
        default: fputs(USAGE, stderr); return WRONG_USE;
        }
    }
    setvbuf(stderr, NULL, _IOLBF, 0);
    if (with.new_key != NULL && optind == count) {
        return make_key(with.new_key);
    }
    if (with.site == NULL || with.config == NULL || (with.peers == NULL && !with.is_new) || with.data == NULL || optind != count) {
        fputs(USAGE, stderr);
        return WRONG_USE;
    }
    return run(&with);
}
