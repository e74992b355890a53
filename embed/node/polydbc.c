/* polydbc: sends requests to a polydbd and prints its answers. It waits until each has its end: a commit, a refusal, an item. */
#define _GNU_SOURCE

#include <errno.h>
#include <getopt.h>
#include <inttypes.h>
#include <poll.h>
#include <stdio.h>
#include <stdlib.h>
#include <string.h>
#include <sys/socket.h>
#include <sys/un.h>
#include <time.h>
#include <unistd.h>

#include "text.h"

/* Exit statuses. UNKNOWN: the connection is lost or time is up before the end of a request; it may have committed or not. */
enum { DONE = 0, REFUSED = 1, WRONG_USE = 2, UNKNOWN = 3 };

static const char USAGE[] = "usage: polydbc --socket PATH [--json] [--timeout SECONDS] submit PROGRAM\n"
                            "                                                         query PROGRAM\n"
                            "                                                         read [--certain] NAME..\n"
                            "                                                         outcome TRANSACTION\n"
                            "                                                         info\n"
                            "                                                         lines\n";

typedef struct {
    int file;
    bool is_json, is_certain; /* is_certain: an item is asked for again while it is locked or in doubt */
    int64_t end;              /* when to give up, in milliseconds; -1 for never */
    text in;
    size_t heard;  /* how much of it was heard: a line is dropped when the next one is asked for */
    unsigned open; /* requests that have no end yet */
    int status;
} connection;

static int64_t milliseconds(void) {
    struct timespec now;
    clock_gettime(CLOCK_MONOTONIC, &now);
    return (int64_t)now.tv_sec * 1000 + now.tv_nsec / 1000000;
}

/* When so many seconds will have gone; whether the text is a number of them. */
static bool take_seconds(const char *words, int64_t *end) {
    char *rest;
    double seconds = strtod(words, &rest);
    if (rest == words || *rest != '\0' || !(seconds >= 0 && seconds < 1e9)) {
        return false;
    }
    *end = milliseconds() + (int64_t)(seconds * 1000);
    return true;
}

static int complain(const char *what) {
    fprintf(stderr, "polydbc: %s: %s\n", what, strerror(errno));
    return UNKNOWN;
}

static int connect_to(const char *path) {
    struct sockaddr_un address = {.sun_family = AF_UNIX};
    if (strlen(path) >= sizeof address.sun_path) {
        errno = ENAMETOOLONG;
        return -1;
    }
    strcpy(address.sun_path, path);
    int file = socket(AF_UNIX, SOCK_STREAM | SOCK_CLOEXEC, 0);
    if (file >= 0 && connect(file, (struct sockaddr *)&address, sizeof address) != 0) {
        int number = errno;
        close(file);
        errno = number;
        return -1;
    }
    return file;
}

static bool send_all(int file, const char *bytes, size_t length) {
    while (length > 0) {
        ssize_t count = send(file, bytes, length, MSG_NOSIGNAL);
        if (count < 0 && errno == EINTR) {
            continue;
        }
        if (count < 0) {
            return false;
        }
        bytes += count;
        length -= (size_t)count;
    }
    return true;
}

static bool ask(connection *with, const char *verb, unsigned tag, const char *rest) {
    text line = {.bytes = NULL};
    text_print(&line, "%s %u %s\n", verb, tag, rest);
    bool is_sent = !line.has_failed && send_all(with->file, line.bytes, line.length);
    text_free(&line);
    with->open += is_sent;
    return is_sent;
}

/* Waits until something can be read; whether it can. */
static bool wait_for_more(const connection *with) {
    struct pollfd wait = {.fd = with->file, .events = POLLIN};
    for (;;) {
        int64_t left = with->end < 0 ? -1 : with->end - milliseconds();
        if (with->end >= 0 && left <= 0) {
            errno = ETIMEDOUT;
            return false;
        }
        int count = poll(&wait, 1, left > 1000 || left < 0 ? 1000 : (int)left);
        if (count > 0) {
            return true;
        }
        if (count < 0 && errno != EINTR) {
            return false;
        }
    }
}

/* The next line, without its end; null where there is none. It is good until the next call. */
static char *next_line(connection *with) {
    text_drop(&with->in, with->heard);
    with->heard = 0;
    for (;;) {
        char *end = with->in.length == 0 ? NULL : memchr(with->in.bytes, '\n', with->in.length);
        if (end != NULL) {
            *end = '\0';
            with->heard = (size_t)(end - with->in.bytes) + 1;
            return with->in.bytes;
        }
        if (!wait_for_more(with)) {
            return NULL;
        }
        char bytes[65536];
        ssize_t count = recv(with->file, bytes, sizeof bytes, 0);
        if (count == 0) {
            errno = ECONNRESET;
        }
        if (count < 0 && errno == EINTR) {
            continue;
        }
        if (count <= 0) {
            return NULL;
        }
        text_add(&with->in, bytes, (size_t)count);
    }
}

static bool begins(const char *line, const char *front) { return strncmp(line, front, strlen(front)) == 0; }

/* Whether an item's line shows one value. */
static bool is_certain(const char *line) { return strstr(line, " if ") == NULL && strstr(line, " locked ") == NULL; }

/* Asks again for the item of an answer `item TAG NAME ..`, after a moment. */
static bool ask_again(connection *with, const char *line) {
    unsigned tag;
    char name[32];
    if (sscanf(line, "item %u %31s", &tag, name) != 2) {
        return false;
    }
    const struct timespec moment = {.tv_nsec = 20000000};
    nanosleep(&moment, NULL);
    with->open--;
    return ask(with, "read", tag, name);
}

/* An answer without its tag, or as JSON of this program's own making. */
static void print(const connection *with, const char *line) {
    const char *rest = strchr(line, ' ');
    const char *tag = rest == NULL ? NULL : rest + 1;
    const char *behind = tag == NULL ? NULL : strchr(tag, ' ');
    text out = {.bytes = NULL};
    if (with->is_json && behind != NULL) {
        text_print(&out, "%.*s%s", (int)(rest - line), line, behind);
        text whole = {.bytes = NULL};
        text_add(&out, "", 1);
        if (!out.has_failed) {
            text_answer(&whole, true, strtoull(tag, NULL, 10), out.bytes);
            fwrite(whole.bytes, 1, whole.length, stdout);
        }
        text_free(&whole);
    } else {
        printf("%.*s%s\n", (int)(rest == NULL ? (int)strlen(line) : rest - line), line, behind == NULL ? "" : behind);
    }
    text_free(&out);
    fflush(stdout);
}

/* One answer: it is printed, and counted where it ends a request. */
static bool hear(connection *with, const char *line) {
    if (begins(line, "item ") && with->is_certain && !is_certain(line)) {
        return ask_again(with, line);
    }
    print(with, line);
    if (!begins(line, "txn ")) {
        with->open--;
    }
    if (begins(line, "refuse ") || begins(line, "error ")) {
        with->status = REFUSED;
    }
    return true;
}

/* Hears answers until each request has its end. */
static int hear_all(connection *with) {
    while (with->open > 0) {
        const char *line = next_line(with);
        if (line == NULL) {
            return complain("no answer");
        }
        if (!hear(with, line)) {
            return complain("a request");
        }
    }
    return ferror(stdout) ? UNKNOWN : with->status;
}

/* Each line of the standard input is a request without its tag, as `submit PROGRAM`; the next one waits for its end. */
static int pass_lines(connection *with) {
    char *line = NULL;
    size_t room = 0;
    int status = DONE;
    for (unsigned tag = 1; status != UNKNOWN && getline(&line, &room, stdin) > 0; tag++) {
        line[strcspn(line, "\r\n")] = '\0';
        size_t length = strcspn(line, " ");
        const char *rest = line + length + (line[length] == ' ');
        if (length == 0) {
            continue;
        }
        line[length] = '\0';
        status = ask(with, line, tag, rest) ? hear_all(with) : complain("a request");
    }
    free(line);
    return status;
}

static int run(connection *with, char **words, int count) {
    const char *verb = words[0];
    if ((strcmp(verb, "submit") == 0 || strcmp(verb, "query") == 0 || strcmp(verb, "outcome") == 0) && count == 2) {
        return ask(with, verb, 1, words[1]) ? hear_all(with) : complain("a request");
    }
    if (strcmp(verb, "read") == 0 && count > 1) {
        for (int i = 1; i < count; i++) {
            if (!ask(with, verb, (unsigned)i, words[i])) {
                return complain("a request");
            }
        }
        return hear_all(with);
    }
    if (strcmp(verb, "info") == 0 && count == 1) {
        return ask(with, verb, 1, "") ? hear_all(with) : complain("a request");
    }
    if (strcmp(verb, "lines") == 0 && count == 1) {
        return pass_lines(with);
    }
    fputs(USAGE, stderr);
    return WRONG_USE;
}

int main(int count, char **words) {
    static const struct option NAMES[] = {{"socket", required_argument, NULL, 's'}, {"json", no_argument, NULL, 'j'},     {"timeout", required_argument, NULL, 't'},
                                          {"certain", no_argument, NULL, 'c'},      {"version", no_argument, NULL, 'v'}, {NULL, 0, NULL, 0}};
    connection with = {.file = -1, .end = -1};
    const char *path = NULL;
    for (int name; (name = getopt_long(count, words, "", NAMES, NULL)) != -1;) {
        switch (name) {
        case 's': path = optarg; break;
        case 'j': with.is_json = true; break;
        case 't':
            if (!take_seconds(optarg, &with.end)) {
                fputs(USAGE, stderr);
                return WRONG_USE;
            }
            break;
        case 'c': with.is_certain = true; break;
        case 'v': puts("polydbc " POLYDB_VERSION); return DONE;
        default: fputs(USAGE, stderr); return WRONG_USE;
        }
    }
    if (path == NULL || optind == count) {
        fputs(USAGE, stderr);
        return WRONG_USE;
    }
    with.file = connect_to(path);
    if (with.file < 0) {
        return complain(path);
    }
    int status = run(&with, words + optind, count - optind);
    text_free(&with.in);
    close(with.file);
    return status;
}
