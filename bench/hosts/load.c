/*
 * Clients that make transfers one after another for some seconds, each between two items of its own, one at each of two places; and how many were made, and how long one took.
 *
 *     load polydb SOCKET CLIENTS SECONDS          a polydbd, with items a0, a1, .. here and b0, b1, .. at another site
 *     load queries SOCKET CLIENTS SECONDS         the same polydbd: both items are asked for, and nothing is written of that
 *     load postgres FOLDER CLIENTS SECONDS        a PostgreSQL with the databases left and right, each with the table items (name, value)
 */
#define _GNU_SOURCE

#include <libpq-fe.h>
#include <pthread.h>
#include <stdbool.h>
#include <stdint.h>
#include <stdio.h>
#include <stdlib.h>
#include <string.h>
#include <sys/socket.h>
#include <sys/un.h>
#include <time.h>
#include <unistd.h>

enum { MOST = 256 };

typedef struct {
    pthread_t thread;
    int number;
    uint64_t made, refused;
    double *times;
    size_t room;
} client;

static const char *place;
static bool is_postgres, is_asking;
static double end_at;

static double now(void) {
    struct timespec time;
    clock_gettime(CLOCK_MONOTONIC, &time);
    return (double)time.tv_sec + (double)time.tv_nsec * 1e-9;
}

static void stop(const char *what) {
    fprintf(stderr, "load: %s\n", what);
    exit(1);
}

static void note(client *one, double time) {
    if (one->made == one->room) {
        one->room = one->room == 0 ? 4096 : 2 * one->room;
        one->times = realloc(one->times, one->room * sizeof *one->times);
        if (one->times == NULL) {
            stop("memory");
        }
    }
    one->times[one->made++] = time;
}

/* ---- polydb ---- */

static FILE *connect_to_polydbd(void) {
    struct sockaddr_un address = {.sun_family = AF_UNIX};
    snprintf(address.sun_path, sizeof address.sun_path, "%s", place);
    int file = socket(AF_UNIX, SOCK_STREAM, 0);
    if (file < 0 || connect(file, (struct sockaddr *)&address, sizeof address) != 0) {
        stop("connect");
    }
    return fdopen(file, "r+");
}

static void *run_polydb(void *context) {
    client *one = context;
    FILE *site = connect_to_polydbd();
    char line[256];
    while (now() < end_at) {
        double begun = now();
        if (is_asking) {
            fprintf(site, "query 1 return a%d + b%d\n", one->number, one->number);
        } else {
            fprintf(site, "submit 1 a%d := a%d - 1 ; b%d := b%d + 1\n", one->number, one->number, one->number, one->number);
        }
        fflush(site);
        do {
            if (fgets(line, sizeof line, site) == NULL) {
                stop("polydbd has gone");
            }
        } while (strncmp(line, "txn ", 4) == 0);
        if (strncmp(line, "commit ", 7) == 0) {
            note(one, now() - begun);
        } else if (strncmp(line, "refuse ", 7) == 0) {
            one->refused++;
        } else {
            stop(line);
        }
    }
    fclose(site);
    return NULL;
}

/* ---- PostgreSQL ---- */

static PGconn *connect_to(const char *database) {
    char words[512];
    snprintf(words, sizeof words, "host=%s dbname=%s user=postgres", place, database);
    PGconn *made = PQconnectdb(words);
    if (PQstatus(made) != CONNECTION_OK) {
        stop(PQerrorMessage(made));
    }
    return made;
}

static void execute(PGconn *database, const char *words) {
    PGresult *result = PQexec(database, words);
    if (PQresultStatus(result) != PGRES_COMMAND_OK) {
        stop(PQerrorMessage(database));
    }
    PQclear(result);
}

/* One half: all of it in one exchange but for the commit. */
static void prepare(PGconn *database, int number, int amount, uint64_t serial, const char *side) {
    char words[256];
    execute(database, "BEGIN");
    snprintf(words, sizeof words, "UPDATE items SET value = value + %d WHERE name = %d", amount, number);
    execute(database, words);
    snprintf(words, sizeof words, "PREPARE TRANSACTION '%s-%d-%llu'", side, number, (unsigned long long)serial);
    execute(database, words);
}

static void commit(PGconn *database, int number, uint64_t serial, const char *side) {
    char words[256];
    snprintf(words, sizeof words, "COMMIT PREPARED '%s-%d-%llu'", side, number, (unsigned long long)serial);
    execute(database, words);
}

static void *run_postgres(void *context) {
    client *one = context;
    PGconn *left = connect_to("left"), *right = connect_to("right");
    for (uint64_t serial = 0; now() < end_at; serial++) {
        double begun = now();
        prepare(left, one->number, -1, serial, "left");
        prepare(right, one->number, 1, serial, "right");
        commit(left, one->number, serial, "left");
        commit(right, one->number, serial, "right");
        note(one, now() - begun);
    }
    PQfinish(left);
    PQfinish(right);
    return NULL;
}

/* ---- all of them ---- */

static int compare(const void *one, const void *other) {
    double left = *(const double *)one, right = *(const double *)other;
    return (left > right) - (left < right);
}

int main(int count, char **words) {
    static client clients[MOST];
    if (count != 5) {
        stop("load polydb|queries|postgres PLACE CLIENTS SECONDS");
    }
    is_asking = strcmp(words[1], "queries") == 0;
    is_postgres = strcmp(words[1], "postgres") == 0;
    place = words[2];
    int many = atoi(words[3]);
    double seconds = atof(words[4]), begun = now();
    if (many < 1 || many > MOST) {
        stop("clients");
    }
    end_at = begun + seconds;
    for (int i = 0; i < many; i++) {
        clients[i].number = i;
        if (pthread_create(&clients[i].thread, NULL, is_postgres ? run_postgres : run_polydb, &clients[i]) != 0) {
            stop("a thread");
        }
    }
    uint64_t made = 0, refused = 0;
    for (int i = 0; i < many; i++) {
        pthread_join(clients[i].thread, NULL);
        made += clients[i].made;
        refused += clients[i].refused;
    }
    double *times = malloc((made + 1) * sizeof *times);
    size_t at = 0;
    for (int i = 0; i < many; i++) {
        if (clients[i].made > 0) {
            memcpy(times + at, clients[i].times, clients[i].made * sizeof *times);
            at += clients[i].made;
        }
    }
    qsort(times, made, sizeof *times, compare);
    if (made == 0) {
        stop("nothing was made");
    }
    printf("%-8s %3d clients: %7.0f a second, median %7.2f ms, 99th %7.2f ms, %llu refused\n", words[1], many, (double)made / seconds, times[made / 2] * 1000,
           times[made * 99 / 100] * 1000, (unsigned long long)refused);
    return 0;
}
