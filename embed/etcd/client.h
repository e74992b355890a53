/* Requests to etcd by its JSON interface, over libcurl: to one member at a time, and to the next one where that doesn't answer. */
#ifndef POLYDB_CLIENT_H
#define POLYDB_CLIENT_H

#include "answers.h"
#include "polydb_etcd.h"

enum { MOST_MEMBERS = 16 };

typedef struct {
    void *curl;
    struct curl_slist *headers;
    char *urls; /* one behind another, each with its zero */
    const char *members[MOST_MEMBERS];
    size_t count, current;
    text in;            /* what the member has answered */
    uint64_t cluster;   /* the number of the cluster that answered first: another one isn't heard. 0 for none yet */
    bool is_heard;      /* a member has answered the last request, perhaps by a refusal */
    char failure[120];  /* why the last request has no answer */
} etcd_client;

/* Takes the members' addresses. Where that is refused client_close is still to be called. */
polydb_host_cause client_open(etcd_client *client, const polydb_etcd_setup *setup, polydb_host_error *error);
void client_close(etcd_client *client);

/* Milliseconds of a clock that goes on. */
int64_t client_now(void);

/*
 * Sends a request and reads its answer, which is to be freed, from one member, within so many milliseconds at most. Where it gives false nobody knows whether the request was done
 * or will be, `client->failure` says why, and the next request goes to the next member.
 */
bool client_ask(etcd_client *client, const char *path, const text *request, int64_t most, etcd_answer *answer);

#endif
