/* Requests to etcd by its JSON interface, over libcurl: to one member at a time, and to the next one where that doesn't answer. */
#define _GNU_SOURCE

#include "client.h"

#include <curl/curl.h>
#include <errno.h>
#include <stdio.h>
#include <stdlib.h>
#include <string.h>
#include <time.h>

#include "host/errors.h"

enum {
    CONNECT = 500,        /* milliseconds until a member that can't be reached is left */
    MOST_ANSWER = 1 << 29 /* bytes */
};

int64_t client_now(void) {
    struct timespec now;
    clock_gettime(CLOCK_MONOTONIC, &now);
    return (int64_t)now.tv_sec * 1000 + now.tv_nsec / 1000000;
}

/* ---- opening and closing ---- */

static bool split_urls(etcd_client *client, const char *urls) {
    client->urls = strdup(urls);
    char *left = client->urls;
    for (char *one; left != NULL && (one = strsep(&left, ",")) != NULL;) {
        one += strspn(one, " ");
        one[strcspn(one, " ")] = '\0';
        size_t length = strlen(one);
        while (length > 0 && one[length - 1] == '/') {
            one[--length] = '\0';
        }
        if (length == 0) {
            continue;
        }
        if (client->count == MOST_MEMBERS || (strncmp(one, "http://", 7) != 0 && strncmp(one, "https://", 8) != 0)) {
            return false;
        }
        client->members[client->count++] = one;
    }
    return client->count > 0;
}

/* What libcurl gives comes into the client's text. Of an answer that is too long the rest isn't taken, and the request fails. */
static size_t take_bytes(char *bytes, size_t size, size_t count, void *context) {
    text *in = context;
    size_t length = size * count;
    if (length > MOST_ANSWER - in->length) {
        return 0;
    }
    text_add(in, bytes, length);
    return in->has_failed ? 0 : length;
}

static bool set_file(CURL *curl, CURLoption option, const char *path) { return path == NULL || curl_easy_setopt(curl, option, path) == CURLE_OK; }

static bool set_options(etcd_client *client, const polydb_etcd_setup *setup) {
    CURL *curl = client->curl;
    struct curl_slist *type = curl_slist_append(NULL, "Content-Type: application/json");
    client->headers = type == NULL ? NULL : curl_slist_append(type, "Expect:"); /* no word of the server before a long request */
    if (client->headers == NULL) {
        curl_slist_free_all(type);
        return false;
    }
    return curl_easy_setopt(curl, CURLOPT_HTTPHEADER, client->headers) == CURLE_OK && curl_easy_setopt(curl, CURLOPT_WRITEFUNCTION, take_bytes) == CURLE_OK &&
           curl_easy_setopt(curl, CURLOPT_WRITEDATA, &client->in) == CURLE_OK && curl_easy_setopt(curl, CURLOPT_NOSIGNAL, 1L) == CURLE_OK &&
           curl_easy_setopt(curl, CURLOPT_PROXY, "") == CURLE_OK && curl_easy_setopt(curl, CURLOPT_CONNECTTIMEOUT_MS, (long)CONNECT) == CURLE_OK &&
           set_file(curl, CURLOPT_CAINFO, setup->authority) && set_file(curl, CURLOPT_SSLCERT, setup->certificate) && set_file(curl, CURLOPT_SSLKEY, setup->key);
}

polydb_host_cause client_open(etcd_client *client, const polydb_etcd_setup *setup, polydb_host_error *error) {
    *client = (etcd_client){.curl = NULL};
    if (!split_urls(client, setup->urls)) {
        return client->urls == NULL ? refuse(error, POLYDB_HOST_NO_MEMORY, "etcd", "") : refuse(error, POLYDB_HOST_STORE, "no addresses http:// or https:// of etcd:", setup->urls);
    }
    client->curl = curl_global_init(CURL_GLOBAL_DEFAULT) == CURLE_OK ? curl_easy_init() : NULL;
    return client->curl != NULL && set_options(client, setup) ? POLYDB_HOST_DONE : refuse(error, POLYDB_HOST_STORE, "libcurl", "");
}

void client_close(etcd_client *client) {
    if (client->curl != NULL) {
        curl_easy_cleanup(client->curl);
    }
    curl_slist_free_all(client->headers);
    text_free(&client->in);
    free(client->urls);
    *client = (etcd_client){.curl = NULL};
}

/* ---- a request ---- */

static bool fail(etcd_client *client, const char *words) {
    snprintf(client->failure, sizeof client->failure, "%s: %.70s", client->members[client->current], words);
    client->current = (client->current + 1) % client->count;
    return false;
}

/* What a member says of a request that it refuses: the member `error` or `message` of its JSON, as far as it is short and plain. */
static bool fail_saying(etcd_client *client, long status) {
    char words[72];
    const char *found = client->in.bytes == NULL ? NULL : memmem(client->in.bytes, client->in.length, "\"error\":\"", 9);
    size_t length = 0;
    if (found != NULL) {
        found += 9;
        while (length < sizeof words - 1 && found + length < client->in.bytes + client->in.length && found[length] >= ' ' && found[length] != '"' && found[length] <= '~') {
            length++;
        }
        memcpy(words, found, length);
        words[length] = '\0';
    }
    if (length == 0) {
        snprintf(words, sizeof words, "status %ld", status);
    }
    return fail(client, words);
}

bool client_ask(etcd_client *client, const char *path, const text *request, int64_t most, etcd_answer *answer) {
    *answer = (etcd_answer){.pairs = NULL};
    char url[256];
    if (request->has_failed) {
        return fail(client, "no memory");
    }
    if ((size_t)snprintf(url, sizeof url, "%s%s", client->members[client->current], path) >= sizeof url) {
        return fail(client, "the address is too long");
    }
    client->in.length = 0;
    client->in.has_failed = false;
    CURL *curl = client->curl;
    bool is_set = curl_easy_setopt(curl, CURLOPT_URL, url) == CURLE_OK && curl_easy_setopt(curl, CURLOPT_POSTFIELDS, request->bytes) == CURLE_OK &&
                  curl_easy_setopt(curl, CURLOPT_POSTFIELDSIZE_LARGE, (curl_off_t)request->length) == CURLE_OK &&
                  curl_easy_setopt(curl, CURLOPT_TIMEOUT_MS, (long)(most < 1 ? 1 : most)) == CURLE_OK;
    CURLcode code = is_set ? curl_easy_perform(curl) : CURLE_OUT_OF_MEMORY;
    client->is_heard = code == CURLE_OK;
    if (code != CURLE_OK) {
        return fail(client, curl_easy_strerror(code));
    }
    long status = 0;
    curl_easy_getinfo(curl, CURLINFO_RESPONSE_CODE, &status);
    if (status != 200) {
        return fail_saying(client, status);
    }
    bool is_read = answer_read(answer, &client->in);
    if (is_read && client->cluster == 0) {
        client->cluster = answer->cluster;
    }
    if (!is_read || answer->cluster == 0 || answer->cluster != client->cluster) {
        answer_free(answer);
        return fail(client, is_read && answer->cluster != 0 ? "a member of another cluster" : "no answer of etcd");
    }
    return true;
}
