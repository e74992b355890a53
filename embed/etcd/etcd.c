/*
 * A site's journal in etcd: the transactions by which it is made, taken, read and written.
 *
 * All rests on what a transaction compares, so that it makes no difference how often one is sent, nor when: one that takes the site compares the owner that was read; one that
 * writes compares the owner that was put, that the next key isn't there, and that the key before it is the one that this process knows. A transaction that was refused says what
 * these keys have, and so whether an earlier sending of it was done, or another process has the site.
 */
#define _GNU_SOURCE

#include <errno.h>
#include <inttypes.h>
#include <stdio.h>
#include <stdlib.h>
#include <string.h>
#include <sys/random.h>
#include <unistd.h>

#include "base64.h"
#include "client.h"
#include "host/errors.h"
#include "host/identity.h"
#include "host/store.h"
#include "polydb.h"

enum {
    KEY_ROOM = 160,
    OWNER_ROOM = 160,
    TOKEN = 16,                 /* random bytes that tell an owner from all others */
    ATTEMPT = 1000, LEAST = 50, /* milliseconds that one member has for an answer, and later twice what has gone; with fewer left none is asked again */
    PAUSE = 20,                 /* milliseconds until the next one is asked */
    FIRST_PATIENCE = 3000,      /* that a call has, if nothing is said */
    WRITE_HEAD = 8,             /* bytes before the pieces of a write: the number of the opening that has made it */
    PIECE_HEAD = 12,            /* bytes before a piece: its place and its length */
    MOST_WRITE = 1 << 20,       /* bytes: etcd takes 1.5 MiB a request, if nothing else is set */
    MOST_TAKINGS = 20,          /* times that another process may come before when the site is taken */
    FIRST_PAGE = 16, MOST_PAGE = 256, /* keys that are read at once: at first, and where a longer answer didn't come, down to one; and at most */
    LONG_PAGE = 1 << 20         /* bytes of an answer from which on fewer keys are asked for */
};
static const uint64_t DEFAULT_LIMIT = (uint64_t)2 << 30; /* etcd's own, where nothing is set */
static const int64_t FILL_AGAIN = 5000;                  /* milliseconds until the members' size is asked for again */

typedef struct {
    polydb_store store;
    etcd_client client;
    char *prefix; /* of the site's keys, as `polydb/site-0/` */
    uint8_t site;
    int64_t patience;
    char owner[OWNER_ROOM];  /* what the key `owner` has while the site is this process's */
    uint64_t number;         /* of its opening, with which that begins */
    uint64_t next;           /* the number of the next write */
    uint64_t last_revision;  /* of the write before it */
    bool is_made;            /* the site is there */
    text value;              /* the write that was sent last */
    text request;
    uint64_t size, limit;    /* of the store, as it was said last */
    int64_t sized;           /* when that was; 0 for never */
} site_keys;

static site_keys *keys_of(polydb_store *store) { return (site_keys *)store; }

/* ---- keys and requests ---- */

static void name_key(const site_keys *keys, char *key, const char *name) { snprintf(key, KEY_ROOM, "%s%s", keys->prefix, name); }
static void name_write(const site_keys *keys, char *key, uint64_t number) { snprintf(key, KEY_ROOM, "%sjournal/%016" PRIx64, keys->prefix, number); }

/* The key behind those of all writes: a zero is the next byte after the slash. */
static void name_end(const site_keys *keys, char *key) { snprintf(key, KEY_ROOM, "%sjournal0", keys->prefix); }

static void begin(site_keys *keys, const char *words) {
    keys->request.length = 0;
    keys->request.has_failed = false;
    text_print(&keys->request, "%s", words);
}

static void add_bytes(text *out, const char *name, const void *bytes, size_t length) {
    text_print(out, "\"%s\":\"", name);
    base64_add(out, bytes, length);
    text_print(out, "\"");
}

/* `{"key":K` of a comparison, a put or a range; what follows closes it. */
static void add_key(site_keys *keys, const char *key) {
    text_print(&keys->request, "{");
    add_bytes(&keys->request, "key", key, strlen(key));
}

static void add_is_value(site_keys *keys, const char *key, const char *value) {
    add_key(keys, key);
    text_print(&keys->request, ",\"target\":\"VALUE\",\"result\":\"EQUAL\",");
    add_bytes(&keys->request, "value", value, strlen(value));
    text_print(&keys->request, "}");
}

/* That the key was changed last in this revision; with 0, that it isn't there. */
static void add_is_revision(site_keys *keys, const char *key, uint64_t revision) {
    add_key(keys, key);
    text_print(&keys->request, ",\"target\":\"MOD\",\"result\":\"EQUAL\",\"mod_revision\":\"%" PRIu64 "\"}", revision);
}

static void add_put(site_keys *keys, const char *key, const void *value, size_t length) {
    text_print(&keys->request, "{\"request_put\":");
    add_key(keys, key);
    text_print(&keys->request, ",");
    add_bytes(&keys->request, "value", value, length);
    text_print(&keys->request, "}}");
}

static void add_get(site_keys *keys, const char *key) {
    text_print(&keys->request, "{\"request_range\":");
    add_key(keys, key);
    text_print(&keys->request, "}}");
}

/* The same without what the key has, which may be long: whether it is there, and since when. */
static void add_look(site_keys *keys, const char *key) {
    text_print(&keys->request, "{\"request_range\":");
    add_key(keys, key);
    text_print(&keys->request, ",\"keys_only\":true}}");
}

/* Sends what was begun until there is an answer, from one member after another, as long as patience lasts. Each request here may be sent more than once. */
static bool ask(site_keys *keys, const char *path, etcd_answer *answer) {
    int64_t begun = client_now(), left = keys->patience, most = ATTEMPT;
    while (!client_ask(&keys->client, path, &keys->request, left < most ? left : most, answer)) {
        int64_t gone = client_now() - begun + PAUSE;
        left = keys->patience - gone;
        most = 2 * gone > ATTEMPT ? 2 * gone : ATTEMPT;
        if (left < LEAST) {
            return false;
        }
        usleep(PAUSE * 1000);
    }
    return true;
}

static polydb_host_cause refuse_store(site_keys *keys, polydb_host_error *error) { return refuse(error, POLYDB_HOST_STORE, "etcd at", keys->client.failure); }

static polydb_host_cause refuse_replaced(const etcd_pair *owner, polydb_host_error *error) {
    char words[80] = "the site's owner is gone";
    if (owner != NULL) {
        size_t length = strcspn(owner->value, "\n"); /* the answer's text ends with a zero */
        length = length < owner->value_length ? length : owner->value_length;
        snprintf(words, sizeof words, "the site's owner is %.*s", (int)(length < 60 ? length : 60), owner->value);
    }
    return refuse(error, POLYDB_HOST_REPLACED, words, "");
}

/* ---- who has the site ---- */

/* Makes what says that this process has the site: the number of its opening, which machine and process it is, and random bytes. */
static bool spell_owner(site_keys *keys, uint64_t number) {
    uint8_t token[TOKEN];
    char machine[64] = "?";
    if (getrandom(token, sizeof token, 0) != sizeof token) {
        return false;
    }
    gethostname(machine, sizeof machine - 1);
    keys->number = number;
    int length = snprintf(keys->owner, OWNER_ROOM, "%" PRIu64 ", process %ld on %.40s\n", number, (long)getpid(), machine);
    for (int i = 0; i < TOKEN; i++) {
        length += snprintf(keys->owner + length, OWNER_ROOM - (size_t)length, "%02x", token[i]);
    }
    return true;
}

static uint64_t number_of_owner(const etcd_pair *owner) {
    char digits[24] = "0";
    if (owner != NULL) {
        snprintf(digits, sizeof digits, "%.*s", (int)(owner->value_length < 20 ? owner->value_length : 20), owner->value);
    }
    return strtoull(digits, NULL, 10);
}

/* Takes the site, from whoever has it: by a transaction that compares the owner that was there, so that one that comes late does nothing. */
static polydb_host_cause take_site(site_keys *keys, polydb_host_found *found, polydb_host_error *error) {
    char key[KEY_ROOM];
    etcd_answer answer;
    name_key(keys, key, "owner");
    begin(keys, "");
    add_key(keys, key);
    text_print(&keys->request, "}");
    if (!ask(keys, "/v3/kv/range", &answer)) {
        return refuse_store(keys, error);
    }
    for (int taking = 0; taking < MOST_TAKINGS; taking++) {
        const etcd_pair *there = answer_pair(&answer, key);
        if (keys->number > 0 && has_value(there, keys->owner, strlen(keys->owner))) { /* an earlier sending was done */
            found->owner = keys->number;
            answer_free(&answer);
            return POLYDB_HOST_DONE;
        }
        uint64_t revision = there == NULL ? 0 : there->revision, number = number_of_owner(there) + 1;
        answer_free(&answer);
        if (!spell_owner(keys, number)) {
            return refuse_system(error, "random bytes", "");
        }
        begin(keys, "{\"compare\":[");
        add_is_revision(keys, key, revision);
        text_print(&keys->request, "],\"success\":[");
        add_put(keys, key, keys->owner, strlen(keys->owner));
        text_print(&keys->request, "],\"failure\":[");
        add_get(keys, key);
        text_print(&keys->request, "]}");
        if (!ask(keys, "/v3/kv/txn", &answer)) {
            return refuse_store(keys, error);
        }
        if (answer.succeeded) {
            answer_free(&answer);
            found->owner = number;
            return POLYDB_HOST_DONE;
        }
    }
    answer_free(&answer);
    return refuse(error, POLYDB_HOST_BUSY, "take the site in etcd", "");
}

static polydb_host_cause refuse_write(uint64_t number, const char *what, polydb_host_error *error) {
    char words[100];
    snprintf(words, sizeof words, "write %" PRIu64 " of the journal %s", number, what);
    return refuse(error, POLYDB_HOST_LOST, words, "");
}

/* Whether the site is this process's, and its journal as long as it knows: by what these keys have another process may have it, or the store has lost what it had acknowledged. */
static polydb_host_cause look_whose(const site_keys *keys, const etcd_answer *answer, const char *owner, const char *last, polydb_host_error *error) {
    const etcd_pair *there = answer_pair(answer, owner), *before = answer_pair(answer, last);
    if (!has_value(there, keys->owner, strlen(keys->owner))) {
        return refuse_replaced(there, error);
    }
    bool is_there = before != NULL && before->revision == keys->last_revision;
    return is_there ? POLYDB_HOST_DONE : refuse_write(keys->next - 1, "was acknowledged, and is gone", error);
}

static polydb_host_cause etcd_confirm(polydb_store *store, polydb_host_error *error) {
    site_keys *keys = keys_of(store);
    char owner[KEY_ROOM], last[KEY_ROOM];
    etcd_answer answer;
    name_key(keys, owner, "owner");
    name_write(keys, last, keys->next - 1);
    begin(keys, "{\"success\":[");
    add_get(keys, owner);
    text_print(&keys->request, ",");
    add_look(keys, last);
    text_print(&keys->request, "]}");
    if (!ask(keys, "/v3/kv/txn", &answer)) {
        return refuse_store(keys, error);
    }
    polydb_host_cause cause = look_whose(keys, &answer, owner, last, error);
    answer_free(&answer);
    return cause;
}

/* ---- reading ---- */

static void put_number(uint8_t *bytes, size_t count, uint64_t number) {
    for (size_t i = count; i-- > 0; number >>= 8) {
        bytes[i] = (uint8_t)number;
    }
}

static uint64_t number_at(const uint8_t *bytes, size_t count) {
    uint64_t number = 0;
    for (size_t i = 0; i < count; i++) {
        number = number << 8 | bytes[i];
    }
    return number;
}

/* Bytes of a journal that is put together. */
typedef struct {
    uint8_t *bytes;
    size_t length, room;
} image;

/* Puts a piece in its place, which begins within the bytes or at their end. */
static bool overlay(image *to, uint64_t place, const uint8_t *bytes, size_t length) {
    if (place > to->length || length > POLYDB_MAX_JOURNAL || place + length > POLYDB_MAX_JOURNAL + MOST_WRITE) {
        return false;
    }
    size_t end = (size_t)place + length;
    if (end > to->room) {
        uint8_t *larger = realloc(to->bytes, 2 * end);
        if (larger == NULL) {
            return false;
        }
        to->bytes = larger;
        to->room = 2 * end;
    }
    if (length > 0) {
        memcpy(to->bytes + place, bytes, length);
    }
    if (end > to->length) {
        to->length = end;
    }
    return true;
}

/* Makes a write's pieces, one after another. */
static bool overlay_all(image *to, const etcd_pair *pair) {
    if (pair->value_length < WRITE_HEAD) {
        return false;
    }
    const uint8_t *at = (const uint8_t *)pair->value + WRITE_HEAD;
    size_t left = pair->value_length - WRITE_HEAD;
    while (left >= PIECE_HEAD) {
        uint64_t length = number_at(at + 8, 4);
        if (length > left - PIECE_HEAD || !overlay(to, number_at(at, 8), at + PIECE_HEAD, (size_t)length)) {
            return false;
        }
        at += PIECE_HEAD + length;
        left -= PIECE_HEAD + (size_t)length;
    }
    return left == 0;
}

static void ask_for_writes(site_keys *keys, uint64_t from, unsigned most) {
    char key[KEY_ROOM], end[KEY_ROOM];
    name_write(keys, key, from);
    name_end(keys, end);
    begin(keys, "");
    add_key(keys, key);
    text_print(&keys->request, ",");
    add_bytes(&keys->request, "range_end", end, strlen(end));
    text_print(&keys->request, ",\"limit\":\"%u\"}", most);
}

/* Reads all writes, in their order, a page at a time. None may be missing. */
static polydb_host_cause read_writes(site_keys *keys, image *to, polydb_host_error *error) {
    unsigned page = FIRST_PAGE;
    keys->next = 0;
    for (bool more = true; more;) {
        etcd_answer answer;
        ask_for_writes(keys, keys->next, page);
        if (!ask(keys, "/v3/kv/range", &answer)) {
            if (page == 1) {
                return refuse_store(keys, error);
            }
            page = page > FIRST_PAGE ? FIRST_PAGE : 1;
            continue;
        }
        for (size_t i = 0; i < answer.count; i++, keys->next++) {
            char key[KEY_ROOM];
            name_write(keys, key, keys->next);
            bool is_next = answer_pair(&(etcd_answer){.pairs = &answer.pairs[i], .count = 1}, key) != NULL;
            if (!is_next || !overlay_all(to, &answer.pairs[i])) {
                answer_free(&answer);
                return refuse_write(keys->next, is_next ? "can't be read" : "is missing", error);
            }
            keys->last_revision = answer.pairs[i].revision;
        }
        more = answer.more && answer.count > 0;
        if (keys->client.in.length > LONG_PAGE) {
            page = page > 1 ? page / 2 : 1;
        } else if (page < MOST_PAGE) {
            page *= 2;
        }
        answer_free(&answer);
    }
    return to->length > 0 ? POLYDB_HOST_DONE : refuse_write(0, keys->next > 0 ? "can't be read" : "is missing", error);
}

static ssize_t read_image(const void *from, uint8_t *bytes, size_t length, uint64_t place) {
    const image *whole = from;
    size_t count = place >= whole->length ? 0 : whole->length - (size_t)place;
    count = count < length ? count : length;
    if (count > 0) {
        memcpy(bytes, whole->bytes + place, count);
    }
    return (ssize_t)count;
}

/* Whether the journal has more than its first write, which has no record. */
static polydb_host_cause look_for_records(site_keys *keys, polydb_host_error *error) {
    etcd_answer answer;
    ask_for_writes(keys, 1, 1);
    if (!ask(keys, "/v3/kv/range", &answer)) {
        return refuse_store(keys, error);
    }
    bool any = answer.count > 0;
    answer_free(&answer);
    return any ? refuse(error, POLYDB_HOST_THERE, "make the site in etcd", "") : POLYDB_HOST_DONE;
}

/* Compares the site, its configuration and the cluster with what stands beside the journal, if it is there. A journal beside which nothing stands is adopted, or refused. */
static polydb_host_cause compare(site_keys *keys, const polydb_host_setup *setup, polydb_host_error *error) {
    char id[KEY_ROOM], cluster[KEY_ROOM], first[KEY_ROOM], number[24];
    etcd_answer answer;
    name_key(keys, id, "id");
    name_key(keys, cluster, "cluster");
    name_write(keys, first, 0);
    begin(keys, "{\"success\":[");
    add_get(keys, id);
    text_print(&keys->request, ",");
    add_get(keys, cluster);
    text_print(&keys->request, ",");
    add_look(keys, first);
    text_print(&keys->request, "]}");
    if (!ask(keys, "/v3/kv/txn", &answer)) {
        return refuse_store(keys, error);
    }
    const etcd_pair *there = answer_pair(&answer, id), *of = answer_pair(&answer, cluster);
    polydb_host_cause cause = POLYDB_HOST_DONE;
    keys->is_made = there != NULL || answer_pair(&answer, first) != NULL;
    snprintf(number, sizeof number, "%" PRIu64, keys->client.cluster);
    if (there != NULL) {
        cause = compare_identity((const uint8_t *)there->value, there->value_length, keys->site, setup->config, setup->config_length, NULL, id, error);
    } else if (keys->is_made && !setup->adopts) {
        cause = refuse(error, POLYDB_HOST_UNNAMED, id, "");
    }
    if (cause == POLYDB_HOST_DONE && keys->is_made && !setup->adopts && !has_value(of, number, strlen(number))) {
        cause = refuse(error, POLYDB_HOST_OTHER_STORE, cluster, "");
    }
    answer_free(&answer);
    return cause;
}

/*
 * Takes the site and reads its journal; of one that isn't there yet, the journal without records. Nothing is taken before it is known that the site is the one that is meant. The journal
 * is read when it was taken, so no write of the process before comes after what is read.
 */
static polydb_host_cause etcd_read(polydb_store *store, const polydb_host_setup *setup, journal_content *content, polydb_host_found *found, polydb_host_error *error) {
    site_keys *keys = keys_of(store);
    polydb_host_cause cause = compare(keys, setup, error);
    found->is_new = !keys->is_made;
    if (cause == POLYDB_HOST_DONE && !keys->is_made) {
        if (setup->is_there) {
            return refuse(error, POLYDB_HOST_NOT_THERE, "open", keys->prefix);
        }
        return without_records(content) ? POLYDB_HOST_DONE : refuse(error, POLYDB_HOST_NO_MEMORY, "a new journal", "");
    }
    if (cause == POLYDB_HOST_DONE && setup->is_new) {
        cause = look_for_records(keys, error);
    }
    if (cause == POLYDB_HOST_DONE) {
        cause = take_site(keys, found, error);
    }
    image whole = {.bytes = NULL};
    if (cause == POLYDB_HOST_DONE) {
        cause = read_writes(keys, &whole, error);
    }
    if (cause == POLYDB_HOST_DONE) {
        journal_source source = {.read = read_image, .from = &whole, .size = whole.length};
        find_end(&source, content);
        found->is_new = content->records == 0;
    }
    content->bytes = whole.bytes;
    return cause;
}

/* ---- writing ---- */

static void spell_write(site_keys *keys, const store_write *writes, size_t count) {
    text *value = &keys->value;
    uint8_t head[PIECE_HEAD];
    value->length = 0;
    value->has_failed = false;
    put_number(head, WRITE_HEAD, keys->number);
    text_add(value, (const char *)head, WRITE_HEAD);
    for (size_t i = 0; i < count; i++) {
        put_number(head, 8, writes[i].place);
        put_number(head + 8, 4, writes[i].length);
        text_add(value, (const char *)head, sizeof head);
        text_add(value, (const char *)writes[i].bytes, writes[i].length);
    }
}

/* Makes a new site in one transaction: who it is, its journal without records, and that this process has it. Another process that makes the same at this moment comes second. */
static polydb_host_cause make_site(site_keys *keys, const polydb_host_setup *setup, const journal_content *content, polydb_host_error *error) {
    char id[KEY_ROOM], cluster[KEY_ROOM], owner[KEY_ROOM], first[KEY_ROOM], number[24];
    size_t length;
    etcd_answer answer;
    uint8_t *identity = spell_identity(keys->site, setup->config, setup->config_length, &length);
    if (identity == NULL || !spell_owner(keys, 1)) {
        free(identity);
        return refuse(error, POLYDB_HOST_NO_MEMORY, "make the site in etcd", "");
    }
    name_key(keys, id, "id");
    name_key(keys, cluster, "cluster");
    name_key(keys, owner, "owner");
    name_write(keys, first, 0);
    snprintf(number, sizeof number, "%" PRIu64, keys->client.cluster);
    spell_write(keys, &(store_write){.bytes = content->bytes, .length = content->length}, 1);
    begin(keys, "{\"compare\":[");
    add_is_revision(keys, id, 0);
    text_print(&keys->request, ",");
    add_is_revision(keys, owner, 0);
    text_print(&keys->request, ",");
    add_is_revision(keys, first, 0);
    text_print(&keys->request, "],\"success\":[");
    add_put(keys, id, identity, length);
    text_print(&keys->request, ",");
    add_put(keys, cluster, number, strlen(number));
    text_print(&keys->request, ",");
    add_put(keys, owner, keys->owner, strlen(keys->owner));
    text_print(&keys->request, ",");
    add_put(keys, first, keys->value.bytes, keys->value.length);
    text_print(&keys->request, "],\"failure\":[");
    add_get(keys, owner);
    text_print(&keys->request, ",");
    add_get(keys, first);
    text_print(&keys->request, "]}");
    free(identity);
    if (keys->value.has_failed || keys->request.has_failed) {
        return refuse(error, POLYDB_HOST_NO_MEMORY, "make the site in etcd", "");
    }
    if (!ask(keys, "/v3/kv/txn", &answer)) {
        return refuse_store(keys, error);
    }
    const etcd_pair *there = answer_pair(&answer, first);
    bool is_ours = answer.succeeded || has_value(answer_pair(&answer, owner), keys->owner, strlen(keys->owner));
    keys->next = 1;
    keys->last_revision = answer.succeeded ? answer.revision : there == NULL ? 0 : there->revision;
    answer_free(&answer);
    return is_ours ? POLYDB_HOST_DONE : refuse(error, POLYDB_HOST_BUSY, "make the site in etcd", "");
}

/* Says whose the site is, and that it belongs to this cluster from now on, where an opening has adopted it. */
static polydb_host_cause put_adopted(site_keys *keys, const polydb_host_setup *setup, polydb_host_error *error) {
    char id[KEY_ROOM], cluster[KEY_ROOM], owner[KEY_ROOM], number[24];
    size_t length;
    etcd_answer answer;
    uint8_t *identity = spell_identity(keys->site, setup->config, setup->config_length, &length);
    if (identity == NULL) {
        return refuse(error, POLYDB_HOST_NO_MEMORY, "adopt the site in etcd", "");
    }
    name_key(keys, id, "id");
    name_key(keys, cluster, "cluster");
    name_key(keys, owner, "owner");
    snprintf(number, sizeof number, "%" PRIu64, keys->client.cluster);
    begin(keys, "{\"compare\":[");
    add_is_value(keys, owner, keys->owner);
    text_print(&keys->request, "],\"success\":[");
    add_put(keys, id, identity, length);
    text_print(&keys->request, ",");
    add_put(keys, cluster, number, strlen(number));
    text_print(&keys->request, "]}");
    free(identity);
    if (!ask(keys, "/v3/kv/txn", &answer)) {
        return refuse_store(keys, error);
    }
    bool is_put = answer.succeeded;
    answer_free(&answer);
    return is_put ? POLYDB_HOST_DONE : refuse(error, POLYDB_HOST_REPLACED, "the site's owner is another one", "");
}

static polydb_host_cause etcd_settle(polydb_store *store, const polydb_host_setup *setup, const journal_content *content, polydb_host_found *found, polydb_host_error *error) {
    site_keys *keys = keys_of(store);
    if (!keys->is_made) {
        found->owner = 1;
        return make_site(keys, setup, content, error);
    }
    return setup->adopts ? put_adopted(keys, setup, error) : POLYDB_HOST_DONE;
}

/* Takes note that the write that was sent is there, since this revision. */
static polydb_host_cause go_on(site_keys *keys, uint64_t revision) {
    keys->next++;
    keys->last_revision = revision;
    return POLYDB_HOST_DONE;
}

/* What a refused write means, by what its keys have: an earlier sending of it was done, another process has the site, or the store has lost what it had acknowledged. */
static polydb_host_cause judge(site_keys *keys, const etcd_answer *answer, const char *owner, const char *last, const char *next, polydb_host_error *error) {
    const etcd_pair *written = answer_pair(answer, next);
    polydb_host_cause cause = look_whose(keys, answer, owner, last, error);
    if (cause != POLYDB_HOST_DONE) {
        return cause;
    }
    if (written == NULL || !has_value(written, keys->value.bytes, keys->value.length)) {
        return refuse_write(keys->next, "is another one than this process has made", error);
    }
    return go_on(keys, written->revision);
}

static polydb_host_cause etcd_write(polydb_store *store, const store_write *writes, size_t count, polydb_host_error *error) {
    site_keys *keys = keys_of(store);
    char owner[KEY_ROOM], last[KEY_ROOM], next[KEY_ROOM];
    etcd_answer answer;
    name_key(keys, owner, "owner");
    name_write(keys, last, keys->next - 1);
    name_write(keys, next, keys->next);
    spell_write(keys, writes, count);
    begin(keys, "{\"compare\":[");
    add_is_value(keys, owner, keys->owner);
    text_print(&keys->request, ",");
    add_is_revision(keys, last, keys->last_revision);
    text_print(&keys->request, ",");
    add_is_revision(keys, next, 0);
    text_print(&keys->request, "],\"success\":[");
    add_put(keys, next, keys->value.bytes, keys->value.length);
    text_print(&keys->request, "],\"failure\":[");
    add_get(keys, owner);
    text_print(&keys->request, ",");
    add_look(keys, last);
    text_print(&keys->request, ",");
    add_get(keys, next);
    text_print(&keys->request, "]}");
    if (keys->value.has_failed || keys->request.has_failed) {
        return refuse(error, POLYDB_HOST_NO_MEMORY, "a write", "");
    }
    if (keys->value.length > MOST_WRITE) {
        return refuse(error, POLYDB_HOST_STORE, "a write is longer than etcd takes", "");
    }
    if (!ask(keys, "/v3/kv/txn", &answer)) {
        return refuse_store(keys, error);
    }
    polydb_host_cause cause = answer.succeeded ? go_on(keys, answer.revision) : judge(keys, &answer, owner, last, next, error);
    answer_free(&answer);
    return cause;
}

/* ---- how full the store is ---- */

static polydb_host_fill etcd_fill(polydb_store *store) {
    site_keys *keys = keys_of(store);
    etcd_answer answer;
    bool is_time = keys->sized == 0 || client_now() - keys->sized > FILL_AGAIN;
    if (is_time && keys->client.is_heard) { /* where no member answers it waits enough for what it has to ask */
        keys->sized = client_now();
        begin(keys, "{}");
        if (client_ask(&keys->client, "/v3/maintenance/status", &keys->request, ATTEMPT, &answer)) {
            keys->size = answer.size;
            answer_free(&answer);
        }
    }
    return (polydb_host_fill){.used = keys->size, .limit = keys->limit};
}

/* ---- opening and closing ---- */

/* In the child of a fork all is left as it is: the connection is the parent's. */
static void etcd_close(polydb_store *store, bool is_owner) {
    site_keys *keys = keys_of(store);
    if (is_owner) {
        client_close(&keys->client);
        text_free(&keys->value);
        text_free(&keys->request);
        free(keys->prefix);
        free(keys);
    }
}

static const store_calls ETCD = {.read = etcd_read,
                                 .settle = etcd_settle,
                                 .write = etcd_write,
                                 .confirm = etcd_confirm,
                                 .fill = etcd_fill,
                                 .close = etcd_close,
                                 .is_whole = true};

polydb_host_cause polydb_etcd_open(polydb_store **store, const polydb_etcd_setup *setup, uint8_t site, polydb_host_error *error) {
    *store = NULL;
    *error = (polydb_host_error){.cause = POLYDB_HOST_DONE};
    const char *prefix = setup->prefix == NULL ? "polydb/" : setup->prefix;
    if (strlen(prefix) > KEY_ROOM - 64) {
        return refuse(error, POLYDB_HOST_STORE, "the prefix of the keys is too long", "");
    }
    site_keys *keys = malloc(sizeof *keys);
    if (keys == NULL) {
        return refuse(error, POLYDB_HOST_NO_MEMORY, "etcd", "");
    }
    *keys = (site_keys){.store = {.calls = &ETCD},
                        .site = site,
                        .patience = setup->patience == 0 ? FIRST_PATIENCE : setup->patience,
                        .limit = setup->limit == 0 ? DEFAULT_LIMIT : setup->limit};
    polydb_host_cause cause = client_open(&keys->client, setup, error);
    if (cause == POLYDB_HOST_DONE && asprintf(&keys->prefix, "%ssite-%u/", prefix, (unsigned)site) < 0) {
        keys->prefix = NULL;
        cause = refuse(error, POLYDB_HOST_NO_MEMORY, "etcd", "");
    }
    if (cause != POLYDB_HOST_DONE) {
        etcd_close(&keys->store, true);
        return cause;
    }
    *store = &keys->store;
    return cause;
}
