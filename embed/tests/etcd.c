/*
 * The parts of the store in etcd that need no etcd: base64, the reader of answers (whole, cut anywhere, with any byte another one), addresses that are none, and members that don't answer.
 * It is compiled with the sources of `etcd/`. What needs etcd is in `etcd_sites.py` and `etcd_nodes.py`.
 */
#define _GNU_SOURCE

#include <assert.h>
#include <stdio.h>
#include <stdlib.h>
#include <string.h>

#include "etcd/answers.h"
#include "etcd/base64.h"
#include "etcd/polydb_etcd.h"

static void base64_comes_back(void) {
    static const char *const KNOWN[][2] = {{"", ""}, {"f", "Zg=="}, {"fo", "Zm8="}, {"foo", "Zm9v"}, {"foob", "Zm9vYg=="}, {"fooba", "Zm9vYmE="}, {"foobar", "Zm9vYmFy"}};
    for (size_t i = 0; i < sizeof KNOWN / sizeof *KNOWN; i++) {
        text out = {.bytes = NULL};
        base64_add(&out, KNOWN[i][0], strlen(KNOWN[i][0]));
        assert(out.length == strlen(KNOWN[i][1]) && (out.length == 0 || memcmp(out.bytes, KNOWN[i][1], out.length) == 0));
        assert(base64_decode(out.bytes, &out.length) && out.length == strlen(KNOWN[i][0]) && (out.length == 0 || memcmp(out.bytes, KNOWN[i][0], out.length) == 0));
        text_free(&out);
    }
    for (int length = 0; length < 300; length++) {
        uint8_t bytes[300];
        text out = {.bytes = NULL};
        for (int i = 0; i < length; i++) {
            bytes[i] = (uint8_t)rand();
        }
        base64_add(&out, bytes, (size_t)length);
        assert(base64_decode(out.bytes, &out.length) && out.length == (size_t)length && (length == 0 || memcmp(out.bytes, bytes, (size_t)length) == 0));
        text_free(&out);
    }
    static const char *const WRONG[] = {"Z", "Zg", "Zg=", "Z===", "====", "Zg==Zg==", "Z*==", "Zm\n8=", "Zm9-"};
    for (size_t i = 0; i < sizeof WRONG / sizeof *WRONG; i++) {
        char letters[16];
        size_t length = strlen(strcpy(letters, WRONG[i]));
        assert(!base64_decode(letters, &length));
    }
}

static const char REFUSED[] = "{\"header\":{\"cluster_id\":\"14841639068965178418\",\"member_id\":\"1\",\"revision\":\"12\",\"raft_term\":\"3\"},\n"
                              " \"responses\":[{\"response_range\":{\"header\":{\"revision\":\"12\"},\"kvs\":[{\"key\":\"Zm9v\",\"create_revision\":\"2\",\"mod_revision\":\"7\",\"version\":\"1\","
                              "\"value\":\"Zm9v\\u0059mFy\"}],\"count\":\"1\"}},{\"response_range\":{\"header\":{\"revision\":\"12\"}}},{\"response_put\":{\"header\":{}}}]}";

static bool reads(const char *bytes, size_t length, etcd_answer *answer, text *json) {
    *json = (text){.bytes = NULL};
    text_add(json, bytes, length);
    return answer_read(answer, json);
}

static void answers_are_read(void) {
    etcd_answer answer;
    text json;
    assert(reads(REFUSED, strlen(REFUSED), &answer, &json));
    assert(answer.cluster == 14841639068965178418u && answer.revision == 12 && !answer.succeeded && answer.count == 1 && answer.total == 1 && !answer.more);
    const etcd_pair *pair = answer_pair(&answer, "foo");
    assert(pair != NULL && pair->revision == 7 && has_value(pair, "foobar", 6) && !has_value(pair, "foobaz", 6) && !has_value(pair, "foo", 3));
    assert(answer_pair(&answer, "fo") == NULL && answer_pair(&answer, "") == NULL && !has_value(NULL, "", 0));
    answer_free(&answer);
    text_free(&json);
    static const char TRUTHS[] = "{\"succeeded\" : true , \"more\":true,\"count\":3,\"kvs\":[],\"other\":[1,-2.5e+7,null,false,{\"a\":[[]]},\"\\\"\\\\\\/\\b\\f\\n\\r\\t\"],\"dbSize\":\"24576\"}";
    assert(reads(TRUTHS, strlen(TRUTHS), &answer, &json));
    assert(answer.succeeded && answer.more && answer.total == 3 && answer.count == 0 && answer.size == 24576);
    answer_free(&answer);
    text_free(&json);
    static const char *const WRONG[] = {"",         "{",          "[]",           "{\"succeeded\":1}",    "{\"succeeded\":true,}",  "{\"count\":-1}", "{\"count\":\"18446744073709551616\"}",
                                        "{\"a\":}", "{\"a\" 1}",  "{\"a\":tru}",  "{\"kvs\":[{\"key\":\"x\"}]}", "{}{}",            "{\"a\":\"\n\"}", "{\"a\":\"\\u00\"}",
                                        "{a:1}",    "{\"a\":[1}", "404 not here", "{\"a\":[[[[[[[[[[[[[[[[[[[[1]]]]]]]]]]]]]]]]]]]]}", "{\"kvs\":{}}"};
    for (size_t i = 0; i < sizeof WRONG / sizeof *WRONG; i++) {
        assert(!reads(WRONG[i], strlen(WRONG[i]), &answer, &json) && "it is no answer");
        answer_free(&answer);
        text_free(&json);
    }
}

/* Whatever comes is read or refused, and nothing else is touched: the sanitizers look. */
static void anything_is_survived(void) {
    etcd_answer answer;
    text json;
    for (size_t length = 0; length < strlen(REFUSED); length++) {
        assert(!reads(REFUSED, length, &answer, &json));
        answer_free(&answer);
        text_free(&json);
    }
    char bytes[sizeof REFUSED];
    for (int i = 0; i < 100000; i++) {
        strcpy(bytes, REFUSED);
        for (int changes = 1 + rand() % 3; changes > 0; changes--) {
            bytes[(size_t)rand() % (sizeof bytes - 1)] = rand() % 2 == 0 ? (char)rand() : "{}[]\":,\\0"[rand() % 9];
        }
        reads(bytes, sizeof bytes - 1, &answer, &json);
        answer_free(&answer);
        text_free(&json);
    }
}

static void on_message(void *context, uint8_t to, const uint8_t *bytes, size_t length) { (void)context, (void)to, (void)bytes, (void)length; }
static void on_report(void *context, const char *line, size_t length, uint64_t tag) { (void)context, (void)line, (void)length, (void)tag; }

static void nobody_is_there(void) {
    static const char *const WRONG[] = {"", ",", "127.0.0.1:2379", "ftp://127.0.0.1", "http://127.0.0.1:1,nonsense"};
    static const char CONFIG[] = "sites 1\nitem a 0 100\n";
    polydb_host_error error;
    polydb_store *store;
    char words[200];
    for (size_t i = 0; i < sizeof WRONG / sizeof *WRONG; i++) {
        assert(polydb_etcd_open(&store, &(polydb_etcd_setup){.urls = WRONG[i]}, 0, &error) == POLYDB_HOST_STORE && store == NULL);
    }
    assert(polydb_etcd_open(&store, &(polydb_etcd_setup){.urls = " http://127.0.0.1:1/ , http://127.0.0.1:2", .patience = 100}, 0, &error) == POLYDB_HOST_DONE);
    polydb_host_setup setup = {.store = store, .config = (const uint8_t *)CONFIG, .config_length = strlen(CONFIG), .message = on_message, .report = on_report};
    polydb_host_found found;
    polydb_host *host;
    assert(polydb_host_open(&host, &setup, &found, &error) == POLYDB_HOST_STORE && host == NULL);
    assert(strstr(polydb_host_describe(&error, words, sizeof words), "127.0.0.1") != NULL);
    assert(polydb_etcd_open(&store, &(polydb_etcd_setup){.urls = "http://127.0.0.1:1"}, 0, &error) == POLYDB_HOST_DONE);
    polydb_store_close(store);
    polydb_store_close(NULL);
}

int main(void) {
    srand(1);
    base64_comes_back();
    answers_are_read();
    anything_is_survived();
    nobody_is_there();
    puts("base64, answers and addresses: as they should be");
}
