/* Bytes that come and go: a buffer that grows, and answers in it as lines or as JSON. */
#define _GNU_SOURCE

#include "text.h"

#include <inttypes.h>
#include <stdarg.h>
#include <stdio.h>
#include <stdlib.h>
#include <string.h>

/* ---- buffers ---- */

static bool make_room(text *out, size_t more) {
    if (out->has_failed) {
        return false;
    }
    size_t needed = out->length + more;
    if (needed > out->room) {
        size_t room = needed < 512 ? 1024 : 2 * needed;
        char *bytes = realloc(out->bytes, room);
        if (bytes == NULL) {
            out->has_failed = true;
            return false;
        }
        out->bytes = bytes;
        out->room = room;
    }
    return true;
}

void text_add(text *out, const char *bytes, size_t length) {
    if (length > 0 && make_room(out, length)) {
        memcpy(out->bytes + out->length, bytes, length);
        out->length += length;
    }
}

void text_print(text *out, const char *words, ...) {
    va_list parts;
    va_start(parts, words);
    int length = vsnprintf(NULL, 0, words, parts);
    va_end(parts);
    if (length >= 0 && make_room(out, (size_t)length + 1)) {
        va_start(parts, words);
        vsnprintf(out->bytes + out->length, (size_t)length + 1, words, parts);
        va_end(parts);
        out->length += (size_t)length;
    }
}

void text_drop(text *out, size_t length) {
    if (length == 0) {
        return;
    }
    memmove(out->bytes, out->bytes + length, out->length - length);
    out->length -= length;
}

void text_free(text *out) {
    free(out->bytes);
    *out = (text){.bytes = NULL};
}

/* ---- words of a line ---- */

/* A word of a line, and where the next one begins. */
typedef struct {
    const char *at;
    int length;
} word;

static word next_word(const char **line) {
    *line += strspn(*line, " ");
    word found = {.at = *line, .length = (int)strcspn(*line, " ")};
    *line += found.length;
    return found;
}

static bool is_word(word one, const char *other) { return strlen(other) == (size_t)one.length && memcmp(one.at, other, (size_t)one.length) == 0; }

static bool is_number(word one) {
    int sign = one.length > 1 && one.at[0] == '-';
    return one.length > sign && (int)strspn(one.at + sign, "0123456789") >= one.length - sign;
}

/* ---- JSON ---- */

static void json_string(text *out, const char *bytes, int length) {
    text_add(out, "\"", 1);
    for (int i = 0; i < length; i++) {
        unsigned char byte = (unsigned char)bytes[i];
        if (byte == '"' || byte == '\\') {
            text_print(out, "\\%c", byte);
        } else if (byte < ' ' || byte > '~') {
            text_print(out, "\\u%04x", byte);
        } else {
            text_add(out, &bytes[i], 1);
        }
    }
    text_add(out, "\"", 1);
}

static void json_word(text *out, word one) {
    if (is_number(one)) {
        text_add(out, one.at, (size_t)one.length);
    } else {
        json_string(out, one.at, one.length);
    }
}

/* `T certain R`, or `T possible R R`. */
static void json_commit(text *out, const char *rest) {
    word transaction = next_word(&rest);
    next_word(&rest);
    text_print(out, "\"commit\":");
    json_string(out, transaction.at, transaction.length);
    text_print(out, ",\"replies\":[");
    const char *between = "";
    for (word reply = next_word(&rest); reply.length > 0; reply = next_word(&rest)) {
        text_print(out, "%s", between);
        json_word(out, reply);
        between = ",";
    }
    text_print(out, "],");
}

/* What the words of a refusal are behind its cause, in their order, by the names of their members. */
static const struct {
    const char *cause;
    const char *members[3];
} CAUSES[] = {
    {"conflict", {"site", "item", "holder"}}, {"outcome-limit", {"names", NULL, NULL}}, {"uncertain", {"item", "names", NULL}},
    {"expired", {"site", NULL, NULL}},        {"grant-lost", {"site", NULL, NULL}},     {"journal-full", {"site", "length", NULL}},
};

static void json_member_named(text *out, const char *const *members, const word *values, const char *name) {
    for (int i = 0; i < 3 && members[i] != NULL; i++) {
        if (strcmp(members[i], name) == 0) {
            text_print(out, "\"%s\":", name);
            json_word(out, values[i]);
            text_print(out, ",");
        }
    }
}

/* `T CAUSE ..`, with the members in the order of their bytes. */
static void json_refuse(text *out, const char *rest) {
    static const char *const NONE[3] = {NULL, NULL, NULL};
    word transaction = next_word(&rest), cause = next_word(&rest), values[3];
    for (int i = 0; i < 3; i++) {
        values[i] = next_word(&rest);
    }
    const char *const *members = NONE;
    for (size_t i = 0; i < sizeof CAUSES / sizeof *CAUSES; i++) {
        if (is_word(cause, CAUSES[i].cause)) {
            members = CAUSES[i].members;
        }
    }
    text_print(out, "\"cause\":");
    json_string(out, cause.at, cause.length);
    text_print(out, ",");
    json_member_named(out, members, values, "holder");
    json_member_named(out, members, values, "item");
    json_member_named(out, members, values, "length");
    json_member_named(out, members, values, "names");
    text_print(out, "\"refuse\":");
    json_string(out, transaction.at, transaction.length);
    text_print(out, ",");
    json_member_named(out, members, values, "site");
}

/* `V`, or `V if +T -T ; V if ..`. */
static void json_cases(text *out, const char *rest) {
    const char *between_cases = "";
    text_print(out, "\"cases\":[");
    word value = next_word(&rest);
    while (value.length > 0) {
        text_print(out, "%s{\"value\":", between_cases);
        json_word(out, value);
        text_print(out, ",\"when\":[");
        const char *between = "";
        word one = next_word(&rest);
        for (; one.length > 0 && !is_word(one, ";"); one = next_word(&rest)) {
            if (!is_word(one, "if")) {
                text_print(out, "%s", between);
                json_string(out, one.at, one.length);
                between = ",";
            }
        }
        text_print(out, "]}");
        between_cases = ",";
        value = next_word(&rest);
    }
    text_print(out, "],");
}

/* `NAME CASES`, or `NAME locked T`. */
static void json_item(text *out, const char *rest) {
    word name = next_word(&rest);
    const char *values = rest;
    bool is_locked = is_word(next_word(&values), "locked");
    if (!is_locked) {
        json_cases(out, rest);
    }
    text_print(out, "\"item\":");
    json_string(out, name.at, name.length);
    text_print(out, ",");
    if (is_locked) {
        word holder = next_word(&values);
        text_print(out, "\"locked\":");
        json_string(out, holder.at, holder.length);
        text_print(out, ",");
    }
}

static void json_words(text *out, word name, const char *rest) {
    rest += strspn(rest, " ");
    json_string(out, name.at, name.length);
    text_print(out, ":");
    json_string(out, rest, (int)strlen(rest));
    text_print(out, ",");
}

static void json_answer(text *out, uint64_t tag, const char *line) {
    const char *rest = line;
    word first = next_word(&rest);
    text_print(out, "{");
    if (is_word(first, "txn")) {
        text_print(out, "\"tag\":%" PRIu64 ",\"txn\":", tag);
        word transaction = next_word(&rest);
        json_string(out, transaction.at, transaction.length);
        text_print(out, "}\n");
        return;
    }
    if (is_word(first, "outcome")) {
        word transaction = next_word(&rest), outcome = next_word(&rest);
        text_print(out, "\"outcome\":");
        json_string(out, outcome.at, outcome.length);
        text_print(out, ",\"tag\":%" PRIu64 ",\"txn\":", tag);
        json_string(out, transaction.at, transaction.length);
        text_print(out, "}\n");
        return;
    }
    if (is_word(first, "commit")) {
        json_commit(out, rest);
    } else if (is_word(first, "refuse")) {
        json_refuse(out, rest);
    } else if (is_word(first, "item")) {
        json_item(out, rest);
    } else {
        json_words(out, first, rest);
    }
    text_print(out, "\"tag\":%" PRIu64 "}\n", tag);
}

void text_answer(text *out, bool is_json, uint64_t tag, const char *line) {
    if (is_json) {
        json_answer(out, tag, line);
        return;
    }
    const char *rest = line;
    word first = next_word(&rest);
    text_print(out, "%.*s %" PRIu64 "%s\n", first.length, first.at, tag, rest);
}
