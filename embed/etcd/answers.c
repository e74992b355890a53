/* What etcd answers, out of its JSON (RFC 8259): a reader that goes through a text once, member by member, and knows of each what to do with it. */
#include "answers.h"

#include <stdlib.h>
#include <string.h>

#include "base64.h"

/* How deep objects and lists may lie in one another. Those of etcd lie 6 deep. */
enum { DEEPEST = 16 };

/* What is left of a text. It has failed once something isn't as it should be, and gives nothing from then on. */
typedef struct {
    char *at, *end;
    int depth;
    bool has_failed;
} reader;

static char next_of(reader *in) {
    while (in->at < in->end && (*in->at == ' ' || *in->at == '\t' || *in->at == '\n' || *in->at == '\r')) {
        in->at++;
    }
    return in->at < in->end && !in->has_failed ? *in->at : '\0';
}

/* Takes this byte, if it is next; whether it was. */
static bool take(reader *in, char byte) {
    bool is_next = next_of(in) == byte;
    in->at += is_next;
    return is_next;
}

static bool fail(reader *in) {
    in->has_failed = true;
    return false;
}

/* The next member of an object or element of a list, which begins by the one byte and ends by the other; whether there is one. */
static bool step(reader *in, bool *is_first, char begin, char end) {
    if (*is_first) {
        *is_first = false;
        if (!take(in, begin) || ++in->depth > DEEPEST) {
            return fail(in);
        }
        if (!take(in, end)) {
            return true;
        }
    } else if (take(in, ',')) {
        return true;
    } else if (!take(in, end)) {
        return fail(in);
    }
    in->depth--;
    return false;
}

/* Four hexadecimal digits, as a character of ASCII: no other is escaped in what is read here. */
static bool take_unicode(reader *in, char *byte) {
    unsigned number = 0;
    for (int i = 0; i < 4; i++) {
        const char *found = in->at < in->end && *in->at != '\0' ? strchr("0123456789abcdef0123456789ABCDEF", *in->at) : NULL;
        if (found == NULL) {
            return fail(in);
        }
        number = number << 4 | (unsigned)(found - "0123456789abcdef0123456789ABCDEF") % 16;
        in->at++;
    }
    *byte = number < 128 ? (char)number : '?';
    return true;
}

static bool take_escape(reader *in, char *byte) {
    static const char NAMES[] = "\"\\/bfnrt", BYTES[] = "\"\\/\b\f\n\r\t";
    char name = in->at < in->end ? *in->at++ : '\0';
    if (name == 'u') {
        return take_unicode(in, byte);
    }
    const char *found = name == '\0' ? NULL : strchr(NAMES, name);
    if (found == NULL) {
        return fail(in);
    }
    *byte = BYTES[found - NAMES];
    return true;
}

/* A string, where it stands. */
static bool take_string(reader *in, char **bytes, size_t *length) {
    *bytes = NULL;
    *length = 0;
    if (!take(in, '"')) {
        return fail(in);
    }
    char *out = *bytes = in->at;
    while (in->at < in->end && *in->at != '"') {
        char byte = *in->at++;
        if ((unsigned char)byte < ' ' || (byte == '\\' && !take_escape(in, &byte))) {
            return fail(in);
        }
        *out++ = byte;
    }
    *length = (size_t)(out - *bytes);
    return take(in, '"') || fail(in);
}

/* The name of the next member of an object. */
static bool take_name(reader *in, bool *is_first, char **name, size_t *length) {
    return step(in, is_first, '{', '}') && take_string(in, name, length) && (take(in, ':') || fail(in));
}

static bool is_named(const char *name, size_t length, const char *other) { return length == strlen(other) && memcmp(name, other, length) == 0; }

/* A number, as digits or as a string of them; what is greater than 64 bits hold, or negative, isn't one here. */
static uint64_t take_number(reader *in) {
    bool is_quoted = take(in, '"'), any = false;
    uint64_t number = 0;
    while (in->at < in->end && *in->at >= '0' && *in->at <= '9') {
        uint64_t digit = (uint64_t)(*in->at++ - '0');
        if (number > (UINT64_MAX - digit) / 10) {
            fail(in);
        }
        number = 10 * number + digit;
        any = true;
    }
    if (!any || (is_quoted && !take(in, '"'))) {
        fail(in);
    }
    return in->has_failed ? 0 : number;
}

static bool take_word(reader *in, const char *word) {
    size_t length = strlen(word);
    next_of(in);
    if ((size_t)(in->end - in->at) < length || memcmp(in->at, word, length) != 0) {
        return false;
    }
    in->at += length;
    return true;
}

static bool take_truth(reader *in) { return take_word(in, "true") || (!take_word(in, "false") && fail(in)); }

/* Anything at all. */
static void skip(reader *in) {
    bool is_first = true;
    char *name;
    size_t length;
    switch (next_of(in)) {
    case '{':
        while (take_name(in, &is_first, &name, &length)) {
            skip(in);
        }
        break;
    case '[':
        while (step(in, &is_first, '[', ']')) {
            skip(in);
        }
        break;
    case '"':
        take_string(in, &name, &length);
        break;
    default:
        if (!take_word(in, "true") && !take_word(in, "false") && !take_word(in, "null")) {
            size_t digits = in->has_failed ? 0 : strspn(in->at, "+-.0123456789Ee"); /* a zero stands behind the text */
            in->at += digits;
            in->has_failed |= digits == 0;
        }
    }
}

static bool take_bytes(reader *in, const char **bytes, size_t *length) {
    char *letters;
    bool is_taken = take_string(in, &letters, length) && (base64_decode(letters, length) || fail(in));
    *bytes = letters;
    return is_taken;
}

static void read_pair(reader *in, etcd_pair *pair) {
    bool is_first = true;
    char *name;
    size_t length;
    *pair = (etcd_pair){.key = "", .value = ""};
    while (take_name(in, &is_first, &name, &length)) {
        if (is_named(name, length, "key")) {
            take_bytes(in, &pair->key, &pair->key_length);
        } else if (is_named(name, length, "value")) {
            take_bytes(in, &pair->value, &pair->value_length);
        } else if (is_named(name, length, "mod_revision")) {
            pair->revision = take_number(in);
        } else {
            skip(in);
        }
    }
}

static void read_pairs(reader *in, etcd_answer *answer) {
    bool is_first = true;
    while (step(in, &is_first, '[', ']')) {
        if (answer->count == answer->room) {
            size_t room = answer->room == 0 ? 8 : 2 * answer->room;
            etcd_pair *larger = realloc(answer->pairs, room * sizeof *larger);
            if (larger == NULL) {
                fail(in);
                return;
            }
            answer->pairs = larger;
            answer->room = room;
        }
        read_pair(in, &answer->pairs[answer->count++]);
    }
}

static void read_header(reader *in, etcd_answer *answer) {
    bool is_first = true;
    char *name;
    size_t length;
    while (take_name(in, &is_first, &name, &length)) {
        if (is_named(name, length, "cluster_id")) {
            answer->cluster = take_number(in);
        } else if (is_named(name, length, "revision")) {
            answer->revision = take_number(in);
        } else {
            skip(in);
        }
    }
}

/* An answer, or one of those within that of a transaction. */
static void read_object(reader *in, etcd_answer *answer, bool is_within) {
    bool is_first = true;
    char *name;
    size_t length;
    while (take_name(in, &is_first, &name, &length)) {
        if (is_named(name, length, "header") && !is_within) {
            read_header(in, answer);
        } else if (is_named(name, length, "kvs")) {
            read_pairs(in, answer);
        } else if (is_named(name, length, "succeeded")) {
            answer->succeeded = take_truth(in);
        } else if (is_named(name, length, "more")) {
            answer->more = take_truth(in);
        } else if (is_named(name, length, "count")) {
            answer->total = take_number(in);
        } else if (is_named(name, length, "dbSize")) {
            answer->size = take_number(in);
        } else if (is_named(name, length, "response_range")) {
            read_object(in, answer, true);
        } else if (is_named(name, length, "responses")) {
            bool is_first_response = true;
            while (step(in, &is_first_response, '[', ']')) {
                read_object(in, answer, true);
            }
        } else {
            skip(in);
        }
    }
}

bool answer_read(etcd_answer *answer, text *json) {
    *answer = (etcd_answer){.pairs = NULL};
    text_add(json, "", 1); /* a zero, where numbers end */
    if (json->has_failed) {
        return false;
    }
    reader in = {.at = json->bytes, .end = json->bytes + json->length - 1};
    read_object(&in, answer, false);
    return !in.has_failed && next_of(&in) == '\0' && in.at == in.end;
}

void answer_free(etcd_answer *answer) {
    free(answer->pairs);
    *answer = (etcd_answer){.pairs = NULL};
}

const etcd_pair *answer_pair(const etcd_answer *answer, const char *key) {
    for (size_t i = 0; i < answer->count; i++) {
        if (is_named(answer->pairs[i].key, answer->pairs[i].key_length, key)) {
            return &answer->pairs[i];
        }
    }
    return NULL;
}

bool has_value(const etcd_pair *pair, const void *value, size_t length) { return pair != NULL && pair->value_length == length && memcmp(pair->value, value, length) == 0; }
