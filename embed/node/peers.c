/* Who the peers are: the file of addresses and public keys, and the file of a secret key. */
#define _GNU_SOURCE

#include "peers.h"

#include <errno.h>
#include <fcntl.h>
#include <stdarg.h>
#include <stdio.h>
#include <string.h>
#include <sys/stat.h>
#include <unistd.h>
#include <zmq.h>

polydb_host_cause node_refuse(polydb_host_error *error, polydb_host_cause cause, int number, const char *what, ...) {
    va_list words;
    *error = (polydb_host_error){.cause = cause, .number = number};
    va_start(words, what);
    vsnprintf(error->what, sizeof error->what, what, words);
    va_end(words);
    return cause;
}

/* ---- the file of peers ---- */

static bool is_blank(const char *line) {
    line += strspn(line, " \t\r\n");
    return *line == '\0' || *line == '#';
}

/* Whether the line is `SITE ADDRESS KEY` of a site that no line before has. */
static bool take_peer(const char *line, peer peers[SITES]) {
    unsigned site;
    char address[ADDRESS_ROOM], key[POLYDB_NODE_KEY_ROOM + 1], rest;
    if (sscanf(line, "%u %255s %41s %c", &site, address, key, &rest) != 3 || site >= SITES || peers[site].is_there) {
        return false;
    }
    peer *one = &peers[site];
    if (strlen(key) != POLYDB_NODE_KEY_ROOM - 1 || zmq_z85_decode(one->key_bytes, key) == NULL || site_of_key(peers, one->key_bytes, KEY_LENGTH) >= 0) {
        return false;
    }
    one->is_there = true;
    strcpy(one->address, address);
    strcpy(one->key, key);
    return true;
}

polydb_host_cause read_peers(const char *path, peer peers[SITES], polydb_host_error *error) {
    memset(peers, 0, SITES * sizeof *peers);
    FILE *file = fopen(path, "re");
    if (file == NULL) {
        return node_refuse(error, POLYDB_HOST_SYSTEM, errno, "open the file of peers");
    }
    char line[512];
    polydb_host_cause cause = POLYDB_HOST_DONE;
    for (unsigned number = 1; cause == POLYDB_HOST_DONE && fgets(line, sizeof line, file) != NULL; number++) {
        if (!is_blank(line) && !take_peer(line, peers)) {
            cause = node_refuse(error, POLYDB_NODE_BAD_FILE, 0, "line %u of the file of peers", number);
        }
    }
    if (cause == POLYDB_HOST_DONE && ferror(file)) {
        cause = node_refuse(error, POLYDB_HOST_SYSTEM, errno, "read the file of peers");
    }
    fclose(file);
    return cause;
}

int site_of_key(const peer peers[SITES], const uint8_t *key, size_t length) {
    for (int site = 0; site < SITES; site++) {
        if (peers[site].is_there && length == KEY_LENGTH && memcmp(peers[site].key_bytes, key, KEY_LENGTH) == 0) {
            return site;
        }
    }
    return -1;
}

/* ---- the file of a key ---- */

static const char SECRET[] = "secret ";

polydb_host_cause read_key(const char *path, key_pair *keys, polydb_host_error *error) {
    FILE *file = fopen(path, "re");
    if (file == NULL) {
        return node_refuse(error, POLYDB_HOST_SYSTEM, errno, "open the file of the key");
    }
    struct stat about;
    if (fstat(fileno(file), &about) != 0) {
        polydb_host_cause cause = node_refuse(error, POLYDB_HOST_SYSTEM, errno, "stat the file of the key");
        fclose(file);
        return cause;
    }
    if ((about.st_mode & (S_IRWXG | S_IRWXO)) != 0) { /* whoever has it, is this site */
        fclose(file);
        return node_refuse(error, POLYDB_NODE_BAD_FILE, 0, "the file of the key, open to others (mode %03o)", (unsigned)(about.st_mode & 0777));
    }
    char line[sizeof SECRET + POLYDB_NODE_KEY_ROOM];
    bool is_key = fgets(line, sizeof line, file) != NULL && strncmp(line, SECRET, sizeof SECRET - 1) == 0;
    fclose(file);
    if (is_key) {
        line[strcspn(line, "\r\n")] = '\0';
        is_key = strlen(line) == sizeof SECRET - 1 + POLYDB_NODE_KEY_ROOM - 1;
    }
    if (is_key) {
        strcpy(keys->secret, line + sizeof SECRET - 1);
        is_key = zmq_curve_public(keys->public, keys->secret) == 0;
    }
    return is_key ? POLYDB_HOST_DONE : node_refuse(error, POLYDB_NODE_BAD_FILE, 0, "the file of the key");
}

polydb_host_cause polydb_node_public_key(const char *path, char public_key[POLYDB_NODE_KEY_ROOM], polydb_host_error *error) {
    key_pair keys;
    polydb_host_cause cause = read_key(path, &keys, error);
    if (cause == POLYDB_HOST_DONE) {
        strcpy(public_key, keys.public);
    }
    return cause;
}

/* Writes all of a text, syncs it and closes the file. */
static bool write_text(int file, const char *text) {
    size_t length = strlen(text);
    bool is_written = write(file, text, length) == (ssize_t)length && fsync(file) == 0;
    return close(file) == 0 && is_written;
}

polydb_host_cause polydb_node_new_key(const char *path, char public_key[POLYDB_NODE_KEY_ROOM], polydb_host_error *error) {
    key_pair keys;
    char text[sizeof SECRET + POLYDB_NODE_KEY_ROOM];
    if (zmq_curve_keypair(keys.public, keys.secret) != 0) {
        return node_refuse(error, POLYDB_NODE_NET, zmq_errno(), "a pair of keys");
    }
    int file = open(path, O_WRONLY | O_CREAT | O_EXCL | O_CLOEXEC, 0600);
    if (file < 0) {
        return node_refuse(error, POLYDB_HOST_SYSTEM, errno, "make the file of the key");
    }
    snprintf(text, sizeof text, "%s%s\n", SECRET, keys.secret);
    if (!write_text(file, text)) {
        int number = errno;
        unlink(path);
        return node_refuse(error, POLYDB_HOST_SYSTEM, number, "write the file of the key");
    }
    strcpy(public_key, keys.public);
    return POLYDB_HOST_DONE;
}
