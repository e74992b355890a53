/* Who the peers are: the file of addresses and public keys, and the file of a secret key. */
#ifndef POLYDB_PEERS_H
#define POLYDB_PEERS_H

#include "polydb_node.h"

enum { SITES = 16, KEY_LENGTH = 32, ADDRESS_ROOM = 256 };

typedef struct {
    bool is_there;
    char address[ADDRESS_ROOM];
    char key[POLYDB_NODE_KEY_ROOM];
    uint8_t key_bytes[KEY_LENGTH];
} peer;

typedef struct {
    char public[POLYDB_NODE_KEY_ROOM];
    char secret[POLYDB_NODE_KEY_ROOM];
} key_pair;

/* Reads the file of peers into a table by number. */
polydb_host_cause read_peers(const char *path, peer peers[SITES], polydb_host_error *error);

/* Reads the file of a secret key, and works out the public one. */
polydb_host_cause read_key(const char *path, key_pair *keys, polydb_host_error *error);

/* The site that has this public key, or -1. */
int site_of_key(const peer peers[SITES], const uint8_t *key, size_t length);

/* Sets an error, and gives its cause. `what` is cut where it is too long. */
polydb_host_cause node_refuse(polydb_host_error *error, polydb_host_cause cause, int number, const char *what, ...) __attribute__((format(printf, 4, 5)));

#endif
