/*
 * A node: a site on a folder, the sockets to its peers, and the clock.
 *
 * One socket takes what all peers send (a ROUTER, as the server of CURVE), and one for each peer sends there (a DEALER, as its client); what a peer answers to a
 * hello comes back by the latter. libzmq asks of each connection whether its key may come in, by ZAP (its RFC 27), and gives the site's number with each frame.
 * All descriptors stand in one epoll, so that a program waits for a node by one descriptor. Those of libzmq say only once that something has come: so work goes
 * on until nothing is left, or is noted in an eventfd.
 */
#define _GNU_SOURCE

#include <errno.h>
#include <inttypes.h>
#include <poll.h>
#include <stdarg.h>
#include <sodium.h>
#include <stdio.h>
#include <stdlib.h>
#include <string.h>
#include <sys/epoll.h>
#include <sys/eventfd.h>
#include <sys/timerfd.h>
#include <time.h>
#include <unistd.h>
#include <zmq.h>

#include "peers.h"
#include "polydb.h"
#include "requests.h"

enum {
    VERSION = 2,
    DIGEST = 16,
    HEAD = 4 + DIGEST,
    MESSAGE_FROM = 1,         /* where in a message the site stands that it comes from */
    MOST_MESSAGE = 8454261,   /* no message has more bytes; by its format it has at most 1,245,141 */
    QUEUE = 4096,             /* frames that wait for a peer */
    ROUND = 256,              /* frames that are taken before what they make is written */
    ROUNDS = 16,              /* such rounds in one call of polydb_node_work */
    ROUTE_ROOM = 256,         /* what a ROUTER calls a connection */
    LINGER = 250,             /* milliseconds in which what was sent last may still go */
    HANDSHAKE = 5000,         /* milliseconds that a connection has to show its key */
    BEAT = 1000, SILENT = 4000, /* milliseconds between two hellos; without a sign of a peer until it counts as away */
    RECONNECT = 20, RECONNECT_MOST = 200, /* milliseconds until a peer is tried again that is away: first, and later */
    PAUSE = 50,               /* milliseconds until what has failed is made again */
    SAID_AGAIN = 60000,       /* milliseconds until it is said again that strangers are kept out */
    FIRST_TICK = 100          /* milliseconds between two ticks, if nothing is said */
};

typedef enum { HELLO = 'h', WELCOME = 'w', NO = 'n', MESSAGE = 'm' } kind;

/* What this node knows of a peer. */
typedef struct {
    void *socket; /* to send to it */
    int64_t answered; /* when something came back by that socket; 0 for never */
    int64_t heard; /* when something was heard, in milliseconds of the clock; 0 for never */
    bool is_away;  /* so it was said last */
    bool is_odd;   /* it has another version or configuration, and that was said */
} peer_link;

struct polydb_node {
    polydb_host *host;
    pid_t process; /* the one that opened it */
    uint8_t me;
    unsigned tick;
    key_pair keys;
    peer peers[SITES];
    peer_link links[SITES];
    uint8_t digest[DIGEST];
    void *net;    /* libzmq's context */
    void *all;    /* takes what all peers send */
    void *zap;    /* answers who may come in */
    int epoll, timer, again;
    int64_t beaten;   /* when a hello was sent last */
    int64_t kept_out; /* when it was said last that a stranger was; 0 for never */
    requests requests;
    bool is_spent;
    polydb_host_error failure; /* why the last write or question has failed, if it has, and that was said */
    int64_t failed;            /* when it did */
    bool has_just_failed;      /* it did since polydb_node_work ended last: there is other work before it is made again */
    polydb_host_error replaced; /* once another process has the site, with that cause */
    unsigned filled; /* tenths of the store that were said to be full */
    polydb_node_counts counts;
    void *context;
    void (*answer)(void *context, uint64_t tag, const char *line, size_t length);
    void (*notice)(void *context, const char *words);
};

static int64_t milliseconds(void) {
    struct timespec now;
    clock_gettime(CLOCK_MONOTONIC, &now);
    return (int64_t)now.tv_sec * 1000 + now.tv_nsec / 1000000;
}

static void notice(polydb_node *node, const char *words, ...) __attribute__((format(printf, 2, 3)));
static void notice(polydb_node *node, const char *words, ...) {
    char line[256];
    va_list parts;
    va_start(parts, words);
    vsnprintf(line, sizeof line, words, parts);
    va_end(parts);
    node->notice(node->context, line);
}

static polydb_host_cause refuse_net(polydb_host_error *error, const char *what) { return node_refuse(error, POLYDB_NODE_NET, zmq_errno(), "%s", what); }

/* ---- frames ---- */

static void put_head(const polydb_node *node, uint8_t *head, kind kind) {
    head[0] = 'P';
    head[1] = 'V';
    head[2] = VERSION;
    head[3] = (uint8_t)kind;
    memcpy(head + 4, node->digest, DIGEST);
}

/* Sends a frame to a peer; whether it is on its way. */
static bool send_frame(polydb_node *node, void *socket, kind kind, const uint8_t *bytes, size_t length) {
    zmq_msg_t frame;
    if (zmq_msg_init_size(&frame, HEAD + length) != 0) {
        return false;
    }
    put_head(node, zmq_msg_data(&frame), kind);
    if (length > 0) {
        memcpy((uint8_t *)zmq_msg_data(&frame) + HEAD, bytes, length);
    }
    if (zmq_msg_send(&frame, socket, ZMQ_DONTWAIT) < 0) {
        zmq_msg_close(&frame);
        return false;
    }
    return true;
}

static void on_message(void *context, uint8_t to, const uint8_t *bytes, size_t length) {
    polydb_node *node = context;
    void *socket = to < SITES ? node->links[to].socket : NULL;
    if (socket != NULL && send_frame(node, socket, MESSAGE, bytes, length)) {
        node->counts.sent++;
    } else {
        node->counts.lost++;
    }
}

/* Something was heard from a peer with the same version and configuration. */
static void hear(polydb_node *node, int site) {
    peer_link *one = &node->links[site];
    if (one->is_away || one->heard == 0 || one->is_odd) {
        notice(node, "site %d is here", site);
    }
    one->heard = milliseconds();
    one->is_away = one->is_odd = false;
}

static void look_who_is_away(polydb_node *node) {
    int64_t now = milliseconds();
    for (int site = 0; site < SITES; site++) {
        peer_link *one = &node->links[site];
        if (one->heard != 0 && !one->is_away && now - one->heard > SILENT) {
            one->is_away = true;
            notice(node, "site %d is away", site);
        }
    }
}

static void say_odd(polydb_node *node, int site, const char *what) {
    if (!node->links[site].is_odd) {
        node->links[site].is_odd = true;
        notice(node, "site %d is refused: it has %s", site, what);
    }
}

/* What a frame is: its kind, or 0 with what is wrong about it. */
static char kind_of(const polydb_node *node, const uint8_t *bytes, size_t length, const char **wrong) {
    *wrong = NULL;
    if (length < HEAD || bytes[0] != 'P' || bytes[1] != 'V' || bytes[2] != VERSION) {
        *wrong = length >= 3 && bytes[0] == 'P' && bytes[1] == 'V' ? "another version" : "another protocol";
    } else if (memcmp(bytes + 4, node->digest, DIGEST) != 0) {
        *wrong = "another configuration";
    }
    return *wrong == NULL ? (char)bytes[3] : 0;
}

/* A message that names another sender than the one whose key it came by is nobody's. */
static void take_message(polydb_node *node, int site, const uint8_t *bytes, size_t length) {
    polydb_host_error error;
    if (length > MESSAGE_FROM && bytes[MESSAGE_FROM] == site && polydb_host_receive(node->host, bytes, length, &error) == POLYDB_HOST_DONE) {
        node->counts.taken++;
    } else {
        node->counts.refused++;
    }
}

/* Answers by the connection that a frame came by. Where it can't be sent now, the next hello has another answer. */
static void answer_by(polydb_node *node, const uint8_t *route, size_t length, kind kind) {
    uint8_t head[HEAD];
    put_head(node, head, kind);
    if (zmq_send(node->all, route, length, ZMQ_DONTWAIT | ZMQ_SNDMORE) >= 0) {
        (void)zmq_send(node->all, head, HEAD, ZMQ_DONTWAIT);
    }
}

static void take_frame(polydb_node *node, int site, const uint8_t *route, size_t route_length, const uint8_t *bytes, size_t length) {
    const char *wrong;
    switch (kind_of(node, bytes, length, &wrong)) {
    case HELLO:
        hear(node, site);
        answer_by(node, route, route_length, WELCOME);
        break;
    case MESSAGE:
        hear(node, site);
        take_message(node, site, bytes + HEAD, length - HEAD);
        break;
    default:
        node->counts.refused++;
        if (wrong != NULL) {
            say_odd(node, site, wrong);
            answer_by(node, route, route_length, NO);
        }
    }
}

/* ---- sockets ---- */

/* The site whose key a frame came by, as the answer to ZAP has said; or -1. */
static int sender_of(zmq_msg_t *frame) {
    const char *id = zmq_msg_gets(frame, "User-Id");
    unsigned site;
    return id != NULL && sscanf(id, "site-%u", &site) == 1 && site < SITES ? (int)site : -1;
}

/* Receives a part of what a socket has. Gives its length, or -1 where there is none; `*more` is whether another part follows. */
static int receive_part(void *socket, zmq_msg_t *part, bool *more) {
    if (zmq_msg_init(part) != 0) {
        return -1;
    }
    int length = zmq_msg_recv(part, socket, ZMQ_DONTWAIT);
    if (length < 0) {
        zmq_msg_close(part);
        return -1;
    }
    *more = zmq_msg_more(part) != 0;
    return length;
}

static void drop_parts(void *socket, bool more) {
    zmq_msg_t part;
    while (more && receive_part(socket, &part, &more) >= 0) {
        zmq_msg_close(&part);
    }
}

/* One frame from a peer; whether there was one. */
static bool take_from_peers(polydb_node *node) {
    zmq_msg_t route, frame;
    bool more = false;
    int route_length = receive_part(node->all, &route, &more);
    if (route_length < 0) {
        return false;
    }
    int length = more ? receive_part(node->all, &frame, &more) : -1;
    if (length >= 0) {
        int site = sender_of(&frame);
        if (more || site < 0 || site == node->me) {
            node->counts.refused++;
        } else {
            take_frame(node, site, zmq_msg_data(&route), (size_t)route_length, zmq_msg_data(&frame), (size_t)length);
        }
        zmq_msg_close(&frame);
        drop_parts(node->all, more);
    }
    zmq_msg_close(&route);
    return true;
}

/* One answer of a peer to what was sent to it; whether there was one. */
static bool take_answer(polydb_node *node, int site) {
    zmq_msg_t frame;
    bool more = false;
    int length = receive_part(node->links[site].socket, &frame, &more);
    if (length < 0) {
        return false;
    }
    const uint8_t *bytes = zmq_msg_data(&frame);
    const char *wrong;
    char what = kind_of(node, bytes, (size_t)length, &wrong);
    node->links[site].answered = milliseconds();
    if (what == WELCOME) {
        hear(node, site);
    } else if (wrong != NULL) {
        node->counts.refused++;
        say_odd(node, site, wrong);
    }
    zmq_msg_close(&frame);
    drop_parts(node->links[site].socket, more);
    return true;
}

/* A stranger comes again and again: that is said now and then. */
static void keep_out(polydb_node *node) {
    int64_t now = milliseconds();
    node->counts.refused++;
    if (node->kept_out == 0 || now - node->kept_out > SAID_AGAIN) {
        node->kept_out = now;
        notice(node, "a stranger was kept out, whose key is in no line of the file of peers");
    }
}

/* Answers one question of libzmq, whether a key may come in; whether there was one. Its parts: version, number, domain, address, identity, mechanism, key. */
static bool answer_zap(polydb_node *node) {
    enum { NUMBER = 1, MECHANISM = 5, KEY = 6, PARTS = 7 };
    char number[64], user[16] = "";
    size_t number_length = 0;
    bool is_curve = false, more = true;
    int site = -1;
    for (int part = 0; more; part++) {
        zmq_msg_t bytes;
        int length = receive_part(node->zap, &bytes, &more);
        if (length < 0) {
            return false;
        }
        if (part == NUMBER && (size_t)length <= sizeof number) {
            number_length = (size_t)length;
            memcpy(number, zmq_msg_data(&bytes), number_length);
        } else if (part == MECHANISM) {
            is_curve = length == 5 && memcmp(zmq_msg_data(&bytes), "CURVE", 5) == 0;
        } else if (part == KEY && is_curve) {
            site = site_of_key(node->peers, zmq_msg_data(&bytes), (size_t)length);
        }
        zmq_msg_close(&bytes);
    }
    bool may = site >= 0 && site != node->me;
    if (may) {
        snprintf(user, sizeof user, "site-%d", site);
    } else {
        keep_out(node);
    }
    const char *status = may ? "200" : "400", *text = may ? "OK" : "no";
    zmq_send(node->zap, "1.0", 3, ZMQ_SNDMORE);
    zmq_send(node->zap, number, number_length, ZMQ_SNDMORE);
    zmq_send(node->zap, status, 3, ZMQ_SNDMORE);
    zmq_send(node->zap, text, strlen(text), ZMQ_SNDMORE);
    zmq_send(node->zap, user, strlen(user), ZMQ_SNDMORE);
    zmq_send(node->zap, "", 0, 0);
    return true;
}

static bool set_number(void *socket, int option, int value) { return zmq_setsockopt(socket, option, &value, sizeof value) == 0; }

static bool set_text(void *socket, int option, const char *text) { return zmq_setsockopt(socket, option, text, strlen(text)) == 0; }

static bool set_limits(void *socket) {
    int64_t most = HEAD + MOST_MESSAGE;
    return set_number(socket, ZMQ_LINGER, LINGER) && set_number(socket, ZMQ_HANDSHAKE_IVL, HANDSHAKE) && set_number(socket, ZMQ_SNDHWM, QUEUE) &&
           set_number(socket, ZMQ_RCVHWM, QUEUE) && set_number(socket, ZMQ_HEARTBEAT_IVL, BEAT) && set_number(socket, ZMQ_HEARTBEAT_TIMEOUT, SILENT) &&
           set_number(socket, ZMQ_RECONNECT_IVL, RECONNECT) && set_number(socket, ZMQ_RECONNECT_IVL_MAX, RECONNECT_MOST) &&
           zmq_setsockopt(socket, ZMQ_MAXMSGSIZE, &most, sizeof most) == 0;
}

/* Lets the epoll know of a descriptor. */
static bool watch(polydb_node *node, int file) {
    struct epoll_event event = {.events = EPOLLIN, .data.fd = file};
    return file >= 0 && epoll_ctl(node->epoll, EPOLL_CTL_ADD, file, &event) == 0;
}

static bool watch_socket(polydb_node *node, void *socket) {
    int file = -1;
    size_t length = sizeof file;
    return zmq_getsockopt(socket, ZMQ_FD, &file, &length) == 0 && watch(node, file);
}

static bool listen_to_all(polydb_node *node, const char *address) {
    node->zap = zmq_socket(node->net, ZMQ_REP);
    node->all = zmq_socket(node->net, ZMQ_ROUTER);
    return node->zap != NULL && node->all != NULL && set_number(node->zap, ZMQ_LINGER, 0) && zmq_bind(node->zap, "inproc://zeromq.zap.01") == 0 && set_limits(node->all) &&
           set_number(node->all, ZMQ_CURVE_SERVER, 1) && set_text(node->all, ZMQ_CURVE_SECRETKEY, node->keys.secret) && set_text(node->all, ZMQ_ZAP_DOMAIN, "polydb") &&
           zmq_bind(node->all, address) == 0 && watch_socket(node, node->zap) && watch_socket(node, node->all);
}

static bool connect_to(polydb_node *node, int site) {
    const peer *one = &node->peers[site];
    void *socket = zmq_socket(node->net, ZMQ_DEALER);
    node->links[site].socket = socket;
    return socket != NULL && set_limits(socket) && set_text(socket, ZMQ_CURVE_SERVERKEY, one->key) && set_text(socket, ZMQ_CURVE_PUBLICKEY, node->keys.public) &&
           set_text(socket, ZMQ_CURVE_SECRETKEY, node->keys.secret) && zmq_connect(socket, one->address) == 0 && watch_socket(node, socket);
}

static void close_socket(void *socket) {
    if (socket != NULL) {
        zmq_close(socket);
    }
}

/* Closes the socket to a peer, which the epoll isn't to know any more: libzmq has its descriptor for a while yet. */
static void leave(polydb_node *node, peer_link *one) {
    int file = -1;
    size_t length = sizeof file;
    if (one->socket != NULL && zmq_getsockopt(one->socket, ZMQ_FD, &file, &length) == 0) {
        epoll_ctl(node->epoll, EPOLL_CTL_DEL, file, NULL);
    }
    close_socket(one->socket);
    one->socket = NULL;
}

/*
 * Says hello to all peers. A peer that has kept this site out as a stranger isn't tried again by libzmq, and no frame can be sent to it from then on. It may know the key by now: so where nothing
 * can be sent, and nothing has come back for a while, it is connected to anew. The same is done where a peer is away so long that its queue is full, which can't be told from that. What waited for
 * it is lost then, which a message may be; of these `counts.lost` has none.
 */
static void say_hello(polydb_node *node) {
    node->beaten = milliseconds();
    for (int site = 0; site < SITES; site++) {
        peer_link *one = &node->links[site];
        if (!node->peers[site].is_there || site == node->me || (one->socket != NULL && send_frame(node, one->socket, HELLO, NULL, 0)) || node->beaten - one->answered <= SILENT) {
            continue;
        }
        leave(node, one);
        if (connect_to(node, site)) {
            send_frame(node, one->socket, HELLO, NULL, 0);
        } else {
            leave(node, one); /* the next hello tries again */
        }
    }
}

/* ---- reports ---- */

/* The last number of a transaction `S.E.N` behind a line's first word; whether there is one. */
static bool number_in(const char *line, uint64_t *number) {
    unsigned site, epoch;
    return sscanf(line, "%*s %u.%u.%" SCNu64, &site, &epoch, number) == 3;
}

static bool begins(const char *line, const char *front) { return strncmp(line, front, strlen(front)) == 0; }

static void on_report(void *context, const char *line, size_t length, uint64_t tag) {
    polydb_node *node = context;
    uint64_t number;
    bool is_answer = true, is_known = false;
    if (begins(line, "txn ") && number_in(line, &number)) {
        is_known = requests_number(&node->requests, number, tag);
    } else if ((begins(line, "commit ") || begins(line, "refuse ")) && number_in(line, &number)) {
        is_known = requests_end(&node->requests, number, &tag);
    } else {
        is_answer = false;
    }
    if (is_known) {
        node->answer(node->context, tag, line, length);
    } else if (!is_answer) {
        node->is_spent |= begins(line, "spent ");
        node->notice(node->context, line); /* `full ..`, `spent ..` */
    }
}

/* ---- opening ---- */

static polydb_host_cause open_host(polydb_node *node, const polydb_node_setup *setup, polydb_host_found *found, polydb_host_error *error) {
    polydb_host_setup of_host = {.folder = setup->folder,
                                 .store = setup->store,
                                 .config = setup->config,
                                 .config_length = setup->config_length,
                                 .site = setup->site,
                                 .is_there = setup->is_there,
                                 .adopts = setup->adopts,
                                 .context = node,
                                 .message = on_message,
                                 .report = on_report};
    return polydb_host_open(&node->host, &of_host, found, error);
}

static polydb_host_cause open_files(polydb_node *node, const polydb_node_setup *setup, polydb_host_error *error) {
    polydb_host_cause cause = read_peers(setup->peers, node->peers, error);
    if (cause == POLYDB_HOST_DONE) {
        cause = read_key(setup->key, &node->keys, error);
    }
    if (cause != POLYDB_HOST_DONE) {
        return cause;
    }
    const peer *me = &node->peers[setup->site];
    if (!me->is_there) {
        return node_refuse(error, POLYDB_NODE_BAD_FILE, 0, "the file of peers has no site %u", setup->site);
    }
    if (strcmp(me->key, node->keys.public) != 0) {
        return node_refuse(error, POLYDB_NODE_BAD_FILE, 0, "the file of peers has another key of site %u", setup->site);
    }
    return POLYDB_HOST_DONE;
}

static polydb_host_cause open_clock(polydb_node *node, polydb_host_error *error) {
    node->epoll = epoll_create1(EPOLL_CLOEXEC);
    node->timer = timerfd_create(CLOCK_MONOTONIC, TFD_NONBLOCK | TFD_CLOEXEC);
    node->again = eventfd(1, EFD_NONBLOCK | EFD_CLOEXEC); /* there is something at first: the record of the epoch */
    struct timespec tick = {.tv_sec = node->tick / 1000, .tv_nsec = (long)(node->tick % 1000) * 1000000};
    struct itimerspec ticks = {.it_interval = tick, .it_value = tick};
    bool is_open = node->epoll >= 0 && watch(node, node->timer) && watch(node, node->again) && timerfd_settime(node->timer, 0, &ticks, NULL) == 0;
    return is_open ? POLYDB_HOST_DONE : node_refuse(error, POLYDB_HOST_SYSTEM, errno, "the clock");
}

static polydb_host_cause open_listener(polydb_node *node, const char *listen, polydb_host_error *error) {
    node->net = zmq_ctx_new();
    if (node->net == NULL) {
        return refuse_net(error, "a context");
    }
    const char *address = listen == NULL ? node->peers[node->me].address : listen;
    return listen_to_all(node, address) ? POLYDB_HOST_DONE : node_refuse(error, POLYDB_NODE_NET, zmq_errno(), "listen on %s", address);
}

static polydb_host_cause open_links(polydb_node *node, polydb_host_error *error) {
    for (int site = 0; site < SITES; site++) {
        if (node->peers[site].is_there && site != node->me && !connect_to(node, site)) {
            return node_refuse(error, POLYDB_NODE_NET, zmq_errno(), "connect to %s", node->peers[site].address);
        }
    }
    say_hello(node);
    return POLYDB_HOST_DONE;
}

/* Makes a node that has read its files, and nothing else. */
static polydb_host_cause make_node(polydb_node **node, const polydb_node_setup *setup, polydb_host_error *error) {
    if (setup->site >= SITES) {
        return node_refuse(error, POLYDB_NODE_BAD_FILE, 0, "there is no site %u", setup->site);
    }
    if (sodium_init() < 0) {
        return node_refuse(error, POLYDB_NODE_NET, EINVAL, "libsodium");
    }
    polydb_node *made = calloc(1, sizeof *made);
    if (made == NULL) {
        return node_refuse(error, POLYDB_HOST_NO_MEMORY, 0, "open");
    }
    made->process = getpid();
    made->epoll = made->timer = made->again = -1;
    made->me = setup->site;
    made->tick = setup->tick == 0 ? FIRST_TICK : setup->tick;
    made->context = setup->context;
    made->answer = setup->answer;
    made->notice = setup->notice;
    crypto_generichash(made->digest, DIGEST, setup->config, setup->config_length, NULL, 0);
    polydb_host_cause cause = open_files(made, setup, error);
    if (cause != POLYDB_HOST_DONE) {
        polydb_node_close(made);
        return cause;
    }
    *node = made;
    return POLYDB_HOST_DONE;
}

polydb_host_cause polydb_node_open(polydb_node **node, const polydb_node_setup *setup, polydb_host_found *found, polydb_host_error *error) {
    *error = (polydb_host_error){.cause = POLYDB_HOST_DONE};
    *node = NULL;
    *found = (polydb_host_found){.is_new = false};
    polydb_node *made = NULL;
    polydb_host_cause cause = make_node(&made, setup, error);
    bool takes_first = setup->store == NULL; /* an opening on a store takes the site from another process: what else may fail comes before */
    if (cause == POLYDB_HOST_DONE && takes_first) {
        cause = open_host(made, setup, found, error);
    }
    if (cause == POLYDB_HOST_DONE) {
        cause = open_clock(made, error);
    }
    if (cause == POLYDB_HOST_DONE) {
        cause = open_listener(made, setup->listen, error);
    }
    if (cause != POLYDB_HOST_DONE) {
        polydb_store_close(setup->store);
    } else if (!takes_first) {
        cause = open_host(made, setup, found, error);
    }
    if (cause == POLYDB_HOST_DONE) {
        cause = open_links(made, error);
    }
    if (cause != POLYDB_HOST_DONE) {
        polydb_node_close(made);
        return cause;
    }
    *node = made;
    return POLYDB_HOST_DONE;
}

static void close_file(int file) {
    if (file >= 0) {
        close(file);
    }
}

void polydb_node_close(polydb_node *node) {
    if (node == NULL) {
        return;
    }
    if (node->process != getpid()) { /* in a child the threads of libzmq aren't there, so its sockets can't be closed */
        polydb_host_close(node->host);
        return;
    }
    for (int site = 0; site < SITES; site++) {
        close_socket(node->links[site].socket);
    }
    close_socket(node->all);
    close_socket(node->zap);
    if (node->net != NULL) {
        zmq_ctx_term(node->net);
    }
    close_file(node->again);
    close_file(node->timer);
    close_file(node->epoll);
    polydb_host_close(node->host);
    requests_free(&node->requests);
    sodium_memzero(&node->keys, sizeof node->keys);
    free(node);
}

/* ---- work ---- */

static void work_again(polydb_node *node) {
    uint64_t one = 1;
    (void)!write(node->again, &one, sizeof one); /* where that fails, the next tick comes */
}

polydb_host_cause polydb_node_submit(polydb_node *node, uint64_t tag, const uint8_t *program, size_t length, bool is_query, polydb_host_error *error) {
    if (node->is_spent) {
        return node_refuse(error, POLYDB_NODE_SPENT, 0, "a request");
    }
    if (!requests_reserve(&node->requests)) {
        return node_refuse(error, POLYDB_HOST_NO_MEMORY, 0, "a request");
    }
    polydb_host_cause cause = polydb_host_submit_tagged(node->host, program, length, is_query, tag, error);
    if (cause == POLYDB_HOST_DONE) {
        requests_add(&node->requests, tag);
        work_again(node);
    }
    return cause;
}

/* Whether something has failed that is to be made again. */
static bool is_failing(const polydb_node *node) { return node->failure.cause != POLYDB_HOST_DONE; }

/* Takes note of how a write or a question to the store ended. What fails is said once; where another process has the site nothing is to be done any more. */
static void heed(polydb_node *node, polydb_host_cause cause, const polydb_host_error *error) {
    char words[200];
    if (cause == POLYDB_HOST_REPLACED) {
        node->replaced = node->replaced.cause == POLYDB_HOST_DONE ? *error : node->replaced;
        return;
    }
    bool was_failing = is_failing(node);
    node->failure = cause == POLYDB_HOST_DONE ? (polydb_host_error){.cause = POLYDB_HOST_DONE} : *error;
    node->failed = milliseconds();
    node->has_just_failed |= is_failing(node);
    if (is_failing(node) && !was_failing) {
        notice(node, "%s; nothing is let out that rests on it, and it is made again", polydb_host_describe(error, words, sizeof words));
    } else if (was_failing && !is_failing(node)) {
        notice(node, "what had failed is done");
    }
}

/* Writes what waits and lets out what may go. What has failed is made again, but not at once: a question takes as long as the store lets it wait, and there is other work. */
static void settle(polydb_node *node) {
    polydb_host_error error;
    if (is_failing(node) && milliseconds() - node->failed < PAUSE) {
        return;
    }
    polydb_host_cause cause = polydb_host_settle(node->host, &error);
    if (cause == POLYDB_HOST_DONE && is_failing(node)) {
        cause = polydb_host_confirm(node->host, &error); /* where nothing was to be written, nothing was asked */
    }
    heed(node, cause, &error);
}

/* Whether a store fails, with how: it was asked a moment ago, and will be in another. */
static bool is_store_failing(const polydb_node *node, polydb_host_error *error) {
    if (node->failure.cause == POLYDB_HOST_STORE) {
        *error = node->failure;
    }
    return node->failure.cause == POLYDB_HOST_STORE;
}

/* Whether a question was refused since records wait, and they were written now: then it is asked again. */
static bool writes_first(polydb_node *node, polydb_host_cause cause, const polydb_host_error *error) {
    if (cause != POLYDB_HOST_ENGINE || error->status != POLYDB_UNWRITTEN || is_failing(node)) {
        return false;
    }
    settle(node);
    work_again(node);
    return true;
}

/* Takes note of how a question about the site ended. */
static polydb_host_cause heed_question(polydb_node *node, polydb_host_cause cause, const polydb_host_error *error) {
    if (cause == POLYDB_HOST_REPLACED || cause == POLYDB_HOST_STORE || cause == POLYDB_HOST_LOST) {
        heed(node, cause, error);
        work_again(node);
    }
    return cause;
}

polydb_host_cause polydb_node_read(polydb_node *node, const uint8_t *name, size_t name_length, const char **line, size_t *length, polydb_host_error *error) {
    *line = NULL;
    *length = 0;
    if (is_store_failing(node, error)) {
        return error->cause;
    }
    polydb_host_cause cause = polydb_host_read(node->host, name, name_length, line, length, error);
    if (writes_first(node, cause, error)) {
        cause = polydb_host_read(node->host, name, name_length, line, length, error);
    }
    return heed_question(node, cause, error);
}

polydb_host_cause polydb_node_outcome(polydb_node *node, uint8_t coordinator, uint32_t epoch, uint32_t number, uint32_t *outcome, polydb_host_error *error) {
    *outcome = 0;
    if (is_store_failing(node, error)) {
        return error->cause;
    }
    polydb_host_cause cause = polydb_host_outcome(node->host, coordinator, epoch, number, outcome, error);
    if (writes_first(node, cause, error)) {
        cause = polydb_host_outcome(node->host, coordinator, epoch, number, outcome, error);
    }
    return heed_question(node, cause, error);
}

/* Says how full a store is: at half, and then at each tenth more. */
static void look_how_full(polydb_node *node) {
    polydb_host_fill fill = polydb_host_filled(node->host);
    unsigned tenths = fill.limit == 0 ? 0 : (unsigned)(fill.used / (fill.limit / 10 + 1));
    if (tenths >= 5 && tenths > node->filled) {
        node->filled = tenths;
        notice(node, "the store has %" PRIu64 " of its %" PRIu64 " bytes; when it is full nothing more is written", fill.used, fill.limit);
    }
}

/* Asks whether the site is still this process's, so that one in which nothing happens hears of it, too; and says so where nobody can tell. */
static void look_whose_it_is(polydb_node *node) {
    polydb_host_error error;
    if (!is_failing(node)) {
        heed(node, polydb_host_confirm(node->host, &error), &error);
    }
}

/* A tick, if it is time: one, however long nobody looked. */
static bool tick(polydb_node *node) {
    uint64_t count;
    if (read(node->timer, &count, sizeof count) != sizeof count) {
        return false;
    }
    polydb_host_error error;
    polydb_host_cause cause = polydb_host_tick(node->host, &error);
    if (cause == POLYDB_HOST_REPLACED) {
        heed(node, cause, &error);
    } else if (cause != POLYDB_HOST_DONE) {
        notice(node, "a tick is left out: no memory");
    }
    if (milliseconds() - node->beaten >= BEAT) {
        say_hello(node);
        look_who_is_away(node);
        look_whose_it_is(node);
        look_how_full(node);
    }
    return true;
}

/* Takes what has come, some of it; whether there was something. */
static bool take_some(polydb_node *node) {
    bool any = false;
    while (answer_zap(node)) {
        any = true;
    }
    for (int count = 0; count < ROUND && take_from_peers(node); count++) {
        any = true;
    }
    for (int site = 0; site < SITES; site++) {
        while (node->links[site].socket != NULL && take_answer(node, site)) {
            any = true;
        }
    }
    return any;
}

polydb_host_cause polydb_node_work(polydb_node *node, polydb_host_error *error) {
    uint64_t count;
    if (node->process != getpid()) {
        return node_refuse(error, POLYDB_HOST_FORKED, 0, "a call in a child of the process");
    }
    (void)!read(node->again, &count, sizeof count);
    bool has_ticked = tick(node);
    bool any = take_some(node);
    if (!is_failing(node) || (has_ticked && !node->has_just_failed)) {
        settle(node);
    }
    for (int round = 0; any && round < ROUNDS; round++) {
        any = take_some(node);
        if (any && !is_failing(node)) {
            settle(node);
        }
    }
    node->has_just_failed = false;
    if (any) {
        work_again(node);
    }
    if (node->replaced.cause != POLYDB_HOST_DONE) {
        *error = node->replaced;
        return error->cause;
    }
    return node->is_spent ? node_refuse(error, POLYDB_NODE_SPENT, 0, "numbers") : POLYDB_HOST_DONE;
}

polydb_host_cause polydb_node_wait(polydb_node *node, int milliseconds, polydb_host_error *error) {
    struct pollfd wait = {.fd = node->epoll, .events = POLLIN};
    if (poll(&wait, 1, milliseconds) < 0 && errno != EINTR) {
        return node_refuse(error, POLYDB_HOST_SYSTEM, errno, "poll");
    }
    return polydb_node_work(node, error);
}

int polydb_node_descriptor(const polydb_node *node) { return node->epoll; }

bool polydb_node_hears(const polydb_node *node, uint8_t site) {
    return site < SITES && node->links[site].heard != 0 && !node->links[site].is_away && !node->links[site].is_odd;
}

polydb_node_counts polydb_node_count(const polydb_node *node) {
    polydb_node_counts counts = node->counts;
    counts.open = node->requests.open;
    counts.journal = polydb_host_length(node->host);
    return counts;
}

const char *polydb_node_describe(const polydb_host_error *error, char *out, size_t room) {
    switch ((int)error->cause) {
    case (int)POLYDB_NODE_BAD_FILE:
        snprintf(out, room, "%s: it isn't as it should be", error->what);
        break;
    case (int)POLYDB_NODE_NET:
        snprintf(out, room, "%s: %s", error->what, zmq_strerror(error->number));
        break;
    case (int)POLYDB_NODE_SPENT:
        snprintf(out, room, "%s: none is left, so the site is to be opened again", error->what);
        break;
    default:
        polydb_host_describe(error, out, room);
    }
    return out;
}
