/*
 * A site on a folder, or on another store: what the library wants written gets there, and what it lets out comes to the program.
 *
 * Where another process can take the site while this one is there, nothing leaves it before the store has said that the site is still its own, and since the last input: by a write
 * that the store has taken, or by a question. So what a process lets out that was replaced was made before, and is late, as a message may be.
 */
#define _GNU_SOURCE

#include "polydb_host.h"

#include <stdio.h>
#include <stdlib.h>
#include <string.h>
#include <sys/types.h>
#include <unistd.h>

#include "errors.h"
#include "folder.h"
#include "polydb.h"

/* Bytes, and how many there is room for. */
typedef struct {
    uint8_t *bytes;
    size_t length, room;
} room;

struct polydb_host {
    polydb_site site;
    polydb_store *store;
    pid_t process;   /* the one that opened it */
    uint8_t me;
    uint64_t length; /* of the journal */
    room out;        /* what the site gives */
    room held;       /* what it has let out, and the program hasn't got yet; of length 0 where there is nothing */
    uint64_t held_to, held_tag;
    room own;          /* what it has sent to itself: the length of each, and its bytes */
    bool is_certain;   /* since the last input the store has said that the site is this process's */
    bool is_replaced;  /* it has said that it isn't */
    void *context;
    void (*message)(void *context, uint8_t to, const uint8_t *bytes, size_t length);
    void (*report)(void *context, const char *line, size_t length, uint64_t tag);
};

enum { FIRST_ROOM = 1 << 16 }; /* bytes; more is taken where one doesn't fit */

/* A child of a fork has the descriptors, and so the lock: it is told apart by its number alone. */
static bool is_owner(const polydb_host *host) { return host->process == getpid(); }

static polydb_host_cause answer(uint32_t status, const char *what, polydb_host_error *error) {
    return status == POLYDB_DONE ? POLYDB_HOST_DONE : refuse_status(error, what, status);
}

/* Makes room for so many bytes, and one for a zero. */
static polydb_host_cause make_room(room *out, size_t needed, polydb_host_error *error) {
    if (out->bytes != NULL && needed <= out->room) {
        return POLYDB_HOST_DONE;
    }
    uint8_t *larger = realloc(out->bytes, needed + 1);
    if (larger == NULL) {
        return refuse(error, POLYDB_HOST_NO_MEMORY, "room", "");
    }
    out->bytes = larger;
    out->room = needed;
    return POLYDB_HOST_DONE;
}

/* What a store has answered. */
static polydb_host_cause heed(polydb_host *host, polydb_host_cause cause) {
    host->is_certain = cause == POLYDB_HOST_DONE;
    host->is_replaced |= cause == POLYDB_HOST_REPLACED;
    return cause;
}

/* Whether this process may use the host at all. */
static polydb_host_cause may_use(const polydb_host *host, polydb_host_error *error) {
    if (!is_owner(host)) {
        return refuse(error, POLYDB_HOST_FORKED, "a call", "in a child of the process");
    }
    return host->is_replaced ? refuse(error, POLYDB_HOST_REPLACED, "a call", "") : POLYDB_HOST_DONE;
}

/* ---- opening and closing ---- */

static polydb_host_cause open_site(polydb_host *host, const polydb_host_setup *setup, polydb_host_found *found, polydb_host_error *error) {
    journal_content content = {.bytes = NULL};
    const store_calls *calls = host->store->calls;
    polydb_host_cause cause = calls->read(host->store, setup, &content, found, error);
    if (cause == POLYDB_HOST_DONE) {
        cause = answer(polydb_site_open(&host->site, setup->config, setup->config_length, setup->site, content.bytes, content.length), "open the site", error);
    }
    if (cause == POLYDB_HOST_DONE) {
        cause = calls->settle(host->store, setup, &content, found, error);
    }
    host->length = found->length = content.length;
    found->records = content.records;
    free(content.bytes);
    return cause;
}

polydb_host_cause polydb_host_open(polydb_host **host, const polydb_host_setup *setup, polydb_host_found *found, polydb_host_error *error) {
    *error = (polydb_host_error){.cause = POLYDB_HOST_DONE};
    *found = (polydb_host_found){.is_new = false};
    *host = NULL;
    polydb_host *made = calloc(1, sizeof *made);
    if (made == NULL) {
        polydb_store_close(setup->store);
        return refuse(error, POLYDB_HOST_NO_MEMORY, "open", "");
    }
    made->process = getpid();
    made->store = setup->store;
    made->me = setup->site;
    made->context = setup->context;
    made->message = setup->message;
    made->report = setup->report;
    polydb_host_cause cause = POLYDB_HOST_DONE;
    if (made->store == NULL) {
        cause = folder_open(&made->store, setup->folder, setup->site, error);
    }
    if (cause == POLYDB_HOST_DONE) {
        cause = make_room(&made->out, FIRST_ROOM, error);
    }
    if (cause == POLYDB_HOST_DONE) {
        cause = make_room(&made->held, FIRST_ROOM, error);
    }
    if (cause == POLYDB_HOST_DONE) {
        cause = open_site(made, setup, found, error);
    }
    if (cause != POLYDB_HOST_DONE) {
        polydb_host_close(made);
        return cause;
    }
    *host = made;
    return POLYDB_HOST_DONE;
}

void polydb_host_close(polydb_host *host) {
    if (host == NULL) {
        return;
    }
    bool owner = is_owner(host);
    if (host->store != NULL) {
        host->store->calls->close(host->store, owner);
    }
    if (owner) { /* in a child another thread of the parent may have been within malloc: what it has is left */
        polydb_site_close(&host->site);
        free(host->out.bytes);
        free(host->held.bytes);
        free(host->own.bytes);
        free(host);
    }
}

void polydb_store_close(polydb_store *store) {
    if (store != NULL) {
        store->calls->close(store, true);
    }
}

/* ---- inputs ---- */

/* What the library has said of an input. */
static polydb_host_cause take(polydb_host *host, uint32_t status, const char *what, polydb_host_error *error) {
    host->is_certain = false;
    return answer(status, what, error);
}

polydb_host_cause polydb_host_submit_tagged(polydb_host *host, const uint8_t *program, size_t length, bool is_query, uint64_t tag, polydb_host_error *error) {
    polydb_fault fault;
    polydb_host_cause cause = may_use(host, error);
    return cause == POLYDB_HOST_DONE ? take(host, polydb_site_submit_tagged(&host->site, program, length, is_query, tag, &fault), "a request", error) : cause;
}

polydb_host_cause polydb_host_submit(polydb_host *host, const uint8_t *program, size_t length, bool is_query, polydb_host_error *error) {
    return polydb_host_submit_tagged(host, program, length, is_query, 0, error);
}

polydb_host_cause polydb_host_receive(polydb_host *host, const uint8_t *message, size_t length, polydb_host_error *error) {
    polydb_host_cause cause = may_use(host, error);
    return cause == POLYDB_HOST_DONE ? take(host, polydb_site_receive(&host->site, message, length), "a message", error) : cause;
}

polydb_host_cause polydb_host_tick(polydb_host *host, polydb_host_error *error) {
    polydb_host_cause cause = may_use(host, error);
    return cause == POLYDB_HOST_DONE ? take(host, polydb_site_tick(&host->site), "a tick", error) : cause;
}

/* ---- what the site wants written ---- */

/* The byte that opens the closed gate at the end of a journal. */
static const uint8_t OPEN = GATE_OPEN;

/*
 * Whether a write is of records behind the gate that ends the journal, and ends by a closed gate itself: then the library asks next for the byte that opens the gate before them,
 * whatever comes. A store in which several writes are there all at once or not at all is given both together, and the library hears of the one and then of the other. What the store
 * has is at each moment what it would have if they had been written one after another.
 */
static bool is_before_gate(const polydb_host *host, const store_write *write) {
    return host->store->calls->is_whole && write->place == host->length && write->length > 0 && write->bytes[write->length - 1] == GATE_CLOSED;
}

/* Tells the library of a write. */
static polydb_host_cause tell(polydb_host *host, const store_write *write, polydb_host_error *error) {
    polydb_host_cause cause = answer(polydb_site_journal_synced(&host->site, write->place, write->length), "a write", error);
    if (cause == POLYDB_HOST_DONE && write->place + write->length > host->length) {
        host->length = write->place + write->length;
    }
    return cause;
}

/* Tells it of the gate's write, which was made with the records' one. The library asks for it first. */
static polydb_host_cause tell_gate(polydb_host *host, const store_write *gate, polydb_host_error *error) {
    size_t length;
    uint64_t place;
    uint8_t byte = GATE_CLOSED;
    uint32_t status = polydb_site_take_journal(&host->site, &byte, sizeof byte, &length, &place);
    if (status != POLYDB_DONE || place != gate->place || length != gate->length || byte != GATE_OPEN) {
        return refuse_status(error, "the gate's write", POLYDB_NOT_NEXT);
    }
    return tell(host, gate, error);
}

/* One write, and its sync: of all records that wait and have room, and then of the gate before them. The site hears of it last, and of nothing that has failed: the same
 * bytes come again then. */
static polydb_host_cause write_next(polydb_host *host, bool *wrote, polydb_host_error *error) {
    size_t length;
    uint64_t place;
    *wrote = false;
    uint32_t status = polydb_site_take_journal(&host->site, host->out.bytes, host->out.room, &length, &place);
    if (status == POLYDB_NOTHING) {
        return POLYDB_HOST_DONE;
    }
    if (status == POLYDB_TOO_SMALL) {
        *wrote = true; /* nothing yet, but the next call does */
        return make_room(&host->out, length, error);
    }
    if (status != POLYDB_DONE) {
        return refuse_status(error, "the next write", status);
    }
    store_write writes[] = {{.bytes = host->out.bytes, .length = length, .place = place}, {.bytes = &OPEN, .length = 1, .place = host->length - 1}};
    bool has_gate = is_before_gate(host, &writes[0]);
    polydb_host_cause cause = heed(host, host->store->calls->write(host->store, writes, has_gate ? 2 : 1, error));
    if (cause == POLYDB_HOST_DONE) {
        cause = tell(host, &writes[0], error);
    }
    if (cause == POLYDB_HOST_DONE && has_gate) {
        cause = tell_gate(host, &writes[1], error);
    }
    *wrote = cause == POLYDB_HOST_DONE;
    return cause;
}

static polydb_host_cause write_all(polydb_host *host, polydb_host_error *error) {
    for (;;) {
        bool wrote;
        polydb_host_cause cause = write_next(host, &wrote, error);
        if (cause != POLYDB_HOST_DONE || !wrote) {
            return cause;
        }
    }
}

/* ---- what it lets out ---- */

/* Asks the store, where that is wanted, whether the site is still this process's. */
static polydb_host_cause confirm(polydb_host *host, polydb_host_error *error) {
    return host->store->calls->confirm == NULL ? POLYDB_HOST_DONE : heed(host, host->store->calls->confirm(host->store, error));
}

/* Keeps a message of the site to itself. One for which there is no memory is lost, which a message may be: the next ticks ask again. */
static void keep_own(polydb_host *host, size_t length) {
    polydb_host_error error;
    room *own = &host->own;
    size_t needed = own->length + sizeof length + length;
    if (make_room(own, needed <= own->room ? needed : 2 * needed, &error) == POLYDB_HOST_DONE) {
        memcpy(own->bytes + own->length, &length, sizeof length);
        memcpy(own->bytes + own->length + sizeof length, host->out.bytes, length);
        own->length = needed;
    }
}

/* Gives the site what it has sent to itself; whether there was something. */
static bool receive_own(polydb_host *host) {
    room *own = &host->own;
    bool any = own->length > 0;
    for (size_t at = 0, length; at < own->length; at += sizeof length + length) {
        memcpy(&length, own->bytes + at, sizeof length);
        (void)polydb_site_receive(&host->site, own->bytes + at + sizeof length, length);
        host->is_certain = false;
    }
    own->length = 0;
    return any;
}

/* Takes the next thing that goes out of the process, and holds it; whether there was one. */
static polydb_host_cause hold_next(polydb_host *host, bool *any, polydb_host_error *error) {
    *any = host->held.length > 0;
    while (!*any) {
        size_t length;
        polydb_host_cause cause = POLYDB_HOST_DONE;
        uint32_t status = polydb_site_take_tagged(&host->site, host->out.bytes, host->out.room, &length, &host->held_to, &host->held_tag);
        switch (status) {
        case POLYDB_DONE:
            if (host->held_to == host->me) {
                keep_own(host, length);
            } else {
                room other = host->held;
                host->held = host->out;
                host->held.length = length;
                host->out = other;
                *any = true;
            }
            break;
        case POLYDB_TOO_SMALL:
            cause = make_room(&host->out, length, error);
            break;
        case POLYDB_NOTHING:
            return POLYDB_HOST_DONE;
        default:
            cause = refuse_status(error, "what is let out", status);
        }
        if (cause != POLYDB_HOST_DONE) {
            return cause;
        }
    }
    return POLYDB_HOST_DONE;
}

/* Hands over what is held. */
static void hand_over(polydb_host *host) {
    room *held = &host->held;
    size_t length = held->length;
    held->length = 0;
    if (host->held_to == POLYDB_REPORT) {
        length -= length > 0; /* the line feed */
        held->bytes[length] = '\0';
        host->report(host->context, (const char *)held->bytes, length, host->held_tag);
    } else {
        host->message(host->context, (uint8_t)host->held_to, held->bytes, length);
    }
}

/* Hands over all that may go now, and then gives the site what it has sent to itself. `*any` is whether there was something: then there may be more to write. */
static polydb_host_cause let_out(polydb_host *host, bool *any, polydb_host_error *error) {
    *any = false;
    for (;;) {
        bool holds;
        polydb_host_cause cause = hold_next(host, &holds, error);
        if (cause == POLYDB_HOST_DONE && holds && !host->is_certain) {
            cause = confirm(host, error);
        }
        if (cause != POLYDB_HOST_DONE || !holds) {
            *any |= receive_own(host);
            return cause;
        }
        *any = true;
        hand_over(host);
    }
}

polydb_host_cause polydb_host_settle(polydb_host *host, polydb_host_error *error) {
    polydb_host_cause cause = may_use(host, error);
    if (cause != POLYDB_HOST_DONE) {
        return cause;
    }
    for (;;) {
        polydb_host_error later;
        bool any;
        polydb_host_cause written = write_all(host, error);
        if (written == POLYDB_HOST_REPLACED || written == POLYDB_HOST_STORE || written == POLYDB_HOST_LOST) {
            return written; /* nothing can be let out of one that isn't to be asked whose the site is, or has lost what that rests on */
        }
        polydb_host_cause handed = let_out(host, &any, written == POLYDB_HOST_DONE ? error : &later);
        if (written != POLYDB_HOST_DONE) {
            return written;
        }
        if (handed != POLYDB_HOST_DONE || !any) {
            return handed;
        }
    }
}

/* ---- what it shows ---- */

polydb_host_cause polydb_host_read(polydb_host *host, const uint8_t *name, size_t name_length, const char **line, size_t *length, polydb_host_error *error) {
    *line = NULL;
    *length = 0;
    polydb_host_cause cause = may_use(host, error);
    if (cause != POLYDB_HOST_DONE) {
        return cause;
    }
    uint32_t status;
    size_t count;
    while ((status = polydb_site_read(&host->site, name, name_length, host->out.bytes, host->out.room, &count)) == POLYDB_TOO_SMALL) {
        cause = make_room(&host->out, count, error);
        if (cause != POLYDB_HOST_DONE) {
            return cause;
        }
    }
    if (status != POLYDB_DONE) {
        return refuse_status(error, "an item", status);
    }
    cause = confirm(host, error); /* what came before doesn't count: it is shown as it is now */
    if (cause != POLYDB_HOST_DONE) {
        return cause;
    }
    count -= count > 0; /* the line feed */
    host->out.bytes[count] = '\0';
    *line = (const char *)host->out.bytes;
    *length = count;
    return POLYDB_HOST_DONE;
}

polydb_host_cause polydb_host_outcome(polydb_host *host, uint8_t coordinator, uint32_t epoch, uint32_t number, uint32_t *outcome, polydb_host_error *error) {
    *outcome = 0;
    polydb_host_cause cause = may_use(host, error);
    if (cause == POLYDB_HOST_DONE) {
        cause = answer(polydb_site_outcome(&host->site, coordinator, epoch, number, outcome), "an outcome", error);
    }
    if (cause == POLYDB_HOST_DONE) {
        cause = confirm(host, error); /* what came before doesn't count: it is told as it is now */
    }
    if (cause != POLYDB_HOST_DONE) {
        *outcome = 0;
    }
    return cause;
}

polydb_host_cause polydb_host_confirm(polydb_host *host, polydb_host_error *error) {
    polydb_host_cause cause = may_use(host, error);
    return cause == POLYDB_HOST_DONE ? confirm(host, error) : cause;
}

uint64_t polydb_host_length(const polydb_host *host) { return host->length; }

polydb_host_fill polydb_host_filled(const polydb_host *host) {
    return host->store->calls->fill == NULL ? (polydb_host_fill){.used = 0} : host->store->calls->fill(host->store);
}

/* ---- errors in words ---- */

static const char *const STATUSES[] = {
    [POLYDB_MALFORMED] = "a line isn't in the grammar",
    [POLYDB_TOO_LONG] = "more than 16,777,216 bytes",
    [POLYDB_CLOSED] = "closed",
    [POLYDB_NOTHING] = "there is nothing yet",
    [POLYDB_HAS_EVENTS] = "the configuration has an event",
    [POLYDB_NO_SITE] = "the configuration has no site of this number",
    [POLYDB_NOT_OURS] = "the file is no journal",
    [POLYDB_BAD_RECORD] = "the journal holds what is no record",
    [POLYDB_TOO_MANY_OUTCOMES] = "the journal gives an item too many outcomes",
    [POLYDB_EPOCHS_SPENT] = "no epoch is left",
    [POLYDB_FULL] = "the journal has no room for a start",
    [POLYDB_BAD_TEXT] = "the text is no program",
    [POLYDB_BAD_PROGRAM] = "the program names no item or more than 16, or is a query that assigns or has no return",
    [POLYDB_BAD_MESSAGE] = "the bytes are no message",
    [POLYDB_NOT_HERE] = "it belongs to another site",
    [POLYDB_NO_SENDER] = "it comes from no site of the configuration",
    [POLYDB_NOT_NEXT] = "not the write that is next",
    [POLYDB_UNKNOWN_NAME] = "no item has this name",
    [POLYDB_UNWRITTEN] = "records wait to be written",
    [POLYDB_NOT_GROWN] = "the configuration isn't what the other has grown to",
};

static const char *words_of(uint32_t status) {
    const char *words = status < sizeof STATUSES / sizeof *STATUSES ? STATUSES[status] : NULL;
    return words == NULL ? "refused" : words;
}

const char *polydb_host_describe(const polydb_host_error *error, char *out, size_t room) {
    static const char *const CAUSES[] = {
        [POLYDB_HOST_DONE] = "done",
        [POLYDB_HOST_BUSY] = "another process, or another part of this one, has the site open",
        [POLYDB_HOST_OTHER_SITE] = "the files are another site's",
        [POLYDB_HOST_OTHER_CONFIG] = "the site was opened before with another configuration",
        [POLYDB_HOST_UNNAMED] = "the journal has records, and nothing says of which site and configuration",
        [POLYDB_HOST_LOST] = "the site was opened before, and its journal is gone or empty",
        [POLYDB_HOST_DAMAGED] = "the file that says which site it is can't be read",
        [POLYDB_HOST_NO_MEMORY] = "no memory",
        [POLYDB_HOST_FORKED] = "the parent of this process has the site",
        [POLYDB_HOST_NOT_THERE] = "nothing of the site is there",
        [POLYDB_HOST_THERE] = "it is there already, whose journal has records",
        [POLYDB_HOST_REPLACED] = "another process has opened the site since, so this one stops",
        [POLYDB_HOST_STORE] = "the store can't be reached, or refuses it",
        [POLYDB_HOST_OTHER_STORE] = "the store isn't the one in which the site was made, or is a copy of it",
    };
    switch (error->cause) {
    case POLYDB_HOST_SYSTEM:
        snprintf(out, room, "%s: %s", error->what, strerror(error->number));
        break;
    case POLYDB_HOST_ENGINE:
        snprintf(out, room, "%s: %s (status %u)", error->what, words_of(error->status), (unsigned)error->status);
        break;
    default:
        snprintf(out, room, "%s: %s", error->what, CAUSES[error->cause]);
    }
    return out;
}
