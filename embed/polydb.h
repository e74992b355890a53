/*
 * polydb in a C program: a database of up to 16 sites, kept in memory, that a host drives step by step.
 *
 * Three ways to use it, from the least to the most, and an outbox beside them:
 *
 *   polydb_run       a whole schedule in, the text that `polydb run` prints for it out. No state.
 *   polydb_world     all sites in one handle, driven by the lines of a schedule. What is printed is taken out.
 *   polydb_site      one site of several, each in a program of its own. The host carries its messages and writes its journal.
 *   polydb_outbox    outputs that are held back until outcomes are known, and let out at most once. The host writes its journal.
 *
 * `embed/build` makes libpolydb.a and libpolydb.so in embed/out, for Linux on x86-64. Link with the one, or load the other:
 *
 *     cc -I embed -o program program.c embed/out/libpolydb.a
 *
 * Nothing else is needed: the library calls malloc, realloc, free, memcpy, memmove and memset of the C library, and no other function; it opens no
 * file, starts no thread, prints nothing, and never calls the host back.
 *
 * Handles. A world, a site and an outbox live behind a handle that the host keeps. All zeroes are a closed handle:
 *
 *     polydb_site site = {0};
 *
 * What the host owes, which C can't check:
 *   - a handle begins as zeroes, is changed by nothing but these calls, and isn't copied: after a copy, closing both frees twice. It may be moved, if the
 *     old place is used no more;
 *   - no handle is used by two calls at once. Two threads with a handle each are fine, and a handle may move from thread to thread;
 *   - each pointer isn't NULL and has as many bytes behind it as the call is told. But NULL with a length of 0 is an empty text: for catalog, line, input,
 *     configuration, journal, program, message and name. `out` isn't NULL, also with a room of 0;
 *   - `out`, what the numbers go to and the handle don't overlap each other or the input;
 *   - no call is made from a signal handler, or from the child of a fork of a program with threads;
 *   - malloc, realloc and free are of one allocator, and malloc aligns a block for its size up to 16.
 *
 * What the library promises, which is proved: each call ends, and gives one of the statuses written below it, exactly for the cause that is
 * written beside it, and for the first in that list where several are so (but POLYDB_NO_MEMORY and POLYDB_BROKEN_OFF, which may come wherever they are
 * listed); with a status other than POLYDB_DONE the world, site or outbox is as it was before the call, but for room that was made, unless said otherwise; no call
 * reads or writes outside what it is given; and no pointer is kept after a call: catalog, line, configuration, journal, program, message, name, cases and `out` may then be freed.
 * What else is proved stands in docs/EMBEDDING.md.
 *
 * Room. Where a call writes bytes to `out`, they are `room` bytes at most, and too small a room loses nothing: POLYDB_TOO_SMALL says in `*written` how many
 * bytes there are, nothing is written, and the same bytes come again. But polydb_world_take has no such status: it writes a part, and the next call goes on.
 * After every call `out` is as it was beyond the bytes that were written. `*written` is 0 but with POLYDB_DONE and POLYDB_TOO_SMALL, and but for polydb_run,
 * which has a text with other statuses too; `*place`, `*to`, `*tag`, `*at` and `*output` are 0 but with POLYDB_DONE.
 */
#ifndef POLYDB_H
#define POLYDB_H

#include <stdbool.h>
#include <stddef.h>
#include <stdint.h>

#ifdef __cplusplus
extern "C" {
#endif

/* ---- the version, and limits ---- */

/* The version that this header describes, 0.3.0: 10,000 times the first number, 100 times the second, and the third. */
#define POLYDB_VERSION_NUMBER 300u

/* The version of the library, in the same way: a program that loads the library may find another one than it was compiled for. */
uint32_t polydb_version(void);

/* How much there may be. None of it can be set, but the limit of journals by the configuration's line `journal`. */

/* Sites, and items of a configuration. */
#define POLYDB_MAX_SITES 16u
#define POLYDB_MAX_ITEMS 1024u
/* Bytes of an item's name. */
#define POLYDB_MAX_NAME 16u
/* Bytes of a program's text, and items that it names. */
#define POLYDB_MAX_PROGRAM 1000u
#define POLYDB_MAX_PROGRAM_ITEMS 16u
/* Bytes of the condition of an output. */
#define POLYDB_MAX_CASES 1000u
/* Bytes of a configuration, of a schedule, and of a catalog and a line together. */
#define POLYDB_MAX_INPUT 16777216u
/* Bytes of a message: none has more. By its format it has at most 1,245,141, 16 values of 4,096 leaves and 4,095 tests each; the number is that of earlier versions. */
#define POLYDB_MAX_MESSAGE 8454261u
/* Bytes of the limit of journals: the least that may be declared, and the greatest, which is the limit where none is. */
#define POLYDB_MIN_JOURNAL 32u
#define POLYDB_MAX_JOURNAL 4294967296u
/* Bytes of a status's text. */
#define POLYDB_MAX_STATUS_TEXT 80u

/* ---- statuses ---- */

/* Those below 16 are the exit statuses of the program `polydb`, with its causes. */

/* The call did what it says. */
#define POLYDB_DONE 0u
/* A line isn't in the grammar. polydb_run on the same lines says which one, and why. */
#define POLYDB_MALFORMED 3u
/* There are more than 16,777,216 bytes. */
#define POLYDB_TOO_LONG 6u
/* There was no memory. The call can be made again. */
#define POLYDB_NO_MEMORY 7u
/* With the line's messages all that were ever sent would have more than 268,435,456 bytes. A world takes no more steps then. */
#define POLYDB_SENT_LIMIT 8u

/* Of all handles. */

/* The handle is closed. */
#define POLYDB_CLOSED 16u
/* The handle is open already. It stays open, with what it had. */
#define POLYDB_IN_USE 17u
/* There are `*written` bytes, and less room. */
#define POLYDB_TOO_SMALL 18u
/* There is nothing now. */
#define POLYDB_NOTHING 19u

/* Of openings. */

/* The lines have an event, and are to declare only. */
#define POLYDB_HAS_EVENTS 20u
/* There is no site of this number. No transaction has such a site, either. */
#define POLYDB_NO_SITE 21u
/* The bytes are no journal. */
#define POLYDB_NOT_OURS 22u
/* What the journal holds isn't a record. */
#define POLYDB_BAD_RECORD 23u
/* With the journal's records the value of an item would name too many outcomes. No site that ran under one configuration has such records, whatever its limit is then, and with
 * more items behind its own. */
#define POLYDB_TOO_MANY_OUTCOMES 24u
/* No epoch is left: the records of 4,294,967,294 openings were written into the file. */
#define POLYDB_EPOCHS_SPENT 25u
/* The journal has no room for one more record. Of a site: for that of the new epoch; the limit is the one of the configuration's line `journal`, and a higher one opens it
 * (polydb_site_open). Of an outbox: the limit is POLYDB_MAX_JOURNAL. */
#define POLYDB_FULL 26u

/* Of sites. */

/* The text is no program. */
#define POLYDB_BAD_TEXT 27u
/* The program may not run: it names no item or more than 16, or it is a query that assigns or has no `return`. */
#define POLYDB_BAD_PROGRAM 28u
/* The bytes are no message. */
#define POLYDB_BAD_MESSAGE 29u
/* The message goes to another site; or the item is at another one; or the transaction is another one's. */
#define POLYDB_NOT_HERE 30u
/* There is no such site as the message comes from. */
#define POLYDB_NO_SENDER 31u
/* That isn't what the host was given to write: it is written already, its bytes weren't given since the site was opened, or they never were. */
#define POLYDB_NOT_NEXT 32u
/* No item has this name. */
#define POLYDB_UNKNOWN_NAME 33u
/* Records wait to be written into the file. What the item shows, what became of the transaction, or what an outbox would tell may rest on them, and a crash may undo it. */
#define POLYDB_UNWRITTEN 37u
/* The configuration isn't one that the other has grown to. */
#define POLYDB_NOT_GROWN 38u

/* Of worlds. */

/* The line is no event, or more than one, or declares something. */
#define POLYDB_NOT_ONE_EVENT 34u
/* There was no memory within the step. The world takes no more steps. */
#define POLYDB_BROKEN_OFF 35u
/* The world takes no more steps: an earlier one gave POLYDB_SENT_LIMIT or POLYDB_BROKEN_OFF. */
#define POLYDB_ENDED 36u

/* Of outboxes. */

/* The output was held before. */
#define POLYDB_AGAIN 39u
/* An outcome of the transaction was learnt before. */
#define POLYDB_KNOWN 40u
/* The text is no condition. */
#define POLYDB_BAD_CASES 41u

/*
 * What a status says, for a person: `the text is no program`. There is neither a line feed nor a zero behind it.
 *
 *   POLYDB_DONE        the text is in `out`
 *   POLYDB_NOTHING     there is no such status
 *   POLYDB_TOO_SMALL   the text has `*written` bytes, and there is less room
 */
uint32_t polydb_status_text(uint32_t status, uint8_t *out, size_t room, size_t *written);

/* Where what a call was given is at fault; zeroes with POLYDB_DONE, and where the call says nothing else. */
typedef struct {
    uint32_t line;   /* a line, from 1 */
    uint32_t column; /* a byte of a program's text, from 1 */
    uint64_t number; /* a place, an index or a count */
} polydb_fault;

/* ---- a world: all sites of a schedule in one handle ---- */

/* Closed if all zeroes. Not to be copied. The fields are the library's. */
typedef struct {
    bool live;
    void *at;
} polydb_world;

/*
 * Opens a closed handle with the sites and items of a catalog: lines `sites`, `journal` and `item` of a schedule.
 *
 *   POLYDB_DONE        the handle is open, each site has started once, and nothing has happened
 *   POLYDB_IN_USE      the handle was open
 *   POLYDB_TOO_LONG    the catalog has more than 16,777,216 bytes
 *   POLYDB_MALFORMED   a line of it isn't in the grammar
 *   POLYDB_HAS_EVENTS  it has an event
 *   POLYDB_NO_MEMORY   there was no memory
 *
 * The world keeps a copy of the catalog.
 */
uint32_t polydb_world_open(polydb_world *world, const uint8_t *catalog, size_t length);

/*
 * One event, as a line of a schedule without its end: a request, a delivery, a loss, a tick, a stop. What the event prints is
 * kept until polydb_world_take hands it out. All that is kept, one step after another, is what `polydb run` prints for these events.
 *
 *   POLYDB_DONE           the event happened
 *   POLYDB_CLOSED         the handle is closed
 *   POLYDB_ENDED          the world takes no more steps
 *   POLYDB_TOO_LONG       the catalog, a line feed and the line have more than 16,777,216 bytes together
 *   POLYDB_MALFORMED      the line isn't in the grammar, or not behind this catalog
 *   POLYDB_NOT_ONE_EVENT  it is no event, or more than one, or declares something
 *   POLYDB_NO_MEMORY      there was no memory to read it
 *
 * With these two the world takes no more steps. What is kept is still to be taken.
 *
 *   POLYDB_SENT_LIMIT     in this event the messages pass their limit, where `polydb run` ends with status 8
 *   POLYDB_BROKEN_OFF     there was no memory within the step
 */
uint32_t polydb_world_step(polydb_world *world, const uint8_t *line, size_t length);

/*
 * Writes the oldest kept bytes of what was printed to `out`, as many as there are and have room, and drops these alone: with
 * too small a room nothing is lost, and the next call goes on. `*written` is how many bytes that are: 0 when all were taken, or `room` is 0.
 *
 *   POLYDB_DONE        `*written` bytes were written and dropped; the rest of `out` is as it was
 *   POLYDB_CLOSED      the handle is closed; `out` is as it was, and `*written` is 0
 */
uint32_t polydb_world_take(polydb_world *world, uint8_t *out, size_t room, size_t *written);

/* Closes the handle and frees all that it holds. A closed handle stays closed: closing twice is fine. */
void polydb_world_close(polydb_world *world);

/* ---- a site: one site of several, for a host that carries its messages and writes its journal ---- */

/*
 * A host does this, in any order and as often as it likes. polydb_site_journal_synced is for the bytes that polydb_site_take_journal gave last; other calls may come between.
 * With a room of 64 KiB, say, it writes all records that have come meanwhile together, with two writes and two syncs for all of them:
 *
 *     open the site on what its file holds
 *     for ever:
 *         while polydb_site_take_journal gives a place and bytes:
 *             write the bytes at the place (pwrite), and sync the file (fdatasync)
 *             polydb_site_journal_synced
 *         while polydb_site_take_message gives a message or a report:
 *             send the message to the site that it goes to; show the report
 *         give the site what came: a request, a message, a tick
 *
 * A message may be lost, may come late and may come twice: the protocol is made for that. That sites of several hosts agree is a law: whatever happens to them, there is one
 * run of all sites together, a list of events, in which what they have let out was sent or printed, and what they show is shown; and it goes on as they do. It asks for what
 * these calls are proved to do (docs/EMBEDDING.md has both side by side), and of hosts for what stands below. The run's programs are those
 * that hosts gave to their sites, each under the number that its site gave to it. Not promised: that its requests have the texts that a schedule for `polydb run` has; nor any run once
 * the configuration has grown, be it one across or one of what comes then, since the law begins with new files (docs/EMBEDDING.md, What isn't said).
 * Time is the host's: a site that waits for an answer gives up at its third tick, lets go of
 * its locks at their third, and then asks again at each tick; and never without one.
 *
 * What the host owes besides (`host/polydb_host.h` does what is on files of it, for a site on a folder, and `node/polydb_node.h` carries messages and ticks too):
 *   - a file that is there is synced before its bytes are read for polydb_site_open: the site counts as written all that it finds, and of a process that was killed the file may
 *     show bytes that aren't on the disk yet. A new one, and a copy, are synced, with their entry in the folder, before any call but the opening;
 *   - the file of a site that is opened the first time is POLYDB_EMPTY_JOURNAL, with any bytes behind it; and later the one that its last process left. An opening after which no
 *     other call is made on the site is nothing: the file may become what the process before it might have left, or be gone where it was new;
 *   - the file goes on to hold what it held when its bytes were read for polydb_site_open, and what was written and synced before polydb_site_journal_synced was called, also
 *     when the site is opened again. A crash in a write, or a write that fails, leaves there any bytes or none, and all other bytes alone. The host writes
 *     nothing else into it (but see polydb_site_open and polydb_site_take_journal);
 *   - where a write or a sync fails, polydb_site_journal_synced isn't called. The host writes the same bytes again (polydb_site_take_journal gives them
 *     again), and syncs. A later sync that answers 0 without a new write proves nothing: the system may have given up the bytes, and shows them still. That is so
 *     after a restart, too: a host that can't rule it out goes on with a copy, all of which is written and synced, with its entry in the folder, before any call but the opening;
 *   - of each number one site is open at a time, on one file: once the bytes are read for an opening that succeeds, nothing more is given to an earlier site of that number; what
 *     could not have been taken from it by then is dropped, and what it shows or tells from then on. (What could have been taken by then counts as taken by then.)
 *   - no write lands late, not from a queue, either: from the sync before the bytes are read none that was for an earlier opening, of another process or of this one; and
 *     none that was given up and made again, once polydb_site_journal_synced is called for it;
 *   - bytes that polydb_site_receive is given may be any bytes; but where they spell a message, a site of these very files let it out: on the file of its number, at any time since
 *     that was new. A site of other files is a stranger, also with the same configuration: one of a copy of all files, or of the time before all were made anew;
 *   - all sites are opened with the same configuration, always, but that all of them together may get one to which it has grown (polydb_config_grows); and each
 *     number is one site's. Afterwards no run is promised: what stands here as final is so as long as the configuration stays, and each call does what is said of it also then.
 *     The same is what declares the same: sites, items with their first values in their order, the limit. The file holds neither
 *     the configuration nor `me`: that it is opened as another site, or under another configuration, isn't noticed.
 *
 * What is proved of it: each call makes of the site what the program's site makes of the same input; nothing is let out before all records are in the file
 * that the site had when it made it, and nothing is shown while one isn't; and at each moment, and whatever a crash in a write leaves, the file is a journal
 * of the first records of the site: of as many as the host has said to be written, or of these and all of the group that it was given to write. `polydb
 * show` shows the file where it is called site-S.pv, for site S.
 */

/* Closed if all zeroes. Not to be copied. The fields are the library's. */
typedef struct {
    bool live;
    void *at;
} polydb_site;

/*
 * The file of a new site: a journal without records. It is these bytes with the zero behind them, sizeof POLYDB_EMPTY_JOURNAL in all.
 * The host makes the file, and syncs it and its folder, before it makes any call on the new site but the opening.
 */
#define POLYDB_EMPTY_JOURNAL "PVJRNL01"

/* What polydb_site_take_message gives for `to` where the bytes are no message, but a report. No site has this number. */
#define POLYDB_REPORT 255u

/*
 * Opens a closed handle with site `me` of a configuration: lines `sites`, `journal` and `item` of a schedule, the same for all sites. The journal is
 * what the host's file holds, as it was found. What stands there beyond the journal's end, its closed gate, doesn't matter: until the next call on the site the host may leave it
 * out, cut it off or put other bytes there. The opening takes no memory for it. The site keeps copies of what it needs.
 *
 *   POLYDB_DONE               the site is open. It is in a new epoch, whose record is the first thing to write
 *   POLYDB_IN_USE             the handle was open
 *   POLYDB_TOO_LONG           the configuration has more than 16,777,216 bytes
 *   POLYDB_MALFORMED          a line of it isn't in the grammar
 *   POLYDB_HAS_EVENTS         it has an event
 *   POLYDB_NO_SITE            it has no site `me`
 *   POLYDB_NOT_OURS           the bytes are no journal
 *   POLYDB_BAD_RECORD         the journal holds what is no record
 *   POLYDB_TOO_MANY_OUTCOMES  its records give an item too many outcomes
 *   POLYDB_EPOCHS_SPENT       no epoch is left
 *   POLYDB_FULL               there is no room for the epoch's record
 *   POLYDB_NO_MEMORY          there was no memory
 *
 * Each opening asks for a record of 10 bytes, so a journal at its limit can't be opened, nor be read. It isn't lost: a configuration with a higher limit in its line
 * `journal` opens the same bytes (polydb_config_grows).
 */
uint32_t polydb_site_open(polydb_site *site, const uint8_t *config, size_t config_length, uint8_t me, const uint8_t *journal,
                          size_t journal_length);

/*
 * The same, and says in `*fault` where it is refused:
 *
 *   POLYDB_MALFORMED          `line` of the configuration; and `column` of its program, where that is at fault
 *   POLYDB_NOT_OURS           at the byte `number`, from 0, it shows that the bytes are no journal
 *   POLYDB_BAD_RECORD         the record `number`, from 0, is the first that is none
 *   POLYDB_TOO_MANY_OUTCOMES  the value would name `number` outcomes
 *   POLYDB_FULL               the journal would have `number` bytes: so high has the limit to be
 */
uint32_t polydb_site_open_at(polydb_site *site, const uint8_t *config, size_t config_length, uint8_t me, const uint8_t *journal,
                             size_t journal_length, polydb_fault *fault);

/*
 * Whether a site that was opened with the configuration `before` may be opened with `later` from now on: whether `later` declares the same sites, the same items in
 * their order and perhaps more behind them, and no lower a limit of journals. Where it may, all sites are stopped, and opened with `later`; the other way back there is none.
 * The items that were there show what they showed, which is a law of records. But a run has one catalog and one limit, so no run is promised afterwards, neither one of before and
 * after nor one of what comes then (docs/EMBEDDING.md, What isn't said).
 *
 *   POLYDB_DONE       it may; also where both declare the same
 *   POLYDB_TOO_LONG, POLYDB_MALFORMED, POLYDB_HAS_EVENTS
 *                     `before` is no configuration; or it is one, and `later` is none
 *   POLYDB_NOT_GROWN  it may not
 *   POLYDB_NO_MEMORY  there was no memory
 */
uint32_t polydb_config_grows(const uint8_t *before, size_t before_length, const uint8_t *later, size_t later_length);

/*
 * A request: the program that the text is runs, with this site as its coordinator. A query assigns nothing and has a `return`. What becomes of it is
 * reported. Each request that is taken has one report `txn ..` with its number, in the order of the requests, and later one `commit ..` or `refuse ..` with
 * that number, never two, also when the site is opened again; or in place of these `spent ..`, where the site has no number left for it, and then nothing more. If the
 * site is closed before, there is nothing more either: it may have committed or not if its `txn ..` was taken, and else it hasn't and never will. (`spent ..` also comes where
 * this site is asked for locks and has no number left for a grant, and it isn't said for which of the two: the host is to close the site then, and to open it again. A site
 * has 4,294,967,295 numbers of each of the two kinds, and as many again when it is opened again.)
 *
 *   POLYDB_DONE         the site has taken it
 *   POLYDB_CLOSED       the handle is closed
 *   POLYDB_BAD_TEXT     the text is no program: also where it has more than 1,000 bytes
 *   POLYDB_BAD_PROGRAM  the program may not run
 *   POLYDB_NO_MEMORY    there was no memory
 */
uint32_t polydb_site_submit(polydb_site *site, const uint8_t *program, size_t length, bool query);

/*
 * The same, and says in `*fault` where it is refused:
 *
 *   POLYDB_BAD_TEXT     `column` of the token that can't stand there, names no item or is nested too deep, or behind the end of a text that ends too early; or
 *                       `column` is 0, and the text has `number` bytes, too many
 *   POLYDB_BAD_PROGRAM  it names `number` items, too many; or `number` is 0
 */
uint32_t polydb_site_submit_at(polydb_site *site, const uint8_t *program, size_t length, bool query, polydb_fault *fault);

/*
 * The same, with a number of the host's, which polydb_site_take_tagged gives with the report `txn ..` of this request. 0 is that of a request without one. The site keeps the
 * tag in memory until then, and no file has it: if the site is closed before, it is lost with that report.
 *
 * So that a retry after a crash does nothing twice, a host keeps on its disk, beside each tag, what it has of the request; and then the number that came with the tag, before it
 * takes anything more from the site, since what comes next may let the transaction commit. After a crash it asks for the outcome of each number that it has (polydb_site_outcome).
 * A request of which it has no number hasn't committed, and never will, as long as the configuration stays.
 */
uint32_t polydb_site_submit_tagged(polydb_site *site, const uint8_t *program, size_t length, bool query, uint64_t tag, polydb_fault *fault);

/*
 * A message comes: bytes that polydb_site_take_message of some site, or of this one, has given.
 *
 *   POLYDB_DONE         the site has taken it
 *   POLYDB_CLOSED       the handle is closed
 *   POLYDB_BAD_MESSAGE  the bytes are no message
 *   POLYDB_NOT_HERE     the message goes to another site
 *   POLYDB_NO_SENDER    the configuration has no such site as it comes from
 *   POLYDB_NO_MEMORY    there was no memory: give it again, or let it be lost
 */
uint32_t polydb_site_receive(polydb_site *site, const uint8_t *message, size_t length);

/*
 * Time has passed: the site may give up waiting, let go of its locks and show both values, or ask again.
 *
 *   POLYDB_DONE        the site has counted it
 *   POLYDB_CLOSED      the handle is closed
 *   POLYDB_NO_MEMORY   there was no memory
 */
uint32_t polydb_site_tick(polydb_site *site);

/*
 * What the host is to write next into its file: `*written` bytes at `*place` (from 0), which may lie within the file. They are a group of the records that wait, as
 * many as have room and one at least; and once polydb_site_journal_synced is called for them, one byte more, which makes all of them count. The group stays
 * as it is, and the same bytes come, until then: a record that comes meanwhile waits for the next group. The byte is written only after the group is there and synced. But a store
 * that takes several writes whole or not at all may be given both together: that counts as the group there and told, and the byte under way.
 *
 *   POLYDB_DONE        the bytes are in `out`
 *   POLYDB_CLOSED      the handle is closed
 *   POLYDB_NOTHING     all is written
 *   POLYDB_TOO_SMALL   there is less room than `*written` bytes, which the first record that waits has, or the group; the group is what it was
 */
uint32_t polydb_site_take_journal(polydb_site *site, uint8_t *out, size_t room, size_t *written, uint64_t *place);

/*
 * The host has written these bytes at this place, as many as polydb_site_take_journal gave last, and synced the file. To say so before it is true breaks
 * what is proved.
 *
 *   POLYDB_DONE        the site knows; the next write, if there is one, is now to be taken
 *   POLYDB_CLOSED      the handle is closed
 *   POLYDB_NOT_NEXT    so many bytes at this place aren't what is to be written next, or their bytes weren't given since the site was opened
 */
uint32_t polydb_site_journal_synced(polydb_site *site, uint64_t place, size_t written);

/*
 * The next thing that the site lets out: the bytes of a message, to be carried to site `*to`; or with `*to` = POLYDB_REPORT a line of text with its
 * line feed, as a run prints it: `txn 0.1.0`, `commit 0.1.0 certain nothing`, `refuse 0.1.1 conflict 0 a 0.1.0`, `full 0 4096`, `spent 0`.
 * They come in the order of the steps that made them, and of each step the messages first. Of a message `*to` is below 16, but may be no site of the configuration, where the file
 * names a transaction of such a one: there is nobody to carry it to, and the message is lost.
 *
 *   POLYDB_DONE        it is in `out`, and dropped from the site
 *   POLYDB_CLOSED      the handle is closed
 *   POLYDB_NOTHING     there is nothing, or it waits for the file
 *   POLYDB_TOO_SMALL   it has `*written` bytes, and there is less room
 *   POLYDB_NO_MEMORY   there was no memory; it comes again
 */
uint32_t polydb_site_take_message(polydb_site *site, uint8_t *out, size_t room, size_t *written, uint64_t *to);

/*
 * The same, and gives in `*tag` the tag of the request whose number is reported: of polydb_site_submit_tagged, with its report `txn ..`. With all else, also with a status other than
 * POLYDB_DONE, it is 0.
 */
uint32_t polydb_site_take_tagged(polydb_site *site, uint8_t *out, size_t room, size_t *written, uint64_t *to, uint64_t *tag);

/*
 * What the site shows of its item of this name, as the line with its line feed that a report has for it: `item a 90`,
 * `item b 50 if -0.1.0 ; 60 if +0.1.0`, or `item a locked 0.1.0`. Nothing changes. It is shown only once all is written that the site has asked for:
 * else a crash might undo what was shown.
 *
 *   POLYDB_DONE          the line is in `out`
 *   POLYDB_CLOSED        the handle is closed
 *   POLYDB_UNKNOWN_NAME  no item has this name
 *   POLYDB_NOT_HERE      the item is at another site
 *   POLYDB_UNWRITTEN     polydb_site_take_journal has something to write, and the item isn't shown before polydb_site_journal_synced
 *   POLYDB_TOO_SMALL     the line has `*written` bytes, and there is less room
 *   POLYDB_NO_MEMORY     there was no memory
 */
uint32_t polydb_site_read(polydb_site *site, const uint8_t *name, size_t length, uint8_t *out, size_t room, size_t *written);

/* What became of a transaction. */
#define POLYDB_COMMITTED 1u
#define POLYDB_NOT_COMMITTED 2u
#define POLYDB_AT_WORK 3u

/*
 * What became of a transaction of this site, by the three numbers of its `txn` report, as 0, 1 and 0 of `txn 0.1.0`. POLYDB_COMMITTED and POLYDB_NOT_COMMITTED are what another
 * site is answered that asks for the outcome; else that one gets no answer. A host that has kept such a number asks after a crash (polydb_site_submit_tagged). Nothing changes.
 *
 * It is told only once all is written that the site has asked for: else a crash might undo it. POLYDB_COMMITTED and POLYDB_NOT_COMMITTED are final, as long as the configuration
 * stays; and POLYDB_COMMITTED also where it has grown. A transaction that is POLYDB_AT_WORK may still commit or not. Of a number of a passed epoch that was never given
 * POLYDB_NOT_COMMITTED is told.
 *
 *   POLYDB_DONE        `*outcome` is POLYDB_COMMITTED, POLYDB_NOT_COMMITTED or POLYDB_AT_WORK; with other statuses it is 0
 *   POLYDB_CLOSED      the handle is closed
 *   POLYDB_NOT_HERE    it is a transaction of another site
 *   POLYDB_UNWRITTEN   polydb_site_take_journal has something to write, and nothing is told before polydb_site_journal_synced
 *   POLYDB_NOTHING     the site may still give this number to a transaction
 *   POLYDB_NO_MEMORY   there was no memory
 */
uint32_t polydb_site_outcome(polydb_site *site, uint8_t coordinator, uint32_t epoch, uint32_t number, uint32_t *outcome);

/* How far a site is. */
typedef struct {
    uint64_t stored; /* bytes of the journal that are in the file, by what the host has said: up to its closed gate, and with it */
    uint64_t asked;  /* as many as there are once all is written that the site has asked for */
    uint64_t limit;  /* as many as there may be: of the configuration */
    uint32_t epoch;  /* the epoch in which the site was opened; 0 while something is to be written, since a crash may undo it */
    uint32_t records; /* since 0.3.0: records that are in the file, by what the host has said; 4294967295 if there are more, for which a journal of POLYDB_MAX_JOURNAL has no room */
} polydb_info;

/*
 * How far the site is. Nothing changes.
 *
 *   POLYDB_DONE        it is in `*info`
 *   POLYDB_CLOSED      the handle is closed; `*info` has zeroes
 */
uint32_t polydb_site_info(polydb_site *site, polydb_info *info);

/*
 * The name of the item of this number, from 0, in the order in which the configuration declares them; `*at` is the site that it is at, which may be another one.
 * Nothing changes.
 *
 *   POLYDB_DONE        the name is in `out`
 *   POLYDB_CLOSED      the handle is closed
 *   POLYDB_NOTHING     there are no more than `number` items
 *   POLYDB_TOO_SMALL   the name has `*written` bytes, and there is less room
 */
uint32_t polydb_site_item(polydb_site *site, uint64_t number, uint8_t *out, size_t room, size_t *written, uint64_t *at);

/* Closes the handle and frees all that it holds. A closed handle stays closed. The host's file goes on: open the site again on it. */
void polydb_site_close(polydb_site *site);

/* ---- an outbox: outputs that are held back, and let out at most once, for a host that writes their journal ---- */

/*
 * An output is a number that the host chose for an effect on the outside: a payment, a letter, a call of another service. It is held back under a condition on
 * outcomes of transactions, which is 0 or 1 at each assignment. It is *ready* once the condition is certain to be 1, whatever comes of transactions whose outcome wasn't learnt. A
 * ready output is released, the one first that was held first, and then taken, once; and its effect done. docs/OUTBOXES.md says what at most once leaves to the host.
 *
 * A host does this, in any order and as often as it likes:
 *
 *     open the outbox on what its file holds
 *     for ever:
 *         polydb_outbox_hold what is to be held back, polydb_outbox_learn the outcomes that it heard of
 *         while polydb_outbox_release gives POLYDB_DONE: nothing more
 *         while polydb_outbox_take_journal gives a place and bytes:
 *             write the bytes at the place (pwrite), and sync the file (fdatasync)
 *             polydb_outbox_journal_synced
 *         while polydb_outbox_take gives an output: do its effect
 *
 * What is proved of it: polydb_outbox_take gives an output only once the host has said that the file has the record of its release. So over every list of calls, kills and
 * openings, where the host writes what it is told and a kill leaves any bytes in the range that is being written, no output is taken twice, and none whose
 * release an opening finds in the file; each was the ready one that was held first when it was released; and what a kill leaves is a
 * journal of an outbox's records, so that its opening fails for want of memory alone.
 * What was held or learnt is there for good once the host has said that all is written that polydb_outbox_take_journal gave after it; before that a kill may undo it, and then it
 * is as if it had never been asked. At each moment the file is a journal of the first records of the outbox: of as many as the host has said to be written, or of these
 * and all of the group that it was given to write.
 *
 * An output that was released, and whose record is in the file, but that wasn't taken when the handle was closed or the process was killed, is never taken: its effect isn't done.
 * Who has one at a time at stake releases one, writes, and takes it.
 *
 * What the host owes besides is what it owes of a site's file: that is synced before its bytes are read for the opening; a new one is POLYDB_EMPTY_JOURNAL, synced with its entry in
 * the folder before any call but the opening; it goes on to hold what was written and synced; where a write or a sync fails, polydb_outbox_journal_synced isn't called, and the same
 * bytes are written again; one outbox is open on it at a time; and no write lands late. A file is of an outbox or of a site, not of both: an outbox finds a site's records to be
 * none, and so does a site with an outbox's.
 */

/* Closed if all zeroes. Not to be copied. The fields are the library's. */
typedef struct {
    bool live;
    void *at;
} polydb_outbox;

/*
 * Opens a closed handle with an outbox that goes on from its journal: what the host's file holds, as it was found, POLYDB_EMPTY_JOURNAL for a new one. What stands there beyond
 * the journal's end, its closed gate, doesn't matter. The opening takes time and memory in proportion to the bytes, and nothing is to be written by it. In `*fault` it is said where
 * it is refused: `number` is the byte, from 0, at which it shows that the bytes are no journal; or the record, from 0, that is the first that is none of an outbox.
 *
 *   POLYDB_DONE        the outbox is open. It says what the journal's records say
 *   POLYDB_IN_USE      the handle was open
 *   POLYDB_NOT_OURS    the bytes are no journal
 *   POLYDB_BAD_RECORD  the journal holds what is no record of an outbox
 *   POLYDB_NO_MEMORY   there was no memory
 */
uint32_t polydb_outbox_open(polydb_outbox *outbox, const uint8_t *journal, size_t journal_length, polydb_fault *fault);

/*
 * Holds an output back under a condition: a value, 0 or 1, or cases as a report has them, as `0 if -0.1.0 ; 1 if +0.1.0`. They are canonical, as polydb writes them, but that numbers may begin with zeros, in one line of
 * POLYDB_MAX_CASES bytes at most, name at most 12 transactions, and each has a site below 16. Of several that hold one output the first counts.
 *
 *   POLYDB_DONE       the outbox has it, and its record is to be written: it is held for good once that is in the file
 *   POLYDB_CLOSED     the handle is closed
 *   POLYDB_BAD_CASES  the text is no such condition
 *   POLYDB_UNWRITTEN  the output was held before, and records wait to be written: a crash may undo that
 *   POLYDB_AGAIN      the output was held before, for good, whether it was released since or not
 *   POLYDB_FULL       the journal has no room for the record
 *   POLYDB_NO_MEMORY  there was no memory
 */
uint32_t polydb_outbox_hold(polydb_outbox *outbox, uint32_t output, const uint8_t *cases, size_t length);

/*
 * Learns what became of a transaction, by the three numbers of its `txn` report, as 0, 1 and 0 of `txn 0.1.0`: whether it commits. The outbox believes it. The first outcome
 * counts; which one that is `*outcome` says with POLYDB_KNOWN, as POLYDB_COMMITTED or POLYDB_NOT_COMMITTED, and with all other statuses it is 0.
 *
 *   POLYDB_DONE       the outbox has it, and its record is to be written: it is learnt for good once that is in the file
 *   POLYDB_CLOSED     the handle is closed
 *   POLYDB_NO_SITE    no transaction has this coordinator: it isn't below 16
 *   POLYDB_UNWRITTEN  an outcome was learnt before, and records wait to be written: a crash may undo that
 *   POLYDB_KNOWN      an outcome was learnt before, for good
 *   POLYDB_FULL       the journal has no room for the record
 *   POLYDB_NO_MEMORY  there was no memory
 */
uint32_t polydb_outbox_learn(polydb_outbox *outbox, uint8_t coordinator, uint32_t epoch, uint32_t number, bool commits, uint32_t *outcome);

/*
 * Releases the ready output that was held first: the record of its release is to be written, and once that is in the file polydb_outbox_take gives the output. Several may be
 * released before they are taken, so that one group of records has all of them.
 *
 *   POLYDB_DONE       one was released
 *   POLYDB_CLOSED     the handle is closed
 *   POLYDB_NOTHING    no output is ready
 *   POLYDB_FULL       the journal has no room for the record
 *   POLYDB_NO_MEMORY  there was no memory
 */
uint32_t polydb_outbox_release(polydb_outbox *outbox);

/*
 * Takes the next output that was released since the outbox was opened, in the order in which they were: once the record of its release is in the file, so that no crash lets it
 * out a second time. Its effect may be done now, and never before.
 *
 *   POLYDB_DONE       it is in `*output`
 *   POLYDB_CLOSED     the handle is closed
 *   POLYDB_NOTHING    all that were released are taken
 *   POLYDB_UNWRITTEN  one was released, and its record isn't in the file: polydb_outbox_take_journal has something to write
 */
uint32_t polydb_outbox_take(polydb_outbox *outbox, uint32_t *output);

/*
 * What the host is to write next into its file: `*written` bytes at `*place` (from 0), which may lie within the file, as polydb_site_take_journal gives them of a site. They are a
 * group of the records that wait, as many as have room and one at least; and once polydb_outbox_journal_synced is called for them, one byte more, which makes all of them count.
 *
 *   POLYDB_DONE        the bytes are in `out`
 *   POLYDB_CLOSED      the handle is closed
 *   POLYDB_NOTHING     all is written
 *   POLYDB_TOO_SMALL   there is less room than `*written` bytes, which the first record that waits has, or the group; the group is what it was
 */
uint32_t polydb_outbox_take_journal(polydb_outbox *outbox, uint8_t *out, size_t room, size_t *written, uint64_t *place);

/*
 * The host has written these bytes at this place, as many as polydb_outbox_take_journal gave last, and synced the file. To say so before it is true breaks what is proved.
 *
 *   POLYDB_DONE        the outbox knows; the next write, if there is one, is now to be taken
 *   POLYDB_CLOSED      the handle is closed
 *   POLYDB_NOT_NEXT    so many bytes at this place aren't what is to be written next, or their bytes weren't given since the outbox was opened
 */
uint32_t polydb_outbox_journal_synced(polydb_outbox *outbox, uint64_t place, size_t written);

/* How far an outbox is. */
typedef struct {
    uint64_t stored; /* bytes of the journal that are in the file, by what the host has said: up to its closed gate, and with it */
    uint64_t asked;  /* as many as there are once all is written that the outbox has asked for */
    uint64_t limit;  /* as many as there may be */
} polydb_outbox_journal;

/*
 * How far the outbox is. What was held, learnt or released when `asked` was some number is in the file once `stored` is no less. Nothing changes.
 *
 *   POLYDB_DONE        it is in `*journal`
 *   POLYDB_CLOSED      the handle is closed; `*journal` has zeroes
 */
uint32_t polydb_outbox_info(polydb_outbox *outbox, polydb_outbox_journal *journal);

/* Closes the handle and frees all that it holds. A closed handle stays closed. The host's file goes on: open the outbox again on it. */
void polydb_outbox_close(polydb_outbox *outbox);

/* ---- a whole run, without a handle ---- */

/*
 * The text that `polydb run` prints for these bytes, and its exit status. No state stays behind.
 *
 *   POLYDB_DONE        the whole text is in `out`, `*written` bytes
 *   POLYDB_TOO_SMALL   the text has `*written` bytes, and there is less room; this comes in place of the statuses below, too
 *   POLYDB_TOO_LONG    there are more than 16,777,216 bytes
 *   POLYDB_MALFORMED   a line isn't in the grammar; the text in `out` names the first one and why
 *   POLYDB_SENT_LIMIT  the messages are too many; the text of the events before is in `out`
 *   POLYDB_NO_MEMORY   there was no memory
 */
uint32_t polydb_run(const uint8_t *input, size_t length, uint8_t *out, size_t room, size_t *written);

#ifdef __cplusplus
}
#endif

#endif
