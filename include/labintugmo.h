/*
 * labintugmo.h: a verified GPU sector cache for C (C99 and later).
 *
 * In order: what a caller must know; the numbers (settings, rooms, statuses, answers,
 * refusals, stops, records); where each number stands in the lent tables; the calls.
 *
 * The library keeps nothing of its own: no allocation, no globals, no file. A caller lends
 * the tables of one cache as three arrays, with the same settings, to every call.
 *
 *  - A slice is a pointer and, next to it, its length in elements. The pointer must be good
 *    for that length; with length 0 it may be null. Slices of one call must not overlap.
 *  - Memory filled with zeros is neither fresh nor sound: begin with labintugmo_fresh or
 *    with labintugmo_run.
 *  - Calls on different tables may run at the same time. Calls on the same tables may not.
 *  - Every call but the lengths and labintugmo_fresh checks the tables that it is lent, so
 *    tables that something else has changed are refused (3) and never acted on.
 *  - A refused call leaves all three slices as they were.
 *  - A call takes less than LABINTUGMO_STACK bytes of stack, whatever the settings.
 *
 * Linking: liblabintugmo.a, for x86-64 Linux; it needs nothing but the C library.
 */
#ifndef LABINTUGMO_H
#define LABINTUGMO_H

/*
 * The version, here and nowhere else: CMake, pkg-config and ./labintugmo read this line. The first
 * number rises when a program has to be changed, the second when a setting, a record or a region of
 * the tables is added. Tables that were kept belong to their version: another one has other lengths.
 */
#define LABINTUGMO_VERSION "2.2.0"

#include <stddef.h>
#include <stdint.h>

#ifdef __cplusplus
extern "C" {
#endif

/*
 * Settings: one slice of LABINTUGMO_SETTINGS numbers, in this order. Any numbers may be lent;
 * one outside its range is refused (1). The rule may be left out: six numbers mean rule 0. A
 * slice of any other length is refused (1) too.
 *
 * A setting that a later version adds comes last, and a slice without it has its older
 * default: a program built for these settings then goes on meaning what it means.
 */
enum {
    LABINTUGMO_SETS = 0,    /* 1 to 256, a power of two */
    LABINTUGMO_WAYS = 1,    /* 1 to 16; sets * ways, the number of lines, is at most 1,024 */
    LABINTUGMO_DIRTY = 2,   /* 0 to 100, a percentage: a dirty line may be a victim only while
                               100 * dirty lines >= dirty * lines */
    LABINTUGMO_MISSES = 3,  /* 1 to 64, entries of the miss table */
    LABINTUGMO_READERS = 4, /* 1 to 8, tickets that one miss entry holds */
    LABINTUGMO_QUEUE = 5,   /* 2 to 64, places of the miss queue */
    LABINTUGMO_RULE = 6,    /* how a victim is chosen where no line is wholly invalid: below */
    LABINTUGMO_SETTINGS = 7 /* how many there are */
};

/* Replacement rules. Under the first two the lowest way goes of equals. */
enum {
    LABINTUGMO_LRU = 0,  /* least recently used: the earliest last access */
    LABINTUGMO_FIFO = 1, /* first in first out: the line that a MISS took the earliest */
    LABINTUGMO_TREE = 2  /* the tree of the set; ways has to be a power of two */
};

/* Bytes of event room that a call, and that wait, asks for before it does anything. */
enum { LABINTUGMO_ROOM = 64, LABINTUGMO_WAIT_ROOM = 9600 };

/* Bytes of stack that suffice for any call, with the C library's copying of memory. */
enum { LABINTUGMO_STACK = 4096 };

/* A line has 128 bytes, its four sectors have 32 each; addresses are below 2^48. */
enum { LABINTUGMO_LINE_BYTES = 128, LABINTUGMO_SECTOR_BYTES = 32, LABINTUGMO_SECTORS = 4 };

/* The latest current cycle. */
#define LABINTUGMO_LAST_CYCLE UINT32_C(4294967294)

/* The status of a sector, a byte of marks. */
enum {
    LABINTUGMO_INVALID = 0,
    LABINTUGMO_RESERVED = 1, /* a miss entry waits for it */
    LABINTUGMO_VALID = 2,
    LABINTUGMO_MODIFIED = 3
};

/* The kind of a queue place, a byte of marks. */
enum { LABINTUGMO_UNUSED = 0, LABINTUGMO_QUEUED_READ = 1, LABINTUGMO_QUEUED_WRITE_BACK = 2 };

/* The answer to an accepted access, a byte of record 0x10. */
enum {
    LABINTUGMO_HIT = 1,
    LABINTUGMO_HIT_RESERVED = 2,
    LABINTUGMO_MISS = 3,
    LABINTUGMO_SECTOR_MISS = 4
};

/*
 * Refusals, checked in this order; the first that applies is given. 1 to 3 can come from
 * any call on lent tables (3 not from fresh), 4 to 9 from an access and 4 and 6 from wait,
 * 10 from fill, 11 from tick, 12 from send.
 */
enum {
    LABINTUGMO_BAD_SETTINGS = 1,    /* a setting outside its range, or another number of them */
    LABINTUGMO_OTHER_LENGTH = 2,    /* a lent slice of another length */
    LABINTUGMO_NOT_SOUND = 3,       /* tables that break a rule of sound tables */
    LABINTUGMO_NOT_WELL_FORMED = 4, /* address not a multiple of 32 or not below 2^48;
                                       write mask 0; read mask not 0 */
    LABINTUGMO_SET_BUSY = 5,        /* no way can be replaced, one waits for a fill: try again */
    LABINTUGMO_SET_HELD = 6,        /* no way can be replaced, none waits: too few dirty lines */
    LABINTUGMO_QUEUE_FULL = 7,      /* too few free queue places: send, then try again */
    LABINTUGMO_ENTRY_FULL = 8,      /* the miss entry has all its readers: fill, try again */
    LABINTUGMO_MISSES_FULL = 9,     /* no free miss entry: fill, then try again */
    LABINTUGMO_NOT_SENT = 10,       /* fill: no sent entry with exactly that address */
    LABINTUGMO_BAD_CYCLE = 11,      /* tick to an earlier cycle or above the latest */
    LABINTUGMO_QUEUE_EMPTY = 12     /* send: nothing is queued */
};

/* Why labintugmo_run or labintugmo_resume stopped: one of these, or LABINTUGMO_BAD_SETTINGS,
   _OTHER_LENGTH or, of resume, _NOT_SOUND. */
enum {
    LABINTUGMO_END = 0,             /* the whole stream was run */
    LABINTUGMO_SETTINGS_PLACE = 13, /* settings not first, or another record first */
    LABINTUGMO_UNKNOWN_KIND = 14,
    LABINTUGMO_CUT_SHORT = 15,
    LABINTUGMO_NO_ROOM = 16         /* fewer than LABINTUGMO_ROOM bytes of event room left */
};

/*
 * Records: one byte of kind, then a body of fixed length; numbers are little-endian.
 * Commands, which labintugmo_run reads:
 */
enum {
    LABINTUGMO_COMMAND_SETTINGS = 0, /* 7: sets 2, ways, dirty, misses, readers, queue 1 each */
    LABINTUGMO_COMMAND_READ = 1,     /* 12: address 8, ticket 4 */
    LABINTUGMO_COMMAND_WRITE = 2,    /* 12: address 8, mask 4 */
    LABINTUGMO_COMMAND_SEND = 3,     /* 0 */
    LABINTUGMO_COMMAND_FILL = 4,     /* 8: sector address */
    LABINTUGMO_COMMAND_TICK = 5,     /* 4: cycle */
    LABINTUGMO_COMMAND_RULED = 6     /* 8: as settings, and rule 1; stands where settings do */
};

/*
 * Events, which the calls write. An access writes 0x10, then 0x12 and 0x13 if they apply;
 * a send 0x15 or 0x16; a fill 0x17, then a 0x14 for each ticket in order of arrival; a tick
 * 0x18; a refused call 0x11 and nothing else.
 */
enum {
    LABINTUGMO_EVENT_ANSWER = 0x10,            /* 3: answer 1, line 2 */
    LABINTUGMO_EVENT_REFUSED = 0x11,           /* 1: refusal */
    LABINTUGMO_EVENT_READ_QUEUED = 0x12,       /* 8: sector address */
    LABINTUGMO_EVENT_WRITE_BACK_QUEUED = 0x13, /* 24: block address 8, four dirty masks 4 each */
    LABINTUGMO_EVENT_RELEASED = 0x14,          /* 4: ticket */
    LABINTUGMO_EVENT_READ_SENT = 0x15,         /* 8: sector address */
    LABINTUGMO_EVENT_WRITE_BACK_SENT = 0x16,   /* 24: as 0x13 */
    LABINTUGMO_EVENT_FILLED = 0x17,            /* 8: sector address */
    LABINTUGMO_EVENT_TICKED = 0x18             /* 0 */
};

/*
 * The lent tables. With lines = sets * ways, line number = set * ways + way, and
 * set = (address / 128) mod sets:
 *
 *   longs, lines + misses + queue:
 *     [line]                                       tag: the block address
 *     [lines + entry]                              miss entry: sector address
 *     [lines + misses + place]                     queue: sector or block address
 *
 *   words, 2 + 6 * lines + misses * readers + 4 * queue + sets:
 *     [0]                                          current cycle
 *     [1 + line]                                   cycle of the line's last access
 *     [1 + lines + 4 * line + sector]              dirty mask, bit i for byte i
 *     [1 + 5 * lines + readers * entry + i]        miss entry: ticket i
 *     [1 + 5 * lines + readers * misses
 *        + 4 * place + sector]                     queue: mask of a write-back
 *     [1 + 5 * lines + readers * misses
 *        + 4 * queue]                              how many lines have a MODIFIED sector
 *     [2 + 5 * lines + readers * misses
 *        + 4 * queue + line]                       cycle at which a MISS last took the line
 *     [2 + 6 * lines + readers * misses
 *        + 4 * queue + set]                        tree: bit n - 1 for node n, 0 the lower half;
 *                                                  node 1 is the top, 2n and 2n + 1 lie below n
 *
 *   marks, 8 * lines + 2 * misses + queue:
 *     [4 * line + sector]                          status
 *     [4 * lines + 4 * line + sector]              1 readable, 0 not
 *     [8 * lines + entry]                          miss entry: 1 sent, 0 not
 *     [8 * lines + misses + entry]                 miss entry: tickets; 0 is an unused entry
 *     [8 * lines + 2 * misses + place]             queue: kind; 0 is an unused place
 *
 * Used entries and places stand first, the oldest at 0. A caller may read any of these at
 * any time between calls; it should write none of them.
 */

/* The lengths of the three slices for settings; 0 for settings out of range. */
size_t labintugmo_longs_length(const uint32_t *settings, size_t settings_length);
size_t labintugmo_words_length(const uint32_t *settings, size_t settings_length);
size_t labintugmo_marks_length(const uint32_t *settings, size_t settings_length);

/* Makes the tables fresh, whatever they held: 0, or refusal 1 or 2. */
uint32_t labintugmo_fresh(const uint32_t *settings, size_t settings_length,
                          uint64_t *longs, size_t longs_length,
                          uint32_t *words, size_t words_length,
                          uint8_t *marks, size_t marks_length);

/* Whether calls would take the tables: 0, or refusal 1, 2 or 3. */
uint32_t labintugmo_check(const uint32_t *settings, size_t settings_length,
                          const uint64_t *longs, size_t longs_length,
                          const uint32_t *words, size_t words_length,
                          const uint8_t *marks, size_t marks_length);

/*
 * The next six write the call's event records to the start of `events` and return their
 * number of bytes, at most 49; a refused call writes 0x11 and its number and returns 2.
 * With fewer than LABINTUGMO_ROOM bytes of room they return 0 and nothing changes.
 * Bytes of `events` beyond those written are left alone.
 */

/* A read of the sector at `address`; the ticket comes back in a 0x14 when it is filled. */
size_t labintugmo_read(const uint32_t *settings, size_t settings_length,
                       uint64_t *longs, size_t longs_length,
                       uint32_t *words, size_t words_length,
                       uint8_t *marks, size_t marks_length,
                       uint64_t address, uint32_t ticket,
                       uint8_t *events, size_t events_length);

/* A write of the bytes of `mask` (not 0, bit i for byte i) of the sector at `address`. */
size_t labintugmo_write(const uint32_t *settings, size_t settings_length,
                        uint64_t *longs, size_t longs_length,
                        uint32_t *words, size_t words_length,
                        uint8_t *marks, size_t marks_length,
                        uint64_t address, uint32_t mask,
                        uint8_t *events, size_t events_length);

/* Either: is_write 0 is a read, whose mask must be 0; any other number is a write, whose
   ticket is ignored. */
size_t labintugmo_access(const uint32_t *settings, size_t settings_length,
                         uint64_t *longs, size_t longs_length,
                         uint32_t *words, size_t words_length,
                         uint8_t *marks, size_t marks_length,
                         uint32_t is_write, uint64_t address, uint32_t mask, uint32_t ticket,
                         uint8_t *events, size_t events_length);

/* Takes the head of the miss queue to the memory. */
size_t labintugmo_send(const uint32_t *settings, size_t settings_length,
                       uint64_t *longs, size_t longs_length,
                       uint32_t *words, size_t words_length,
                       uint8_t *marks, size_t marks_length,
                       uint8_t *events, size_t events_length);

/* The memory's answer to a read that was sent: `address` exactly as it was sent. */
size_t labintugmo_fill(const uint32_t *settings, size_t settings_length,
                       uint64_t *longs, size_t longs_length,
                       uint32_t *words, size_t words_length,
                       uint8_t *marks, size_t marks_length,
                       uint64_t address,
                       uint8_t *events, size_t events_length);

/* Sets the current cycle, which may stay but not go back. */
size_t labintugmo_tick(const uint32_t *settings, size_t settings_length,
                       uint64_t *longs, size_t longs_length,
                       uint32_t *words, size_t words_length,
                       uint8_t *marks, size_t marks_length,
                       uint32_t cycle,
                       uint8_t *events, size_t events_length);

/*
 * Offers an access again and again, with a memory that answers at once: each round sends
 * the queue head if there is one, fills the first entry marked sent if there is one, and
 * offers the access; up to round max(1, queued + miss entries in use). By then the access
 * has been accepted, or it is held (6) and would stay so.
 *
 * Writes the events of all rounds without the refusals of offers, and returns their bytes;
 * `round`, a slice of length 1, becomes the accepting round, counted from 1. If there is
 * none it becomes 0 and the last record is 0x11: 6 after all rounds, or 1 to 4 at once with
 * nothing done. With fewer than LABINTUGMO_WAIT_ROOM bytes of room, or another length of
 * `round`, it returns 0 and nothing changes.
 */
size_t labintugmo_wait(const uint32_t *settings, size_t settings_length,
                       uint64_t *longs, size_t longs_length,
                       uint32_t *words, size_t words_length,
                       uint8_t *marks, size_t marks_length,
                       uint32_t is_write, uint64_t address, uint32_t mask, uint32_t ticket,
                       uint8_t *events, size_t events_length,
                       uint64_t *round, size_t round_length);

/* Bytes of event room that the rounds and the struck rounds ask for, for each round. */
enum { LABINTUGMO_ROUND_ROOM = 112 };

/*
 * Runs rounds as labintugmo_wait does, until the access is accepted and n at the most, and
 * writes every event, refusals (0x11) too. flags[i] becomes 1 if the offer of round i,
 * counted from 0, was accepted, and 0 if not; the flags beyond the rounds run stay. `counts`,
 * a slice of length 2, becomes the rounds run and the event bytes written.
 *
 * Returns 0; or 1 to 4 for a refusal before the first round, or LABINTUGMO_NO_ROOM with
 * fewer than n flags or n * LABINTUGMO_ROUND_ROOM bytes of room: then nothing is run and
 * `counts` becomes 0 and 0. With another length of `counts` it returns 2 and nothing changes.
 */
uint32_t labintugmo_rounds(const uint32_t *settings, size_t settings_length,
                           uint64_t *longs, size_t longs_length,
                           uint32_t *words, size_t words_length,
                           uint8_t *marks, size_t marks_length,
                           uint32_t is_write, uint64_t address, uint32_t mask, uint32_t ticket,
                           size_t n, uint8_t *flags, size_t flags_length,
                           uint8_t *events, size_t events_length,
                           uint64_t *counts, size_t counts_length);

/*
 * The same rounds with the refused offers struck out: a round for each flag, and the access
 * is offered only where the flag is 1. On a copy of the tables, fed the flags of the rounds
 * that labintugmo_rounds ran, it leaves the same numbers and writes the same events but 0x11.
 * Returns and counts as labintugmo_rounds does.
 */
uint32_t labintugmo_struck(const uint32_t *settings, size_t settings_length,
                           uint64_t *longs, size_t longs_length,
                           uint32_t *words, size_t words_length,
                           uint8_t *marks, size_t marks_length,
                           uint32_t is_write, uint64_t address, uint32_t mask, uint32_t ticket,
                           const uint8_t *flags, size_t flags_length,
                           uint8_t *events, size_t events_length,
                           uint64_t *counts, size_t counts_length);

/*
 * Runs a stream of commands: a settings record, which makes the tables fresh, then any
 * others. A refused command writes 0x11 and the run goes on. Returns the stop number;
 * `counts`, a slice of length 2, becomes the bytes of the records run and the event bytes
 * written. The record at which it stopped has written nothing; the tables are as the records
 * before it left them, and untouched if the settings record was not accepted. With another
 * length of `counts` it returns 2 and nothing changes.
 */
uint32_t labintugmo_run(const uint8_t *stream, size_t stream_length,
                        uint8_t *events, size_t events_length,
                        uint64_t *longs, size_t longs_length,
                        uint32_t *words, size_t words_length,
                        uint8_t *marks, size_t marks_length,
                        uint64_t *counts, size_t counts_length);

/*
 * Goes on with the next part of a stream, on settings and tables that were kept: the tables
 * are checked once, then the records are run as labintugmo_run runs those behind its settings.
 * Stops with 1, 2 or 3 before the first record, also of an empty part, and with 13 at any
 * settings record. `counts` as there; with another length of it nothing changes, and 2 is
 * returned. Cut between any two records, where the part before stopped with 0 and none stops
 * with 16, the parts give the events and the tables of one run.
 */
uint32_t labintugmo_resume(const uint32_t *settings, size_t settings_length,
                           const uint8_t *part, size_t part_length,
                           uint8_t *events, size_t events_length,
                           uint64_t *longs, size_t longs_length,
                           uint32_t *words, size_t words_length,
                           uint8_t *marks, size_t marks_length,
                           uint64_t *counts, size_t counts_length);

#ifdef __cplusplus
}
#endif

#endif
