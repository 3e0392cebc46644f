/*
 * The C header used from C99: lengths by settings, settings of another length, the whole run of
 * document 01, the replacement rules, wrong lengths, null and empty slices, too little room, a
 * stream in parts, the stack that each call takes. Everything lent is compared with what it was wherever nothing may
 * change.
 *
 * Ends with a line `slices: N checks, M failed` and a status.
 */
#define _XOPEN_SOURCE 700 /* ucontext.h */
#include "labintugmo.h"

#include <stdio.h>
#include <stdlib.h>
#include <string.h>
#include <ucontext.h>

static int checks, failures;

#define CHECK(condition)                                                        \
    do {                                                                        \
        ++checks;                                                               \
        if (!(condition)) {                                                     \
            ++failures;                                                         \
            printf("slices.c:%d: not so: %s\n", __LINE__, #condition);          \
        }                                                                       \
    } while (0)

/* Base settings, of 2 lines, with rule 0. */
static const uint32_t base[LABINTUGMO_SETTINGS] = {
    [LABINTUGMO_SETS] = 1,   [LABINTUGMO_WAYS] = 2,    [LABINTUGMO_DIRTY] = 50,
    [LABINTUGMO_MISSES] = 2, [LABINTUGMO_READERS] = 2, [LABINTUGMO_QUEUE] = 4};
#define BASE base, LABINTUGMO_SETTINGS
enum { LONGS = 2 + 2 + 4, WORDS = 1 + 5 * 2 + 2 * 2 + 4 * 4 + 1 + 2 + 1, MARKS = 8 * 2 + 2 * 2 + 4 };

/* The largest tables: 256 sets of 4 ways, 64 miss entries of 8 readers, 64 queue places; with trees. */
static const uint32_t large[LABINTUGMO_SETTINGS] = {256, 4, 0, 64, 8, 64, LABINTUGMO_TREE};
#define LARGE large, LABINTUGMO_SETTINGS
enum {
    L_LONGS = 1024 + 64 + 64,
    L_WORDS = 1 + 5 * 1024 + 64 * 8 + 4 * 64 + 1 + 1024 + 256,
    L_MARKS = 8 * 1024 + 3 * 64
};

/* One element more than the lengths ask for, so that a slice can be too long by one. */
struct tables {
    uint64_t longs[LONGS + 1];
    uint32_t words[WORDS + 1];
    uint8_t marks[MARKS + 1];
};

#define LENT(t) (t).longs, LONGS, (t).words, WORDS, (t).marks, MARKS

/* Other numbers than the calls would leave there. */
static void noise(void *memory, size_t bytes)
{
    memset(memory, 0x5A, bytes);
}

static int same(const struct tables *a, const struct tables *b)
{
    return memcmp(a->longs, b->longs, sizeof a->longs) == 0 &&
           memcmp(a->words, b->words, sizeof a->words) == 0 &&
           memcmp(a->marks, b->marks, sizeof a->marks) == 0;
}

/* A call wrote refusal 1 and nothing else; its event room is made other for the next. */
static int refused(size_t written, uint8_t *events)
{
    const int so = written == 2 && events[0] == 0x11 && events[1] == 1;
    noise(events, 2);
    return so;
}

static struct tables fresh_tables(void)
{
    struct tables t;
    noise(&t, sizeof t);
    CHECK(labintugmo_fresh(BASE, LENT(t)) == 0);
    return t;
}

/* Every call refuses the settings, whatever else it is lent, and changes nothing. */
static void refused_settings(const uint32_t *s, size_t sn)
{
    static uint8_t events[LABINTUGMO_WAIT_ROOM], flag[1] = {9};
    struct tables t = fresh_tables(), before = t;
    uint64_t round = 9, counts[2] = {9, 9};
    const size_t room = sizeof events;
    CHECK(labintugmo_longs_length(s, sn) == 0);
    CHECK(labintugmo_words_length(s, sn) == 0);
    CHECK(labintugmo_marks_length(s, sn) == 0);
    CHECK(labintugmo_fresh(s, sn, LENT(t)) == 1);
    CHECK(labintugmo_fresh(s, sn, NULL, 0, NULL, 0, NULL, 0) == 1);
    CHECK(labintugmo_check(s, sn, LENT(t)) == 1);
    CHECK(refused(labintugmo_read(s, sn, LENT(t), 0, 1, events, room), events));
    CHECK(refused(labintugmo_write(s, sn, LENT(t), 0, 1, events, room), events));
    CHECK(refused(labintugmo_access(s, sn, LENT(t), 1, 0, 1, 0, events, room), events));
    CHECK(refused(labintugmo_send(s, sn, NULL, 0, NULL, 0, NULL, 0, events, room), events));
    CHECK(refused(labintugmo_fill(s, sn, LENT(t), 0, events, room), events));
    CHECK(refused(labintugmo_tick(s, sn, LENT(t), 1, events, room), events));
    CHECK(refused(labintugmo_wait(s, sn, LENT(t), 0, 0, 0, 1, events, room, &round, 1), events));
    CHECK(round == 0);
    CHECK(labintugmo_rounds(s, sn, LENT(t), 0, 0, 0, 1, 1, flag, 1, events, room, counts, 2) == 1);
    CHECK(labintugmo_struck(s, sn, LENT(t), 0, 0, 0, 1, flag, 1, events, room, counts, 2) == 1);
    CHECK(labintugmo_resume(s, sn, NULL, 0, events, room, LENT(t), counts, 2) == 1);
    CHECK(flag[0] == 9 && counts[0] == 0 && counts[1] == 0);
    CHECK(same(&t, &before));
}

static void lengths(void)
{
    static const uint32_t bad[][LABINTUGMO_SETTINGS] = {
        {0, 2, 50, 2, 2, 4},          {3, 2, 50, 2, 2, 4},    {512, 1, 50, 2, 2, 4},
        {1, 0, 50, 2, 2, 4},          {1, 17, 50, 2, 2, 4},   {256, 5, 50, 2, 2, 4},
        {1, 2, 101, 2, 2, 4},         {1, 2, 50, 0, 2, 4},    {1, 2, 50, 65, 2, 4},
        {1, 2, 50, 2, 0, 4},          {1, 2, 50, 2, 9, 4},    {1, 2, 50, 2, 2, 1},
        {1, 2, 50, 2, 2, 65},         {65536, 65536, 50, 2, 2, 4},
        {1, 2, UINT32_MAX, 2, 2, 4},  {0x80000000u, 2, 50, 2, 2, 4},
        {1, 2, 50, 2, UINT32_MAX, UINT32_MAX}, {1, 2, 50, 2, 2, 4, 3},
        {1, 2, 50, 2, 2, 4, UINT32_MAX},       {1, 3, 50, 2, 2, 4, LABINTUGMO_TREE},
        {64, 12, 50, 2, 2, 4, LABINTUGMO_TREE}};
    size_t i;
    CHECK(labintugmo_longs_length(BASE) == LONGS);
    CHECK(labintugmo_words_length(BASE) == WORDS);
    CHECK(labintugmo_marks_length(BASE) == MARKS);
    CHECK(labintugmo_longs_length(LARGE) == L_LONGS);
    CHECK(labintugmo_words_length(LARGE) == L_WORDS && L_WORDS == 7170);
    CHECK(labintugmo_marks_length(LARGE) == L_MARKS);
    for (i = 0; i < sizeof bad / sizeof bad[0]; ++i) {
        refused_settings(bad[i], LABINTUGMO_SETTINGS);
    }
}

/* Fewer numbers than six, none, and more than there are settings, all of them in range. */
static void other_settings(void)
{
    static const uint32_t more[LABINTUGMO_SETTINGS + 1] = {1, 2, 50, 2, 2, 4, 0, 0};
    size_t length;
    for (length = 0; length < LABINTUGMO_RULE; ++length) {
        refused_settings(more, length);
    }
    refused_settings(NULL, 0);
    refused_settings(more, LABINTUGMO_SETTINGS + 1);
    CHECK(labintugmo_longs_length(more, LABINTUGMO_SETTINGS) == LONGS);
    CHECK(labintugmo_longs_length(more, LABINTUGMO_RULE) == LONGS);
    CHECK(labintugmo_words_length(more, LABINTUGMO_RULE) == WORDS);
    CHECK(labintugmo_marks_length(more, LABINTUGMO_RULE) == MARKS);
}

static void whole_run(void)
{
    static const uint8_t stream[] = {
        0, 1, 0, 2, 50, 2, 2, 4, 1, 0, 0, 0, 0, 0, 0, 0, 0, 7, 0, 0, 0,
        1, 0, 0, 0, 0, 0, 0, 0, 0, 9, 0, 0, 0, 3, 4, 0, 0, 0, 0, 0, 0, 0, 0};
    static const uint8_t log[] = {
        0x10, 3, 1, 0, 0x12, 0, 0, 0, 0, 0, 0, 0, 0, 0x10, 2, 1, 0, 0x15, 0, 0, 0, 0, 0, 0, 0,
        0, 0x17, 0, 0, 0, 0, 0, 0, 0, 0, 0x14, 7, 0, 0, 0, 0x14, 9, 0, 0, 0};
    struct tables t = fresh_tables(), run;
    uint8_t events[256], ran[256];
    uint64_t counts[2] = {77, 77};
    size_t n = 0;
    n += labintugmo_read(BASE, LENT(t), 0, 7, events + n, sizeof events - n);
    n += labintugmo_access(BASE, LENT(t), 0, 0, 0, 9, events + n, sizeof events - n);
    n += labintugmo_send(BASE, LENT(t), events + n, sizeof events - n);
    n += labintugmo_fill(BASE, LENT(t), 0, events + n, sizeof events - n);
    CHECK(n == sizeof log && memcmp(events, log, n) == 0);

    noise(&run, sizeof run);
    noise(ran, sizeof ran);
    CHECK(labintugmo_run(stream, sizeof stream, ran, sizeof ran, LENT(run), counts, 2) == 0);
    CHECK(counts[0] == sizeof stream && counts[1] == sizeof log);
    CHECK(memcmp(ran, log, sizeof log) == 0 && ran[sizeof log] == 0x5A);
    CHECK(memcmp(t.longs, run.longs, LONGS * sizeof run.longs[0]) == 0);
    CHECK(memcmp(t.words, run.words, WORDS * sizeof run.words[0]) == 0);
    CHECK(memcmp(t.marks, run.marks, MARKS) == 0);
    CHECK(labintugmo_check(BASE, LENT(run)) == 0);
}

/* Where the cycles of line 0 and of line 1 stand, of the last access and of the MISS; the tree. */
enum { ACCESSED = 1, TAKEN = WORDS - 3, TREE = WORDS - 1 };

/* Line 1 is taken at cycle 1 and used at 9, line 0 is taken at 2. The line that a MISS at 10 takes. */
static int taken_line(const uint32_t *s, size_t sn)
{
    struct tables t = fresh_tables();
    uint8_t events[LABINTUGMO_ROOM];
    const size_t room = sizeof events;
    int line;
    CHECK(labintugmo_tick(s, sn, LENT(t), 1, events, room) == 1);
    CHECK(labintugmo_write(s, sn, LENT(t), 0, 0xFF, events, room) == 4 && events[2] == 1);
    CHECK(labintugmo_tick(s, sn, LENT(t), 2, events, room) == 1);
    CHECK(labintugmo_write(s, sn, LENT(t), 128, 0xF0, events, room) == 4 && events[2] == 0);
    CHECK(labintugmo_tick(s, sn, LENT(t), 9, events, room) == 1);
    CHECK(labintugmo_write(s, sn, LENT(t), 32, 0xF, events, room) == 4);
    CHECK(events[1] == LABINTUGMO_SECTOR_MISS && events[2] == 1);
    CHECK(t.words[ACCESSED] == 2 && t.words[ACCESSED + 1] == 9);
    CHECK(t.words[TAKEN] == 2 && t.words[TAKEN + 1] == 1);
    CHECK(labintugmo_tick(s, sn, LENT(t), 10, events, room) == 1);
    CHECK(labintugmo_write(s, sn, LENT(t), 256, 1, events, room) == 29);
    CHECK(events[0] == 0x10 && events[1] == LABINTUGMO_MISS && events[4] == 0x13);
    line = events[2];
    CHECK(t.words[ACCESSED + line] == 10 && t.words[TAKEN + line] == 10);

    /* Taken no later than the last access, and never where the line is wholly invalid. */
    t.words[TAKEN] = t.words[ACCESSED] + 1;
    CHECK(labintugmo_check(s, sn, LENT(t)) == 3);
    CHECK(labintugmo_fresh(s, sn, LENT(t)) == 0);
    CHECK(t.words[TAKEN] == 0 && t.words[TAKEN + 1] == 0);
    CHECK(labintugmo_tick(s, sn, LENT(t), 3, events, room) == 1);
    t.words[TAKEN] = 1;
    CHECK(labintugmo_check(s, sn, LENT(t)) == 3);
    return line;
}

/* Six numbers are rule 0. */
static void rules(void)
{
    static const uint32_t lru[] = {1, 2, 50, 2, 2, 4, LABINTUGMO_LRU};
    static const uint32_t fifo[] = {1, 2, 50, 2, 2, 4, LABINTUGMO_FIFO};
    CHECK(taken_line(lru, LABINTUGMO_SETTINGS) == 0);
    CHECK(taken_line(lru, LABINTUGMO_RULE) == 0);
    CHECK(taken_line(fifo, LABINTUGMO_RULE) == 0);
    CHECK(taken_line(fifo, LABINTUGMO_SETTINGS) == 1);
}

/* One set of four ways under rule 2, and its tree as the last number of words. */
static const uint32_t four[] = {1, 4, 50, 4, 1, 4, LABINTUGMO_TREE};
#define FOUR four, LABINTUGMO_SETTINGS
enum { F_LONGS = 4 + 4 + 4, F_WORDS = 1 + 5 * 4 + 4 + 4 * 4 + 1 + 4 + 1, F_MARKS = 8 * 4 + 2 * 4 + 4 };
static uint64_t four_longs[F_LONGS];
static uint32_t four_words[F_WORDS];
static uint8_t four_marks[F_MARKS];
#define LENT_FOUR four_longs, F_LONGS, four_words, F_WORDS, four_marks, F_MARKS

/* The line of an accepted read. */
static int read_line(uint64_t address)
{
    uint8_t events[LABINTUGMO_ROOM];
    CHECK(labintugmo_read(FOUR, LENT_FOUR, address, 1, events, sizeof events) == 13);
    return events[2];
}

static void fetch(uint64_t address)
{
    uint8_t events[LABINTUGMO_ROOM];
    CHECK(labintugmo_send(FOUR, LENT_FOUR, events, sizeof events) == 9);
    CHECK(labintugmo_fill(FOUR, LENT_FOUR, address, events, sizeof events) == 14);
}

/* The worked examples of the tree rule, and the trees that are not sound. */
static void trees(void)
{
    uint32_t *tree = four_words + F_WORDS - 1;
    uint64_t block;
    uint8_t events[LABINTUGMO_ROOM];
    struct tables t = fresh_tables();
    CHECK(labintugmo_longs_length(FOUR) == F_LONGS && labintugmo_words_length(FOUR) == F_WORDS);
    CHECK(labintugmo_marks_length(FOUR) == F_MARKS);
    CHECK(labintugmo_fresh(FOUR, LENT_FOUR) == 0 && *tree == 0);
    for (block = 0; block < 4; ++block) {
        CHECK(read_line(128 * block) == (int)(3 - block));
        fetch(128 * block);
    }
    CHECK(*tree == 7);
    CHECK(labintugmo_read(FOUR, LENT_FOUR, 1, 1, events, sizeof events) == 2 && *tree == 7);
    CHECK(read_line(512) == 3 && *tree == 2);

    /* With ways 2 and 3 RESERVED the half that the tree names has no candidate. */
    CHECK(labintugmo_fresh(FOUR, LENT_FOUR) == 0 && *tree == 0);
    for (block = 0; block < 4; ++block) {
        CHECK(read_line(128 * block) == (int)(3 - block));
    }
    for (block = 0; block < 4; ++block) {
        CHECK(labintugmo_send(FOUR, LENT_FOUR, events, sizeof events) == 9);
    }
    CHECK(labintugmo_fill(FOUR, LENT_FOUR, 256, events, sizeof events) == 14);
    CHECK(labintugmo_fill(FOUR, LENT_FOUR, 384, events, sizeof events) == 14 && *tree == 7);
    CHECK(read_line(512) == 1 && *tree == 5);

    /* Three nodes are in use; under another rule there is none. */
    *tree = 8;
    CHECK(labintugmo_check(FOUR, LENT_FOUR) == 3);
    *tree = 7;
    CHECK(labintugmo_check(FOUR, LENT_FOUR) == 0);
    CHECK(labintugmo_check(four, LABINTUGMO_RULE, LENT_FOUR) == 3);
    *tree = 0;
    CHECK(labintugmo_check(four, LABINTUGMO_RULE, LENT_FOUR) == 0);
    t.words[TREE] = 1;
    CHECK(labintugmo_check(BASE, LENT(t)) == 3);
}

/* Which call; each gets slices as they are given and returns its refusal number. */
enum { CALLS = 9 };

static uint32_t refusal(int call, uint64_t *l, size_t ln, uint32_t *w, size_t wn, uint8_t *m,
                        size_t mn)
{
    static uint8_t events[LABINTUGMO_WAIT_ROOM];
    uint64_t round = 9;
    const size_t room = sizeof events;
    size_t n = 0;
    noise(events, sizeof events);
    switch (call) {
    case 0: return labintugmo_fresh(BASE, l, ln, w, wn, m, mn);
    case 1: return labintugmo_check(BASE, l, ln, w, wn, m, mn);
    case 2: n = labintugmo_read(BASE, l, ln, w, wn, m, mn, 0, 1, events, room); break;
    case 3: n = labintugmo_write(BASE, l, ln, w, wn, m, mn, 0, 1, events, room); break;
    case 4: n = labintugmo_access(BASE, l, ln, w, wn, m, mn, 1, 0, 1, 0, events, room); break;
    case 5: n = labintugmo_send(BASE, l, ln, w, wn, m, mn, events, room); break;
    case 6: n = labintugmo_fill(BASE, l, ln, w, wn, m, mn, 0, events, room); break;
    case 7: n = labintugmo_tick(BASE, l, ln, w, wn, m, mn, 1, events, room); break;
    default:
        n = labintugmo_wait(BASE, l, ln, w, wn, m, mn, 0, 0, 0, 1, events, room, &round, 1);
        CHECK(round == 0);
    }
    CHECK(n == 2 && events[0] == 0x11 && events[2] == 0x5A);
    return events[1];
}

static void wrong_lengths(void)
{
    struct tables t = fresh_tables(), before = t;
    int call;
    for (call = 0; call < CALLS; ++call) {
        CHECK(refusal(call, t.longs, LONGS + 1, t.words, WORDS, t.marks, MARKS) == 2);
        CHECK(refusal(call, t.longs, LONGS - 1, t.words, WORDS, t.marks, MARKS) == 2);
        CHECK(refusal(call, t.longs, LONGS, t.words, WORDS + 1, t.marks, MARKS) == 2);
        CHECK(refusal(call, t.longs, LONGS, t.words, WORDS - 1, t.marks, MARKS) == 2);
        CHECK(refusal(call, t.longs, LONGS, t.words, WORDS, t.marks, MARKS + 1) == 2);
        CHECK(refusal(call, t.longs, LONGS, t.words, WORDS, t.marks, MARKS - 1) == 2);
        CHECK(refusal(call, t.longs, 0, t.words, WORDS, t.marks, MARKS) == 2);
        CHECK(refusal(call, NULL, 0, t.words, WORDS, t.marks, MARKS) == 2);
        CHECK(refusal(call, t.longs, LONGS, NULL, 0, t.marks, MARKS) == 2);
        CHECK(refusal(call, t.longs, LONGS, t.words, WORDS, NULL, 0) == 2);
        CHECK(refusal(call, NULL, 0, NULL, 0, NULL, 0) == 2);
        CHECK(same(&t, &before));
    }
}

/* Memory of zeros is not fresh, and neither is any other that no call has made. */
static void not_fresh(void)
{
    struct tables zero, other, before;
    int call;
    memset(&zero, 0, sizeof zero);
    before = zero;
    for (call = 1; call < CALLS; ++call) {
        CHECK(refusal(call, LENT(zero)) == 3);
    }
    CHECK(same(&zero, &before));
    noise(&other, sizeof other);
    before = other;
    for (call = 1; call < CALLS; ++call) {
        CHECK(refusal(call, LENT(other)) == 3);
    }
    CHECK(same(&other, &before));
    CHECK(labintugmo_fresh(BASE, LENT(zero)) == 0);
    CHECK(labintugmo_check(BASE, LENT(zero)) == 0);
}

static void small_rooms(void)
{
    static uint8_t events[LABINTUGMO_WAIT_ROOM], untouched[LABINTUGMO_WAIT_ROOM];
    static const size_t rooms[] = {0, 1, 63};
    static const size_t wait_rooms[] = {0, 64, LABINTUGMO_WAIT_ROOM - 1};
    struct tables t = fresh_tables(), before = t;
    uint64_t round[2] = {5, 6};
    size_t i;
    noise(events, sizeof events);
    noise(untouched, sizeof untouched);
    for (i = 0; i < 3; ++i) {
        uint8_t *e = rooms[i] == 0 ? NULL : events;
        CHECK(labintugmo_read(BASE, LENT(t), 0, 1, e, rooms[i]) == 0);
        CHECK(labintugmo_write(BASE, LENT(t), 0, 1, e, rooms[i]) == 0);
        CHECK(labintugmo_access(BASE, LENT(t), 0, 0, 0, 1, e, rooms[i]) == 0);
        CHECK(labintugmo_send(BASE, LENT(t), e, rooms[i]) == 0);
        CHECK(labintugmo_fill(BASE, LENT(t), 0, e, rooms[i]) == 0);
        CHECK(labintugmo_tick(BASE, LENT(t), 1, e, rooms[i]) == 0);
        e = wait_rooms[i] == 0 ? NULL : events;
        CHECK(labintugmo_wait(BASE, LENT(t), 0, 0, 0, 1, e, wait_rooms[i], round, 1) == 0);
    }
    CHECK(labintugmo_wait(BASE, LENT(t), 0, 0, 0, 1, events, sizeof events, NULL, 0) == 0);
    CHECK(labintugmo_wait(BASE, LENT(t), 0, 0, 0, 1, events, sizeof events, round, 0) == 0);
    CHECK(labintugmo_wait(BASE, LENT(t), 0, 0, 0, 1, events, sizeof events, round, 2) == 0);
    CHECK(round[0] == 5 && round[1] == 6);
    CHECK(memcmp(events, untouched, sizeof events) == 0);
    CHECK(same(&t, &before));

    CHECK(labintugmo_tick(BASE, LENT(t), 1, events, 64) == 1 && events[0] == 0x18);
    CHECK(memcmp(events + 1, untouched + 1, sizeof events - 1) == 0);
    CHECK(labintugmo_wait(BASE, LENT(t), 0, 0, 0, 1, events, sizeof events, round, 1) == 13);
    CHECK(round[0] == 1 && round[1] == 6);
}

static void runs(void)
{
    static const uint8_t settings[] = {0, 1, 0, 2, 50, 2, 2, 4};
    static const uint8_t tick[] = {0, 1, 0, 2, 50, 2, 2, 4, 5, 1, 0, 0, 0};
    static const uint8_t bad[] = {0, 3, 0, 2, 50, 2, 2, 4};
    static const uint8_t ruled[] = {6, 1, 0, 2, 50, 2, 2, 4, 1, 5, 1, 0, 0, 0};
    static const uint8_t bad_rule[] = {6, 1, 0, 2, 50, 2, 2, 4, 3};
    struct tables t, before;
    uint8_t events[64], untouched[64];
    uint64_t counts[3] = {4, 5, 6};
    noise(&t, sizeof t);
    noise(events, sizeof events);
    noise(untouched, sizeof untouched);
    before = t;

    /* Counts of another length: nothing at all happens. */
    CHECK(labintugmo_run(tick, sizeof tick, events, 64, LENT(t), NULL, 0) == 2);
    CHECK(labintugmo_run(tick, sizeof tick, events, 64, LENT(t), counts, 1) == 2);
    CHECK(labintugmo_run(tick, sizeof tick, events, 64, LENT(t), counts, 3) == 2);
    CHECK(counts[0] == 4 && counts[1] == 5 && counts[2] == 6);

    /* Empty streams, with tables and without. */
    CHECK(labintugmo_run(NULL, 0, NULL, 0, NULL, 0, NULL, 0, NULL, 0, counts, 2) == 0);
    CHECK(counts[0] == 0 && counts[1] == 0 && counts[2] == 6);
    CHECK(labintugmo_run(tick, 0, events, 64, LENT(t), counts, 2) == 0);

    /* Settings that are refused, or tables that do not fit them. */
    CHECK(labintugmo_run(bad, sizeof bad, events, 64, LENT(t), counts, 2) == 1);
    CHECK(labintugmo_run(settings, 7, events, 64, LENT(t), counts, 2) == 15);
    CHECK(labintugmo_run(bad_rule, sizeof bad_rule, events, 64, LENT(t), counts, 2) == 1);
    CHECK(labintugmo_run(ruled, 8, events, 64, LENT(t), counts, 2) == 15);
    CHECK(labintugmo_run(tick, sizeof tick, events, 64, NULL, 0, NULL, 0, NULL, 0, counts, 2) == 2);
    CHECK(labintugmo_run(tick, sizeof tick, events, 64, t.longs, LONGS + 1, t.words, WORDS,
                         t.marks, MARKS, counts, 2) == 2);
    CHECK(labintugmo_run(tick, sizeof tick, events, 64, t.longs, LONGS, t.words, WORDS - 1,
                         t.marks, MARKS, counts, 2) == 2);
    CHECK(labintugmo_run(tick + 8, 5, events, 64, LENT(t), counts, 2) == 13);
    CHECK(counts[0] == 0 && counts[1] == 0);
    CHECK(same(&t, &before) && memcmp(events, untouched, 64) == 0);

    /* A settings record needs no event room, any other record needs 64 bytes. */
    CHECK(labintugmo_run(settings, sizeof settings, NULL, 0, LENT(t), counts, 2) == 0);
    CHECK(counts[0] == 8 && counts[1] == 0);
    CHECK(labintugmo_check(BASE, LENT(t)) == 0);
    CHECK(labintugmo_run(tick, sizeof tick, events, 63, LENT(t), counts, 2) == 16);
    CHECK(counts[0] == 8 && counts[1] == 0 && memcmp(events, untouched, 64) == 0);
    CHECK(labintugmo_run(tick, sizeof tick, events, 64, LENT(t), counts, 2) == 0);
    CHECK(counts[0] == 13 && counts[1] == 1 && events[0] == 0x18);
    CHECK(memcmp(events + 1, untouched + 1, 63) == 0 && t.words[0] == 1);

    /* Settings with a rule stand where settings do. */
    CHECK(labintugmo_run(ruled, 9, NULL, 0, LENT(t), counts, 2) == 0);
    CHECK(counts[0] == 9 && counts[1] == 0 && t.words[0] == 0);
    CHECK(labintugmo_run(ruled, sizeof ruled, events, 64, LENT(t), counts, 2) == 0);
    CHECK(counts[0] == 14 && counts[1] == 1 && t.words[0] == 1);
}

/* A stream in two parts, and what a part that goes on is refused with before its first record. */
static void parts(void)
{
    static const uint8_t settings[] = {0, 1, 0, 2, 50, 2, 2, 4};
    static const uint8_t ruled[] = {6, 1, 0, 2, 50, 2, 2, 4, 1};
    static const uint8_t tick[] = {5, 1, 0, 0, 0};
    static const uint32_t three[LABINTUGMO_SETTINGS] = {3, 2, 50, 2, 2, 4};
    struct tables t, before;
    uint8_t events[64], untouched[64];
    uint64_t counts[3] = {4, 5, 6};
    noise(events, sizeof events);
    noise(untouched, sizeof untouched);
    t = fresh_tables();
    before = t;
    CHECK(labintugmo_resume(BASE, tick, 5, events, 64, LENT(t), NULL, 0) == 2);
    CHECK(labintugmo_resume(BASE, tick, 5, events, 64, LENT(t), counts, 3) == 2);
    CHECK(counts[0] == 4 && counts[1] == 5 && counts[2] == 6);
    CHECK(labintugmo_resume(three, LABINTUGMO_SETTINGS, tick, 0, events, 64, LENT(t), counts,
                            2) == 1);
    CHECK(counts[0] == 0 && counts[1] == 0);
    CHECK(labintugmo_resume(BASE, tick, 0, events, 64, NULL, 0, NULL, 0, NULL, 0, counts, 2) == 2);
    t.marks[0] = 4;
    CHECK(labintugmo_resume(BASE, NULL, 0, NULL, 0, LENT(t), counts, 2) == 3);
    CHECK(labintugmo_resume(BASE, tick, 5, events, 64, LENT(t), counts, 2) == 3);
    t.marks[0] = before.marks[0];
    CHECK(labintugmo_resume(BASE, settings, 8, events, 64, LENT(t), counts, 2) == 13);
    CHECK(labintugmo_resume(BASE, ruled, 9, events, 64, LENT(t), counts, 2) == 13);
    CHECK(labintugmo_resume(BASE, tick, 5, events, 63, LENT(t), counts, 2) == 16);
    CHECK(labintugmo_resume(BASE, tick, 4, events, 64, LENT(t), counts, 2) == 15);
    CHECK(labintugmo_resume(BASE, events, 1, untouched, 64, LENT(t), counts, 2) == 14);
    CHECK(same(&t, &before) && memcmp(events, untouched, 64) == 0);
    CHECK(labintugmo_resume(BASE, NULL, 0, NULL, 0, LENT(t), counts, 2) == 0);
    CHECK(labintugmo_resume(BASE, tick, 5, events, 64, LENT(t), counts, 2) == 0);
    CHECK(counts[0] == 5 && counts[1] == 1 && events[0] == 0x18 && t.words[0] == 1);
}

/* The tables of LARGE. */
static uint64_t large_longs[L_LONGS];
static uint32_t large_words[L_WORDS];
static uint8_t large_marks[L_MARKS];
static uint8_t large_events[LABINTUGMO_WAIT_ROOM];

#define LENT_LARGE large_longs, L_LONGS, large_words, L_WORDS, large_marks, L_MARKS
#define ROOM large_events, LABINTUGMO_ROOM

/* A part of a stream with a read and a write. */
static size_t read_and_write(uint8_t *part, uint64_t address)
{
    size_t i;
    memset(part, 0, 26);
    part[0] = LABINTUGMO_COMMAND_READ;
    part[13] = LABINTUGMO_COMMAND_WRITE;
    part[22] = 1;
    for (i = 0; i < 8; ++i) {
        part[1 + i] = part[14 + i] = (uint8_t)(address >> 8 * i);
    }
    return 26;
}

/* Every call, on a cache in which lines are replaced, written back, sent and filled. */
static void every_call(void)
{
    static const uint8_t tick[] = {6, 0, 1, 4, 0, 64, 8, 64, LABINTUGMO_TREE, 5, 1, 0, 0, 0};
    uint64_t round[1], counts[2];
    uint8_t part[26];
    uint32_t i;
    (void)labintugmo_run(tick, sizeof tick, ROOM, LENT_LARGE, counts, 2);
    (void)labintugmo_fresh(LARGE, LENT_LARGE);
    (void)labintugmo_resume(LARGE, tick + 9, 5, ROOM, LENT_LARGE, counts, 2);
    for (i = 0; i < 1500; ++i) {
        const uint64_t address = 32 * (uint64_t)(i * 2654435761u % 65536);
        (void)labintugmo_write(LARGE, LENT_LARGE, address, i | 1, ROOM);
        (void)labintugmo_read(LARGE, LENT_LARGE, address ^ 32, i, ROOM);
        (void)labintugmo_access(LARGE, LENT_LARGE, i % 2, address ^ 64, i % 2, i, ROOM);
        (void)labintugmo_tick(LARGE, LENT_LARGE, i, ROOM);
        if (labintugmo_send(LARGE, LENT_LARGE, ROOM) == 9) {
            (void)labintugmo_fill(LARGE, LENT_LARGE, large_longs[1024], ROOM);
        }
        if (i % 100 == 0) {
            (void)labintugmo_wait(LARGE, LENT_LARGE, 0, address ^ 96, 0, i, large_events,
                                  sizeof large_events, round, 1);
            (void)labintugmo_resume(LARGE, part, read_and_write(part, address + 4096), large_events,
                                    sizeof large_events, LENT_LARGE, counts, 2);
        }
    }
    (void)labintugmo_check(LARGE, LENT_LARGE);
}

static ucontext_t here, there;

/* The calls on a stack of their own, painted before: how far down the paint is gone. */
static void stack(void)
{
    static uint8_t painted[65536];
    size_t left;
    every_call(); /* what the loader does at a first call is not the library's */
    noise(painted, sizeof painted);
    CHECK(getcontext(&there) == 0);
    there.uc_stack.ss_sp = painted;
    there.uc_stack.ss_size = sizeof painted;
    there.uc_link = &here;
    makecontext(&there, every_call, 0);
    CHECK(swapcontext(&here, &there) == 0);
    for (left = 0; left < sizeof painted && painted[left] == 0x5A;) {
        ++left;
    }
    CHECK(sizeof painted - left <= LABINTUGMO_STACK);
    CHECK(labintugmo_check(LARGE, LENT_LARGE) == 0);
    printf("slices: %lu bytes of stack taken, %d promised\n",
           (unsigned long)(sizeof painted - left), LABINTUGMO_STACK);
}

int main(void)
{
    lengths();
    other_settings();
    whole_run();
    rules();
    trees();
    wrong_lengths();
    not_fresh();
    small_rooms();
    runs();
    parts();
    stack();
    printf("slices: %d checks, %d failed\n", checks, failures);
    return failures == 0 ? EXIT_SUCCESS : EXIT_FAILURE;
}
