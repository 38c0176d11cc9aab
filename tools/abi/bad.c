/* Bad input through the C interface: each kind of it is refused with the number that the header names, and changes nothing. Then sessions
 * and engines of random words, of which what holds of any words must hold. All that is lent is allocated to its exact size, so that
 * valgrind sees every access outside.
 *
 * Usage: bad [N]: N random sessions and N random engines, by default 100,000. Every run tries the same. It prints a line a group; at the
 * first check that fails a line says which, and the exit status is 1. */
#include "bazkondur.h"

#include <stdio.h>
#include <stdlib.h>
#include <string.h>

/* The struct is nine words, in the order that the archive has; else the array would have a negative size. */
#define WORD(field, place) (offsetof(bazkondur_next, field) == 4 * (place) && sizeof((bazkondur_next *)0)->field == 4)
typedef char nine_words[sizeof(bazkondur_next) == 36 && WORD(kind, 0) && WORD(number, 1) && WORD(word, 2) && WORD(made, 3) &&
                        WORD(request, 4) && WORD(bits, 5) && WORD(len, 6) && WORD(output, 7) && WORD(select, 8) ? 1 : -1];

#define COUNT(row) (sizeof(row) / sizeof *(row))
#define AT 0x20000010u
#define READY 0xF0000000u /* the DPIDR of a target, and the CTRL/STAT of one with power: as every answer it makes a connect succeed */

enum { CALLS = 35, MOST_ARGS = 12, MOST_LIST = 64, MOST_BUF = 300, BUDGET = 100000 };
enum { GOOD = BAZKONDUR_ANSWER_GOOD, SWD_ERROR = BAZKONDUR_ANSWER_SWD_ERROR };
enum { NOT_SUPPORTED = BAZKONDUR_ANSWER_NOT_SUPPORTED, OTHER = BAZKONDUR_ANSWER_OTHER };

/* Words of a session: its phase, 1 if open; the first of its engine; the step and how it stands; the first that is not used. */
enum { PHASE = 0, OWN = 3, STEP = 22, STATUS = 28, USED = 31 };

/* How many arguments each call takes, by its number. */
static const uint8_t takes[] = {0, 1, 0, 0, 1, 1, 1, 1, 2, 1, 2, 1, 1, 1, 1, 0, 0, 0, 0, 0, 1, 2, 2, 7, 9, 8, 1, 1, 1, 0, 1, 2, 2, 0, 1, 2};

/* What a caller lends for his session, or for his engine, in blocks; the budget of the last call, and the kinds of all answers. */
enum { WORDS, ARGS, ROOM, LIST, BUF, NEXT, BYTES, BLOCKS };
struct lent {
    bool engine, seen[7];
    void *at[BLOCKS];
    size_t size[BLOCKS]; /* in bytes */
    uint32_t budget;
};

/* What is being tried, for the line that says what failed, and what came of it. */
static const char *group = "", *place = "";
static unsigned long started, seed, steps, call_now;
static bazkondur_next next;

static void must(bool holds, const char *what)
{
    if (holds)
        return;
    printf("FAILED: %s: %s (%s %lu, call %lu, start %lu; next: kind %lu, number %lu, word %08lX, made %lu)\n", group, what, place, seed,
           call_now, started, (unsigned long)next.kind, (unsigned long)next.number, (unsigned long)next.word, (unsigned long)next.made);
    exit(1);
}

/* Lends a block of just so many bytes, the same one each time; NULL for none. */
static void *lend(struct lent *l, int block, size_t size)
{
    static void *blocks[2][BLOCKS][4 * BAZKONDUR_ROOM + 1];
    void **p = &blocks[l->engine][block][size];
    if (size > 0 && *p == NULL) {
        *p = malloc(size);
        must(*p != NULL, "there is memory");
        memset(*p, 0x5A, size);
    }
    l->size[block] = size;
    return l->at[block] = *p;
}

/* So many arguments, all of one value. */
static uint32_t *args(struct lent *l, size_t count, uint32_t value)
{
    uint32_t *given = lend(l, ARGS, 4 * count);
    size_t i;
    for (i = 0; i < count; i++)
        given[i] = value;
    return given;
}

/* All that is lent, as it was. */
static uint8_t kept[BLOCKS][4 * BAZKONDUR_ROOM];

static void keep(const struct lent *l)
{
    int i;
    for (i = 0; i < BLOCKS; i++)
        if (l->size[i] > 0)
            memcpy(kept[i], l->at[i], l->size[i]);
}

static bool same(const struct lent *l, int block, size_t from, size_t to)
{
    return from >= to || memcmp(kept[block] + from, (uint8_t *)l->at[block] + from, to - from) == 0;
}

/* Nothing is changed but what may be: of the words that are used those below `to`; and the room, the list of an engine, and the buffer. */
static void must_keep(const struct lent *l, size_t to, bool room, bool list, bool buf)
{
    size_t from = l->engine ? OWN : PHASE;
    must(same(l, WORDS, 0, 4 * from) && same(l, WORDS, 4 * (to > from ? to : from), l->size[WORDS]), "the words are not changed");
    must(same(l, ARGS, 0, l->size[ARGS]), "the arguments are not changed");
    must(room || same(l, ROOM, 0, l->size[ROOM]), "the room is not changed");
    must((list && l->engine) || same(l, LIST, 0, l->size[LIST]), "the list is not changed, but by the engine's read_words");
    must(buf || same(l, BUF, 0, l->size[BUF]), "the buffer is not changed, but by read_mem");
}

/* What holds of an answer, whatever the words that it was given by. */
static void sound(struct lent *l)
{
    /* Each kind, and the fields behind it that it names, in their order. */
    static const char kinds[7][10] = {"\0nwm.....", "T.w.r....", "C........", "Q....bl..", "B.w..bl..", "P.w....os", "O........"};
    const uint8_t *bytes = l->at[BYTES];
    uint32_t fields[9], i, k = 0;
    memcpy(&next, l->at[NEXT], sizeof next);
    memcpy(fields, &next, sizeof fields);
    while (k < 7 && (uint32_t)kinds[k][0] != next.kind)
        k++;
    must(k < 7, "the kind is a letter or the end");
    l->seen[k] = true;
    for (i = 1; i < 9; i++)
        must(fields[i] == 0 || kinds[k][i] != '.', "a field that the kind does not name is 0");
    must(next.number <= BAZKONDUR_TABLE_END || next.number == 254 || next.number == 255, "the number is one of the header's");
    must(next.made <= l->budget, "made is at most the budget");
    must(next.request < 256 && next.bits < 256 && next.output < 256 && next.select < 256, "what is a byte is below 256");
    must(next.len <= (next.kind == 'B' ? 4 : BAZKONDUR_BYTES), "len is at most 16, and 4 of bits");
    must(next.bits <= 8 * next.len || next.kind == 'B', "the bits of a sequence stand in len bytes");
    for (i = next.kind == 'B' ? 0 : next.len; i < BAZKONDUR_BYTES; i++)
        must(bytes[i] == (i < next.len ? (next.word >> 8 * i) % 256 : 0), "bytes are those of the bits in word, and zeros past len");
    must(k == 0 || l->engine || !bazkondur_is_open(l->at[WORDS]), "the session is not open while a call is under way");
    memset(l->at[NEXT], 0xA5, l->size[NEXT]); /* what stands there before the next answer does not matter */
    memset(l->at[BYTES], 0xA5, l->size[BYTES]);
}

#define LENT l->at[ROOM], l->at[LIST], l->size[LIST] / 4, l->at[BUF], l->size[BUF], l->at[NEXT], l->at[BYTES]

/* A call over the arguments that are lent. */
static void start(struct lent *l, uint32_t call, uint32_t budget)
{
    started++;
    call_now = call;
    l->budget = l->engine ? 0 : budget;
    if (l->engine)
        bazkondur_engine_start(l->at[WORDS], call, l->at[ARGS], l->size[ARGS] / 4, LENT);
    else
        bazkondur_start(l->at[WORDS], call, budget, l->at[ARGS], l->size[ARGS] / 4, LENT);
    sound(l);
}

static void step(struct lent *l, uint32_t code, uint32_t value)
{
    steps++;
    (l->engine ? bazkondur_engine_step : bazkondur_step)(l->at[WORDS], code, value, LENT);
    sound(l);
}

/* The call ends with this result, after so many transport calls. */
static void must_end(const struct lent *l, uint32_t number, uint32_t value, uint32_t made)
{
    must(next.kind == BAZKONDUR_END && next.number == number && next.word == value, "the end, its number and value");
    must(next.made == (l->engine ? 0 : made), "how many transport calls were made");
}

/* With no call under way. */
static void refuses_step(struct lent *l, uint32_t code)
{
    keep(l);
    step(l, code, 2);
    must_end(l, l->engine ? BAZKONDUR_NO_CALL : BAZKONDUR_NO_SESSION, 0, 0);
    must_keep(l, 0, false, false, false);
}

static bool is_known(const struct lent *l, uint32_t call)
{
    return l->engine ? call >= 1 && call <= CALLS : call == 3 || call == 9 || call == 10 || (call >= 13 && call <= 28);
}

/* The number that a start is refused with, by the header, or 0. */
static uint32_t refusal(const struct lent *l, uint32_t call)
{
    static const uint8_t narrow[][2] = {{6, 0}, {7, 0}, {8, 0}, {20, 0}, {21, 0}, {22, 0}, {22, 1}}; /* arguments of 255 at most */
    bool mem = call == 13 || call == 14, flash = (call == 32 || call == 35) && l->size[LIST] > 0;
    uint32_t align = l->engine ? (flash ? 4 : 1) : call == 9 || call == 10 ? 4 : call >= 26 ? 2 : 1;
    const uint32_t *given = l->at[ARGS];
    size_t i;
    if (!is_known(l, call) || l->size[ARGS] != 4u * takes[call])
        return BAZKONDUR_BAD_CALL;
    for (i = 0; i < COUNT(narrow); i++)
        if (narrow[i][0] == call && given[narrow[i][1]] > 255)
            return BAZKONDUR_BAD_CALL;
    if (!l->engine && call != BAZKONDUR_CONNECT_SWD && !bazkondur_is_open(l->at[WORDS]))
        return BAZKONDUR_NO_SESSION;
    if (align > 1 && given[0] % align != 0)
        return BAZKONDUR_ALIGN;
    return (mem || flash) && given[0] + (uint64_t)l->size[mem ? BUF : LIST] > 0xFFFFFFFF ? BAZKONDUR_RANGE : 0;
}

/* Starts a call, which is refused or not: says the number. A refusal changes nothing; but if it is no BAD_CALL, a call that was left is
 * over by it: the phase of a session changes then, and an engine's words. */
static uint32_t begin(struct lent *l, uint32_t call, uint32_t budget)
{
    uint32_t number = refusal(l, call);
    bool left = ((uint32_t *)l->at[WORDS])[PHASE] > 1;
    keep(l);
    start(l, call, budget);
    if (number == 0) {
        must(next.number == 0 || (next.number == BAZKONDUR_SPENT && budget == 0), "the start is not refused");
        return 0;
    }
    must_end(l, number, 0, 0);
    must_keep(l, number == BAZKONDUR_BAD_CALL ? 0 : l->engine ? USED : PHASE + left, false, false, false);
    if (number != BAZKONDUR_BAD_CALL)
        refuses_step(l, GOOD);
    return number;
}

/* A call whose arguments are all `arg`, with the same answer to each transport call: says how many there were. */
static uint32_t run(struct lent *l, uint32_t call, uint32_t budget, uint32_t arg, uint32_t code, uint32_t value)
{
    uint32_t sent = 0;
    args(l, takes[call], arg);
    keep(l);
    for (start(l, call, budget); next.kind != BAZKONDUR_END; sent++)
        step(l, code, value);
    must(l->engine || next.made == sent, "made is how many transport calls were made");
    must_keep(l, USED, true, call == BAZKONDUR_READ_WORDS, call == BAZKONDUR_READ_MEM);
    return sent;
}

/* How a session or an engine may stand. An engine has no budget: after Spent it stands as after any ending. */
enum { NEW, OPEN, ENDED, REFUSED, SPENT, LOST, UNDER_WAY, STANDINGS };

static void stand(struct lent *l, int how)
{
    static const char *const names[] = {"new", "open", "after an ending", "after a refusal", "after Spent", "after a loss", "under way"};
    place = names[how];
    keep(l);
    (l->engine ? bazkondur_engine_new : bazkondur_new)(l->at[WORDS]);
    must_keep(l, USED, false, false, false);
    if (how != NEW)
        run(l, BAZKONDUR_CONNECT_SWD, BUDGET, 0, GOOD, READY);
    args(l, 1, how == REFUSED ? AT + 1 : AT);
    if (how == REFUSED || how == UNDER_WAY)
        start(l, how == REFUSED && l->engine ? 0 : BAZKONDUR_READ_WORD, BUDGET);
    if (how == ENDED || how == SPENT || how == LOST)
        run(l, BAZKONDUR_READ_WORD, how == SPENT ? 3 : BUDGET, AT, how == LOST ? OTHER : GOOD, 0);
    must(l->engine || bazkondur_is_open(l->at[WORDS]) == (how == OPEN || how == ENDED || how == REFUSED), "the session is open or not");
}

/* However it stands: steps, where no call is under way; each call, and numbers that are none, with every number of arguments; and with the
 * right one, where an argument may be too wide or at the edge of what is refused, over as many words and bytes as matter there. */
static void starts(struct lent *l)
{
    static const uint32_t beyond[] = {255, 256, 256 + 3, 0x10009, 0x80000003, 0xFFFFFFFF}, codes[] = {0, 1, 2, 3, 4, 0xFFFFFFFF};
    static const uint32_t values[] = {AT,         1,          2,          3,          255,        256,        0x10000,
                                      0xFFFFFF00, 0xFFFFFFF8, 0xFFFFFFFB, 0xFFFFFFFC, 0xFFFFFFFD, 0xFFFFFFFE, 0xFFFFFFFF};
    static const uint16_t sizes[][2] = {{2, 5}, {0, 0}, {1, 1}, {2, 3}, {2, 4}, {MOST_LIST, MOST_BUF}};
    uint32_t how, i, k, count;
    for (how = 0; how < STANDINGS; how++) {
        for (stand(l, how), i = 0; i < COUNT(codes) && how != UNDER_WAY; i++)
            refuses_step(l, codes[i]);
        for (i = 0; i < CALLS + 2 + COUNT(beyond); i++) {
            uint32_t call = i < CALLS + 2 ? i : beyond[i - CALLS - 2], right = is_known(l, call) ? takes[call] : 0;
            bool sized = call == 13 || call == 14 || call == 32 || call == 35;
            for (count = 0; count <= MOST_ARGS; count++) {
                stand(l, how);
                args(l, count, AT);
                begin(l, call, BUDGET);
            }
            for (count = 0; count < right; count++)
                for (k = 0; k < COUNT(values) * (sized ? COUNT(sizes) : 1); k++) {
                    lend(l, LIST, 4u * sizes[k / COUNT(values)][0]);
                    lend(l, BUF, sizes[k / COUNT(values)][1]);
                    stand(l, how);
                    args(l, right, 0)[count] = values[k % COUNT(values)];
                    begin(l, call, BUDGET);
                }
        }
    }
    stand(l, UNDER_WAY);
    begin(l, 0, BUDGET);
    for (step(l, GOOD, 0), i = 0; i < 2; i++, step(l, SWD_ERROR, 0x102))
        must(next.kind == 'T' && next.request == 5 && next.word == AT, "the call goes on after a BAD_CALL, with TAR; after WAIT again");
}

/* One answer to every transport call of a call, over neither list nor buffer, NULL for both: how it ends, after how many of them, and
 * whether the session is open then. With less of a budget it is spent. */
static void answers(struct lent *l)
{
    static const struct {
        uint32_t how, call, code, value, number, word, open, sent;
    } rows[] = {
        {NEW, 3, GOOD, READY, BAZKONDUR_OK, READY, true, 11},        {OPEN, 3, GOOD, READY, BAZKONDUR_OK, READY, true, 11},
        {UNDER_WAY, 3, GOOD, READY, BAZKONDUR_OK, READY, true, 11},  {NEW, 3, GOOD, 0, BAZKONDUR_NO_TARGET, 0, false, 7},
        {NEW, 3, SWD_ERROR, 0x102, BAZKONDUR_TRANSFER, 2, false, 1}, {NEW, 3, GOOD, 1, BAZKONDUR_POWER_UP_TIMEOUT, 0, false, 10 + 1024},
        {NEW, 3, OTHER, 2, BAZKONDUR_INTERNAL, 0, false, 1},         {NEW, 3, NOT_SUPPORTED, 2, BAZKONDUR_NOT_SUPPORTED, 0, false, 1},
        {OPEN, 9, GOOD, READY, BAZKONDUR_OK, READY, true, 4},        {OPEN, 9, NOT_SUPPORTED, 2, BAZKONDUR_NOT_SUPPORTED, 0, false, 2},
        {OPEN, 9, SWD_ERROR, 2, BAZKONDUR_WAIT, 0, true, 65},        {OPEN, 9, SWD_ERROR, 0x102, BAZKONDUR_WAIT, 0, true, 65},
        {OPEN, 9, SWD_ERROR, 4, BAZKONDUR_TRANSFER, 4, true, 2},     {OPEN, 9, SWD_ERROR, 0xFFFFFF04, BAZKONDUR_TRANSFER, 4, true, 2},
        {OPEN, 9, OTHER, 2, BAZKONDUR_INTERNAL, 0, false, 2},        {OPEN, 9, SWD_ERROR, 0x107, BAZKONDUR_TRANSFER, 7, false, 2},
        {OPEN, 9, 4, 2, BAZKONDUR_INTERNAL, 0, false, 2},            {OPEN, 9, 0x100, 2, BAZKONDUR_INTERNAL, 0, false, 2},
        {OPEN, 9, 0x80000001, 2, BAZKONDUR_INTERNAL, 0, false, 2},   {OPEN, 9, 0xFFFFFFFF, 2, BAZKONDUR_INTERNAL, 0, false, 2},
        {OPEN, 11, GOOD, READY, BAZKONDUR_OK, 0, true, 2},           {OPEN, 12, GOOD, READY, BAZKONDUR_OK, 0, true, 0},
        {OPEN, 13, GOOD, READY, BAZKONDUR_OK, 0, true, 0},           {OPEN, 14, GOOD, READY, BAZKONDUR_OK, 0, true, 0},
        {OPEN, 32, GOOD, READY, BAZKONDUR_OK, 0, true, 0},           {OPEN, 35, GOOD, READY, BAZKONDUR_OK, 0, true, 0},
        {OPEN, 16, GOOD, 0, BAZKONDUR_CORE_TIMEOUT, 0, true, 4 + 3 * 4096},
        {OPEN, 22, GOOD, 0x10001, BAZKONDUR_TABLE_END, 0, true, 4 + 6 * 16384},
    };
    uint32_t i, budget;
    lend(l, LIST, 0);
    lend(l, BUF, 0);
    for (i = 0; i < COUNT(rows); i++)
        for (budget = l->engine ? rows[i].sent : 0; budget <= rows[i].sent && is_known(l, rows[i].call); budget++) {
            bool spent = budget < rows[i].sent;
            stand(l, rows[i].how);
            must(run(l, rows[i].call, budget, 4, rows[i].code, rows[i].value) == budget, "how many transport calls there are");
            must_end(l, spent ? BAZKONDUR_SPENT : rows[i].number, spent ? 0 : rows[i].word, budget);
            must(l->engine || bazkondur_is_open(l->at[WORDS]) == (rows[i].open && !spent), "Spent, a loss and a failed connect close");
            if (spent && budget == 70)
                budget = rows[i].sent - 1; /* of more budgets than these the last one alone */
        }
}

/* Every call to its end, over as much as can be lent. A session makes T, C and Q alone, the engine all six. */
static void whole_calls(struct lent *l)
{
    uint32_t call, k;
    lend(l, LIST, 4 * MOST_LIST);
    lend(l, BUF, MOST_BUF);
    for (call = 1; call <= CALLS; call++)
        if (is_known(l, call)) {
            stand(l, OPEN);
            run(l, call, BUDGET, 4, GOOD, READY);
        }
    for (k = 1; k < COUNT(l->seen); k++)
        must(l->seen[k] == (l->engine || k <= 3), "the letters of all transport calls");
}

/* xorshift64, begun anew with each seed. */
static uint64_t state;

static uint32_t below(uint64_t n)
{
    state ^= state << 13;
    state ^= state >> 7;
    state ^= state << 17;
    return (uint32_t)((state >> 16) % n);
}

/* A word such as calls and answers have: any, a small one, a byte, an address, one at the end of the address space. */
static uint32_t some(void)
{
    uint32_t w = below(0x100000000), of[] = {w, w % 5, w % 256, AT + w % 1024, 0 - w % 512, READY};
    return of[below(6)];
}

/* Lends random words: any; or such that most are a call under way; or those of the last time, a few of them changed. */
static void fill(struct lent *l)
{
    static const uint16_t list_counts[] = {0, 0, 1, 2, 5, MOST_LIST}, buf_lens[] = {0, 0, 1, 3, 4, 7, 40, MOST_BUF};
    /* Below what each word of a call under way is, 0 for any; the step has a group of calls besides, 1024 each. */
    static const uint16_t limits[USED] = {7,  40, 40, 4, 67, 7, 16, 0,   10,  8,   26,  70,  200, 5,  0, 0,
                                          16, 0,  2,  2, 3,  3, 32, 300, 300, 300, 300, 300, 4,   12, 0};
    uint32_t how = below(6), *words = l->at[WORDS], i, k, w;
    lend(l, LIST, 4u * list_counts[below(COUNT(list_counts))]);
    lend(l, BUF, buf_lens[below(COUNT(buf_lens))]);
    for (i = 0; i < BAZKONDUR_WORDS; i++)
        if (how < 3 || i >= USED)
            words[i] = how == 0 || i >= USED ? below(0x100000000) : limits[i] == 0 ? some() : below(limits[i]);
    if (how == 1 || how == 2)
        words[STEP] += 1024 * below(6);
    if (how >= 3) {
        for (k = below(4); k > 0; words[i] = some(), k--)
            i = below(USED);
        words[PHASE] = below(limits[PHASE]);
        words[STATUS] = below(limits[STATUS]);
    }
    for (k = ROOM; k <= BUF; k++)
        for (i = 0; i < l->size[k]; i += 4) {
            w = below(0x100000000);
            memcpy((uint8_t *)l->at[k] + i, &w, l->size[k] - i < 4 ? l->size[k] - i : 4);
        }
    l->budget = l->engine ? 0 : words[1];
}

/* Random answers, mostly good ones, until the end or so many: says how many. */
static uint32_t go_on(struct lent *l, uint32_t most)
{
    uint32_t sent = 0;
    do {
        uint32_t value = some(), code = below(24) > 0 ? GOOD : below(2) > 0 ? SWD_ERROR : some();
        step(l, code, value);
    } while (++sent < most && next.kind != BAZKONDUR_END);
    return sent;
}

/* Random words go on with random answers; then a random call is started. */
static void try_random(struct lent *l)
{
    uint32_t call, budget, sent, i, *words = l->at[WORDS], *given;
    place = l->engine ? "engine" : "session";
    fill(l);
    if (!l->engine && bazkondur_is_open(words))
        refuses_step(l, GOOD);
    keep(l);
    go_on(l, 1 + below(40));
    must_keep(l, USED, true, true, true);
    if (!l->engine && below(2) > 0)
        words[PHASE] = 1; /* open, which few are by chance */
    for (call = some(); !is_known(l, call) && below(16) > 0;)
        call = 1 + below(CALLS);
    given = args(l, call <= CALLS && below(16) > 0 ? takes[call] : below(MOST_ARGS + 1), 0);
    for (i = 0; i < l->size[ARGS] / 4; i++)
        given[i] = call == BAZKONDUR_ROM_FUNC_LOOKUP && below(4) > 0 ? below(256) : some();
    budget = below(2) > 0 ? below(30) : some();
    if (begin(l, call, budget) != 0)
        return;
    sent = next.kind == BAZKONDUR_END ? 0 : go_on(l, 60);
    must_keep(l, USED, true, call == BAZKONDUR_READ_WORDS, call == BAZKONDUR_READ_MEM);
    if (next.kind != BAZKONDUR_END)
        return;
    must(l->engine || next.made == sent, "made is how many transport calls were made");
    must(l->engine || next.number != BAZKONDUR_SPENT || !bazkondur_is_open(words), "Spent closes the session");
    must(l->engine || call != BAZKONDUR_CONNECT_SWD || bazkondur_is_open(words) == (next.number == 0), "a connect opens, if it succeeds");
    refuses_step(l, GOOD);
}

int main(int argc, char **argv)
{
    static void (*const groups[])(struct lent *l) = {starts, answers, whole_calls};
    static const char *const names[] = {"starts and steps", "answers and budgets", "calls to their end"};
    static struct lent lents[2] = {{.engine = false}, {.engine = true}};
    unsigned long count = argc > 1 ? strtoul(argv[1], NULL, 10) : 100000;
    size_t i, k;
    for (i = 0; i < 2; i++) {
        lend(&lents[i], WORDS, 4 * BAZKONDUR_WORDS);
        lend(&lents[i], ROOM, 4 * BAZKONDUR_ROOM);
        lend(&lents[i], NEXT, sizeof(bazkondur_next));
        lend(&lents[i], BYTES, BAZKONDUR_BYTES);
    }
    for (k = 0; k < COUNT(groups); k++) {
        for (group = names[k], started = 0, i = 0; i < 2; i++)
            groups[k](&lents[i]);
        printf("%s: %lu calls\n", group, started);
    }
    group = "random words";
    for (steps = 0, seed = 1; seed <= count; seed++)
        for (state = seed * 0x9E3779B97F4A7C15, i = 0; i < 2; i++)
            try_random(&lents[i]);
    printf("tried %lu random sessions and %lu random engines, %lu steps: all as they must be\n", count, count, steps);
    return 0;
}
