/* A probe's program over a mock line and target: it connects and reads a controller's operating hours. Then an answer is lost: the session
 * closes, and nothing is read until a connect has succeeded again. From the root of the repository
 *
 *     cc -I include examples/probe.c target/staticlib/libbazkondur.a -o target/probe && target/probe
 *
 * prints examples/probe.out. */
#include "bazkondur.h"

#include <stdio.h>

#define HOURS_AT 0x20000010u /* where the controller keeps its hours */
#define HOURS 12345u         /* 0x3039 */
#define BUDGET 10000u        /* a call that needs more transport calls than this ends with BAZKONDUR_SPENT */

/* What a transport call came to: one of the answer codes, and the word read or the ack. */
struct answer { uint32_t code, value; };

/* The mock target's registers, and whether the mock line loses the answer to the next SELECT write. */
static uint32_t select_register, tar, rdbuff;
static bool lose_select;

/* Requests that the mock target does something for; all others it answers with OK and 0. */
enum { DPIDR_READ = 0x2, CTRL_STAT_READ = 0x6, SELECT_WRITE = 0x8, RDBUFF_READ = 0xE, TAR_WRITE = 0x5, DRW_READ = 0xF };

static struct answer transfer(uint32_t request, uint32_t word)
{
    struct answer a = {BAZKONDUR_ANSWER_GOOD, 0};
    switch (request) {
    case DPIDR_READ:
        a.value = 0x0BC12477;
        break;
    case CTRL_STAT_READ: /* powered up */
        a.value = 0xF0000000;
        break;
    case SELECT_WRITE: /* the target does as told, whether or not its answer arrives */
        select_register = word;
        a.code = lose_select ? BAZKONDUR_ANSWER_OTHER : BAZKONDUR_ANSWER_GOOD;
        lose_select = false;
        break;
    case TAR_WRITE:
        if (select_register == 0)
            tar = word;
        break;
    case DRW_READ: /* posted: the word read before; this one follows with RDBUFF */
        a.value = rdbuff;
        rdbuff = select_register == 0 && tar == HOURS_AT ? HOURS : 0;
        break;
    case RDBUFF_READ:
        a.value = rdbuff;
        break;
    }
    return a;
}

/* Makes one transport call. Firmware drives its pins here: by the letter an SWD transfer of request, with word as the data of a write; the
 * port set up for SWD; or as many bits as next says out of bytes, from the lowest of the first byte on. An ack that is not OK goes back as
 * BAZKONDUR_ANSWER_SWD_ERROR with that ack, bad parity or anything else that went wrong as BAZKONDUR_ANSWER_OTHER. */
static struct answer make(const bazkondur_next *next, const uint8_t bytes[BAZKONDUR_BYTES])
{
    struct answer good = {BAZKONDUR_ANSWER_GOOD, 0}, not_supported = {BAZKONDUR_ANSWER_NOT_SUPPORTED, 0};
    (void)bytes; /* the mock target needs no line reset */
    switch (next->kind) {
    case BAZKONDUR_MAKE_TRANSFER:
        return transfer(next->request, next->word);
    case BAZKONDUR_MAKE_CONNECT:
    case BAZKONDUR_MAKE_SEQUENCE:
        return good;
    default: /* a session makes no others */
        return not_supported;
    }
}

/* The probe's one session, and the room that it works in. */
static uint32_t session[BAZKONDUR_WORDS], room[BAZKONDUR_ROOM];

/* One call, from its start to its end. The buffer is for calls 13 and 14. */
static bazkondur_next call(uint32_t number, const uint32_t *args, size_t arg_count, uint8_t *buf, size_t buf_len)
{
    bazkondur_next next;
    uint8_t bytes[BAZKONDUR_BYTES];
    bazkondur_start(session, number, BUDGET, args, arg_count, room, NULL, 0, buf, buf_len, &next, bytes);
    while (next.kind != BAZKONDUR_END) {
        struct answer a = make(&next, bytes);
        bazkondur_step(session, a.code, a.value, room, NULL, 0, buf, buf_len, &next, bytes);
    }
    return next;
}

static void show(const char *name, bazkondur_next end)
{
    printf("%-20s  result %2lu  value 0x%08lX  transport calls %2lu  %s\n", name, (unsigned long)end.number, (unsigned long)end.word,
           (unsigned long)end.made, bazkondur_is_open(session) ? "open" : "closed");
}

static void connect_and_read(void)
{
    const uint32_t at[] = {HOURS_AT};
    show("connect", call(BAZKONDUR_CONNECT_SWD, NULL, 0, NULL, 0));
    show("read_word 0x20000010", call(BAZKONDUR_READ_WORD, at, 1, NULL, 0));
}

int main(void)
{
    bazkondur_new(session);
    connect_and_read();
    lose_select = true; /* the connect fails, the session is closed, and the read is refused with 10: nothing is sent */
    connect_and_read();
    connect_and_read(); /* a connect is always admitted */
    return 0;
}
