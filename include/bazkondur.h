/* Bazkondur: the engine of a debug probe, and a session over it that closes when it can no longer know what the target did.
 * The functions are proved to meet their contracts (docs/READING.md) for every value of every argument; libbazkondur.a is for x86-64 Linux.
 *
 * They make no transport call themselves: each start or step says which one to make, and the next step takes its answer. They keep
 * nothing, take no memory and no lock: everything stands in what the caller lends, for the length of one function call.
 * examples/probe.c is a whole program over them.
 *
 * What is lent
 *   session, engine  BAZKONDUR_WORDS words, begun by bazkondur_new or bazkondur_engine_new. Any words are some session, so nothing that
 *                    stands there is undefined; what is promised of a session is promised of one that began with bazkondur_new.
 *   args             the arguments of a call, which its start alone reads.
 *   room             BAZKONDUR_ROOM words to work in, of any content.
 *   list, words      words that a call takes or fills. No session call of today uses its list; 11, 12, 32 and 35 of the engine do.
 *   buf              the bytes of calls 13 and 14, whose length is the buffer's.
 *   next             what comes next is written here.
 *   bytes            BAZKONDUR_BYTES bytes, in which those of a sequence are handed back, with zeros after them.
 * Words are aligned to 4 bytes. No two of these overlap. Where a count is 0 the pointer may be NULL. At each step of a call the same
 * session or engine, room, list and buf are lent, as the last step left them. Call 11 writes to words and 13 to buf; all others write
 * nothing to list, words or buf. Every start and step, a refused one too, writes all of next and bytes, whatever stood there before.
 *
 * What must not be done
 *   Two copies of a session: one that was kept from before a loss is still open, and the target has gone on without it.
 *   One session, or what is lent for it, from two threads at a time.
 */
#ifndef BAZKONDUR_H
#define BAZKONDUR_H

#include <stdbool.h>
#include <stddef.h>
#include <stdint.h>

#ifdef __cplusplus
extern "C" {
#endif

enum { BAZKONDUR_WORDS = 64, BAZKONDUR_ROOM = 192, BAZKONDUR_BYTES = 16 };

/* The calls and their arguments, one word each, in this order. */
enum {
    BAZKONDUR_CONNECT_MULTIDROP = 1,       /* targetsel */
    BAZKONDUR_PROBE_SWD = 2,               /* - */
    BAZKONDUR_CONNECT_SWD = 3,             /* -; value: DPIDR */
    BAZKONDUR_RESET_PULSE = 4,             /* wait_us */
    BAZKONDUR_RESELECT = 5,                /* targetsel */
    BAZKONDUR_SET_APSEL = 6,               /* apsel (at most 255) */
    BAZKONDUR_AP_REG_READ = 7,             /* addr (at most 255) */
    BAZKONDUR_AP_REG_WRITE = 8,            /* addr (at most 255), word */
    BAZKONDUR_READ_WORD = 9,               /* addr */
    BAZKONDUR_WRITE_WORD = 10,             /* addr, word */
    BAZKONDUR_READ_WORDS = 11,             /* addr; into words */
    BAZKONDUR_WRITE_WORDS = 12,            /* addr; from words */
    BAZKONDUR_READ_MEM = 13,               /* addr; into buf */
    BAZKONDUR_WRITE_MEM = 14,              /* addr; from buf */
    BAZKONDUR_DEBUG_ENABLE = 15,           /* - */
    BAZKONDUR_HALT = 16,                   /* - */
    BAZKONDUR_RESUME = 17,                 /* - */
    BAZKONDUR_CORE_STEP = 18,              /* - */
    BAZKONDUR_IS_HALTED = 19,              /* -; value: 1 or 0 */
    BAZKONDUR_READ_CORE_REG = 20,          /* reg (at most 255) */
    BAZKONDUR_WRITE_CORE_REG = 21,         /* reg (at most 255), word */
    BAZKONDUR_ROM_FUNC_LOOKUP = 22,        /* two bytes of the code; value: the function, or 0xFFFFFFFF */
    BAZKONDUR_START_FUNCTION = 23,         /* fn_addr, a0, a1, a2, a3, sp, trampoline; with result 0 room[0..7] is its frame */
    BAZKONDUR_FINISH_FUNCTION = 24,        /* the frame: r0, r1, r2, r3, sp, lr, pc, xpsr; polls */
    BAZKONDUR_CALL_FUNCTION = 25,          /* as 23, then polls */
    BAZKONDUR_HW_BREAKPOINT_SET = 26,      /* addr; value: 1 or 0 */
    BAZKONDUR_HW_BREAKPOINT_CLEAR = 27,    /* addr; value: 1 or 0 */
    BAZKONDUR_HW_BREAKPOINT_AT = 28,       /* addr; value: 1 or 0 */
    BAZKONDUR_NRF52_APPROTECT_STATUS = 29, /* -; value: 1 if open, plus 2 if known */
    BAZKONDUR_NRF52_ERASE_ALL = 30,        /* polls */
    BAZKONDUR_NRF52_ERASE_PAGE = 31,       /* addr, polls */
    BAZKONDUR_NRF52_PROGRAM = 32,          /* addr, polls; from words */
    BAZKONDUR_NRF54_APPROTECT_STATUS = 33, /* -; value: 1 or 0 */
    BAZKONDUR_NRF54_ERASE_ALL = 34,        /* polls */
    BAZKONDUR_NRF54_PROGRAM = 35           /* addr, polls; from words */
};

/* How a call ended. The last two are given to a caller's mistakes: nothing is changed then but next and bytes. */
enum {
    BAZKONDUR_OK = 0,
    BAZKONDUR_TRANSFER = 1,          /* the line failed; value: the ack (4 is FAULT) */
    BAZKONDUR_WAIT = 2,              /* 65 WAITs for one transfer */
    BAZKONDUR_NOT_SUPPORTED = 3,     /* the transport said so */
    BAZKONDUR_POWER_UP_TIMEOUT = 4,
    BAZKONDUR_CORE_TIMEOUT = 5,
    BAZKONDUR_NO_TARGET = 6,
    BAZKONDUR_INTERNAL = 7,          /* any other error of the transport */
    BAZKONDUR_RANGE = 8,             /* refused: address and length together are 2^32 or more, or 11 or 12 is over 2^32 words or more */
    BAZKONDUR_ALIGN = 9,             /* refused: a word's address is no multiple of 4, or a breakpoint's is odd */
    BAZKONDUR_NO_SESSION = 10,       /* refused: the session is closed, or a step came with no call under way */
    BAZKONDUR_SPENT = 11,            /* the budget did not suffice; the session is closed */
    BAZKONDUR_TABLE_END = 12,        /* the boot ROM's table has no end */
    BAZKONDUR_NO_CALL = 254,         /* refused: a step on an engine with no call under way */
    BAZKONDUR_BAD_CALL = 255         /* refused: no such call, another number of arguments than it takes, or one too wide */
};

/* What the transport said, the code of a step. Value: the word read (else 0); of an SWD error the ack, its low eight bits. Acks 2 and 4
 * are the target's WAIT and FAULT and nothing else: the session takes every other error for a loss. A word read with bad parity is an
 * error and never ANSWER_GOOD. A code above 3 is ANSWER_OTHER. */
enum {
    BAZKONDUR_ANSWER_GOOD = 0,
    BAZKONDUR_ANSWER_SWD_ERROR = 1,
    BAZKONDUR_ANSWER_NOT_SUPPORTED = 2,
    BAZKONDUR_ANSWER_OTHER = 3
};

/* What comes next: the transport call to make, by its letter, or the end of the call. Fields that a kind does not name are 0. */
typedef struct bazkondur_next {
    uint32_t kind;    /* BAZKONDUR_END, or a letter below */
    uint32_t number;  /* end: the result */
    uint32_t word;    /* T: the data of a write; B: the bits, as bytes has them; P: the wait in microseconds; end: the value */
    uint32_t made;    /* end, in a session: how many transport calls the call made */
    uint32_t request; /* T: APnDP 1, RnW 2, A2 4, A3 8 */
    uint32_t bits;    /* Q, B: how many bits */
    uint32_t len;     /* Q, B: how many of bytes they stand in, first bit lowest */
    uint32_t output;  /* P: the pins' levels, by the bits of CMSIS-DAP's DAP_SWJ_Pins (nRESET is 0x80) */
    uint32_t select;  /* P: the pins that are driven, likewise */
} bazkondur_next;     /* nine words: 36 bytes, no padding */

enum {
    BAZKONDUR_END = 0,
    BAZKONDUR_MAKE_TRANSFER = 'T',
    BAZKONDUR_MAKE_CONNECT = 'C',      /* to SWD */
    BAZKONDUR_MAKE_SEQUENCE = 'Q',
    BAZKONDUR_MAKE_WRITE_BITS = 'B',
    BAZKONDUR_MAKE_PINS = 'P',
    BAZKONDUR_MAKE_OUTPUT_ENABLE = 'O' /* of SWDIO */
};

/* A session that has made no call: closed, nothing known of the target. No function uses the words from 31 on. */
void bazkondur_new(uint32_t session[BAZKONDUR_WORDS]);

/* Whether calls other than connect_swd are admitted: false while a call is under way. */
bool bazkondur_is_open(const uint32_t session[BAZKONDUR_WORDS]);

/* Starts a call: 3, 9, 10, 13 to 28. It may make `budget` transport calls; where it needs one more it ends with SPENT. It is refused with
 * BAD_CALL, NO_SESSION, ALIGN or RANGE, in this order, and then makes none and changes nothing. But a call that was left under way is over
 * by any start that is no BAD_CALL, even a refused one, and the session is closed as after SPENT. */
void bazkondur_start(uint32_t session[BAZKONDUR_WORDS], uint32_t call, uint32_t budget, const uint32_t *args, size_t arg_count,
                     uint32_t room[BAZKONDUR_ROOM], uint32_t *list, size_t list_count, uint8_t *buf, size_t buf_len,
                     bazkondur_next *next, uint8_t bytes[BAZKONDUR_BYTES]);

/* One step: the answer to the last transport call in, the next one or the end out. With no call under way it is refused with NO_SESSION. */
void bazkondur_step(uint32_t session[BAZKONDUR_WORDS], uint32_t code, uint32_t value, uint32_t room[BAZKONDUR_ROOM],
                    uint32_t *list, size_t list_count, uint8_t *buf, size_t buf_len, bazkondur_next *next,
                    uint8_t bytes[BAZKONDUR_BYTES]);

/* The engine alone, as the Rust module has it: all 35 calls, no budget, nothing closed. It remembers SELECT, CSW and APSEL. By address and
 * length it refuses 13 and 14 (RANGE), and 32 and 35 with words (ALIGN, RANGE); over 2^32 words or more 11 and 12 (RANGE); and no others.
 * A call that was left is over by the next. */
void bazkondur_engine_new(uint32_t engine[BAZKONDUR_WORDS]);

void bazkondur_engine_start(uint32_t engine[BAZKONDUR_WORDS], uint32_t call, const uint32_t *args, size_t arg_count,
                            uint32_t room[BAZKONDUR_ROOM], uint32_t *words, size_t word_count, uint8_t *buf, size_t buf_len,
                            bazkondur_next *next, uint8_t bytes[BAZKONDUR_BYTES]);

/* With no call under way it is refused with NO_CALL. */
void bazkondur_engine_step(uint32_t engine[BAZKONDUR_WORDS], uint32_t code, uint32_t value, uint32_t room[BAZKONDUR_ROOM],
                           uint32_t *words, size_t word_count, uint8_t *buf, size_t buf_len, bazkondur_next *next,
                           uint8_t bytes[BAZKONDUR_BYTES]);

#ifdef __cplusplus
}
#endif

#endif
