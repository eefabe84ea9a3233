/* Melfjits for C: one upstream channel in this process, behind a handle.
 *
 * The calls are the exports of the crate channel_c. Each does what the clauses of its export say;
 * the clauses are proved. Nothing checks this header, except for tools/tests/test_channel_c.py.
 * A program is linked with libmelfjits.a or libmelfjits.so.0, which tools/run build_library builds from
 * what tools/ci/build_channel_c has built.
 *
 * The caller has to ensure this:
 * - A handle begins as MELFJITS_CLOSED_CHANNEL. Only these calls read or write its members.
 * - An open handle is not copied. It is given to one call at a time, on the thread that opened it.
 * - A pointer is valid for as many items as the length after it says. It may be NULL where that
 *   length is 0. Buffers of one call do not overlap.
 * - malloc, realloc and free come from one allocator, and no call is made in a signal handler.
 */
#ifndef MELFJITS_H
#define MELFJITS_H

#include <stdbool.h>
#include <stddef.h>
#include <stdint.h>

#ifdef __cplusplus
extern "C" {
#endif

/* A handle: a channel that is open, or none. */
typedef struct melfjits_channel {
    void *ptr;
    bool is_open;
} melfjits_channel;

#define MELFJITS_CLOSED_CHANNEL { NULL, false }

/* What a call returns. Where a number is not 0 nothing has changed, except for MELFJITS_RECEIVED. */
enum melfjits_code {
    MELFJITS_DONE = 0,
    MELFJITS_NO_MEMORY = 1,
    MELFJITS_CLOSED = 2,          /* the handle is closed */
    MELFJITS_SHORT = 3,           /* a buffer is too small for the output that waits first */
    MELFJITS_NONE_WAITS = 4,      /* no output waits */
    MELFJITS_RECEIVED = 5,        /* in the inbox; memory ran out before it was handled: melfjits_work */

    /* why a plant file is refused */
    MELFJITS_NOT_TOML = 10,
    MELFJITS_MISSING_KEY = 11,
    MELFJITS_BAD_VALUE = 12,
    MELFJITS_SLICES_OVERLAP = 13,
    MELFJITS_SIDS_OVERLAP = 14,
    MELFJITS_SFIDS_OVERLAP = 15,
    MELFJITS_MODEM_TWICE = 16,
    MELFJITS_TOO_MANY_ELEMENTS = 17,
    MELFJITS_PLANT_BUDGET_OVER_SLICE = 18,
    MELFJITS_PROVISIONED_OVER = 19,

    /* why a step is refused */
    MELFJITS_UNKNOWN_MODEM = 20,
    MELFJITS_UNKNOWN_OPERATOR = 21,
    MELFJITS_FRAMES_SPENT = 22,
    MELFJITS_NOTHING_TO_COLLECT = 23,

    /* why a slice change is refused */
    MELFJITS_ROW_COUNT = 30,
    MELFJITS_NOT_PAST = 31,
    MELFJITS_UNFINISHED = 32,
    MELFJITS_OFF_FRAME = 33,
    MELFJITS_NEW_SLICES_OVERLAP = 34,
    MELFJITS_BUDGET_OVER_SLICE = 35,
    MELFJITS_UNFIT = 36,

    /* why a channel is not saved, or its plant is not changed or does not start in saved states */
    MELFJITS_FRAME_WAITS = 40,      /* a frame of an operator is not collected yet */
    MELFJITS_NOT_AT_FRAME = 41,     /* an operator is before another frame than the first one */
    MELFJITS_CONSTANTS_DIFFER = 42, /* what all operators share would change */
    MELFJITS_STATE_REFUSED = 43,    /* an operator's state does not fit its row of the plant file */
    MELFJITS_NOT_TOGETHER = 44,     /* the operators' frames or slices do not go together */
    MELFJITS_NOT_A_SNAPSHOT = 45,
    MELFJITS_UNKNOWN_NAME = 46      /* the plant file has no operator of a saved name */
};

/* Returns what a number that a call returned means, in words. */
static inline const char *melfjits_text(uint32_t code)
{
    switch (code) {
    case MELFJITS_DONE: return "done";
    case MELFJITS_NO_MEMORY: return "out of memory, nothing has changed";
    case MELFJITS_CLOSED: return "the channel is closed";
    case MELFJITS_SHORT: return "a buffer is too small for the output that waits first";
    case MELFJITS_NONE_WAITS: return "no output waits";
    case MELFJITS_RECEIVED: return "out of memory before the message was handled: it is in the inbox, call work()";
    case MELFJITS_NOT_TOML: return "the plant file is not TOML";
    case MELFJITS_MISSING_KEY: return "a required key of the plant file is missing";
    case MELFJITS_BAD_VALUE: return "a value of the plant file has another type or is out of range";
    case MELFJITS_SLICES_OVERLAP: return "slices of two operators overlap";
    case MELFJITS_SIDS_OVERLAP: return "SID ranges of two operators overlap";
    case MELFJITS_SFIDS_OVERLAP: return "SFID ranges of two operators overlap";
    case MELFJITS_MODEM_TWICE: return "the address of a modem is listed twice";
    case MELFJITS_TOO_MANY_ELEMENTS: return "the operators have more elements than a MAP can hold";
    case MELFJITS_PLANT_BUDGET_OVER_SLICE: return "the budget of an operator is more than its slice";
    case MELFJITS_PROVISIONED_OVER: return "the provisioned flows of an operator do not fit";
    case MELFJITS_UNKNOWN_MODEM: return "no operator has this modem";
    case MELFJITS_UNKNOWN_OPERATOR: return "there is no operator at this place";
    case MELFJITS_FRAMES_SPENT: return "the last frame number is used";
    case MELFJITS_NOTHING_TO_COLLECT: return "the operator has no frame that was not collected";
    case MELFJITS_ROW_COUNT: return "a slice change needs one row for each operator";
    case MELFJITS_NOT_PAST: return "a slice change has to start at a later frame";
    case MELFJITS_UNFINISHED: return "an earlier slice change is still pending";
    case MELFJITS_OFF_FRAME: return "a new slice is empty, or not after the head and within the frame";
    case MELFJITS_NEW_SLICES_OVERLAP: return "new slices of two operators overlap";
    case MELFJITS_BUDGET_OVER_SLICE: return "a new budget is more than its slice";
    case MELFJITS_UNFIT: return "more minislots are committed than a new budget";
    case MELFJITS_FRAME_WAITS: return "a frame of an operator is not collected yet";
    case MELFJITS_NOT_AT_FRAME: return "an operator is before another frame than the first one";
    case MELFJITS_CONSTANTS_DIFFER: return "what all operators share would change";
    case MELFJITS_STATE_REFUSED: return "an operator's state does not fit its row of the plant file";
    case MELFJITS_NOT_TOGETHER: return "the operators' frames or slices do not go together";
    case MELFJITS_NOT_A_SNAPSHOT: return "the text is not a snapshot";
    case MELFJITS_UNKNOWN_NAME: return "the plant file has no operator of a saved name";
    default: return "the library returned an unknown number";
    }
}

/* The hardware address of a cable modem. */
typedef struct melfjits_modem {
    uint8_t bytes[6];
} melfjits_modem;

/* A slice and a budget of an operator, in minislots of a frame. */
typedef struct melfjits_slice {
    uint16_t start;
    uint16_t length;
    uint16_t budget;
} melfjits_slice;

enum melfjits_kind { MELFJITS_REPLY = 1, MELFJITS_SILENT = 2, MELFJITS_FRAME = 3, MELFJITS_MAP = 4 };

/* What an output is, and how long its bytes and its grants are. */
typedef struct melfjits_output {
    uint32_t kind;      /* enum melfjits_kind */
    uint32_t cause;     /* why there is no reply, 1 to 9 in the order of docs/FORMATS.md; else 0 */
    size_t operator_at; /* the operator's place in the plant file, from 0; of a MAP 0 */
    uint32_t frame;     /* the number of a frame or a MAP */
    uint8_t modem[6];   /* the modem of a reply, or of none; zeros if there is no modem */
    size_t length;      /* bytes of a reply or of a MAP */
    size_t granted;     /* spans of a frame, which come first in the grants */
    size_t pending;     /* grants pending of a frame, which come after them */
} melfjits_output;

/* Minislots granted to a SID; IUC 0 and no minislots: a grant pending. */
typedef struct melfjits_grant {
    uint16_t sid;
    uint16_t iuc;
    uint16_t start;
    uint16_t length;
} melfjits_grant;

/* Opens the channel of a plant file, which is UTF-8. What the handle held is freed if that is done. */
uint32_t melfjits_open(melfjits_channel *channel, const uint8_t *text, size_t length);

/* Opens a channel that was saved, from the text that melfjits_save wrote. It goes on before the frame
 * of its snapshot, and no output waits. */
uint32_t melfjits_open_saved(melfjits_channel *channel, const uint8_t *text, size_t length);

/* Writes a snapshot with its plant file at the beginning of a buffer, and how long it is. If it does
 * not fit, how long it is alone: MELFJITS_SHORT. The channel has to rest before a frame: each
 * operator ticked as often, and each frame is collected. Outputs that wait are not saved. */
uint32_t melfjits_save(melfjits_channel *channel, uint8_t *bytes, size_t size, size_t *length);

/* Puts another plant file in force between two frames. Each operator goes on in its state, by its
 * name; outputs that wait go on waiting. The channel has to rest as for melfjits_save. */
uint32_t melfjits_change(melfjits_channel *channel, const uint8_t *text, size_t length);

/* Frees what the handle holds, and closes it. MELFJITS_CLOSED if it was closed already. */
uint32_t melfjits_close(melfjits_channel *channel);

/* Receives a message of a modem, a byte of message type and the payload, and handles the first of
 * the inbox of its operator. */
uint32_t melfjits_arrive(melfjits_channel *channel, const melfjits_modem *modem,
                         const uint8_t *message, size_t length);

/* Receives a bandwidth request of a modem, and handles the first of the inbox of its operator. */
uint32_t melfjits_request(melfjits_channel *channel, const melfjits_modem *modem, uint16_t sid,
                          uint16_t minislots);

/* Handles the first of an operator's inbox, after MELFJITS_RECEIVED. */
uint32_t melfjits_work(melfjits_channel *channel, size_t operator_at);

/* Advances an operator's timers by a tick, and schedules its next frame. It allocates nothing if no
 * output waits and nothing is sent again, once an earlier frame was as large. */
uint32_t melfjits_tick(melfjits_channel *channel, size_t operator_at);

/* Puts an operator's oldest frame into the assembly; the last part of a frame completes its MAP. */
uint32_t melfjits_collect(melfjits_channel *channel, size_t operator_at);

/* Gives each operator, in the order of the plant file, another slice and budget from a frame on. */
uint32_t melfjits_reslice(melfjits_channel *channel, uint32_t from, const melfjits_slice *rows,
                          size_t count);

/* Fetches the output that waits first. If it does not fit, the head says how long it is, nothing is
 * written into the buffers, and the next call fetches the same output. */
uint32_t melfjits_next_output(melfjits_channel *channel, melfjits_output *output, uint8_t *bytes,
                              size_t size, melfjits_grant *grants, size_t count);

#ifdef __cplusplus
}
#endif
#endif
