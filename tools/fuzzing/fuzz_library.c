/* Targets of libFuzzer for the library for C. tools/run ci/fuzz_library builds one of them by -DTARGET=fuzz_open or -DTARGET=fuzz_arrive.
 *
 * The library is not instrumented, so libFuzzer does not see which of its code runs. What it sees are the counters below, by which this
 * program reports the numbers that calls return, and what the outputs are. */
#include "melfjits.h"
#include <stdio.h>
#include <stdlib.h>
#include <string.h>

enum { MOST_BYTES = 1 << 16, MOST_GRANTS = 1 << 12, MOST_SAVED = 1 << 24, MOST_SEEN = 1 << 16, FRAMES = 3, COUNTERS = 1 << 12 };
enum { CODE_AT = 3, REFUSED_SUBTYPE_AT = 9 };

__attribute__((section("__libfuzzer_extra_counters"))) static uint8_t counters[COUNTERS];

/* The outputs of operator 0, as bytes, and how many outputs of others and MAPs there were. */
struct seen {
    size_t length, of_others, maps;
    uint8_t bytes[MOST_SEEN];
};

static uint8_t bytes[MOST_BYTES];
static melfjits_grant grants[MOST_GRANTS];

static void want(bool holds, const char *what)
{
    if (holds)
        return;
    fprintf(stderr, "fuzz_library: %s\n", what);
    abort();
}

/* Counts that something of a kind was met, so that libFuzzer keeps an input that meets it first. */
static void met(unsigned kind, unsigned number)
{
    counters[(kind * 257 + number) % COUNTERS] = 1;
}

static void see(struct seen *seen, const void *data, size_t length)
{
    want(seen->length + length <= sizeof seen->bytes, "an operator has more outputs than fit");
    memcpy(seen->bytes + seen->length, data, length);
    seen->length += length;
}

static void see_output(struct seen *seen, const melfjits_output *output)
{
    want(output->kind >= MELFJITS_REPLY && output->kind <= MELFJITS_MAP, "an output has no kind");
    const uint64_t head[] = {output->kind, output->cause, output->operator_at, output->frame, output->length, output->granted, output->pending};
    met(2 + output->kind, output->kind == MELFJITS_REPLY ? bytes[CODE_AT] : output->cause);
    if (output->kind == MELFJITS_REPLY && output->length > REFUSED_SUBTYPE_AT)
        met(8 + bytes[CODE_AT] % 16, bytes[REFUSED_SUBTYPE_AT]);
    if (output->kind == MELFJITS_FRAME)
        met(24, (unsigned)(output->granted * 16 + output->pending));
    if (output->kind == MELFJITS_MAP) {
        seen->maps++;
    } else if (output->operator_at != 0) {
        seen->of_others++;
    } else {
        see(seen, head, sizeof head);
        see(seen, output->modem, sizeof output->modem);
        see(seen, bytes, output->length);
        see(seen, grants, (output->granted + output->pending) * sizeof *grants);
    }
}

/* Fetches all outputs that wait. */
static void fetch(melfjits_channel *channel, struct seen *seen)
{
    melfjits_output output;
    uint32_t code;
    seen->length = seen->of_others = seen->maps = 0;
    while ((code = melfjits_next_output(channel, &output, bytes, sizeof bytes, grants, MOST_GRANTS)) == MELFJITS_DONE)
        see_output(seen, &output);
    want(code == MELFJITS_NONE_WAITS, "an output is not fetched");
}

/* Ticks all operators, and returns how many there are. The last part of the frame completes its MAP. */
static size_t make_frame(melfjits_channel *channel, struct seen *seen)
{
    size_t place = 0;
    uint32_t code;
    while ((code = melfjits_tick(channel, place)) == MELFJITS_DONE)
        want(melfjits_collect(channel, place++) == MELFJITS_DONE, "a frame is not collected");
    want(code == MELFJITS_UNKNOWN_OPERATOR || code == MELFJITS_FRAMES_SPENT, "a tick is refused");
    fetch(channel, seen);
    want(code == MELFJITS_FRAMES_SPENT || seen->maps == 1, "a frame has no MAP");
    return place;
}

/* Saves a channel, opens it again, and saves that: both texts are the same. */
static void save_twice(melfjits_channel *channel)
{
    static uint8_t first[MOST_SAVED], second[MOST_SAVED];
    melfjits_channel again = MELFJITS_CLOSED_CHANNEL;
    size_t length, other;
    want(melfjits_save(channel, first, sizeof first, &length) == MELFJITS_DONE, "a channel at rest is not saved");
    want(melfjits_open_saved(&again, first, length) == MELFJITS_DONE, "a saved channel is not opened");
    want(melfjits_save(&again, second, sizeof second, &other) == MELFJITS_DONE, "a channel that was opened again is not saved");
    want(length == other && memcmp(first, second, length) == 0, "a channel that was opened again is saved differently");
    want(melfjits_close(&again) == MELFJITS_DONE, "an open channel is not closed");
}

/* Opens a text as a plant file, or as a snapshot if it begins as one. */
int fuzz_open(const uint8_t *data, size_t size)
{
    static const char snapshot[] = "melfjits-snapshot ";
    static struct seen seen;
    melfjits_channel channel = MELFJITS_CLOSED_CHANNEL;
    bool is_saved = size >= sizeof snapshot - 1 && memcmp(data, snapshot, sizeof snapshot - 1) == 0;
    uint32_t code = is_saved ? melfjits_open_saved(&channel, data, size) : melfjits_open(&channel, data, size);
    met(is_saved, code);
    bool is_known = code <= MELFJITS_NO_MEMORY || (code >= MELFJITS_NOT_TOML && code <= MELFJITS_PROVISIONED_OVER)
                    || (is_saved && code >= MELFJITS_STATE_REFUSED && code <= MELFJITS_UNKNOWN_NAME);
    want(is_known, "a text is refused by a number that is not documented");
    if (code == MELFJITS_DONE) {
        for (int frame = 0; frame < FRAMES; frame++)
            met(32, (unsigned)make_frame(&channel, &seen));
        save_twice(&channel);
    }
    want(melfjits_close(&channel) == (code == MELFJITS_DONE ? MELFJITS_DONE : MELFJITS_CLOSED), "a handle is not as open as its call says");
    return 0;
}

/* Two channels of examples/plant_p2.toml: operator A, which is at place 0, gets the same in both, and operator B something in the first alone. */
struct pair {
    melfjits_channel mixed, alone;
};

/* (written from examples/plant_p2.toml) */
static const uint8_t p2[] = {
#include "plant_p2.inc"
};

static void open_pair(struct pair *pair)
{
    want(melfjits_open(&pair->mixed, p2, sizeof p2) == MELFJITS_DONE, "the plant file is refused");
    want(melfjits_open(&pair->alone, p2, sizeof p2) == MELFJITS_DONE, "the plant file is refused");
}

/* Compares the outputs of operator A in both channels. After what one operator sent, the other has none. */
static void compare(struct pair *pair, bool sent_by_a, bool sent_by_b)
{
    static struct seen mixed, alone;
    fetch(&pair->mixed, &mixed);
    fetch(&pair->alone, &alone);
    want(mixed.length == alone.length && memcmp(mixed.bytes, alone.bytes, mixed.length) == 0, "operator A gets something else next to B");
    want(!sent_by_b || mixed.length == 0, "operator A has an output of what B sent");
    want(!sent_by_a || mixed.of_others == 0, "operator B has an output of what A sent");
}

/* Sends a message, or a request if its first byte is 0xFF and it has five bytes. */
static uint32_t send(melfjits_channel *channel, const melfjits_modem *modem, const uint8_t *data, size_t length)
{
    if (length == 5 && data[0] == 0xFF)
        return melfjits_request(channel, modem, (uint16_t)(data[1] << 8 | data[2]), (uint16_t)(data[3] << 8 | data[4]));
    return melfjits_arrive(channel, modem, data, length);
}

static void send_in_both(struct pair *pair, uint8_t number, const uint8_t *data, size_t length)
{
    const melfjits_modem modem = {{2, 0, 0, 0, 0, number}};
    uint32_t code = send(&pair->mixed, &modem, data, length);
    bool by_a = number == 1 || number == 2, by_b = number == 3;
    want(code == (by_a || by_b ? MELFJITS_DONE : MELFJITS_UNKNOWN_MODEM), "a message is refused");
    want(!by_a || send(&pair->alone, &modem, data, length) == MELFJITS_DONE, "a message is refused");
    compare(pair, by_a, by_b);
}

static void tick_both(struct pair *pair)
{
    for (size_t place = 0; place < 2; place++) {
        want(melfjits_tick(&pair->mixed, place) == MELFJITS_DONE && melfjits_collect(&pair->mixed, place) == MELFJITS_DONE, "a tick is refused");
        want(melfjits_tick(&pair->alone, place) == MELFJITS_DONE && melfjits_collect(&pair->alone, place) == MELFJITS_DONE, "a tick is refused");
    }
    compare(pair, false, false);
}

/* Performs what bytes say: the number of a modem, or 0 for a tick of all operators, then a length and so many bytes of a message. */
int fuzz_arrive(const uint8_t *data, size_t size)
{
    struct pair pair = {MELFJITS_CLOSED_CHANNEL, MELFJITS_CLOSED_CHANNEL};
    open_pair(&pair);
    for (size_t at = 0; at < size;) {
        uint8_t modem = data[at++] % 5;
        if (modem == 0) {
            tick_both(&pair);
            continue;
        }
        size_t length = at < size ? data[at++] : 0;
        length = length < size - at ? length : size - at;
        send_in_both(&pair, modem, data + at, length);
        at += length;
    }
    save_twice(&pair.mixed);
    want(melfjits_close(&pair.mixed) == MELFJITS_DONE && melfjits_close(&pair.alone) == MELFJITS_DONE, "an open channel is not closed");
    return 0;
}

int LLVMFuzzerTestOneInput(const uint8_t *data, size_t size)
{
    return TARGET(data, size);
}
