/* The loop of a CMTS with one upstream channel: passes on what modems send, ticks each frame, and prints replies and grants.
 *
 *     cc -o cmts_loop cmts_loop.c -lmelfjits
 *     cmts_loop PLANT ARRIVALS FRAMES
 *
 * PLANT is a plant file. A line of ARRIVALS has the number of a frame, the address of a modem, and what it sends before that frame: a
 * message in hexadecimal, or a bandwidth request, which is a SID and a number of minislots. The lines are in the order of their frames, and
 * a line with # is a comment. In a real CMTS the MAC layer hears all this, and sends the replies and the MAPs.
 *
 * Exit status: 1 a call is refused, 2 wrong arguments, or a file that cannot be read. */
#define _POSIX_C_SOURCE 200809L
#include <melfjits.h>
#include <stdio.h>
#include <stdlib.h>
#include <string.h>
#include <time.h>

enum { FRAME_US = 2000 /* as in the plant file */, MOST_TEXT = 1 << 20, MOST_BYTES = 65536, MOST_GRANTS = 4096, MOST_LINE = 8192 };

static const char *const causes[] = {"", "InboxFull", "Idle", "Empty", "NotOurs", "Short", "TidInUse", "UnknownAck", "NoSuchSid", "NotRequesting"};

/* The lines of ARRIVALS, and the one that comes next. */
struct arrivals {
    FILE *file;
    unsigned long frame;
    char line[MOST_LINE];
    bool is_over;
};

static void fail(int status, const char *what, uint32_t code)
{
    fprintf(stderr, "cmts_loop: %s", what);
    if (code)
        fprintf(stderr, ": %s", melfjits_text(code));
    fprintf(stderr, "\n");
    exit(status);
}

static void open_channel(melfjits_channel *channel, const char *path)
{
    static uint8_t text[MOST_TEXT];
    FILE *file = fopen(path, "rb");
    if (!file)
        fail(2, "cannot read the plant file", 0);
    size_t length = fread(text, 1, sizeof text, file);
    fclose(file);
    uint32_t code = melfjits_open(channel, text, length);
    if (code != MELFJITS_DONE)
        fail(1, "the plant file is refused", code);
}

static void print_bytes(const uint8_t *bytes, size_t length)
{
    for (size_t at = 0; at < length; at++)
        printf("%02X", bytes[at]);
}

/* Prints the grants of a frame. A SID of 0 says that minislots are idle. */
static void print_grants(const melfjits_output *output, const melfjits_grant *grants)
{
    for (size_t at = 0; at < output->granted; at++)
        if (grants[at].sid)
            printf("operator %zu, frame %u: SID %u has minislots %u to %u\n", output->operator_at, output->frame, grants[at].sid, grants[at].start,
                   grants[at].start + grants[at].length - 1);
    for (size_t at = output->granted; at < output->granted + output->pending; at++)
        printf("operator %zu, frame %u: SID %u has a grant pending\n", output->operator_at, output->frame, grants[at].sid);
}

static void print_output(const melfjits_output *output, const uint8_t *bytes, const melfjits_grant *grants)
{
    switch (output->kind) {
    case MELFJITS_REPLY:
        printf("reply to ");
        print_bytes(output->modem, 6);
        printf(": ");
        print_bytes(bytes, output->length);
        printf("\n");
        break;
    case MELFJITS_SILENT:
        printf("no reply to ");
        print_bytes(output->modem, 6);
        printf(": %s\n", causes[output->cause]);
        break;
    case MELFJITS_FRAME:
        print_grants(output, grants);
        break;
    default:
        printf("MAP %u: %zu bytes\n", output->frame, output->length);
    }
}

/* Fetches and prints all outputs that wait. The buffers have room for the greatest ones. */
static void print_outputs(melfjits_channel *channel)
{
    static uint8_t bytes[MOST_BYTES];
    static melfjits_grant grants[MOST_GRANTS];
    melfjits_output output;
    uint32_t code;
    while ((code = melfjits_next_output(channel, &output, bytes, sizeof bytes, grants, MOST_GRANTS)) == MELFJITS_DONE)
        print_output(&output, bytes, grants);
    if (code != MELFJITS_NONE_WAITS)
        fail(1, "an output cannot be fetched", code);
}

/* Reads bytes in hexadecimal, at most `size`, and returns how many there are. */
static size_t bytes_of(const char *text, uint8_t *bytes, size_t size)
{
    size_t count = 0;
    unsigned octet;
    while (count < size && sscanf(text + 2 * count, "%2x", &octet) == 1)
        bytes[count++] = (uint8_t)octet;
    return count;
}

/* Reads the line that comes next. */
static void advance(struct arrivals *arrivals)
{
    do
        arrivals->is_over = fgets(arrivals->line, sizeof arrivals->line, arrivals->file) == NULL;
    while (!arrivals->is_over && sscanf(arrivals->line, " %lu", &arrivals->frame) != 1);
}

/* Passes on what a line of ARRIVALS says. */
static void pass_on(melfjits_channel *channel, const char *line)
{
    static char address[MOST_LINE], what[MOST_LINE];
    static uint8_t message[MOST_LINE / 2];
    unsigned minislots;
    melfjits_modem modem;
    uint32_t code;
    int fields = sscanf(line, "%*u %s %s %u", address, what, &minislots);
    if (fields < 2 || bytes_of(address, modem.bytes, sizeof modem.bytes) != sizeof modem.bytes)
        fail(2, "a line of ARRIVALS is invalid", 0);
    if (fields == 3)
        code = melfjits_request(channel, &modem, (uint16_t)atoi(what), (uint16_t)minislots);
    else
        code = melfjits_arrive(channel, &modem, message, bytes_of(what, message, sizeof message));
    if (code != MELFJITS_DONE)
        fail(1, "what a modem sent is refused", code);
}

/* Makes the next frame of each operator. The last one completes its MAP. */
static void make_frame(melfjits_channel *channel)
{
    uint32_t code;
    size_t place = 0;
    while ((code = melfjits_tick(channel, place)) == MELFJITS_DONE) {
        code = melfjits_collect(channel, place++);
        if (code != MELFJITS_DONE)
            fail(1, "a frame is not collected", code);
    }
    if (code != MELFJITS_UNKNOWN_OPERATOR)
        fail(1, "a tick is refused", code);
}

/* Waits until it is time for the next frame. */
static void wait_for_frame(struct timespec *next)
{
    next->tv_nsec += 1000L * FRAME_US;
    next->tv_sec += next->tv_nsec / 1000000000;
    next->tv_nsec %= 1000000000;
    clock_nanosleep(CLOCK_MONOTONIC, TIMER_ABSTIME, next, NULL);
}

int main(int argc, char **argv)
{
    static struct arrivals arrivals;
    melfjits_channel channel = MELFJITS_CLOSED_CHANNEL;
    struct timespec next;
    if (argc != 4)
        fail(2, "usage: cmts_loop PLANT ARRIVALS FRAMES", 0);
    arrivals.file = fopen(argv[2], "r");
    if (!arrivals.file)
        fail(2, "cannot read ARRIVALS", 0);
    open_channel(&channel, argv[1]);
    advance(&arrivals);
    clock_gettime(CLOCK_MONOTONIC, &next);
    for (unsigned long frame = 0; frame < strtoul(argv[3], NULL, 10); frame++) {
        for (; !arrivals.is_over && arrivals.frame <= frame; advance(&arrivals))
            pass_on(&channel, arrivals.line);
        make_frame(&channel);
        print_outputs(&channel);
        wait_for_frame(&next);
    }
    fclose(arrivals.file);
    return melfjits_close(&channel) == MELFJITS_DONE ? 0 : 1;
}
