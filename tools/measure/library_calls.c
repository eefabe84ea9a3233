/* Makes calls of the library for C, and measures them. tools/run measure/library and library_memory start it.
 *
 *     library_calls PLANT LINES                 prints a line for each call: its kind, nanoseconds, and allocations
 *     library_calls PLANT LINES FRAMES EVERY    repeats the lines for so many frames, and prints after each EVERY of them how many there were,
 *                                               and the kilobytes of resident memory
 *
 * LINES are lines of a script. A call is what a line `M` or `Q` says, or `T`: a tick of each operator, with its frame put into the assembly.
 * Its outputs are fetched as a part of it. The kinds are R a message with a reply, S one without, Q a request, T a tick of all operators,
 * and - no call at all, which is what the clock itself takes.
 *
 * Ends with status 1 if a call fails, a request gets another code than 0, a message or request without a reply has an output, or a tick has
 * other outputs than a frame of each operator and a MAP. Linked with -Wl,--wrap=malloc,--wrap=realloc, it counts the allocations. */
#define _POSIX_C_SOURCE 200809L
#include "melfjits.h"
#include <stdio.h>
#include <stdlib.h>
#include <string.h>
#include <time.h>
#include <unistd.h>

enum { MOST_LINE = 4096, MOST_TEXT = 1 << 24, MOST_BYTES = 65536, MOST_GRANTS = 4096, MOST_MESSAGE = 256, CODE_AT = 3, CLOCK_TRIALS = 1000 };
enum { DSA_ACK = 0x11, DSC_ACK = 0x14 };

struct call {
    char kind;
    uint8_t length;
    uint16_t sid, minislots;
    melfjits_modem modem;
    uint8_t message[MOST_MESSAGE];
};

/* What calls put out: how many outputs of each kind, and whether a reply has another code than 0. */
struct outcome {
    size_t of_kind[MELFJITS_MAP + 1];
    bool is_refused;
};

static melfjits_channel channel = MELFJITS_CLOSED_CHANNEL;
static size_t operators, allocations;

void *__real_malloc(size_t size);
void *__real_realloc(void *old, size_t size);

void *__wrap_malloc(size_t size)
{
    allocations++;
    return __real_malloc(size);
}

void *__wrap_realloc(void *old, size_t size)
{
    allocations++;
    return __real_realloc(old, size);
}

static void fail(const char *what, uint32_t code)
{
    fprintf(stderr, "library_calls: %s: %u\n", what, code);
    exit(1);
}

static void check(uint32_t code)
{
    if (code != MELFJITS_DONE)
        fail("a call returned", code);
}

static FILE *open_file(const char *path)
{
    FILE *file = fopen(path, "rb");
    if (!file)
        fail(path, 0);
    return file;
}

static void open_plant(const char *path)
{
    static uint8_t text[MOST_TEXT];
    FILE *file = open_file(path);
    check(melfjits_open(&channel, text, fread(text, 1, sizeof text, file)));
    fclose(file);
}

static size_t bytes_of(const char *text, uint8_t *bytes, size_t size)
{
    size_t count = 0;
    unsigned octet;
    while (count < size && sscanf(text + 2 * count, "%2x", &octet) == 1)
        bytes[count++] = (uint8_t)octet;
    return count;
}

static void read_call(const char *line, struct call *call)
{
    char modem[MOST_LINE], what[MOST_LINE];
    unsigned minislots;
    int fields = sscanf(line, "%*s %s %s %u", modem, what, &minislots);
    *call = (struct call){.kind = line[0]};
    if (line[0] == 'T')
        return;
    bytes_of(modem, call->modem.bytes, sizeof call->modem.bytes);
    if (fields == 3) {
        call->sid = (uint16_t)atoi(what);
        call->minislots = (uint16_t)minislots;
        return;
    }
    call->length = (uint8_t)bytes_of(what, call->message, MOST_MESSAGE - 1);
    call->kind = call->message[0] == DSA_ACK || call->message[0] == DSC_ACK ? 'S' : 'R';
}

/* Reads all calls of a file, and returns them and how many there are. */
static struct call *read_calls(const char *path, size_t *count)
{
    char line[MOST_LINE];
    struct call *calls = NULL;
    FILE *file = open_file(path);
    for (*count = 0; fgets(line, sizeof line, file); ++*count) {
        if (*count % 1024 == 0)
            calls = realloc(calls, (*count + 1024) * sizeof *calls);
        if (!calls)
            fail("out of memory", 0);
        read_call(line, &calls[*count]);
    }
    fclose(file);
    return calls;
}

/* Fetches all outputs that wait. */
static void fetch(struct outcome *outcome)
{
    static uint8_t bytes[MOST_BYTES];
    static melfjits_grant grants[MOST_GRANTS];
    melfjits_output output;
    uint32_t code;
    while ((code = melfjits_next_output(&channel, &output, bytes, sizeof bytes, grants, MOST_GRANTS)) == MELFJITS_DONE) {
        outcome->of_kind[output.kind]++;
        outcome->is_refused |= output.kind == MELFJITS_REPLY && bytes[CODE_AT] != 0;
    }
    if (code != MELFJITS_NONE_WAITS)
        fail("an output is not fetched", code);
}

/* These four are measured by callgrind, which finds them by their names. */
#define MEASURED __attribute__((noinline, noclone, noipa))

MEASURED void handle_message(const struct call *call, struct outcome *outcome)
{
    check(melfjits_arrive(&channel, &call->modem, call->message, call->length));
    fetch(outcome);
}

MEASURED void handle_acknowledgement(const struct call *call, struct outcome *outcome)
{
    check(melfjits_arrive(&channel, &call->modem, call->message, call->length));
    fetch(outcome);
}

MEASURED void handle_request(const struct call *call, struct outcome *outcome)
{
    check(melfjits_request(&channel, &call->modem, call->sid, call->minislots));
    fetch(outcome);
}

MEASURED void handle_tick(const struct call *call, struct outcome *outcome)
{
    (void)call;
    for (size_t place = 0; place < operators; place++) {
        check(melfjits_tick(&channel, place));
        check(melfjits_collect(&channel, place));
        fetch(outcome);
    }
}

static void perform(const struct call *call, struct outcome *outcome)
{
    *outcome = (struct outcome){0};
    if (call->kind == 'T')
        handle_tick(call, outcome);
    else if (call->kind == 'Q')
        handle_request(call, outcome);
    else if (call->kind == 'S')
        handle_acknowledgement(call, outcome);
    else
        handle_message(call, outcome);
}

/* Ends the program if the outputs of a call are others than are meant. */
static void judge(const struct call *call, const struct outcome *outcome)
{
    const size_t *found = outcome->of_kind;
    size_t replies = call->kind == 'R', ticked = call->kind == 'T';
    if (found[MELFJITS_REPLY] != replies || found[MELFJITS_SILENT] || found[MELFJITS_FRAME] != ticked * operators || found[MELFJITS_MAP] != ticked
        || outcome->is_refused)
        fail("a call has other outputs than are meant; its kind is", (uint32_t)call->kind);
}

static long long now(void)
{
    struct timespec time;
    clock_gettime(CLOCK_MONOTONIC, &time);
    return time.tv_sec * 1000000000LL + time.tv_nsec;
}

/* What a call took. */
struct cost {
    long long nanoseconds;
    size_t allocations;
};

static void print_costs(const struct call *calls, const struct cost *costs, size_t count)
{
    for (size_t at = 0; at < CLOCK_TRIALS; at++) {
        long long began = now();
        printf("- %lld 0\n", now() - began);
    }
    for (size_t at = 0; at < count; at++)
        printf("%c %lld %zu\n", calls[at].kind, costs[at].nanoseconds, costs[at].allocations);
}

static void measure_times(const struct call *calls, size_t count)
{
    struct outcome outcome;
    struct cost *costs = calloc(count, sizeof *costs);
    if (!costs)
        fail("out of memory", 0);
    for (size_t at = 0; at < count; at++) {
        size_t before = allocations;
        long long began = now();
        perform(&calls[at], &outcome);
        costs[at] = (struct cost){now() - began, allocations - before};
        judge(&calls[at], &outcome);
    }
    print_costs(calls, costs, count);
    free(costs);
}

static long resident_kilobytes(void)
{
    long pages = 0;
    FILE *file = open_file("/proc/self/statm");
    if (fscanf(file, "%*d %ld", &pages) != 1)
        fail("/proc/self/statm", 0);
    fclose(file);
    return pages * (sysconf(_SC_PAGESIZE) / 1024);
}

static void measure_memory(const struct call *calls, size_t count, unsigned long frames, unsigned long every)
{
    struct outcome outcome;
    unsigned long made = 0;
    for (size_t at = 0; made < frames; at = (at + 1) % count) {
        perform(&calls[at], &outcome);
        judge(&calls[at], &outcome);
        if (calls[at].kind == 'T' && ++made % every == 0) {
            printf("%lu %ld\n", made, resident_kilobytes());
            fflush(stdout);
        }
    }
}

int main(int argc, char **argv)
{
    size_t count;
    static struct outcome outcome;
    if (argc != 3 && argc != 5)
        fail("usage: library_calls PLANT LINES [FRAMES EVERY]", 0);
    open_plant(argv[1]);
    struct call *calls = read_calls(argv[2], &count);
    /* (the first frame, by which the operators are counted) */
    for (; melfjits_tick(&channel, operators) == MELFJITS_DONE; operators++)
        check(melfjits_collect(&channel, operators));
    fetch(&outcome);
    if (argc == 3)
        measure_times(calls, count);
    else
        measure_memory(calls, count, strtoul(argv[3], NULL, 10), strtoul(argv[4], NULL, 10));
    free(calls);
    return melfjits_close(&channel) == MELFJITS_DONE ? 0 : 1;
}
