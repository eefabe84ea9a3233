/* Performs calls of melfjits.h, and prints their outputs: tools/compare/library_cases says how both
 * look. It is a test of the header, and an example of its use.
 *
 * It allocates nothing itself, and makes a call that runs out of memory once more. So its output is
 * the same whichever allocation fails (tools/run compare/checked_library_calls). The call `change` puts
 * the plant file of the case in force again. */
#include "melfjits.h"

#include <stdio.h>
#include <stdlib.h>
#include <string.h>

enum { MOST_TEXT = 1 << 22, MOST_BYTES = 1 << 16, MOST_GRANTS = 1 << 12, MOST_ROWS = 1 << 10, MOST_LINE = 1 << 16 };

/* Makes a call, and makes it once more if memory runs out. */
#define TWICE(code, call)                                                                          \
    do {                                                                                           \
        code = (call);                                                                             \
        if (code == MELFJITS_NO_MEMORY)                                                            \
            code = (call);                                                                         \
    } while (0)

static const char *const causes[] = {"",        "InboxFull", "Idle",       "Empty",     "NotOurs",
                                     "Short",   "TidInUse",  "UnknownAck", "NoSuchSid", "NotRequesting"};

static melfjits_channel channel = MELFJITS_CLOSED_CHANNEL;
static melfjits_output output;
static uint8_t bytes[MOST_BYTES];
static melfjits_grant grants[MOST_GRANTS];
static uint8_t plant[MOST_TEXT], saved[MOST_TEXT];
static size_t plant_length;

static void print_hexadecimal(const uint8_t *data, size_t length)
{
    for (size_t at = 0; at < length; at++)
        printf("%02X", data[at]);
}

static void print_frame(void)
{
    printf("F %zu %u", output.operator_at, output.frame);
    for (size_t at = 0; at < output.granted; at++)
        printf(" %u/%u/%u/%u", grants[at].sid, grants[at].iuc, grants[at].start, grants[at].length);
    for (size_t at = output.granted; at < output.granted + output.pending; at++)
        printf(" %u/P", grants[at].sid);
    printf("\n");
}

static void print_output(void)
{
    static const uint8_t nobody[6];
    if (output.kind == MELFJITS_FRAME) {
        print_frame();
        return;
    }
    fputs(output.kind == MELFJITS_REPLY ? "R " : output.kind == MELFJITS_SILENT ? "S " : "MAP ", stdout);
    if (output.kind == MELFJITS_MAP)
        printf("%u ", output.frame);
    else if (memcmp(output.modem, nobody, sizeof nobody) != 0)
        print_hexadecimal(output.modem, sizeof output.modem);
    else
        printf("-");
    if (output.kind == MELFJITS_SILENT)
        printf(" %s", causes[output.cause]);
    else if (output.kind == MELFJITS_REPLY)
        printf(" ");
    print_hexadecimal(bytes, output.length);
    printf("\n");
}

static uint32_t fetch(void)
{
    return melfjits_next_output(&channel, &output, bytes, sizeof bytes, grants, MOST_GRANTS);
}

/* Prints the outputs that wait, except for those of an operator whose inbox was empty if the caller
 * looked into it. Returns whether it was empty. */
static bool print_outputs(bool looked)
{
    bool was_empty = false;
    while (fetch() == MELFJITS_DONE) {
        bool says_empty = looked && output.kind == MELFJITS_SILENT && strcmp(causes[output.cause], "Idle") == 0;
        was_empty |= says_empty;
        if (!says_empty)
            print_output();
    }
    return was_empty;
}

/* Handles what was received and not handled: the inbox of one operator has it. */
static uint32_t work(void)
{
    print_outputs(false);
    for (size_t place = 0;; place++) {
        uint32_t code;
        TWICE(code, melfjits_work(&channel, place));
        if (code != MELFJITS_DONE || !print_outputs(true))
            return code;
    }
}

static size_t octets_of(const char *text, uint8_t *octets, size_t size)
{
    size_t count = 0;
    unsigned octet;
    while (count < size && sscanf(text + 2 * count, "%2x", &octet) == 1)
        octets[count++] = (uint8_t)octet;
    return count;
}

static uint32_t arrive(const char *fields)
{
    static char address[MOST_LINE], text[MOST_LINE];
    static uint8_t message[MOST_LINE / 2];
    melfjits_modem modem;
    text[0] = 0;
    sscanf(fields, "%s %s", address, text);
    octets_of(address, modem.bytes, sizeof modem.bytes);
    const size_t length = octets_of(text, message, sizeof message);
    uint32_t code;
    TWICE(code, melfjits_arrive(&channel, &modem, message, length));
    return code == MELFJITS_RECEIVED ? work() : code;
}

static uint32_t request(const char *fields)
{
    static char address[MOST_LINE];
    unsigned sid, minislots;
    melfjits_modem modem;
    sscanf(fields, "%s %u %u", address, &sid, &minislots);
    octets_of(address, modem.bytes, sizeof modem.bytes);
    uint32_t code;
    TWICE(code, melfjits_request(&channel, &modem, (uint16_t)sid, (uint16_t)minislots));
    return code == MELFJITS_RECEIVED ? work() : code;
}

static uint32_t reslice(const char *fields)
{
    static melfjits_slice rows[MOST_ROWS];
    unsigned from, start, length, budget;
    int taken = 0;
    size_t count = 0;
    sscanf(fields, "%u%n", &from, &taken);
    while (count < MOST_ROWS && sscanf(fields += taken, " %u/%u/%u%n", &start, &length, &budget, &taken) == 3)
        rows[count++] = (melfjits_slice){(uint16_t)start, (uint16_t)length, (uint16_t)budget};
    uint32_t code;
    TWICE(code, melfjits_reslice(&channel, from, rows, count));
    return code;
}

/* Saves the channel, and goes on in one that is opened from the snapshot. */
static uint32_t reopen(void)
{
    size_t length;
    uint32_t code;
    TWICE(code, melfjits_save(&channel, saved, sizeof saved, &length));
    if (code != MELFJITS_DONE)
        return code;
    melfjits_close(&channel);
    TWICE(code, melfjits_open_saved(&channel, saved, length));
    return code;
}

static uint32_t perform(const char *line)
{
    char name[16];
    int taken = 0;
    sscanf(line, "%15s%n", name, &taken);
    const char *fields = line + taken;
    const size_t place = strtoul(fields, NULL, 10);
    uint32_t code;
    if (strcmp(name, "arrive") == 0)
        return arrive(fields);
    if (strcmp(name, "request") == 0)
        return request(fields);
    if (strcmp(name, "reslice") == 0)
        return reslice(fields);
    if (strcmp(name, "reopen") == 0)
        return reopen();
    if (strcmp(name, "change") == 0)
        TWICE(code, melfjits_change(&channel, plant, plant_length));
    else if (strcmp(name, "tick") == 0)
        TWICE(code, melfjits_tick(&channel, place));
    else
        TWICE(code, melfjits_collect(&channel, place));
    return code;
}

/* Performs the lines of a case until one is refused, and reads the others. */
static void perform_case(void)
{
    static char line[MOST_LINE];
    size_t at = 0;
    uint32_t code;
    TWICE(code, melfjits_open(&channel, plant, plant_length));
    if (code != MELFJITS_DONE)
        printf("refused %zu %u\n", at, code);
    for (; fgets(line, sizeof line, stdin) && strcmp(line, "end\n") != 0; at++) {
        if (code != MELFJITS_DONE)
            continue;
        code = perform(line);
        if (code != MELFJITS_DONE)
            printf("refused %zu %u\n", at, code);
        print_outputs(false);
    }
    melfjits_close(&channel);
    printf("end\n");
}

int main(void)
{
    static char input[MOST_BYTES], printed[MOST_BYTES];
    setvbuf(stdin, input, _IOFBF, sizeof input);
    setvbuf(stdout, printed, _IOFBF, sizeof printed);
    while (scanf("plant %zu", &plant_length) == 1 && getchar() == '\n' && plant_length <= sizeof plant) {
        if (fread(plant, 1, plant_length, stdin) != plant_length)
            return 1;
        perform_case();
    }
    return 0;
}
