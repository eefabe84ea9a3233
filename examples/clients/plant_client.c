/* Adds a best effort flow for a modem, requests minislots for it, and prints its grants. A client of plant-bridge (docs/BRIDGE.md).
 *
 *     cc -o plant_client plant_client.c
 *     plant_client SOCKET MODEM MINISLOTS
 *
 * SOCKET is the socket of the modem's operator, and MODEM the address. It ends once all minislots are granted, and somebody else has to tick
 * the channel. In a real MAC layer, the modem sends the messages that are made here, and the reply goes to the modem.
 *
 * Exit status: 1 no connection, or it has ended; 2 wrong arguments; 3 the flow or the request is refused. */
#include <stdio.h>
#include <stdlib.h>
#include <string.h>
#include <sys/socket.h>
#include <sys/un.h>
#include <unistd.h>

enum { DSA_RSP = 16, MOST_ANSWER = 65536 };

/* A connection to the bridge. It counts the lines that it writes, as the bridge does. */
struct bridge {
    FILE *answers;
    int file;
    unsigned long lines;
    char answer[MOST_ANSWER];
};

static void fail(int status, const char *what)
{
    fprintf(stderr, "plant_client: %s\n", what);
    exit(status);
}

static void connect_to(struct bridge *bridge, const char *path)
{
    struct sockaddr_un address = {.sun_family = AF_UNIX};
    if (strlen(path) >= sizeof address.sun_path)
        fail(2, "the name of the socket is too long");
    strcpy(address.sun_path, path);
    bridge->file = socket(AF_UNIX, SOCK_STREAM, 0);
    if (bridge->file < 0 || connect(bridge->file, (struct sockaddr *)&address, sizeof address) < 0)
        fail(1, "cannot connect");
    bridge->answers = fdopen(bridge->file, "r");
    if (bridge->answers == NULL)
        fail(1, "out of memory");
}

/* Writes a line with its LF, and returns its number. */
static unsigned long write_line(struct bridge *bridge, const char *line)
{
    for (size_t left = strlen(line); left > 0;) {
        ssize_t count = send(bridge->file, line, left, MSG_NOSIGNAL);
        if (count < 0)
            fail(1, "cannot write to the bridge");
        line += count;
        left -= (size_t)count;
    }
    return ++bridge->lines;
}

/* Reads an answer. Returns the number of its line, or 0 for `-`, and sets the rest. A frame has at most 240 elements, so it is shorter. */
static unsigned long read_answer(struct bridge *bridge, char **rest)
{
    if (fgets(bridge->answer, sizeof bridge->answer, bridge->answers) == NULL)
        fail(1, "the bridge has closed the connection");
    bridge->answer[strcspn(bridge->answer, "\n")] = 0;
    *rest = strchr(bridge->answer, ' ');
    if (*rest == NULL)
        fail(1, "an answer has no number");
    ++*rest;
    return strtoul(bridge->answer, NULL, 10);
}

/* Adds the flow: reference 1, admitted and active, best effort. Acknowledges the response, and returns the SID.
 * A response with code 0 has type, transaction ID, code, 24 14, then 1 2 reference, 2 4 SFID, 3 2 SID (docs/FORMATS.md, Replies). */
static unsigned add_flow(struct bridge *bridge, const char *modem)
{
    char line[128], *rest;
    unsigned transaction = (unsigned)getpid() % 0x8000, type, found, code, sfid, sid;
    snprintf(line, sizeof line, "M %s 0F%04X180A010200010601060F0102\n", modem, transaction);
    unsigned long number = write_line(bridge, line);
    while (read_answer(bridge, &rest) != number)
        continue;
    if (sscanf(rest, "R %*12s %2X%4X%2X180E0102%*4X0204%8X0302%4X", &type, &found, &code, &sfid, &sid) != 5 || type != DSA_RSP || code != 0)
        fail(3, rest);
    snprintf(line, sizeof line, "M %s 11%04X00\n", modem, transaction);
    write_line(bridge, line);
    printf("flow %u has SID %u\n", sfid, sid);
    return sid;
}

/* Requests minislots, and prints the grants until all are granted. */
static void print_grants(struct bridge *bridge, const char *modem, unsigned sid, long minislots)
{
    char line[128], *rest;
    unsigned found, iuc, start, length;
    snprintf(line, sizeof line, "Q %s %u %ld\n", modem, sid, minislots);
    unsigned long number = write_line(bridge, line);
    while (minislots > 0) {
        if (read_answer(bridge, &rest) == number)
            fail(3, rest);
        char *word = strtok(rest, " "), *frame = NULL;
        if (word == NULL || strcmp(word, "F") != 0)
            continue;
        for (int place = 1; (word = strtok(NULL, " ")) != NULL; place++) {
            if (place == 2)
                frame = word;
            if (place < 3 || sscanf(word, "%u/%u/%u/%u", &found, &iuc, &start, &length) != 4 || found != sid)
                continue;
            printf("frame %s: %u minislots from minislot %u on\n", frame, length, start);
            fflush(stdout);
            minislots -= length;
        }
    }
}

int main(int count, char **words)
{
    static struct bridge bridge;
    if (count != 4 || strlen(words[2]) != 12 || atol(words[3]) <= 0)
        fail(2, "usage: plant_client SOCKET MODEM MINISLOTS");
    connect_to(&bridge, words[1]);
    print_grants(&bridge, words[2], add_flow(&bridge, words[2]), atol(words[3]));
    return 0;
}
