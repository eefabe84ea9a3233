/* Opens examples/plant_p2.toml, sends the first message of an example, and prints the reply. */
#include "melfjits.h"
#include <stdio.h>

int main(int argc, char **argv)
{
    static uint8_t text[65536], bytes[2048];
    static melfjits_grant grants[256];
    const melfjits_modem modem = {{0x02, 0, 0, 0, 0, 0x01}};
    const uint8_t message[] = {0x0F, 0x00, 0x01, 0x18, 0x0A, 0x01, 0x02, 0x00,
                               0x01, 0x06, 0x01, 0x06, 0x0F, 0x01, 0x02};
    melfjits_channel channel = MELFJITS_CLOSED_CHANNEL;
    melfjits_output output;
    FILE *file = fopen(argc > 1 ? argv[1] : "examples/plant_p2.toml", "rb");
    if (!file)
        return 1;
    size_t length = fread(text, 1, sizeof text, file);
    fclose(file);
    if (melfjits_open(&channel, text, length) != MELFJITS_DONE)
        return 2;
    if (melfjits_arrive(&channel, &modem, message, sizeof message) != MELFJITS_DONE)
        return 3;
    while (melfjits_next_output(&channel, &output, bytes, sizeof bytes, grants, 256) == MELFJITS_DONE) {
        for (size_t at = 0; at < output.length; at++)
            printf("%02X", bytes[at]);
        printf("\n");
    }
    return melfjits_close(&channel) == MELFJITS_DONE ? 0 : 4;
}
