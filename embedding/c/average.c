/* Plays the average of each number and the one before it, in a room of the size that the first call asks for. */
#include "gezmulda.h"

#include <stdio.h>
#include <stdlib.h>
#include <string.h>

static const char net[] = "network 1;\n"
                          "template main(): Int ~> Int = ((iPre 0 &&& identity) >>> arr (before, reading) => ((before + reading) div 2));\n";
static const char input[] = "0 10\n20 20\n20 30\n";

static uint8_t play(uint8_t *out, size_t room, size_t *given) {
    return gezmulda_play((const uint8_t *)net, strlen(net), (const uint8_t *)input, strlen(input), false, out, room, given);
}

int main(void) {
    uint8_t none;
    size_t given;
    play(&none, 0, &given);
    uint8_t *out = malloc(given);
    uint8_t status = play(out, given, &given);
    fwrite(out, 1, given, stdout);
    free(out);
    return status;
}
