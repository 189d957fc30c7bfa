/* Runs two networks at once, and feeds them lines by turns. The first goes back to what it kept, which the other does not see. */
#include "gezmulda.h"

#include <stdio.h>
#include <stdlib.h>
#include <string.h>

static const char average[] = "network 1;\n"
                              "template main(): Int ~> Int = ((iPre 0 &&& identity) >>> arr (before, reading) => ((before + reading) div 2));\n";
static const char share[] = "network 1;\n"
                            "template main(): Int ~> Int = arr n => (100 div n);\n";

static gezmulda_engine made(const char *net) {
    gezmulda_engine engine = {NULL};
    /* A rule with its place is shorter than this. */
    uint8_t why[64];
    size_t given;
    if (gezmulda_make((const uint8_t *)net, strlen(net), false, &engine, why, sizeof why, &given) != GEZMULDA_DONE) {
        fprintf(stderr, "a network is refused: %.*s\n", (int)given, (const char *)why);
        exit(1);
    }
    return engine;
}

/* Shows what waits behind a name. */
static void show(const char *name, gezmulda_engine *engine, size_t waiting) {
    uint8_t *said = malloc(waiting + 1);
    said[gezmulda_take(engine, said, waiting)] = 0;
    printf("%s\n%s", name, (const char *)said);
    free(said);
}

/* Feeds lines, and shows what they give behind a name. Answers the status. */
static uint8_t feed(const char *name, gezmulda_engine *engine, const char *lines) {
    size_t waiting;
    uint8_t status = gezmulda_feed(engine, (const uint8_t *)lines, strlen(lines), &waiting);
    show(name, engine, waiting);
    return status;
}

/* The same of the end of the input, whose last line needs no line feed. */
static uint8_t finish(const char *name, gezmulda_engine *engine) {
    size_t waiting;
    uint8_t status = gezmulda_finish(engine, &waiting);
    show(name, engine, waiting);
    return status;
}

int main(void) {
    gezmulda_engine first = made(average), second = made(share);
    feed("first", &first, "0 10\nsave here\n");
    feed("second", &second, "0 4\n");
    feed("first", &first, "20 30\n");
    feed("second", &second, "10 8\n");
    feed("first", &first, "back here\n20 50");
    uint8_t fault = feed("second", &second, "10 0\n10 4\n");
    feed("second", &second, "10 5\n");
    uint8_t end = finish("first", &first);
    gezmulda_free(&first);
    gezmulda_free(&second);
    return fault == GEZMULDA_FAULT && end == GEZMULDA_DONE ? 0 : 1;
}
