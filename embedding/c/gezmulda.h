/* Plays networks by the static library of crates/gezmulda_c. */
#ifndef GEZMULDA_H
#define GEZMULDA_H

#include <stdbool.h>
#include <stddef.h>
#include <stdint.h>

/* How a run ended: the statuses of sfplay. */
enum {
    GEZMULDA_DONE = 0,     /* all lines were played, or those that were fed so far */
    GEZMULDA_FAULT = 3,    /* a sample had a fault, which the last line names */
    GEZMULDA_BAD_LINE = 4, /* a line was refused, which the last line names */
    GEZMULDA_REFUSED = 5,  /* the network was refused, and nothing was played */
    GEZMULDA_NO_ROOM = 6   /* memory ran out for what is given */
};

/*
 * Plays the lines of an input through the network that a text is, which calls no stored functions. It writes as much of what
 * that gives as the room takes, and says in `given` how many bytes it gives. The answer is how the run ended.
 *
 * No pointer is null, also where its length is 0. What `out` and `given` point to is apart from all else that is handed in.
 * Memory comes from malloc, and all of it is given back. Nothing is kept between calls, so threads may call it side by side.
 */
uint8_t gezmulda_play(const uint8_t *net, size_t net_length, const uint8_t *input, size_t input_length, bool probes, uint8_t *out,
                      size_t room, size_t *given);

/*
 * Whether a text is a network that is accepted without stored functions: GEZMULDA_DONE, or GEZMULDA_REFUSED. What it is refused
 * for, as `C5 BarePre 2:31`, is written as far as the room takes it, and `given` says how many bytes that has. All else as above.
 */
uint8_t gezmulda_check(const uint8_t *net, size_t net_length, uint8_t *out, size_t room, size_t *given);

/*
 * A run that is kept between calls: a handle. Before `gezmulda_make` and after `gezmulda_free` it holds nothing, as `{ NULL }`; between
 * them it holds a run, and what lies behind its pointer is the library's alone. It is not copied, since a copy would be a second owner
 * of the same run. It may be moved. Each handle stays on the thread that made it; other threads may have handles of their own.
 */
typedef struct gezmulda_engine {
    void *held;
} gezmulda_engine;

/*
 * Puts a run of the network that a text is into a handle that holds nothing: GEZMULDA_DONE; or GEZMULDA_REFUSED where the text is
 * refused or memory runs out, and the handle holds nothing still. It says what probes read where `probes` is true. What the text is
 * refused for is written as by `gezmulda_check`, or `Memory`.
 */
uint8_t gezmulda_make(const uint8_t *net, size_t net_length, bool probes, gezmulda_engine *engine, uint8_t *out, size_t room, size_t *given);

/*
 * Feeds a piece of its input to the run in a handle. What that gives is kept in the handle until it is taken, and `waiting` says how
 * many bytes that are. A line is played once its line feed is there; `save NAME` and `back NAME` are lines too. The answer is
 * GEZMULDA_DONE while the run goes on; or GEZMULDA_FAULT or GEZMULDA_BAD_LINE once it has ended, and then nothing changes it any more.
 */
uint8_t gezmulda_feed(gezmulda_engine *engine, const uint8_t *piece, size_t piece_length, size_t *waiting);

/*
 * Ends the input of the run in a handle: what was fed behind the last line feed is its last line. What that gives is kept until it is
 * taken, and `waiting` says how many bytes wait. The answer is how the run ended, and nothing changes it any more.
 */
uint8_t gezmulda_finish(gezmulda_engine *engine, size_t *waiting);

/* Takes what waits in a handle: as much as the room takes is written there, and no longer waits. Answers how many bytes that are. */
size_t gezmulda_take(gezmulda_engine *engine, uint8_t *room, size_t room_length);

/* Lets the run in a handle go, and gives back all its memory. The handle holds nothing then. */
void gezmulda_free(gezmulda_engine *engine);

#endif
