/* A keypad's loader: shortens a procedure from one buffer into another, without heap or files.
 *
 *     cc -Os -I include -Wl,--gc-sections examples/loader.c crates/halivomue_c/out/libhalivomue_c.a
 *
 * What a loader needs (tests/fleet/sizes measures it):
 *   room   HALIVOMUE_ROOM bytes for the result of any procedure. If the result is known to be small, 32 bytes for each of
 *          its registers, blocks and so on; if that is too little, the answer is HALIVOMUE_OUTPUT and nothing is written
 *   stack  HALIVOMUE_SHORTEN_STACK bytes below the caller's frame; HALIVOMUE_TIDY_STACK if only halivomue_tidy is called
 *   code   58 KB and 4 KB of constants for both functions (53 KB for shorten alone), no writable data; of the C library
 *          only memcpy, memmove, memset and memcmp
 */
#include <halivomue.h>

#include <string.h>
#include <unistd.h>

/* Where a procedure arrives, and where it is to be run from. */
static uint8_t arrived[HALIVOMUE_LONGEST + 1]; /* with one more, a longer procedure is refused */
static uint8_t loaded[HALIVOMUE_ROOM];

enum loading { LOADED, LOADED_AS_SENT, NOT_LOADED, WIRE_FAILED };

/* Makes the procedure ready: shortened if it is tidy, since only then its whole run is promised to be the same; as
 * sent if it isn't tidy, or is too large to be shortened; not at all if it is refused. */
static enum loading load(size_t length, size_t *ready)
{
    struct halivomue_tidiness tidiness = halivomue_tidy(arrived, length);

    *ready = 0;
    if (tidiness.number != HALIVOMUE_ACCEPTED)
        return NOT_LOADED;
    if (tidiness.tidy) {
        struct halivomue_shortening answer = halivomue_shorten(arrived, length, loaded, sizeof loaded);

        if (answer.number == HALIVOMUE_ACCEPTED) {
            *ready = answer.length;
            return LOADED;
        }
    }
    if (length > sizeof loaded)
        return NOT_LOADED;
    memcpy(loaded, arrived, length);
    *ready = length;
    return LOADED_AS_SENT;
}

/* Receives a procedure to its end; is it whole? A wire that fails is not the end of a procedure. */
static int receive(size_t *length)
{
    *length = 0;
    while (*length < sizeof arrived) {
        ssize_t more = read(0, arrived + *length, sizeof arrived - *length);

        if (more <= 0)
            return more == 0;
        *length += (size_t)more;
    }
    return 1;
}

/* Here the keypad's wire is standard input, and what it would run goes to standard output. */
int main(void)
{
    size_t length, ready, sent = 0;
    enum loading how;

    if (!receive(&length))
        return WIRE_FAILED;
    how = load(length, &ready);
    while (sent < ready) {
        ssize_t more = write(1, loaded + sent, ready - sent);

        if (more <= 0)
            return WIRE_FAILED;
        sent += (size_t)more;
    }
    return how;
}
