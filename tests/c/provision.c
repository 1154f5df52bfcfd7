/* Holds halivomue_provision to halivomue_read, halivomue_tidy and halivomue_shorten, on files from standard input.
 *
 * Of each file the length and the room stand in front, in four bytes each, the lowest first. Every buffer is allocated as
 * long as it is said to be, so that valgrind notices a byte too many, read or written.
 */

#include "halivomue.h"

#include <stdio.h>
#include <stdlib.h>
#include <string.h>

static int passed;
static int failed;

/* Calls by the number answered: of tidy files, and of others. */
static unsigned long answers[2][10];

static uint8_t filling(size_t place)
{
    return (uint8_t)(7 * place + place / 251 + 0x5a);
}

/* Bytes as the file has them, or filled; none are a null pointer. */
static uint8_t *bytes_of(size_t length, int filled)
{
    uint8_t *bytes = length > 0 ? malloc(length) : NULL;
    size_t place;

    if (length > 0 && bytes == NULL) {
        fprintf(stderr, "provision.c: no memory\n");
        exit(EXIT_FAILURE);
    }
    if (filled) {
        for (place = 0; place < length; place++)
            bytes[place] = filling(place);
    } else if (length > 0 && fread(bytes, 1, length, stdin) != length) {
        fprintf(stderr, "provision.c: a file is cut short\n");
        exit(EXIT_FAILURE);
    }
    return bytes;
}

static int same(const struct halivomue_provisioning *a, const struct halivomue_tidiness *t,
                const struct halivomue_shortening *s)
{
    return a->number == s->number && a->record == s->record && a->tidy == t->tidy && a->reg == t->reg
           && a->length == s->length && a->moved == s->moved && a->grown == s->grown
           && a->fresh == s->fresh && a->rescued == s->rescued;
}

/* Read's refusal is the answer's, unless that is one of Shorten's own. */
static int read_so(const struct halivomue_provisioning *a, const struct halivomue_reading *r)
{
    if (a->number == HALIVOMUE_SHORTENING_LIMIT || a->number == HALIVOMUE_OUTPUT)
        return r->number == 0 && r->record == 0 && a->record == 0;
    return r->number == a->number && r->record == a->record;
}

/* All bytes past what is written, which is nothing where the file is refused. */
static int left(const uint8_t *out, size_t room, const struct halivomue_provisioning *a)
{
    size_t place;

    for (place = a->number == 0 ? a->length : 0; place < room; place++)
        if (out[place] != filling(place))
            return 0;
    return 1;
}

static void try(const uint8_t *bytes, size_t length, size_t room)
{
    uint8_t *out = bytes_of(room, 1), *due = bytes_of(room, 1);
    struct halivomue_provisioning answer = halivomue_provision(bytes, length, out, room);
    struct halivomue_tidiness tidiness = halivomue_tidy(bytes, length);
    struct halivomue_shortening shortening = halivomue_shorten(bytes, length, due, room);
    struct halivomue_reading reading = halivomue_read(bytes, length);
    int right = same(&answer, &tidiness, &shortening) && read_so(&answer, &reading)
                && (room == 0 || memcmp(out, due, room) == 0) && left(out, room, &answer);

    if (right)
        passed++;
    else {
        failed++;
        printf("file of %lu bytes, room %lu: answer %lu %lu %lu %lu %lu, due %lu %lu %lu %lu %lu\n",
               (unsigned long)length, (unsigned long)room, (unsigned long)answer.number,
               (unsigned long)answer.record, (unsigned long)answer.tidy, (unsigned long)answer.reg,
               (unsigned long)answer.length, (unsigned long)shortening.number,
               (unsigned long)shortening.record, (unsigned long)tidiness.tidy,
               (unsigned long)tidiness.reg, (unsigned long)shortening.length);
    }
    answers[tidiness.tidy][shortening.number]++;
    free(out);
    free(due);
}

static int next(size_t *length, size_t *room)
{
    uint8_t head[8];

    if (fread(head, 1, sizeof head, stdin) != sizeof head)
        return 0;
    *length = head[0] | (size_t)head[1] << 8 | (size_t)head[2] << 16 | (size_t)head[3] << 24;
    *room = head[4] | (size_t)head[5] << 8 | (size_t)head[6] << 16 | (size_t)head[7] << 24;
    return 1;
}

/* Read's refusals have no tidy file; of 8 either will do. */
static int met(int number)
{
    unsigned long tidy = answers[1][number], other = answers[0][number];

    if (number == HALIVOMUE_SHORTENING_LIMIT)
        return tidy + other > 0;
    return other > 0 && (tidy > 0 || (number > 0 && number < 8));
}

int main(void)
{
    size_t length, room;
    int i;

    while (next(&length, &room)) {
        uint8_t *bytes = bytes_of(length, 0);

        try(bytes, length, room);
        free(bytes);
    }
    for (i = 0; i < 10; i++) {
        if (!met(i)) {
            printf("no answer %d was due, of a tidy file or of another\n", i);
            failed++;
        }
    }
    printf("provision.c: %d passed, %d failed\n", passed, failed);
    return failed == 0 ? EXIT_SUCCESS : EXIT_FAILURE;
}
