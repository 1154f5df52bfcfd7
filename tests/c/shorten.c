/* Tries halivomue_shorten from C, on the stored answers that stored.py writes to standard input.
 *
 * Every buffer is allocated as long as it is said to be, so that valgrind notices a byte too many, read or written.
 */

#include "halivomue.h"

#include <stdio.h>
#include <stdlib.h>
#include <string.h>

/* A stored answer: a file, and what is due with this room. */
struct stored {
    uint8_t *bytes;
    size_t length;
    size_t room;
    struct halivomue_shortening due;
    uint8_t *output;
};

static int passed;
static int failed;

/* Calls by the number that was due. */
static unsigned long answers[10];

static uint8_t filling(size_t place)
{
    return (uint8_t)(7 * place + place / 251 + 0x5a);
}

static void *allocated(size_t length)
{
    void *bytes = malloc(length);

    if (bytes == NULL) {
        fprintf(stderr, "shorten.c: no memory\n");
        exit(EXIT_FAILURE);
    }
    return bytes;
}

static int same(const struct halivomue_shortening *a, const struct halivomue_shortening *b)
{
    return a->number == b->number && a->record == b->record && a->length == b->length
           && a->moved == b->moved && a->grown == b->grown && a->fresh == b->fresh
           && a->rescued == b->rescued;
}

/* The output, and behind it, or where there is none, what stood there before. */
static int as_due(const uint8_t *out, size_t room, const uint8_t *output, size_t length)
{
    size_t place;

    if (length > 0 && memcmp(out, output, length) != 0)
        return 0;
    for (place = length; place < room; place++)
        if (out[place] != filling(place))
            return 0;
    return 1;
}

static void tell(const char *what, const struct halivomue_shortening *a)
{
    printf(" %s %lu %lu %lu %lu %lu %lu %lu", what, (unsigned long)a->number,
           (unsigned long)a->record, (unsigned long)a->length, (unsigned long)a->moved,
           (unsigned long)a->grown, (unsigned long)a->fresh, (unsigned long)a->rescued);
}

/* One call with this room: none is a null pointer. */
static void expect(const char *what, const struct stored *file, size_t room)
{
    static const struct halivomue_shortening zero;
    struct halivomue_shortening due = file->due, told;
    uint8_t *out = room > 0 ? allocated(room) : NULL;
    size_t place;
    int right;

    if (due.number == HALIVOMUE_ACCEPTED && due.length > room) {
        due = zero;
        due.number = HALIVOMUE_OUTPUT;
    }
    for (place = 0; place < room; place++)
        out[place] = filling(place);
    told = halivomue_shorten(file->bytes, file->length, out, room);
    right = same(&told, &due) && as_due(out, room, file->output, due.length);
    free(out);
    answers[due.number]++;
    if (right) {
        passed++;
        return;
    }
    failed++;
    printf("%s, file of %lu bytes, room %lu:", what, (unsigned long)file->length,
           (unsigned long)room);
    tell("answer", &told);
    tell("due", &due);
    printf(same(&told, &due) ? ", the buffer differs\n" : "\n");
}

/* The file as stored, and with every sort of room. */
static void expect_rooms(const struct stored *file)
{
    size_t length = file->due.length;

    expect("stored room", file, file->room);
    if (file->due.number != HALIVOMUE_ACCEPTED) {
        expect("refused, no room", file, 0);
        return;
    }
    expect("just enough", file, length);
    expect("one byte less", file, length - 1);
    expect("one record less", file, length - 32);
    expect("nothing", file, 0);
    expect("one byte more", file, length + 1);
    expect("room for all", file, HALIVOMUE_ROOM);
}

static uint32_t number(const uint8_t *at)
{
    return at[0] | (uint32_t)at[1] << 8 | (uint32_t)at[2] << 16 | (uint32_t)at[3] << 24;
}

static uint8_t *bytes_of(size_t length)
{
    uint8_t *bytes = length > 0 ? allocated(length) : NULL;

    if (length > 0 && fread(bytes, 1, length, stdin) != length) {
        fprintf(stderr, "shorten.c: an answer is cut short\n");
        exit(EXIT_FAILURE);
    }
    return bytes;
}

static int next(struct stored *file)
{
    uint8_t head[36];

    if (fread(head, 1, sizeof head, stdin) != sizeof head)
        return 0;
    file->length = number(head);
    file->room = number(head + 4);
    file->due.number = number(head + 8);
    file->due.record = number(head + 12);
    file->due.length = number(head + 16);
    file->due.moved = number(head + 20);
    file->due.grown = number(head + 24);
    file->due.fresh = number(head + 28);
    file->due.rescued = number(head + 32);
    file->bytes = bytes_of(file->length);
    file->output = bytes_of(file->due.length);
    return 1;
}

int main(void)
{
    struct stored file;
    int i;

    while (next(&file)) {
        expect_rooms(&file);
        free(file.bytes);
        free(file.output);
    }
    for (i = 0; i < 10; i++) {
        if (answers[i] == 0) {
            printf("no answer %d was due\n", i);
            failed++;
        }
    }
    printf("shorten.c: %d passed, %d failed\n", passed, failed);
    return failed == 0 ? EXIT_SUCCESS : EXIT_FAILURE;
}
