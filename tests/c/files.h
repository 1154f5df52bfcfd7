/* What the C programs of the tests share: their counts, and a file of bytes. */

#ifndef HALIVOMUE_TESTS_FILES_H
#define HALIVOMUE_TESTS_FILES_H

#include <stdint.h>
#include <stdio.h>
#include <stdlib.h>

enum { ROOM = 70000 };

static int passed;
static int failed;

static size_t load(const char *path, uint8_t *room)
{
    FILE *file = fopen(path, "rb");
    size_t length;

    if (file == NULL) {
        fprintf(stderr, "%s can't be opened\n", path);
        exit(EXIT_FAILURE);
    }
    length = fread(room, 1, ROOM, file);
    fclose(file);
    return length;
}

#endif
