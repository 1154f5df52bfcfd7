/* Tries halivomue_tidy from C. Usage: tidy <tidy sample> <untidy sample> <register> <refused sample> */

#include "files.h"
#include "halivomue.h"

#include <string.h>

static void expect(const char *what, const uint8_t *bytes, size_t length,
                   uint32_t number, uint32_t record, uint32_t tidy, uint32_t reg)
{
    struct halivomue_tidiness answer = halivomue_tidy(bytes, length);

    if (answer.number == number && answer.record == record && answer.tidy == tidy
        && answer.reg == reg) {
        passed++;
        return;
    }
    failed++;
    printf("%s: answer %lu %lu %lu %lu, due %lu %lu %lu %lu\n", what,
           (unsigned long)answer.number, (unsigned long)answer.record,
           (unsigned long)answer.tidy, (unsigned long)answer.reg,
           (unsigned long)number, (unsigned long)record,
           (unsigned long)tidy, (unsigned long)reg);
}

/* The file at every remainder of its address by 8. */
static void expect_at_all_addresses(const char *what, const uint8_t *bytes, size_t length,
                                    uint32_t tidy, uint32_t reg)
{
    static uint8_t room[ROOM + 8];
    size_t shift;

    for (shift = 0; shift < 8; shift++) {
        memset(room, 0xff, sizeof room);
        memcpy(room + shift, bytes, length);
        expect(what, room + shift, length, 0, 0, tidy, reg);
    }
}

int main(int count, char **arguments)
{
    static uint8_t room[ROOM];
    size_t length;
    struct halivomue_reading reading;

    if (count != 5) {
        fprintf(stderr, "usage: tidy <tidy> <untidy> <register> <refused>\n");
        return EXIT_FAILURE;
    }
    expect("null pointer", NULL, 0, 3, 0, 0, 0);
    expect("empty file", room, 0, 3, 0, 0, 0);
    expect("33 bytes", room, 33, 1, 0, 0, 0);
    expect("32 zero bytes", room, 32, 2, 0, 0, 0);
    length = load(arguments[1], room);
    expect_at_all_addresses("tidy sample", room, length, 1, 0);
    length = load(arguments[2], room);
    expect_at_all_addresses("untidy sample", room, length, 0,
                            (uint32_t)strtoul(arguments[3], NULL, 10));
    length = load(arguments[4], room);
    reading = halivomue_read(room, length);
    expect("refused sample", room, length, reading.number, reading.record, 0, 0);
    printf("tidy.c: %d passed, %d failed\n", passed, failed);
    return failed == 0 ? EXIT_SUCCESS : EXIT_FAILURE;
}
