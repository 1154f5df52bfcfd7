/* Tries halivomue_read from C. Usage: read <accepted sample> <refused sample> <number> <record> */

#include "files.h"
#include "halivomue.h"

#include <string.h>

static void expect(const char *what, const uint8_t *bytes, size_t length,
                   uint32_t number, uint32_t record)
{
    struct halivomue_reading reading = halivomue_read(bytes, length);

    if (reading.number == number && reading.record == record) {
        passed++;
        return;
    }
    failed++;
    printf("%s: answer %lu %lu, due %lu %lu\n", what,
           (unsigned long)reading.number, (unsigned long)reading.record,
           (unsigned long)number, (unsigned long)record);
}

/* The file at every remainder of its address by 8. */
static void expect_at_all_addresses(const char *what, const uint8_t *bytes, size_t length,
                                    uint32_t number, uint32_t record)
{
    static uint8_t room[ROOM + 8];
    size_t shift;

    for (shift = 0; shift < 8; shift++) {
        memset(room, 0xff, sizeof room);
        memcpy(room + shift, bytes, length);
        expect(what, room + shift, length, number, record);
    }
}

static void expect_lengths(uint8_t *room)
{
    memset(room, 0, ROOM);
    expect("null pointer", NULL, 0, HALIVOMUE_LIMIT, 0);
    expect("empty file", room, 0, HALIVOMUE_LIMIT, 0);
    expect("33 bytes", room, 33, HALIVOMUE_LENGTH, 0);
    expect("31 bytes", room, 31, HALIVOMUE_LENGTH, 0);
    expect("32 zero bytes", room, 32, HALIVOMUE_RECORD, 0);
    expect("65536 zero bytes", room, 65536, HALIVOMUE_RECORD, 0);
    expect("65568 zero bytes", room, 65568, HALIVOMUE_LENGTH, 0);
}

int main(int count, char **arguments)
{
    static uint8_t room[ROOM];
    size_t length;

    if (count != 5) {
        fprintf(stderr, "usage: read <accepted> <refused> <number> <record>\n");
        return EXIT_FAILURE;
    }
    expect_lengths(room);
    length = load(arguments[1], room);
    expect_at_all_addresses("accepted sample", room, length, HALIVOMUE_ACCEPTED, 0);
    expect("accepted sample less one byte", room, length - 1, HALIVOMUE_LENGTH, 0);
    length = load(arguments[2], room);
    expect_at_all_addresses("refused sample", room, length,
                            (uint32_t)strtoul(arguments[3], NULL, 10),
                            (uint32_t)strtoul(arguments[4], NULL, 10));
    printf("read.c: %d passed, %d failed\n", passed, failed);
    return failed == 0 ? EXIT_SUCCESS : EXIT_FAILURE;
}
