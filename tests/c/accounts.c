/* Tries the accounts of halivomue.h from C: making, saving, loading and joining them. Their saved form is written
 * down here once more.
 */

#include "halivomue.h"

#include <stdio.h>
#include <stdlib.h>
#include <string.h>

enum { SAVED = HALIVOMUE_ACCOUNTS_SAVED, HALF = SAVED / 2, TALLY_AT = 16, CEILING = HALIVOMUE_CEILING_CENTS };

static int passed;
static int failed;

static void expect(int right, const char *what, unsigned long number)
{
    if (right)
        passed++;
    else {
        failed++;
        if (failed < 20)
            printf("%s: wrong at %lu\n", what, number);
    }
}

/* Another number with each call. */
static uint32_t drawn(void)
{
    static uint64_t state = 1;

    state = state * 6364136223846793005u + 1442695040888963407u;
    return (uint32_t)(state >> 32);
}

static void *allocated(size_t length)
{
    void *bytes = malloc(length);

    if (bytes == NULL) {
        fprintf(stderr, "accounts.c: no memory\n");
        exit(EXIT_FAILURE);
    }
    return bytes;
}

/* Words with any content but this tally. */
static struct halivomue_accounts *with_tally(uint32_t tally)
{
    struct halivomue_accounts *accounts = allocated(sizeof *accounts);
    size_t i;

    for (i = 0; i < HALIVOMUE_ACCOUNTS_WORDS; i++)
        accounts->words[i] = drawn();
    accounts->words[0] = tally;
    return accounts;
}

static int same(const struct halivomue_accounts *a, const struct halivomue_accounts *b)
{
    return memcmp(a, b, sizeof *a) == 0;
}

/* Each byte of the first half subtracted from 255. */
static void complete(uint8_t form[SAVED])
{
    int i;

    for (i = 0; i < HALF; i++)
        form[HALF + i] = (uint8_t)(255 - form[i]);
}

static void form_of(uint32_t tally, uint8_t form[SAVED])
{
    int i;

    memset(form, 0, SAVED);
    memcpy(form, "HALIVACC", 8);
    form[8] = 1;
    for (i = 0; i < 4; i++)
        form[TALLY_AT + i] = (uint8_t)(tally >> 8 * i);
    complete(form);
}

/* Whether bytes are loaded; if not, the accounts must be as before. The bytes are put into memory of their own. */
static int loads(const uint8_t *bytes, size_t length, struct halivomue_accounts *accounts, const char *what,
                 unsigned long number)
{
    struct halivomue_accounts before = *accounts;
    uint8_t *own = length > 0 ? allocated(length) : NULL;
    uint32_t loaded;

    if (length > 0)
        memcpy(own, bytes, length);
    loaded = halivomue_accounts_load(accounts, own, length);
    expect(loaded <= 1, what, number);
    expect(length == 0 || memcmp(own, bytes, length) == 0, what, number);
    if (loaded == 0)
        expect(same(accounts, &before), what, number);
    free(own);
    return loaded == 1;
}

static void refuses(const uint8_t *bytes, size_t length, const char *what, unsigned long number)
{
    struct halivomue_accounts *accounts = with_tally(drawn());

    expect(!loads(bytes, length, accounts, what, number), what, number);
    free(accounts);
}

static void makes(void)
{
    struct halivomue_accounts *accounts = with_tally(drawn()), zeros;

    memset(&zeros, 0, sizeof zeros);
    halivomue_accounts_make(accounts);
    expect(same(accounts, &zeros), "made", 0);
    expect(halivomue_tally(accounts) == 0, "tally of made accounts", 0);
    free(accounts);
}

/* What is saved, for any tally; and it is loaded where the tally isn't above the ceiling. */
static void saves(uint32_t tally)
{
    struct halivomue_accounts *accounts = with_tally(tally), *loaded = with_tally(drawn()), before = *accounts, made;
    uint8_t due[SAVED], *form = allocated(SAVED);
    int right;

    form_of(tally, due);
    expect(halivomue_tally(accounts) == tally, "tally", tally);
    halivomue_accounts_save(accounts, form);
    expect(memcmp(form, due, SAVED) == 0 && same(accounts, &before), "saved form", tally);
    right = loads(form, SAVED, loaded, "load of a saved form", tally);
    expect(right == (tally <= CEILING), "load of a saved form", tally);
    if (right) {
        memset(&made, 0, sizeof made);
        made.words[0] = tally;
        expect(same(loaded, &made), "loaded accounts", tally);
    }
    free(accounts);
    free(loaded);
    free(form);
}

/* Every damage of one byte: to all other values, or to some. */
static void one_byte(uint32_t tally, int all)
{
    uint8_t form[SAVED];
    int at, by;

    form_of(tally, form);
    for (at = 0; at < SAVED; at++) {
        for (by = 1; by < 256; by = all ? by + 1 : 2 * by) {
            form[at] = (uint8_t)(form[at] ^ by);
            refuses(form, SAVED, "one damaged byte", (unsigned long)at);
            form[at] = (uint8_t)(form[at] ^ by);
        }
        form[at] = (uint8_t)~form[at];
        refuses(form, SAVED, "one byte turned over", (unsigned long)at);
        form[at] = (uint8_t)~form[at];
    }
}

/* A byte and its complement altered together: another tally at the tally's place, refused at every other. */
static void two_bytes(uint32_t tally)
{
    uint8_t form[SAVED];
    int at;

    for (at = 0; at < HALF; at++) {
        form_of(tally, form);
        form[at] ^= 1;
        complete(form);
        if (at < TALLY_AT || at > TALLY_AT + 3)
            refuses(form, SAVED, "a byte and its complement", (unsigned long)at);
    }
}

static void every_length(uint32_t tally)
{
    static uint8_t longer[1000];
    size_t length;

    form_of(tally, longer);
    for (length = 0; length <= sizeof longer; length++)
        if (length != SAVED)
            refuses(longer, length, "another length", (unsigned long)length);
}

static void joins(uint32_t tally, uint32_t more)
{
    struct halivomue_accounts *accounts = with_tally(tally), before = *accounts;
    struct halivomue_accounts *part = with_tally(more), part_before = *part;
    uint32_t joined = halivomue_accounts_join(accounts, part), due = (uint64_t)tally + more <= CEILING;

    if (due)
        before.words[0] += more;
    expect(joined == due && same(accounts, &before) && same(part, &part_before), "joined", more);
    free(accounts);
    free(part);
}

int main(void)
{
    static const uint32_t tallies[] = {0, 1, 2, 232, 233, 255, 256, 65535, 65536, 9999765, 9999766, 9999767, 9999998,
                                       9999999, 10000000, 10000001, 16777215, 16777216, 0x7fffffff, 0x80000000,
                                       0xfffffffe, 0xffffffff};
    size_t i, j, count = sizeof tallies / sizeof tallies[0];

    makes();
    for (i = 0; i < count; i++) {
        saves(tallies[i]);
        one_byte(tallies[i], 0);
        two_bytes(tallies[i]);
        for (j = 0; j < count; j++)
            joins(tallies[i], tallies[j]);
    }
    one_byte(0, 1);
    one_byte(CEILING, 1);
    every_length(0);
    every_length(CEILING);
    for (i = 0; i < 200; i++) {
        saves(drawn() % (CEILING + 1));
        saves(drawn());
        joins(drawn() % (CEILING + 1), drawn() % (CEILING + 1));
    }
    for (i = 0; i < 50; i++)
        one_byte(drawn() % (CEILING + 1), 0);
    printf("accounts.c: %d passed, %d failed\n", passed, failed);
    return failed == 0 ? EXIT_SUCCESS : EXIT_FAILURE;
}
