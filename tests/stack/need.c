/* Measures the stack that the functions of halivomue.h use, and holds it to what the header says.
 *
 * Reads files from standard input, each with its length in front in four bytes, the lowest first.
 * Every function is called on each of them, on a stack that was filled with one byte before: what
 * is no longer that byte was used.
 */

#include "halivomue.h"

#include <pthread.h>
#include <stdio.h>
#include <stdlib.h>
#include <string.h>

enum { STACK = 1 << 18, FILL = 0xa5, ROOM = 1 << 17 };

typedef void (*caller)(const uint8_t *bytes, size_t length);

struct task {
    caller call;
    const uint8_t *bytes;
    size_t length;
    uint8_t *stack;
    size_t used;
};

static void call_read(const uint8_t *bytes, size_t length)
{
    (void)halivomue_read(bytes, length);
}

static void call_tidy(const uint8_t *bytes, size_t length)
{
    (void)halivomue_tidy(bytes, length);
}

static void call_shorten(const uint8_t *bytes, size_t length)
{
    static uint8_t out[HALIVOMUE_ROOM];

    (void)halivomue_shorten(bytes, length, out, sizeof out);
}

static void call_provision(const uint8_t *bytes, size_t length)
{
    static uint8_t out[HALIVOMUE_ROOM];

    (void)halivomue_provision(bytes, length, out, sizeof out);
}

static struct halivomue_accounts accounts;

/* The tally is set to this before each call. */
static uint32_t tally;

static void call_shorten_for(const uint8_t *bytes, size_t length)
{
    static uint8_t out[HALIVOMUE_ROOM];

    accounts.words[0] = tally;
    (void)halivomue_shorten_for(&accounts, bytes, length, out, sizeof out);
}

static void call_provision_for(const uint8_t *bytes, size_t length)
{
    static uint8_t out[HALIVOMUE_ROOM];

    accounts.words[0] = tally;
    (void)halivomue_provision_for(&accounts, bytes, length, out, sizeof out);
}

/* All functions that only handle accounts: the header has one number for them. A saved form and the file are loaded. */
static void call_accounts(const uint8_t *bytes, size_t length)
{
    static struct halivomue_accounts part;
    static uint8_t saved[HALIVOMUE_ACCOUNTS_SAVED];

    halivomue_accounts_make(&part);
    halivomue_accounts_save(&part, saved);
    (void)halivomue_accounts_load(&part, saved, sizeof saved);
    (void)halivomue_accounts_load(&part, bytes, length);
    (void)halivomue_accounts_join(&accounts, &part);
    (void)halivomue_tally(&accounts);
}

/* Above this tally a result may have to be written to the stack first. */
enum { FAR = HALIVOMUE_CEILING_CENTS - HALIVOMUE_DEAREST };

static struct {
    const char *name;
    caller call;
    size_t stated;
    uint32_t tally;
    size_t most;
} functions[] = {
    {"halivomue_read", call_read, HALIVOMUE_READ_STACK, 0, 0},
    {"halivomue_tidy", call_tidy, HALIVOMUE_TIDY_STACK, 0, 0},
    {"halivomue_shorten", call_shorten, HALIVOMUE_SHORTEN_STACK, 0, 0},
    {"halivomue_provision", call_provision, HALIVOMUE_PROVISION_STACK, 0, 0},
    {"halivomue_shorten_for, far from the ceiling", call_shorten_for, HALIVOMUE_SHORTEN_STACK, FAR, 0},
    {"halivomue_shorten_for, near it", call_shorten_for, HALIVOMUE_SHORTEN_FOR_STACK, FAR + 1, 0},
    {"halivomue_provision_for, far from the ceiling", call_provision_for, HALIVOMUE_PROVISION_STACK, FAR, 0},
    {"halivomue_provision_for, near it", call_provision_for, HALIVOMUE_PROVISION_FOR_STACK, FAR + 1, 0},
    {"the functions of accounts", call_accounts, HALIVOMUE_ACCOUNTS_STACK, 0, 0},
};

enum { FUNCTIONS = sizeof functions / sizeof functions[0] };

static void *measure(void *argument)
{
    struct task *task = argument;
    uint8_t here;
    uint8_t *lowest = task->stack;

    task->call(task->bytes, task->length);
    while (*lowest == FILL)
        lowest++;
    task->used = (size_t)(&here - lowest);
    return NULL;
}

static size_t used(caller call, const uint8_t *bytes, size_t length)
{
    static uint8_t stack[STACK] __attribute__((aligned(4096)));
    struct task task = {call, bytes, length, stack, 0};
    pthread_attr_t attributes;
    pthread_t thread;

    memset(stack, FILL, sizeof stack);
    if (pthread_attr_init(&attributes) != 0 || pthread_attr_setstack(&attributes, stack, sizeof stack) != 0
        || pthread_create(&thread, &attributes, measure, &task) != 0 || pthread_join(thread, NULL) != 0) {
        fprintf(stderr, "need.c: no thread could be made\n");
        exit(EXIT_FAILURE);
    }
    return task.used;
}

static size_t next_file(uint8_t *bytes, int *more)
{
    uint8_t head[4];
    size_t length;

    *more = fread(head, 1, 4, stdin) == 4;
    if (!*more)
        return 0;
    length = head[0] | (size_t)head[1] << 8 | (size_t)head[2] << 16 | (size_t)head[3] << 24;
    if (length > ROOM || fread(bytes, 1, length, stdin) != length) {
        fprintf(stderr, "need.c: a file is cut short or too long\n");
        exit(EXIT_FAILURE);
    }
    return length;
}

int main(void)
{
    static uint8_t bytes[ROOM];
    size_t length, files = 0, i;
    int more, failed = 0;

    for (length = next_file(bytes, &more); more; length = next_file(bytes, &more)) {
        files++;
        for (i = 0; i < FUNCTIONS; i++) {
            size_t now;

            tally = functions[i].tally;
            now = used(functions[i].call, bytes, length);
            if (now > functions[i].most)
                functions[i].most = now;
        }
    }
    for (i = 0; i < FUNCTIONS; i++) {
        size_t most = functions[i].most, stated = functions[i].stated;

        printf("%s: %lu bytes of stack over %lu files, the header says %lu\n", functions[i].name,
               (unsigned long)most, (unsigned long)files, (unsigned long)stated);
        if (most > stated || stated > 2 * most + 1024) {
            printf("  the header's number is too %s\n", most > stated ? "small" : "large");
            failed = 1;
        }
    }
    return failed || files == 0 ? EXIT_FAILURE : EXIT_SUCCESS;
}
