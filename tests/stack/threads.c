/* Calls the functions of halivomue.h from eight threads at once, on the files of standard input (as
 * need.c reads them), and holds each answer to the one that a call by itself gave before. Each thread has
 * accounts of its own; in every second thread they are near the ceiling. In the end all are joined.
 */

#include "halivomue.h"

#include <pthread.h>
#include <stdio.h>
#include <stdlib.h>
#include <string.h>

enum { THREADS = 8, ROUNDS = 20, MOST = 8192 };

static struct {
    uint8_t *bytes;
    size_t length;
    struct halivomue_reading reading;
    struct halivomue_tidiness tidiness;
    struct halivomue_shortening shortening;
    uint32_t price;
    uint8_t *shortened;
} files[MOST];

static size_t count;

static void *allocated(size_t length)
{
    void *bytes = malloc(length + 1);

    if (bytes == NULL) {
        fprintf(stderr, "threads.c: no memory\n");
        exit(EXIT_FAILURE);
    }
    return bytes;
}

static int shortens_otherwise(size_t i, uint8_t *out)
{
    struct halivomue_shortening a = halivomue_shorten(files[i].bytes, files[i].length, out, HALIVOMUE_ROOM);
    struct halivomue_shortening b = files[i].shortening;

    return a.number != b.number || a.record != b.record || a.length != b.length || a.moved != b.moved
           || a.grown != b.grown || a.fresh != b.fresh || a.rescued != b.rescued
           || memcmp(out, files[i].shortened, a.length) != 0;
}

static int provisions_otherwise(size_t i, uint8_t *out)
{
    struct halivomue_provisioning a = halivomue_provision(files[i].bytes, files[i].length, out, HALIVOMUE_ROOM);
    struct halivomue_shortening b = files[i].shortening;

    return a.number != b.number || a.record != b.record || a.length != b.length || a.moved != b.moved
           || a.grown != b.grown || a.fresh != b.fresh || a.rescued != b.rescued
           || a.tidy != files[i].tidiness.tidy || a.reg != files[i].tidiness.reg
           || memcmp(out, files[i].shortened, a.length) != 0;
}

/* A thread's accounts, and the tally that is due. */
struct shop {
    struct halivomue_accounts accounts;
    uint32_t tally;
};

/* The number due from the shop: 10 where the tally would pass the ceiling. */
static uint32_t number_due(size_t i, const struct shop *shop)
{
    if (files[i].shortening.number != 0)
        return files[i].shortening.number;
    return shop->tally + files[i].price > HALIVOMUE_CEILING_CENTS ? HALIVOMUE_CEILING : 0;
}

static int bills_otherwise(size_t i, uint8_t *out, struct shop *shop)
{
    uint32_t number = number_due(i, shop), price = number == 0 ? files[i].price : 0;
    struct halivomue_billing a
        = halivomue_shorten_for(&shop->accounts, files[i].bytes, files[i].length, out, HALIVOMUE_ROOM);

    shop->tally += price;
    return a.number != number || a.record != files[i].shortening.record || a.price != price
           || a.length != (number == 0 ? files[i].shortening.length : 0)
           || memcmp(out, files[i].shortened, a.length) != 0 || halivomue_tally(&shop->accounts) != shop->tally;
}

static int bills_provisioning_otherwise(size_t i, uint8_t *out, struct shop *shop)
{
    uint32_t number = number_due(i, shop), price = number == 0 ? files[i].price : 0;
    struct halivomue_billed_provisioning a
        = halivomue_provision_for(&shop->accounts, files[i].bytes, files[i].length, out, HALIVOMUE_ROOM);

    shop->tally += price;
    return a.number != number || a.record != files[i].shortening.record || a.price != price
           || a.tidy != files[i].tidiness.tidy || a.reg != files[i].tidiness.reg
           || memcmp(out, files[i].shortened, a.length) != 0 || halivomue_tally(&shop->accounts) != shop->tally;
}

/* The accounts as they are taken up again from their saved form. */
static int saves_otherwise(struct shop *shop)
{
    uint8_t saved[HALIVOMUE_ACCOUNTS_SAVED];

    halivomue_accounts_save(&shop->accounts, saved);
    memset(&shop->accounts, 0xff, sizeof shop->accounts);
    return !halivomue_accounts_load(&shop->accounts, saved, sizeof saved)
           || halivomue_tally(&shop->accounts) != shop->tally;
}

static int differs(size_t i, uint8_t *out, struct shop *shop)
{
    struct halivomue_reading r = halivomue_read(files[i].bytes, files[i].length);
    struct halivomue_tidiness t = halivomue_tidy(files[i].bytes, files[i].length);

    return r.number != files[i].reading.number || r.record != files[i].reading.record
           || t.number != files[i].tidiness.number || t.record != files[i].tidiness.record
           || t.tidy != files[i].tidiness.tidy || t.reg != files[i].tidiness.reg || shortens_otherwise(i, out)
           || provisions_otherwise(i, out) || bills_otherwise(i, out, shop)
           || bills_provisioning_otherwise(i, out, shop) || saves_otherwise(shop);
}

struct task {
    size_t start;
    size_t different;
    struct shop shop;
};

/* Each thread starts at another file, so that different files are in work at once, and has its own output. */
static void *work(void *argument)
{
    struct task *task = argument;
    uint8_t *out = allocated(HALIVOMUE_ROOM);
    size_t i;

    for (i = 0; i < ROUNDS * count; i++)
        task->different += (size_t)differs((task->start + i) % count, out, &task->shop);
    free(out);
    return NULL;
}

static void load(void)
{
    static uint8_t out[HALIVOMUE_ROOM];
    struct halivomue_accounts accounts;
    uint8_t head[4];

    while (count < MOST && fread(head, 1, 4, stdin) == 4) {
        size_t length = head[0] | (size_t)head[1] << 8 | (size_t)head[2] << 16 | (size_t)head[3] << 24;
        uint8_t *bytes = allocated(length);

        if (fread(bytes, 1, length, stdin) != length) {
            fprintf(stderr, "threads.c: a file is cut short\n");
            exit(EXIT_FAILURE);
        }
        files[count].bytes = bytes;
        files[count].length = length;
        halivomue_accounts_make(&accounts);
        files[count].price = halivomue_shorten_for(&accounts, bytes, length, out, sizeof out).price;
        files[count].reading = halivomue_read(bytes, length);
        files[count].tidiness = halivomue_tidy(bytes, length);
        files[count].shortening = halivomue_shorten(bytes, length, out, sizeof out);
        files[count].shortened = allocated(files[count].shortening.length);
        memcpy(files[count].shortened, out, files[count].shortening.length);
        count++;
    }
}

/* Where a thread begins: every second one near the ceiling, which it meets. */
static void begin(struct task *task, size_t i)
{
    task->start = i * count / THREADS;
    task->different = 0;
    task->shop.tally = i % 2 == 0 ? 0 : HALIVOMUE_CEILING_CENTS - 500;
    halivomue_accounts_make(&task->shop.accounts);
    task->shop.accounts.words[0] = task->shop.tally;
}

/* The parts of the threads that didn't begin near the ceiling, joined: is the sum not that of their tallies? */
static size_t joined(struct task tasks[THREADS])
{
    struct halivomue_accounts all;
    uint32_t sum = 0;
    size_t i;

    halivomue_accounts_make(&all);
    for (i = 0; i < THREADS; i += 2) {
        if (!halivomue_accounts_join(&all, &tasks[i].shop.accounts))
            return 1;
        sum += tasks[i].shop.tally;
    }
    return halivomue_tally(&all) != sum || halivomue_tally(&tasks[1].shop.accounts) != HALIVOMUE_CEILING_CENTS;
}

int main(void)
{
    static struct task tasks[THREADS];
    pthread_t threads[THREADS];
    size_t sum = 0, i;

    load();
    for (i = 0; i < THREADS; i++) {
        begin(&tasks[i], i);
        if (pthread_create(&threads[i], NULL, work, &tasks[i]) != 0)
            return EXIT_FAILURE;
    }
    for (i = 0; i < THREADS; i++) {
        if (pthread_join(threads[i], NULL) != 0)
            return EXIT_FAILURE;
        sum += tasks[i].different;
    }
    sum += joined(tasks);
    printf("threads.c: %d threads over %lu files, %lu answers differ\n", THREADS, (unsigned long)count,
           (unsigned long)sum);
    return sum == 0 && count > 0 ? EXIT_SUCCESS : EXIT_FAILURE;
}
