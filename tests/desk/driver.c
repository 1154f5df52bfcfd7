/* Carries out calls, one a line on standard input, and answers each but `file` in one line.
 *
 *     file NAME BYTES              keeps bytes under a name: a word without blanks
 *     make                         makes the accounts; they are also made at the start
 *     read FILE, tidy FILE
 *     shorten ROOM FILE            with the accounts
 *     provision ROOM FILE          the same, with whether the file is tidy in front
 *     repeat N CALL                the same call so many times; the last reply
 *     state                        what the accounts' saved form tells
 *     tally                        the tally as the library tells it
 *     save, load FILE, join TALLY  the saved form; a part with this tally
 *     word I VALUE                 sets a word of the accounts by hand
 *
 * A FILE is hexadecimal digits, - (no byte), $NAME or @PATH. Every other line is answered `unknown`: so are the
 * calls that aren't there yet (replay, convert, sums, grant, remove, marks behind make). A result is told by its
 * 64-bit FNV-1a hash. Where a byte outside of it, any byte at a refusal, or a byte of the file has changed, the
 * word `altered` is added.
 */

#include "halivomue.h"

#include <ctype.h>
#include <stdio.h>
#include <stdlib.h>
#include <string.h>

/* The buffer is between guards. Of a longer one nothing more can be used. */
enum { GUARD = 64, MOST = 1 << 17, WORDS = 6 };

struct file {
    char *name;
    uint8_t *bytes;
    size_t length;
};

static struct file *kept;
static size_t files;
static struct halivomue_accounts accounts;
static uint8_t filling[MOST + 2 * GUARD];
static uint8_t buffer[MOST + 2 * GUARD];

static void *allocated(void *before, size_t length)
{
    void *bytes = realloc(before, length + 1);

    if (bytes == NULL) {
        fprintf(stderr, "driver: no memory\n");
        exit(EXIT_FAILURE);
    }
    return bytes;
}

/* Lines and files */

/* The next line without its end, or NULL. It is valid until the next call. */
static char *next_line(void)
{
    static char *line;
    static size_t room;
    size_t length = 0;
    int c;

    while ((c = getchar()) != EOF && c != '\n') {
        if (length + 1 >= room)
            line = allocated(line, room = 2 * room + 4096);
        line[length++] = (char)c;
    }
    if (c == EOF && length == 0)
        return NULL;
    if (line == NULL)
        line = allocated(line, room = 1);
    line[length] = '\0';
    return line;
}

/* Cuts a line at its blanks; how many words there are, at most WORDS + 1. */
static int cut(char *line, char *words[WORDS + 1])
{
    int count = 0;
    char *at = strtok(line, " \t\r");

    for (; at != NULL && count <= WORDS; at = strtok(NULL, " \t\r"))
        words[count++] = at;
    return count;
}

static int number(const char *word, uint64_t *value)
{
    *value = 0;
    if (*word == '\0')
        return 0;
    for (; *word != '\0'; word++) {
        unsigned digit = (unsigned)(*word - '0');

        if (digit > 9 || *value > (UINT64_MAX - digit) / 10)
            return 0;
        *value = 10 * *value + digit;
    }
    return 1;
}

static int read_path(const char *path, struct file *file)
{
    FILE *in = fopen(path, "rb");
    size_t more;

    if (in == NULL)
        return 0;
    do {
        file->bytes = allocated(file->bytes, file->length + 65536);
        more = fread(file->bytes + file->length, 1, 65536, in);
        file->length += more;
    } while (more > 0);
    return fclose(in) == 0;
}

static int digit(char c)
{
    const char *digits = "0123456789abcdef", *at = c == '\0' ? NULL : strchr(digits, tolower((unsigned char)c));

    return at == NULL ? -1 : (int)(at - digits);
}

static int read_digits(const char *text, struct file *file)
{
    size_t i, length = strlen(text);

    file->bytes = allocated(NULL, length / 2);
    file->length = length / 2;
    for (i = 0; i < length / 2; i++) {
        int high = digit(text[2 * i]), low = digit(text[2 * i + 1]);

        if (high < 0 || low < 0)
            return 0;
        file->bytes[i] = (uint8_t)(16 * high + low);
    }
    return length % 2 == 0;
}

/* A file of its own copy, so that a byte read past its end can be noticed. */
static int copied(const struct file *from, struct file *file)
{
    file->bytes = allocated(NULL, from->length);
    if (from->length > 0)
        memcpy(file->bytes, from->bytes, from->length);
    file->length = from->length;
    return 1;
}

static int read_file(const char *word, struct file *file)
{
    size_t i;

    memset(file, 0, sizeof *file);
    if (strcmp(word, "-") == 0)
        return 1;
    if (word[0] == '@')
        return read_path(word + 1, file);
    if (word[0] != '$')
        return read_digits(word, file);
    for (i = files; i > 0; i--)
        if (strcmp(kept[i - 1].name, word + 1) == 0)
            return copied(&kept[i - 1], file);
    return 0;
}

static void keep(const char *name, const char *word)
{
    struct file file;

    if (!read_file(word, &file)) {
        fprintf(stderr, "driver: %s is no file\n", name);
        exit(EXIT_FAILURE);
    }
    file.name = allocated(NULL, strlen(name));
    strcpy(file.name, name);
    kept = allocated(kept, (files + 1) * sizeof *kept);
    kept[files++] = file;
}

/* Calls */

/* A call with its number and its file, and whether a carried-out one has altered what it must not. */
struct call {
    uint64_t number;
    struct file file;
    struct file copy;
    int altered;
};

static uint64_t hash(const uint8_t *bytes, size_t length)
{
    uint64_t h = 0xcbf29ce484222325u;
    size_t i;

    for (i = 0; i < length; i++)
        h = (h ^ bytes[i]) * 0x100000001b3u;
    return h;
}

static void ready(void)
{
    memcpy(buffer, filling, sizeof buffer);
}

/* Looks at all bytes but those of the result. */
static void look(struct call *call, size_t result)
{
    size_t past = GUARD + result;

    if (memcmp(buffer, filling, GUARD) != 0 || memcmp(buffer + past, filling + past, sizeof buffer - past) != 0
        || memcmp(call->file.bytes, call->copy.bytes, call->file.length) != 0)
        call->altered = 1;
}

static size_t room_of(const struct call *call)
{
    return call->number < MOST ? (size_t)call->number : MOST;
}

/* The bytes of a file: none are a null pointer. */
static const uint8_t *bytes_of(const struct call *call)
{
    return call->file.length > 0 ? call->file.bytes : NULL;
}

static void tell_shortened(struct call *call, const struct halivomue_billing *a)
{
    look(call, a->number == 0 ? a->length : 0);
    if (a->number != 0) {
        printf("refused %lu %lu", (unsigned long)a->number, (unsigned long)a->record);
        if (a->length != 0 || a->moved != 0 || a->grown != 0 || a->fresh != 0 || a->rescued != 0 || a->price != 0)
            printf(" with counts");
    } else {
        printf("ok moved %lu grown %lu fresh %lu rescued %lu bytes %lu price %lu %016llx", (unsigned long)a->moved,
               (unsigned long)a->grown, (unsigned long)a->fresh, (unsigned long)a->rescued, (unsigned long)a->length,
               (unsigned long)a->price, (unsigned long long)hash(buffer + GUARD, a->length));
    }
}

static struct halivomue_billing shorten(struct call *call)
{
    ready();
    return halivomue_shorten_for(&accounts, bytes_of(call), call->file.length, buffer + GUARD, room_of(call));
}

static struct halivomue_billed_provisioning provision(struct call *call)
{
    ready();
    return halivomue_provision_for(&accounts, bytes_of(call), call->file.length, buffer + GUARD, room_of(call));
}

static void run_read(struct call *call, uint64_t times)
{
    struct halivomue_reading a = {0, 0};

    for (ready(); times > 0; times--)
        a = halivomue_read(bytes_of(call), call->file.length);
    look(call, 0);
    if (a.number != 0)
        printf("refused %lu %lu", (unsigned long)a.number, (unsigned long)a.record);
    else
        printf("ok");
}

static void run_tidy(struct call *call, uint64_t times)
{
    struct halivomue_tidiness a = {0, 0, 0, 0};

    for (ready(); times > 0; times--)
        a = halivomue_tidy(bytes_of(call), call->file.length);
    look(call, 0);
    if (a.number != 0)
        printf("refused %lu %lu", (unsigned long)a.number, (unsigned long)a.record);
    else if (a.tidy)
        printf("yes");
    else
        printf("no %lu", (unsigned long)a.reg);
}

static void run_shorten(struct call *call, uint64_t times)
{
    struct halivomue_billing a = shorten(call);

    for (; times > 1; times--) {
        look(call, a.number == 0 ? a.length : 0);
        a = shorten(call);
    }
    tell_shortened(call, &a);
}

static void run_provision(struct call *call, uint64_t times)
{
    struct halivomue_billed_provisioning a = provision(call);
    struct halivomue_billing b;

    for (; times > 1; times--) {
        look(call, a.number == 0 ? a.length : 0);
        a = provision(call);
    }
    b.number = a.number;
    b.record = a.record;
    b.length = a.length;
    b.moved = a.moved;
    b.grown = a.grown;
    b.fresh = a.fresh;
    b.rescued = a.rescued;
    b.price = a.price;
    printf("tidy %lu reg %lu ", (unsigned long)a.tidy, (unsigned long)a.reg);
    tell_shortened(call, &b);
}

/* Of the saved form, the tally. */
static void tell_state(void)
{
    uint8_t saved[HALIVOMUE_ACCOUNTS_SAVED];
    uint32_t tally = 0;
    int i;

    halivomue_accounts_save(&accounts, saved);
    for (i = 4; i > 0; i--)
        tally = tally << 8 | saved[15 + i];
    printf("state tallies %lu", (unsigned long)tally);
}

static void tell_saved(void)
{
    uint8_t saved[HALIVOMUE_ACCOUNTS_SAVED];
    int i;

    halivomue_accounts_save(&accounts, saved);
    printf("saved ");
    for (i = 0; i < HALIVOMUE_ACCOUNTS_SAVED; i++)
        printf("%02x", saved[i]);
}

static void run_load(struct call *call)
{
    struct halivomue_accounts before = accounts;
    uint32_t loaded = halivomue_accounts_load(&accounts, bytes_of(call), call->file.length);

    if (!loaded && memcmp(&before, &accounts, sizeof before) != 0)
        call->altered = 1;
    printf(loaded == 1 ? "ok" : loaded == 0 ? "no" : "neither");
}

static void run_join(struct call *call)
{
    struct halivomue_accounts before = accounts, part;
    uint32_t joined;

    halivomue_accounts_make(&part);
    part.words[0] = (uint32_t)call->number;
    joined = halivomue_accounts_join(&accounts, &part);
    if (!joined && memcmp(&before, &accounts, sizeof before) != 0)
        call->altered = 1;
    printf(joined == 1 ? "ok" : joined == 0 ? "no" : "neither");
}

/* A call of one word; was it one? */
static int run_plain(const char *name)
{
    if (strcmp(name, "make") == 0) {
        halivomue_accounts_make(&accounts);
        printf("made");
    } else if (strcmp(name, "state") == 0)
        tell_state();
    else if (strcmp(name, "tally") == 0)
        printf("tally %lu", (unsigned long)halivomue_tally(&accounts));
    else if (strcmp(name, "save") == 0)
        tell_saved();
    else
        return 0;
    return 1;
}

/* The forms of the other calls: does a number come first, and is there a file? */
static const struct form {
    const char *name;
    int numbered;
    int filed;
    void (*run)(struct call *call, uint64_t times);
} forms[] = {
    {"read", 0, 1, run_read},
    {"tidy", 0, 1, run_tidy},
    {"shorten", 1, 1, run_shorten},
    {"provision", 1, 1, run_provision},
};

static int run_form(const struct form *form, uint64_t times, char **words, int count)
{
    struct call call = {0, {NULL, NULL, 0}, {NULL, NULL, 0}, 0};
    int right = count == 1 + form->numbered + form->filed && (!form->numbered || number(words[1], &call.number))
                && (!form->filed || read_file(words[count - 1], &call.file));

    if (right) {
        copied(&call.file, &call.copy);
        form->run(&call, times);
        if (call.altered)
            printf(" altered");
    }
    free(call.file.bytes);
    free(call.copy.bytes);
    return right;
}

static void load_times(struct call *call, uint64_t times)
{
    (void)times;
    run_load(call);
}

static void join_times(struct call *call, uint64_t times)
{
    (void)times;
    run_join(call);
}

static const struct form once[] = {
    {"load", 0, 1, load_times},
    {"join", 1, 0, join_times},
};

static int run_call(uint64_t times, char **words, int count)
{
    size_t i;

    for (i = 0; i < sizeof forms / sizeof forms[0]; i++)
        if (strcmp(words[0], forms[i].name) == 0)
            return run_form(&forms[i], times, words, count);
    return 0;
}

static int set_word(char **words)
{
    uint64_t place, value;

    if (!number(words[1], &place) || !number(words[2], &value) || place >= HALIVOMUE_ACCOUNTS_WORDS
        || value > UINT32_MAX)
        return 0;
    accounts.words[place] = (uint32_t)value;
    printf("ok");
    return 1;
}

/* Answers a line; was it known? */
static int answer(char **words, int count)
{
    uint64_t times;
    size_t i;

    if (count == 1 && run_plain(words[0]))
        return 1;
    if (count == 3 && strcmp(words[0], "word") == 0)
        return set_word(words);
    for (i = 0; i < sizeof once / sizeof once[0]; i++)
        if (count > 0 && strcmp(words[0], once[i].name) == 0)
            return run_form(&once[i], 1, words, count);
    if (count > 2 && strcmp(words[0], "repeat") == 0)
        return number(words[1], &times) && times > 0 && run_call(times, words + 2, count - 2);
    return count > 0 && run_call(1, words, count);
}

int main(void)
{
    char *line, *words[WORDS + 1];
    size_t i;

    for (i = 0; i < sizeof filling; i++)
        filling[i] = (uint8_t)(7 * i + i / 251 + 0x5a);
    halivomue_accounts_make(&accounts);
    while ((line = next_line()) != NULL) {
        int count = cut(line, words);

        if (count == 3 && strcmp(words[0], "file") == 0) {
            keep(words[1], words[2]);
            continue;
        }
        if (!answer(words, count))
            printf("unknown");
        printf("\n");
        fflush(stdout);
    }
    return EXIT_SUCCESS;
}
