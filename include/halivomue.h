/* Halivomue: checks call procedure files, says whether they are tidy, shortens
 * their branches, and keeps a tally of what the shortened files cost.
 *
 * Linking  `rt lib`, run in crates/halivomue_c, writes out/libhalivomue_c.a
 *          there, for x86-64 Linux, position independent. It needs only the C
 *          library:  cc program.c libhalivomue_c.a
 *          After `make install`, pkg-config finds it:
 *          cc program.c $(pkg-config --cflags --libs halivomue)
 * Memory   nothing is allocated, nothing is kept between calls, and there is no
 *          global state. A function reads only what it is given, only during
 *          the call, and writes only to its own stack, its answer and, where it
 *          takes them, the output buffer and the accounts.
 * Threads  every function may be called from any number of threads at once, even
 *          on the same bytes, as long as nobody changes them meanwhile. Each
 *          concurrent call needs an output buffer of its own. While a function
 *          that changes accounts runs, no other call may use the same ones.
 * Overlap  neither the bytes nor the buffer need any alignment. During the call
 *          no other thread or device may change the bytes, or read or change
 *          the buffer. The bytes and the buffer must not overlap: a file can't
 *          be shortened in place. Nor may accounts overlap with anything else
 *          that a call is given.
 * Stack    HALIVOMUE_READ_STACK, HALIVOMUE_TIDY_STACK and so on are bytes below the
 *          caller's frame that are enough for every file: there is no recursion.
 *          Signal handlers come on top.
 * Errors   there are none: every function returns its answer, on any bytes.
 * Version  HALIVOMUE_VERSION is this header's, halivomue_version() the library's.
 */
#ifndef HALIVOMUE_H
#define HALIVOMUE_H

#include <stddef.h>
#include <stdint.h>

#ifdef __cplusplus
extern "C" {
#endif

/* The version of this header; halivomue_version() returns the library's. */
#define HALIVOMUE_VERSION "0.6"
#define HALIVOMUE_VERSION_MAJOR 0
#define HALIVOMUE_VERSION_MINOR 6

/* Bytes of stack that are enough for a call. tests/stack/run measures them. */
#define HALIVOMUE_READ_STACK 1024
#define HALIVOMUE_TIDY_STACK 8192
#define HALIVOMUE_SHORTEN_STACK 131072
#define HALIVOMUE_PROVISION_STACK 131072

/* The same of the functions with accounts. While the tally is at most
 * HALIVOMUE_CEILING_CENTS - HALIVOMUE_DEAREST, 131072 bytes are enough for
 * halivomue_shorten_for and halivomue_provision_for too; above that, the result is
 * written to the stack first.
 */
#define HALIVOMUE_SHORTEN_FOR_STACK 196608
#define HALIVOMUE_PROVISION_FOR_STACK 196608
#define HALIVOMUE_ACCOUNTS_STACK 2048

/* Bytes: every longer file is refused with HALIVOMUE_LENGTH. */
#define HALIVOMUE_LONGEST 65536

/* Bytes of output buffer that are enough for the shortened form of every file. */
#define HALIVOMUE_ROOM 61728

/* What a tally never passes, and the most that a file can cost, in cents. */
#define HALIVOMUE_CEILING_CENTS 9999999
#define HALIVOMUE_DEAREST 233

/* The words of accounts, and the bytes of their saved form. */
#define HALIVOMUE_ACCOUNTS_WORDS 128
#define HALIVOMUE_ACCOUNTS_SAVED 416

/* Why a file is refused: the first of these that applies, in this order.
 * docs/FORMAT.md describes the file, docs/MENDING.md how to mend one.
 */
enum halivomue_refusal {
    /* the file is accepted */
    HALIVOMUE_ACCEPTED = 0,
    /* the length is not a multiple of 32, or is above 65536 */
    HALIVOMUE_LENGTH = 1,
    /* a record is wrong in itself, or its class is below that of the record
       before it */
    HALIVOMUE_RECORD = 2,
    /* there are more records of a class than its limit, or no block */
    HALIVOMUE_LIMIT = 3,
    /* the blocks do not tile the code */
    HALIVOMUE_TILING = 4,
    /* a block does not end in a terminator, or has one before its end */
    HALIVOMUE_TERMINATOR = 5,
    /* case tables are misnumbered, or one has no default */
    HALIVOMUE_TABLE = 6,
    /* a record names a register, block, table or list that does not exist */
    HALIVOMUE_NAME = 7,
    /* more than 480 registers or 480 instructions, the most that are shortened;
       only from the functions that shorten, with record 0 */
    HALIVOMUE_SHORTENING_LIMIT = 8,
    /* the output buffer is shorter than the shortened form; only from the
       functions that shorten, with record 0 */
    HALIVOMUE_OUTPUT = 9,
    /* the tally would pass HALIVOMUE_CEILING_CENTS; only from halivomue_shorten_for
       and halivomue_provision_for, with record 0 */
    HALIVOMUE_CEILING = 10
};

/* A refusal in words, without its record; the empty string for
 * HALIVOMUE_ACCEPTED, and a null pointer for a number that isn't a refusal.
 */
static inline const char *halivomue_reason(uint32_t number)
{
    switch (number) {
    case HALIVOMUE_ACCEPTED:
        return "";
    case HALIVOMUE_LENGTH:
        return "the file is not a multiple of 32 bytes long, or is longer than 65536";
    case HALIVOMUE_RECORD:
        return "the record is wrong in itself, or its class is below that of the record before";
    case HALIVOMUE_LIMIT:
        return "the file has more records of a class than its limit, or no block";
    case HALIVOMUE_TILING:
        return "the block is empty, starts elsewhere than the one before ends, ends past the code, "
               "or is the last and leaves code over";
    case HALIVOMUE_TERMINATOR:
        return "the block ends without a terminator, or has one before its end";
    case HALIVOMUE_TABLE:
        return "the arm's table is not the one due, or the last default is missing";
    case HALIVOMUE_NAME:
        return "the record names a register, block, table or list that does not exist";
    case HALIVOMUE_SHORTENING_LIMIT:
        return "the file has more than 480 registers or 480 instructions, the most that are shortened";
    case HALIVOMUE_OUTPUT:
        return "the buffer is too short for the shortened form";
    case HALIVOMUE_CEILING:
        return "the tally would pass 9999999 cents";
    default:
        return (const char *)0;
    }
}

/* The version of the library: 65536 times its major number plus its minor one.
 * If this isn't 65536 * HALIVOMUE_VERSION_MAJOR + HALIVOMUE_VERSION_MINOR, the
 * program was compiled with the header of another version.
 */
uint32_t halivomue_version(void);

/* The answer of halivomue_read.
 *
 * number  an enum halivomue_refusal
 * record  the first record that offends, counted from 0 in file order; 0 if
 *         number is 0, 1 or 3. For 4 and 5 it is the block's record (for 4 that
 *         of the last block, if only code is left over); for 6 it is the last
 *         arm's, if only the last default is missing.
 */
struct halivomue_reading {
    uint32_t number;
    uint32_t record;
};

/* Checks a whole file: the `length` bytes at `bytes`.
 *
 * Any bytes and any length are allowed. `bytes` may be a null pointer only if
 * `length` is 0.
 */
struct halivomue_reading halivomue_read(const uint8_t *bytes, size_t length);

/* The answer of halivomue_tidy.
 *
 * number, record  as from halivomue_read; if number is not 0, the file is
 *                 refused and tidy and reg are 0
 * tidy            1 if the procedure is tidy, else 0
 * reg             the lowest register that offends if number and tidy are both
 *                 0, else 0
 *
 * A register can offend only if exactly one register field of all instructions
 * writes it, and that instruction is neither Const nor ConstF. If AddrOf writes
 * it, it offends if it is read earlier in the block that writes it, or in
 * another block from which the targets of Br and CondBr lead to that block over
 * any number of blocks. If another instruction writes it, it offends if it is
 * read anywhere but later in the block that writes it.
 */
struct halivomue_tidiness {
    uint32_t number;
    uint32_t record;
    uint32_t tidy;
    uint32_t reg;
};

/* Says whether a file, given as for halivomue_read, is tidy. */
struct halivomue_tidiness halivomue_tidy(const uint8_t *bytes, size_t length);

/* The answer of halivomue_shorten.
 *
 * number, record  as from halivomue_read, or HALIVOMUE_SHORTENING_LIMIT or
 *                 HALIVOMUE_OUTPUT; if number is not 0, everything else is 0
 * length          the length in bytes of the shortened form, which is at `out`
 * moved           1 if a branch or a test of a length was changed; if it is 0,
 *                 the shortened form is the file, byte for byte
 * grown           instructions that were appended by copying
 * fresh           new registers
 * rescued         constants that were moved to the front of block 0
 */
struct halivomue_shortening {
    uint32_t number;
    uint32_t record;
    size_t length;
    uint32_t moved;
    uint32_t grown;
    uint32_t fresh;
    uint32_t rescued;
};

/* Shortens the branches of a whole file, the `length` bytes at `bytes`, and
 * writes the shortened form to the `room` bytes at `out`.
 *
 * Any bytes, any length and any room are allowed. `bytes` may be a null pointer
 * only if `length` is 0, and `out` only if `room` is 0. If the file is refused,
 * no byte of the buffer is changed; otherwise none past the answer's length is.
 * With HALIVOMUE_ROOM bytes of room the answer is never HALIVOMUE_OUTPUT.
 *
 * This is promised, and proved, for every file and every room: the answer and all
 * bytes of the buffer are those that the definition of Shorten gives
 * (docs/FORMAT.md has it in words), halivomue_read accepts what is written, and a
 * file of n instructions becomes one of at most n + n/2 + 36. If moved is 0, the
 * bytes written are those given.
 * For every file that halivomue_tidy calls tidy, this is promised too: the
 * shortened form's whole run does the original's acts, in order, with their values
 * and statements, within the original's instruction count plus the rescued
 * constants for each entry into block 0; it does no other act; it ends if and only
 * if the original does, and in the same way. Both runs start with the original's
 * single constants loaded (the registers that only one Const, ConstF or AddrOf
 * writes) and meet the same outside; docs/FORMAT.md describes the machine.
 * If a Cmp was rewritten that tested a length against 0, this is promised under two
 * conditions; other files need neither. Each time the shortened form's run stands
 * before such a Cmp, the register that it used to test holds the exact length of
 * the bounds that it now compares, in their direction, 0 if the range is null, and
 * this length is below 2^63. And both runs start with the registers loaded that
 * this step goes by: exactly one field of the code writes such a register once the
 * branches are shortened, and it is a Const's (docs/FORMAT.md).
 */
struct halivomue_shortening halivomue_shorten(const uint8_t *bytes, size_t length,
                                              uint8_t *out, size_t room);

/* The answer of halivomue_provision.
 *
 * tidy, reg         as from halivomue_tidy, also where the file is accepted and not
 *                   shortened
 * everything else   as from halivomue_shorten
 */
struct halivomue_provisioning {
    uint32_t number;
    uint32_t record;
    uint32_t tidy;
    uint32_t reg;
    size_t length;
    uint32_t moved;
    uint32_t grown;
    uint32_t fresh;
    uint32_t rescued;
};

/* Says whether a file is tidy and shortens it: the answer and the bytes written
 * are those of halivomue_tidy and halivomue_shorten on the same bytes and buffer.
 * The file is read only once for both.
 */
struct halivomue_provisioning halivomue_provision(const uint8_t *bytes, size_t length,
                                                  uint8_t *out, size_t room);

/* A shop's accounts: the tally, in cents, of what its shortened files cost.
 *
 * They are the caller's memory, 512 bytes without a pointer, that he may copy and
 * move. halivomue_accounts_make makes them. The words are not for him to read or
 * write; to keep accounts between two starts of a program he stores their saved
 * form. Any words are allowed: no function is undefined on accounts that were never
 * made.
 */
struct halivomue_accounts {
    uint32_t words[HALIVOMUE_ACCOUNTS_WORDS];
};

/* Makes accounts with a tally of 0. */
void halivomue_accounts_make(struct halivomue_accounts *accounts);

/* The tally, in cents. */
uint32_t halivomue_tally(const struct halivomue_accounts *accounts);

/* Writes the saved form of accounts, all HALIVOMUE_ACCOUNTS_SAVED bytes. */
void halivomue_accounts_save(const struct halivomue_accounts *accounts,
                             uint8_t saved[HALIVOMUE_ACCOUNTS_SAVED]);

/* Loads accounts from the `length` bytes of their saved form and returns 1. Bytes
 * that halivomue_accounts_save can't have written of a tally of at most
 * HALIVOMUE_CEILING_CENTS are refused: then the answer is 0, and the accounts are
 * unchanged. One damaged byte, whichever, is always noticed.
 */
uint32_t halivomue_accounts_load(struct halivomue_accounts *accounts, const uint8_t *saved,
                                 size_t length);

/* Adds the tally of a part and returns 1; if it would pass
 * HALIVOMUE_CEILING_CENTS, returns 0 and the accounts are unchanged.
 *
 * This is for work in several processes. A process makes accounts of its own and
 * calls with these; then its part is joined. If that returns 1, the answers that
 * the process had and the tally are those of the same calls on the accounts
 * themselves.
 */
uint32_t halivomue_accounts_join(struct halivomue_accounts *accounts,
                                 const struct halivomue_accounts *part);

/* The answer of halivomue_shorten_for.
 *
 * number, record  as from halivomue_shorten, or HALIVOMUE_CEILING; if number is
 *                 not 0, everything else is 0
 * price           what the file costs, in cents: 40 hundredths of a cent for each
 *                 instruction of the file and 15 for each that was appended
 *                 (grown), rounded to the cent, half up; at most HALIVOMUE_DEAREST
 * everything else as from halivomue_shorten
 */
struct halivomue_billing {
    uint32_t number;
    uint32_t record;
    size_t length;
    uint32_t moved;
    uint32_t grown;
    uint32_t fresh;
    uint32_t rescued;
    uint32_t price;
};

/* Shortens a file as halivomue_shorten does, and adds its price to the tally.
 *
 * A file that no step changes has its price too. A refused file costs nothing: then
 * the accounts and the buffer are unchanged. HALIVOMUE_CEILING is the last refusal:
 * only a file that would otherwise be shortened is refused with it, and exactly
 * where the tally with its price would be above HALIVOMUE_CEILING_CENTS.
 *
 * This is promised, and proved, for every file, every room and any accounts: the
 * answer, all bytes of the buffer and the accounts are those that the definition
 * gives. After any calls since accounts were made, their tally is the sum of the
 * prices of the files that were shortened, each rounded by itself, and never above
 * HALIVOMUE_CEILING_CENTS. Everything that is promised of halivomue_shorten's
 * shortened forms is promised of these.
 */
struct halivomue_billing halivomue_shorten_for(struct halivomue_accounts *accounts,
                                               const uint8_t *bytes, size_t length,
                                               uint8_t *out, size_t room);

/* The answer of halivomue_provision_for.
 *
 * tidy, reg         as from halivomue_tidy, also where the file is accepted and not
 *                   shortened
 * everything else   as from halivomue_shorten_for
 */
struct halivomue_billed_provisioning {
    uint32_t number;
    uint32_t record;
    uint32_t tidy;
    uint32_t reg;
    size_t length;
    uint32_t moved;
    uint32_t grown;
    uint32_t fresh;
    uint32_t rescued;
    uint32_t price;
};

/* Says whether a file is tidy, shortens it and adds its price to the tally: answer,
 * buffer and accounts are those of halivomue_tidy and halivomue_shorten_for. The
 * file is read only once for both.
 */
struct halivomue_billed_provisioning halivomue_provision_for(struct halivomue_accounts *accounts,
                                                             const uint8_t *bytes, size_t length,
                                                             uint8_t *out, size_t room);

#ifdef __cplusplus
}
#endif

#endif
