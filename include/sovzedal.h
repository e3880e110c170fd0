/* Sovzedal: rule sheets decoded, type-checked and run, with or without their checks; the smallest faulty piece of one that is refused; the type and needs
 * of a single term; why a sheet needs a privilege, and whether it names one; the lean form of a sheet; a block of registers for a controller that has
 * sheets run; four lines on which jobs wait to be run in turn; records of what runs decide, a unit's held against the office's; and runs over ranges, of
 * numbers that are known within limits.
 *
 * For x86-64. Link libsovzedal.a (README.md, "Embed it", has the command that writes it). Of the C library it needs memcpy and memset alone: no heap,
 * no system call, no global state, so that calls on buffers of their own may be made from several threads. A run recurses: SOVZEDAL_STACK bytes of
 * native stack are enough for any call, and a run that may have fewer calls open needs less (see there); what does not run uses far less.
 *
 * What the proof assumes of a C caller, for every function here:
 *   - each pointer is valid for as many elements as the length after it says, and is aligned for its type; with a length of 0 nothing is read or
 *     written through it, and it may be null;
 *   - no buffer that a function writes (`answer`, `cells`, `posts`, `frames`, `block`, `lines`, `chain`, `lean`, `record`) overlaps another
 *     argument, and nobody else writes to any of them or to `sheet`, `pairs`, `start`, `store`, `unit` and `office` until the call returns;
 *   - no length exceeds PTRDIFF_MAX bytes.
 * Under these each function does exactly what is said here, on any contents.
 *
 * Every function returns
 *   SOVZEDAL_OK       0  the sheet is readable, or accepted, or the run ended; or the register was read or written; or the job was added; or the
 *                        privilege is explained, or not needed; or the lean sheet is written; or it is told whether the sheet names the privilege;
 *                        or the smallest faulty piece of a refused sheet is told, or that there is none; or a term's type and needs are told; or two
 *                        records were compared;
 *   SOVZEDAL_STOPPED  1  the run was stopped, for one of the causes 17 to 22, or 36 over ranges;
 *   SOVZEDAL_REFUSED  2  refused, for one of the causes 1 to 16, 24 to 35 and 37, or 23 for an address: every buffer but `answer` is as it was (but
 *                        `lines` has given up a job that was served);
 *   SOVZEDAL_SHORT    3  `answer` or `chain` has fewer entries than are written, `block` is not of 16 bytes or `lines` not of 102 numbers, or `unit`
 *                        or `office` is longer than SOVZEDAL_MAX_RECORD bytes: nothing was done and nothing written anywhere;
 *   SOVZEDAL_IDLE     4  no line has a job: nothing was done, and every buffer but `answer` is as it was;
 * and writes exactly the first 8 entries of `answer`, sovzedal_lines_serve, sovzedal_record_eager and sovzedal_record_lazy the first 9:
 *
 *   entry   decode, readable   typecheck, accepted   explain, erase   run, ended or stopped    block, accessed     refused   name, SOVZEDAL_AT_..
 *   0       0                  0                     0                0, or the stop's cause   0                   cause     CAUSE
 *   1       0                  0                     0                0, or the stop's term    0                   place     PLACE
 *   2       0                  root's type           0 ****           type of an end's value   interrupt, 0 or 1   0 *       TYPE, INTERRUPT, NAMED
 *   3       terms              terms                 length **        an end's value           byte read, or 0     0         VALUE, TERMS, LENGTH, TERM
 *   4       principals         0                     0                calls made               0                   0         CALLS, PRINCIPALS
 *   5       types              0                     0                cells made               0                   0         CELLS, TYPES
 *   6       0                  0                     0                posts made               0                   0         POSTS
 *   7       0                  needs                 0                results held             0                   0         NEEDS, HELD
 *   8                                                                 the line served ***                          line ***  LINE
 *
 *   *   with 23, as in the column before: whether the interrupt is raised after the access, 0 or 1.
 *   **  of the chain, in terms, or of the lean sheet, in bytes.
 *   *** written by sovzedal_lines_serve alone, also of a job that is refused. All entries are zero of a job added, and all nine with SOVZEDAL_IDLE.
 *   **** by sovzedal_names 1 if the sheet names the privilege, and then entry 3 is the lowest term that does; else 0 in both.
 *   Entry 8 of a run that records is how many entries were recorded (RECORDED), 0 of a refused one; the first 8 are those of the run without a record.
 *   Of a smallest faulty piece entry 2 is the number of its fault, entry 3 the term, entry 4 how many terms there are in it, entry 5 where its record begins
 *   in the sheet and entry 6 how many bytes that has (FAULT, TERM, COUNT, OFFSET, BYTES); the others are zero, and all are where there is no piece.
 *   Of a term entry 2 is its type, entry 3 the principal that it stands under and entry 7 its needs (TYPE, PRINCIPAL, NEEDS); the others are zero.
 *   Of two records that were compared entry 2 tells whether they fit, 1 or 0, and entry 3 a number of entries (FITS, ENTRIES); the others are zero.
 *   Of a run over ranges the value of entry 3 is a range, as in its list of posts, or 0, 1 or SOVZEDAL_UNDECIDED of a boolean; entry 7 is zero.
 *
 * Types: 0 is the boolean, 1 the number. Needs are a set of privileges: bit k, worth 2^k, stands for privilege k. docs/REFUSALS.md explains the causes.
 * An entry of a list of posts is channel * 65,536 + number: the lowest 16 bits are the number, and the others the channel, 0 to 15. A sheet of format 1
 * posts on channel 0 alone, so that its entries are its numbers. Only a run over ranges has other entries: lowest * 65,536 + highest.
 * A held result is a sum whose exact result is above 65,535, which gives 65,535, or a difference whose exact result is below 0, which gives 0. One that
 * just reaches the limit is not held. A run has at most 4,195,328 of them. A run over ranges does not count them.
 * How a run went that a write to a block asked for is told by the block's registers and not here: that write returns SOVZEDAL_OK. No register tells the
 * held results.
 */
#ifndef SOVZEDAL_H
#define SOVZEDAL_H

#include <stddef.h>
#include <stdint.h>

#ifdef __cplusplus
extern "C" {
#endif

/* The version of this interface, and the latest format that it reads: sheets of format 1 are read, too. Before version 2 of the interface, lists of posts
 * had entries of 16 bits; before 2.2, entry 7 of a run's answer was zero. */
#define SOVZEDAL_VERSION_MAJOR 2
#define SOVZEDAL_VERSION_MINOR 7
#define SOVZEDAL_FORMAT 2

/* What a function returns. */
enum {
    SOVZEDAL_OK = 0,
    SOVZEDAL_STOPPED = 1,
    SOVZEDAL_REFUSED = 2,
    SOVZEDAL_SHORT = 3,
    SOVZEDAL_IDLE = 4            /* sovzedal_lines_serve alone */
};

/* Where each part of an answer stands. */
enum {
    SOVZEDAL_AT_CAUSE = 0,
    SOVZEDAL_AT_PLACE = 1,
    SOVZEDAL_AT_TYPE = 2,        /* of the root, or of an end's value: SOVZEDAL_BOOLEAN or SOVZEDAL_NUMBER; of a term, any type of the sheet */
    SOVZEDAL_AT_INTERRUPT = 2,   /* of a block: 1 if its interrupt is raised after the access, else 0 */
    SOVZEDAL_AT_NAMED = 2,       /* 1 if a privilege is named, else 0 */
    SOVZEDAL_AT_FITS = 2,        /* of two records: 1 if the unit's entries occur in the office's, else 0 */
    SOVZEDAL_AT_FAULT = 2,       /* of a smallest faulty piece: the number of its fault, 9 to 12 or 24 to 26; 0 if there is no piece */
    SOVZEDAL_AT_VALUE = 3,       /* of a run that ended, or of a register that was read */
    SOVZEDAL_AT_TERMS = 3,       /* of a readable or accepted sheet */
    SOVZEDAL_AT_LENGTH = 3,      /* of a chain, in terms, 0 if the privilege is not needed; of a lean sheet, in bytes */
    SOVZEDAL_AT_TERM = 3,        /* the lowest term that names a privilege, 0 if none does; or that of a smallest faulty piece */
    SOVZEDAL_AT_PRINCIPAL = 3,   /* that a term stands under, 0 of the root */
    SOVZEDAL_AT_ENTRIES = 3,     /* of two records: how many are missing, or the first entry up to which they do not occur */
    SOVZEDAL_AT_CALLS = 4,       /* of a run */
    SOVZEDAL_AT_PRINCIPALS = 4,  /* of a readable sheet */
    SOVZEDAL_AT_COUNT = 4,       /* of a smallest faulty piece: how many terms there are in it, itself counted; 0 if there is no piece */
    SOVZEDAL_AT_CELLS = 5,       /* of a run */
    SOVZEDAL_AT_TYPES = 5,       /* of a readable sheet */
    SOVZEDAL_AT_OFFSET = 5,      /* of a smallest faulty piece: where its record begins in the sheet, in bytes; 0 if there is no piece */
    SOVZEDAL_AT_POSTS = 6,       /* of a run */
    SOVZEDAL_AT_BYTES = 6,       /* of a smallest faulty piece: how many bytes its record has: 8, or 0 if there is no piece */
    SOVZEDAL_AT_NEEDS = 7,       /* of an accepted sheet, or of a term */
    SOVZEDAL_AT_HELD = 7,        /* of a run: its sums and differences that were held at a limit */
    SOVZEDAL_AT_LINE = 8,        /* of a job that was served */
    SOVZEDAL_AT_RECORDED = 8     /* of a run that records: how many entries */
};

enum {
    SOVZEDAL_BOOLEAN = 0,
    SOVZEDAL_NUMBER = 1
};

/* A boolean is 0, no, or 1, yes; of a run over ranges it may also be neither. */
enum {
    SOVZEDAL_UNDECIDED = 2
};

/* The causes, by the headings of docs/REFUSALS.md. 1 to 8 and 31 are told of a sheet that is not readable, 9 to 13 and 24 to 26 of one that the rules
 * refuse, 14 to 16 of a request to run one; 17 to 22 are stops; 23 is told of an address that a block does not have, 27 to 29 of a job that no line
 * takes, and 28 also of one whose turn comes when its part is no longer in the store; 30 is told of a privilege above 31; 32 is told of a sheet that has
 * no lean form, and 33 of a buffer that is too short for it; 34 is told of a record that is none; 35 is told of the pairs of a run over ranges, and 36
 * is a stop of such a run; 37 is told of a number that no term has. */
enum {
    SOVZEDAL_CUT_SHORT = 1,
    SOVZEDAL_WRONG_TAG = 2,
    SOVZEDAL_VERSION = 3,
    SOVZEDAL_LENGTH = 4,
    SOVZEDAL_TYPE_RECORD = 5,
    SOVZEDAL_TERM_RECORD = 6,
    SOVZEDAL_PLACE = 7,
    SOVZEDAL_NESTING = 8,
    SOVZEDAL_VARIABLE = 9,
    SOVZEDAL_TYPE = 10,
    SOVZEDAL_SIGN_NEEDS = 11,
    SOVZEDAL_BODY_NEEDS = 12,
    SOVZEDAL_ROOT_TYPE = 13,
    SOVZEDAL_START_STACK = 14,
    SOVZEDAL_BUFFERS = 15,
    SOVZEDAL_ALLOWANCE = 16,
    SOVZEDAL_REFUSED_CHECK = 17,
    SOVZEDAL_STUCK = 18,
    SOVZEDAL_OPEN_CALLS = 19,
    SOVZEDAL_CALLS_SPENT = 20,
    SOVZEDAL_NO_CELL = 21,
    SOVZEDAL_NO_POST = 22,
    SOVZEDAL_ADDRESS = 23,
    SOVZEDAL_NOT_A_FUNCTION = 24,
    SOVZEDAL_ARGUMENT = 25,
    SOVZEDAL_BRANCHES = 26,
    SOVZEDAL_NO_LINE = 27,
    SOVZEDAL_OUTSIDE = 28,
    SOVZEDAL_QUEUE_FULL = 29,
    SOVZEDAL_PRIVILEGE = 30,
    SOVZEDAL_GUARD = 31,
    SOVZEDAL_NO_LEAN_FORM = 32,
    SOVZEDAL_NO_ROOM = 33,
    SOVZEDAL_RECORD = 34,
    SOVZEDAL_RANGES = 35,
    SOVZEDAL_UNDECIDED_CONDITION = 36,
    SOVZEDAL_NO_TERM = 37
};

enum {
    SOVZEDAL_ANSWER = 8,         /* entries that are written of `answer`, but by the functions of the next two */
    SOVZEDAL_LINES_ANSWER = 9,   /* entries that sovzedal_lines_serve writes of `answer` */
    SOVZEDAL_RECORD_ANSWER = 9,  /* entries that sovzedal_record_eager and sovzedal_record_lazy write of `answer` */
    SOVZEDAL_MAX_SHEET = 10913,  /* bytes of the longest readable sheet */
    SOVZEDAL_MAX_START = 32,     /* numbers of the largest start stack: 16 frames */
    SOVZEDAL_MAX_CALLS = 4096,   /* the largest allowance of calls */
    SOVZEDAL_MAX_DEPTH = 100,    /* the largest allowance of open calls */
    SOVZEDAL_MAX_CELLS = 65536,  /* bytes of the largest cell store */
    SOVZEDAL_MAX_POSTS = 256,    /* entries of the largest post list */
    SOVZEDAL_CHANNELS = 16,      /* channels that a sheet can post on */
    SOVZEDAL_FRAMES = 6496,      /* numbers of a lazy run's frame store, exactly */
    SOVZEDAL_BLOCK = 16,         /* bytes of a register block, exactly */
    SOVZEDAL_LINES = 102,        /* numbers of the lines' state, exactly */
    SOVZEDAL_CHAIN = 32,         /* entries that are written of `chain` */
    SOVZEDAL_ENTRY = 4,          /* bytes of an entry of a record */
    SOVZEDAL_MAX_DECISIONS = 4195328  /* no run decides more: 4,097 * 1,024 */
};

/* Bytes of the longest record that is compared. */
#define SOVZEDAL_MAX_RECORD 4294967295u

/* The registers of a block, by their addresses. CALLS, VALUE, CALLS_MADE and PLACE are pairs: here stands the highest byte, and the lowest follows.
 * Addresses 12 to 15 have no register and read as zero. */
enum {
    SOVZEDAL_REG_COMMAND = 0,     /* SOVZEDAL_COMMAND_RUN runs the sheet; reads as zero */
    SOVZEDAL_REG_STATUS = 1,      /* SOVZEDAL_STATUS_..; a write clears the bits that it has as one */
    SOVZEDAL_REG_CAUSE = 2,       /* of a stop or a refusal */
    SOVZEDAL_REG_MASK = 3,        /* the interrupt is raised while mask and status share a bit */
    SOVZEDAL_REG_CALLS = 4,       /* how many calls a run may make, at most 4,096 */
    SOVZEDAL_REG_VALUE = 6,       /* of an end; a boolean is 0 or 1 */
    SOVZEDAL_REG_CALLS_MADE = 8,  /* by a run that ended or was stopped */
    SOVZEDAL_REG_PLACE = 10       /* the term of a stop, the place of a refusal */
};

/* The one command that there is. */
enum {
    SOVZEDAL_COMMAND_RUN = 1
};

/* The bits of the status register. A run sets one of them and clears the other two. */
enum {
    SOVZEDAL_STATUS_ENDED = 1,
    SOVZEDAL_STATUS_STOPPED = 2,
    SOVZEDAL_STATUS_REFUSED = 4
};

/* Native stack, in bytes, on x86-64. A run with `depth` open calls needs at most SOVZEDAL_STACK_BASE + depth * SOVZEDAL_STACK_PER_CALL, so a caller
 * with a small stack picks `depth` by it; SOVZEDAL_STACK is enough for any call. reference/stack measures what runs use and is held to these. */
enum {
    SOVZEDAL_STACK_BASE = 45056,
    SOVZEDAL_STACK_PER_CALL = 3584,
    SOVZEDAL_STACK = 403456
};

/* The heading of a cause in docs/REFUSALS.md; "none" for 0 and "unknown" for a number that is no cause. */
static inline const char *sovzedal_cause_text(uint32_t cause)
{
    static const char *const texts[] = {
        "none",
        "cut short", "wrong tag", "version", "length",
        "type record", "term record", "place", "nesting",
        "variable", "type", "needs of a sign", "needs of a body", "type of the root",
        "start stack", "buffers", "allowance",
        "refused check", "stuck",
        "open calls", "calls spent", "no cell", "no place for a post",
        "address",
        "not a function", "argument", "branches",
        "no such line", "outside the store", "queue full",
        "no such privilege",
        "guard",
        "no lean form", "no room",
        "record",
        "ranges", "undecided condition",
        "no such term"
    };
    return cause < sizeof texts / sizeof texts[0] ? texts[cause] : "unknown";
}

/* The channel and the number of an entry of a list of posts. */
static inline uint32_t sovzedal_post_channel(uint32_t entry)
{
    return entry >> 16;
}

static inline uint32_t sovzedal_post_number(uint32_t entry)
{
    return entry & 0xFFFF;
}

/* The lowest and the highest number of a range, as a run over ranges has it in its answer and in its list of posts. */
static inline uint32_t sovzedal_lowest(uint32_t range)
{
    return range >> 16;
}

static inline uint32_t sovzedal_highest(uint32_t range)
{
    return range & 0xFFFF;
}

/* Whether any bytes are a readable sheet.
 *   sheet, sheet_len    the sheet and its length in bytes; only read
 *   answer, answer_len  the list for the answer and its length in entries
 * Refusals: 1 to 8, then 31, of a sheet of format 2 and with the channel as the place. */
uint32_t sovzedal_decode(const uint8_t *sheet, size_t sheet_len,
                         uint32_t *answer, size_t answer_len);

/* Whether the rules accept a sheet, with its type and the least needs.
 *   sheet, sheet_len    the sheet and its length in bytes; only read
 *   answer, answer_len  the list for the answer and its length in entries
 * Refusals: 1 to 8, then 31, then 9 to 13 and 24 to 26. */
uint32_t sovzedal_typecheck(const uint8_t *sheet, size_t sheet_len,
                            uint32_t *answer, size_t answer_len);

/* The smallest faulty piece of a sheet that the rules refuse by 9 to 12 or 24 to 26: the least to look at. Each term is considered where it stands, in the
 * bindings and under the principal that it has in the sheet, whatever is faulty elsewhere. The variables around it have the types that are declared for
 * them, and the principal is that of the nearest sign around it. Of the terms that the rules refuse there, the piece is the one with the fewest terms in it,
 * itself counted, and of those with as few the one with the lowest number. It is refused for a fault of its own: each child of it is accepted where it stands.
 *   sheet, sheet_len    the sheet and its length in bytes; only read
 *   answer, answer_len  the list for the answer and its length in entries. Entry SOVZEDAL_AT_FAULT tells why the piece is refused where it stands, 9 to 12
 *                       or 24 to 26, entry SOVZEDAL_AT_TERM its term and entry SOVZEDAL_AT_COUNT how many terms there are in it. Its record is bytes of
 *                       `sheet`: entry SOVZEDAL_AT_OFFSET tells where it begins and entry SOVZEDAL_AT_BYTES how many there are, which is 8. All entries
 *                       are zero if there is no piece, which is so exactly if sovzedal_typecheck accepts the sheet or refuses it by 13. Zero is a term's
 *                       number, too, so go by the fault or the count
 * sovzedal_typecheck tells the first fault that it meets and stops there. The piece may be another, behind that one, and then has fewer terms, or as many
 * and a lower number. Other faults may be behind the piece, too: mend it and ask again.
 * Refusals: 1 to 8, then 31, as of sovzedal_decode. */
uint32_t sovzedal_piece(const uint8_t *sheet, size_t sheet_len,
                        uint32_t *answer, size_t answer_len);

/* The type and the least needs of one term of a sheet, accepted or not, where it stands: in the bindings and under the principal that it has in the sheet,
 * whatever is faulty elsewhere, as of sovzedal_piece. Of an accepted sheet every term has them, and those of the root are what sovzedal_typecheck tells.
 *   sheet, sheet_len    the sheet and its length in bytes; only read
 *   term                the term's number, from 0; the root is the last
 *   answer, answer_len  the list for the answer and its length in entries. Entry SOVZEDAL_AT_TYPE is the term's type, by its number in the sheet's table,
 *                       entry SOVZEDAL_AT_NEEDS its needs and entry SOVZEDAL_AT_PRINCIPAL the principal of the nearest sign around it. There is none
 *                       around the root, and 0 is told
 * Each call decodes the sheet, looks for the term from the root on and judges it with all that is in it.
 * Refusals, in this order: 1 to 8, then 31, as of sovzedal_decode; 37, of a number past the last term, with the place 0; 9 to 12 and 24 to 26 of a term that
 * the rules refuse where it stands, with the place of the first fault in it, which is the term or one in it. 13 is not told: the root may be of any type. */
uint32_t sovzedal_term(const uint8_t *sheet, size_t sheet_len,
                       uint32_t term,
                       uint32_t *answer, size_t answer_len);

/* Why an accepted sheet needs a privilege: a chain of terms from the root, each a child of the one before and with the privilege among its own needs,
 * down to the cause. That is a check of the privilege, a post on a channel that it guards, or a call or letrec whose latent set holds it: the set of the
 * type of what is called, or of the letrec's own type. The chain ends at the first cause on its way. Where several children have the need, it goes on
 * with the first of them in the order of the term's parts; the yes-branch of a test of the privilege is passed over, since the test takes the privilege
 * out of that branch's needs.
 *   sheet, sheet_len    the sheet and its length in bytes; only read
 *   privilege           the privilege, 0 to 31
 *   chain, chain_len    the list for the chain and its length in entries, at least 32. After SOVZEDAL_OK the first 32 entries are the numbers of
 *                       the chain's terms, from the root on, and then zeros, and the others are as they were. Zero is a term's number, too, so go
 *                       by the length that the answer tells
 *   answer, answer_len  the list for the answer and its length in entries; it tells the chain's length, which is 0 exactly if the privilege is not
 *                       among the needs that sovzedal_typecheck tells
 * Other causes may be behind the one that is told: mend that and ask again.
 * Refusals, in this order: 1 to 8, 31, 9 to 13 and 24 to 26, as of sovzedal_typecheck; 30, of a privilege above 31, with the place 0. `chain` is as it was. */
uint32_t sovzedal_explain(const uint8_t *sheet, size_t sheet_len,
                          uint32_t privilege,
                          uint16_t *chain, size_t chain_len,
                          uint32_t *answer, size_t answer_len);

/* Writes the lean form of an accepted sheet that is of format 1 and has no test: the sheet without its checks and enables, and with every latent set
 * empty. A term around a check or an enable has what is inside it for a child instead. Types whose records become equal are merged into the first of
 * them. Types and terms keep their order and are numbered anew without gaps, so that a term's new number is its old one less the checks and enables
 * before it. Principals stay as they are. The lean sheet is of format 1; sovzedal_typecheck accepts it, with the type of the old sheet and no needs.
 *   sheet, sheet_len    the sheet and its length in bytes; only read
 *   lean, lean_len      the buffer for the lean sheet and its length in bytes; as many as the sheet has are always enough. After SOVZEDAL_OK its first
 *                       bytes are the lean sheet, and the others are as they were
 *   answer, answer_len  the list for the answer and its length in entries; it tells the lean sheet's length
 * Let a start stack grant what the old sheet needs. From there both sheets run alike, by either runner, checks enforced or skipped: with the same
 * allowances and lengths of buffers they end in the same value or stop for the same cause, with the same posts and counts, and a stop of the lean sheet
 * tells the new number of the old one's term. From another stack they need not: the old sheet may be stopped by 17 where the lean one, which has no checks
 * left, goes on. So see to the old needs before the lean sheet is run in its place.
 * Refusals, in this order: 1 to 8, 31, 9 to 13 and 24 to 26, as of sovzedal_typecheck; 32, of a sheet of format 2 or with a test, whether a run comes to it or
 * not; 33, of a buffer that is shorter than the lean sheet. The place of 32 and 33 is 0, and by each of these `lean` is as it was. */
uint32_t sovzedal_erase(const uint8_t *sheet, size_t sheet_len,
                        uint8_t *lean, size_t lean_len,
                        uint32_t *answer, size_t answer_len);

/* Whether a readable sheet, accepted or not, names a privilege: in a check, in a test, or as the guard of a channel that a post is on. Every term of the
 * table counts, whether a run comes to it or not. An enable does not name its privilege; nor does a set of privileges, a principal's or a latent one, or
 * the guard of a channel on which nothing is posted.
 *   sheet, sheet_len    the sheet and its length in bytes; only read
 *   privilege           the privilege, 0 to 31
 *   answer, answer_len  the list for the answer and its length in entries; it tells whether the privilege is named, and the lowest term that names it,
 *                       which is never term 0
 * A privilege that is not named plays no part. Let two start stacks grant the same but for this privilege, which each of them may grant or not, as a stack
 * and the same without the privilege in any frame do. Runs with checks enforced that are not refused, each by either runner, with the same allowances and
 * lengths of buffers, come from both to the same end, or to the same stop at the same term, with the same posts and counts. Of a privilege that is named
 * nothing is said: runs may be alike all the same.
 * Refusals, in this order: 1 to 8, then 31, as of sovzedal_decode; 30, of a privilege above 31, with the place 0. */
uint32_t sovzedal_names(const uint8_t *sheet, size_t sheet_len,
                        uint32_t privilege,
                        uint32_t *answer, size_t answer_len);

/* Runs a readable sheet, accepted or not, holding the set of granted privileges.
 *   sheet, sheet_len    the sheet and its length in bytes; only read
 *   start, start_len    the start stack, innermost frame first, each frame two numbers: a principal and its set of enabled privileges; start_len
 *                       counts numbers, not frames; only read
 *   calls               how many calls may be made, at most 4,096
 *   depth               how many calls may be open at a time, at most 100
 *   enforce             0 skips the checks and the guards of posts; anything else enforces them
 *   cells, cells_len    the cell store and its length in bytes, at most 65,536; a cell takes eight. It may hold anything; after a run that was not
 *                       refused all of it is zero
 *   posts, posts_len    the list for posts and its length in entries, at most 256. After a run that was not refused its first entries are the posts
 *                       made, in order, each as channel * 65,536 + number, and the others are as they were
 *   answer, answer_len  the list for the answer and its length in entries
 * Refusals, in this order: 1 to 8, 31, 14, 15, 16. Stops: 17 to 22. */
uint32_t sovzedal_run_eager(const uint8_t *sheet, size_t sheet_len,
                            const uint32_t *start, size_t start_len,
                            uint32_t calls, uint32_t depth, uint32_t enforce,
                            uint8_t *cells, size_t cells_len,
                            uint32_t *posts, size_t posts_len,
                            uint32_t *answer, size_t answer_len);

/* The same, walking the frames of a store. It gives the same answer.
 *   frames, frames_len  the frame store and its length in numbers, exactly 6,496. It may hold anything; after a run that was not refused all of it is
 *                       zero
 * and the others as for sovzedal_run_eager. */
uint32_t sovzedal_run_lazy(const uint8_t *sheet, size_t sheet_len,
                           const uint32_t *start, size_t start_len,
                           uint32_t calls, uint32_t depth, uint32_t enforce,
                           uint8_t *cells, size_t cells_len,
                           uint32_t *posts, size_t posts_len,
                           uint32_t *frames, size_t frames_len,
                           uint32_t *answer, size_t answer_len);

/* A run of sovzedal_run_eager for numbers that are known within limits alone, of a sheet of format 1: each number term has a range, lowest and highest, in
 * place of the number that is written there. A sum or difference has the range from the least to the greatest of its results, held ones too, over all
 * numbers of its two ranges. Less is yes if every number of the left range is below every one of the right, no if none is below any, and else undecided.
 * Undecided is a value: it can be bound, passed, returned and ended in. An if whose condition is undecided stops the run by 36, also where both branches
 * would give the same. The arguments are those of sovzedal_run_eager, and
 *   pairs, pairs_len    for each number term of the sheet, in term order, lowest and highest; pairs_len counts numbers, not pairs; only read
 *   posts, posts_len    the list for posts, as of sovzedal_run_eager, but that each post is lowest * 65,536 + highest
 *   answer, answer_len  the list for the answer and its length in entries. It is as of sovzedal_run_eager, but that the value of an end in a number is
 *                       lowest * 65,536 + highest, and that of an end in a boolean 0, 1 or SOVZEDAL_UNDECIDED. Held results are not counted
 * Unless this run is refused or stopped by 36, it tells the limits of all plain runs. Choose a number within its range for each number term, write it into
 * the sheet in place of what stands there, and run that sheet by sovzedal_run_eager from the same start stack, with checks enforced in both or skipped in
 * both, with the same allowances and lengths of buffers. It ends in a value within this answer, or is stopped for the same cause at the same term, with as
 * many posts, each within its range, and the same calls and cells. A term keeps its number for the whole run, and this run does not go by that: a bound
 * number minus itself has the range from 0 on. So the limits told need not be reached.
 * Refusals, in this order: 1 to 8, 31, 14, 15, 16; then 35, of another number of pairs than there are number terms, half a pair among it, of a lowest above
 * its highest, also of a term that no run comes to, and of a sheet of format 2. The place of 35 is 0. Stops: 17 to 22, and 36 at the if, after 18 of a
 * condition that is no boolean. */
uint32_t sovzedal_run_ranges(const uint8_t *sheet, size_t sheet_len,
                             const uint16_t *pairs, size_t pairs_len,
                             const uint32_t *start, size_t start_len,
                             uint32_t calls, uint32_t depth, uint32_t enforce,
                             uint8_t *cells, size_t cells_len,
                             uint32_t *posts, size_t posts_len,
                             uint32_t *answer, size_t answer_len);

/* A run of sovzedal_run_eager that also records each check, test and guard that it decides, in the order met. An entry has SOVZEDAL_ENTRY bytes: the
 * term, its highest byte first, the privilege, and 1 for yes or 0 for no. A check is decided before its inner term and a guard when the post's number is
 * worked out; one that is refused is recorded as no, and then the run is stopped by 17. With checks skipped, checks and guards decide nothing and are not
 * recorded; tests are. The arguments are those of sovzedal_run_eager, and
 *   record, record_len  the record and its length in bytes, any. Its first bytes are the entries, as many as the answer tells; the others are as they
 *                       were, a part of an entry at its end among them. A full record takes no more, and the run goes on
 *   answer, answer_len  the list for the answer and its length in entries, at least 9. The first 8 are those of sovzedal_run_eager, and entry
 *                       SOVZEDAL_AT_RECORDED tells how many entries the record has
 * For one sheet, start stack, allowances and lengths of `cells` and `posts`, with checks enforced in both or skipped in both, two runs of either runner
 * that are not refused decide the same: with equal lengths of `record` the entries are equal, and else those of the shorter are a beginning of the
 * others. A record that has room for another entry has all of them, and SOVZEDAL_MAX_DECISIONS entries are room for any run.
 * Refusals: as of sovzedal_run_eager. `record` is as it was, and no entry is told. */
uint32_t sovzedal_record_eager(const uint8_t *sheet, size_t sheet_len,
                               const uint32_t *start, size_t start_len,
                               uint32_t calls, uint32_t depth, uint32_t enforce,
                               uint8_t *cells, size_t cells_len,
                               uint32_t *posts, size_t posts_len,
                               uint8_t *record, size_t record_len,
                               uint32_t *answer, size_t answer_len);

/* A run of sovzedal_run_lazy with a record, as sovzedal_record_eager is one of sovzedal_run_eager. */
uint32_t sovzedal_record_lazy(const uint8_t *sheet, size_t sheet_len,
                              const uint32_t *start, size_t start_len,
                              uint32_t calls, uint32_t depth, uint32_t enforce,
                              uint8_t *cells, size_t cells_len,
                              uint32_t *posts, size_t posts_len,
                              uint32_t *frames, size_t frames_len,
                              uint8_t *record, size_t record_len,
                              uint32_t *answer, size_t answer_len);

/* Holds a unit's record of what its run decided against the office's complete record of the same run: whether the unit's entries occur in the office's in
 * that order. Others may stand between them, since a unit may drop entries. The entries are those of sovzedal_record_eager.
 *   unit, unit_len      the unit's record and its length in bytes, at most 4,294,967,295; only read
 *   office, office_len  the office's record and its length in bytes, at most 4,294,967,295; only read
 *   answer, answer_len  the list for the answer and its length in entries. Entry SOVZEDAL_AT_FITS is 1 if they occur, and entry SOVZEDAL_AT_ENTRIES then
 *                       tells how many of the office's entries the unit lacks; else it is 0, and that entry tells the number, counted from 0, of the
 *                       unit's first entry up to which its entries do not occur
 * Refusal: 34, of either record with a part of an entry or with a byte above 1 for yes or no; the place is 0. */
uint32_t sovzedal_compare(const uint8_t *unit, size_t unit_len,
                          const uint8_t *office, size_t office_len,
                          uint32_t *answer, size_t answer_len);

/* Reads a register of a block. A new block is SOVZEDAL_BLOCK bytes, all zero; only sovzedal_block_write is to change it, but both functions take any
 * bytes. Reading changes nothing.
 *   block, block_len    the block and its length in bytes, exactly 16; only read
 *   address             the register's address, 0 to 15
 *   answer, answer_len  the list for the answer and its length in entries; it tells the byte and whether the interrupt is raised
 * Refusals: 23, of an address above 15. */
uint32_t sovzedal_block_read(const uint8_t *block, size_t block_len,
                             uint32_t address,
                             uint32_t *answer, size_t answer_len);

/* Writes a register of a block.
 *   block, block_len    the block and its length in bytes, exactly 16
 *   address             the register's address, 0 to 15
 *   value               the byte to write. At COMMAND, 1 runs the sheet and any other value changes nothing; at STATUS the bits that are one are
 *                       cleared; at MASK and in both bytes of CALLS the value is kept; at any other address nothing changes
 *   sheet, sheet_len    the loaded sheet and its length in bytes; only read
 *   cells, cells_len    the cell store and its length in bytes, for a run exactly 65,536
 *   posts, posts_len    the list for posts and its length in entries, for a run exactly 256
 *   answer, answer_len  the list for the answer and its length in entries; it tells whether the interrupt is raised after the write
 * Sheet and buffers are looked at only by a run. That is one of sovzedal_run_eager on the empty start stack, with the calls that CALLS allows, 100 open
 * calls and the checks enforced, and it leaves the buffers as that does. It sets one bit of STATUS and clears the other two of the three, makes COMMAND
 * zero and puts its answer into CAUSE, VALUE, CALLS_MADE and PLACE: zero in each that has no meaning in that answer. STATUS_REFUSED comes with one of
 * the causes 1 to 8, 31, 15 (a buffer of another length) and 16 (more than 4,096 calls), found in this order, and leaves the buffers as they were.
 * Refusals: 23, of an address above 15; block and buffers are as they were. */
uint32_t sovzedal_block_write(uint8_t *block, size_t block_len,
                              uint32_t address, uint8_t value,
                              const uint8_t *sheet, size_t sheet_len,
                              uint8_t *cells, size_t cells_len,
                              uint32_t *posts, size_t posts_len,
                              uint32_t *answer, size_t answer_len);

/* Four lines share the unit: 0 to 3, each with a queue of up to eight jobs. A job is a part of a lent store of sheets, by offset and length, with an
 * allowance of calls. The state of the lines is SOVZEDAL_LINES numbers of 64 bits, at first all zero; only the two functions below are to change it:
 *   0            the line whose turn it is
 *   1            the place in the list of posts where the last job stopped
 *   2 to 5       how many jobs wait on lines 0 to 3
 *   6 to 101     24 numbers for each line, three for each of eight jobs, the oldest first: offset, length, calls. Job k of line n is at 6 + 24n + 3k
 * Both functions take any numbers, and read the turn modulo 4, a count above 8 as 8 and calls above 4,294,967,295 as that. Where they write a state, they
 * write all of it: the turn is below 4, and zero stands where no job waits. Nothing moves the place back: to begin a list anew, begin with a new state
 * once no job waits. */

/* Adds a job to a line, behind those that wait there.
 *   lines, lines_len    the state of the lines and its length in numbers, exactly 102
 *   line                the line, 0 to 3
 *   offset, length      the part of the store that is the job's sheet, in bytes. It is looked at when the job is served, and not before
 *   calls               how many calls its run may make. More than 4,096 are taken here, and refused by 16 when the job is served
 *   store, store_len    the store of sheets and its length in bytes; of it only the length is looked at
 *   answer, answer_len  the list for the answer and its length in entries
 * Refusals, in this order: 27, of a line above 3; 28, of a part that is not all inside the store (an empty one may stand at its very end); 29, of a
 * ninth job. The place is 0, and `lines` is as it was. */
uint32_t sovzedal_lines_add(uint64_t *lines, size_t lines_len,
                            uint32_t line, size_t offset, size_t length, uint32_t calls,
                            const uint8_t *store, size_t store_len,
                            uint32_t *answer, size_t answer_len);

/* Serves one job: the oldest of the line whose turn it is or, where none waits there, of the next line that has one. Then it is the turn of the line
 * after that one, and 0 comes after 3. So a job with j jobs before it in its queue is served within 4 * (j + 1) calls, whatever else is added.
 *   lines, lines_len    the state of the lines and its length in numbers, exactly 102
 *   store, store_len    the store of sheets and its length in bytes; only read
 *   cells, cells_len    the cell store and its length in bytes, exactly 65,536
 *   posts, posts_len    the list for posts and its length in entries. The run is lent what is left of it from the place in `lines` on, and that may
 *                       be 256 entries at most; nothing is left if the list is shorter than that place
 *   answer, answer_len  the list for the answer and its length in entries, at least 9; it tells what the run answers, and the line
 * The run is one of sovzedal_run_eager on the empty start stack, with the job's calls, 100 open calls and the checks enforced. It leaves the cell store
 * and what it is lent of the list as that does; the entries before the place are as they were. Unless it is refused, the place moves on by the posts made.
 * A job that is refused has had its turn, too, and is gone; the place and the buffers are as they were.
 * Refusals: 28, of a part that is not all inside the store as it is lent now; then 1 to 8; 31; 15, of a cell store of another length or more than 256 entries
 * left; 16. Stops: 17 to 22. With SOVZEDAL_IDLE no job waits, and nothing changed. */
uint32_t sovzedal_lines_serve(uint64_t *lines, size_t lines_len,
                              const uint8_t *store, size_t store_len,
                              uint8_t *cells, size_t cells_len,
                              uint32_t *posts, size_t posts_len,
                              uint32_t *answer, size_t answer_len);

#ifdef __cplusplus
}
#endif

#endif
