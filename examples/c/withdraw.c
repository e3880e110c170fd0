/* Says of the sheets in .hex files whether they name a privilege that a plant
 * wants to withdraw, and how each of them runs with it and without.
 *
 *     withdraw PRIVILEGE FILE...
 *
 * The exit status is 0 if no sheet names it, 1 if one does or was refused, and 2
 * if a file or the privilege could not be read.
 */
#include <inttypes.h>
#include <stdio.h>
#include <string.h>

#include "hex.h"
#include "number.h"

enum {
    TERM_RECORD = 8,  /* bytes of a term's record, the second of which is a sign's principal */
    GUARDS = 19       /* bytes that follow the terms of a sheet of format 2 */
};

/* What a run tells. */
struct told {
    uint32_t status;
    uint32_t answer[SOVZEDAL_ANSWER];
    uint32_t posts[SOVZEDAL_MAX_POSTS];
};

/* The largest cell store that a run takes. */
static uint8_t cells[SOVZEDAL_MAX_CELLS];

/* The author who signs the root, the last term of a readable sheet. */
static uint32_t root_signer(size_t sheet_len)
{
    size_t after_terms = sheet[4] == 2 ? GUARDS : 0;

    return sheet[sheet_len - after_terms - TERM_RECORD + 1];
}

/* Runs the sheet eagerly with its checks in force on one frame of that author,
 * with these privileges enabled. */
static void run(size_t sheet_len, uint32_t enabled, struct told *told)
{
    uint32_t frame[2];

    frame[0] = root_signer(sheet_len);
    frame[1] = enabled;
    told->status = sovzedal_run_eager(sheet, sheet_len, frame, 2,
                                      SOVZEDAL_MAX_CALLS, SOVZEDAL_MAX_DEPTH, 1,
                                      cells, sizeof cells,
                                      told->posts, SOVZEDAL_MAX_POSTS,
                                      told->answer, SOVZEDAL_ANSWER);
}

/* Whether two runs came to the same end or stop, with the same counts and posts. */
static int is_same(const struct told *one, const struct told *other)
{
    size_t posts = one->answer[SOVZEDAL_AT_POSTS];

    return one->status == other->status
        && memcmp(one->answer, other->answer, sizeof one->answer) == 0
        && memcmp(one->posts, other->posts, posts * sizeof one->posts[0]) == 0;
}

static void print_cause(const char *what, const uint32_t *answer)
{
    printf("%s, %" PRIu32 " (%s) at %" PRIu32,
           what, answer[SOVZEDAL_AT_CAUSE], sovzedal_cause_text(answer[SOVZEDAL_AT_CAUSE]),
           answer[SOVZEDAL_AT_PLACE]);
}

static void print_told(const char *start, const struct told *told)
{
    printf("  %s: ", start);
    if (told->status == SOVZEDAL_STOPPED) {
        print_cause("stopped", told->answer);
    } else {
        printf("ended in %" PRIu32, told->answer[SOVZEDAL_AT_VALUE]);
    }
    printf(", calls %" PRIu32 ", cells %" PRIu32 ", posts %" PRIu32 ", held %" PRIu32 "\n",
           told->answer[SOVZEDAL_AT_CALLS], told->answer[SOVZEDAL_AT_CELLS],
           told->answer[SOVZEDAL_AT_POSTS], told->answer[SOVZEDAL_AT_HELD]);
}

/* Says how the sheet runs where all that its author may use is granted, and where
 * all but the privilege is. */
static void compare(size_t sheet_len, uint32_t privilege)
{
    static struct told with, without;

    run(sheet_len, UINT32_MAX, &with);
    run(sheet_len, UINT32_MAX & ~(UINT32_C(1) << privilege), &without);
    if (is_same(&with, &without)) {
        print_told("with it or without", &with);
    } else {
        print_told("with it", &with);
        print_told("without it", &without);
    }
}

/* Says whether the sheet names the privilege. Returns whether it does not. */
static int ask(size_t sheet_len, uint32_t privilege)
{
    uint32_t answer[SOVZEDAL_ANSWER];

    if (sovzedal_names(sheet, sheet_len, privilege, answer, SOVZEDAL_ANSWER) != SOVZEDAL_OK) {
        print_cause("refused", answer);
        printf("\n");
        return 0;
    }
    if (answer[SOVZEDAL_AT_NAMED]) {
        printf("term %" PRIu32 " names it\n", answer[SOVZEDAL_AT_TERM]);
    } else {
        printf("no term names it\n");
    }
    compare(sheet_len, privilege);
    return !answer[SOVZEDAL_AT_NAMED];
}

int main(int argc, char **argv)
{
    uint32_t privilege;
    int file, unnamed = 1;

    if (argc < 3 || read_number(argv[1], '\0', UINT32_MAX, &privilege) == NULL) {
        fprintf(stderr, "usage: withdraw PRIVILEGE FILE...\n");
        return 2;
    }
    for (file = 2; file < argc; file++) {
        long sheet_len = load_sheet(argv[file]);

        if (sheet_len < 0) {
            return 2;
        }
        printf("%s: ", argv[file]);
        unnamed &= ask((size_t)sheet_len, privilege);
    }
    return unnamed ? 0 : 1;
}
