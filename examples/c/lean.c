/* Writes the lean form of the sheet in a .hex file, as another such file, and
 * says in its comments how both sheets run.
 *
 *     lean FILE
 *
 * The exit status is 0 if the sheet has a lean form, 1 if it was refused, and 2
 * if the file could not be read.
 */
#include <inttypes.h>
#include <stdio.h>

#include "hex.h"

/* The lean form is never longer than the sheet. */
static uint8_t lean[SOVZEDAL_MAX_SHEET];

/* The largest buffers that a run takes. */
static uint8_t cells[SOVZEDAL_MAX_CELLS];
static uint32_t posts[SOVZEDAL_MAX_POSTS];

static uint32_t answer[SOVZEDAL_ANSWER];

enum {
    FIELDS = 4,      /* of a sheet of format 1 */
    TERM_RECORD = 8  /* bytes of a term's record, the second of which is a sign's principal */
};

/* How many bytes the parts of a record of each field have, up to a zero. */
static const size_t parts[FIELDS][6] = {
    { 2 }, { 4 }, { 1, 1, 2, 2, 4 }, { 1, 1, 2, 2, 2 }
};

static void print_cause(const char *what)
{
    printf("%s, %" PRIu32 " (%s) at %" PRIu32,
           what, answer[SOVZEDAL_AT_CAUSE], sovzedal_cause_text(answer[SOVZEDAL_AT_CAUSE]),
           answer[SOVZEDAL_AT_PLACE]);
}

/* Runs a sheet eagerly with its checks in force on this frame and says how that
 * went. */
static void run(const char *name, const uint8_t *bytes, size_t length, const uint32_t frame[2])
{
    uint32_t status = sovzedal_run_eager(bytes, length, frame, 2,
                                         SOVZEDAL_MAX_CALLS, SOVZEDAL_MAX_DEPTH, 1,
                                         cells, sizeof cells,
                                         posts, SOVZEDAL_MAX_POSTS,
                                         answer, SOVZEDAL_ANSWER);

    printf("# %s ", name);
    if (status == SOVZEDAL_STOPPED) {
        print_cause("stopped");
    } else {
        printf("ended in %" PRIu32, answer[SOVZEDAL_AT_VALUE]);
    }
    printf(", calls %" PRIu32 ", cells %" PRIu32 ", posts %" PRIu32 ", held %" PRIu32 "\n",
           answer[SOVZEDAL_AT_CALLS], answer[SOVZEDAL_AT_CELLS], answer[SOVZEDAL_AT_POSTS],
           answer[SOVZEDAL_AT_HELD]);
}

/* Prints the parts that a line has, and gives where the next line begins. */
static size_t print_line(size_t at, const size_t *part)
{
    for (; *part != 0; part++) {
        size_t end = at + *part;

        while (at < end) {
            printf("%02X", lean[at++]);
        }
        printf(part[1] != 0 ? " " : "\n");
    }
    return at;
}

/* Prints the lean sheet, a line for each field's header and each record. */
static void print_lean(void)
{
    static const size_t header[] = { 1, 2, 0 };
    size_t at = 0;
    int field;

    for (field = 0; field < FIELDS; field++) {
        size_t length = 256u * lean[at + 1] + lean[at + 2];
        size_t end;

        at = print_line(at, header);
        for (end = at + length; at < end;) {
            at = print_line(at, parts[field]);
        }
    }
}

int main(int argc, char **argv)
{
    uint32_t frame[2];
    size_t lean_len;
    long sheet_len;

    if (argc != 2) {
        fprintf(stderr, "usage: lean FILE\n");
        return 2;
    }
    sheet_len = load_sheet(argv[1]);
    if (sheet_len < 0) {
        return 2;
    }
    if (sovzedal_erase(sheet, (size_t)sheet_len, lean, sizeof lean,
                       answer, SOVZEDAL_ANSWER) != SOVZEDAL_OK) {
        print_cause("refused");
        printf("\n");
        return 1;
    }
    lean_len = answer[SOVZEDAL_AT_LENGTH];
    printf("# %zu bytes in place of %ld\n", lean_len, sheet_len);

    /* A frame of the author who signs the root, with the needs enabled. That
     * author may use them, or the sheet would be refused, so they are granted. */
    sovzedal_typecheck(sheet, (size_t)sheet_len, answer, SOVZEDAL_ANSWER);
    frame[0] = sheet[sheet_len - TERM_RECORD + 1];
    frame[1] = answer[SOVZEDAL_AT_NEEDS];
    run("the sheet", sheet, (size_t)sheet_len, frame);
    run("its lean form", lean, lean_len, frame);
    print_lean();
    return 0;
}
