/* Says of each privilege that the sheet in a .hex file needs where the need
 * comes from: the terms from the root down to the cause.
 *
 *     why FILE
 *
 * The exit status is 0 if the sheet was accepted, 1 if it was refused, and 2 if
 * the file could not be read.
 */
#include <inttypes.h>
#include <stdio.h>

#include "hex.h"

static uint16_t chain[SOVZEDAL_CHAIN];

static uint32_t answer[SOVZEDAL_ANSWER];

/* By the kind byte of a term's record. */
static const char *const kinds[] = {
    "boolean", "number", "variable", "function", "letrec", "call", "if", "check",
    "enable", "sign", "test", "sum", "difference", "less", "post"
};

enum {
    CHECK = 7,
    POST = 14,
    HEADER = 3,      /* bytes of a field's header: its tag, and its length in two */
    TERM_RECORD = 8  /* bytes of a term's record */
};

/* Of a readable sheet. The terms' records are the content of the fourth field. */
static unsigned kind_of(uint16_t term)
{
    size_t at = 0;
    int field;

    for (field = 1; field < 4; field++) {
        at += HEADER + 256u * sheet[at + 1] + sheet[at + 2];
    }
    return sheet[at + HEADER + TERM_RECORD * term];
}

/* What makes a term of this kind a cause. */
static const char *reason(unsigned kind)
{
    switch (kind) {
    case CHECK:
        return "which names it";
    case POST:
        return "whose channel it guards";
    default:
        return "whose latent set holds it";
    }
}

/* Prints the chain of a need, a term a line. */
static void explain(uint32_t privilege, size_t sheet_len)
{
    uint32_t length, place;
    unsigned kind = 0;

    sovzedal_explain(sheet, sheet_len, privilege,
                     chain, SOVZEDAL_CHAIN, answer, SOVZEDAL_ANSWER);
    length = answer[SOVZEDAL_AT_LENGTH];
    printf("privilege %" PRIu32 " is needed by\n", privilege);
    for (place = 0; place < length; place++) {
        kind = kind_of(chain[place]);
        printf("  %" PRIu16 ": %s", chain[place], kinds[kind]);
        printf(place + 1 < length ? "\n" : ", ");
    }
    printf("%s\n", reason(kind));
}

int main(int argc, char **argv)
{
    uint32_t privilege, needs;
    long sheet_len;

    if (argc != 2) {
        fprintf(stderr, "usage: why FILE\n");
        return 2;
    }
    sheet_len = load_sheet(argv[1]);
    if (sheet_len < 0) {
        return 2;
    }
    if (sovzedal_typecheck(sheet, (size_t)sheet_len, answer, SOVZEDAL_ANSWER) != SOVZEDAL_OK) {
        printf("refused, %" PRIu32 " (%s) at %" PRIu32 "\n",
               answer[SOVZEDAL_AT_CAUSE], sovzedal_cause_text(answer[SOVZEDAL_AT_CAUSE]),
               answer[SOVZEDAL_AT_PLACE]);
        return 1;
    }
    needs = answer[SOVZEDAL_AT_NEEDS];
    printf("needs %08" PRIX32 "\n", needs);
    for (privilege = 0; privilege < 32; privilege++) {
        if (needs >> privilege & 1) {
            explain(privilege, (size_t)sheet_len);
        }
    }
    return 0;
}
