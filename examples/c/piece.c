/* Says of the sheet in a .hex file, where the rules refuse it, which is its
 * smallest faulty piece: the least to look at. Its terms are printed with their
 * records, each below the one that it is a child of, and with what the rules say
 * of them where they stand. Then the terms that are asked for by their numbers
 * are judged in the same way, whether the sheet is accepted or not.
 *
 *     piece FILE [TERM...]
 *
 * The exit status is 0 if there is no piece and each term asked for has a type,
 * 1 if there is one, a term has none or the sheet is not readable, and 2 if the
 * file or an argument could not be read.
 */
#include <inttypes.h>
#include <stdio.h>

#include "hex.h"
#include "number.h"

static size_t sheet_len;

static uint32_t answer[SOVZEDAL_ANSWER];

/* By the kind byte of a term's record: its name, and which of the first, second
 * and third part are children, as bits 0, 1 and 2. */
static const struct {
    const char *name;
    unsigned children;
} kinds[] = {
    { "boolean", 0 }, { "number", 0 }, { "variable", 0 }, { "function", 2 },
    { "letrec", 6 }, { "call", 3 }, { "if", 7 }, { "check", 1 },
    { "enable", 1 }, { "sign", 1 }, { "test", 3 }, { "sum", 3 },
    { "difference", 3 }, { "less", 3 }, { "post", 1 }
};

static void print_refusal(void)
{
    uint32_t cause = answer[SOVZEDAL_AT_CAUSE];

    printf("refused, %" PRIu32 " (%s) at %" PRIu32 "\n",
           cause, sovzedal_cause_text(cause), answer[SOVZEDAL_AT_PLACE]);
}

/* Prints the type and needs of a term where it stands and the principal that it
 * is under, or its first fault. Returns 0, or 1 if there is no type to tell. */
static int print_judgement(uint32_t term)
{
    if (sovzedal_term(sheet, sheet_len, term, answer, SOVZEDAL_ANSWER) != SOVZEDAL_OK) {
        print_refusal();
        return 1;
    }
    printf("type %" PRIu32 ", needs %08" PRIX32 ", principal %" PRIu32 "\n",
           answer[SOVZEDAL_AT_TYPE], answer[SOVZEDAL_AT_NEEDS], answer[SOVZEDAL_AT_PRINCIPAL]);
    return 0;
}

/* Prints a term and all that are in it. `record` is its record in the sheet, in
 * which the records of lower terms stand before it, as many bytes each. */
static void print_term(uint32_t term, const uint8_t *record, uint32_t bytes, int indent)
{
    unsigned part;

    printf("%*s%" PRIu32 ": %s, %02X %02X", indent, "",
           term, kinds[record[0]].name, record[0], record[1]);
    for (part = 0; part < 3; part++) {
        printf(" %02X%02X", record[2 + 2 * part], record[3 + 2 * part]);
    }
    printf(": ");
    print_judgement(term);
    for (part = 0; part < 3; part++) {
        if (kinds[record[0]].children >> part & 1) {
            uint32_t child = 256u * record[2 + 2 * part] + record[3 + 2 * part];
            print_term(child, record - bytes * (term - child), bytes, indent + 2);
        }
    }
}

/* Returns 0 if there is no piece, else 1. */
static int print_piece(void)
{
    uint32_t fault;

    if (sovzedal_typecheck(sheet, sheet_len, answer, SOVZEDAL_ANSWER) == SOVZEDAL_OK) {
        printf("accepted\n");
    } else {
        print_refusal();
    }
    if (sovzedal_piece(sheet, sheet_len, answer, SOVZEDAL_ANSWER) != SOVZEDAL_OK) {
        return 1;
    }
    fault = answer[SOVZEDAL_AT_FAULT];
    if (fault == 0) {
        printf("no piece\n");
        return 0;
    }
    printf("smallest faulty piece: %" PRIu32 " (%s) at %" PRIu32 ", terms %" PRIu32 "\n",
           fault, sovzedal_cause_text(fault), answer[SOVZEDAL_AT_TERM], answer[SOVZEDAL_AT_COUNT]);
    print_term(answer[SOVZEDAL_AT_TERM], sheet + answer[SOVZEDAL_AT_OFFSET],
               answer[SOVZEDAL_AT_BYTES], 2);
    return 1;
}

/* A number past the last term is one, too: the library refuses it. */
static int read_term(const char *argument, uint32_t *term)
{
    return read_number(argument, '\0', UINT32_MAX, term) != NULL;
}

/* Whether each of these arguments, up to the NULL behind them, is a number. */
static int are_terms(char **arguments)
{
    uint32_t term;

    while (*arguments != NULL && read_term(*arguments, &term)) {
        arguments++;
    }
    return *arguments == NULL;
}

int main(int argc, char **argv)
{
    uint32_t term;
    long length;
    int status, argument;

    if (argc < 2 || !are_terms(argv + 2)) {
        fprintf(stderr, "usage: piece FILE [TERM...]\n");
        return 2;
    }
    length = load_sheet(argv[1]);
    if (length < 0) {
        return 2;
    }
    sheet_len = (size_t)length;
    status = print_piece();
    for (argument = 2; argument < argc && read_term(argv[argument], &term); argument++) {
        printf("term %" PRIu32 ": ", term);
        status |= print_judgement(term);
    }
    return status;
}
