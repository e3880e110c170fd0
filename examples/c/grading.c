/* Runs a frame's sheet before its members are graded, when some of its numbers
 * are known only as lowest and highest, and says within which limits everything
 * lies that the sheet gives. Then it runs the sheet with all lowest and with all
 * highest numbers.
 *
 *     grading FILE [TERM=LOWEST-HIGHEST]...
 *
 * Numbers of terms that are not named are as they are written. The exit status
 * is 0 if the run over ranges ended, 1 if it was refused or stopped, and 2 if the
 * file or an argument could not be read.
 */
#include <inttypes.h>
#include <stdio.h>

#include "hex.h"
#include "number.h"

enum {
    RECORD = 8,        /* bytes of a term */
    NUMBER_KIND = 1,   /* the kind of a number term, whose number is in the bytes 2 and 3 */
    MAX_TERMS = 1024
};

/* What an argument gives. */
struct limits {
    uint32_t term, lowest, highest;
};

static uint8_t cells[SOVZEDAL_MAX_CELLS];
static uint32_t posts[SOVZEDAL_MAX_POSTS];

static uint32_t answer[SOVZEDAL_ANSWER];

static size_t sheet_len;
static uint32_t terms;

/* By term, of the number terms. */
static uint16_t lowest[MAX_TERMS];
static uint16_t highest[MAX_TERMS];

/* The terms are what a sheet of format 1 ends in. */
static uint8_t *record_of(uint32_t term)
{
    return sheet + sheet_len - RECORD * (terms - term);
}

static int is_number(uint32_t term)
{
    return term < terms && record_of(term)[0] == NUMBER_KIND;
}

/* Takes the limits as they are written: a number is both. */
static void read_limits(void)
{
    uint32_t term;

    for (term = 0; term < terms; term++) {
        const uint8_t *record = record_of(term);

        lowest[term] = highest[term] = (uint16_t)(256u * record[2] + record[3]);
    }
}

/* Reads an argument TERM=LOWEST-HIGHEST. Returns whether it is one. */
static int parse_limits(const char *argument, struct limits *limits)
{
    const char *at = read_number(argument, '=', UINT32_MAX, &limits->term);

    if (at != NULL) {
        at = read_number(at + 1, '-', UINT16_MAX, &limits->lowest);
    }
    if (at != NULL) {
        at = read_number(at + 1, '\0', UINT16_MAX, &limits->highest);
    }
    return at != NULL;
}

/* Whether each of these arguments, up to the NULL behind them, is one. */
static int are_limits(char **arguments)
{
    struct limits limits;

    while (*arguments != NULL && parse_limits(*arguments, &limits)) {
        arguments++;
    }
    return *arguments == NULL;
}

/* Takes the limits of an argument. Returns whether they are those of a number
 * term. */
static int take_limits(const char *argument)
{
    struct limits limits;

    if (!parse_limits(argument, &limits) || !is_number(limits.term)) {
        fprintf(stderr, "%s: not the limits of a number term\n", argument);
        return 0;
    }
    lowest[limits.term] = (uint16_t)limits.lowest;
    highest[limits.term] = (uint16_t)limits.highest;
    return 1;
}

/* Puts a number into each number term. */
static void write_numbers(const uint16_t *numbers)
{
    uint32_t term;

    for (term = 0; term < terms; term++) {
        if (is_number(term)) {
            record_of(term)[2] = (uint8_t)(numbers[term] >> 8);
            record_of(term)[3] = (uint8_t)numbers[term];
        }
    }
}

/* A range as an answer and a list of posts have it. */
static void print_range(uint32_t range)
{
    printf("%" PRIu32, sovzedal_lowest(range));
    if (sovzedal_lowest(range) < sovzedal_highest(range)) {
        printf(" to %" PRIu32, sovzedal_highest(range));
    }
}

/* The same of one number, which stands there by itself. */
static void print_number(uint32_t number)
{
    printf("%" PRIu32, number);
}

/* Says how a run went, whose numbers are printed in this way. */
static void print_told(const char *name, uint32_t status, void (*print)(uint32_t))
{
    static const char *const truths[] = { "no", "yes", "undecided" };
    uint32_t value = answer[SOVZEDAL_AT_VALUE], k;

    printf("%s: ", name);
    if (status != SOVZEDAL_OK) {
        printf("%s, %" PRIu32 " (%s) at %" PRIu32,
               status == SOVZEDAL_STOPPED ? "stopped" : "refused",
               answer[SOVZEDAL_AT_CAUSE], sovzedal_cause_text(answer[SOVZEDAL_AT_CAUSE]),
               answer[SOVZEDAL_AT_PLACE]);
    } else if (answer[SOVZEDAL_AT_TYPE] == SOVZEDAL_NUMBER) {
        printf("ended in ");
        print(value);
    } else {
        printf("ended in %s", truths[value]);
    }
    if (status != SOVZEDAL_REFUSED) {
        printf(", calls %" PRIu32 ", cells %" PRIu32 ", posts",
               answer[SOVZEDAL_AT_CALLS], answer[SOVZEDAL_AT_CELLS]);
        for (k = 0; k < answer[SOVZEDAL_AT_POSTS]; k++) {
            fputs(k == 0 ? " " : ", ", stdout);
            print(posts[k]);
        }
        fputs(answer[SOVZEDAL_AT_POSTS] == 0 ? " none" : "", stdout);
    }
    printf("\n");
}

/* A pair for each number term, in term order. */
static uint32_t run_within_limits(void)
{
    static uint16_t pairs[2 * MAX_TERMS];
    size_t filled = 0;
    uint32_t term, status;

    for (term = 0; term < terms; term++) {
        if (is_number(term)) {
            pairs[filled++] = lowest[term];
            pairs[filled++] = highest[term];
        }
    }
    status = sovzedal_run_ranges(sheet, sheet_len, pairs, filled, NULL, 0,
                                 SOVZEDAL_MAX_CALLS, SOVZEDAL_MAX_DEPTH, 1,
                                 cells, sizeof cells,
                                 posts, SOVZEDAL_MAX_POSTS,
                                 answer, SOVZEDAL_ANSWER);
    print_told("within limits", status, print_range);
    return status;
}

static void run_with(const char *name, const uint16_t *numbers)
{
    uint32_t status;

    write_numbers(numbers);
    status = sovzedal_run_eager(sheet, sheet_len, NULL, 0,
                                SOVZEDAL_MAX_CALLS, SOVZEDAL_MAX_DEPTH, 1,
                                cells, sizeof cells,
                                posts, SOVZEDAL_MAX_POSTS,
                                answer, SOVZEDAL_ANSWER);
    print_told(name, status, print_number);
}

int main(int argc, char **argv)
{
    uint32_t status;
    long read;
    int k;

    if (argc < 2 || !are_limits(argv + 2)) {
        fprintf(stderr, "usage: grading FILE [TERM=LOWEST-HIGHEST]...\n");
        return 2;
    }
    read = load_sheet(argv[1]);
    if (read < 0) {
        return 2;
    }
    sheet_len = (size_t)read;
    status = sovzedal_decode(sheet, sheet_len, answer, SOVZEDAL_ANSWER);
    if (status != SOVZEDAL_OK) {
        print_told("sheet", status, print_number);
        return 1;
    }
    terms = answer[SOVZEDAL_AT_TERMS];
    read_limits();
    for (k = 2; k < argc; k++) {
        if (!take_limits(argv[k])) {
            return 2;
        }
    }
    status = run_within_limits();
    if (status != SOVZEDAL_REFUSED) {
        run_with("all lowest", lowest);
        run_with("all highest", highest);
    }
    return status == SOVZEDAL_OK ? 0 : 1;
}
