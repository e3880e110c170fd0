/* Judges and runs the sheet in a .hex file and says in words what came of it.
 *
 *     run FILE
 *
 * The exit status is 0 if the sheet was accepted and its run ended, 1 if it was
 * refused or stopped, and 2 if the file could not be read.
 */
#include <inttypes.h>
#include <stdio.h>

#include "hex.h"

/* The largest buffers that a run takes. */
static uint8_t cells[SOVZEDAL_MAX_CELLS];
static uint32_t posts[SOVZEDAL_MAX_POSTS];

static uint32_t answer[SOVZEDAL_ANSWER];

static const char *const types[] = { "boolean", "number" };

static void print_cause(const char *what)
{
    printf("%s, %" PRIu32 " (%s) at %" PRIu32,
           what, answer[SOVZEDAL_AT_CAUSE], sovzedal_cause_text(answer[SOVZEDAL_AT_CAUSE]),
           answer[SOVZEDAL_AT_PLACE]);
}

/* Says what was found of the sheet. Returns whether it was accepted. */
static int judge(size_t sheet_len)
{
    uint32_t status = sovzedal_typecheck(sheet, sheet_len, answer, SOVZEDAL_ANSWER);

    printf("verdict: ");
    if (status == SOVZEDAL_OK) {
        printf("accepted, %" PRIu32 " terms, type %s, needs %08" PRIX32 "\n",
               answer[SOVZEDAL_AT_TERMS], types[answer[SOVZEDAL_AT_TYPE]], answer[SOVZEDAL_AT_NEEDS]);
    } else {
        print_cause("refused");
        printf("\n");
    }
    return status == SOVZEDAL_OK;
}

/* Says what was posted on each channel, in order. Nothing is said of the others. */
static void print_posts(uint32_t made)
{
    uint32_t channel, post;

    if (made == 0) {
        printf("no posts\n");
    }
    for (channel = 0; channel < SOVZEDAL_CHANNELS; channel++) {
        int any = 0;

        for (post = 0; post < made; post++) {
            if (sovzedal_post_channel(posts[post]) != channel) {
                continue;
            }
            if (!any) {
                printf("posts on channel %" PRIu32 ":", channel);
            }
            printf(" %" PRIu32, sovzedal_post_number(posts[post]));
            any = 1;
        }
        if (any) {
            printf("\n");
        }
    }
}

/* Runs the sheet eagerly with its checks in force, on the empty stack, and says
 * how that went. Returns whether the run ended. */
static int run(size_t sheet_len)
{
    static const uint32_t start[1] = { 0 };  /* lent with length 0 */
    uint32_t status = sovzedal_run_eager(sheet, sheet_len, start, 0,
                                         SOVZEDAL_MAX_CALLS, SOVZEDAL_MAX_DEPTH, 1,
                                         cells, sizeof cells,
                                         posts, SOVZEDAL_MAX_POSTS,
                                         answer, SOVZEDAL_ANSWER);

    printf("answer: ");
    if (status == SOVZEDAL_REFUSED) {
        print_cause("refused");
        printf("\n");
        return 0;
    }
    if (status == SOVZEDAL_STOPPED) {
        print_cause("stopped");
    } else {
        printf("ended in the %s %" PRIu32, types[answer[SOVZEDAL_AT_TYPE]], answer[SOVZEDAL_AT_VALUE]);
    }
    printf(", calls %" PRIu32 ", cells %" PRIu32 ", posts %" PRIu32 ", held %" PRIu32 "\n",
           answer[SOVZEDAL_AT_CALLS], answer[SOVZEDAL_AT_CELLS], answer[SOVZEDAL_AT_POSTS],
           answer[SOVZEDAL_AT_HELD]);

    print_posts(answer[SOVZEDAL_AT_POSTS]);
    return status == SOVZEDAL_OK;
}

int main(int argc, char **argv)
{
    long sheet_len;

    if (argc != 2) {
        fprintf(stderr, "usage: run FILE\n");
        return 2;
    }
    sheet_len = load_sheet(argv[1]);
    if (sheet_len < 0) {
        return 2;
    }
    return judge((size_t)sheet_len) && run((size_t)sheet_len) ? 0 : 1;
}
