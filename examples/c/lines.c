/* Four lines share one checking unit. Jobs are queued on them, each a part of
 * one store of sheets, and served in turn until no line has one. All of them
 * post into one list.
 */
#include <inttypes.h>
#include <stdio.h>

#include "sovzedal.h"

/* The store of sheets. */
static const uint8_t store[] = {
    /* ../hello.hex: ends in 7 and posts it */
    0x01, 0x00, 0x02,                                            /* version */
    0x00, 0x01,                                                  /* 1 */
    0x02, 0x00, 0x04,                                            /* 1 principal */
    0x00, 0x00, 0x00, 0x02,                                      /* principal 0 may use {1} */
    0x03, 0x00, 0x14,                                            /* 2 types */
    0x00, 0x00, 0x00, 0x00, 0x00, 0x00, 0x00, 0x00, 0x00, 0x00,  /* type 0: boolean */
    0x01, 0x00, 0x00, 0x00, 0x00, 0x00, 0x00, 0x00, 0x00, 0x00,  /* type 1: number */
    0x04, 0x00, 0x28,                                            /* 5 terms */
    0x01, 0x00, 0x00, 0x07, 0x00, 0x00, 0x00, 0x00,              /* 0: number 7 */
    0x0E, 0x00, 0x00, 0x00, 0x00, 0x00, 0x00, 0x00,              /* 1: post (0) */
    0x07, 0x01, 0x00, 0x01, 0x00, 0x00, 0x00, 0x00,              /* 2: check 1 (1) */
    0x08, 0x01, 0x00, 0x02, 0x00, 0x00, 0x00, 0x00,              /* 3: enable 1 (2) */
    0x09, 0x00, 0x00, 0x03, 0x00, 0x00, 0x00, 0x00,              /* 4: sign 0 (3); the root */

    /* ../plate.hex: ends in 40 and posts it */
    0x01, 0x00, 0x02,                                            /* version */
    0x00, 0x01,                                                  /* 1 */
    0x02, 0x00, 0x04,                                            /* 1 principal */
    0x00, 0x00, 0x00, 0x01,                                      /* principal 0, the plate maker, may use {release} */
    0x03, 0x00, 0x14,                                            /* 2 types */
    0x00, 0x00, 0x00, 0x00, 0x00, 0x00, 0x00, 0x00, 0x00, 0x00,  /* type 0: boolean */
    0x01, 0x00, 0x00, 0x00, 0x00, 0x00, 0x00, 0x00, 0x00, 0x00,  /* type 1: number */
    0x04, 0x00, 0x48,                                            /* 9 terms */
    0x01, 0x00, 0x00, 0x28, 0x00, 0x00, 0x00, 0x00,              /* 0: number 40 */
    0x0E, 0x00, 0x00, 0x00, 0x00, 0x00, 0x00, 0x00,              /* 1: post (0) */
    0x01, 0x00, 0x00, 0x02, 0x00, 0x00, 0x00, 0x00,              /* 2: number 2 */
    0x0E, 0x00, 0x00, 0x02, 0x00, 0x00, 0x00, 0x00,              /* 3: post (2) */
    0x07, 0x00, 0x00, 0x03, 0x00, 0x00, 0x00, 0x00,              /* 4: check release (3); needs {release} */
    0x01, 0x00, 0x00, 0x00, 0x00, 0x00, 0x00, 0x00,              /* 5: number 0 */
    0x0A, 0x00, 0x00, 0x04, 0x00, 0x05, 0x00, 0x00,              /* 6: test release (4, 5); takes release out of the needs of 4 */
    0x0B, 0x00, 0x00, 0x01, 0x00, 0x06, 0x00, 0x00,              /* 7: sum (1, 6) */
    0x09, 0x00, 0x00, 0x07, 0x00, 0x00, 0x00, 0x00,              /* 8: sign plate maker (7); the root */
};

struct part {
    const char *name;
    size_t offset;
    size_t length;
};

static const struct part hello = { "hello", 0, 78 };
static const struct part plate = { "plate", 78, 110 };
static const struct part too_long = { "111 bytes from 78 on", 78, 111 };

/* The state of new lines is all zero. */
static uint64_t lines[SOVZEDAL_LINES];

/* The largest cell store: the lines' runs take no other. */
static uint8_t cells[SOVZEDAL_MAX_CELLS];

/* The list that the jobs share. Five posts fit. The sheets in the store are of
 * format 1, so that an entry is the number that was posted. */
static uint32_t posts[5];
static const size_t posts_len = sizeof posts / sizeof posts[0];

static uint32_t answer[SOVZEDAL_LINES_ANSWER];

static void print_cause(void)
{
    printf("%" PRIu32 " (%s)",
           answer[SOVZEDAL_AT_CAUSE], sovzedal_cause_text(answer[SOVZEDAL_AT_CAUSE]));
}

static void add(uint32_t line, const struct part *part, uint32_t calls)
{
    uint32_t status = sovzedal_lines_add(lines, SOVZEDAL_LINES,
                                         line, part->offset, part->length, calls,
                                         store, sizeof store,
                                         answer, SOVZEDAL_LINES_ANSWER);

    printf("line %" PRIu32 ", %s, calls %" PRIu32 ": ", line, part->name, calls);
    if (status == SOVZEDAL_OK) {
        printf("added");
    } else {
        printf("refused, ");
        print_cause();
    }
    printf("\n");
}

/* Serves one job and says how that went. Returns 0 if no line has one. */
static int serve(void)
{
    uint32_t status = sovzedal_lines_serve(lines, SOVZEDAL_LINES,
                                           store, sizeof store,
                                           cells, sizeof cells,
                                           posts, posts_len,
                                           answer, SOVZEDAL_LINES_ANSWER);

    if (status == SOVZEDAL_IDLE) {
        return 0;
    }
    printf("line %" PRIu32 " served: ", answer[SOVZEDAL_AT_LINE]);
    if (status == SOVZEDAL_OK) {
        printf("ended, value %" PRIu32, answer[SOVZEDAL_AT_VALUE]);
    } else {
        printf(status == SOVZEDAL_STOPPED ? "stopped, " : "refused, ");
        print_cause();
        printf(" at %" PRIu32, answer[SOVZEDAL_AT_PLACE]);
    }
    printf("\n");
    return 1;
}

int main(void)
{
    size_t post;

    add(0, &hello, 4096);
    add(0, &hello, 4096);
    add(0, &hello, 4096);
    add(1, &plate, 4096);
    add(1, &plate, 4096);
    add(3, &plate, 4096);
    add(3, &hello, 5000);     /* more than may be allowed */
    add(4, &hello, 4096);     /* there are lines 0 to 3 */
    add(2, &too_long, 4096);  /* one byte more than the store has */

    while (serve()) {
    }
    printf("no job waits\n");

    printf("posts:");
    for (post = 0; post < posts_len; post++) {
        printf(" %" PRIu32, posts[post]);
    }
    printf("\n");
    return 0;
}
