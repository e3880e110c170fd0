/* A saw controller's session with a register block. For each of four runs it
 * sets the interrupt mask and the allowance of calls and has the loaded sheet
 * run. Then it says whether that raised the interrupt, reads how the run went
 * and clears the status, whereupon the interrupt falls.
 */
#include <stdio.h>

#include "sovzedal.h"

/* The loaded sheet is ../loop.hex. It ends in 55 after 11 calls. */
static const uint8_t sheet[] = {
    0x01, 0x00, 0x02,                                            /* version */
    0x00, 0x01,                                                  /* 1 */
    0x02, 0x00, 0x04,                                            /* 1 principal */
    0x00, 0x00, 0x00, 0x00,                                      /* principal 0 may use {} */
    0x03, 0x00, 0x1E,                                            /* 3 types */
    0x00, 0x00, 0x00, 0x00, 0x00, 0x00, 0x00, 0x00, 0x00, 0x00,  /* type 0: boolean */
    0x01, 0x00, 0x00, 0x00, 0x00, 0x00, 0x00, 0x00, 0x00, 0x00,  /* type 1: number */
    0x02, 0x00, 0x00, 0x01, 0x00, 0x01, 0x00, 0x00, 0x00, 0x00,  /* type 2: function from 1 to 1 */
    0x04, 0x00, 0x98,                                            /* 19 terms */
    0x02, 0x00, 0x00, 0x00, 0x00, 0x00, 0x00, 0x00,              /* 0: variable 0; n */
    0x01, 0x00, 0x00, 0x01, 0x00, 0x00, 0x00, 0x00,              /* 1: number 1 */
    0x0D, 0x00, 0x00, 0x00, 0x00, 0x01, 0x00, 0x00,              /* 2: less (0, 1) */
    0x01, 0x00, 0x00, 0x00, 0x00, 0x00, 0x00, 0x00,              /* 3: number 0 */
    0x02, 0x00, 0x00, 0x00, 0x00, 0x00, 0x00, 0x00,              /* 4: variable 0; n */
    0x0E, 0x00, 0x00, 0x04, 0x00, 0x00, 0x00, 0x00,              /* 5: post (4) */
    0x02, 0x00, 0x00, 0x01, 0x00, 0x00, 0x00, 0x00,              /* 6: variable 1; f */
    0x02, 0x00, 0x00, 0x00, 0x00, 0x00, 0x00, 0x00,              /* 7: variable 0; n */
    0x01, 0x00, 0x00, 0x01, 0x00, 0x00, 0x00, 0x00,              /* 8: number 1 */
    0x0C, 0x00, 0x00, 0x07, 0x00, 0x08, 0x00, 0x00,              /* 9: difference (7, 8) */
    0x05, 0x00, 0x00, 0x06, 0x00, 0x09, 0x00, 0x00,              /* 10: call (6, 9); f(n - 1) */
    0x0B, 0x00, 0x00, 0x05, 0x00, 0x0A, 0x00, 0x00,              /* 11: sum (5, 10) */
    0x06, 0x00, 0x00, 0x02, 0x00, 0x03, 0x00, 0x0B,              /* 12: if (2, 3, 11) */
    0x09, 0x00, 0x00, 0x0C, 0x00, 0x00, 0x00, 0x00,              /* 13: sign 0 (12); the body of f */
    0x02, 0x00, 0x00, 0x00, 0x00, 0x00, 0x00, 0x00,              /* 14: variable 0; f */
    0x01, 0x00, 0x00, 0x0A, 0x00, 0x00, 0x00, 0x00,              /* 15: number 10 */
    0x05, 0x00, 0x00, 0x0E, 0x00, 0x0F, 0x00, 0x00,              /* 16: call (14, 15); f(10) */
    0x04, 0x00, 0x00, 0x02, 0x00, 0x0D, 0x00, 0x10,              /* 17: letrec of type 2 (13, 16) */
    0x09, 0x00, 0x00, 0x11, 0x00, 0x00, 0x00, 0x00,              /* 18: sign 0 (17); the root */
};

/* A new block is all zero. */
static uint8_t block[SOVZEDAL_BLOCK];

/* The largest buffers: a block's runs take no others. */
static uint8_t cells[SOVZEDAL_MAX_CELLS];
static uint32_t posts[SOVZEDAL_MAX_POSTS];

static uint32_t answer[SOVZEDAL_ANSWER];

static uint8_t read_byte(uint32_t address)
{
    sovzedal_block_read(block, sizeof block, address, answer, SOVZEDAL_ANSWER);
    return (uint8_t)answer[SOVZEDAL_AT_VALUE];
}

/* The highest byte of a pair comes first. */
static unsigned read_pair(uint32_t address)
{
    unsigned high = read_byte(address);

    return 256 * high + read_byte(address + 1);
}

static void write_byte(uint32_t address, uint8_t value)
{
    sovzedal_block_write(block, sizeof block, address, value,
                         sheet, sizeof sheet,
                         cells, sizeof cells,
                         posts, SOVZEDAL_MAX_POSTS,
                         answer, SOVZEDAL_ANSWER);
}

static void write_pair(uint32_t address, unsigned value)
{
    write_byte(address, (uint8_t)(value / 256));
    write_byte(address + 1, (uint8_t)(value % 256));
}

/* Every access tells whether the interrupt is raised after it. */
static const char *interrupt(void)
{
    return answer[SOVZEDAL_AT_INTERRUPT] ? "raised" : "not raised";
}

static void print_cause(const char *what)
{
    unsigned cause = read_byte(SOVZEDAL_REG_CAUSE);

    printf("%s, %u (%s) at %u",
           what, cause, sovzedal_cause_text(cause), read_pair(SOVZEDAL_REG_PLACE));
}

/* Says how the run went. A refused run tells no calls. */
static void print_outcome(uint8_t status)
{
    if (status == SOVZEDAL_STATUS_REFUSED) {
        print_cause("refused");
    } else {
        if (status == SOVZEDAL_STATUS_STOPPED) {
            print_cause("stopped");
        } else {
            printf("ended, value %u", read_pair(SOVZEDAL_REG_VALUE));
        }
        printf(", calls %u", read_pair(SOVZEDAL_REG_CALLS_MADE));
    }
    printf("\n");
}

static void run(uint8_t mask, unsigned calls)
{
    uint8_t status;

    write_byte(SOVZEDAL_REG_MASK, mask);
    write_pair(SOVZEDAL_REG_CALLS, calls);
    write_byte(SOVZEDAL_REG_COMMAND, SOVZEDAL_COMMAND_RUN);
    printf("mask %u, calls %u: interrupt %s\n", mask, calls, interrupt());

    status = read_byte(SOVZEDAL_REG_STATUS);
    printf("  status %u: ", status);
    print_outcome(status);

    /* Writing back the bits that were read clears these and no others. */
    write_byte(SOVZEDAL_REG_STATUS, status);
    printf("  cleared: interrupt %s\n", interrupt());
}

int main(void)
{
    const uint8_t faults = SOVZEDAL_STATUS_STOPPED | SOVZEDAL_STATUS_REFUSED;

    run(SOVZEDAL_STATUS_ENDED, 4096);
    run(faults, 4096);
    run(faults, 10);
    run(faults, 5000);  /* more than may be allowed */

    /* The first address past the block. How a run went is told by registers;
     * a wrong address is told at once. */
    read_byte(SOVZEDAL_BLOCK);
    printf("address %d: refused, %u (%s)\n",
           SOVZEDAL_BLOCK, (unsigned)answer[SOVZEDAL_AT_CAUSE],
           sovzedal_cause_text(answer[SOVZEDAL_AT_CAUSE]));
    return 0;
}
