/* Runs the sheet in a .hex file for the office and for a unit, each with a
 * record of what is decided, and holds the unit's against the office's after the
 * unit has dropped every second entry.
 *
 *     record FILE
 *
 * The exit status is 0 if the run ended, 1 if the sheet was refused or stopped,
 * and 2 if the file could not be read.
 */
#include <inttypes.h>
#include <stdio.h>
#include <string.h>

#include "hex.h"

enum {
    ENTRIES = 1000  /* that a record has room for; a run may decide more */
};

static uint8_t cells[SOVZEDAL_MAX_CELLS];
static uint32_t posts[SOVZEDAL_MAX_POSTS];
static uint32_t frames[SOVZEDAL_FRAMES];

static uint8_t office[ENTRIES * SOVZEDAL_ENTRY];
static uint8_t unit[ENTRIES * SOVZEDAL_ENTRY];

static uint32_t answer[SOVZEDAL_RECORD_ANSWER];

static void print_record(const uint8_t *record, uint32_t entries)
{
    uint32_t k;

    for (k = 0; k < entries; k++) {
        const uint8_t *entry = record + k * SOVZEDAL_ENTRY;

        printf("entry %" PRIu32 ": term %u, privilege %u, %s\n",
               k, 256u * entry[0] + entry[1], entry[2], entry[3] ? "yes" : "no");
    }
}

/* The office runs lazily: whichever runner it is, the record is the same. */
static uint32_t run_office(size_t sheet_len)
{
    uint32_t status = sovzedal_record_lazy(sheet, sheet_len, NULL, 0,
                                           SOVZEDAL_MAX_CALLS, SOVZEDAL_MAX_DEPTH, 1,
                                           cells, sizeof cells,
                                           posts, SOVZEDAL_MAX_POSTS,
                                           frames, SOVZEDAL_FRAMES,
                                           office, sizeof office,
                                           answer, SOVZEDAL_RECORD_ANSWER);

    if (status == SOVZEDAL_OK) {
        printf("ended in %" PRIu32 "\n", answer[SOVZEDAL_AT_VALUE]);
    } else {
        printf("%s, %" PRIu32 " (%s) at %" PRIu32 "\n",
               status == SOVZEDAL_STOPPED ? "stopped" : "refused",
               answer[SOVZEDAL_AT_CAUSE], sovzedal_cause_text(answer[SOVZEDAL_AT_CAUSE]),
               answer[SOVZEDAL_AT_PLACE]);
    }
    return status;
}

/* The unit runs eagerly. Gives how many entries are left of its record. */
static uint32_t run_unit(size_t sheet_len)
{
    uint32_t recorded, kept = 0, k;

    sovzedal_record_eager(sheet, sheet_len, NULL, 0,
                          SOVZEDAL_MAX_CALLS, SOVZEDAL_MAX_DEPTH, 1,
                          cells, sizeof cells,
                          posts, SOVZEDAL_MAX_POSTS,
                          unit, sizeof unit,
                          answer, SOVZEDAL_RECORD_ANSWER);
    recorded = answer[SOVZEDAL_AT_RECORDED];
    for (k = 0; k < recorded; k += 2) {
        memmove(unit + kept * SOVZEDAL_ENTRY, unit + k * SOVZEDAL_ENTRY, SOVZEDAL_ENTRY);
        kept++;
    }
    return kept;
}

/* Says what holding the unit's record against the office's tells. */
static void hold(const char *name, uint32_t unit_entries, uint32_t office_entries)
{
    sovzedal_compare(unit, unit_entries * SOVZEDAL_ENTRY,
                     office, office_entries * SOVZEDAL_ENTRY,
                     answer, SOVZEDAL_ANSWER);
    printf("%s: ", name);
    if (answer[SOVZEDAL_AT_FITS]) {
        printf("fits, %" PRIu32 " missing\n", answer[SOVZEDAL_AT_ENTRIES]);
    } else {
        printf("does not fit from entry %" PRIu32 " on\n", answer[SOVZEDAL_AT_ENTRIES]);
    }
}

int main(int argc, char **argv)
{
    uint32_t status, decided, kept;
    long sheet_len;

    if (argc != 2) {
        fprintf(stderr, "usage: record FILE\n");
        return 2;
    }
    sheet_len = load_sheet(argv[1]);
    if (sheet_len < 0) {
        return 2;
    }
    status = run_office((size_t)sheet_len);
    if (status == SOVZEDAL_REFUSED) {
        return 1;
    }
    decided = answer[SOVZEDAL_AT_RECORDED];
    print_record(office, decided);
    kept = run_unit((size_t)sheet_len);
    hold("every second entry dropped", kept, decided);
    if (kept > 0) {
        unit[kept * SOVZEDAL_ENTRY - 1] ^= 1;
        hold("the last one turned", kept, decided);
    }
    return status == SOVZEDAL_OK ? 0 : 1;
}
