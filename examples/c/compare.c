/* Holds the records of four units against the office's record of the same run:
 * one that has dropped entries, one that has decided otherwise, one in which
 * two entries have changed places, and one that was cut while it was copied.
 */
#include <inttypes.h>
#include <stdio.h>

#include "sovzedal.h"

/* An entry: a term, a privilege, and whether the answer was yes. */
#define ENTRY(term, privilege, yes) (term) >> 8, (term) & 255, (privilege), (yes)

static const uint8_t office[] = {
    ENTRY(12, 0, 1), ENTRY(17, 3, 0), ENTRY(12, 0, 1), ENTRY(300, 5, 1), ENTRY(12, 0, 1)
};

static const uint8_t dropped[] = {
    ENTRY(12, 0, 1), ENTRY(300, 5, 1), ENTRY(12, 0, 1)
};

static const uint8_t otherwise[] = {
    ENTRY(12, 0, 1), ENTRY(17, 3, 1), ENTRY(300, 5, 1), ENTRY(12, 0, 1)
};

static const uint8_t swapped[] = {
    ENTRY(12, 0, 1), ENTRY(300, 5, 1), ENTRY(17, 3, 0), ENTRY(12, 0, 1)
};

/* Says what holding a unit's record against the office's tells. */
static void hold(const char *name, const uint8_t *unit, size_t unit_len)
{
    uint32_t answer[SOVZEDAL_ANSWER], status;

    status = sovzedal_compare(unit, unit_len, office, sizeof office, answer, SOVZEDAL_ANSWER);
    printf("%s, %zu bytes: ", name, unit_len);
    if (status == SOVZEDAL_REFUSED) {
        printf("refused, %" PRIu32 "\n", answer[SOVZEDAL_AT_CAUSE]);
    } else if (answer[SOVZEDAL_AT_FITS]) {
        printf("fits, %" PRIu32 " missing\n", answer[SOVZEDAL_AT_ENTRIES]);
    } else {
        printf("does not fit from entry %" PRIu32 " on\n", answer[SOVZEDAL_AT_ENTRIES]);
    }
}

int main(void)
{
    hold("the office's own", office, sizeof office);
    hold("entries dropped", dropped, sizeof dropped);
    hold("decided otherwise", otherwise, sizeof otherwise);
    hold("two swapped", swapped, sizeof swapped);
    hold("cut", dropped, sizeof dropped - 1);
    return 0;
}
