/* Reads the sheet in a .hex file, for the examples beside it.
 *
 * A .hex file has two hexadecimal digits a byte. Blanks are skipped, and so is
 * everything from a # to the end of its line.
 */
#ifndef HEX_H
#define HEX_H

#include <ctype.h>
#include <stdio.h>

#include "sovzedal.h"

/* One byte more than the longest readable sheet: the library refuses it. */
static uint8_t sheet[SOVZEDAL_MAX_SHEET + 1];

static unsigned digit(int c)
{
    return (unsigned)(isdigit(c) ? c - '0' : toupper(c) - 'A' + 10);
}

static void skip_line(FILE *file)
{
    int c;

    do {
        c = getc(file);
    } while (c != EOF && c != '\n');
}

/* Fills `sheet`, as far as it goes, from a .hex file. Returns the number of
 * bytes, or -1 if reading fails or the file is no .hex file. */
static long read_sheet(FILE *file)
{
    size_t digits = 0;
    int c;

    while (digits < 2 * sizeof sheet && (c = getc(file)) != EOF) {
        if (c == '#') {
            skip_line(file);
        } else if (isxdigit(c)) {
            uint8_t *byte = &sheet[digits / 2];
            *byte = (uint8_t)(*byte * 16u + digit(c));
            digits++;
        } else if (!isspace(c)) {
            return -1;
        }
    }
    return ferror(file) || digits % 2 != 0 ? -1 : (long)(digits / 2);
}

/* The same by the file's name. Says why if there is no sheet. */
static long load_sheet(const char *path)
{
    FILE *file = fopen(path, "r");
    long sheet_len;

    if (file == NULL) {
        perror(path);
        return -1;
    }
    sheet_len = read_sheet(file);
    if (ferror(file)) {
        perror(path);
    } else if (sheet_len < 0) {
        fprintf(stderr, "%s: not two hexadecimal digits a byte\n", path);
    }
    fclose(file);
    return sheet_len;
}

#endif
