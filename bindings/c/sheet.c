/* Prints one buyer's sheet of the sale on standard input in plain words: the sessions to sit in, and the
 * lots marked in each. The buyer's number is the argument; without it buyer 1. The exit status is 0, the
 * refusal, or 64 for a number that names no buyer. */
#include <stdio.h>
#include <stdlib.h>
#include <string.h>

#include "kapokdrill.h"

#define NO_SUCH_BUYER 64

/* One byte more than a file may have, so that a longer one is seen to be longer. */
static uint8_t file[60001];
/* A byte more here too, for the 0 that ends a text in C. */
static char output[KAPOKDRILL_SHEETS_OUTPUT + 1];

/* The line behind this one. */
static const char *next(const char *line) { return strchr(line, '\n') + 1; }

/* Prints a buyer's part of the sheets; false if there is none. */
static bool in_words(const char *sheets, int buyer) {
    int number, visited, session, lot, last = 0;
    for (const char *line = sheets; *line != 0; line = next(line)) {
        if (sscanf(line, "SHEET,%d,%d", &number, &visited) != 2 || number != buyer)
            continue;
        printf("buyer %d, sessions to sit in: %d", buyer, visited);
        for (line = next(line); sscanf(line, "AT,%d,%d", &session, &lot) == 2; line = next(line)) {
            if (session == last)
                printf(", %d", lot);
            else
                printf("\nsession %d: lots %d", session, lot);
            last = session;
        }
        printf("\n");
        return true;
    }
    return false;
}

int main(int count, char **words) {
    int buyer = count > 1 ? atoi(words[1]) : 1;
    size_t length = fread(file, 1, sizeof file, stdin);
    kapokdrill_sheets_result result =
        kapokdrill_sheets(file, length, (uint8_t *)output, KAPOKDRILL_SHEETS_OUTPUT);
    output[result.written] = 0;
    if (result.code != 0) {
        fputs(output, stdout);
        return (int)result.code;
    }
    if (!in_words(output, buyer)) {
        fprintf(stderr, "no buyer %d\n", buyer);
        return NO_SUCH_BUYER;
    }
    return 0;
}
