/* Runs the hall on standard input and prints its report; the exit status is 0 or the refusal. */
#include <stdio.h>

#include "kapokdrill.h"

/* One byte more than a file may have, so that a longer one is seen to be longer. */
static uint8_t file[60001];
static kapokdrill_lot lots[KAPOKDRILL_HALL_VERTICES];
static uint8_t output[KAPOKDRILL_OUTPUT];
static uint16_t loadedpins[KAPOKDRILL_SETS][KAPOKDRILL_PINS], presentpins[KAPOKDRILL_SETS][KAPOKDRILL_PINS];
static uint16_t firsts[KAPOKDRILL_SETS][KAPOKDRILL_NETS];
static uint16_t loadedsizes[KAPOKDRILL_SETS][KAPOKDRILL_NETS], presentsizes[KAPOKDRILL_SETS][KAPOKDRILL_NETS];
static uint16_t counts[KAPOKDRILL_SETS][KAPOKDRILL_COUNTS];
static int32_t gains[KAPOKDRILL_SETS][KAPOKDRILL_GAINS];
/* Not called `index`, which is a function of some C libraries. */
static uint16_t move_index[KAPOKDRILL_SETS][KAPOKDRILL_INDEX];
static uint16_t visited[KAPOKDRILL_SETS][KAPOKDRILL_NETS];

int main(void) {
    size_t length = fread(file, 1, sizeof file, stdin);
    kapokdrill_result result = kapokdrill_hall(
        file, length, lots, KAPOKDRILL_HALL_VERTICES, output, KAPOKDRILL_OUTPUT,
        loadedpins, KAPOKDRILL_SETS, presentpins, KAPOKDRILL_SETS, firsts, KAPOKDRILL_SETS,
        loadedsizes, KAPOKDRILL_SETS, presentsizes, KAPOKDRILL_SETS, counts, KAPOKDRILL_SETS,
        gains, KAPOKDRILL_SETS, move_index, KAPOKDRILL_SETS, visited, KAPOKDRILL_SETS);
    fwrite(output, 1, result.written, stdout);
    return (int)result.code;
}
