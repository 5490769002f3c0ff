/* Runs the sale on standard input and prints its report; the exit status is 0 or the refusal. With the
 * argument `fine` it goes through the superfine desk's entry, lent no more than that needs. */
#include <stdio.h>
#include <string.h>

#include "kapokdrill.h"

/* One byte more than a file may have, so that a longer one is seen to be longer. */
static uint8_t file[60001];
static kapokdrill_lot lots[KAPOKDRILL_VERTICES];
static uint8_t output[KAPOKDRILL_OUTPUT];
static uint16_t loadedpins[KAPOKDRILL_PINS], presentpins[KAPOKDRILL_PINS];
static uint16_t firsts[KAPOKDRILL_NETS];
static uint16_t loadedsizes[KAPOKDRILL_NETS], presentsizes[KAPOKDRILL_NETS];
static uint16_t counts[KAPOKDRILL_COUNTS];
static int32_t gains[KAPOKDRILL_GAINS];
/* Not called `index`, which is a function of some C libraries. */
static uint16_t move_index[KAPOKDRILL_INDEX];
static uint16_t visited[KAPOKDRILL_NETS];

int main(int count, char **words) {
    bool fine = count > 1 && strcmp(words[1], "fine") == 0;
    kapokdrill_entry *run = fine ? kapokdrill_run_fine : kapokdrill_run;
    size_t length = fread(file, 1, sizeof file, stdin);
    kapokdrill_result result = run(
        file, length, lots, fine ? KAPOKDRILL_FINE_VERTICES : KAPOKDRILL_VERTICES,
        output, KAPOKDRILL_OUTPUT,
        loadedpins, KAPOKDRILL_PINS, presentpins, KAPOKDRILL_PINS, firsts, KAPOKDRILL_NETS,
        loadedsizes, KAPOKDRILL_NETS, presentsizes, KAPOKDRILL_NETS, counts, KAPOKDRILL_COUNTS,
        gains, fine ? KAPOKDRILL_FINE_GAINS : KAPOKDRILL_GAINS,
        move_index, fine ? KAPOKDRILL_FINE_INDEX : KAPOKDRILL_INDEX, visited, KAPOKDRILL_NETS);
    fwrite(output, 1, result.written, stdout);
    return (int)result.code;
}
