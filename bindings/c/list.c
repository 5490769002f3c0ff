/* Runs a list of calls on the catalogue on standard input, apart from it, and prints their answers:
 * lot 1 is withdrawn, a lot of 10 bales comes to session 1 for buyers 1 and 2, and lot 5 is joined
 * into lot 2. The exit status is 0 or the refusal. */
#include <stdio.h>

#include "kapokdrill.h"

/* One byte more than a file may have, so that a longer one is seen to be longer. */
static uint8_t file[60001];
static uint8_t output[KAPOKDRILL_OUTPUT];
static uint32_t weights[KAPOKDRILL_VERTICES];
static uint16_t blocks[KAPOKDRILL_VERTICES], aboves[KAPOKDRILL_VERTICES], fixed[KAPOKDRILL_VERTICES];
static uint16_t loadedpins[KAPOKDRILL_PINS], presentpins[KAPOKDRILL_PINS];
static uint16_t firsts[KAPOKDRILL_NETS];
static uint16_t loadedsizes[KAPOKDRILL_NETS], presentsizes[KAPOKDRILL_NETS];
static uint16_t counts[KAPOKDRILL_COUNTS];
static int32_t gains[KAPOKDRILL_GAINS];
/* Not called `index`, which is a function of some C libraries. */
static uint16_t move_index[KAPOKDRILL_INDEX];
static uint16_t visited[KAPOKDRILL_NETS];

int main(void) {
    /* N's own numbers stand in the operands, from place 0 on, four of them. */
    static const uint32_t operands[] = {10, 1, 1, 2};
    static const uint32_t list[] = {'X', 1, 0, 'N', 0, 4, 'J', 2, 5};
    size_t length = fread(file, 1, sizeof file, stdin);
    kapokdrill_list_result result = kapokdrill_list(
        file, length, list, sizeof list / sizeof *list, operands, sizeof operands / sizeof *operands,
        output, KAPOKDRILL_OUTPUT,
        weights, KAPOKDRILL_VERTICES, blocks, KAPOKDRILL_VERTICES, aboves, KAPOKDRILL_VERTICES,
        fixed, KAPOKDRILL_VERTICES,
        loadedpins, KAPOKDRILL_PINS, presentpins, KAPOKDRILL_PINS, firsts, KAPOKDRILL_NETS,
        loadedsizes, KAPOKDRILL_NETS, presentsizes, KAPOKDRILL_NETS, counts, KAPOKDRILL_COUNTS,
        gains, KAPOKDRILL_GAINS, move_index, KAPOKDRILL_INDEX, visited, KAPOKDRILL_NETS);
    fwrite(output, 1, result.written, stdout);
    if (result.code == 0)
        printf("total %u, joins %u\n", (unsigned)result.total, (unsigned)result.stack.depth);
    return (int)result.code;
}
