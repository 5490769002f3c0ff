/* The proved splitter as C functions: a sale file, or a hall of several, in, its report and its tables out.
 * Link target/staticlib/libengine.a; for kapokdrill_convert target/staticlib/libhgr.a; and for
 * kapokdrill_sheets target/staticlib/libsheets.a. `bash tools/archives` writes all three.
 *
 * The functions keep nothing between calls, so calls on different memory may run at the same time.
 * Beside what they are lent they need no heap, and some stack: 0.6 MB for a sale and 1 MB for a hall,
 * measured with an older kit. Lent memory needs no clearing beforehand.
 *
 * Each pointer is followed by the number of entries (not bytes) that it may use; pieces of lent
 * memory must not overlap. A pointer must not be null, even with 0 entries.
 *
 * Vertices are lots, nets are buyers, pins are marks and blocks are sessions; all count from 1. */
#ifndef KAPOKDRILL_H
#define KAPOKDRILL_H

#include <stdbool.h>
#include <stddef.h>
#include <stdint.h>

#ifdef __cplusplus
extern "C" {
#endif

/* Entries that each piece of lent memory must have at least. */
#define KAPOKDRILL_OUTPUT 60000
#define KAPOKDRILL_VERTICES 1024
#define KAPOKDRILL_NETS 1024
#define KAPOKDRILL_PINS 8192
#define KAPOKDRILL_COUNTS 16384
#define KAPOKDRILL_GAINS 16384
#define KAPOKDRILL_INDEX 16384
/* At the superfine desk's entry three of them are less. */
#define KAPOKDRILL_FINE_VERTICES 256
#define KAPOKDRILL_FINE_GAINS 4096
#define KAPOKDRILL_FINE_INDEX 4096
/* The hall's entry is lent so many sets of tables, one for each catalogue that a hall may have. */
#define KAPOKDRILL_SETS 4
/* Its lots are the sets' records in a row, KAPOKDRILL_VERTICES to a set. */
#define KAPOKDRILL_HALL_VERTICES 4096
/* The output of kapokdrill_sheets is longer. */
#define KAPOKDRILL_SHEETS_OUTPUT 122880

typedef struct {
    /* 0, or the number under which the file was turned down:
     *   1 over 60,000 bytes         5 the 8,193rd mark
     *   2 badly written             6 a session of the draft above its cap
     *   3 a field out of range      7 the 513th call line
     *   4 a lot twice with a buyer  8 lent memory shorter than above
     *                              21 a low above its high
     *                              24 a hall's drafts above its limit together */
    uint32_t code;
    /* The bytes of `output` that hold the report: 0 under 8, one line `NO,number,line` under 1 to 7, 21
     * and 24. */
    size_t written;
} kapokdrill_result;

/* A lot's record; all 0 for a withdrawn lot, and a lot that was added under its number is not kept. */
typedef struct {
    /* Its bales, with those of the lots joined into it; off the board, what it had when joined. */
    uint32_t bales;
    /* Its session; 0 off the board. */
    uint16_t session;
    /* The lot that it was joined into; 0 on the board. */
    uint16_t above;
    /* 1 for a lot whose line ends in `,K`, else 0; joins leave it alone. */
    uint16_t kept;
} kapokdrill_lot;

/* Reads a sale file, runs its calls and writes the report.
 *
 * Under 0 the tables hold the sale as the calls left it: a lot's record is at number - 1, a net's
 * entry likewise, and those of counts and gains at 16 * (number - 1) + block - 1. Entries that the
 * sale has no use for, and output past the report, keep what they held; but once an X or N was
 * accepted, both tables of pins hold 0 from the last pin to place KAPOKDRILL_PINS. Under 1 to 7 and 21
 * the tables hold nothing of use; under 8 nothing is touched. */
typedef kapokdrill_result kapokdrill_entry(
    const uint8_t *file, size_t file_length,
    kapokdrill_lot *lots, size_t lots_length,
    uint8_t *output, size_t output_length,
    /* All pins, net by net without gaps, in the file's order: those of withdrawn lots taken out, and
     * an added lot's behind the net's others. */
    uint16_t *loadedpins, size_t loadedpins_length,
    /* The pins as they stand, each net's from the same place on, the lowest first; behind them, to
     * the end of the net's stretch, the pins that joins took out, the last one first: of each join
     * of two vertices that the net had both as present pins at that time, the one that left the
     * board. */
    uint16_t *presentpins, size_t presentpins_length,
    /* Where a net's stretch begins in both tables of pins, from 0. */
    uint16_t *firsts, size_t firsts_length,
    /* How many pins a net has in each of the two. */
    uint16_t *loadedsizes, size_t loadedsizes_length,
    uint16_t *presentsizes, size_t presentsizes_length,
    /* How many present pins a net has in a block. */
    uint16_t *counts, size_t counts_length,
    /* By how much the total falls if the lot goes to the block; 0 at its own and off the board. */
    int32_t *gains, size_t gains_length,
    /* The moves of each lot in the order of choice; the row of lot v begins at 16 * (v - 1). Of k
     * blocks, its first k entries are in use: on the board the k - 1 other blocks, gain descending,
     * then block ascending, and one 0 behind them; off the board 0 in all k. */
    uint16_t *index, size_t index_length,
    /* The blocks that a net visits: block s is bit s - 1 from the lowest. */
    uint16_t *visited, size_t visited_length);

/* The main entry: 1,024 lots and 16 sessions. */
kapokdrill_entry kapokdrill_run;

/* The superfine desk's entry: 257 lots or 9 sessions are out of range (3), and `lots` may have 256
 * records, `gains` and `index` 4,096 entries each. All else is as at the main entry. */
kapokdrill_entry kapokdrill_run_fine;

/* The hall's entry: reads a file of two to four catalogues that sell in one hall, runs the calls of all
 * of them and writes the answers, each led by its catalogue's number, then the closing reports in turn.
 * A file that is no hall's is badly written (2) here, as a hall's is at the other entries. An M, N or B
 * that takes a session above the hall's limit over all catalogues is answered `NO,25` behind the lead,
 * and changes nothing.
 *
 * Each table is lent as sets, an array of the main entry's length for each, and is followed by the number
 * of sets, not of entries. Fewer than KAPOKDRILL_SETS of any table, fewer than KAPOKDRILL_HALL_VERTICES
 * records or fewer than KAPOKDRILL_OUTPUT bytes is 8: nothing is touched, and 0 bytes are written.
 *
 * Under 0 set c - 1 holds catalogue c as the main entry leaves a sale's tables, and the record of its lot
 * v is at KAPOKDRILL_VERTICES * (c - 1) + v - 1. Sets past the last catalogue, records past a catalogue's
 * lots, output past the report and all that the main entry would leave alone keep what they held. Under 1
 * to 7, 21 and 24 the tables hold nothing of use. */
kapokdrill_result kapokdrill_hall(
    const uint8_t *file, size_t file_length,
    kapokdrill_lot *lots, size_t lots_length,
    uint8_t *output, size_t output_length,
    uint16_t (*loadedpins)[KAPOKDRILL_PINS], size_t loadedpins_sets,
    uint16_t (*presentpins)[KAPOKDRILL_PINS], size_t presentpins_sets,
    uint16_t (*firsts)[KAPOKDRILL_NETS], size_t firsts_sets,
    uint16_t (*loadedsizes)[KAPOKDRILL_NETS], size_t loadedsizes_sets,
    uint16_t (*presentsizes)[KAPOKDRILL_NETS], size_t presentsizes_sets,
    uint16_t (*counts)[KAPOKDRILL_COUNTS], size_t counts_sets,
    int32_t (*gains)[KAPOKDRILL_GAINS], size_t gains_sets,
    uint16_t (*index)[KAPOKDRILL_INDEX], size_t index_sets,
    uint16_t (*visited)[KAPOKDRILL_NETS], size_t visited_sets);

/* The joins that stand: lot gone[i] was joined into lot into[i], the earliest first; 0 from depth on. */
typedef struct {
    uint16_t into[KAPOKDRILL_VERTICES];
    uint16_t gone[KAPOKDRILL_VERTICES];
    size_t depth;
} kapokdrill_stack;

/* The record of moves: lot lots[i] left session sessions[i], the earliest first; 0 from length on. */
typedef struct {
    uint16_t lots[KAPOKDRILL_VERTICES];
    uint16_t sessions[KAPOKDRILL_VERTICES];
    size_t length;
} kapokdrill_record;

typedef struct {
    /* As in kapokdrill_result. The list is refused too, after 8 and before the file: 7 for more
     * than 512 calls, 2 where it is not three numbers for each call with a call's letter first, or
     * has an N with fewer than two operands or with operands past `operands_length`. Then nothing is
     * touched. */
    uint32_t code;
    /* The bytes of `output` that hold the lines of the answers, or the line of a refused file. */
    size_t written;
    /* The total after the calls, the joins that stand and the record of moves; 0 and none after a
     * refusal. */
    uint32_t total;
    kapokdrill_stack stack;
    kapokdrill_record record;
} kapokdrill_list_result;

/* Reads a sale file and runs a list of calls on its catalogue: three numbers for each call, the
 * letter's byte and two numbers, which are not looked at where the call has none. X has the lot as
 * the first of them. N has `first` and `count`: operands[first] to operands[first + count - 1] are
 * its bales, its session and its buyers. Calls that the file holds are read and do not run. The list
 * need not fit into a file with the catalogue. The fields of the lots' records are four tables here. */
kapokdrill_list_result kapokdrill_list(
    const uint8_t *file, size_t file_length,
    const uint32_t *list, size_t list_length,
    const uint32_t *operands, size_t operands_length,
    uint8_t *output, size_t output_length,
    /* bales, sessions, lots above and who is kept */
    uint32_t *weights, size_t weights_length,
    uint16_t *blocks, size_t blocks_length,
    uint16_t *aboves, size_t aboves_length,
    uint16_t *fixed, size_t fixed_length,
    uint16_t *loadedpins, size_t loadedpins_length,
    uint16_t *presentpins, size_t presentpins_length,
    uint16_t *firsts, size_t firsts_length,
    uint16_t *loadedsizes, size_t loadedsizes_length,
    uint16_t *presentsizes, size_t presentsizes_length,
    uint16_t *counts, size_t counts_length,
    int32_t *gains, size_t gains_length,
    uint16_t *index, size_t index_length,
    uint16_t *visited, size_t visited_length);

/* A stretch of a table of pins: its first place, from 0, and how many places it has. */
typedef struct {
    size_t first;
    size_t size;
} kapokdrill_stretch;

/* The stretch of presentpins that holds a net's present pins, or of loadedpins with its loaded ones.
 * A net number of 0 or above 1,024, a table below its length, or a stretch that reaches past its
 * table gives the empty stretch at the table's start. */
kapokdrill_stretch kapokdrill_pins(
    const uint16_t *loadedpins, size_t loadedpins_length,
    const uint16_t *presentpins, size_t presentpins_length,
    const uint16_t *firsts, size_t firsts_length,
    const uint16_t *loadedsizes, size_t loadedsizes_length,
    const uint16_t *presentsizes, size_t presentsizes_length,
    bool present, uint32_t net);

typedef struct {
    /* 0, or 8 for an output below KAPOKDRILL_OUTPUT bytes, 17 for a badly written input, 18 for one
     * that cannot be carried over, 19 for a listing of the wrong length or with an unknown block. */
    uint32_t code;
    /* The bytes of `output` that hold the catalogue, or the line `NO,number`; 0 under 8. */
    size_t written;
} kapokdrill_converted;

/* Turns an hMETIS file with its partition listing into a sale file without calls. Output past what
 * is written keeps what it held; under 8 nothing is touched. */
kapokdrill_converted kapokdrill_convert(
    const uint8_t *input, size_t input_length,
    uint8_t *output, size_t output_length);

typedef struct {
    /* 0, or 8 for an output below KAPOKDRILL_SHEETS_OUTPUT bytes, or the number under which the engine
     * turned the file down, as in kapokdrill_result. */
    uint32_t code;
    /* The bytes of `output` that hold the sheets, or the line `NO,number,line`; 0 under 8. */
    size_t written;
} kapokdrill_sheets_result;

/* Reads a sale file, runs its calls and writes the buyers' sheets: for each buyer a line
 * `SHEET,buyer,visited`, then `AT,session,lot` for each lot marked that is in the sale, by session and
 * then lot number. A joined lot has its own number and the session of the lot that stands for it. The
 * calls' answers are not written. Output past what is written keeps what it held; under 8 nothing is
 * touched. No tables are lent: the function has its own. */
kapokdrill_sheets_result kapokdrill_sheets(
    const uint8_t *file, size_t file_length,
    uint8_t *output, size_t output_length);

#ifdef __cplusplus
}
#endif

#endif
