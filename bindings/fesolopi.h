/* Fesolopi's calls for C and C++: link target/staticlib/libfesolopi.a, which tools/archive makes.
 *
 * What a caller must keep to, in every call:
 *   - a table is a pointer to its first element and its length in elements, and the length is true;
 *   - a pointer is aligned for what it points to, and not null, also where the length is 0;
 *   - no two of the tables and places for answers that one call is lent overlap.
 * That is all. Any numbers and any content of the tables are safe: a call does nothing undefined, it ends,
 * and what it cannot take it refuses by a number. docs/TABLES.md says what each place of a table holds.
 *
 * Calls on different tables may be made at the same time. */
#ifndef FESOLOPI_H
#define FESOLOPI_H

#include <stddef.h>
#include <stdint.h>
#ifndef __cplusplus
#include <stdbool.h>
#endif

#ifdef __cplusplus
extern "C" {
#endif

/* What the calls answer. 1 to 10 are document 01's numbers; no refusal's number comes near FESOLOPI_SPENT. */
enum {
    FESOLOPI_DONE = 0,            /* accepted, or synchronised, or found */
    FESOLOPI_BAD_LENGTH = 1,      /* a box length is not from 9 to 48 */
    FESOLOPI_BAD_COUNT = 2,       /* a count is out of range, or a table is shorter than the counts need */
    FESOLOPI_BAD_RATE = 3,        /* the sync rate is not from 2^-20 to 2^20 */
    FESOLOPI_BAD_GRAIN = 4,       /* a start number of a grain is out of range: its radius, 0.25 to 0.5, too */
    FESOLOPI_NOT_FINITE = 5,      /* halted: a number about to be stored is not finite, or an event is too late */
    FESOLOPI_EVENTS_FULL = 6,     /* halted: a cell holds its full number of events and one more is due */
    FESOLOPI_LIST_FULL = 7,       /* halted: a 33rd grain in a cell, or a 9th cell of a grain */
    FESOLOPI_LISTED_ALREADY = 8,  /* halted: a grain enters a cell that lists it already */
    FESOLOPI_ONLY_CELL = 9,       /* halted: a grain would leave its only cell */
    FESOLOPI_BROKEN_FACT = 10,    /* the tables break a standing fact */
    FESOLOPI_SPENT = 100          /* a run has spent its budget; it can go on */
};

/* Starts a simulation in the five tables: a box of lengths l0 and l1, periodic or between walls in each
 * direction, `room` places for events in each cell, and `count` grains.
 * inputs: six floats for each grain, x, y, vx, vy, its value and its radius, which it keeps for life.
 *
 *   0        accepted. Every place of the tables was cleared, and they hold the start.
 *   1, 2, 4  refused, and no table is changed.
 *   5 to 9   accepted and halted: what came before the refused act is done, and each run answers this number.
 *
 * *grain is the lowest bad grain where the answer is 4, and 0 otherwise. */
uint64_t fesolopi_start(double l0, double l1, bool periodic0, bool periodic1, uint64_t count, uint64_t room,
                        const double *inputs, size_t inputs_length,
                        uint64_t *lists, size_t lists_length,
                        double *grains, size_t grains_length,
                        uint64_t *queue, size_t queue_length,
                        double *events, size_t events_length,
                        uint8_t *order, size_t order_length,
                        uint64_t *grain);

/* Does events until one is a synchronisation or `budget` of them are done. `rate` is the time from one
 * synchronisation to the next.
 *
 *   0         the last event was a synchronisation.
 *   100       the budget is spent. A second run goes on as one longer run would have.
 *   5 to 9    halted, by this run or by what came before it.
 *   2, 3, 10  refused, and no table is changed.
 *
 * *clock and *done are the clock and the whole events done. Where the run is refused, or a halt came before
 * it, both are 0. */
uint64_t fesolopi_run(uint64_t *lists, size_t lists_length,
                      double *grains, size_t grains_length,
                      uint64_t *queue, size_t queue_length,
                      double *events, size_t events_length,
                      uint8_t *order, size_t order_length,
                      double rate, uint32_t budget, double *clock, uint64_t *done);

/* How long the tables of a start with these lengths and counts must be, in elements.
 *
 *   0     the six lengths are written.
 *   1, 2  a start with these would be refused so, whatever its tables; zeros are written. */
uint64_t fesolopi_needed(double l0, double l1, uint64_t count, uint64_t room,
                         uint64_t *inputs, uint64_t *lists, uint64_t *grains,
                         uint64_t *queue, uint64_t *events, uint64_t *order);

/* The square root of IEEE 754, rounded to nearest.
 *
 *   0  *root is the root.
 *   5  d is negative or a NaN, and *root is +0. */
uint64_t fesolopi_square_root(double d, double *root);

#ifdef __cplusplus
}
#endif

#endif
