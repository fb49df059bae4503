/*
 * The calls on a boundary-scan chain, over those of fontarelga.h. Row numbers, lists and refusals are as there.
 */
#ifndef FONTARELGA_CHAIN_H
#define FONTARELGA_CHAIN_H

#include "fontarelga.h"

/* The most that a chain and the clocks for it may have. */
#define FONTARELGA_MOST_CELLS 200
#define FONTARELGA_MOST_CLOCKS 13325

#ifdef __cplusplus
extern "C" {
#endif

/* A chain of boundary-scan cells, of one chip or of several: cells is L, 2 to 200, counted from TDO, so that cell 0 is
 * nearest to it. driver_cells has the cell of each net's driver, one for each net; receiver_cells has the cell of each
 * receiver, one for each. No cell stands twice in the two lists. Cells in neither are idle. Row 18: anything else.
 *
 * A clock is a byte, TMS in bit 0 and TDI in bit 1. A pod plays the bytes in order. For each it sets TMS and TDI, then
 * samples TDO, then lets TCK rise, and then lets it fall. What it samples it keeps as a byte 0 or 1 for each clock. */
#define FONTARELGA_CLOCK_TMS 1
#define FONTARELGA_CLOCK_TDI 2

/* The clocks that drive a test set by IEEE 1149.1, with EXTEST loaded already, from Run-Test/Idle and back to it: a
 * scan for each vector, and a last one that repeats the last vector, by which what is read of it comes out. A scan has
 * TMS 1, 0, 0, then cells shift clocks with TMS 1 on the last, then 1, 0. TDI is 0 outside the shift; shift clock j
 * carries cell j's bit. A driver's cell gets the bit of its net, and every other cell gets 0, also one that controls
 * whether an output drives. clocks must have room for (vectors_len + 1) * (cells + 5) bytes.
 * Rows 5, 21, 7, 8, 18, 12. */
uint64_t fontarelga_write_clocks(uint64_t nets, const uint64_t *receivers, size_t receivers_len,
                                 const uint64_t *vectors, size_t vectors_len, uint64_t cells,
                                 const uint64_t *driver_cells, size_t driver_cells_len,
                                 const uint64_t *receiver_cells, size_t receiver_cells_len, uint8_t *clocks,
                                 size_t clocks_len);

/* The responses to count vectors, 1 to 64, a word for each, from TDO at each of the clocks written for them. The
 * capture of each scan but the first answers the vector before it. Outside the shift, and in the first scan, it does
 * not matter whether TDO is 0 or 1. Rows 5, 21, 7 (count), 18, 19 (tdo has not (count + 1) * (cells + 5) bytes, or one
 * is above 1), 12. */
uint64_t fontarelga_read_clocks(uint64_t nets, const uint64_t *receivers, size_t receivers_len, uint64_t count,
                                uint64_t cells, const uint64_t *driver_cells, size_t driver_cells_len,
                                const uint64_t *receiver_cells, size_t receiver_cells_len, const uint8_t *tdo,
                                size_t tdo_len, uint64_t *responses, size_t responses_len);

#ifdef __cplusplus
}
#endif

#endif
