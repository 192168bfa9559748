/* Oboeridge: calls on maps that are linear quadtrees, each proved for every input.
 *
 * A map of size n has 2^n rows and columns, n from 0 to 12; row 0 is north, column 0 is west. Its list is sorted leaves, one word each:
 * code * 65536 + level * 256 + colour, 0 being WHITE. A raster is one byte a cell, row by row.
 *
 * Every call answers one number. What is given is the value alone, below 2^32; a refusal is rule * 2^32 + number, with the rule and the
 * number of the table of refusals (OBOE_RULE and OBOE_NUMBER take it apart). A refusal changes nothing in the memory that was lent.
 * OBOE_UNNAMED is answered, and nothing changed, where an operation or a direction has no such number, or where fewer than two numbers are lent for
 * a shift.
 *
 * The caller owes what C cannot check: each pointer is good for its length, and the memory lent to be written overlaps no other. A pointer
 * may be null only where its length is 0.
 */
#ifndef OBOERIDGE_H
#define OBOERIDGE_H

#include <stddef.h>
#include <stdint.h>

#ifdef __cplusplus
extern "C" {
#endif

#define OBOE_UNNAMED UINT64_MAX
#define OBOE_RULE(answer) ((answer) >> 32)
#define OBOE_NUMBER(answer) ((answer) & UINT32_MAX)

/* Operations. */
enum { OBOE_INTERSECTION = 0, OBOE_UNION = 1, OBOE_DIFFERENCE = 2 };

/* Directions, clockwise from north. */
enum {
    OBOE_NORTH = 0,
    OBOE_NORTH_EAST = 1,
    OBOE_EAST = 2,
    OBOE_SOUTH_EAST = 3,
    OBOE_SOUTH = 4,
    OBOE_SOUTH_WEST = 5,
    OBOE_WEST = 6,
    OBOE_NORTH_WEST = 7
};

/* The number of leaves of a list that is well formed for a map of size n. Refusals: 1, 3. */
uint64_t oboe_check(uint64_t n, const uint64_t *list, size_t len);

/* The colour of a cell. Refusals: 1, 3, 9. */
uint64_t oboe_lookup(uint64_t n, const uint64_t *list, size_t len, int64_t row, int64_t column);

/* The code of the block of the same level one side away. Refusals: 1, 12, 9. */
uint64_t oboe_neighbour(uint64_t n, uint64_t code, uint64_t level, uint64_t direction);

/* The shift of a place in cells: 0, and dy and dx in shift[0] and shift[1]. Refusal: 2. */
uint64_t oboe_place_cells(int64_t dy, int64_t dx, int64_t *shift, size_t shift_len);

/* The shift of a place on the ground: the north and the east of each map's north-west corner, and the side of its cells. As above.
 * Refusals: 6, 7, 8, 2. */
uint64_t oboe_place_ground(double north1, double east1, double cell1, double north2, double east2, double cell2, int64_t *shift,
                           size_t shift_len);

/* The shortest list of a window of one map, in out, and the number of its leaves; the words past them are kept. Refusals: 1, 2, 3, 5. */
uint64_t oboe_window(uint64_t n, const uint64_t *list, size_t len, int64_t wy, int64_t wx, uint64_t w, uint64_t *out, size_t out_len);

/* The shortest list of two maps under an operation, the second's upper left cell lying dy rows south and dx columns east of the first's,
 * seen through a window; as above. Refusals: 1, 2, 3, 4, 5. */
uint64_t oboe_overlay(uint64_t operation, uint64_t n, const uint64_t *first, size_t first_len, uint64_t m, const uint64_t *second,
                      size_t second_len, int64_t dy, int64_t dx, int64_t wy, int64_t wx, uint64_t w, uint64_t *out, size_t out_len);

/* The same over the first map's own square. */
uint64_t oboe_overlay_own(uint64_t operation, uint64_t n, const uint64_t *first, size_t first_len, uint64_t m, const uint64_t *second,
                          size_t second_len, int64_t dy, int64_t dx, uint64_t *out, size_t out_len);

/* The shortest list of a raster, in out, and the number of its leaves. Refusals: 1, 10, 5. */
uint64_t oboe_to_list(uint64_t n, const uint8_t *cells, size_t cells_len, uint64_t *out, size_t out_len);

/* The raster of a list, in cells, and the number of its cells. Refusals: 1, 10, 3. */
uint64_t oboe_to_raster(uint64_t n, const uint64_t *list, size_t len, uint8_t *cells, size_t cells_len);

#ifdef __cplusplus
}
#endif

#endif
