/* The worked cases of the paper through the calls for C, and what the header says of numbers that name nothing. */
#include "oboeridge.h"

#include <stdio.h>
#include <string.h>

#define LENGTH(array) (sizeof(array) / sizeof((array)[0]))
#define REFUSAL(rule, number) (((uint64_t)(rule) << 32) + (number))

static int passed, failed;

static void expect(const char *what, uint64_t came, uint64_t expected)
{
    if (came == expected) {
        passed++;
        return;
    }
    failed++;
    printf("calls: %s: FAILED: %llu came, %llu expected\n", what, (unsigned long long)came, (unsigned long long)expected);
}

/* The words lent are as they should be, and the guard behind them is untouched. */
static void expect_words(const char *what, const uint64_t *came, const uint64_t *expected, size_t count)
{
    expect(what, (uint64_t)memcmp(came, expected, count * sizeof *came), 0);
}

static const uint64_t p[] = {257, 262144, 327680, 393216, 458753, 524544, 786689};
static const uint64_t s[] = {257};

static void lists(void)
{
    const uint64_t alike[] = {1, 65537, 131073, 196609}, short_one[] = {0, 65536, 131072};
    expect("check of P", oboe_check(2, p, LENGTH(p)), 7);
    expect("check of four alike brothers", oboe_check(1, alike, LENGTH(alike)), 4);
    expect("check of a list that stops short", oboe_check(1, short_one, LENGTH(short_one)), REFUSAL(3, 3));
    expect("check of no list", oboe_check(1, NULL, 0), REFUSAL(3, 0));
    expect("check of size 13", oboe_check(13, p, LENGTH(p)), REFUSAL(1, 0));
    expect("lookup", oboe_lookup(2, p, LENGTH(p), 1, 3), 1);
    expect("lookup of row -1", oboe_lookup(2, p, LENGTH(p), -1, 0), REFUSAL(9, 0));
    expect("neighbour", oboe_neighbour(3, 27, 0, OBOE_EAST), 30);
    expect("neighbour beyond", oboe_neighbour(2, 0, 1, OBOE_NORTH), REFUSAL(9, 0));
    expect("neighbour of no block", oboe_neighbour(2, 2, 1, OBOE_EAST), REFUSAL(12, 0));
    expect("a ninth direction", oboe_neighbour(3, 27, 0, 8), OBOE_UNNAMED);
}

static void places(void)
{
    int64_t shift[3] = {9, 9, 9};
    expect("place in cells", oboe_place_cells(3, -2, shift, 2), 0);
    expect("its pair", shift[0] == 3 && shift[1] == -2 && shift[2] == 9, 1);
    expect("place on the ground", oboe_place_ground(1000, 500, 10, 970, 520, 10, shift, 3), 0);
    expect("its pair", shift[0] == 3 && shift[1] == 2 && shift[2] == 9, 1);
    expect("25 south", oboe_place_ground(1000, 500, 10, 975, 520, 10, shift, 3), REFUSAL(8, 0));
    expect("cells of 5", oboe_place_ground(1000, 500, 10, 970, 520, 5, shift, 3), REFUSAL(7, 0));
    expect("a tenth", oboe_place_ground(1000, 500, 10, 0.1, 520, 10, shift, 3), REFUSAL(6, 3));
    expect("too far", oboe_place_cells(0, 65537, shift, 2), REFUSAL(2, 1));
    expect("no place for a pair", oboe_place_cells(4, 4, shift, 1), OBOE_UNNAMED);
    expect("the pair is kept", shift[0] == 3 && shift[1] == 2, 1);
}

static void overlays(void)
{
    const uint64_t ten[] = {0, 65536, 131072, 196609, 262400, 524544, 786433, 851968, 917504, 983040, 9, 9};
    const uint64_t corner[] = {0, 65536, 131072, 196609, 9}, nines[] = {9, 9, 9, 9, 9, 9, 9, 9, 9, 9, 9, 9};
    uint64_t out[12];
    memcpy(out, nines, sizeof out);
    expect("intersection, room for 9", oboe_overlay_own(OBOE_INTERSECTION, 2, p, LENGTH(p), 1, s, 1, 1, 1, out, 9), REFUSAL(5, 10));
    expect("a fourth operation", oboe_overlay_own(3, 2, p, LENGTH(p), 1, s, 1, 1, 1, out, 12), OBOE_UNNAMED);
    expect("too far", oboe_overlay_own(OBOE_UNION, 2, p, LENGTH(p), 1, s, 1, 65537, 0, out, 12), REFUSAL(2, 0));
    expect_words("memory after refusals", out, nines, 12);
    expect("intersection", oboe_overlay_own(OBOE_INTERSECTION, 2, p, LENGTH(p), 1, s, 1, 1, 1, out, 10), 10);
    expect_words("its list", out, ten, 12);
    expect("union", oboe_overlay_own(OBOE_UNION, 2, p, LENGTH(p), 1, s, 1, 1, 1, out, 12), 10);
    memcpy(out, nines, sizeof out);
    expect("window", oboe_window(2, p, LENGTH(p), -1, -1, 1, out, 4), 4);
    expect_words("its list", out, corner, 5);
    expect("difference through a window", oboe_overlay(OBOE_DIFFERENCE, 2, p, LENGTH(p), 1, s, 1, 1, 1, 1, 1, 1, out, 12), 1);
    expect("its word", out[0], 256);
    expect("a window of size 13", oboe_overlay(OBOE_UNION, 2, p, LENGTH(p), 1, s, 1, 1, 1, 0, 0, 13, out, 12), REFUSAL(1, 2));
}

static void rasters(void)
{
    const uint8_t cells[] = {1, 1, 0, 0, 1, 1, 0, 1, 0, 0, 1, 1, 0, 0, 1, 1};
    uint64_t out[8] = {9, 9, 9, 9, 9, 9, 9, 9};
    uint8_t back[16] = {0};
    expect("raster to list, room for 6", oboe_to_list(2, cells, 16, out, 6), REFUSAL(5, 7));
    expect("raster to list", oboe_to_list(2, cells, 16, out, 7), 7);
    expect_words("its list", out, p, 7);
    expect("the word past it", out[7], 9);
    expect("raster of another length", oboe_to_list(2, cells, 15, out, 8), REFUSAL(10, 0));
    expect("list to raster", oboe_to_raster(2, p, LENGTH(p), back, 16), 16);
    expect("its cells", (uint64_t)memcmp(back, cells, 16), 0);
}

int main(void)
{
    lists();
    places();
    overlays();
    rasters();
    printf("%d passed, %d failed\n", passed, failed);
    return failed != 0;
}
