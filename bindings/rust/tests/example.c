/* A whole row in C: one layer over two tiles and a half, worked tile after tile, and its coverages painted. */
#include <inttypes.h>
#include <stdio.h>

#include "tile_rows.h"

enum { TILES = 4, SEGMENTS = 32 };

/* Two queues of carries, which take turns: one comes in, the other is handed on. */
static uint32_t ids[2][TILE_ROWS_ENTRIES];
static int8_t covers[2][TILE_ROWS_COVERS];

/* The list of a tile. */
static uint32_t list_ids[TILE_ROWS_ENTRIES];
static int8_t list_covers[TILE_ROWS_COVERS];
static bool list_flags[TILE_ROWS_FLAGS], unmasked[TILE_ROWS_ENTRIES];

static int refused(const char *call, uint32_t number) {
    fprintf(stderr, "%s was refused by %" PRIu32 "\n", call, number);
    return 1;
}

/* An edge of layer 1 in a column of a tile: a segment in each of its 16 pixel rows. */
static uint32_t edge(uint64_t *words, int16_t tile_x, uint8_t local_x, int8_t cover) {
    for (uint8_t y = 0; y < 16; y++) {
        uint32_t number = ffi_pack(1, tile_x, 0, local_x, y, 32, cover, &words[y]);
        if (number != TILE_ROWS_ACCEPTED) return number;
    }
    return TILE_ROWS_ACCEPTED;
}

int main(void) {
    uint32_t number;
    if (ffi_version() != TILE_ROWS_VERSION) return fprintf(stderr, "the library is another than the header\n"), 1;

    /* Up at the left of tile 0, down in the middle of tile 2: the segments of a row ascend by tile and layer. */
    uint64_t row[SEGMENTS];
    if ((number = edge(row, 0, 0, 16)) != 0 || (number = edge(row + 16, 2, 8, -16)) != 0) return refused("pack", number);

    /* One opaque black layer, and a white clear colour. */
    uint32_t layers[TILE_ROWS_LAYER_WORDS] = {0};
    layers[TILE_ROWS_LAYER_ID] = 1;
    layers[TILE_ROWS_LAYER_RULE] = TILE_ROWS_NON_ZERO;
    layers[TILE_ROWS_LAYER_FUNC] = TILE_ROWS_DRAW;
    layers[TILE_ROWS_LAYER_FILL] = TILE_ROWS_FILL_SOLID;
    layers[TILE_ROWS_LAYER_MODE] = TILE_ROWS_OVER;
    const float colors[TILE_ROWS_LAYER_COLORS] = {0, 0, 0, 1}, clear[4] = {1, 1, 1, 1}, previous[4] = {0, 0, 0, 0};

    uint32_t words[6];
    size_t counts[2];
    number = ffi_open_tile_row(
        0, 0, TILES, row, SEGMENTS, layers, 8, colors, 4, 1, ids[0], TILE_ROWS_ENTRIES, covers[0], TILE_ROWS_COVERS, words,
        counts);
    if (number != TILE_ROWS_ACCEPTED) return refused("opening", number);

    for (int32_t tile = 0; tile < TILES; tile++) {
        int in = tile % 2, out = 1 - in; /* the queues take turns */
        uint8_t kept[8] = {0};           /* there is no frame before: is_kept is false, and these are not read */
        size_t told[4];
        float bottom[4];
        number = ffi_work_tile(
            words, counts, tile, row, SEGMENTS, layers, 8, colors, 4, 1, false, kept, clear, false, previous, ids[in],
            TILE_ROWS_ENTRIES, covers[in], TILE_ROWS_COVERS, ids[out], TILE_ROWS_ENTRIES, covers[out], TILE_ROWS_COVERS,
            list_ids, TILE_ROWS_ENTRIES, list_covers, TILE_ROWS_COVERS, list_flags, TILE_ROWS_FLAGS, unmasked,
            TILE_ROWS_ENTRIES, told, bottom);
        if (number != TILE_ROWS_ACCEPTED) return refused("work", number);
        size_t decision = told[0], listed = told[2], skipped = told[3];
        if (decision == TILE_ROWS_SOLID) /* mix the shown layers but the first told[1] above the bottom colour */
            printf("tile %" PRId32 ": solid, red %g\n", tile, (double)bottom[0]);
        for (size_t at = skipped; decision == TILE_ROWS_PAINT && at < listed; at++) {
            if (!unmasked[at]) continue;
            static float plane[TILE_ROWS_PLANE];
            uint32_t mark;
            number = ffi_paint_layer(
                words, counts, tile, list_ids[at], row, SEGMENTS, layers, 8, colors, 4, 1, ids[in], TILE_ROWS_ENTRIES, covers[in],
                TILE_ROWS_COVERS, plane, TILE_ROWS_PLANE, &mark);
            if (number != TILE_ROWS_ACCEPTED) return refused("painting", number);
            /* blend the layer by its coverages, in the octets that the mark names */
            printf(
                "tile %" PRId32 ": layer %" PRIu32 ", %" PRIu32 " octets, coverage %g at the left and %g at the right\n", tile,
                list_ids[at], ffi_octets(mark), (double)plane[0], (double)plane[15]);
        }
    }
    return 0;
}
