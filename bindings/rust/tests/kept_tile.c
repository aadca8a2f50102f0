/* Uses kept_tile.h: tile 0 of rows whose layers are full, opaque or not, frame by frame. */
#include <stdio.h>

#include "kept_tile.h"

enum { OPAQUE = 1, UNCHANGED = 2 };

/* A layer from the left of tile 0 on. */
struct layer {
    uint32_t id;
    int is;
};

/* Prints the decision. */
static int work(struct kept_tile *tile, uint64_t frame, const struct layer *layers, size_t count, float red) {
    static uint32_t ids[2][256], words[8 * 4];
    static int8_t covers[2][16 * 256];
    static float colors[4 * 4];
    static struct tile_list list;
    uint64_t row[16 * 4];
    for (size_t at = 0; at < count; at++) {
        uint32_t record[8] = {layers[at].id, 0, 0, 0, 0, 0, 0, layers[at].is & UNCHANGED ? 1 : 0};
        memcpy(&words[8 * at], record, sizeof record);
        float color[4] = {0, 0, 1, layers[at].is & OPAQUE ? 1 : 0.5f};
        memcpy(&colors[4 * at], color, sizeof color);
        for (uint8_t y = 0; y < 16; y++)
            if (ffi_pack(layers[at].id, -1, 0, 0, y, 32, 16, &row[16 * at + y]) != 0) return 1;
    }
    struct layer_table table = {words, colors, count};
    uint32_t state[6];
    size_t counts[2], told[3];
    float clear[4] = {red, 0, 0, 1}, bottom[4];
    if (ffi_open_tile_row(
            0, 0, 1, row, 16 * count, words, 8 * count, colors, 4 * count, count, ids[0], 256, covers[0], 16 * 256, state,
            counts) != 0)
        return 1;
    if (ffi_list_tile(
            state, counts, 0, row, 16 * count, words, 8 * count, colors, 4 * count, count, ids[0], 256, covers[0], 16 * 256,
            ids[1], 256, covers[1], 16 * 256, list.ids, 256, list.covers, 16 * 256, list.flags, 2 * 256, &list.count) != 0)
        return 1;
    if (decide_kept_tile(tile, &list, &table, frame, 0, clear, told, bottom) != 0) return 1;
    static const char *const decisions[] = {"none", "solid", "paint"};
    printf("%s\n", decisions[told[0]]);
    const uint8_t display[4] = {0, 0, 255, 255};
    bool is_written = false;
    return told[0] == 1 && ffi_settle(true, tile->bytes, display, &is_written) != 0;
}

int main(void) {
    static struct kept_tile tile;
    const struct layer over[] = {{1, OPAQUE}, {2, 0}};
    const struct layer left[] = {{0, OPAQUE}, {1, OPAQUE | UNCHANGED}};
    const struct layer exchanged[] = {{0, 0}, {1, OPAQUE | UNCHANGED}};
    return work(&tile, 0, over, 2, 0)      /* solid */
        || work(&tile, 1, left, 2, 0)      /* solid, where the passes alone keep it: a label has left */
        || work(&tile, 2, exchanged, 2, 0) /* none: what changed is hidden */
        || work(&tile, 3, exchanged, 2, 1) /* solid: another clear colour */
        || work(&tile, 4, exchanged, 2, 1) /* none */
        || work(&tile, 6, exchanged, 2, 1) /* solid: frame 5 was left out */;
}
