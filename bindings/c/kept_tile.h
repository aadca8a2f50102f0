/* A tile from frame to frame, by the keep rule: list, keep, decide. README.md tells the rule and what is left to the
   caller; tile_rows.h has the calls. Copy what you need: nothing else includes this file. */

#ifndef KEPT_TILE_H
#define KEPT_TILE_H

#include <string.h>

#include "tile_rows.h"

/* A layer table as it is lent: eight words and four floats a record. */
struct layer_table {
    const uint32_t *words;
    const float *colors;
    size_t count;
};

/* A tile's list as ffi_list_tile fills it, and the mask column of ffi_decide_tile. */
struct tile_list {
    uint32_t ids[256];
    int8_t covers[16 * 256];
    bool flags[2 * 256];
    bool unmasked[256];
    size_t count;
};

/* What is remembered of a tile. All zeros: it was never drawn, or is forgotten. */
struct kept_tile {
    uint8_t bytes[8];
    /* Of its last accepted work: whether there was one, the frame's number, the first tile of its row, the clear colour,
       and the shown layers, each as twice its id, and one more where it needs a clip. */
    bool is_worked;
    uint64_t frame;
    int32_t from;
    float clear[4];
    size_t count;
    uint32_t shown[256];
};

/* The shown layers of a list that was decided without a cached tile; how many there are. */
static inline size_t shown_layers(
    const struct tile_list *list, const struct layer_table *table, size_t skipped, uint32_t shown[256]) {
    const uint32_t *record = table->words, *clip = NULL;
    bool is_full = false;
    size_t count = 0;
    for (size_t at = 0; at < list->count; at++) {
        while (record[0] != list->ids[at]) record += 8; /* both ascend, and the table has every listed layer */
        if (record[2] == 1) {
            clip = record;
            is_full = !list->flags[at] && ffi_is_full(&list->covers[16 * at], record[1]);
        }
        bool is_freed = clip && is_full && record[0] <= clip[0] + clip[3];
        bool needs_clip = record[2] == 0 && record[4] == 1 && !is_freed;
        if (list->unmasked[at] && at >= skipped) shown[count++] = 2 * record[0] + (needs_clip ? 1 : 0);
    }
    return count;
}

/* ffi_decide_tile. The bytes are read and written where is_kept is set. */
static inline uint32_t decide_list(
    struct tile_list *list, const struct layer_table *table, bool is_kept, uint8_t bytes[8], const float clear[4],
    bool is_previous, const float previous[4], size_t told[3], float bottom[4]) {
    return ffi_decide_tile(
        list->ids, 256, list->covers, 16 * 256, list->flags, 2 * 256, list->count, table->words, 8 * table->count,
        table->colors, 4 * table->count, table->count, is_kept, bytes, clear, is_previous, previous, list->unmasked, 256,
        told, bottom);
}

/* Decides about a tile that was listed in a row from the tile `from` on, in a frame of this number and clear colour. 0
   and the answer of ffi_decide_tile, or the number of its refusal: then the tile is as it was. */
static inline uint32_t decide_kept_tile(
    struct kept_tile *tile, struct tile_list *list, const struct layer_table *table, uint64_t frame, int32_t from,
    const float clear[4], size_t told[3], float bottom[4]) {
    struct kept_tile now = {.is_worked = true, .frame = frame, .from = from};
    memcpy(now.bytes, tile->bytes, sizeof now.bytes);
    memcpy(now.clear, clear, sizeof now.clear);
    uint32_t number = decide_list(list, table, false, now.bytes, clear, false, clear, told, bottom);
    if (number != 0) return number;
    now.count = shown_layers(list, table, told[2], now.shown);
    bool may_keep = tile->is_worked && tile->frame + 1 == frame && tile->from == from &&
        memcmp(tile->clear, now.clear, sizeof now.clear) == 0 && tile->count == now.count &&
        memcmp(tile->shown, now.shown, now.count * sizeof now.shown[0]) == 0;
    uint32_t dropped;
    if (!may_keep) ffi_update_layer_count(now.bytes, false, 0, &dropped);
    number = decide_list(list, table, true, now.bytes, clear, tile->is_worked, tile->clear, told, bottom);
    if (number == 0) *tile = now;
    return number;
}

#endif
