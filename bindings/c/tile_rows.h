/* Made from crates/ffi/src by `cargo run --example declare` in bindings/rust; do not edit. */

/* The exports of target/staticlib/libffi.a, for x86-64. A slice is a pointer and a length, and the pointer is not NULL
   even where the length is 0; an array of fixed length is a pointer. What a call may write must not overlap anything
   else that it is lent. A call that can be refused returns the number of the refusal, and then leaves what it was lent
   as it was, or 0. A pointer that a flag says is not used is given all the same. A bool that is lent holds 0 or 1.
   docs/MANUAL.md, sections 2 and 4, tells of refusals, states and answers; example.c, which README.md beside this file
   shows, is a whole row.

   To keep tiles from frame to frame: README.md beside this file, 'Keeping tiles from C'. In short, for each tile: list
   (ffi_list_tile); decide without a cached tile, which tells the shown layers; where these, by id and by whether each
   needs a clip, or the bits of the clear colour are not those of the tile's last accepted deciding, drop the count
   (ffi_update_layer_count); decide with the tile's bytes; and settle a solid tile alone. kept_tile.h does that. */

#ifndef TILE_ROWS_H
#define TILE_ROWS_H

#include <stdbool.h>
#include <stddef.h>
#include <stdint.h>

#ifdef __cplusplus
extern "C" {
#endif

/* The number of the exports that stand here; ffi_version tells the number of those that are linked. */
#define TILE_ROWS_VERSION 2

/* Refusals: what a call returns that is turned down, the lowest that applies. docs/MANUAL.md, section 2, has the edges. */
enum {
    TILE_ROWS_ACCEPTED = 0,
    TILE_ROWS_REFUSED_ROOM = 1,      /* lent memory is too short */
    TILE_ROWS_REFUSED_TILE = 2,      /* a tile, a row number or a range of tiles is not what the call allows */
    TILE_ROWS_REFUSED_ROW = 3,       /* the words are no row; of a set or a part, one is of another layer or tile */
    TILE_ROWS_REFUSED_TABLE = 4,     /* the layer table, or a record, is none */
    TILE_ROWS_REFUSED_QUEUE = 5,     /* the queue of carries, or a list, is none */
    TILE_ROWS_REFUSED_TAG = 6,       /* the tag of a cached tile is above 3 */
    TILE_ROWS_REFUSED_LAYERS = 7,    /* more than 256 layers in a list or an opening */
    TILE_ROWS_REFUSED_MISSING = 8,   /* the table lacks a listed or painted layer */
    TILE_ROWS_REFUSED_COVERS = 9,    /* of a layer and pixel row the absolute covers sum above 127 */
    TILE_ROWS_REFUSED_JOB_TEXT = 10, /* of the programs alone: a text is malformed */
    TILE_ROWS_REFUSED_FIELD = 11,    /* a field that is to be packed is out of its range */
    TILE_ROWS_REFUSED_NOT_HELD = 12, /* a segment that is to be let out is not held */
    TILE_ROWS_REFUSED_SLOTS = 13,    /* the slots are too few */
    TILE_ROWS_REFUSED_BOUNDS = 14,   /* the bounds of a cover are none */
    TILE_ROWS_REFUSED_REVISIONS = 15 /* two records of one layer have the same revision */
};

/* Decisions: the first number of an answer. */
enum {
    TILE_ROWS_NONE = 0,  /* nothing is to be done: the tile shows what the last frame left there */
    TILE_ROWS_SOLID = 1, /* it is filled with one colour: the bottom colour, with the shown layers mixed above it */
    TILE_ROWS_PAINT = 2  /* its shown layers are painted, ascending */
};

/* Why a batch, or a range of tiles, ended. */
enum {
    TILE_ROWS_ENDED_ASKED = 0,   /* as many tiles are worked as were asked for */
    TILE_ROWS_ENDED_ROW = 1,     /* the row is at its end */
    TILE_ROWS_ENDED_ROOM = 2,    /* there is no room for one more tile */
    TILE_ROWS_ENDED_REFUSED = 3  /* the next tile would be refused */
};

/* Words of a layer record: fill rules, what a layer does, fills, blend modes. */
enum { TILE_ROWS_NON_ZERO = 0, TILE_ROWS_EVEN_ODD = 1 };
enum { TILE_ROWS_DRAW = 0, TILE_ROWS_CLIP = 1 };
enum { TILE_ROWS_FILL_SOLID = 0, TILE_ROWS_FILL_GRADIENT = 1, TILE_ROWS_FILL_TEXTURE = 2 };
enum {
    TILE_ROWS_OVER = 0,
    TILE_ROWS_MULTIPLY = 1,
    TILE_ROWS_SCREEN = 2,
    TILE_ROWS_OVERLAY = 3,
    TILE_ROWS_DARKEN = 4,
    TILE_ROWS_LIGHTEN = 5,
    TILE_ROWS_COLOR_DODGE = 6,
    TILE_ROWS_COLOR_BURN = 7,
    TILE_ROWS_HARD_LIGHT = 8,
    TILE_ROWS_SOFT_LIGHT = 9,
    TILE_ROWS_DIFFERENCE = 10,
    TILE_ROWS_EXCLUSION = 11,
    TILE_ROWS_HUE = 12,
    TILE_ROWS_SATURATION = 13,
    TILE_ROWS_COLOR = 14,
    TILE_ROWS_LUMINOSITY = 15
};

/* Sizes of lent memory, and the last numbers that are accepted. */
enum {
    TILE_ROWS_ENTRIES = 256,       /* entries of a queue or a list: ids, and as many masks */
    TILE_ROWS_COVERS = 16 * 256,   /* covers of a queue or a list, 16 an entry */
    TILE_ROWS_FLAGS = 2 * 256,     /* flags of a list */
    TILE_ROWS_PLANE = 256,         /* coverages of a plane; areas of a kept set; numbers of a plane of bounds */
    TILE_ROWS_GPU_PLANE = 64,      /* coverages of a plane four pixels high */
    TILE_ROWS_LAYER_WORDS = 8,     /* words of a layer record */
    TILE_ROWS_LAYER_COLORS = 4,    /* floats of a layer record */
    TILE_ROWS_REVISION_WORDS = 10, /* words of a record with a revision; it has four floats too */
    TILE_ROWS_LAST_ROW = 2046,
    TILE_ROWS_GPU_LAST_ROW = 8190,
    TILE_ROWS_LAST_TILE = 4094,
    TILE_ROWS_LAST_LAYER = 2097151
};

/* Layer record i: the words 8 * i to 8 * i + 7 and the floats 4 * i to 4 * i + 3. Ids ascend strictly. */
enum {
    TILE_ROWS_LAYER_ID = 0,
    TILE_ROWS_LAYER_RULE = 1,      /* TILE_ROWS_NON_ZERO or TILE_ROWS_EVEN_ODD */
    TILE_ROWS_LAYER_FUNC = 2,      /* TILE_ROWS_DRAW or TILE_ROWS_CLIP */
    TILE_ROWS_LAYER_SPAN = 3,      /* of a clip: how many ids above its own it reaches */
    TILE_ROWS_LAYER_CLIPPED = 4,   /* of a draw: 1 where it is cut by the latest clip below it */
    TILE_ROWS_LAYER_FILL = 5,      /* of a draw */
    TILE_ROWS_LAYER_MODE = 6,      /* of a draw: its blend mode */
    TILE_ROWS_LAYER_UNCHANGED = 7  /* 1 where nothing of it changed since the last frame */
};

/* A record with a revision has the words of a layer record with two between id and rule: the revision, and the kind, 0
   properties or 1 a withdrawal.

   A state of a row is six words and two counts; ffi_open_tile_row makes one, and no other call needs it to be changed by
   hand. A state of one layer's row, four pixels high, is six words and a cover of four bytes. */
enum {
    TILE_ROWS_STATE_ROW = 0,       /* words: tile y */
    TILE_ROWS_STATE_FROM = 1,
    TILE_ROWS_STATE_TO = 2,
    TILE_ROWS_STATE_NEXT = 3,      /* the next tile */
    TILE_ROWS_STATE_CLIPS = 4,     /* whether the painter has a clip; four high: the layer */
    TILE_ROWS_STATE_CLIP_LAST = 5, /* the clip's last layer; four high: the fill rule */
    TILE_ROWS_STATE_CARRIES = 0,   /* counts: carries that wait for the next tile */
    TILE_ROWS_STATE_TAKEN = 1      /* carries that the last tile took in */
};

/* A queue of carries: entry i is ids[i] and covers[16 * i] to covers[16 * i + 15], one for each pixel row.

   A list: entry i is list_ids[i], list_covers[16 * i ..], list_flags[i], whether its layer has segments in the tile,
   list_flags[256 + i], whether its layer is changed, and unmasked[i], whether no pass over clips masked it off. It is
   shown where it is not masked off and i is not below how many are skipped.

   A cached tile: eight bytes, its tag (1 the colour is kept, 2 the count is kept), the count's three, the lowest first,
   and the colour's four. All zeros at first.

   A plane: pixel (column, row) at row * 16 + column.

   A kept set: its layer, its tile (x and y), its carry, its loads, how many segments it holds, the slots, of which the
   first so many are held, and areas, at column * 16 + row. ffi_begin_set writes all of them.

   A segment has a tile y of -1 to 2046, a tile x of -1 to 4094, a layer id of 0 to 2097151, local x and y of 0 to 15, a
   multiplier of 0 to 63 and a cover of -32 to 31; four pixels high tile y ends at 8190 and local y at 3. */

/* 0 or the number of the refusal: that of the first tile, which leaves all lent memory as it was, `done` too. Else
   `words` and `counts` are the state after the tiles worked, and `done` tells how many these are (0 is possible), how
   many planes they used, which queue holds the carries (0 the first, 1 the second), why the batch ended (0 all tiles that
   were asked for are worked, 1 the row has no more, 2 no room for a further one, 3 the next one would be refused), and
   the number of that refusal or 0. Each tile has six numbers in `told` (the decision, of a solid tile how many shown
   layers lie before those to mix, how many layers are listed, skipped, shown, and how many carries are handed on), where
   it is solid its bottom colour in `bottoms`, and where `keeps` is set its cached tile in eight bytes of `kept`. Each
   painted layer has a plane, and its id and its mark in `painted`; each layer that a solid tile mixes has its id and mark
   0 there, and its plane is left as it was. A tile is worked only where as many planes are free as it can list layers:
   256, or the table's count where that is less. */
uint32_t ffi_work_tiles(
    uint32_t words[6],
    size_t counts[2],
    int32_t tile,
    size_t tiles,
    const uint64_t *row, size_t row_len,
    const uint32_t *layers, size_t layers_len,
    const float *colors, size_t colors_len,
    size_t count,
    bool keeps,
    uint8_t *kept, size_t kept_len,
    const float clear[4],
    bool is_previous,
    const float previous[4],
    uint32_t *a_ids, size_t a_ids_len,
    int8_t *a_covers, size_t a_covers_len,
    uint32_t *b_ids, size_t b_ids_len,
    int8_t *b_covers, size_t b_covers_len,
    size_t *told, size_t told_len,
    float *bottoms, size_t bottoms_len,
    float *planes, size_t planes_len,
    uint32_t *painted, size_t painted_len,
    size_t done[5]);

/* 0 and the six planes, or the number of the refusal. `bounds` has two bytes a segment, its lowest and its highest
   cover. */
uint32_t ffi_bound_part(
    uint32_t layer_id,
    int16_t tile_x,
    int16_t tile_y,
    const uint64_t *part, size_t part_len,
    const int8_t *bounds, size_t bounds_len,
    const int8_t low[16],
    const int8_t high[16],
    int16_t *lowest, size_t lowest_len,
    int16_t *highest, size_t highest_len,
    uint16_t *least_non_zero, size_t least_non_zero_len,
    uint16_t *greatest_non_zero, size_t greatest_non_zero_len,
    uint16_t *least_even_odd, size_t least_even_odd_len,
    uint16_t *greatest_even_odd, size_t greatest_even_odd_len);

/* Whether the tile keeps a layer count; where it does, the count in `count`. */
bool ffi_layer_count(const uint8_t tile[8], uint32_t *count);

/* Whether the tile keeps a solid colour; where it does, its bytes in `color`. */
bool ffi_solid_color(const uint8_t tile[8], uint8_t color[4]);

/* The tile keeps the count, where one is given, or none. Whether it kept one before; where it did, that one in
   `previous`. */
bool ffi_update_layer_count(uint8_t tile[8], bool given, uint32_t count, uint32_t *previous);

/* The tile keeps the colour, where one is given, or none. Whether it kept one before; where it did, its bytes in
   `previous`. */
bool ffi_update_solid_color(uint8_t tile[8], bool given, const uint8_t color[4], uint8_t previous[4]);

/* Where a tile is given it keeps the bytes. 0 and whether they are to be written in `is_written`, or the number of the
   refusal. The tile's bytes are stored where the call is accepted and a tile is given. */
uint32_t ffi_settle(bool given, uint8_t tile[8], const uint8_t color[4], bool *is_written);

/* 0 and in `stays` whether each of the `last` layers of one list stands among the `n` of another, as the same kind, or
   the number of the refusal. Asked each way round about the layers that a tile showed and those that it would show, it
   tells whether they are alike (docs/statements/kept.md). Where the answer is no, the count's tag is dropped and nothing
   else. The tile's bytes are stored where the call is accepted and a tile is given. */
uint32_t ffi_keep_count(
    const uint32_t *last_ids, size_t last_ids_len,
    const uint8_t *last_kinds, size_t last_kinds_len,
    size_t last,
    const uint32_t *ids, size_t ids_len,
    const uint8_t *kinds, size_t kinds_len,
    size_t n,
    bool is_kept,
    uint8_t kept[8],
    bool *stays);

/* Whether a tile without segments shows nothing of a layer with this cover from the left, by its fill rule. */
bool ffi_is_empty(const int8_t covers[16], uint32_t rule);

/* Whether a tile without segments is wholly covered by a layer with this cover from the left, by its fill rule. */
bool ffi_is_full(const int8_t covers[16], uint32_t rule);

/* 0 and the covers of the part added to those in `covers`, or the number of the refusal. */
uint32_t ffi_carry(const uint64_t *part, size_t part_len, int8_t covers[16]);

/* The coverage of a pixel that sees d. */
float ffi_doubled_area_to_coverage(int16_t d, uint32_t rule);

/* 0, the coverages in `plane`, at row × 16 + column, and their mark in `mark`, or the number of the refusal. */
uint32_t ffi_paint_part(
    const uint64_t *part, size_t part_len,
    const int8_t covers[16],
    uint32_t rule,
    float *plane, size_t plane_len,
    uint32_t *mark);

/* 0 and the mark of any plane in `mark`, or the number of the refusal. */
uint32_t ffi_mark_plane(const float *plane, size_t plane_len, uint32_t *mark);

/* How many octets a mark has. */
uint32_t ffi_octets(uint32_t mark);

/* 0, the mask column, the cached tile and the answer, or the number of the refusal. The bytes of the cached tile are
   stored where the call is accepted and a tile is given. Whether a layer is changed is told by the list's flags, from
   place 256 on, and not by the table. */
uint32_t ffi_decide_tile(
    const uint32_t *list_ids, size_t list_ids_len,
    const int8_t *list_covers, size_t list_covers_len,
    const bool *list_flags, size_t list_flags_len,
    size_t n,
    const uint32_t *layers, size_t layers_len,
    const float *colors, size_t colors_len,
    size_t count,
    bool is_kept,
    uint8_t kept[8],
    const float clear[4],
    bool is_previous,
    const float previous[4],
    bool *unmasked, size_t unmasked_len,
    size_t told[3],
    float bottom[4]);

/* 0 and the word in `word`, or 11. */
uint32_t ffi_gpu_pack(
    uint32_t layer_id,
    int16_t tile_x,
    int16_t tile_y,
    uint8_t local_x,
    uint8_t local_y,
    uint8_t double_area_multiplier,
    int8_t cover,
    uint64_t *word);

/* The layer id of a packed word; any word has one. 0 to 2,097,151. Of tiles four pixels high. */
uint32_t ffi_gpu_layer_id(uint64_t word);

/* Tile x of a packed word; any word has one. -1 to 4,094. Of tiles four pixels high. */
int16_t ffi_gpu_tile_x(uint64_t word);

/* Tile y of a packed word; any word has one. -1 to 8,190. Of tiles four pixels high. */
int16_t ffi_gpu_tile_y(uint64_t word);

/* Local x of a packed word; any word has one. 0 to 15. Of tiles four pixels high. */
uint8_t ffi_gpu_local_x(uint64_t word);

/* Local y of a packed word; any word has one. 0 to 3. Of tiles four pixels high. */
uint8_t ffi_gpu_local_y(uint64_t word);

/* The double area's multiplier of a packed word; any word has one. 0 to 63. Of tiles four pixels high. */
uint8_t ffi_gpu_double_area_multiplier(uint64_t word);

/* The double area of a packed word: multiplier times cover. Of tiles four pixels high. */
int16_t ffi_gpu_double_area(uint64_t word);

/* The cover of a packed word; any word has one. -32 to 31. Of tiles four pixels high. */
int8_t ffi_gpu_cover(uint64_t word);

/* All of them in one call. */
void ffi_gpu_fields(
    uint64_t word,
    uint32_t *layer_id,
    int16_t *tile_x,
    int16_t *tile_y,
    uint8_t *local_x,
    uint8_t *local_y,
    uint8_t *double_area_multiplier,
    int16_t *double_area,
    int8_t *cover);

/* Whether the words do not descend by tile y, tile x and layer. */
bool ffi_gpu_does_ascend(const uint64_t *row, size_t row_len);

/* Whether they are a row: they ascend, and each has the stored tile y, which is its own plus 1. */
bool ffi_gpu_is_row(const uint64_t *row, size_t row_len, uint64_t stored_tile_y);

/* How a segment compares with another: 0 less, 1 equal, 2 greater. */
uint8_t ffi_gpu_cmp(uint64_t word, uint64_t other);

/* The last place whose key is the wanted one in `place`, and true; or where it would stand, and false. On words
   that the key does not sort, the halving of the painter decides. The key is tile y. Of tiles four pixels high. */
bool ffi_gpu_search_last_by_tile_y(const uint64_t *segments, size_t segments_len, int16_t tile_y, size_t *place);

/* The last place whose key is the wanted one in `place`, and true; or where it would stand, and false. On words
   that the key does not sort, the halving of the painter decides. The key is tile x. Of tiles four pixels high. */
bool ffi_gpu_search_last_by_tile_x(const uint64_t *segments, size_t segments_len, int16_t tile_x, size_t *place);

/* The last place whose key is the wanted one in `place`, and true; or where it would stand, and false. On words
   that the key does not sort, the halving of the painter decides. The key is the layer id. Of tiles four pixels
   high. */
bool ffi_gpu_search_last_by_layer_id(const uint64_t *segments, size_t segments_len, uint32_t layer_id, size_t *place);

/* The last place whose key is the wanted one in `place`, and true; or where it would stand, and false. On words
   that the key does not sort, the halving of the painter decides. The key is whether tile x is at least `start`.
   Of tiles four pixels high. */
bool ffi_gpu_search_last_by_tile_x_at_least(
    const uint64_t *segments, size_t segments_len,
    int16_t start,
    bool wanted,
    size_t *place);

/* The last place whose key is the wanted one in `place`, and true; or where it would stand, and false. On words
   that the key does not sort, the halving of the painter decides. The key is whether the layer id is at least
   `start`. Of tiles four pixels high. */
bool ffi_gpu_search_last_by_layer_id_at_least(
    const uint64_t *segments, size_t segments_len,
    uint32_t start,
    bool wanted,
    size_t *place);

/* The last place whose key is the wanted one in `place`, and true; or where it would stand, and false. On words
   that the key does not sort, the halving of the painter decides. The key is whether tile y is 0 or more. Of tiles
   four pixels high. */
bool ffi_gpu_search_last_by_tile_y_not_negative(
    const uint64_t *segments, size_t segments_len,
    bool wanted,
    size_t *place);

/* Whether a tile without segments shows nothing of a layer with this cover from the left, by its fill rule. Of
   tiles four pixels high. */
bool ffi_gpu_is_empty(const int8_t covers[4], uint32_t rule);

/* Whether a tile without segments is wholly covered by a layer with this cover from the left, by its fill rule. Of
   tiles four pixels high. */
bool ffi_gpu_is_full(const int8_t covers[4], uint32_t rule);

/* 0 and the covers of the part added to those in `covers`, or 9. */
uint32_t ffi_gpu_carry(const uint64_t *part, size_t part_len, int8_t covers[4]);

/* 0 and the coverages in `plane`, or the number of the refusal. */
uint32_t ffi_gpu_paint_part(
    const uint64_t *part, size_t part_len,
    const int8_t covers[4],
    uint32_t rule,
    float *plane, size_t plane_len);

/* 0 and the state before the first tile in `words` and `covers`, or the number of the refusal. The layer and the number
   of its rule are judged as a layer record is, by 4. */
uint32_t ffi_gpu_open_layer_row(
    int32_t tile_y,
    int32_t from,
    int32_t to,
    uint32_t layer_id,
    uint32_t rule,
    const uint64_t *row, size_t row_len,
    uint32_t words[6],
    int8_t covers[4]);

/* 0, the tile's coverages in `plane` and the state past the tile, or the number of the refusal. */
uint32_t ffi_gpu_work_tile(
    uint32_t words[6],
    int8_t covers[4],
    int32_t tile,
    const uint64_t *row, size_t row_len,
    float *plane, size_t plane_len);

/* A range of up to `tiles` tiles from `tile` on: 0, the coverages of each tile in the next 64 numbers of `planes`, the
   state past them, and in `done` how many tiles were worked, why the range ended (0 all that were asked for, 1 the row's
   end, 2 no plane is left, 3 the next tile would be refused) and by which number the next tile would be refused, else 0.
   Or the number by which the first tile's own call would be refused; every lent number is then as it was, `done` too. */
uint32_t ffi_gpu_work_tiles(
    uint32_t words[6],
    int8_t covers[4],
    int32_t tile,
    size_t tiles,
    const uint64_t *row, size_t row_len,
    float *planes, size_t planes_len,
    size_t done[3]);

/* Whether two colours are equal by ==, number by number: both zeros agree, and NaN equals nothing. */
bool ffi_color_eq(const float color[4], const float other[4]);

/* Whether a draw with this fill, blend mode and colour hides what is below it. */
bool ffi_is_opaque(uint32_t fill, uint32_t blend_mode, const float color[4]);

/* The number of the blend mode of a number. */
uint32_t ffi_blend_mode(uint32_t code);

/* Whether the table is shorter than its count. */
bool ffi_is_short(const uint32_t *layers, size_t layers_len, const float *colors, size_t colors_len, size_t count);

/* Whether no refusal applies to the table. */
bool ffi_is_table(const uint32_t *layers, size_t layers_len, const float *colors, size_t colors_len, size_t count);

/* 0, the list, the carries handed on, how many layers are listed and the state past the tile, or the number of the
   refusal. Of the flags, that at place i says whether entry i has segments in the tile, that at place 256 + i whether
   its layer is changed. */
uint32_t ffi_list_tile(
    uint32_t words[6],
    size_t counts[2],
    int32_t tile,
    const uint64_t *row, size_t row_len,
    const uint32_t *layers, size_t layers_len,
    const float *colors, size_t colors_len,
    size_t count,
    const uint32_t *ids, size_t ids_len,
    const int8_t *covers, size_t covers_len,
    uint32_t *next_ids, size_t next_ids_len,
    int8_t *next_covers, size_t next_covers_len,
    uint32_t *list_ids, size_t list_ids_len,
    int8_t *list_covers, size_t list_covers_len,
    bool *list_flags, size_t list_flags_len,
    size_t *listed);

/* 0, the coverages in `plane`, at row × 16 + column, their mark in `mark` and the state with the painter's clip, or
   the number of the refusal. */
uint32_t ffi_paint_layer(
    uint32_t words[6],
    size_t counts[2],
    int32_t tile,
    uint32_t layer,
    const uint64_t *row, size_t row_len,
    const uint32_t *layers, size_t layers_len,
    const float *colors, size_t colors_len,
    size_t count,
    const uint32_t *ids, size_t ids_len,
    const int8_t *covers, size_t covers_len,
    float *plane, size_t plane_len,
    uint32_t *mark);

/* Where the segments start that have no negative tile y. */
size_t ffi_find_not_negative(const uint64_t *segments, size_t segments_len);

/* Where row j starts; in `end` where it ends, one past its last segment. */
size_t ffi_find_row(const uint64_t *segments, size_t segments_len, size_t j, size_t *end);

/* Whether row `j` is within a crop of the rows `start` up to `end`; without a crop (`is_given` false) every row
   is. */
bool ffi_is_in_crop(bool is_given, size_t start, size_t end, size_t j);

/* 0, the carries in the lent queue and the state before the first tile in `words` and `counts`, or the number of the
   refusal. */
uint32_t ffi_open_tile_row(
    int32_t tile_y,
    int32_t from,
    int32_t to,
    const uint64_t *row, size_t row_len,
    const uint32_t *layers, size_t layers_len,
    const float *colors, size_t colors_len,
    size_t count,
    uint32_t *ids, size_t ids_len,
    int8_t *covers, size_t covers_len,
    uint32_t words[6],
    size_t counts[2]);

/* 0, the words of the part in `slots`, their d in `areas`, and which layer and tile the set is of with its other
   numbers; or the number of the refusal. `covers` is the incoming cover. */
uint32_t ffi_begin_set(
    uint32_t layer_id,
    int16_t tile_x,
    int16_t tile_y,
    const int8_t covers[16],
    const uint64_t *part, size_t part_len,
    uint32_t *layer,
    int16_t tile[2],
    int8_t carry[16],
    uint16_t loads[16],
    size_t *count,
    uint64_t *slots, size_t slots_len,
    int16_t *areas, size_t areas_len);

/* 0 and the segment taken in, or the number of the refusal. Of which layer and tile it has to be, the beginning wrote. */
uint32_t ffi_take_in(
    uint64_t word,
    const uint32_t *layer,
    const int16_t tile[2],
    int8_t carry[16],
    uint16_t loads[16],
    size_t *count,
    uint64_t *slots, size_t slots_len,
    int16_t *areas, size_t areas_len);

/* 0 and one equal segment let out, or the number of the refusal. Of which layer and tile it has to be, the beginning
   wrote. */
uint32_t ffi_let_out(
    uint64_t word,
    const uint32_t *layer,
    const int16_t tile[2],
    int8_t carry[16],
    uint16_t loads[16],
    size_t *count,
    uint64_t *slots, size_t slots_len,
    int16_t *areas, size_t areas_len);

/* 0, the standing layers in the lent table and in `standing` how many they are, or the number of the refusal. A record
   is ten words and four floats; what is left over of either plays no part. */
uint32_t ffi_stand(
    const uint32_t *records, size_t records_len,
    const float *record_colors, size_t record_colors_len,
    uint32_t *layers, size_t layers_len,
    float *colors, size_t colors_len,
    size_t *standing);

/* The number of these exports. It is another wherever a name, a parameter, a result or the layout of lent memory is. */
uint32_t ffi_version();

/* 0 and the word in `word`, or 11 where a field is out of its range. The parameters are as wide as the fields'
   types: a compiler that is given wider numbers cuts them before the call, and what is cut can't be judged. */
uint32_t ffi_pack(
    uint32_t layer_id,
    int16_t tile_x,
    int16_t tile_y,
    uint8_t local_x,
    uint8_t local_y,
    uint8_t double_area_multiplier,
    int8_t cover,
    uint64_t *word);

/* The layer id of a packed word; any word has one. 0 to 2,097,151. */
uint32_t ffi_layer_id(uint64_t word);

/* Tile x of a packed word; any word has one. -1 to 4,094. */
int16_t ffi_tile_x(uint64_t word);

/* Tile y of a packed word; any word has one. -1 to 2,046. */
int16_t ffi_tile_y(uint64_t word);

/* Local x of a packed word; any word has one. 0 to 15. */
uint8_t ffi_local_x(uint64_t word);

/* Local y of a packed word; any word has one. 0 to 15. */
uint8_t ffi_local_y(uint64_t word);

/* The double area's multiplier of a packed word; any word has one. 0 to 63. */
uint8_t ffi_double_area_multiplier(uint64_t word);

/* The double area of a packed word: multiplier times cover. */
int16_t ffi_double_area(uint64_t word);

/* The cover of a packed word; any word has one. -32 to 31. */
int8_t ffi_cover(uint64_t word);

/* How a segment compares with another: 0 less, 1 equal, 2 greater. */
uint8_t ffi_cmp(uint64_t word, uint64_t other);

/* Whether no word is less than the one before it, by tile y, tile x and layer. */
bool ffi_does_ascend(const uint64_t *row, size_t row_len);

/* Whether the words are a row: they ascend, and each has the stored tile y, which is the row's number plus 1: 1
   for row 0. */
bool ffi_is_row(const uint64_t *row, size_t row_len, uint64_t stored_tile_y);

/* The last place whose key is the wanted one in `place`, and true; or where it would stand, and false. On words
   that the key does not sort, the halving of the painter decides. The key is tile y. */
bool ffi_search_last_by_tile_y(const uint64_t *segments, size_t segments_len, int16_t tile_y, size_t *place);

/* The last place whose key is the wanted one in `place`, and true; or where it would stand, and false. On words
   that the key does not sort, the halving of the painter decides. The key is tile x. */
bool ffi_search_last_by_tile_x(const uint64_t *segments, size_t segments_len, int16_t tile_x, size_t *place);

/* The last place whose key is the wanted one in `place`, and true; or where it would stand, and false. On words
   that the key does not sort, the halving of the painter decides. The key is the layer id. */
bool ffi_search_last_by_layer_id(const uint64_t *segments, size_t segments_len, uint32_t layer_id, size_t *place);

/* The last place whose key is the wanted one in `place`, and true; or where it would stand, and false. On words
   that the key does not sort, the halving of the painter decides. The key is whether tile x is at least `start`. */
bool ffi_search_last_by_tile_x_at_least(
    const uint64_t *segments, size_t segments_len,
    int16_t start,
    bool wanted,
    size_t *place);

/* The last place whose key is the wanted one in `place`, and true; or where it would stand, and false. On words
   that the key does not sort, the halving of the painter decides. The key is whether tile y is 0 or more. */
bool ffi_search_last_by_tile_y_not_negative(const uint64_t *segments, size_t segments_len, bool wanted, size_t *place);

/* 0, the list, the carries handed on, the cached tile, the answer and the state past the tile, or the number of the
   refusal. The bytes of the cached tile are stored where the call is accepted and a tile is given. Of the flags, that
   at place i says whether entry i has segments in the tile, that at place 256 + i whether its layer is changed. */
uint32_t ffi_work_tile(
    uint32_t words[6],
    size_t counts[2],
    int32_t tile,
    const uint64_t *row, size_t row_len,
    const uint32_t *layers, size_t layers_len,
    const float *colors, size_t colors_len,
    size_t count,
    bool is_kept,
    uint8_t kept[8],
    const float clear[4],
    bool is_previous,
    const float previous[4],
    const uint32_t *ids, size_t ids_len,
    const int8_t *covers, size_t covers_len,
    uint32_t *next_ids, size_t next_ids_len,
    int8_t *next_covers, size_t next_covers_len,
    uint32_t *list_ids, size_t list_ids_len,
    int8_t *list_covers, size_t list_covers_len,
    bool *list_flags, size_t list_flags_len,
    bool *list_unmasked, size_t list_unmasked_len,
    size_t told[4],
    float bottom[4]);

#ifdef __cplusplus
}
#endif

#endif
