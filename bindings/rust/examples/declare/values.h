/* Refusals: what a call returns that is turned down, the lowest that applies. docs/MANUAL.md, section 2, has the edges. */
enum {
    TILE_ROWS_ACCEPTED = 0,
    TILE_ROWS_REFUSED_ROOM = 1,      /* lent memory is too short */
    TILE_ROWS_REFUSED_TILE = 2,      /* a tile, a row number or a range of tiles is not what the call allows */
    TILE_ROWS_REFUSED_ROW = 3,       /* the words are no row; of a set or a part, one is of another layer or tile */
    TILE_ROWS_REFUSED_TABLE = 4,     /* the layer table, or a record, is none */
    TILE_ROWS_REFUSED_QUEUE = 5,     /* the queue of carries, or a list, is none */
    TILE_ROWS_REFUSED_TAG = 6,       /* the tag of a cached tile is above 3 */
    TILE_ROWS_REFUSED_LAYERS = 7,    /* more than 256 layers in a list or an opening */
    TILE_ROWS_REFUSED_MISSING = 8,   /* the table lacks a listed or painted layer */
    TILE_ROWS_REFUSED_COVERS = 9,    /* of a layer and pixel row the absolute covers sum above 127 */
    TILE_ROWS_REFUSED_JOB_TEXT = 10, /* of the programs alone: a text is malformed */
    TILE_ROWS_REFUSED_FIELD = 11,    /* a field that is to be packed is out of its range */
    TILE_ROWS_REFUSED_NOT_HELD = 12, /* a segment that is to be let out is not held */
    TILE_ROWS_REFUSED_SLOTS = 13,    /* the slots are too few */
    TILE_ROWS_REFUSED_BOUNDS = 14,   /* the bounds of a cover are none */
    TILE_ROWS_REFUSED_REVISIONS = 15 /* two records of one layer have the same revision */
};

/* Decisions: the first number of an answer. */
enum {
    TILE_ROWS_NONE = 0,  /* nothing is to be done: the tile shows what the last frame left there */
    TILE_ROWS_SOLID = 1, /* it is filled with one colour: the bottom colour, with the shown layers mixed above it */
    TILE_ROWS_PAINT = 2  /* its shown layers are painted, ascending */
};

/* Why a batch, or a range of tiles, ended. */
enum {
    TILE_ROWS_ENDED_ASKED = 0,   /* as many tiles are worked as were asked for */
    TILE_ROWS_ENDED_ROW = 1,     /* the row is at its end */
    TILE_ROWS_ENDED_ROOM = 2,    /* there is no room for one more tile */
    TILE_ROWS_ENDED_REFUSED = 3  /* the next tile would be refused */
};

/* Words of a layer record: fill rules, what a layer does, fills, blend modes. */
enum { TILE_ROWS_NON_ZERO = 0, TILE_ROWS_EVEN_ODD = 1 };
enum { TILE_ROWS_DRAW = 0, TILE_ROWS_CLIP = 1 };
enum { TILE_ROWS_FILL_SOLID = 0, TILE_ROWS_FILL_GRADIENT = 1, TILE_ROWS_FILL_TEXTURE = 2 };
enum {
    TILE_ROWS_OVER = 0,
    TILE_ROWS_MULTIPLY = 1,
    TILE_ROWS_SCREEN = 2,
    TILE_ROWS_OVERLAY = 3,
    TILE_ROWS_DARKEN = 4,
    TILE_ROWS_LIGHTEN = 5,
    TILE_ROWS_COLOR_DODGE = 6,
    TILE_ROWS_COLOR_BURN = 7,
    TILE_ROWS_HARD_LIGHT = 8,
    TILE_ROWS_SOFT_LIGHT = 9,
    TILE_ROWS_DIFFERENCE = 10,
    TILE_ROWS_EXCLUSION = 11,
    TILE_ROWS_HUE = 12,
    TILE_ROWS_SATURATION = 13,
    TILE_ROWS_COLOR = 14,
    TILE_ROWS_LUMINOSITY = 15
};

/* Sizes of lent memory, and the last numbers that are accepted. */
enum {
    TILE_ROWS_ENTRIES = 256,       /* entries of a queue or a list: ids, and as many masks */
    TILE_ROWS_COVERS = 16 * 256,   /* covers of a queue or a list, 16 an entry */
    TILE_ROWS_FLAGS = 2 * 256,     /* flags of a list */
    TILE_ROWS_PLANE = 256,         /* coverages of a plane; areas of a kept set; numbers of a plane of bounds */
    TILE_ROWS_GPU_PLANE = 64,      /* coverages of a plane four pixels high */
    TILE_ROWS_LAYER_WORDS = 8,     /* words of a layer record */
    TILE_ROWS_LAYER_COLORS = 4,    /* floats of a layer record */
    TILE_ROWS_REVISION_WORDS = 10, /* words of a record with a revision; it has four floats too */
    TILE_ROWS_LAST_ROW = 2046,
    TILE_ROWS_GPU_LAST_ROW = 8190,
    TILE_ROWS_LAST_TILE = 4094,
    TILE_ROWS_LAST_LAYER = 2097151
};

/* Layer record i: the words 8 * i to 8 * i + 7 and the floats 4 * i to 4 * i + 3. Ids ascend strictly. */
enum {
    TILE_ROWS_LAYER_ID = 0,
    TILE_ROWS_LAYER_RULE = 1,      /* TILE_ROWS_NON_ZERO or TILE_ROWS_EVEN_ODD */
    TILE_ROWS_LAYER_FUNC = 2,      /* TILE_ROWS_DRAW or TILE_ROWS_CLIP */
    TILE_ROWS_LAYER_SPAN = 3,      /* of a clip: how many ids above its own it reaches */
    TILE_ROWS_LAYER_CLIPPED = 4,   /* of a draw: 1 where it is cut by the latest clip below it */
    TILE_ROWS_LAYER_FILL = 5,      /* of a draw */
    TILE_ROWS_LAYER_MODE = 6,      /* of a draw: its blend mode */
    TILE_ROWS_LAYER_UNCHANGED = 7  /* 1 where nothing of it changed since the last frame */
};

/* A record with a revision has the words of a layer record with two between id and rule: the revision, and the kind, 0
   properties or 1 a withdrawal.

   A state of a row is six words and two counts; ffi_open_tile_row makes one, and no other call needs it to be changed by
   hand. A state of one layer's row, four pixels high, is six words and a cover of four bytes. */
enum {
    TILE_ROWS_STATE_ROW = 0,       /* words: tile y */
    TILE_ROWS_STATE_FROM = 1,
    TILE_ROWS_STATE_TO = 2,
    TILE_ROWS_STATE_NEXT = 3,      /* the next tile */
    TILE_ROWS_STATE_CLIPS = 4,     /* whether the painter has a clip; four high: the layer */
    TILE_ROWS_STATE_CLIP_LAST = 5, /* the clip's last layer; four high: the fill rule */
    TILE_ROWS_STATE_CARRIES = 0,   /* counts: carries that wait for the next tile */
    TILE_ROWS_STATE_TAKEN = 1      /* carries that the last tile took in */
};

/* A queue of carries: entry i is ids[i] and covers[16 * i] to covers[16 * i + 15], one for each pixel row.

   A list: entry i is list_ids[i], list_covers[16 * i ..], list_flags[i], whether its layer has segments in the tile,
   list_flags[256 + i], whether its layer is changed, and unmasked[i], whether no pass over clips masked it off. It is
   shown where it is not masked off and i is not below how many are skipped.

   A cached tile: eight bytes, its tag (1 the colour is kept, 2 the count is kept), the count's three, the lowest first,
   and the colour's four. All zeros at first.

   A plane: pixel (column, row) at row * 16 + column.

   A kept set: its layer, its tile (x and y), its carry, its loads, how many segments it holds, the slots, of which the
   first so many are held, and areas, at column * 16 + row. ffi_begin_set writes all of them.

   A segment has a tile y of -1 to 2046, a tile x of -1 to 4094, a layer id of 0 to 2097151, local x and y of 0 to 15, a
   multiplier of 0 to 63 and a cover of -32 to 31; four pixels high tile y ends at 8190 and local y at 3. */
