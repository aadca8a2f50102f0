/* Uses the header: packs the segment of P1, opens an empty row, and is refused a short plane. */
#include <inttypes.h>
#include <stdio.h>

#include "tile_rows.h"

int main(void) {
    if (ffi_version() != TILE_ROWS_VERSION) return 1;
    uint64_t word = 0;
    if (ffi_pack(5, 2, 0, 3, 4, 32, 16, &word) != 0) return 1;
    printf("word %016" PRIX64 "\n", word);

    static uint32_t ids[256];
    static int8_t covers[4096];
    uint32_t layers[8] = {1, 0, 0, 0, 0, 0, 0, 0};
    float colors[4] = {0, 0, 0, 1};
    uint32_t words[6];
    size_t counts[2];
    uint32_t number = ffi_open_tile_row(0, 0, 4, &word, 0, layers, 8, colors, 4, 1, ids, 256, covers, 4096, words, counts);
    printf("opening %" PRIu32 ", carries %d\n", number, (int)counts[0]);

    float plane[255] = {0};
    uint32_t mark = 0;
    printf("plane %" PRIu32 "\n", ffi_mark_plane(plane, 255, &mark));
    return 0;
}
