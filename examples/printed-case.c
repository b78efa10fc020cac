/* Document 01's printed case from C: two squares that overlap, Intersect by NonZero, written as overlay_main writes it.
   Then one pair, whose crossing is Pure at (2, 2). Ends with 1 where the pair is answered otherwise. */
#include "ciwetanos.h"
#include <inttypes.h>
#include <stdio.h>

enum { SEGMENTS = 8, ROOM = 64, MARKS = 256 };

static const int32_t input[6 * SEGMENTS] = {
    0, 0, 4, 0, 1, 0,  4, 0, 4, 4, 1, 0,  4, 4, 0, 4, 1, 0,  0, 4, 0, 0, 1, 0,
    2, 2, 6, 2, 0, 1,  6, 2, 6, 6, 0, 1,  6, 6, 2, 6, 0, 1,  2, 6, 2, 2, 0, 1,
};

int main(void) {
    static int32_t work[6 * ROOM], marks[3 * MARKS];
    static int64_t scan[3 * ROOM];
    static uint8_t masks[ROOM];
    struct ciwetanos_report r = ciwetanos_overlay(
        input, 6 * SEGMENTS, SEGMENTS, 1, 2, 2, work, 6 * ROOM, marks, 3 * MARKS, scan, 3 * ROOM, masks, ROOM);
    printf("%" PRIu64 " %" PRIu64 "\n", r.answer, r.segments);
    for (uint64_t i = 0; i < r.segments; i++) {
        for (int k = 0; k < 6; k++) {
            printf("%" PRId32 " ", work[6 * i + k]);
        }
        printf("%d\n", masks[i]);
    }

    const int32_t pair[8] = {0, 0, 4, 4, 0, 4, 4, 0};
    struct ciwetanos_cross_report c = ciwetanos_cross(pair, 8);
    int is_right = c.answer == 0 && c.kind == 1 && c.x == 2 && c.y == 2 && c.rounded == 0 && c.mask == 0;
    return is_right && ciwetanos_cross(pair, 7).answer == 1 ? 0 : 1;
}
