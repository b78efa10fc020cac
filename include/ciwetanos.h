/* The proved overlay for C: link target/staticlib/libcabi.a, which `./build-library cabi` makes.
   A list goes over as a pointer and its length. Every call is answered, and nothing outside the lists is read or written. */
#ifndef CIWETANOS_H
#define CIWETANOS_H

#include <stddef.h>
#include <stdint.h>

#ifdef __cplusplus
extern "C" {
#endif

/* answer: 0 settled, 1 to 11 refused (README.md says what to mend); segments and looks are 0 after a refusal. */
struct ciwetanos_report {
    uint64_t answer, segments, looks;
};

/* The overlay of the first n segments of `input`, six numbers each: ax, ay, bx, by, subject count, clip count.
   fill 0 EvenOdd, 1 NonZero, 2 Positive, 3 Negative; rule 0 Subject, 1 Clip, 2 Intersect, 3 Union, 4 Difference,
   5 InverseDifference, 6 Xor; budget 1 to 64 looks.
   After 0 `work` has the edges, six numbers each, and `masks` a byte for each: bits 1 and 2 the subject on top and at the bottom,
   4 and 8 the clip, 16 kept; all else in the four lists is zero. 1 to 6 change nothing, 7 to 11 set the four lists wholly to zero.
   `marks` has three numbers for each mark of a look, `scan` three for each edge that lies beside others in the sweep. */
struct ciwetanos_report ciwetanos_overlay(
    const int32_t *input, size_t input_length, size_t n, uint32_t fill, uint32_t rule, uint32_t budget,
    int32_t *work, size_t work_length, int32_t *marks, size_t marks_length,
    int64_t *scan, size_t scan_length, uint8_t *masks, size_t masks_length);

/* kind: 0 nothing, 1 Pure, 2 TargetEnd, 3 OtherEnd, 4 Overlay; the mask says which ends of collinear segments lie inside the other. */
struct ciwetanos_cross_report {
    uint64_t answer, kind;
    int64_t x, y;
    uint64_t rounded, mask;
};

/* How two segments cross, from eight numbers: target a, b, other a, b. answer: 0, 1 another length, 3 off the grid, 4 no length. */
struct ciwetanos_cross_report ciwetanos_cross(const int32_t *pair, size_t pair_length);

#ifdef __cplusplus
}
#endif

#endif
