/* The motion field library for C. Link target/lib/librefmvs.a (`bash library.sh`).
 *
 * Every entry takes any numbers. It answers 0 and writes its result into the buffer that the caller
 * lends, or answers the refusal's number and leaves the buffer as it was; the setup, which is given
 * back by value, is then all zeros beside its number. The refusals:
 *   1  a component past +-65535, bounds crossed, or a factor past +-507904
 *   2  exactly one byte of a packed vector is -128
 *   3  hint bits above 8
 *   4  more than 7 slots in use
 *   5  superblock code above 2
 *   6  sample step not 1 or 2
 *   7  width or height not 1..65536
 *   8  a TIP slot that is not a slot in use, where the setup looks at the TIP pair
 *   9  a setup out of its ranges (one that refmvs_init_frame has accepted is in them)
 *  10  columns or rows that are not a tile's
 *  11  planes, or a list of the store, shorter than stated
 *  12  a saved block of the superblock row, or a trajectory, out of range
 * A vector is y, then x. Empty is y = 2097152, x = 0; both bytes -128 is its packed mark. */
#ifndef REFMVS_H
#define REFMVS_H

#include <stddef.h>
#include <stdint.h>

#ifdef __cplusplus
extern "C" {
#endif

/* An order hint. A type of its own, so that no slot is passed for one. */
typedef struct {
    uint8_t value;
} refmvs_order_hint;

/* A reference slot, 0 to 6. A type of its own, so that no order hint is passed for one. */
typedef struct {
    uint8_t value;
} refmvs_slot;

/* What was saved with a slot: the hints of its references, and how many it has (0: none). */
typedef struct {
    refmvs_order_hint ref_poc[7];
    uint8_t refcnt;
} refmvs_saved;

/* The values of the sequence's and the frame's header that a setup is made of. A switch is on where
 * it is not 0. */
typedef struct {
    uint32_t order_hint_n_bits;
    uint32_t width, height; /* in pixels */
    uint32_t n_ref_frames;  /* slots in use */
    uint8_t tip;            /* the sequence's TIP switch */
    uint8_t sb128;          /* superblock code */
    uint8_t tmvp_sample_step;
    uint8_t use_ref_frame_mvs; /* the frame's switch */
    uint8_t has_bothside_refs;
    uint8_t tip_frame_mode; /* 0: off */
    int8_t tip_reference[2]; /* two slots, -1 for none */
    refmvs_order_hint frame_offset; /* the frame's own hint */
    refmvs_order_hint ref_poc[7];   /* the hint of each slot */
    refmvs_saved saved[7];
    uint8_t rp_ref[7]; /* whether a slot's plane is present */
} refmvs_header;

/* A source: the slot that motion is projected from. */
typedef struct {
    refmvs_slot reference;
    int8_t tgt; /* the TIP target's slot, or -1 */
    uint8_t dir; /* which vector of a saved block is read, 0 or 1 */
    int8_t ref2cur; /* -32: too far, skipped */
    int8_t ref2ref[7];
    int8_t ref2idx[7]; /* slot, or -1 */
    int32_t ref2sf0[7];
    int32_t ref2sf1[7];
} refmvs_source;

/* The frame's own pair of references: their distance, and a factor for each. */
typedef struct {
    int8_t delta;
    int32_t sf[2];
} refmvs_tip;

/* The sources, and the mask of the slots that are used. */
typedef struct {
    refmvs_source mfmv[4];
    size_t n_mfmvs;
    uint8_t mfmv_mask;
} refmvs_sources;

/* The setup record. Entries that a setup does not write are 0. Lend a load the record that refmvs_init_frame
 * gave; there is no need to look into it. */
typedef struct {
    uint32_t width, height;
    uint8_t sb128;
    uint8_t tmvp_sample_step;
    size_t n_ref_frames;
    uint8_t tip_frame_mode;
    int8_t tip_reference[2];
    uint8_t rp_ref[7]; /* 1: present */
    uint8_t ref_sign[7];
    int8_t pocdiff[7];
    uint8_t abspocdiff[7];
    uint64_t ref_flip; /* bit 8 i + n */
    refmvs_tip tip;
    uint8_t use_ref_frame_mvs; /* whether there are sources */
    refmvs_sources sources;
} refmvs_frame;

/* A refused setup is the number beside a record of zeros. */
typedef struct {
    uint32_t refusal;
    refmvs_frame frame;
} refmvs_setup;

/* The vector times num / den, rounded to nearest, halves away from zero, clipped to min..max: y and x in out.
 * num counts as -31..31, den as 1..31. Refusal 1. */
uint32_t refmvs_mv_projection(int32_t y, int32_t x, int32_t num, int32_t den, int32_t min,
                              int32_t max, int32_t out[2]);
/* The vector times sf / 16384, rounded likewise, clipped to +-65535. Refusal 1. */
uint32_t refmvs_scale_mv(int32_t y, int32_t x, int32_t sf, int32_t out[2]);
/* The packed vector; the mark where a magnitude is 2048 or more. Refuses nothing. */
uint32_t refmvs_quantize_mv(int32_t y, int32_t x, int8_t out[2]);
/* The least vector of the codes; empty for the mark. Refusal 2. */
uint32_t refmvs_dequantize_mv(int8_t y, int8_t x, int32_t out[2]);
/* poc0 less poc1, modulo 2^n into -2^(n-1) .. 2^(n-1)-1; 0 where n is 0. Refusal 3. */
uint32_t refmvs_get_poc_diff(uint32_t order_hint_n_bits, refmvs_order_hint poc0,
                             refmvs_order_hint poc1, int32_t out[1]);
/* The setup of a frame, once for each. Refusals 3 to 8. */
refmvs_setup refmvs_init_frame(refmvs_header header);

/* Loads a tile into the lent store. A switch is on where it is not 0. All is counted in cells of 8
 * pixels: W and H are width and height over 8, rounded up; S is 8, 16 or 32 for superblock code 0, 1, 2;
 * stride is the width raised to a multiple of 256, over 8.
 * field: (S + 3) * stride cells, the superblock row behind the three rows above it; or with whole_frame H
 * raised to a multiple of 32, times stride, row 0 first.
 * traj: 7 * S * stride; map: 21 * S * stride; planes: seven planes, slot 0 first, each of H rows of stride
 * blocks of six bytes, vector 0 (y, x), vector 1, reference 0, reference 1. The planes of slots that have
 * none take their room all the same. Lists may be longer; what lies behind is neither read nor written.
 * No list overlaps another or the planes.
 * A store begins with field_y and traj_y 2097152, field_x, field_ref and traj_x 0, map_y and map_x -128 (other
 * trajectories may be refusal 12), and is kept from row to row and from frame to frame. Superblock rows come
 * from the top, tiles of a superblock row in any order, one at a time.
 * Columns from col_start to col_end, rows from row_start to row_end, the ends not included.
 * Refusals 9 to 12; a refused call writes nothing. */
uint32_t refmvs_load_tmvs(int32_t *field_y, size_t field_y_len, int32_t *field_x,
                          size_t field_x_len, uint8_t *field_ref, size_t field_ref_len,
                          int32_t *traj_y, size_t traj_y_len, int32_t *traj_x, size_t traj_x_len,
                          int8_t *map_y, size_t map_y_len, int8_t *map_x, size_t map_x_len,
                          const int8_t *planes, size_t planes_len, refmvs_frame setup,
                          uint8_t whole_frame, uint8_t traj, uint8_t holes, size_t col_start,
                          size_t col_end, size_t row_start, size_t row_end);

#ifdef __cplusplus
}
#endif

#endif
