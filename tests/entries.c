/* Each C entry once answered and once refused: the number, and the buffer. */
#include "refmvs.h"

#include <stdio.h>
#include <string.h>

static int failures;

static void expect(int holds, const char *what)
{
    if (!holds) {
        failures++;
        fprintf(stderr, "C entries: %s\n", what);
    }
}

/* 4 hint bits, frame 0, slots with the hints 8, 1 and 2: the first is half the range away. */
static refmvs_header half_range(void)
{
    refmvs_header h;
    memset(&h, 0, sizeof h);
    h.order_hint_n_bits = 4;
    h.width = 64;
    h.height = 64;
    h.n_ref_frames = 3;
    h.tmvp_sample_step = 1;
    h.use_ref_frame_mvs = 1;
    h.ref_poc[0].value = 8;
    h.ref_poc[1].value = 1;
    h.ref_poc[2].value = 2;
    memset(h.rp_ref, 1, sizeof h.rp_ref);
    return h;
}

static void setup(void)
{
    const int8_t differences[7] = {-8, -1, -2, 0, 0, 0, 0};
    const uint8_t signs[7] = {1, 0, 0, 0, 0, 0, 0};
    const uint8_t slots[4] = {2, 2, 1, 1}, directions[4] = {0, 1, 0, 1};
    refmvs_header h = half_range();
    refmvs_setup s = refmvs_init_frame(h);
    int n;

    expect(s.refusal == 0 && s.frame.sources.n_mfmvs == 4, "setup accepted, four sources");
    expect(memcmp(s.frame.pocdiff, differences, 7) == 0, "setup: clipped differences");
    expect(memcmp(s.frame.ref_sign, signs, 7) == 0, "setup: signs");
    for (n = 0; n < 4; n++)
        expect(s.frame.sources.mfmv[n].reference.value == slots[n] && s.frame.sources.mfmv[n].dir == directions[n], "setup: a source");
    h.width = 0;
    s = refmvs_init_frame(h);
    expect(s.refusal == 7 && s.frame.n_ref_frames == 0 && s.frame.pocdiff[0] == 0 && s.frame.sources.n_mfmvs == 0, "setup refused: 7, zeros");
}

/* The store of a frame of 8 x 8 cells in row mode: S is 8, stride 32. */
enum { FIELD = 11 * 32, TRAJ = 7 * 256, MAP = 21 * 256, PLANES = 7 * 8 * 32 * 6 };
static struct {
    int32_t field_y[FIELD], field_x[FIELD], traj_y[TRAJ], traj_x[TRAJ];
    uint8_t field_ref[FIELD];
    int8_t map_y[MAP], map_x[MAP];
} store, before;
static int8_t planes[PLANES];

static uint32_t load(refmvs_frame frame, size_t col_end, size_t planes_len)
{
    return refmvs_load_tmvs(store.field_y, FIELD, store.field_x, FIELD, store.field_ref, FIELD,
                            store.traj_y, TRAJ, store.traj_x, TRAJ, store.map_y, MAP, store.map_x,
                            MAP, planes, planes_len, frame, 0, 1, 0, 0, col_end, 0, 8);
}

static void refused(uint32_t answer, uint32_t number, const char *what)
{
    expect(answer == number && memcmp(&store, &before, sizeof store) == 0, what);
}

static void loads(void)
{
    refmvs_frame frame = refmvs_init_frame(half_range()).frame;
    refmvs_frame five = frame;
    int y, x, empty = 1;

    memset(planes, -1, sizeof planes);
    five.sources.n_mfmvs = 5;
    refused(load(five, 7, 0), 9, "load of five sources: 9");
    refused(load(frame, 7, 0), 10, "load of seven columns: 10");
    refused(load(frame, 8, PLANES - 1), 11, "load of short planes: 11");
    store.traj_y[TRAJ - 1] = before.traj_y[TRAJ - 1] = 65536;
    refused(load(frame, 8, PLANES), 12, "load with a trajectory past 65535: 12");
    store.traj_y[TRAJ - 1] = 65535;
    expect(load(frame, 8, PLANES) == 0, "load accepted");
    for (y = 0; y < 8; y++)
        for (x = 0; x < 32; x++)
            empty &= store.field_y[(3 + y) * 32 + x] == (x < 8 ? 2097152 : 0);
    expect(empty, "load without vectors: the tile's cells are empty, no others");
    expect(store.map_y[7 * 256] == -128 && store.map_y[0] == 0 && store.traj_y[0] == 2097152 && store.traj_y[TRAJ - 1] == 65535, "load: trajectories and maps of the tile alone");
}

int main(void)
{
    int32_t v[2] = {7, 8};
    int8_t q[2] = {7, 8};
    int32_t d[1] = {7};
    const refmvs_order_hint one = {1}, fifteen = {15};

    expect(refmvs_mv_projection(65536, 0, 1, 3, -2047, 2047, v) == 1 && v[0] == 7 && v[1] == 8, "projection refused: 1, buffer as it was");
    expect(refmvs_mv_projection(100, -100, 1, 3, -2047, 2047, v) == 0 && v[0] == 33 && v[1] == -33, "projection by 1 over 3");
    expect(refmvs_scale_mv(1, -1, 507905, v) == 1 && v[0] == 33 && v[1] == -33, "scaling refused: 1, buffer as it was");
    expect(refmvs_scale_mv(1, -1, 8192, v) == 0 && v[0] == 1 && v[1] == -1, "scaling by a half");
    expect(refmvs_quantize_mv(2047, -33, q) == 0 && q[0] == 127 && q[1] == -32, "packing");
    expect(refmvs_quantize_mv(INT32_MIN, 0, q) == 0 && q[0] == -128 && q[1] == -128, "packing: the mark");
    expect(refmvs_dequantize_mv(-128, 0, v) == 2 && v[0] == 1 && v[1] == -1, "unpacking refused: 2, buffer as it was");
    expect(refmvs_dequantize_mv(127, -33, v) == 0 && v[0] == 1984 && v[1] == -34, "unpacking");
    expect(refmvs_dequantize_mv(-128, -128, v) == 0 && v[0] == 2097152 && v[1] == 0, "unpacking: empty");
    expect(refmvs_get_poc_diff(9, one, fifteen, d) == 3 && d[0] == 7, "hints refused: 3, buffer as it was");
    expect(refmvs_get_poc_diff(4, one, fifteen, d) == 0 && d[0] == 2, "hints 1 and 15, 4 bits");
    setup();
    loads();
    if (failures == 0)
        printf("C entries: as documented\n");
    return failures != 0;
}
