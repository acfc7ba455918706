/* A decoder's loop over two frames: a setup once a frame, then the tiles of each superblock row in any order.
 * Prints what the field holds; bindings/rust/examples/decoder_loop.rs is the same in Rust, and prints the same.
 *
 *     bash library.sh
 *     cc -Iinclude examples/decoder_loop.c target/lib/librefmvs.a -o decoder_loop */
#include "refmvs.h"

#include <stdint.h>
#include <stdio.h>
#include <stdlib.h>
#include <string.h>

/* The slots that have planes (the first two are the TIP pair), and the frame in cells of 8 pixels. */
enum { SLOTS = 3, WIDTH = 200, HEIGHT = 120, W = 25, H = 15, S = 8, STRIDE = 32 };
enum { FIELD = (S + 3) * STRIDE, TRAJ = 7 * S * STRIDE, MAP = 3 * TRAJ, PLANES = 7 * H * STRIDE * 6 };
enum { EMPTY = 2097152 };

static struct {
    int32_t field_y[FIELD], field_x[FIELD];
    uint8_t field_ref[FIELD];
    int32_t traj_y[TRAJ], traj_x[TRAJ];
    int8_t map_y[MAP], map_x[MAP];
} store;
static int8_t planes[PLANES];

/* The header of frame `hint`: its slots are the frame before, the frame after and the one two before. Each
 * was saved with references to the two frames before it. */
static refmvs_header header(uint8_t hint, uint8_t step, uint8_t tip_frame_mode)
{
    const uint8_t ref_poc[7] = {hint - 1, hint + 1, hint - 2, 0, 0, 0, 0};
    refmvs_header h;
    int i;

    memset(&h, 0, sizeof h);
    h.order_hint_n_bits = 5;
    h.width = WIDTH;
    h.height = HEIGHT;
    h.n_ref_frames = SLOTS;
    h.tip = 1;
    h.tmvp_sample_step = step;
    h.use_ref_frame_mvs = 1;
    h.has_bothside_refs = 1;
    h.tip_frame_mode = tip_frame_mode;
    h.tip_reference[1] = 1;
    h.frame_offset.value = hint;
    for (i = 0; i < 7; i++) {
        h.ref_poc[i].value = ref_poc[i];
        h.saved[i].ref_poc[0].value = (ref_poc[i] + 31) % 32;
        h.saved[i].ref_poc[1].value = (ref_poc[i] + 30) % 32;
        h.saved[i].refcnt = 2;
        h.rp_ref[i] = 1;
    }
    return h;
}

/* An invented block: a ball that moves to the right and down a little, and a wall that stands still. Both
 * vectors are the same, the first to the frame before and the second to the one before that. */
static void put_block(int8_t block[6], int row, int column)
{
    const int ball = 3 <= row && row < 12 && 5 <= column && column < 14 && (row + column) % 3 != 0;
    const int wall = column >= 21;
    const int size = ball ? 1 + row % 2 : 0;

    if (!ball && !wall) {
        memset(block, -128, 4);
        memset(block + 4, -1, 2);
        return;
    }
    refmvs_quantize_mv(-9 * size, -40 * size, block);
    memcpy(block + 2, block, 2);
    block[4] = 0;
    block[5] = 1;
}

/* The planes of saved blocks, as earlier frames would have left them. */
static void put_planes(void)
{
    int slot, row, column;

    for (slot = 0; slot < SLOTS; slot++)
        for (row = 0; row < H; row++)
            for (column = 0; column < W; column++)
                put_block(planes + 6 * ((slot * H + row) * STRIDE + column), row, column);
}

static void empty_store(void)
{
    int i;

    memset(&store, 0, sizeof store);
    for (i = 0; i < FIELD; i++)
        store.field_y[i] = EMPTY;
    for (i = 0; i < TRAJ; i++)
        store.traj_y[i] = EMPTY;
    memset(store.map_y, -128, sizeof store.map_y);
    memset(store.map_x, -128, sizeof store.map_x);
}

/* Loads the tiles of a superblock row; a refused one is told, and changes nothing. */
static void load_row(const refmvs_frame *setup, size_t row_start, size_t row_end)
{
    static const size_t tiles[4][2] = {{16, 25}, {0, 8}, {4, 8}, {8, 16}};
    int i;

    for (i = 0; i < 4; i++) {
        const uint32_t refusal = refmvs_load_tmvs(
            store.field_y, FIELD, store.field_x, FIELD, store.field_ref, FIELD, store.traj_y, TRAJ, store.traj_x, TRAJ,
            store.map_y, MAP, store.map_x, MAP, planes, PLANES, *setup, 0, 1, 1, tiles[i][0], tiles[i][1], row_start,
            row_end);
        if (refusal != 0)
            printf("columns %zu to %zu: refusal %u\n", tiles[i][0], tiles[i][1], (unsigned)refusal);
    }
}

/* A dot is empty, 0 is a still cell, + any other vector. In row mode the superblock row begins behind the
 * three rows above it. */
static void print_row(size_t row_start, size_t row_end)
{
    size_t row, column, held = 0;
    int32_t y = 0, x = 0;

    for (row = row_start; row < row_end; row++) {
        printf("%2zu ", row);
        for (column = 0; column < W; column++) {
            const size_t at = (3 + row - row_start) * STRIDE + column;
            if (store.field_y[at] == EMPTY) {
                putchar('.');
                continue;
            }
            putchar(store.field_y[at] == 0 && store.field_x[at] == 0 ? '0' : '+');
            held++;
            y += store.field_y[at];
            x += store.field_x[at];
        }
        putchar('\n');
    }
    printf("%zu cells hold a vector; their sum is %d, %d\n", held, (int)y, (int)x);
}

static void print_sources(int hint, const refmvs_sources *sources)
{
    size_t n;

    printf("frame %d: %zu sources\n", hint, sources->n_mfmvs);
    for (n = 0; n < sources->n_mfmvs; n++) {
        const refmvs_source *source = &sources->mfmv[n];
        printf("slot %d, vector %d, %d from the frame\n", source->reference.value, source->dir, source->ref2cur);
    }
}

int main(void)
{
    static const uint8_t frames[2][3] = {{6, 1, 0}, {7, 2, 1}}; /* hint, sample step, TIP mode */
    int i;

    put_planes();
    empty_store();
    for (i = 0; i < 2; i++) {
        const refmvs_setup setup = refmvs_init_frame(header(frames[i][0], frames[i][1], frames[i][2]));
        size_t row;

        if (setup.refusal != 0) {
            fprintf(stderr, "refusal %u\n", (unsigned)setup.refusal);
            return EXIT_FAILURE;
        }
        print_sources(frames[i][0], &setup.frame.sources);
        for (row = 0; row < H; row += S) {
            const size_t end = row + S < H ? row + S : H;
            load_row(&setup.frame, row, end);
            print_row(row, end);
        }
    }
    return EXIT_SUCCESS;
}
