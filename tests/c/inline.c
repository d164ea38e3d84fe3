/*
 * Prints what the header itself holds: the name and the sentence of refusals, the rules that it is written for, lengths
 * for sizes on both sides of every limit, and what calls with such lengths answer. expected_inline.py prints the same.
 */
#include <cavzemil.h>

#include <inttypes.h>
#include <stdio.h>

enum { SIZES = 13, NUMBERS = 300 };

static const uint32_t sizes[SIZES] = {
    0, 1, 7, 8, 9, 200, 65535, 65536, 65537, 2147483648, 4294967288, 4294967289, 4294967295,
};

/* The name of a refusal in C, without what all begin with. */
static const char *name_of(uint32_t refusal) {
/* a case that answers the name of its own constant */
#define NAMED(name) case CAVZEMIL_REFUSED_##name: return #name
    switch (refusal) {
    case CAVZEMIL_SERVED: return "SERVED";
    NAMED(SLOPE);
    NAMED(CELL_COUNT);
    NAMED(SUBSCREENS);
    NAMED(OFFSET);
    NAMED(OFF_SHEET);
    NAMED(INPUT_LENGTH);
    NAMED(OUTPUT_LENGTH);
    NAMED(BRICK);
    NAMED(PLATES);
    NAMED(LINE);
    NAMED(PRIMARY);
    NAMED(PRICE);
    NAMED(JOB);
    NAMED(PRIMARIES_LENGTH);
    NAMED(STORED);
    NAMED(SEPARATION);
    default: return "";
    }
}

/* Prints a number as tests/refusals.txt has it. */
static void show_refusal(uint32_t refusal) {
    printf("%" PRIu32 "\t%s\t%s\n", refusal, name_of(refusal), cavzemil_refusal_text(refusal));
}

/* Prints the lengths of a window or of plates. */
static void show_lengths(uint32_t columns, uint32_t rows) {
    printf("%" PRIu32 " by %" PRIu32 ": input %zu, cells %zu, plane %zu, planes %zu\n", columns, rows,
           cavzemil_input_len(columns, rows), cavzemil_cells_len(columns, rows), cavzemil_plane_len(columns, rows),
           cavzemil_planes_len(columns, rows));
}

/* Prints what calls answer whose caller did not see that memory of these lengths could not be had. */
static void show_calls(uint32_t columns, uint32_t rows) {
    const cavzemil_screen screen = cavzemil_make_screen(4, 7, 30, 3, 5).screen;
    const cavzemil_window window = {.x = 0, .y = 0, .columns = columns, .rows = rows};
    const size_t input = cavzemil_input_len(columns, rows), cells = cavzemil_cells_len(columns, rows);
    const size_t planes = cavzemil_planes_len(columns, rows);
    uint16_t brick[30];
    cavzemil_fill_brick(screen, brick, 30);
    printf("%" PRIu32 " by %" PRIu32 ": refusals %" PRIu32 " %" PRIu32 " %" PRIu32 " %" PRIu32 "\n", columns, rows,
           cavzemil_render(screen, CAVZEMIL_KUEPPERS, window, NULL, input, NULL, cells).refusal,
           cavzemil_render_brick(screen, CAVZEMIL_KUEPPERS, window, NULL, input, brick, 30, NULL, cells).refusal,
           cavzemil_pack(columns, rows, NULL, cells, NULL, planes),
           cavzemil_unpack(columns, rows, NULL, planes, NULL, cells));
}

/* Prints all of the above; calls only of sizes that have a length of 0 or are beyond the sheet. */
int main(void) {
    for (uint32_t refusal = 0; refusal < NUMBERS; refusal++) {
        show_refusal(refusal);
    }
    show_refusal(UINT32_MAX);
    printf("rules %d\n", CAVZEMIL_RULES);
    for (int place = 0; place < SIZES * SIZES; place++) {
        uint32_t columns = sizes[place / SIZES], rows = sizes[place % SIZES];
        show_lengths(columns, rows);
        if (columns > 65536 || rows > 65536 || columns == 0 || rows == 0) {
            show_calls(columns, rows);
        }
    }
    return 0;
}
