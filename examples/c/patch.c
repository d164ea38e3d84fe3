/*
 * Screens a patch of three tints side by side and prints it, a letter a cell: C, M and Y for the single
 * inks, B, G and R for two of them, K for all three, a dot for white. Beside it stand the counts, the
 * tallies, the bytes of the first plate, a predicted colour and what the ink costs.
 *
 *     cc examples/c/patch.c $(pkg-config --cflags --libs cavzemil) -o patch && ./patch
 *
 * Its output is patch.expected.
 */
#include <cavzemil.h>

#include <inttypes.h>
#include <stdio.h>
#include <stdlib.h>
#include <string.h>

enum { N = 70, COLUMNS = 60, ROWS = 14, CELLS = COLUMNS * ROWS, PLANE = ROWS * ((COLUMNS + 7) / 8) };

static const uint8_t tints[3][3] = {{128, 128, 0}, {51, 102, 204}, {230, 40, 90}};

/* Ends the program where a call was refused, and says why. */
static void check(uint32_t refusal) {
    if (refusal != CAVZEMIL_SERVED) {
        fprintf(stderr, "patch: %s (refusal %" PRIu32 ")\n", cavzemil_refusal_text(refusal), refusal);
        exit(1);
    }
}

/* Prints a row of eight numbers after a heading. */
static void print_numbers(const char *heading, const uint64_t numbers[8]) {
    printf("%-22s", heading);
    for (int colorant = 0; colorant < 8; colorant++) {
        printf(" %4" PRIu64, numbers[colorant]);
    }
    printf("\n");
}

/* Prints the counts of a tint. */
static void print_counts(cavzemil_screen screen, const uint8_t tint[3]) {
    char heading[32];
    uint64_t numbers[8];
    cavzemil_counts counts = cavzemil_counts_of(screen, CAVZEMIL_KUEPPERS, tint[0], tint[1], tint[2]);
    snprintf(heading, sizeof heading, "counts of %d, %d, %d", tint[0], tint[1], tint[2]);
    for (int colorant = 0; colorant < 8; colorant++) {
        numbers[colorant] = counts.of[colorant];
    }
    print_numbers(heading, numbers);
}

/* Fills the input with the three tints, a third of the columns each. */
static void fill_input(uint8_t input[3 * CELLS]) {
    for (int cell = 0; cell < CELLS; cell++) {
        memcpy(input + 3 * cell, tints[cell % COLUMNS * 3 / COLUMNS], 3);
    }
}

/* Prints the cells, a letter each. */
static void print_cells(const uint8_t cells[CELLS]) {
    for (int cell = 0; cell < CELLS; cell++) {
        putchar("CMYBGRK."[cells[cell]]);
        if (cell % COLUMNS == COLUMNS - 1) {
            putchar('\n');
        }
    }
}

/* Packs the cells and prints the first row of the yellow plate. */
static void print_plate(const uint8_t cells[CELLS]) {
    uint8_t planes[8 * PLANE];
    uint32_t refusal = cavzemil_pack(COLUMNS, ROWS, cells, CELLS, planes, sizeof planes);
    check(refusal);
    printf("first row of the yellow plate (refusal %" PRIu32 "):", refusal);
    for (int byte = 0; byte < PLANE / ROWS; byte++) {
        printf(" %02x", planes[CAVZEMIL_YELLOW * PLANE + byte]);
    }
    printf("\n");
}

/* Prints the colour predicted for the second tint, and what a bad primary is refused as. */
static void print_colours(cavzemil_screen screen) {
    double primaries[24] = {22, 28, 90, 38, 20, 17, 76, 82, 10, 8, 6, 30,
                            9,  17, 8,  32, 18, 4,  2,  2,  2,  88, 92, 98};
    const uint8_t *tint = tints[1];
    cavzemil_prediction colour =
        cavzemil_predict(screen, CAVZEMIL_KUEPPERS, tint[0], tint[1], tint[2], primaries, 24);
    printf("second tint's colour: %.3f %.3f %.3f\n", colour.x, colour.y, colour.z);
    primaries[3] = 200.5;
    colour = cavzemil_predict(screen, CAVZEMIL_KUEPPERS, tint[0], tint[1], tint[2], primaries, 24);
    printf("a bad primary: refusal %" PRIu32 ", colorant %" PRIu32 "\n", colour.refusal, colour.colorant);
}

/* Prints what the ink of the patch costs. */
static void print_charge(const uint64_t tallies[8]) {
    cavzemil_prices prices = {.of = {52000, 48000, 45000, 71000, 69000, 66000, 38000, 95000}};
    cavzemil_charge charge = cavzemil_charge_of(prices, tallies, 8);
    check(charge.refusal);
    printf("ink of the patch (refusal %" PRIu32 "): %" PRIu64 " cents\n", charge.refusal, charge.cents);
}

/* Renders the patch from a brick and prints all of the above. */
int main(void) {
    static uint8_t input[3 * CELLS], cells[CELLS];
    uint16_t brick[N];
    cavzemil_window window = {.x = 0, .y = 0, .columns = COLUMNS, .rows = ROWS};
    cavzemil_made made = cavzemil_make_screen(4, 7, N, 2, 0);
    cavzemil_screen screen = made.screen;
    cavzemil_rendering rendering;

    check(made.refusal);
    printf("screen 4/7 of %d cells: bricks of %" PRIu32 " by %" PRIu32 ", shifted by %" PRIu32 "\n", N,
           screen.columns, screen.rows, screen.shift);
    fill_input(input);
    check(cavzemil_fill_brick(screen, brick, N));
    rendering = cavzemil_render_brick(screen, CAVZEMIL_KUEPPERS, window, input, sizeof input, brick, N,
                                      cells, sizeof cells);
    check(rendering.refusal);
    print_cells(cells);
    for (int tint = 0; tint < 3; tint++) {
        print_counts(screen, tints[tint]);
    }
    print_numbers("tallies of the patch", rendering.tallies);
    print_plate(cells);
    print_colours(screen);
    print_charge(rendering.tallies);
    return 0;
}
