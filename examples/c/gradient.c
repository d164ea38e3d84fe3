/*
 * Screens a gradient of 200 by 100 and writes its eight plates to a folder, as PBM files. It goes through the picture in
 * bands of 16 rows, so that nothing but a band is in memory, and prints how many cells each colorant got.
 *
 *     cc examples/c/gradient.c $(pkg-config --cflags --libs cavzemil) -o gradient && ./gradient FOLDER
 */
#include <cavzemil.h>

#include <inttypes.h>
#include <stdio.h>
#include <stdlib.h>
#include <unistd.h>

enum { COLUMNS = 200, ROWS = 100, BAND = 16, COLORANTS = 8 };

static const char *const names[COLORANTS] = {"cyan", "magenta", "yellow", "blue", "green", "red", "black", "white"};

/* Ends the program where a call was refused, and says why. */
static void check(uint32_t refusal) {
    if (refusal != CAVZEMIL_SERVED) {
        fprintf(stderr, "gradient: %s (refusal %" PRIu32 ")\n", cavzemil_refusal_text(refusal), refusal);
        exit(1);
    }
}

/* Ends the program where something was not done with a file, and says why. */
static void check_file(int done, const char *name) {
    if (!done) {
        perror(name);
        exit(1);
    }
}

/* Makes the file of a plate, and begins it. */
static FILE *begin_plate(int colorant) {
    char name[40];
    snprintf(name, sizeof name, "gradient-%d-%s.pbm", colorant, names[colorant]);
    FILE *file = fopen(name, "wb");
    check_file(file != NULL && fprintf(file, "P4\n%d %d\n", COLUMNS, ROWS) > 0, name);
    return file;
}

/* Fills the input of a window: c grows to the right, m downwards, y to the left. */
static void fill(uint8_t *input, cavzemil_window window) {
    for (uint32_t y = window.y; y < window.y + window.rows; y++) {
        for (uint32_t x = 0; x < window.columns; x++) {
            *input++ = (uint8_t)(x * 255 / (COLUMNS - 1));
            *input++ = (uint8_t)(y * 255 / (ROWS - 1));
            *input++ = (uint8_t)((COLUMNS - 1 - x) * 255 / (COLUMNS - 1));
        }
    }
}

/* Screens a window and packs it, appends each plane to its file, and adds the tallies. */
static void screen_band(cavzemil_screen screen, cavzemil_window window, FILE *plates[COLORANTS],
                        uint64_t tallies[COLORANTS]) {
    static uint8_t input[3 * COLUMNS * BAND], cells[COLUMNS * BAND], planes[COLORANTS * BAND * ((COLUMNS + 7) / 8)];
    size_t input_len = cavzemil_input_len(window.columns, window.rows);
    size_t cells_len = cavzemil_cells_len(window.columns, window.rows);
    size_t plane_len = cavzemil_plane_len(window.columns, window.rows);
    size_t planes_len = cavzemil_planes_len(window.columns, window.rows);

    fill(input, window);
    cavzemil_rendering rendering =
        cavzemil_render(screen, CAVZEMIL_KUEPPERS, window, input, input_len, cells, cells_len);
    check(rendering.refusal);
    check(cavzemil_pack(window.columns, window.rows, cells, cells_len, planes, planes_len));
    for (int colorant = 0; colorant < COLORANTS; colorant++) {
        const uint8_t *plane = planes + colorant * plane_len;
        check_file(fwrite(plane, 1, plane_len, plates[colorant]) == plane_len, names[colorant]);
        tallies[colorant] += rendering.tallies[colorant];
    }
}

/* Goes through the bands of the picture, and prints the tallies of all of them. */
int main(int count, char **arguments) {
    if (count != 2) {
        fprintf(stderr, "usage: gradient FOLDER\n");
        return 2;
    }
    check_file(chdir(arguments[1]) == 0, arguments[1]);
    cavzemil_made made = cavzemil_make_screen(4, 7, 105, 2, 0);
    check(made.refusal);
    FILE *plates[COLORANTS];
    uint64_t tallies[COLORANTS] = {0};
    for (int colorant = 0; colorant < COLORANTS; colorant++) {
        plates[colorant] = begin_plate(colorant);
    }
    for (uint32_t y = 0; y < ROWS; y += BAND) {
        cavzemil_window band = {.x = 0, .y = y, .columns = COLUMNS, .rows = y + BAND > ROWS ? ROWS - y : BAND};
        screen_band(made.screen, band, plates, tallies);
    }
    for (int colorant = 0; colorant < COLORANTS; colorant++) {
        check_file(fclose(plates[colorant]) == 0, names[colorant]);
    }
    for (int colorant = 0; colorant < COLORANTS; colorant++) {
        printf("%-8s %5" PRIu64 "\n", names[colorant], tallies[colorant]);
    }
    check_file(fflush(stdout) == 0, "standard output");
    return 0;
}
