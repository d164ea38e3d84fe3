/*
 * Calls every function of the C interface through its header alone, and prints every answer, field by field, with
 * all memory that was lent. Fields are set and read by their names, and memory that a call only reads is const: a
 * header that exchanges two of them does not compile here, or something else is printed than expected.py prints.
 */
#include <cavzemil.h>

#include <inttypes.h>
#include <stdio.h>
#include <string.h>

enum { N = 30, PLACES = N + 2, X = 8, Y = 13, WIDE = 5, HIGH = 3, CELLS = WIDE * HIGH };
enum { PLATE_WIDE = 11, PLATE_HIGH = 2, PLATE_CELLS = PLATE_WIDE * PLATE_HIGH, PLANES = 8 * PLATE_HIGH * 2 };
enum { TALLIES = 16, MOST_TALLIES = 8000, MOST_PRICE = 1000000 };
enum { VALUES = 24, SETS = 255, RECORDS = 3 * SETS, SHEET = 65536, GUARDS = 2, UNWRITTEN = 170 };

static const cavzemil_screen screen = {
    .a = 4, .b = 7, .n = N, .k = 3, .g = 5, .columns = 15, .rows = 2, .shift = 4,
};
/* The shift that the last of them stores fits the equation of rule 3.3 as 4 does, but is beyond the columns. */
static const struct { const char *call; cavzemil_screen s; } refused[] = {
    {"slope 4/8", {.a = 4, .b = 8, .n = N, .k = 3, .g = 5, .columns = 1, .rows = 2, .shift = 3}},
    {"4097 cells", {.a = 4, .b = 7, .n = 4097, .k = 3, .g = 5, .columns = 4, .rows = 5, .shift = 6}},
    {"17 subscreens", {.a = 4, .b = 7, .n = N, .k = 17, .g = 5, .columns = 7, .rows = 8, .shift = 9}},
    {"offset 30", {.a = 4, .b = 7, .n = N, .k = 3, .g = N, .columns = 10, .rows = 11, .shift = 12}},
    {"columns 16", {.a = 4, .b = 7, .n = N, .k = 3, .g = 5, .columns = 16, .rows = 2, .shift = 4}},
    {"rows 1", {.a = 4, .b = 7, .n = N, .k = 3, .g = 5, .columns = 15, .rows = 1, .shift = 4}},
    {"shift 19", {.a = 4, .b = 7, .n = N, .k = 3, .g = 5, .columns = 15, .rows = 2, .shift = 19}},
};
static const cavzemil_window window = {.x = X, .y = Y, .columns = WIDE, .rows = HIGH};
static const struct { uint8_t c, m, y; } tint = {.c = 51, .m = 204, .y = 102};
static const uint8_t input[3 * CELLS] = {
    51,  102, 204, 200, 90,  140, 13,  77,  250, 255, 255, 0,   0,   0,  0,
    128, 0,   128, 9,   240, 31,  180, 180, 180, 60,  0,   0,   0,   99, 201,
    250, 240, 230, 77,  13,  128, 40,  160, 80,  90,  10,  170, 222, 33, 111,
};
static const uint8_t cells[] = {0, 1, 2, 3, 4, 5, 6, 7, 7, 0, 5, 2, 7, 4, 1, 6, 3, 0, 6, 1, 3, 5, 8};
static const double primaries[VALUES] = {
    22.1, 28.3, 90.7, 38,   20.2, 17.6, 76.9, 82.4, 10.3, 8.8, 6.1,  30,
    9.5,  17.7, 8.2,  32.9, 18.4, 4.6,  2,    2.5,  2.7,  88,  92.3, 98.1,
};
static double records[RECORDS + GUARDS];
static const cavzemil_prices prices = {.of = {MOST_PRICE, 250000, 31, 4000, 750001, 90210, 5, 123456}};
static const uint64_t job[TALLIES] = {
    4000000000, 200000000, 90000000, 4000000,   900000, 60000,     7000, 296,
    600000000,  3000000,   50000000, 700000000, 1100,   220000000, 13,   1700000,
};

/* Prints the function, what is particular in this call, and the refusal. */
static void print_call(const char *function, const char *call, uint32_t refusal) {
    printf("%s, %s: refusal %" PRIu32, function, call, refusal);
}

/* Prints a run of bytes after its name. */
static void print_bytes(const char *name, const uint8_t *bytes, size_t length) {
    printf("; %s", name);
    for (size_t place = 0; place < length; place++) {
        printf(" %d", bytes[place]);
    }
}

/* Ends a line with a whole brick buffer. */
static void print_buffer(const uint16_t brick[PLACES]) {
    printf("; brick");
    for (int place = 0; place < PLACES; place++) {
        printf(" %d", brick[place]);
    }
    printf("\n");
}

/* Prints a rendering. */
static void print_rendering(const char *function, const char *call, cavzemil_rendering rendering) {
    print_call(function, call, rendering.refusal);
    printf(", tallies");
    for (int colorant = 0; colorant < 8; colorant++) {
        printf(" %" PRIu64, rendering.tallies[colorant]);
    }
}

/* Prints the bits of a value after its name. */
static void print_value(const char *name, double value) {
    uint64_t bits;
    memcpy(&bits, &value, sizeof bits);
    printf(", %s %016" PRIx64, name, bits);
}

/* Prints a screen that was made or handed back, and answers it. */
static cavzemil_screen show_made(const char *function, const char *call, cavzemil_made made) {
    cavzemil_screen s = made.screen;
    print_call(function, call, made.refusal);
    printf(", a %" PRIu32 ", b %" PRIu32 ", n %" PRIu32 ", k %" PRIu32 ", g %" PRIu32, s.a, s.b, s.n, s.k, s.g);
    printf(", columns %" PRIu32 ", rows %" PRIu32 ", shift %" PRIu32 "\n", s.columns, s.rows, s.shift);
    return s;
}

/* Makes the screen of five numbers, those of a screen. */
static void show_making(const char *call, cavzemil_screen s) {
    show_made("make_screen", call, cavzemil_make_screen(s.a, s.b, s.n, s.k, s.g));
}

/* Replaces the offset of a screen, and answers what is handed back. */
static cavzemil_screen show_offset(const char *call, cavzemil_screen s, uint32_t g) {
    return show_made("replace_offset", call, cavzemil_replace_offset(s, g));
}

/* Replaces the number of subscreens, and answers what is handed back. */
static cavzemil_screen show_subscreens(const char *call, cavzemil_screen s, uint32_t k) {
    return show_made("replace_subscreens", call, cavzemil_replace_subscreens(s, k));
}

/* Replaces the cell count, and answers what is handed back. */
static cavzemil_screen show_cells(const char *call, cavzemil_screen s, uint32_t n) {
    return show_made("replace_cells", call, cavzemil_replace_cells(s, n));
}

/* Prints a screen as it is seen from a corner. */
static void show_move(const char *call, cavzemil_screen s, uint64_t x, uint64_t y) {
    show_made("moved", call, cavzemil_moved(s, x, y));
}

/* Prints the phase of a place. */
static void show_place(const char *call, cavzemil_screen s, uint32_t x, uint32_t y) {
    cavzemil_place place = cavzemil_phase_at(s, x, y);
    print_call("phase_at", call, place.refusal);
    printf(", phase %" PRIu32 "\n", place.phase);
}

/* Prints the sizes of a brick. */
static void show_brick(const char *call, cavzemil_screen s) {
    cavzemil_brick brick = cavzemil_brick_of(s);
    print_call("brick_of", call, brick.refusal);
    printf(", columns %" PRIu32 ", rows %" PRIu32 ", shift %" PRIu32 "\n", brick.columns, brick.rows, brick.shift);
}

/* Fills a brick buffer of which so many places are lent, and prints the whole of it. */
static void show_filling(const char *call, cavzemil_screen s, size_t places) {
    uint16_t brick[PLACES];
    memset(brick, UNWRITTEN, sizeof brick);
    print_call("fill_brick", call, cavzemil_fill_brick(s, brick, places));
    print_buffer(brick);
}

/* Prints the counts of the tint. */
static void show_counts(const char *call, cavzemil_screen s, uint32_t separation) {
    cavzemil_counts counts = cavzemil_counts_of(s, separation, tint.c, tint.m, tint.y);
    print_call("counts_of", call, counts.refusal);
    printf(", of");
    for (int colorant = 0; colorant < 8; colorant++) {
        printf(" %" PRIu32, counts.of[colorant]);
    }
    printf("\n");
}

/* Prints the colorant of a place that has the tint. */
static void show_cell(const char *call, cavzemil_screen s, uint32_t separation, uint32_t x, uint32_t y) {
    cavzemil_cell cell = cavzemil_cell_at(s, separation, x, y, tint.c, tint.m, tint.y);
    print_call("cell_at", call, cell.refusal);
    printf(", colorant %" PRIu32 "\n", cell.colorant);
}

/* Renders a window, phases worked out, and prints the rendering and the output. */
static void show_window(const char *call, cavzemil_screen s, uint32_t separation, cavzemil_window w,
                        size_t input_length, size_t out_length) {
    uint8_t out[CELLS + GUARDS];
    memset(out, UNWRITTEN, sizeof out);
    print_rendering("render", call, cavzemil_render(s, separation, w, input, input_length, out, out_length));
    print_bytes("out", out, sizeof out);
    printf("\n");
}

/* Renders the window, phases read from the brick buffer of the screen above, of which so many places are lent, and
   prints the rendering, the output and the buffer. */
static void show_brick_window(const char *call, cavzemil_screen s, uint32_t separation, size_t places) {
    uint16_t filled[PLACES] = {0};
    const uint16_t *brick = filled;
    uint8_t out[CELLS + GUARDS];
    cavzemil_fill_brick(screen, filled, PLACES);
    memset(out, UNWRITTEN, sizeof out);
    print_rendering("render_brick", call,
                    cavzemil_render_brick(s, separation, window, input, sizeof input, brick, places, out, CELLS));
    print_bytes("out", out, sizeof out);
    print_buffer(brick);
}

/* Prints the colour predicted for the tint. */
static void show_colour(const char *call, cavzemil_screen s, uint32_t separation, const double *xyz, size_t values) {
    cavzemil_prediction colour = cavzemil_predict(s, separation, tint.c, tint.m, tint.y, xyz, values);
    print_call("predict", call, colour.refusal);
    printf(", colorant %" PRIu32, colour.colorant);
    print_value("x", colour.x);
    print_value("y", colour.y);
    print_value("z", colour.z);
    printf("\n");
}

/* Prints the colour predicted for the tint by sets of colorants. */
static void show_cellular(const char *call, cavzemil_screen s, uint32_t separation, const double *xyz,
                          size_t values) {
    cavzemil_cellular colour = cavzemil_predict_cellular(s, separation, tint.c, tint.m, tint.y, xyz, values);
    print_call("predict_cellular", call, colour.refusal);
    printf(", set %" PRIu32, colour.set);
    print_value("x", colour.x);
    print_value("y", colour.y);
    print_value("z", colour.z);
    printf("\n");
}

/* Packs cells into planes, and prints the planes. */
static void show_packing(const char *call, const uint8_t *from, size_t from_length, size_t planes_length) {
    uint8_t planes[PLANES + GUARDS];
    memset(planes, UNWRITTEN, sizeof planes);
    print_call("pack", call, cavzemil_pack(PLATE_WIDE, PLATE_HIGH, from, from_length, planes, planes_length));
    print_bytes("planes", planes, sizeof planes);
    printf("\n");
}

/* Unpacks planes into cells, and prints the cells and the planes. */
static void show_unpacking(const char *call, const uint8_t *planes, size_t planes_length, size_t to_length) {
    uint8_t to[PLATE_CELLS + GUARDS];
    memset(to, UNWRITTEN, sizeof to);
    print_call("unpack", call, cavzemil_unpack(PLATE_WIDE, PLATE_HIGH, planes, planes_length, to, to_length));
    print_bytes("cells", to, sizeof to);
    print_bytes("planes", planes, PLANES);
    printf("\n");
}

/* Prints the charge of a job. */
static void show_charge(const char *call, cavzemil_prices p, const uint64_t *tallies, size_t length) {
    cavzemil_charge charge = cavzemil_charge_of(p, tallies, length);
    print_call("charge_of", call, charge.refusal);
    printf(", cents %" PRIu64 "\n", charge.cents);
}

/* Prints a colorant's constant, and the colorant of a place that has its inks in full. */
static void show_full_tone(const char *name, uint32_t colorant, uint8_t c, uint8_t m, uint8_t y) {
    cavzemil_cell cell = cavzemil_cell_at(screen, CAVZEMIL_DEMICHEL, X, Y, c, m, y);
    print_call("cell_at", name, cell.refusal);
    printf(", colorant %" PRIu32 ", constant %" PRIu32 "\n", cell.colorant, colorant);
}

/* Prints the constants by their names. */
static void show_constants(void) {
    printf("CAVZEMIL_DEMICHEL %d\nCAVZEMIL_KUEPPERS %d\n", CAVZEMIL_DEMICHEL, CAVZEMIL_KUEPPERS);
    show_full_tone("CAVZEMIL_CYAN", CAVZEMIL_CYAN, 255, 0, 0);
    show_full_tone("CAVZEMIL_MAGENTA", CAVZEMIL_MAGENTA, 0, 255, 0);
    show_full_tone("CAVZEMIL_YELLOW", CAVZEMIL_YELLOW, 0, 0, 255);
    show_full_tone("CAVZEMIL_BLUE", CAVZEMIL_BLUE, 255, 255, 0);
    show_full_tone("CAVZEMIL_GREEN", CAVZEMIL_GREEN, 255, 0, 255);
    show_full_tone("CAVZEMIL_RED", CAVZEMIL_RED, 0, 255, 255);
    show_full_tone("CAVZEMIL_BLACK", CAVZEMIL_BLACK, 255, 255, 255);
    show_full_tone("CAVZEMIL_WHITE", CAVZEMIL_WHITE, 0, 0, 0);
}

/* Prints what every call with a screen and no separation answers. */
static void show_screen(const char *call, cavzemil_screen s) {
    show_making(call, s);
    show_offset(call, s, N - 1);
    show_subscreens(call, s, 1);
    show_cells(call, s, N + 5);
    show_move(call, s, X, Y);
    show_place(call, s, X, Y);
    show_brick(call, s);
    show_filling(call, s, N + 1);
}

/* Prints what every call with a screen and a separation answers. */
static void show_separation(const char *call, cavzemil_screen s, uint32_t separation) {
    show_counts(call, s, separation);
    show_cell(call, s, separation, X, Y);
    show_window(call, s, separation, window, sizeof input, CELLS);
    show_brick_window(call, s, separation, N + 1);
    show_colour(call, s, separation, primaries, VALUES);
    show_cellular(call, s, separation, records, RECORDS);
}

/* Prints what is answered where a place, a window, a length or a primary is too much, at the sheet's end, and where
   the numbers of a screen are the largest or one has too many bits. */
static void show_limits(void) {
    const cavzemil_screen most = {.a = 63, .b = 64, .n = 4096, .k = 16, .g = 4095};
    const cavzemil_screen wide = {.a = 4, .b = 7, .n = 65536 + N, .k = 3, .g = 5};
    const cavzemil_window last = {.x = SHEET - WIDE, .y = SHEET - HIGH, .columns = WIDE, .rows = HIGH};
    const cavzemil_window beyond = {.x = SHEET - WIDE + 1, .y = Y, .columns = WIDE, .rows = HIGH};
    double values[VALUES];
    show_making("largest numbers", most);
    show_making("65566 cells", wide);
    show_place("beyond the sheet", screen, X, SHEET);
    show_filling("brick too short", screen, N - 1);
    show_cell("beyond the sheet", screen, CAVZEMIL_KUEPPERS, SHEET, Y);
    show_window("last of the sheet", screen, CAVZEMIL_KUEPPERS, last, sizeof input, CELLS);
    show_window("beyond the sheet", screen, CAVZEMIL_KUEPPERS, beyond, sizeof input, CELLS);
    show_window("input too short", screen, CAVZEMIL_KUEPPERS, window, sizeof input - 1, CELLS);
    show_window("output too long", screen, CAVZEMIL_KUEPPERS, window, sizeof input, CELLS + 1);
    show_brick_window("brick too short", screen, CAVZEMIL_KUEPPERS, N - 1);
    show_colour("primaries too short", screen, CAVZEMIL_KUEPPERS, primaries, VALUES - 1);
    memcpy(values, primaries, sizeof values);
    values[3 * CAVZEMIL_GREEN + 1] = 200.5;
    show_colour("green too bright", screen, CAVZEMIL_KUEPPERS, values, VALUES);
}

/* Prints replacements one after the other, each of what the one before handed back, and the screen in the end; 65538,
   65536 and 65641 would be admitted with half of their bits. */
static void show_replacements(void) {
    cavzemil_screen s = show_cells("105 cells", screen, 105);
    s = show_offset("offset 105", s, 105);
    s = show_offset("offset 104", s, 104);
    s = show_cells("104 cells", s, 104);
    s = show_subscreens("16 subscreens", s, 16);
    s = show_subscreens("17 subscreens", s, 17);
    s = show_subscreens("65538 subscreens", s, 65538);
    s = show_offset("offset 65536", s, 65536);
    s = show_cells("65641 cells", s, 65641);
    s = show_cells("no cells", s, 0);
    s = show_offset("offset 0", s, 0);
    s = show_cells("15 cells", s, 15);
    s = show_cells("16 cells", s, 16);
    show_screen("after replacements", s);
    show_separation("after replacements", s, CAVZEMIL_KUEPPERS);
}

/* Prints a screen as it is seen from corners of few bits and of many, the largest number among them. */
static void show_moves(void) {
    const uint64_t wide = UINT64_C(1) << 32;
    show_move("not at all", screen, 0, 0);
    show_move("a column", screen, 1, 0);
    show_move("a row", screen, 0, 1);
    show_move("a sheet each way", screen, SHEET, SHEET);
    show_move("2^32 + 8 columns", screen, wide + X, Y);
    show_move("2^32 + 13 rows", screen, X, wide + Y);
    show_move("2^63 columns", screen, wide << 31, 0);
    show_move("most columns", screen, UINT64_MAX, 0);
    show_move("most rows", screen, 0, UINT64_MAX);
    show_move("most columns and rows", screen, UINT64_MAX, UINT64_MAX);
    show_move("most columns and rows, shift 19", refused[6].s, UINT64_MAX, UINT64_MAX);
}

/* Fills the records of all sets, and a few places more, with values of which no two are equal. */
static void fill_records(void) {
    for (int place = 0; place < RECORDS + GUARDS; place++) {
        records[place] = place * 7919 % 20001 / 100.0;
    }
}

/* Prints what is answered for records of which one value is another: that of a set's X, Y or Z, counted from 0. */
static void show_set(const char *call, cavzemil_screen s, int set, int channel, double value, size_t values) {
    double xyz[RECORDS + GUARDS];
    memcpy(xyz, records, sizeof xyz);
    xyz[3 * (set - 1) + channel] = value;
    show_cellular(call, s, CAVZEMIL_KUEPPERS, xyz, values);
}

/* Prints what is answered where the records are too few, too many or bad, and for minus zeros. By Kueppers three
   colorants of the tint have equal counts, and the sets 2 and 226 alone have weight. */
static void show_sets(void) {
    double xyz[RECORDS + GUARDS];
    show_cellular("records too short", screen, CAVZEMIL_KUEPPERS, records, RECORDS - 1);
    show_cellular("records too long", screen, CAVZEMIL_KUEPPERS, records, RECORDS + 1);
    show_cellular("slope 4/8, records too short", refused[0].s, CAVZEMIL_KUEPPERS, records, RECORDS - 1);
    show_set("set 226 of 200", screen, 226, 1, 200, RECORDS);
    show_set("set 226 too bright", screen, 226, 1, 200.5, RECORDS);
    show_set("set 1 too bright", screen, 1, 0, 200.5, RECORDS);
    show_set("set 255 too dark", screen, SETS, 2, -0.5, RECORDS);
    show_set("set 3 too bright, records too short", screen, 3, 0, 200.5, RECORDS - 1);
    show_set("offset 30, set 3 too bright", refused[3].s, 3, 0, 200.5, RECORDS);
    memcpy(xyz, records, sizeof xyz);
    for (int set = 1; set <= SETS; set++) {
        xyz[3 * (set - 1) + 1] = -0.0;
    }
    show_cellular("minus zeros", screen, CAVZEMIL_KUEPPERS, xyz, RECORDS);
    xyz[3 * (226 - 1)] = -1;
    xyz[3 * (200 - 1) + 2] = 1e300;
    show_cellular("sets 200 and 226 bad", screen, CAVZEMIL_KUEPPERS, xyz, RECORDS);
    show_cellular("separation 256, all else bad", refused[0].s, 256, xyz, RECORDS - 1);
}

/* Prints what is answered where a stored number and something else are wrong. */
static void show_stored(void) {
    const cavzemil_screen shifted = refused[6].s;
    const cavzemil_window beyond = {.x = SHEET, .y = Y, .columns = WIDE, .rows = HIGH};
    const double dark[VALUES] = {-1};
    show_cells("shift 19, no cells", shifted, 0);
    show_subscreens("shift 19, 17 subscreens", shifted, 17);
    show_offset("shift 19, offset 30", shifted, N);
    show_place("shift 19, beyond the sheet", shifted, X, SHEET);
    show_filling("shift 19, brick too short", shifted, N - 1);
    show_separation("shift 19, separation 2", shifted, 2);
    show_cell("shift 19, beyond the sheet", shifted, CAVZEMIL_KUEPPERS, SHEET, Y);
    show_window("shift 19, beyond the sheet", shifted, CAVZEMIL_KUEPPERS, beyond, sizeof input, CELLS);
    show_window("shift 19, input too short", shifted, CAVZEMIL_KUEPPERS, window, sizeof input - 1, CELLS);
    show_window("shift 19, output too long", shifted, CAVZEMIL_KUEPPERS, window, sizeof input, CELLS + 1);
    show_brick_window("shift 19, brick too short", shifted, CAVZEMIL_KUEPPERS, N - 1);
    show_colour("shift 19, primaries too short", shifted, CAVZEMIL_KUEPPERS, primaries, VALUES - 1);
    show_colour("shift 19, cyan too dark", shifted, CAVZEMIL_KUEPPERS, dark, VALUES);
    show_cellular("shift 19, records too short", shifted, CAVZEMIL_KUEPPERS, records, RECORDS - 1);
    show_set("shift 19, set 1 too dark", shifted, 1, 0, -1, RECORDS);
}

/* Prints plates packed and unpacked, and what refuses them; the last of the cells, an 8, is one too many. */
static void show_plates(void) {
    uint8_t planes[PLANES];
    show_packing("served", cells, PLATE_CELLS, PLANES);
    show_packing("cells too short", cells, PLATE_CELLS - 1, PLANES);
    show_packing("planes too long", cells, PLATE_CELLS, PLANES + 1);
    show_packing("a cell of 8", cells + 1, PLATE_CELLS, PLANES);
    cavzemil_pack(PLATE_WIDE, PLATE_HIGH, cells, PLATE_CELLS, planes, PLANES);
    show_unpacking("served", planes, PLANES, PLATE_CELLS);
    show_unpacking("planes too short", planes, PLANES - 1, PLATE_CELLS);
    show_unpacking("cells too long", planes, PLANES, PLATE_CELLS + 1);
    planes[1] |= 1;
    show_unpacking("padding set", planes, PLANES, PLATE_CELLS);
}

/* Prints the charge of a job, of each of its windows, and of the window as its rendering was answered. */
static void show_charges(void) {
    uint8_t out[CELLS];
    cavzemil_rendering rendering =
        cavzemil_render(screen, CAVZEMIL_KUEPPERS, window, input, sizeof input, out, CELLS);
    show_charge("two windows", prices, job, TALLIES);
    show_charge("first window", prices, job, 8);
    show_charge("second window", prices, job + 8, 8);
    show_charge("rendered", prices, rendering.tallies, 8);
}

/* Prints the charge of the largest job, and what refuses others; the job's first window has as many cells as it
   may have. */
static void show_charge_limits(void) {
    uint64_t most[MOST_TALLIES + 8], tallies[TALLIES];
    cavzemil_prices dear = prices;
    for (int place = 0; place < MOST_TALLIES + 8; place++) {
        most[place] = 536870912;
    }
    show_charge("1000 windows", prices, most, MOST_TALLIES);
    show_charge("1001 windows", prices, most, MOST_TALLIES + 8);
    show_charge("tallies too short", prices, job, TALLIES - 1);
    dear.of[CAVZEMIL_WHITE] = MOST_PRICE + 1;
    show_charge("white too dear", dear, job, TALLIES);
    memcpy(tallies, job, sizeof tallies);
    tallies[CAVZEMIL_GREEN]++;
    show_charge("a cell too many", prices, tallies, TALLIES);
    memset(tallies, 255, sizeof tallies);
    show_charge("every bit set", prices, tallies, TALLIES);
}

/* Prints what a window, plates, a job and records of nothing answer, every pointer null. */
static void show_nothing_lent(void) {
    const cavzemil_window empty = {.x = X, .y = Y, .columns = 0, .rows = HIGH};
    print_rendering("render", "nothing lent", cavzemil_render(screen, CAVZEMIL_KUEPPERS, empty, NULL, 0, NULL, 0));
    printf("\n");
    print_call("pack", "nothing lent", cavzemil_pack(0, HIGH, NULL, 0, NULL, 0));
    printf("\n");
    print_call("unpack", "nothing lent", cavzemil_unpack(WIDE, 0, NULL, 0, NULL, 0));
    printf("\n");
    show_charge("nothing lent", prices, NULL, 0);
    show_cellular("nothing lent", screen, CAVZEMIL_KUEPPERS, NULL, 0);
}

/* Prints the number of the rules, the constants, and what each screen and the rest of the calls answer. */
int main(void) {
    fill_records();
    printf("rules %" PRIu32 "\n", cavzemil_rules());
    show_constants();
    show_screen("served", screen);
    show_separation("demichel", screen, CAVZEMIL_DEMICHEL);
    show_separation("kueppers", screen, CAVZEMIL_KUEPPERS);
    show_separation("separation 2", screen, 2);
    for (size_t at = 0; at < sizeof refused / sizeof refused[0]; at++) {
        show_screen(refused[at].call, refused[at].s);
        show_separation(refused[at].call, refused[at].s, CAVZEMIL_DEMICHEL);
    }
    show_limits();
    show_replacements();
    show_moves();
    show_sets();
    show_stored();
    show_plates();
    show_charges();
    show_charge_limits();
    show_nothing_lent();
    return 0;
}
