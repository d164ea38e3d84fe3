/*
 * Cavzemil: screens of juxtaposed lines, in eight opaque inks.
 *
 * Every call is a function of what it is handed, by the rules of docs/RULES.md, which are cited here by number.
 * Structs pass by value; memory is lent as a pointer and a length in elements, and a null pointer with length 0
 * is an empty run. Runs that are handed to one call and of which one is written must not overlap, and
 * cavzemil_predict and cavzemil_predict_cellular ask for IEEE 754's default mode: to nearest, subnormal numbers
 * kept (rule 14.2). The header is C99 or newer, or C++11 or newer.
 *
 * Threads: a call works on its arguments and on the memory lent to it, and on nothing else; the library has no state
 * that calls share. So calls may run at the same time on any threads, as long as no run that one of them writes is
 * used by another.
 */
#ifndef CAVZEMIL_H
#define CAVZEMIL_H

#include <stddef.h>
#include <stdint.h>

#if SIZE_MAX < UINT64_MAX
#error "Cavzemil is for x86-64, where size_t has 64 bits"
#endif

/* The version of this interface. While its first number is 0, a program that was compiled for another second number is
   to be compiled anew; a third number more changes nothing that a program can count on. */
#define CAVZEMIL_VERSION_MAJOR 0
#define CAVZEMIL_VERSION_MINOR 2
#define CAVZEMIL_VERSION_PATCH 0
#define CAVZEMIL_VERSION "0.2.0"

/* The number of the rules that this header is written for; cavzemil_rules() answers that of the library. */
#define CAVZEMIL_RULES 6

#ifdef __cplusplus
extern "C" {
#endif

/* Refusals (rules 11.1 to 11.19). Each answer has a refusal, CAVZEMIL_SERVED where there is none; else it is the first
   of the call's list that applies, every other number in the answer is 0 (but CAVZEMIL_REFUSED_PRIMARY carries its
   colorant or set, and a replacement or a move hands back the screen that it got), and lent memory stays as it was.
   The comments of the calls name refusals by their numbers; 1 to 4 and 15 are tested wherever a screen is handed in. */
enum {
    /* there is no refusal */
    CAVZEMIL_SERVED = 0,
    /* the slope: it needs 1 <= a < b <= 64, and no common divisor of a and b above 1 */
    CAVZEMIL_REFUSED_SLOPE = 1,
    /* the cell count n: it needs 1 to 4096 */
    CAVZEMIL_REFUSED_CELL_COUNT = 2,
    /* the number of subscreens k: it needs 1 to 16, and at most n */
    CAVZEMIL_REFUSED_SUBSCREENS = 3,
    /* the offset g: it needs to be below n */
    CAVZEMIL_REFUSED_OFFSET = 4,
    /* x + columns or y + rows is above 65536; a lone place counts as a window of 1 by 1, and plates begin at 0, 0 */
    CAVZEMIL_REFUSED_OFF_SHEET = 5,
    /* the run that is read has the wrong length; for cavzemil_charge_of, one that is no multiple of 8 */
    CAVZEMIL_REFUSED_INPUT_LENGTH = 6,
    /* the run that is written has the wrong length */
    CAVZEMIL_REFUSED_OUTPUT_LENGTH = 7,
    /* the brick buffer has fewer than n places or, for cavzemil_render_brick, is not the screen's own brick */
    CAVZEMIL_REFUSED_BRICK = 8,
    /* packing: a cell is above 7; unpacking: a pixel is set in no plane or in several, or padding is set */
    CAVZEMIL_REFUSED_PLATES = 9,
    /* a line of the program counts is not of its form; no call here answers it */
    CAVZEMIL_REFUSED_LINE = 10,
    /* a primary's value, of a colorant or of a set, is a NaN or beyond 0 to 200 */
    CAVZEMIL_REFUSED_PRIMARY = 11,
    /* a price is above 1000000 */
    CAVZEMIL_REFUSED_PRICE = 12,
    /* the windows of a job: it needs 1 to 1000, and in each the sum of the eight tallies at most 4294967296 */
    CAVZEMIL_REFUSED_JOB = 13,
    /* for cavzemil_predict_cellular, in place of 6: its run has not 765 values; tested before 11 (rule 16.8) */
    CAVZEMIL_REFUSED_PRIMARIES_LENGTH = 14,
    /* the columns, rows or shift that the screen stores are not those of its brick; tested after 4 (rule 11.2) */
    CAVZEMIL_REFUSED_STORED = 15,
    /* the separation is neither 0 nor 1; tested before all else (rule 14.3) */
    CAVZEMIL_REFUSED_SEPARATION = 100
};

/* What a refusal says, in a plain sentence without a full stop. */
static inline const char *cavzemil_refusal_text(uint32_t refusal) {
    switch (refusal) {
    case CAVZEMIL_SERVED: return "not refused";
    case CAVZEMIL_REFUSED_SLOPE: return "the slope a/b needs 1 <= a < b <= 64 and no common divisor above 1";
    case CAVZEMIL_REFUSED_CELL_COUNT: return "the cell count N must be 1 to 4,096";
    case CAVZEMIL_REFUSED_SUBSCREENS: return "the number of subscreens K must be 1 to 16 and not above N";
    case CAVZEMIL_REFUSED_OFFSET: return "the offset g must be below N";
    case CAVZEMIL_REFUSED_OFF_SHEET: return "columns or rows beyond the sheet's 65,536 were asked for";
    case CAVZEMIL_REFUSED_INPUT_LENGTH: return "the input has another length than the call needs";
    case CAVZEMIL_REFUSED_OUTPUT_LENGTH: return "the output has another length than the call needs";
    case CAVZEMIL_REFUSED_BRICK: return "the brick buffer has fewer than N places or holds a wrong phase";
    case CAVZEMIL_REFUSED_PLATES: return "a cell is above 7, a pixel is in no plane or in several, or padding is set";
    case CAVZEMIL_REFUSED_LINE: return "a line of the counts program is not of its form";
    case CAVZEMIL_REFUSED_PRIMARY: return "a value of a primary is not 0 to 200";
    case CAVZEMIL_REFUSED_PRICE: return "a price is above 1,000,000 cents for a million cells";
    case CAVZEMIL_REFUSED_JOB: return "a job needs 1 to 1,000 windows, each of at most 4,294,967,296 cells";
    case CAVZEMIL_REFUSED_PRIMARIES_LENGTH: return "a cellular prediction needs 765 values, X, Y, Z of each of 255 sets";
    case CAVZEMIL_REFUSED_STORED: return "the stored columns, rows and shift are not those of a, b and N";
    case CAVZEMIL_REFUSED_SEPARATION: return "the separation is neither 0 (Demichel) nor 1 (Kueppers)";
    default: return "no refusal has this number";
    }
}

/* The separations (rules 4.3 and 4.4): how ink values become shares of the eight colorants. */
enum { CAVZEMIL_DEMICHEL = 0, CAVZEMIL_KUEPPERS = 1 };

/* The colorants (rule 4.2), as cells hold them: one ink, two inks, all three, none. */
enum {
    CAVZEMIL_CYAN = 0,
    CAVZEMIL_MAGENTA = 1,
    CAVZEMIL_YELLOW = 2,
    CAVZEMIL_BLUE = 3,
    CAVZEMIL_GREEN = 4,
    CAVZEMIL_RED = 5,
    CAVZEMIL_BLACK = 6,
    CAVZEMIL_WHITE = 7
};

/* A screen (rules 1.1 to 1.6): slope a/b, n cells, k subscreens, offset g; and the columns, rows and shift of its
   brick, as cavzemil_make_screen stores them (rule 17.1). */
typedef struct { uint32_t a, b, n, k, g, columns, rows, shift; } cavzemil_screen;

/* A screen that was made, or the one that a replacement or a move hands back. */
typedef struct { uint32_t refusal; cavzemil_screen screen; } cavzemil_made;

/* A window (rule 7.1) of the sheet of 65536 columns, from the left, and 65536 rows, from the top: its first
   column and row, and how many of each, which may be 0. */
typedef struct { uint32_t x, y, columns, rows; } cavzemil_window;

/* The phase of a place, 0 to n - 1. */
typedef struct { uint32_t refusal; uint32_t phase; } cavzemil_place;

/* A brick's columns L, rows H and shift S (rules 3.1 to 3.4): (x + S, y + H) has the phase of (x, y). */
typedef struct { uint32_t refusal, columns, rows, shift; } cavzemil_brick;

/* The counts of the eight colorants, which add up to n. */
typedef struct { uint32_t refusal; uint32_t of[8]; } cavzemil_counts;

/* The colorant of a place, 0 to 7. */
typedef struct { uint32_t refusal; uint32_t colorant; } cavzemil_cell;

/* How many cells were written in each colorant. */
typedef struct { uint32_t refusal; uint64_t tallies[8]; } cavzemil_rendering;

/* A predicted colour; refusal 11 carries the first colorant that has a value beyond its limits. */
typedef struct { uint32_t refusal; uint32_t colorant; double x, y, z; } cavzemil_prediction;

/* A colour predicted by sets of colorants; refusal 11 carries the lowest set that has a value beyond its limits. */
typedef struct { uint32_t refusal; uint32_t set; double x, y, z; } cavzemil_cellular;

/* Prices (rule 15.2): cents for a million cells, by colorant, each at most 1000000. */
typedef struct { uint32_t of[8]; } cavzemil_prices;

/* What a job costs, in whole cents. */
typedef struct { uint32_t refusal; uint64_t cents; } cavzemil_charge;

/* What the four lengths below have in common: rows of so many bytes each. Where there are more columns or rows than the
   65536 of the sheet, it is SIZE_MAX, a length that no memory has: allocating it fails, and every call refuses such a
   size, whatever it is lent. So none of the four overflows, whatever the columns and rows are. */
static inline size_t cavzemil_rows_len(uint32_t columns, uint32_t rows, size_t row_len) {
    return columns > 65536 || rows > 65536 ? SIZE_MAX : row_len * rows;
}

/* The length of a window's output, or of the cells of plates: a byte for each cell (rules 7.3 and 8.8). */
static inline size_t cavzemil_cells_len(uint32_t columns, uint32_t rows) {
    return cavzemil_rows_len(columns, rows, columns);
}

/* The length of a window's input: three bytes for each cell (rule 7.2). */
static inline size_t cavzemil_input_len(uint32_t columns, uint32_t rows) {
    size_t wide = columns;
    return cavzemil_rows_len(columns, rows, 3 * wide);
}

/* The length of one plane: its rows are whole bytes, of eight pixels each (rule 8.1). */
static inline size_t cavzemil_plane_len(uint32_t columns, uint32_t rows) {
    size_t wide = columns;
    return cavzemil_rows_len(columns, rows, (wide + 7) / 8);
}

/* The length of eight planes, one after the other (rule 8.8). */
static inline size_t cavzemil_planes_len(uint32_t columns, uint32_t rows) {
    size_t wide = columns;
    return cavzemil_rows_len(columns, rows, (wide + 7) / 8 * 8);
}

/* The number of the rules that this library follows (rule 14.1): how many of the change requests, in their
   order, they have in them. Two houses whose numbers are the same follow the same rules. */
uint32_t cavzemil_rules(void);

/* Makes the screen of five numbers, which stores its brick (rule 17.2); refused, a screen of eight zeros.
   Refusals 1 to 4. */
cavzemil_made cavzemil_make_screen(uint32_t a, uint32_t b, uint32_t n, uint32_t k, uint32_t g);

/* Replaces the offset of a screen, and nothing else (rules 17.3 to 17.6). A refused replacement hands back all eight
   numbers as it got them, so that what comes of a made screen stays admitted, whatever is replaced. Refusals 1 to 4
   and 15 of the screen that is handed in, then 1 to 4 of the new one. */
cavzemil_made cavzemil_replace_offset(cavzemil_screen s, uint32_t g);

/* Replaces the number of subscreens, and nothing else, like cavzemil_replace_offset. Refusals as there. */
cavzemil_made cavzemil_replace_subscreens(cavzemil_screen s, uint32_t k);

/* Replaces the cell count, like cavzemil_replace_offset; the brick that is stored follows it. Refusals as there. */
cavzemil_made cavzemil_replace_cells(cavzemil_screen s, uint32_t n);

/* The screen as it is seen from column x and row y (rules 19.1 to 19.4): its phase at (u, v) is that of s at (x + u,
   y + v), for every u and v. So a sheet may be larger than 65536 either way, a part at a time, each rendered from
   (0, 0) on the screen seen from its corner. Only the offset differs from s: it is (g - a x - b y) mod n. Refused, the
   screen that was handed in. Refusals 1 to 4, 15. */
cavzemil_made cavzemil_moved(cavzemil_screen s, uint64_t x, uint64_t y);

/* The phase of column x and row y (rules 2.2 and 2.4): (a x + b y - g) mod n, 0 to n - 1. Refusals 1 to 4, 15, 5. */
cavzemil_place cavzemil_phase_at(cavzemil_screen s, uint32_t x, uint32_t y);

/* The brick's sizes as the screen stores them (rule 3.5); its columns times its rows are n. Refusals 1 to 4, 15. */
cavzemil_brick cavzemil_brick_of(cavzemil_screen s);

/* Fills the first n places of a brick buffer (rules 3.6 and 3.7): place v * columns + u gets the phase of
   (u, v). Places from n on stay as they are. Answers the refusal: 1 to 4, 15, 8. */
uint32_t cavzemil_fill_brick(cavzemil_screen s, uint16_t *brick, size_t brick_len);

/* How many of n cells each colorant gets for the ink values c, m, y, 255 being full (rules 5.4 and 5.5).
   Refusals 100, 1 to 4, 15. */
cavzemil_counts cavzemil_counts_of(cavzemil_screen s, uint32_t separation, uint8_t c, uint8_t m, uint8_t y);

/* The colorant of column x and row y for these ink values (rule 7.8). Refusals 100, 1 to 4, 15, 5. */
cavzemil_cell cavzemil_cell_at(cavzemil_screen s, uint32_t separation, uint32_t x, uint32_t y,
                               uint8_t c, uint8_t m, uint8_t yellow);

/* Renders a window, phases worked out (rules 7.2 to 7.5): the input has 3 * columns * rows bytes, those of c,
   m and y for each pixel, by rows; the output gets columns * rows bytes, a colorant each. Refusals 100,
   1 to 4, 15, 5, 6, 7. */
cavzemil_rendering cavzemil_render(cavzemil_screen s, uint32_t separation, cavzemil_window w,
                                   const uint8_t *input, size_t input_len, uint8_t *out, size_t out_len);

/* Renders a window like cavzemil_render, phases read from a brick buffer that cavzemil_fill_brick filled
   (rule 7.6); it may be longer than n. Take cavzemil_render unless the phases have to come from a brick: it answers
   the same, is as fast or faster, and needs no buffer. Refusals 100, 1 to 4, 15, 5, 6, 7, 8. */
cavzemil_rendering cavzemil_render_brick(cavzemil_screen s, uint32_t separation, cavzemil_window w,
                                         const uint8_t *input, size_t input_len,
                                         const uint16_t *brick, size_t brick_len,
                                         uint8_t *out, size_t out_len);

/* Packs columns * rows cells into eight planes (rules 8.1 to 8.5), that of colorant 0 first, each of rows rows of
   (columns + 7) / 8 bytes. A set bit in a plane means that this ink prints at that pixel; the first pixel of a
   byte has the mask 128, and padding is 0. Columns and rows are at most 65536. Answers the refusal:
   5, 6, 7, 9. */
uint32_t cavzemil_pack(uint32_t columns, uint32_t rows, const uint8_t *cells, size_t cells_len,
                       uint8_t *planes, size_t planes_len);

/* Unpacks eight planes, laid out as cavzemil_pack does, into columns * rows cells (rule 8.6). Answers the
   refusal: 5, 6, 7, 9. */
uint32_t cavzemil_unpack(uint32_t columns, uint32_t rows, const uint8_t *planes, size_t planes_len,
                         uint8_t *cells, size_t cells_len);

/* The colour of a patch of these ink values (rules 9.1 to 9.5): the mean of eight primaries, weighed by the
   counts. The primaries are 24 values, X, Y, Z of each colorant in turn, each 0 to 200; another length is
   refused as 6 (rule 14.4). Refusals 100, 1 to 4, 15, 6, 11. */
cavzemil_prediction cavzemil_predict(cavzemil_screen s, uint32_t separation, uint8_t c, uint8_t m, uint8_t y,
                                     const double *primaries, size_t primaries_len);

/* The colour of a patch of these ink values, predicted by sets of colorants (rules 16.1 to 16.8): the mean of eight
   sets' primaries. The first set holds the colorant of the largest count, and each next takes in one colorant more,
   by falling counts and at equal counts the lower number first; the k-th weighs k times what the k-th count has
   more than the next, or than 0 where there is none. A set's number, 1 to 255, is the sum of 1 << j over its
   colorants j. The primaries are 765 values, X, Y, Z of each set in turn from 1 on, each 0 to 200, also where the
   set has no weight; another length is refused as 14. Refusals 100, 1 to 4, 15, 14, 11. */
cavzemil_cellular cavzemil_predict_cellular(cavzemil_screen s, uint32_t separation, uint8_t c, uint8_t m,
                                            uint8_t y, const double *primaries, size_t primaries_len);

/* The charge of a job of 1 to 1000 windows (rules 15.1 to 15.4): each colorant's tallies are added up and paid at
   its price, and only what the eight cost together is rounded, up to a whole cent. The run has eight tallies for
   each window, by colorant; those of a renderer's answer are always a window that is taken (rule 15.6). Charged
   one by one, the windows cost as much or more, by less than a cent a window (rule 15.5). A run of more than 1000
   windows is not read. Refusals 6, 12, 13. */
cavzemil_charge cavzemil_charge_of(cavzemil_prices prices, const uint64_t *tallies, size_t tallies_len);

#ifdef __cplusplus
}
#endif

#endif
