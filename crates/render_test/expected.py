"""Works out what the test program must print, from the rules and nothing else.

    PYTHONPATH=scripts python3 -B crates/render_test/expected.py > crates/render_test/stdout
"""

from rules import SEPARATIONS, TOP, Screen, brick, brick_phases, colorants, drawn, five, numbers, phase, screen_of
from rules import stored
from rules import refusal as screen_refusal

PLACES = 106
CELLS = 105
SCREEN = screen_of(4, 7, 70, 2, 5)


def refusal(s, w, inputs, outputs):
    x, y, columns, rows = w
    if screen_refusal(s):
        return screen_refusal(s)
    if x + columns > 65536 or y + rows > 65536:
        return 5
    if inputs != 3 * columns * rows:
        return 6
    if outputs != columns * rows:
        return 7
    return 0


def read_phase(phases, size, x, y):
    """The phase of a place by a brick, H rows down being S columns to the right."""
    wide, high, shift = size
    return phases[y % high * wide + (x - y // high * shift) % wide]


def bytes_of(values):
    """The ink values of one pixel after the other, as far as the buffer of input goes."""
    *inks, by = values
    while len(inks) < 3 * CELLS:
        inks.append(inks[-3] * by % 256)
    return inks


def rendered(s, sep, w, inks, phase_of):
    x, y, columns, rows = w
    places = [(x + i, y + j) for j in range(rows) for i in range(columns)]
    return [colorants(s, sep, inks[3 * i : 3 * i + 3])[phase_of(*place)] for i, place in enumerate(places)]


def brick_lent(s, wrong):
    """The buffer of a brick with one number wrong: smaller by 1, or 1 for 0."""
    lent = [65535] * PLACES
    if not screen_refusal(s) and s.n <= PLACES:
        lent[: s.n] = brick_phases(s)
    if wrong < PLACES:
        lent[wrong] = lent[wrong] - 1 if lent[wrong] else 1
    return lent


def show_rendering(r, cells):
    out = cells + [9] * (CELLS - len(cells))
    print(f"{r}; {numbers(cells.count(j) for j in range(8))}; {''.join(map(str, out))}")


def show_case(s, sep, w, values, lent):
    print(f"{five(s)}, {sep}, {numbers(w)}, {numbers(values)}, {numbers(lent)}:")
    inputs, outputs, places, wrong = lent
    r = refusal(s, w, inputs, outputs)
    inks = bytes_of(values)
    show_rendering(r, [] if r else rendered(s, sep, w, inks, lambda x, y: phase(s, x, y)))
    if not r:
        phases = brick_lent(s, wrong)[:places]
        r = 0 if phases[: s.n] == brick_phases(s) else 8
    show_rendering(r, [] if r else rendered(s, sep, w, inks, lambda x, y: read_phase(phases, brick(s), x, y)))


def lent_for(w):
    cells = min(w[2] * w[3], CELLS)
    return 3 * cells, cells, PLACES, PLACES


def show_both(s, w, values):
    for sep in SEPARATIONS:
        show_case(s, sep, w, values, lent_for(w))


def show_lent(s, w, lent):
    show_case(s, "demichel", w, (51, 103, 205, 5), lent)


def show_storing(s, w, lent):
    print(stored(s))
    show_lent(s, w, lent)


def show_cell(s, x, y, inks):
    r = refusal(s, (x, y, 1, 1), 3, 1)
    found = [f"{r} {0 if r else colorants(s, sep, inks)[phase(s, x, y)]}" for sep in SEPARATIONS]
    print(f"{five(s)}, {x} {y}, {numbers(inks)}: {', '.join(found)}")


def mixed(cases):
    draw = drawn(1)
    for _ in range(cases):
        a, b, n, k, g, x, y, columns, rows, values = [next(draw) for _ in range(10)]
        a = a % 12 + 1
        s = screen_of(a, a + b % 2 + 1, n % 100 + 8, k % 8 + 1, g % 30)
        inks = values % 256, values // 256, values // 7 % 256
        show_both(s, (x, y, columns % 10 + 1, rows % 10 + 1), (*inks, values % 64 * 2 + 1))


print("# a b n k g, separation, x y columns rows, c m y by, lent input output brick, wrong place:")
print("# phases worked out, then read: refusal; tallies; output, every byte 9 before")
for screen, window, values in [
    ((4, 7, 105, 2, 0), (0, 0, 105, 1), (128, 128, 0, 1)), ((4, 7, 70, 2, 0), (0, 0, 35, 2), (51, 102, 204, 1)),
    ((4, 7, 70, 3, 69), (17, 23, 35, 2), (51, 102, 204, 1)), ((4, 7, 20, 3, 6), (3, 2, 10, 8), (51, 102, 204, 1)),
    ((1, 2, 1, 1, 0), (5, 6, 3, 2), (128, 128, 0, 1)), ((4, 7, 70, 2, 5), (5, 6, 3, 2), (0, 0, 0, 1)),
    ((4, 7, 70, 2, 3), (101, 60001, 13, 8), (13, 77, 251, 77)), ((4, 7, 105, 16, 104), (7, 1, 9, 11), (13, 77, 251, 77)),
    ((60, 61, 48, 5, 17), (1, 50, 5, 20), (13, 77, 251, 77)), ((4, 7, 3, 2, 1), (1, 1, 8, 3), (13, 77, 251, 77)),
]:
    show_both(screen_of(*screen), window, values)
for values in [(13, 128, 128, 77), (128, 13, 128, 77), (128, 128, 13, 77)]:
    show_case(SCREEN, "demichel", (3, 4, 7, 3), values, lent_for((3, 4, 7, 3)))
for screen in [
    (7, 8, 70, 2, 0), (4, 8, 70, 2, 0), (4, 7, 1, 1, 0), (4, 7, 0, 1, 0), (63, 64, 4096, 16, 4095), (63, 64, 4097, 16, 4095),
    (4, 7, 5, 5, 0), (4, 7, 5, 6, 0), (4, 7, 70, 16, 69), (4, 7, 70, 17, 69), (4, 7, 70, 2, 70),
]:
    show_lent(screen_of(*screen), (8, 9, 3, 2), (18, 6, PLACES, PLACES))
for window in [
    (65530, 9, 6, 2), (65531, 9, 6, 2), (9, 65534, 6, 2), (9, 65535, 6, 2), (TOP, 9, 6, 2), (9, TOP, 6, 2),
]:
    show_lent(SCREEN, window, lent_for(window))
for inputs, outputs in [(18, 6), (17, 6), (19, 6), (18, 5), (18, 7), (18, 0)]:
    show_lent(SCREEN, (8, 9, 3, 2), (inputs, outputs, PLACES, PLACES))
show_lent(SCREEN, (0, 0, 65536, 65536), (0, 0, PLACES, PLACES))
for window, places, wrong in [
    ((8, 9, 3, 2), 70, 106), ((8, 9, 3, 2), 71, 106), ((8, 9, 3, 2), 69, 106), ((8, 9, 3, 2), 0, 106),
    ((8, 9, 3, 2), 70, 0), ((8, 9, 3, 2), 70, 35), ((8, 9, 3, 2), 70, 69), ((8, 9, 3, 2), 71, 70),
    ((8, 9, 0, 2), 70, 69), ((8, 9, 3, 0), 69, 106),
]:
    show_lent(SCREEN, window, (*lent_for(window)[:2], places, wrong))
for screen, window, lent in [
    (screen_of(4, 7, 70, 2, 70), (65536, 9, 3, 2), (17, 5, 69, 106)), (SCREEN, (65536, 9, 3, 2), (17, 6, 70, 106)),
    (SCREEN, (8, 9, 3, 2), (17, 5, 70, 106)), (SCREEN, (8, 9, 3, 2), (18, 5, 69, 106)), (SCREEN, (8, 9, 3, 2), (17, 6, 70, 0)),
]:
    show_lent(screen, window, lent)
for window in [
    (8, 9, 0, 2), (8, 9, 3, 0), (8, 9, 0, 0), (65536, 9, 0, 2), (65537, 9, 0, 2), (8, 65536, 3, 0), (8, 65537, 3, 0),
    (65536, 65536, 0, 0), (0, 0, 65536, 0), (0, 0, 0, 65537),
    (65535, 0, 1, 4), (0, 65535, 4, 1), (65535, 65535, 1, 1), (65500, 65535, 36, 1),
]:
    show_lent(SCREEN, window, lent_for(window))
mixed(5)

shifted, small = SCREEN._replace(shift=49), (8, 9, 3, 2)
for screen in [SCREEN, SCREEN._replace(columns=36), SCREEN._replace(rows=1), shifted, shifted._replace(g=70)]:
    show_storing(screen, small, lent_for(small))
for window, lent in [
    (small, (17, 6, 70, 106)), (small, (18, 5, 70, 106)), (small, (18, 6, 69, 106)), ((65536, 9, 3, 2), (17, 5, 69, 106)),
]:
    show_storing(shifted, window, lent)

print("# a b n k g, x y, c m y: refusal and colorant by Demichel, by Kueppers")
for x, y in [(0, 0), (0, 1), (3, 2), (36, 0), (49, 0), (65535, 65535), (65536, 0), (0, 65536), (TOP, TOP)]:
    show_cell(screen_of(4, 7, 105, 2, 0), x, y, (128, 128, 0))
for screen, x, y, inks in [
    ((1, 2, 1, 1, 0), 9, 9, (128, 0, 0)), ((1, 2, 1, 1, 0), 9, 9, (127, 0, 0)),
    ((63, 64, 4096, 16, 4095), 65535, 65535, (13, 77, 250)),
    ((4, 8, 105, 2, 0), 65536, 0, (128, 128, 0)), ((4, 7, 0, 1, 0), 3, 2, (128, 128, 0)),
    ((4, 7, 5, 6, 0), 3, 2, (128, 128, 0)), ((4, 7, 70, 2, 70), 3, 2, (128, 128, 0)),
]:
    show_cell(screen_of(*screen), x, y, inks)
for screen, x, y in [
    ((4, 7, 105, 2, 0, 105, 1, 77), 3, 2), ((4, 7, 105, 2, 0, 105, 1, 76), 3, 2),
    ((4, 7, 105, 2, 0, 105, 1, 76), 65536, 0), ((4, 7, 105, 2, 105, 105, 1, 76), 65536, 0),
]:
    print(stored(screen))
    show_cell(Screen(*screen), x, y, (128, 128, 0))
