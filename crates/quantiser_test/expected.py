"""Works out what the test program must print, from the rules and nothing else.

    PYTHONPATH=scripts python3 -B crates/quantiser_test/expected.py > crates/quantiser_test/stdout
"""

from rules import SEPARATIONS, TOP, Screen, cells, colorants, counts, drawn, five, lent, numbers, refusal, scale
from rules import screen_of, stored, weights


def thresholds(s):
    """For each phase the least running sum that fills it: q below (C + i) / K rounded down."""
    return [min(c for c in range(s.n + 1) if q < (c + i) // s.k) for i, q in cells(s)]


def case(s, sep, inks):
    return f"{five(s)}, {sep}, {numbers(inks)}:"


def show_weights(inks):
    print(f"{numbers(inks)}: " + "; ".join(f"{scale(sep)}, {numbers(weights(sep, inks))}" for sep in SEPARATIONS))


def show_both(s, inks):
    for sep in SEPARATIONS:
        r = refusal(s)
        print(f"{case(s, sep, inks)} {r}; {numbers([0] * 8 if r else counts(s, sep, inks))}")


def show_table(s, places):
    print(f"{five(s)}, {places}: {lent(s, places, 24, thresholds)}")


def show_counted(s):
    for sep in SEPARATIONS:
        print(f"{case(s, sep, (51, 102, 204))} {numbers(counts(s, sep, (51, 102, 204)))}")


def show_lone(s):
    known = [] if refusal(s) else thresholds(s)
    print(f"{five(s)}: {numbers(known[p] if p < len(known) else 0 for p in [*range(22), TOP])}")


def show_phases(s, inks):
    for sep in SEPARATIONS:
        found = colorants(s, sep, inks)
        assert [found.count(j) for j in range(8)] == counts(s, sep, inks)
        print(f"{case(s, sep, inks)} {''.join(map(str, found))}")


def show_bar(bar):
    """The first colorant whose level is not below the bar, the last one having the rest."""
    first_seven = 10, 20, 20, 30, 40, 50, 60
    print(f"{bar}: {min([j for j in range(7) if bar <= first_seven[j]], default=7)}")


def mixed(cases, start, cells, offsets):
    draw = drawn(start)
    for _ in range(cases):
        a, b, n, k, g, c, m, y = [next(draw) for _ in range(8)]
        a = a % 12
        screen = screen_of(a, a + b % 2 + 1, n % cells, k % 18, g % offsets)
        show_both(screen, (c % 256, m % 256, y % 256))


print("# c m y: scale, weights by Demichel; scale, weights by Kueppers")
for inks in [
    (0, 0, 0), (0, 0, 255), (0, 255, 0), (0, 255, 255), (255, 0, 0), (255, 0, 255), (255, 255, 0), (255, 255, 255),
    (1, 1, 1), (127, 127, 127), (128, 128, 128), (254, 254, 254),
    (40, 40, 200), (40, 200, 40), (200, 40, 40), (200, 200, 40), (200, 40, 200), (40, 200, 200),
    (51, 102, 204), (51, 204, 102), (102, 51, 204), (204, 51, 102), (102, 204, 51), (204, 102, 51),
    (128, 128, 0), (0, 1, 255), (254, 255, 0), (1, 0, 254), (13, 77, 250), (191, 7, 66), (99, 100, 101),
]:
    show_weights(inks)

print("# a b n k g, separation, c m y: refusal; counts")
for screen, inks in [
    ((4, 7, 105, 2, 0), (128, 128, 0)), ((4, 7, 105, 2, 0), (255, 0, 0)), ((4, 7, 105, 2, 0), (0, 0, 0)),
    ((4, 7, 70, 2, 0), (51, 102, 204)), ((1, 2, 1, 1, 0), (128, 0, 0)), ((1, 2, 1, 1, 0), (127, 0, 0)),
    ((1, 2, 1, 1, 0), (100, 150, 200)), ((1, 2, 2, 2, 1), (100, 150, 200)), ((4, 7, 5, 5, 4), (200, 150, 100)),
    ((4, 7, 16, 16, 0), (30, 120, 220)), ((4, 7, 105, 16, 104), (30, 120, 220)),
    ((63, 64, 4096, 16, 4095), (0, 0, 0)), ((63, 64, 4096, 16, 4095), (255, 255, 255)),
    ((63, 64, 4096, 16, 4095), (13, 77, 250)), ((63, 64, 4096, 1, 0), (128, 127, 129)),
    ((63, 64, 4095, 7, 0), (1, 254, 128)),
]:
    show_both(screen_of(*screen), inks)
for screen in [
    (4, 8, 105, 2, 0), (0, 7, 105, 2, 0), (63, 65, 105, 2, 0), (4, 7, 0, 1, 0), (4, 7, 4097, 2, 0), (4, 7, TOP, 2, 0),
    (4, 7, 105, 0, 0), (4, 7, 105, 17, 0), (4, 7, 5, 6, 0), (4, 7, 70, 2, 70),
    (4, 8, 0, 0, 0), (4, 7, 0, 0, 0), (4, 7, 5, 6, 5),
]:
    show_both(screen_of(*screen), (51, 102, 204))
for screen in [
    (4, 7, 105, 2, 0, 105, 1, 77), (4, 7, 105, 2, 0, 104, 1, 77), (4, 7, 105, 2, 0, 105, 2, 77),
    (4, 7, 105, 2, 0, 105, 1, 182), (4, 7, 105, 2, 0, 35, 2, 14), (4, 7, 105, 17, 0, 105, 1, 182),
]:
    print(stored(screen))
    show_both(Screen(*screen), (51, 102, 204))

print("# a b n k g, separation, c m y: counts, whatever the screen")
for screen in [(4, 7, 105, 2, 0), (4, 8, 20, 3, 0), (4, 7, 0, 2, 0), (4, 7, TOP, 2, 0)]:
    show_counted(screen_of(*screen))
false_shift = 4, 7, 105, 2, 0, 105, 1, 182
print(stored(false_shift))
show_counted(Screen(*false_shift))

print("# a b n k g, places: refusal; the table, every place 65535 before")
for screen, places in [
    ((4, 7, 20, 3, 0), 24), ((4, 7, 20, 3, 0), 21), ((4, 7, 20, 3, 0), 20), ((4, 7, 20, 3, 0), 19), ((4, 7, 20, 3, 0), 0),
    ((4, 7, 20, 1, 19), 20), ((4, 7, 20, 16, 0), 20), ((4, 7, 16, 16, 0), 20), ((1, 2, 1, 1, 0), 1), ((1, 2, 1, 1, 0), 0),
    ((4, 8, 20, 3, 0), 20), ((4, 7, 0, 3, 0), 20), ((4, 7, 20, 17, 0), 20), ((4, 7, 20, 3, 20), 20), ((4, 7, 20, 3, 20), 19),
]:
    show_table(screen_of(*screen), places)
for screen, places in [
    ((4, 7, 20, 3, 0, 5, 4, 3), 20), ((4, 7, 20, 3, 0, 5, 4, 8), 20), ((4, 7, 20, 3, 0, 5, 4, 8), 19),
    ((4, 7, 20, 3, 20, 5, 4, 8), 19),
]:
    print(stored(screen))
    show_table(Screen(*screen), places)

print("# a b n k g: the thresholds of phases 0 to 21 and 4294967295, one by one")
for screen in [
    (4, 7, 20, 3, 0), (4, 7, 20, 1, 19), (4, 7, 20, 16, 0), (4, 7, 16, 16, 0), (1, 2, 1, 1, 0), (4, 8, 20, 3, 0),
]:
    show_lone(screen_of(*screen))
false_shift = 4, 7, 20, 3, 0, 5, 4, 8
print(stored(false_shift))
show_lone(Screen(*false_shift))

print("# a b n k g, separation, c m y: the colorant of each phase")
for screen, inks in [
    ((4, 7, 105, 2, 0), (128, 128, 0)), ((4, 7, 70, 3, 0), (51, 102, 204)), ((4, 7, 16, 16, 0), (30, 120, 220)),
    ((4, 7, 105, 16, 0), (200, 90, 140)), ((4, 7, 97, 1, 96), (13, 77, 250)), ((4, 7, 33, 5, 0), (255, 255, 255)),
    ((1, 2, 1, 1, 0), (128, 0, 0)), ((1, 2, 1, 1, 0), (127, 0, 0)),
]:
    show_phases(screen_of(*screen), inks)

print("# bar: its colorant by levels 10 20 20 30 40 50 60 70")
for bar in [0, 10, 11, 20, 21, 60, 61, 71, 18446744073709551615]:
    show_bar(bar)

print("# mixed: a b n k g, separation, c m y: refusal; counts")
mixed(60, 1, 4200, 1000)
mixed(60, 2, 40, 10)
