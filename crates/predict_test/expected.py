"""Works out what the test program must print, from the rules and Python's own floats.

    PYTHONPATH=scripts python3 -B crates/predict_test/expected.py > crates/predict_test/stdout
"""

import struct

from rules import SEPARATIONS, TOP, Screen, admitted, cellular, counts, drawn, five, mean, numbers, record_of, refusal
from rules import screen_of, set_number, stored, weighed_sets

LISTED = screen_of(4, 7, 105, 2, 0)
ONE = screen_of(1, 2, 1, 1, 0)
MOST = screen_of(63, 64, 4096, 16, 4095)
CYAN, WHITE = (255, 0, 0), (0, 0, 0)
FULL = CYAN, (0, 255, 0), (0, 0, 255), (255, 255, 0), (255, 0, 255), (0, 255, 255), (255, 255, 255), WHITE
NAN = float("nan")
INF = float("inf")

WHOLE = [
    (0.0, 200.0, 0.0), (1.0, 199.0, -0.0), (2.0, 100.0, 0.0), (3.0, 64.0, -0.0),
    (127.0, 63.0, 0.0), (128.0, 3.0, -0.0), (199.0, 2.0, 0.0), (200.0, 1.0, -0.0),
]
UNEVEN = [
    (0.1, 12.3, 199.9), (0.7, 33.3, 0.01), (1.1, 0.2, 99.99), (33.3, 150.7, 5e-324),
    (77.7, 0.3, 1e-300), (123.456, 66.6, 0.333), (2.2, 1e-17, 111.1), (95.047, 100.1, 108.883),
]
# the records of the sets 1 to 255; of drawn hundredths there are more, and bad ones among the last
WHOLE_SETS = [
    value for t in range(1, 256) for value in [(t + 137) % 201 * 1.0, t * 25 % 201 * 1.0, 0.0 if t % 3 == 1 else -0.0]
]
UNEVEN_SETS = [n % (20001 if place < 1700 else 20100) / 100 for place, n in zip(range(2048), drawn(0))]
SMALL_SETS = [place % 7 * 5e-324 for place in range(765)]
BAD_SETS = [-1.0] + UNEVEN_SETS[1:]


def bits(v):
    return struct.pack(">d", v).hex()


def all_bits(values):
    return " ".join(map(bits, values))


def exact(n, of, primaries, values):
    """Full tones of whole numbers come back (rules 9.4 and 16.7); the primaries are those of single colorants."""
    if n in of:
        for value, v in zip(primaries[of.index(n)], values):
            assert value % 1 or bits(v) == bits(value + 0.0)


def weighed(n, of):
    """The weights are shared out as the counts say (rule 16.6)."""
    found = weighed_sets(of)
    assert sum(weight for _, weight in found) == n
    assert all(weight % len(held) == 0 for held, weight in found)
    for j in range(8):
        assert sum(weight // len(held) for held, weight in found if j in held) == of[j]


def answer(s, sep, inks, primaries):
    if refusal(s):
        return f"bad screen {refusal(s)}"
    bad = [j for j in range(8) if not all(map(admitted, primaries[j]))]
    if bad:
        return f"bad primary {min(bad)}"
    of = counts(s, sep, inks)
    values = [mean(of, channel, s.n) for channel in zip(*primaries)]
    exact(s.n, of, primaries, values)
    return f"colour {all_bits(values)}"


def answer_by_sets(s, sep, inks, run):
    r, number, values = cellular(s, sep, inks, run)
    if r:
        return f"bad set {number}" if r == 11 else f"refused {r}"
    of = counts(s, sep, inks)
    weighed(s.n, of)
    exact(s.n, of, [record_of(set_number([j]), run) for j in range(8)], values)
    return f"cellular {all_bits(values)}"


def show(name, s, sep, inks, primaries):
    print(f"{name}, {five(s)}, {sep}, {numbers(inks)}: {answer(s, sep, inks, primaries)}")


def show_both(name, s, inks, primaries):
    for sep in SEPARATIONS:
        show(name, s, sep, inks, primaries)


def show_sets(name, s, sep, inks, records, length=765, start=0):
    run = records[start : start + length]
    assert len(run) == length
    print(f"{name}, {five(s)}, {sep}, {numbers(inks)}: {answer_by_sets(s, sep, inks, run)}")


def sets_of_both(name, s, inks, records, start=0):
    for sep in SEPARATIONS:
        show_sets(name, s, sep, inks, records, start=start)


def show_whole(s, inks):
    show_both("whole", s, inks, WHOLE)
    sets_of_both("whole", s, inks, WHOLE_SETS)


def show_uneven(s, inks):
    show_both("uneven", s, inks, UNEVEN)
    sets_of_both("uneven", s, inks, UNEVEN_SETS)


def show_listed(name, records):
    show_sets(name, LISTED, "demichel", (200, 90, 140), records)


def show_length(name, s, records, length):
    show_sets(f"length {length}, {name}", s, "kueppers", (51, 102, 204), records, length)


def with_first(v):
    return [(v,) + UNEVEN[0][1:]] + UNEVEN[1:]


def with_last(v):
    return UNEVEN[:7] + [UNEVEN[7][:2] + (v,)]


def with_values(values):
    return [values.get(place, value) for place, value in enumerate(UNEVEN_SETS)]


def show_refused(s):
    """Good and bad values, and runs of right and of wrong length, on a screen that is refused."""
    show_both("whole", s, CYAN, WHOLE)
    show("0 x = nan", s, "kueppers", CYAN, with_first(NAN))
    sets_of_both("uneven", s, CYAN, UNEVEN_SETS)
    show_length("uneven", s, UNEVEN_SETS, 764)
    show_length("set 1 x = -1", s, BAD_SETS, 765)
    show_length("set 1 x = -1", s, BAD_SETS, 766)


def mixed_case(start):
    draw = drawn(start)
    a, b, n, k, g, c, m, y = [next(draw) for _ in range(8)]
    primaries = [tuple(next(draw) % 20100 / 100 for _ in "xyz") for _ in range(8)]
    a = a % 12
    screen, inks = screen_of(a, a + b % 2 + 1, n % 4200, k % 18, g % 100), (c % 256, m % 256, y % 256)
    show_both("drawn", screen, inks, primaries)
    if start % 2 == 0:
        sets_of_both("drawn", screen, inks, UNEVEN_SETS, y % 1283)


# the worked example of rule 12.16
example = weighed_sets([26, 26, 0, 27, 0, 0, 0, 26])
assert example[-1][0] == [3, 0, 1, 7, 2, 4, 5, 6]
assert [weight for _, weight in example] == [1, 0, 0, 104, 0, 0, 0, 0]
assert [set_number(held) for held, _ in example] == [8, 9, 11, 139, 143, 159, 191, 255]

# and that of rule 12.17
tone = [4.1, -0.0, 200.0] * 254 + [0.8, -0.0, 200.0]
example = "cellular 4008c118de5ab279 0000000000000000 4069000000000000"
assert answer_by_sets(LISTED, "demichel", (200, 90, 140), tone) == example

print("# primaries or records, a b n k g, separation, c m y: answer")
for screen in LISTED, ONE, MOST:
    for inks in FULL:
        show_whole(screen, inks)
    show_uneven(screen, CYAN)
    show_uneven(screen, WHITE)

for screen in [LISTED, ONE, screen_of(4, 7, 3, 2, 0), screen_of(4, 7, 97, 1, 96), screen_of(63, 64, 4095, 7, 0), MOST]:
    for inks in [(128, 128, 0), (51, 102, 204), (200, 90, 140)]:
        show_uneven(screen, inks)
    show_whole(screen, (13, 77, 250))
    sets_of_both("small", screen, (200, 90, 140), SMALL_SETS)

for inks in [(40, 99, 211), (40, 211, 99), (99, 40, 211), (99, 211, 40), (211, 40, 99), (211, 99, 40)]:
    sets_of_both("uneven", LISTED, inks, UNEVEN_SETS)

for screen in [screen_of(4, 7, 8, 1, 0), screen_of(4, 7, 24, 4, 3)]:
    for inks in [(128, 128, 128), (64, 128, 191), (85, 170, 85)]:
        sets_of_both("uneven", screen, inks, UNEVEN_SETS)

weights = {set_number(held): weight for held, weight in weighed_sets(counts(LISTED, "demichel", (200, 90, 140)))}
assert weights[89] > 0 and weights[223] == 0
for name, v in [
    ("200", 200.0), ("199.99999999999997", 199.99999999999997), ("200.00000000000003", 200.00000000000003),
    ("0", 0.0), ("-0", -0.0), ("5e-324", 5e-324), ("-5e-324", -5e-324), ("-1e-300", -1e-300), ("-1", -1.0),
    ("200.5", 200.5), ("1e300", 1e300), ("inf", INF), ("-inf", -INF), ("nan", NAN),
]:
    show("0 x = " + name, LISTED, "demichel", (200, 90, 140), with_first(v))
    show("7 z = " + name, LISTED, "demichel", (200, 90, 140), with_last(v))
    show_listed("set 89 x = " + name, with_values({264: v}))
    show_listed("set 223 z = " + name, with_values({668: v}))

for j in range(8):
    primaries = with_last(-1.0)
    primaries[j] = 1.0, NAN, 1.0
    show(f"{j} y = nan", LISTED, "kueppers", WHITE, primaries)

for place in [0, 1, 2, 3, 5, 6, 264, 266, 380, 381, 383, 384, 668, 761, 762, 764]:
    show_listed(f"place {place} = nan", with_values({764: -1.0, place: NAN}))

for name, records in [("uneven", UNEVEN_SETS), ("set 1 x = -1", BAD_SETS)]:
    for length in [0, 1, 24, 762, 764, 765, 766, 768]:
        show_length(name, LISTED, records, length)

for screen in [
    (4, 8, 105, 2, 0), (0, 7, 105, 2, 0), (63, 65, 105, 2, 0), (4, 7, 0, 1, 0), (4, 7, 4097, 2, 0), (4, 7, TOP, 2, 0),
    (4, 7, 105, 0, 0), (4, 7, 105, 17, 0), (4, 7, 5, 6, 0), (4, 7, 70, 2, 70), (4, 8, 0, 0, 0), (4, 7, 5, 6, 5),
]:
    show_refused(screen_of(*screen))

for start in range(80):
    mixed_case(start)

for screen in [
    (4, 7, 105, 2, 0, 106, 1, 77), (4, 7, 105, 2, 0, 105, 2, 77), (4, 7, 105, 2, 0, 105, 1, 182),
    (4, 7, 105, 17, 0, 105, 1, 182),
]:
    print(stored(screen))
    show_refused(Screen(*screen))
