"""Works out what the test program must print, from the rules alone.

    PYTHONPATH=scripts python3 -B crates/bill_test/expected.py > crates/bill_test/stdout
"""

from rules import TOP as LARGEST_PRICE
from rules import charge, windows_of

FULL = 4294967296
EVEN = FULL // 8
ONE, HIGHEST = [1] * 8, [1000000] * 8
BRICK = [26, 26, 0, 27, 0, 0, 0, 26]
RISING = [1, 20, 300, 4000, 50000, 600000, 700007, 1000000]
FALLING = RISING[::-1]
FIRST = [900000001, 80000002, 7000003, 600004, 50005, 4006, 307, 28]
SECOND = [60013, 1017, 500019, 9000023, 70000029, 31, 800000037, 241]


def show(name, prices, run):
    """Prints the charge of a job, which is to its windows' own charges as rule 15.5 says."""
    refusal, cents = charge(prices, run)
    if refusal == 0:
        own = [charge(prices, window)[1] for window in windows_of(run)]
        assert cents <= sum(own) < cents + len(own)
    print(f"{name}: {refusal} {cents}")


def show_windows(name, prices, run, shown):
    """A job, and those of its windows that have a name."""
    show(name, prices, run)
    for window, place in shown.items():
        show(f"its {window} window", prices, windows_of(run)[place])


def changed(run, changes):
    return [changes.get(place, tally) for place, tally in enumerate(run)]


def ends(first, last):
    return [first] + [0] * 6 + [last]


print("# job: refusal cents")
show("a cent a cell", HIGHEST, BRICK)
show("a cent a cell, twice", HIGHEST, BRICK * 2)
show("one cell", ONE, ends(1, 0))
show("free ink", [0] * 8, BRICK)
show("largest job", HIGHEST, [EVEN] * 8000)
show("no cell", HIGHEST, [0] * 8)

show("rising prices", RISING, FIRST)
show("falling prices", FALLING, FIRST)
show("rising prices, two windows", RISING, FIRST + SECOND)
show("falling prices, two windows", FALLING, FIRST + SECOND)

for length in [0, 1, 7, 8, 9, 15, 16, 17, 7992, 7999, 8000, 8001, 8007, 8008, 8009, 8016]:
    show(f"length {length}", HIGHEST, [1] * length)

for place in range(8):
    for price in 999999, 1000000, 1000001, LARGEST_PRICE:
        show(f"price {place} of {price}", changed([0] * 8, {place: price}), [10, 20, 30, 40, 50, 60, 70, 80])

for place in 0, 7, 8, 15, 16, 23:
    for tally in FULL, FULL + 1:
        show(f"tally {place} of {tally}", ONE, changed([0] * 24, {place: tally}))
for first, last in [(FULL - 1, 1), (FULL - 1, 2), (FULL, 1), (1, FULL)]:
    show(f"{first} and {last}", ONE, ends(first, last))
show("even", ONE, [EVEN] * 8)
show("even and 1", ONE, changed([EVEN] * 8, {4: EVEN + 1}))

show("three full windows", ONE, changed([0] * 24, {7: FULL, 8: FULL, 16: FULL}))
show("1000 full windows", ONE, [EVEN] * 8000)
show("a cell more in the last", ONE, changed([EVEN] * 8000, {7999: EVEN + 1}))
show("a cell more in the first", ONE, changed([EVEN] * 8000, {0: EVEN + 1}))

top, half, eighth = 2**64 - 1, 2**63, 2**61
for name, window in [
    ("top in all", [top] * 8), ("top first", ends(top, 0)), ("top last", ends(0, top)), ("top and 1", ends(top, 1)),
    ("1 and top", ends(1, top)), ("half twice", ends(half, half)), ("an eighth in all", [eighth] * 8),
    ("no lower half", ends(2**64 - 2**32, 0)),
]:
    show(name, ONE, window)
show("half twice in the second window", ONE, changed([1] * 16, {8: half, 15: half}))
show("half in each window", ONE, changed([1] * 16, {7: half, 15: half}))

wrong = ends(0, 1000001)
for name, prices, tally, length in [
    ("6 and 12", wrong, 0, 9), ("6 and 13, a window", HIGHEST, top, 9), ("6 and 13, a part of one", HIGHEST, top, 7),
    ("6 and 13, 1001 windows", HIGHEST, 0, 8009), ("12 and 13, no window", wrong, 0, 0),
    ("12 and 13, a window", wrong, top, 8), ("12 and 13, 1001 windows", wrong, 0, 8008),
    ("6, 12 and 13, a window", wrong, top, 9), ("6, 12 and 13, 1001 windows", wrong, top, 8009),
    ("13 and 13", HIGHEST, top, 8008),
]:
    show(name, prices, [tally] * length)

for name, price, window in [
    ("cost 0", 1, ends(0, 0)), ("cost 999999", 1, ends(999999, 0)), ("cost 1000000", 1, ends(1000000, 0)),
    ("cost 1000001", 1, ends(0, 1000001)), ("eight times 125000", 1, [125000] * 8),
    ("eight times 125001", 1, [125001] * 8), ("1 at 999999", 999999, ends(0, 1)),
    ("999999 at 999999", 999999, ends(999999, 0)), ("1000001 at 999999", 999999, ends(1000000, 1)),
    ("two halves", 500000, ends(1, 1)), ("three halves", 500000, ends(1, 2)),
]:
    show(name, [price] * 8, window)

for name, first, second, third in [
    ("whole cents", 1000000, 2000000, 3000000), ("whole cents and a cell", 1000000, 2000000, 1),
    ("half cents", 500001, 500001, 500001), ("cents and a cell each", 1000001, 2000001, 3000001),
    ("three cells", 1, 1, 1),
]:
    run = changed([0] * 24, {0: first, 11: second, 23: third})
    show_windows(name, ONE, run, {"first": 0, "second": 1, "third": 2})
show_windows("eight cells in each of 1000 windows", ONE, [1] * 8000, {"first": 0, "last": -1})
show_windows("a million cells in each of 1000 windows", ONE, [125000] * 8000, {"first": 0, "last": -1})
