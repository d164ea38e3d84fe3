"""Works out what the test program must print, from the rules and nothing else.

    PYTHONPATH=scripts python3 -B crates/screen_test/expected.py > crates/screen_test/stdout
"""

from rules import TOP, Screen, brick, brick_phases, five, lent, made, moved, numbers, phase, refusal, replaced
from rules import screen_of, stored

LAST = 18446744073709551615  # the largest number of 64 bits


def place(s, x, y):
    r = refusal(s) or (5 if x + 1 > 65536 or y + 1 > 65536 else 0)
    return f"{r} {0 if r else phase(s, x, y)}"


def brick_answer(s):
    return f"{refusal(s)} {numbers((0, 0, 0) if refusal(s) else brick(s))}"


def made_answer(r, s):
    return f"{r} {numbers(s)}"


def phases_in(s, starts, rows):
    """The phases of columns from column 0 on, of so many rows each, by the row at which each begins."""
    return [phase(s, x, y) for x, start in enumerate(starts) for y in range(start, start + rows)]


def show(s):
    answers = brick_answer(s), f"{place(s, 0, 1)}, {place(s, 3, 2)}", made_answer(*made(*s[:5]))
    print(f"{five(s)}: {refusal(s)}; {'; '.join(answers)}")


def show_place(s, x, y):
    print(f"{five(s)}, {x} {y}: {place(s, x, y)}")


def show_filled(s, places):
    print(f"{five(s)}, {places}: {lent(s, places, 72, brick_phases)}")


def show_replaced(s, name, number):
    """Answers the screen handed back."""
    r, back = replaced(s, name, number)
    print(f"{name} {number}: {made_answer(r, back)}")
    return back


def show_list(s, replacements):
    """Replacements, each of the screen that the one before handed back, and that screen in the end."""
    show(s)
    for name, number in replacements:
        s = show_replaced(s, name, number)
    show(s)


def show_moved(s, x, y):
    """Answers the screen as it is seen from a corner."""
    r, back = moved(s, x, y)
    print(f"{x} {y}: {made_answer(r, back)}")
    return back


def show_stored(s):
    print(stored(s))
    show(s)
    for name, number in [("g", 0), ("k", 1), ("n", 0)]:
        show_replaced(s, name, number)


# the worked examples of rules 12.1, 12.2 and 12.12
assert [brick(Screen(*s, 1, 0)) for s in [(4, 7, 105), (4, 7, 70), (1, 2, 1)]] == [(105, 1, 77), (35, 2, 14), (1, 1, 0)]
assert [phase(Screen(4, 7, 105, 1, g), x, y) for x, y, g in [(0, 1, 0), (3, 2, 0), (0, 1, 40)]] == [7, 26, 72]

# the worked examples of rule 12.18
example = made(4, 7, 105, 2, 40)
assert example == (0, (4, 7, 105, 2, 40, 105, 1, 77))
example = replaced(example[1], "n", 70)
assert example == (0, (4, 7, 70, 2, 40, 35, 2, 14))
for name, number, refused in [("n", 1, 3), ("n", 40, 4), ("g", 70, 4), ("k", 17, 3)]:
    assert replaced(example[1], name, number) == (refused, example[1])

# and of rule 12.19
for columns, rows, shift in [(35, 2, 21), (36, 2, 14), (35, 1, 14), (35, 2, 49)]:
    example = Screen(4, 7, 70, 2, 0, columns, rows, shift)
    assert replaced(example, "n", 0) == (15, example)
    assert place(example, 65536, 0) == "15 0"
    assert refusal(example._replace(k=17)) == 3

# and of rules 12.20 and 12.21
example = phases_in(Screen(4, 7, 105, 2, 0), [0, 3, 1, 9, 2, 2, 40], 15)
assert sorted(example) == list(range(105)) and (example[90], example[104]) == (94, 87)
example = phases_in(Screen(4, 7, 104, 2, 0), [0] * 7, 14)
assert (example.count(0), example.count(1)) == (2, 0)

# and of rule 12.22
example = screen_of(4, 7, 105, 2, 40)
assert moved(example, 100000, 70000) == (0, example._replace(g=20))
assert phase(example._replace(g=20), 3, 2) == phase(example, 100003, 70002) == 6

print("# a b n k g: refusal; L H S; refusal and phase of (0, 1), of (3, 2); made: refusal, screen")
for screen in [
    (4, 7, 105, 2, 0), (4, 7, 70, 2, 0), (1, 2, 1, 1, 0),
    (0, 7, 105, 2, 0), (1, 7, 105, 2, 0), (4, 8, 105, 2, 0), (7, 7, 105, 2, 0), (6, 7, 105, 2, 0),
    (7, 4, 105, 2, 0), (1, 1, 105, 2, 0), (63, 64, 105, 2, 0), (63, 65, 105, 2, 0), (TOP - 1, TOP, 105, 2, 0),
    (4, 7, 0, 1, 0), (4, 7, 1, 1, 0), (63, 64, 4096, 16, 4095), (63, 64, 4097, 16, 4095), (4, 7, TOP, 16, 0),
    (4, 7, 105, 0, 0), (4, 7, 105, 1, 0), (4, 7, 105, 16, 0), (4, 7, 105, 17, 0), (4, 7, 5, 5, 0),
    (4, 7, 5, 6, 0), (4, 7, 105, TOP, 0),
    (4, 7, 70, 2, 69), (4, 7, 70, 2, 70), (4, 7, 70, 2, TOP), (4, 7, 3, 2, 2), (60, 61, 48, 3, 17),
    (0, 0, 0, 0, 0), (4, 7, 0, 0, 0), (4, 7, 5, 6, 5), (4, 8, 105, 17, 105),
]:
    show(screen_of(*screen))

print("# a b n k g, x y: refusal and phase")
for screen, x, y in [
    ((4, 7, 105, 2, 0), 0, 0), ((4, 7, 105, 2, 0), 65535, 0), ((4, 7, 105, 2, 0), 65536, 0),
    ((4, 7, 105, 2, 0), 0, 65535), ((4, 7, 105, 2, 0), 0, 65536), ((4, 7, 105, 2, 0), 65535, 65535),
    ((4, 7, 105, 2, 0), TOP, TOP), ((4, 7, 105, 2, 104), 65535, 65535), ((4, 7, 70, 2, 70), 65536, 65536),
    ((4, 7, 105, 2, 0), 6, 40), ((4, 7, 105, 2, 0), 6, 54), ((4, 7, 104, 2, 0), 0, 0), ((4, 7, 104, 2, 0), 5, 12),
]:
    show_place(screen_of(*screen), x, y)

print("# a b n k g, places: refusal; the buffer, every place 65535 before")
for screen, places in [
    ((4, 7, 70, 2, 0), 69), ((4, 7, 70, 2, 0), 70), ((4, 7, 70, 2, 0), 71), ((4, 7, 70, 2, 0), 0),
    ((4, 7, 70, 2, 70), 70), ((4, 7, 70, 2, 70), 0), ((4, 7, 70, 2, 69), 70), ((60, 61, 48, 3, 17), 48),
    ((1, 2, 1, 1, 0), 1), ((4, 7, 3, 1, 2), 4),
]:
    show_filled(screen_of(*screen), places)

print("# a screen as above, then what is replaced, one after the other: refusal, screen")
for screen, replacements in [
    ((4, 7, 105, 2, 40), [("n", 70), ("n", 1), ("n", 40), ("g", 70), ("k", 17)]),
    ((63, 64, 105, 2, 0), [
        ("n", 0), ("n", 4097), ("n", TOP), ("n", 4096), ("g", 4096), ("g", TOP), ("g", 4095), ("k", 0), ("k", 17), ("k", TOP),
        ("k", 16), ("n", 4095), ("g", 15), ("n", 15), ("n", 16), ("n", 16), ("g", 0), ("n", 15), ("k", 1), ("n", 1), ("g", 1),
        ("k", 2),
    ]),
    ((60, 61, 48, 3, 17), [
        ("n", 60), ("n", 61), ("k", 5), ("n", 90), ("g", 89), ("n", 89), ("n", 3600), ("g", 3599), ("n", 4095),
    ]),
]:
    show_list(screen_of(*screen), replacements)
for screen, replacements in [
    (Screen(0, 0, 0, 0, 0), [("n", 70)]),
    (Screen(4, 7, 0, 2, 0, 35, 2, 14), [("n", 70)]),
    (Screen(4, 7, 70, 17, 0, 35, 2, 14), [("k", 2), ("n", 0)]),
    (Screen(4, 7, 70, 2, 70, 35, 2, 14), [("g", 0), ("n", 105), ("k", 17)]),
]:
    show(screen)
    for name, number in replacements:
        show_replaced(screen, name, number)

print("# the same of screens that store these numbers, each replacement by itself")
for numbers_stored in [
    (35, 2, 14), (34, 2, 14), (36, 2, 14), (70, 2, 14), (0, 2, 14), (2147483683, 2, 14),
    (35, 1, 14), (35, 3, 14), (35, 0, 14), (35, TOP, 14),
    (35, 2, 13), (35, 2, 15), (35, 2, 21), (35, 2, 49), (35, 2, 0), (35, 2, 1073741838),
]:
    show_stored(Screen(4, 7, 70, 2, 0, *numbers_stored))
show_stored(Screen(1, 2, 1, 1, 0, 1, 1, 0))
show_stored(Screen(1, 2, 1, 1, 0, 1, 1, 1))
for numbers_stored in [(2, 35, 14), (7, 10, 0), (1, 70, 0), (105, 1, 77), (0, 0, 0), (TOP, TOP, TOP)]:
    show_stored(Screen(4, 7, 70, 2, 0, *numbers_stored))
of_70 = Screen(4, 7, 105, 2, 0, 35, 2, 14)
show_stored(of_70)
show_replaced(of_70, "n", 70)
for screen in [(4, 8, 70, 2, 0), (4, 7, 0, 2, 0), (4, 7, 70, 17, 0), (4, 7, 70, 2, 70), (4, 7, 70, 2, 0)]:
    show_stored(Screen(*screen, 35, 2, 21))
for x, y in [(65535, 65535), (65536, 0), (0, 65536)]:
    show_place(Screen(4, 7, 70, 2, 0, 35, 2, 21), x, y)
for places in [70, 69, 0]:
    show_filled(Screen(4, 7, 70, 2, 0, 35, 2, 21), places)

print("# a screen as above, then corners, each seen from the one before: x y: refusal, screen")
seen = screen_of(4, 7, 105, 2, 40)
show(seen)
seen = show_moved(seen, 100000, 70000)
show(seen)
for x, y in [(0, 0), (1, 0), (0, 1), (TOP, TOP + 1), (LAST, 0), (0, LAST), (LAST, LAST)]:
    seen = show_moved(seen, x, y)
show(seen)
for screen, x, y in [
    ((1, 2, 1, 1, 0), LAST, 1), ((4, 7, 3, 1, 2), 65536, 65537),
    ((63, 64, 4096, 16, 4095), LAST - 1, LAST // 2), ((63, 64, 4095, 16, 0), LAST, LAST),
]:
    show_moved(screen_of(*screen), x, y)
for screen in [
    (4, 8, 70, 2, 0, 35, 2, 14), (4, 7, 0, 2, 0, 35, 2, 14), (4, 7, 70, 17, 0, 35, 2, 14), (4, 7, 70, 2, 70, 35, 2, 14),
    (4, 7, 70, 2, 0, 35, 2, 21),
]:
    show_moved(Screen(*screen), 1, 1)
