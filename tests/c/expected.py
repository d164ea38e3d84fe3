"""Works out what the test program in C must print, from the rules and Python's own floats.

    PYTHONPATH=scripts python3 -B tests/c/expected.py
"""

import struct

from rules import COLORANTS, COLOURS, RULES_IN_FORCE, SEPARATIONS, Screen
from rules import admitted, brick, brick_phases, cellular, charge, colorants, counts, made, mean, moved, numbers, phase
from rules import replaced, screen_of
from rules import refusal as screen_refusal

SCREEN = screen_of(4, 7, 30, 3, 5)
REFUSED = {
    "slope 4/8": Screen(4, 8, 30, 3, 5, 1, 2, 3), "4097 cells": Screen(4, 7, 4097, 3, 5, 4, 5, 6),
    "17 subscreens": Screen(4, 7, 30, 17, 5, 7, 8, 9), "offset 30": Screen(4, 7, 30, 3, 30, 10, 11, 12),
    "columns 16": SCREEN._replace(columns=16), "rows 1": SCREEN._replace(rows=1), "shift 19": SCREEN._replace(shift=19),
}
REPLACE = {"g": "replace_offset", "k": "replace_subscreens", "n": "replace_cells"}
WINDOW = 8, 13, 5, 3
TINT = 51, 204, 102
INPUT = [
    51, 102, 204, 200, 90, 140, 13, 77, 250, 255, 255, 0, 0, 0, 0,
    128, 0, 128, 9, 240, 31, 180, 180, 180, 60, 0, 0, 0, 99, 201,
    250, 240, 230, 77, 13, 128, 40, 160, 80, 90, 10, 170, 222, 33, 111,
]
PLATE = 11, 2
CELLS = [0, 1, 2, 3, 4, 5, 6, 7, 7, 0, 5, 2, 7, 4, 1, 6, 3, 0, 6, 1, 3, 5]
PRIMARIES = [
    22.1, 28.3, 90.7, 38.0, 20.2, 17.6, 76.9, 82.4, 10.3, 8.8, 6.1, 30.0,
    9.5, 17.7, 8.2, 32.9, 18.4, 4.6, 2.0, 2.5, 2.7, 88.0, 92.3, 98.1,
]
RECORDS = [place * 7919 % 20001 / 100 for place in range(765)]
PRICES = [1000000, 250000, 31, 4000, 750001, 90210, 5, 123456]
JOB = [
    4000000000, 200000000, 90000000, 4000000, 900000, 60000, 7000, 296,
    600000000, 3000000, 50000000, 700000000, 1100, 220000000, 13, 1700000,
]


def show(function, call, r, rest=""):
    print(f"{function}, {call}: refusal {r}{rest}")


def lent(name, front, room, before=170):
    """Memory after a call that wrote its front, every place the same before."""
    return f"; {name} {numbers(front + [before] * (room - len(front)))}"


def refusal(s, sep):
    return screen_refusal(s) if sep in SEPARATIONS else 100


def sheet_refusal(x, y, columns=1, rows=1):
    return 5 if x + columns > 65536 or y + rows > 65536 else 0


def window_refusal(s, sep, w, inputs, outputs):
    cells = w[2] * w[3]
    return refusal(s, sep) or sheet_refusal(*w) or (6 if inputs != 3 * cells else 7 if outputs != cells else 0)


def rendered(s, sep, w):
    x, y, columns, rows = w
    places = [(x + i, y + j) for j in range(rows) for i in range(columns)]
    return [colorants(s, sep, INPUT[3 * i : 3 * i + 3])[phase(s, *place)] for i, place in enumerate(places)]


def tallied(cells):
    return [cells.count(j) for j in range(8)]


def tallies(cells):
    return f", tallies {numbers(tallied(cells))}"


def show_made(function, call, r, s):
    show(function, call, r, "".join(f", {name} {number}" for name, number in s._asdict().items()))


def show_replaced(call, s, name, number):
    """Answers the screen handed back."""
    r, back = replaced(s, name, number)
    show_made(REPLACE[name], call, r, back)
    return back


def show_move(call, s, x=8, y=13):
    show_made("moved", call, *moved(s, x, y))


def show_place(call, s, x=8, y=13):
    r = screen_refusal(s) or sheet_refusal(x, y)
    show("phase_at", call, r, f", phase {0 if r else phase(s, x, y)}")


def show_brick(call, s):
    r = screen_refusal(s)
    columns, rows, shift = (0, 0, 0) if r else brick(s)
    show("brick_of", call, r, f", columns {columns}, rows {rows}, shift {shift}")


def show_filling(call, s, places=31):
    r = screen_refusal(s) or (8 if places < s.n else 0)
    show("fill_brick", call, r, lent("brick", [] if r else brick_phases(s), 32, 170 * 257))


def show_counts(call, s, sep):
    r = refusal(s, sep)
    show("counts_of", call, r, f", of {numbers([0] * 8 if r else counts(s, sep, TINT))}")


def show_cell(call, s, sep, x=8, y=13):
    r = refusal(s, sep) or sheet_refusal(x, y)
    show("cell_at", call, r, f", colorant {0 if r else colorants(s, sep, TINT)[phase(s, x, y)]}")


def show_window(call, s, sep, w=WINDOW, inputs=45, outputs=15):
    r = window_refusal(s, sep, w, inputs, outputs)
    cells = [] if r else rendered(s, sep, w)
    show("render", call, r, tallies(cells) + lent("out", cells, 17))


def show_brick_window(call, s, sep, places=31):
    phases = brick_phases(SCREEN)
    r = window_refusal(s, sep, WINDOW, 45, 15) or (8 if phases[:places][: s.n] != brick_phases(s) else 0)
    cells = [] if r else rendered(s, sep, WINDOW)
    show("render_brick", call, r, tallies(cells) + lent("out", cells, 17) + lent("brick", phases, 32, 0))


def xyz(values):
    """X, Y and Z by their bits."""
    return "".join(f", {name} {struct.pack('>d', value).hex()}" for name, value in zip("xyz", values))


def show_colour(call, s, sep, primaries=PRIMARIES):
    bad = [place // 3 for place, value in enumerate(primaries) if not admitted(value)]
    r = refusal(s, sep) or (6 if len(primaries) != 24 else 11 if bad else 0)
    values = [0.0] * 3 if r else [mean(counts(s, sep, TINT), primaries[channel::3], s.n) for channel in range(3)]
    show("predict", call, r, f", colorant {bad[0] if r == 11 else 0}{xyz(values)}")


def show_cellular(call, s, sep, run=RECORDS):
    r, number, values = cellular(s, sep, TINT, run) if sep in SEPARATIONS else (100, 0, [0.0] * 3)
    show("predict_cellular", call, r, f", set {number}{xyz(values)}")


def changed(changes, run=RECORDS):
    """The records with the values of some places, each named by its set and its channel, put there."""
    places = {3 * (number - 1) + channel: value for (number, channel), value in changes.items()}
    return [places.get(place, value) for place, value in enumerate(run)]


def planes_of(cells):
    columns, rows = PLATE
    lines = [cells[y * columns : (y + 1) * columns] for y in range(rows)]
    digits = ["".join("1" if cell == plane else "0" for cell in line) for plane in range(8) for line in lines]
    return [int(row.ljust(16, "0")[i : i + 8], 2) for row in digits for i in (0, 8)]


def cells_of(planes):
    """The first plane of each pixel."""
    columns, rows = PLATE
    digits = "".join(f"{byte:08b}" for byte in planes)
    pixels = [(x, y) for y in range(rows) for x in range(columns)]
    return [min(plane for plane in range(8) if digits[(plane * rows + y) * 16 + x] == "1") for x, y in pixels]


def show_packing(call, cells, places=32):
    r = 6 if len(cells) != 22 else 7 if places != 32 else 9 if max(cells) > 7 else 0
    show("pack", call, r, lent("planes", [] if r else planes_of(cells), 34))


def show_unpacking(call, planes, taken=32, places=22):
    """Planes that are not those of their own cells have a pixel in none or two, or padding set."""
    cells = cells_of(planes)
    r = 6 if taken != 32 else 7 if places != 22 else 9 if planes != planes_of(cells) else 0
    show("unpack", call, r, lent("cells", [] if r else cells, 24) + lent("planes", planes, 32))


def show_charge(call, run, prices=PRICES):
    r, cents = charge(prices, run)
    show("charge_of", call, r, f", cents {cents}")


def show_screen(call, s):
    show_made("make_screen", call, *made(*s[:5]))
    show_replaced(call, s, "g", 29)
    show_replaced(call, s, "k", 1)
    show_replaced(call, s, "n", 35)
    show_move(call, s)
    show_place(call, s)
    show_brick(call, s)
    show_filling(call, s)


def show_separation(call, s, sep):
    show_counts(call, s, sep)
    show_cell(call, s, sep)
    show_window(call, s, sep)
    show_brick_window(call, s, sep)
    show_colour(call, s, sep)
    show_cellular(call, s, sep)


print(f"rules {RULES_IN_FORCE}")
for number, sep in enumerate(SEPARATIONS):
    print(f"CAVZEMIL_{sep.upper()} {number}")
for number, held in enumerate(COLORANTS):
    full = [255 if ink in held else 0 for ink in "cmy"]
    found = colorants(SCREEN, "demichel", full)[phase(SCREEN, 8, 13)]
    show("cell_at", f"CAVZEMIL_{COLOURS[held].upper()}", 0, f", colorant {found}, constant {number}")

show_screen("served", SCREEN)
for sep in SEPARATIONS:
    show_separation(sep, SCREEN, sep)
show_separation("separation 2", SCREEN, "separation 2")
for call, screen in REFUSED.items():
    show_screen(call, screen)
    show_separation(call, screen, "demichel")

show_made("make_screen", "largest numbers", *made(63, 64, 4096, 16, 4095))
show_made("make_screen", "65566 cells", *made(4, 7, 65566, 3, 5))
show_place("beyond the sheet", SCREEN, y=65536)
show_filling("brick too short", SCREEN, 29)
show_cell("beyond the sheet", SCREEN, "kueppers", x=65536)
show_window("last of the sheet", SCREEN, "kueppers", (65531, 65533, 5, 3))
show_window("beyond the sheet", SCREEN, "kueppers", (65532, 13, 5, 3))
show_window("input too short", SCREEN, "kueppers", inputs=44)
show_window("output too long", SCREEN, "kueppers", outputs=16)
show_brick_window("brick too short", SCREEN, "kueppers", 29)
show_colour("primaries too short", SCREEN, "kueppers", PRIMARIES[:23])
show_colour("green too bright", SCREEN, "kueppers", PRIMARIES[:13] + [200.5] + PRIMARIES[14:])

after = SCREEN
for call, name, number in [
    ("105 cells", "n", 105), ("offset 105", "g", 105), ("offset 104", "g", 104), ("104 cells", "n", 104),
    ("16 subscreens", "k", 16), ("17 subscreens", "k", 17), ("65538 subscreens", "k", 65538), ("offset 65536", "g", 65536),
    ("65641 cells", "n", 65641), ("no cells", "n", 0), ("offset 0", "g", 0), ("15 cells", "n", 15), ("16 cells", "n", 16),
]:
    after = show_replaced(call, after, name, number)
show_screen("after replacements", after)
show_separation("after replacements", after, "kueppers")

most = 2**64 - 1
show_move("not at all", SCREEN, 0, 0)
show_move("a column", SCREEN, 1, 0)
show_move("a row", SCREEN, 0, 1)
show_move("a sheet each way", SCREEN, 65536, 65536)
show_move("2^32 + 8 columns", SCREEN, x=2**32 + 8)
show_move("2^32 + 13 rows", SCREEN, y=2**32 + 13)
show_move("2^63 columns", SCREEN, 2**63, 0)
show_move("most columns", SCREEN, most, 0)
show_move("most rows", SCREEN, 0, most)
show_move("most columns and rows", SCREEN, most, most)
show_move("most columns and rows, shift 19", REFUSED["shift 19"], most, most)

zeros = changed({(number, 1): -0.0 for number in range(1, 256)})
bad = changed({(226, 0): -1.0, (200, 2): 1e300}, zeros)
show_cellular("records too short", SCREEN, "kueppers", RECORDS[:764])
show_cellular("records too long", SCREEN, "kueppers", RECORDS + [0.0])
show_cellular("slope 4/8, records too short", REFUSED["slope 4/8"], "kueppers", RECORDS[:764])
show_cellular("set 226 of 200", SCREEN, "kueppers", changed({(226, 1): 200.0}))
show_cellular("set 226 too bright", SCREEN, "kueppers", changed({(226, 1): 200.5}))
show_cellular("set 1 too bright", SCREEN, "kueppers", changed({(1, 0): 200.5}))
show_cellular("set 255 too dark", SCREEN, "kueppers", changed({(255, 2): -0.5}))
show_cellular("set 3 too bright, records too short", SCREEN, "kueppers", changed({(3, 0): 200.5})[:764])
show_cellular("offset 30, set 3 too bright", REFUSED["offset 30"], "kueppers", changed({(3, 0): 200.5}))
show_cellular("minus zeros", SCREEN, "kueppers", zeros)
show_cellular("sets 200 and 226 bad", SCREEN, "kueppers", bad)
show_cellular("separation 256, all else bad", REFUSED["slope 4/8"], "separation 256", bad[:764])

shifted = REFUSED["shift 19"]
show_replaced("shift 19, no cells", shifted, "n", 0)
show_replaced("shift 19, 17 subscreens", shifted, "k", 17)
show_replaced("shift 19, offset 30", shifted, "g", 30)
show_place("shift 19, beyond the sheet", shifted, y=65536)
show_filling("shift 19, brick too short", shifted, 29)
show_separation("shift 19, separation 2", shifted, "separation 2")
show_cell("shift 19, beyond the sheet", shifted, "kueppers", x=65536)
show_window("shift 19, beyond the sheet", shifted, "kueppers", (65536, 13, 5, 3))
show_window("shift 19, input too short", shifted, "kueppers", inputs=44)
show_window("shift 19, output too long", shifted, "kueppers", outputs=16)
show_brick_window("shift 19, brick too short", shifted, "kueppers", 29)
show_colour("shift 19, primaries too short", shifted, "kueppers", PRIMARIES[:23])
show_colour("shift 19, cyan too dark", shifted, "kueppers", [-1.0] + [0.0] * 23)
show_cellular("shift 19, records too short", shifted, "kueppers", RECORDS[:764])
show_cellular("shift 19, set 1 too dark", shifted, "kueppers", changed({(1, 0): -1.0}))

planes = planes_of(CELLS)
show_packing("served", CELLS)
show_packing("cells too short", CELLS[:21])
show_packing("planes too long", CELLS, 33)
show_packing("a cell of 8", CELLS[1:] + [8])
show_unpacking("served", planes)
show_unpacking("planes too short", planes, taken=31)
show_unpacking("cells too long", planes, places=23)
show_unpacking("padding set", [planes[0], planes[1] | 1] + planes[2:])

show_charge("two windows", JOB)
show_charge("first window", JOB[:8])
show_charge("second window", JOB[8:])
show_charge("rendered", tallied(rendered(SCREEN, "kueppers", WINDOW)))
show_charge("1000 windows", [536870912] * 8000)
show_charge("1001 windows", [536870912] * 8008)
show_charge("tallies too short", JOB[:15])
show_charge("white too dear", JOB, PRICES[:7] + [1000001])
show_charge("a cell too many", JOB[:4] + [900001] + JOB[5:])
show_charge("every bit set", [2**64 - 1] * 16)

show("render", "nothing lent", window_refusal(SCREEN, "kueppers", (8, 13, 0, 3), 0, 0), tallies([]))
show("pack", "nothing lent", 0)
show("unpack", "nothing lent", 0)
show_charge("nothing lent", [])
show_cellular("nothing lent", SCREEN, "kueppers", [])
