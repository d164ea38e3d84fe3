"""Works out what the test program must print, from the rules and nothing else.

    python3 crates/plates_test/expected.py > crates/plates_test/stdout
"""

TOP = 4294967295
CELLS = [
    0, 1, 2, 3, 4, 5, 6, 7, 7, 0, 5, 2, 7, 4, 1, 6, 3, 0,
    0, 0, 6, 6, 1, 3, 5, 7, 2, 4, 4, 3, 2, 1, 0, 7, 6, 5,
]
PLANES = [255, 0, 0, 0, 0, 0, 0, 0, 0, 0, 0, 0, 0, 0, 0, 128, 170, 170, 170, 170]


def row_bytes(columns):
    return -(-columns // 8)


def on_sheet(columns, rows):
    return columns <= 65536 and rows <= 65536


def pixels(columns, rows):
    return [(x, y) for y in range(rows) for x in range(columns)]


def planes_of(columns, rows, cells):
    """A string of binary digits for each row of each plane, the first pixel first."""
    out = []
    for plane in range(8):
        for y in range(rows):
            row = cells[y * columns:(y + 1) * columns]
            digits = "".join("1" if cell == plane else "0" for cell in row)
            digits += "0" * (8 * row_bytes(columns) - columns)
            out += [int(digits[i:i + 8], 2) for i in range(0, len(digits), 8)]
    return out


def digits_of(columns, rows, planes):
    """For each plane, for each row, its binary digits with the padding."""
    width = row_bytes(columns)
    rest = "".join(f"{byte:08b}" for byte in planes)
    lines = [rest[i * 8 * width:(i + 1) * 8 * width] for i in range(8 * rows)]
    return [lines[plane * rows:(plane + 1) * rows] for plane in range(8)]


def pack(columns, rows, cells, memory):
    if not on_sheet(columns, rows):
        return 5, memory
    if len(cells) != columns * rows:
        return 6, memory
    if len(memory) != 8 * rows * row_bytes(columns):
        return 7, memory
    if any(cell > 7 for cell in cells):
        return 9, memory
    return 0, planes_of(columns, rows, cells)


def unpack(columns, rows, planes, memory):
    if not on_sheet(columns, rows):
        return 5, memory
    if len(planes) != 8 * rows * row_bytes(columns):
        return 6, memory
    if len(memory) != columns * rows:
        return 7, memory
    digits = digits_of(columns, rows, planes)
    found = [[plane for plane in range(8) if digits[plane][y][x] == "1"] for x, y in pixels(columns, rows)]
    padding = "".join(row[columns:] for plane in digits for row in plane)
    if any(len(planes_with) != 1 for planes_with in found) or "1" in padding:
        return 9, memory
    return 0, [plane for [plane] in found]


def lent(call, columns, rows, source, taken, memory, given):
    """The refusal, and the whole memory of which the first places were lent."""
    refusal, part = call(columns, rows, source[:taken], memory[:given])
    return refusal, part + memory[given:]


def spaced(numbers):
    return "".join(f" {n}" for n in numbers)


def round_trip(columns, rows):
    cells, places = columns * rows, 8 * rows * row_bytes(columns)
    packing, planes = lent(pack, columns, rows, CELLS, cells, [170] * 52, places)
    unpacking, back = lent(unpack, columns, rows, planes, places, [255] * 36, cells)
    print(f"{columns} {rows}: {packing};{spaced(planes)}; {unpacking};{spaced(back)}")


def show(call, memory, columns, rows, taken, given, source):
    refusal, after = lent(call, columns, rows, source, taken, memory, given)
    print(f"{columns} {rows}, {taken} {given}: {refusal};{spaced(after)}")


def packing(columns, rows, cells, places, source):
    show(pack, [170] * 36, columns, rows, cells, places, source)


def unpacking(columns, rows, places, cells, source):
    show(unpack, [255] * 12, columns, rows, places, cells, source)


def changed(numbers, changes):
    return [changes.get(i, n) for i, n in enumerate(numbers)]


print("# columns rows: refusal of packing; the planes, every place 170 before; refusal of unpacking; the cells, every place 255 before")
for columns in [0, 1, 7, 8, 9, 16, 17]:
    for rows in [0, 2]:
        round_trip(columns, rows)

print("# columns rows, cells planes: refusal of packing; the planes")
for columns, rows, cells, places in [
    (9, 2, 18, 32), (9, 2, 17, 32), (9, 2, 19, 32), (9, 2, 18, 31), (9, 2, 18, 33), (9, 2, 17, 31),
    (65536, 0, 0, 0), (65537, 0, 0, 0), (1, 65536, 0, 0), (1, 65537, 0, 0), (65536, 65536, 0, 0), (TOP, TOP, 1, 1),
]:
    packing(columns, rows, cells, places, CELLS)
for cells, places, changes in [
    (18, 32, {0: 8}), (17, 32, {0: 8}), (18, 31, {0: 8}), (18, 32, {0: 7, 17: 255}), (18, 32, {0: 7, 17: 7, 18: 8}),
]:
    packing(9, 2, cells, places, changed(CELLS, changes))

print("# columns rows, planes cells: refusal of unpacking; the cells")
for columns, rows, places, cells in [
    (9, 1, 16, 9), (9, 1, 15, 9), (9, 1, 17, 9), (9, 1, 16, 8), (9, 1, 16, 10), (9, 1, 15, 8),
    (65536, 0, 0, 0), (65537, 0, 0, 0), (1, 65536, 0, 0), (1, 65537, 0, 0), (65536, 65536, 0, 0), (TOP, TOP, 1, 1),
]:
    unpacking(columns, rows, places, cells, PLANES)
for changes in [
    {0: 128, 1: 128}, {0: 128}, {0: 0}, {0: 0, 7: 128},
]:
    unpacking(1, 1, 8, 1, changed(PLANES, changes))
for changes in [
    {0: 254}, {14: 1}, {0: 254, 14: 1}, {15: 0}, {1: 128}, {0: 254, 1: 128},
    {1: 64}, {1: 1}, {15: 192}, {15: 129}, {7: 32},
]:
    unpacking(9, 1, 16, 9, changed(PLANES, changes))
for columns, rows, places, cells in [
    (9, 1, 15, 9), (9, 1, 16, 8), (65537, 1, 16, 8), (0, 2, 0, 0),
]:
    unpacking(columns, rows, places, cells, changed(PLANES, {1: 1}))
