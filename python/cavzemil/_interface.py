"""What include/cavzemil.h declares, for ctypes: structs, and each function's answer and parameters (rules 14.1 to 14.4)."""

from ctypes import Structure, c_double, c_size_t, c_uint8, c_uint32, c_uint64, c_void_p


class Screen(Structure):
    """A screen's record (rule 17.1)."""

    _fields_ = [(name, c_uint32) for name in ("a", "b", "n", "k", "g", "columns", "rows", "shift")]


class Made(Structure):
    """A screen that was made, or the one that a replacement hands back."""

    _fields_ = [("refusal", c_uint32), ("screen", Screen)]


class Window(Structure):
    """A window of the sheet."""

    _fields_ = [(name, c_uint32) for name in ("x", "y", "columns", "rows")]


class Place(Structure):
    """The phase of a place."""

    _fields_ = [("refusal", c_uint32), ("phase", c_uint32)]


class Brick(Structure):
    """A brick's columns, rows and shift."""

    _fields_ = [(name, c_uint32) for name in ("refusal", "columns", "rows", "shift")]


class Counts(Structure):
    """The counts of the eight colorants."""

    _fields_ = [("refusal", c_uint32), ("of", c_uint32 * 8)]


class Cell(Structure):
    """The colorant of a place."""

    _fields_ = [("refusal", c_uint32), ("colorant", c_uint32)]


class Rendering(Structure):
    """How many cells were written in each colorant."""

    _fields_ = [("refusal", c_uint32), ("tallies", c_uint64 * 8)]


class Prediction(Structure):
    """A predicted colour, or the colorant of refusal 11."""

    _fields_ = [("refusal", c_uint32), ("colorant", c_uint32), ("x", c_double), ("y", c_double), ("z", c_double)]


class Cellular(Structure):
    """A colour predicted by sets of colorants, or the set of refusal 11."""

    _fields_ = [("refusal", c_uint32), ("set", c_uint32), ("x", c_double), ("y", c_double), ("z", c_double)]


class Prices(Structure):
    """Cents for a million cells, by colorant."""

    _fields_ = [("of", c_uint32 * 8)]


class Charge(Structure):
    """What a job costs."""

    _fields_ = [("refusal", c_uint32), ("cents", c_uint64)]


# a pointer and a length in elements
_RUN = [c_void_p, c_size_t]
_INKS = [c_uint8] * 3

# each function's answer and parameters
FUNCTIONS = {
    "cavzemil_rules": (c_uint32, []),
    "cavzemil_make_screen": (Made, [c_uint32] * 5),
    "cavzemil_replace_offset": (Made, [Screen, c_uint32]),
    "cavzemil_replace_subscreens": (Made, [Screen, c_uint32]),
    "cavzemil_replace_cells": (Made, [Screen, c_uint32]),
    "cavzemil_moved": (Made, [Screen, c_uint64, c_uint64]),
    "cavzemil_phase_at": (Place, [Screen, c_uint32, c_uint32]),
    "cavzemil_brick_of": (Brick, [Screen]),
    "cavzemil_fill_brick": (c_uint32, [Screen, *_RUN]),
    "cavzemil_counts_of": (Counts, [Screen, c_uint32, *_INKS]),
    "cavzemil_cell_at": (Cell, [Screen, c_uint32, c_uint32, c_uint32, *_INKS]),
    "cavzemil_render": (Rendering, [Screen, c_uint32, Window, *_RUN, *_RUN]),
    "cavzemil_render_brick": (Rendering, [Screen, c_uint32, Window, *_RUN, *_RUN, *_RUN]),
    "cavzemil_pack": (c_uint32, [c_uint32, c_uint32, *_RUN, *_RUN]),
    "cavzemil_unpack": (c_uint32, [c_uint32, c_uint32, *_RUN, *_RUN]),
    "cavzemil_predict": (Prediction, [Screen, c_uint32, *_INKS, *_RUN]),
    "cavzemil_predict_cellular": (Cellular, [Screen, c_uint32, *_INKS, *_RUN]),
    "cavzemil_charge_of": (Charge, [Prices, *_RUN]),
}
