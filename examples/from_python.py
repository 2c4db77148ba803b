#!/usr/bin/env python3
"""Calls from Python, by ctypes: four days in June by half hours, with an overhang of two depths and a tree that is in
leaf from the third day on, and some factors, in both editions, of the window whole and in strips. Of each run it also
prints the totals of two days and of the month.

    examples/from_python.py LIBRARY

LIBRARY is the shared library, as tools/install installs it (PREFIX/lib/libpilgartze.so). The job is that of
examples/calls.c, which prints the same numbers. Exit status: 0 where all calls were answered, 1 otherwise.
"""
import ctypes
import os
import sys
from ctypes import c_double, c_int64, c_size_t, c_uint64, c_void_p

HOURS = 96
STEPS = 192
DAYS = 366
DAYS_IN_YEAR = 365  # of a common year
MONTHS = 12

# include/pilgartze.h says what each field means.
EDITION_1, EDITION_2 = 1, 2
SITE = (51.06, -1.31, 0, 170, 1.0, 0, 0, 172, 300)  # the last two are the leaf days, from 0: 172 is 22 June
RUN = (4080.0, 4176.0, 0.5)
SURFACE = (90.0, 135.0, 0.9, 1.2, 1.8)
GLAZING = (90.0, 135.0, 0.9, 1.8)  # the surface without its height: strips have their own
STRIPS = (0.4, 0.5, 0.3)

DISTANT_OBSTACLE, DISTANT_OVERHANG = 0, 1
OBSTACLE, OVERHANG, RIGHT_FIN, LEFT_FIN = 0, 1, 2, 3


class Object(ctypes.Structure):
    _fields_ = [("kind", c_uint64), ("height", c_double), ("distance", c_double)]


class Sector(ctypes.Structure):
    _fields_ = [("start", c_double), ("end", c_double), ("count", c_uint64), ("objects", Object * 8)]


class WindowObject(ctypes.Structure):
    _fields_ = [("kind", c_uint64), ("size", c_double), ("distance", c_double), ("transparency", c_double)]


class Row(ctypes.Structure):
    _fields_ = [(name, c_double) for name in ("altitude", "azimuth", "direct", "diffuse", "total", "factor")]


class DayValues(ctypes.Structure):
    _fields_ = [(name, c_double) for name in ("declination", "equation_of_time", "extra_terrestrial_radiation")]


class Totals(ctypes.Structure):
    """Of a day or of a month. A year's stand in one list, the days first, from 1 January on."""

    _fields_ = [("count", c_uint64), ("largest", c_double), ("sum", c_double)]


class Answer(ctypes.Structure):
    _fields_ = [("number", c_uint64), ("step", c_uint64), ("count", c_uint64), ("sum", c_double)]


class FactorAnswer(ctypes.Structure):
    _fields_ = [("number", c_uint64), ("factor", c_double)]


def load(path):
    """The library, with the types of its functions, without which ctypes would pass every number as an int."""
    try:
        library = ctypes.CDLL(os.path.abspath(path))
    except OSError as error:
        sys.exit(f"{sys.argv[0]}: {error}")
    site = [c_double, c_double, c_int64, c_uint64, c_double, c_uint64, c_uint64, c_uint64, c_uint64]
    surface = [c_double] * 5
    one_list = [c_void_p, c_size_t]
    library.pilgartze_version.argtypes = []
    library.pilgartze_version.restype = c_uint64
    library.pilgartze_run.argtypes = [c_uint64] + site + [c_double] * 3 + surface + one_list * 9
    library.pilgartze_run.restype = Answer
    library.pilgartze_factor.argtypes = [c_uint64] + [c_double] * 2 + surface + one_list * 2
    library.pilgartze_factor.restype = FactorAnswer
    library.pilgartze_strips.argtypes = [c_uint64] + [c_double] * 6 + one_list * 3
    library.pilgartze_strips.restype = FactorAnswer
    return library


def lent(*lists):
    """Each list as the library takes it, a pointer and a length in bytes. The caller keeps it during the call."""
    return [part for each in lists for part in (ctypes.addressof(each), ctypes.sizeof(each))]


def sector(start, end, *objects):
    """A sector; the places of objects that are not used stay all zero."""
    return Sector(start, end, len(objects), (Object * 8)(*objects))


def series(values):
    return (c_double * HOURS)(*values)


def make_shading(depth):
    """What may shade the window, with the overhang so deep: in summer, in winter, and at the window itself."""
    house = Object(DISTANT_OBSTACLE, 12.0, 20.0)
    tree = Object(DISTANT_OBSTACLE, 9.0, 10.0)
    bridge = Object(DISTANT_OVERHANG, 5.0, 2.0)
    summer = (Sector * 2)(sector(0.0, 140.0, house, tree), sector(140.0, 360.0, bridge))
    winter = (Sector * 2)(sector(0.0, 140.0, house), sector(140.0, 360.0, bridge))
    window = (WindowObject * 4)(
        WindowObject(OVERHANG, depth, 0.15, 0.0),
        WindowObject(LEFT_FIN, 0.4, 0.1, 0.0),
        WindowObject(OBSTACLE, 1.6, 1.0, 0.25),
        WindowObject(RIGHT_FIN, 0.6, 0.1, 0.0),
    )
    return summer, winter, window


def print_totals(name, of):
    print("  %s: %d steps, largest total %.17g, %.17g Wh/m2" % (name, of.count, of.largest, of.sum))


def print_run(library, depth):
    """The sum with the overhang so deep, that of a day without leaves, of one with leaves and of the month, and the row
    of a morning hour. 17 digits tell any two doubles apart."""
    diffuse = series(10.0 * (i % 24) for i in range(HOURS))
    direct = series(7.5 * i for i in range(HOURS))
    reflectivity = series([0.2] * HOURS)
    summer, winter, window = make_shading(depth)
    days = (DayValues * DAYS)()
    totals = (Totals * (DAYS_IN_YEAR + MONTHS))()
    rows = (Row * STEPS)()
    lists = lent(diffuse, direct, reflectivity, summer, winter, window, days, totals, rows)
    answer = library.pilgartze_run(EDITION_2, *SITE, *RUN, *SURFACE, *lists)
    if answer.number != 0:
        sys.exit(f"turned down by number {answer.number} at step {answer.step}")
    print("overhang %.1f m: %d steps, %.17g Wh/m2" % (depth, answer.count, answer.sum))
    print_totals("21 June", totals[171])
    print_totals("22 June", totals[172])
    print_totals("June", totals[DAYS_IN_YEAR + 5])
    row = rows[16]
    print("  at 8:00: " + ", ".join("%s %.17g" % (name, getattr(row, name)) for name, _ in Row._fields_))


def print_factor(library, edition, altitude):
    """With the sun to the right of the way that the window faces, in winter: a factor has one list of sectors."""
    _, winter, window = make_shading(1.2)
    answer = library.pilgartze_factor(edition, altitude, 20.0, *SURFACE, *lent(winter, window))
    print("edition %d, altitude %.0f: number %d, factor %.17g" % (edition, altitude, answer.number, answer.factor))


def print_strips(library, edition, *heights):
    """The same window in strips, from the lowest up, without the overhang: that would count from the top of each."""
    _, winter, window = make_shading(1.2)
    strips = (c_double * len(heights))(*heights)
    others = (WindowObject * 3)(*window[1:])
    answer = library.pilgartze_strips(edition, 15.0, 20.0, *GLAZING, *lent(strips, winter, others))
    print("edition %d, %d strips: number %d, factor %.17g" % (edition, len(heights), answer.number, answer.factor))


def main():
    if len(sys.argv) != 2:
        sys.exit(f"{sys.argv[0]}: the path of the shared library is wanted (see the head of this script)")
    library = load(sys.argv[1])
    print("pilgartze", library.pilgartze_version())
    print_run(library, 0.6)
    print_run(library, 1.2)
    print_factor(library, EDITION_1, 35.0)
    print_factor(library, EDITION_2, 35.0)
    print_factor(library, EDITION_2, -1.0)
    print_factor(library, 3, -1.0)
    print_strips(library, EDITION_1, *STRIPS)
    print_strips(library, EDITION_2, *STRIPS)
    print_strips(library, EDITION_2)
    print_strips(library, 3)


main()
