"""Arrays that come in and go out: NumPy's where it is installed, and those of the standard library.

What comes in is lent to the calls as it is, and nothing is copied. So it has to be of the one kind that they read: float64 for
coordinates and 64-bit whole numbers for keys and columns, native byte order, C-contiguous. Any other array is refused with a
sentence that names the cure. Lists of Python numbers are converted, once. What goes out is int64: every valid key is below
2^63, so nothing is lost, and NumPy does not turn sums with it into floats, as it does with uint64."""

import array
import ctypes
import operator
from collections.abc import Mapping, Set

try:
    import numpy
except ImportError:
    numpy = None

MOST_WHOLE = 2 ** 64 - 1
KINDS = {"d": "float64", "f": "float32", "e": "float16", "g": "longdouble", "?": "bool", "b": "int8", "B": "uint8",
         "h": "int16", "H": "uint16", "i": "int32", "I": "uint32", "l": "int64", "L": "uint64", "q": "int64", "Q": "uint64",
         "O": "object"}


# Addresses


class _Buffer(ctypes.Structure):
    """Python's Py_buffer."""

    _fields_ = [("address", ctypes.c_void_p), ("owner", ctypes.c_void_p), ("bytes", ctypes.c_ssize_t),
                ("itemsize", ctypes.c_ssize_t), ("readonly", ctypes.c_int), ("ndim", ctypes.c_int),
                ("format", ctypes.c_void_p), ("shape", ctypes.c_void_p), ("strides", ctypes.c_void_p),
                ("suboffsets", ctypes.c_void_p), ("internal", ctypes.c_void_p)]


_get_buffer, _release_buffer = ctypes.pythonapi.PyObject_GetBuffer, ctypes.pythonapi.PyBuffer_Release
_get_buffer.argtypes = [ctypes.py_object, ctypes.POINTER(_Buffer), ctypes.c_int]
_release_buffer.argtypes, _release_buffer.restype = [ctypes.POINTER(_Buffer)], None


class Lent:
    """Entries that are lent to calls, of eight bytes or of so many: their address, and the view that keeps them where they are."""

    __slots__ = ("view", "address", "entries")

    def __init__(self, view, size=8):
        self.view, self.entries = view, view.nbytes // size
        buffer = _Buffer()
        _get_buffer(view, buffer, 0)
        self.address = buffer.address if self.entries else None
        _release_buffer(buffer)


# What comes in


def seen(given, name, cure):
    """The memory of an array, or a sentence on why it is none."""
    if numpy and isinstance(given, numpy.ma.MaskedArray):
        raise TypeError("%s is a masked array, and a mask is not looked at: take the masked rows out and pass the .data of "
                        "what is left" % name)
    try:
        return memoryview(given)
    except (TypeError, ValueError, BufferError):
        kind = getattr(given, "dtype", None)
        what = "holds %s" % kind if kind is not None else "is of type %s" % type(given).__name__
        raise TypeError("%s %s, and is no array that can be read as it is: %s" % (name, what, cure)) from None


def check_kind(view, given, name, letters, wanted, cure):
    """That an array has entries of the kind that the calls read, in the byte order of the processor, side by side."""
    letter = view.format.lstrip("@=<>!^|")
    if letter.startswith("Z"):
        cure = "pass the real numbers that are meant, as those of %s.real and %s.imag" % (name, name)
    if letter not in letters or view.itemsize != 8:
        kind = getattr(given, "dtype", None)
        raise TypeError("%s holds %s, and %s is taken: %s" % (name, kind or KINDS.get(letter, letter), wanted, cure))
    if view.format[0] in ">!":
        raise TypeError("%s is big-endian, and the byte order of this processor is taken: %s" % (name, cure))
    if not view.c_contiguous:
        raise ValueError("%s is not C-contiguous (it is in Fortran order, or a part of a larger array): %s" % (name, cure))


def lent(view, name):
    """The entries of a view, which have to stand at multiples of eight bytes."""
    found = Lent(view)
    if found.address and found.address % 8:
        raise ValueError("%s is not aligned to eight bytes: pass a copy of it, as numpy.array(%s)" % (name, name))
    return found


class Points:
    """Rows of coordinates, lent.

    given   rows of `axes` coordinates: a float64 array of two dimensions, or a list of lists of numbers. Where the box has
            one axis, an array of one dimension and a list of numbers will do too.
    axes    those of the box, or None where there is none yet
    """

    def __init__(self, given, axes, name="points"):
        self.name = name
        if isinstance(given, (list, tuple)):
            flat, self.axes = numbers_of_rows(given, axes, name)
            self.lent = Lent(memoryview(flat))
        else:
            self.lent, self.axes = self.array(given, axes)
        self.rows = self.lent.entries // max(1, self.axes)

    def array(self, given, axes):
        """An array as it is, and its columns."""
        name = self.name
        cure = "pass numpy.ascontiguousarray(%s, dtype=float)" % name if numpy else (
            "pass a list of rows of numbers, or memoryview(array.array('d', ..)).cast('B').cast('d', [rows, axes])")
        view = seen(given, name, cure)
        if view.format.lstrip("@=<>|") == "?":
            raise TypeError("%s holds bool, which is no coordinate: pass float64 numbers" % name)
        check_kind(view, given, name, "d", "float64", cure)
        if view.ndim == 1 and axes == 1:
            columns = 1
        elif view.ndim == 2:
            columns = view.shape[1]
        else:
            raise ValueError("%s has %d dimension%s, and rows of coordinates have two: pass %s.reshape(-1, %s)"
                             % (name, view.ndim, "" if view.ndim == 1 else "s", name, axes or "AXES"))
        check_columns(columns, axes, name)
        return lent(view, name), columns

    def table(self):
        """The coordinates as a NumPy array of two dimensions."""
        return numpy.frombuffer(self.lent.view, dtype=float).reshape(-1, self.axes)

    def flat(self):
        """The coordinates one after the other, without NumPy; a copy, as an array is gone through quicker than a view."""
        return array.array("d", self.lent.view.tobytes())


def check_columns(columns, axes, name):
    if not 1 <= columns <= 3:
        raise ValueError("%s has %d columns, and 1 to 3 axes are taken: pass the columns that are the axes, as "
                         "numpy.ascontiguousarray(%s[:, :3])" % (name, columns, name))
    if axes and columns != axes:
        raise ValueError("%s has %d column%s, and the box %d ax%ss: pass as many columns as the box has axes, or another box"
                         % (name, columns, "" if columns == 1 else "s", axes, "i" if axes == 1 else "e"))


def numbers_of_rows(rows, axes, name):
    """A list of rows of Python numbers, converted, and its columns."""
    flat = array.array("d")
    if not rows:
        return flat, axes or 0
    if not isinstance(rows[0], (list, tuple)):
        return flat_numbers(rows, axes, name), 1
    columns = len(rows[0])
    check_columns(columns, axes, name)
    for i, row in enumerate(rows):
        if not isinstance(row, (list, tuple)) or len(row) != columns:
            what = "%d entries" % len(row) if isinstance(row, (list, tuple)) else type(row).__name__
            raise ValueError("%s[%d] is not a list of %d numbers (%s): give every row the same columns"
                             % (name, i, columns, what))
        flat.extend(x if type(x) is float else real(x, "%s[%d]" % (name, i)) for x in row)
    return flat, columns


def flat_numbers(rows, axes, name):
    """A list of numbers, which are points where the box has one axis."""
    if hasattr(rows[0], "__len__") and not isinstance(rows[0], (str, bytes)):
        raise TypeError("%s[0] is of type %s, and a row is a list of numbers: pass %s" % (
            name, type(rows[0]).__name__, "numpy.ascontiguousarray(%s, dtype=float)" % name if numpy else "such lists"))
    numbers = array.array("d", (real(x, "%s[%d]" % (name, i)) for i, x in enumerate(rows)))
    if axes != 1:
        raise ValueError("%s is a flat list, and rows of coordinates are needed: pass [[x, y], [x, y], ..]" % name)
    return numbers


def real(x, name):
    """A Python number as a float that is equal to it."""
    if isinstance(x, float):
        return float(x)
    try:
        number = operator.index(None if isinstance(x, bool) else x)
    except TypeError:
        raise TypeError("%s is %.60r, of type %s: pass a float or an int" % (name, x, type(x).__name__)) from None
    try:
        if int(float(number)) == number:
            return float(number)
    except OverflowError:
        pass
    raise ValueError("%s is %.60r, which is no float64: pass the float that is meant" % (name, x))


def three(point, axes, name):
    """A point's coordinates in the three places that a call reads, and how many there are."""
    check_row(point, name)
    try:
        found = [real(x, "%s[%d]" % (name, i)) for i, x in enumerate(point)]
    except TypeError as error:
        if hasattr(type(point), "__iter__") and not isinstance(point, (str, bytes)):
            raise
        raise TypeError("%s is of type %s: pass a list of its coordinates, as [4.0]"
                        % (name, type(point).__name__)) from error
    if axes is not None and len(found) != axes:
        raise ValueError("%s has %d coordinate%s, and the box %d ax%ss: pass one for each axis"
                         % (name, len(found), "" if len(found) == 1 else "s", axes, "i" if axes == 1 else "e"))
    return (ctypes.c_double * 3)(*found[:3]), len(found)


def check_row(point, name):
    """That the entries of a single point stand one after the other, and are numbers and no bytes or bools."""
    kind, shape = type(point).__name__, getattr(point, "shape", None)
    if isinstance(point, (Set, Mapping)):
        raise TypeError("%s is of type %s, which has no order of axes: pass a list of its coordinates, one for each axis in turn"
                        % (name, kind))
    if isinstance(point, (bytes, bytearray)) or isinstance(point, memoryview) and point.format in ("B", "c"):
        raise TypeError("%s is of type %s, and bytes are no coordinates: pass a list of its coordinates, as [4.0], or "
                        "array.array('d', %s) where they are the bytes of such numbers" % (name, kind, name))
    if isinstance(shape, tuple) and len(shape) != 1:
        what = "no dimension" if not shape else "%d dimensions" % len(shape)
        raise TypeError("%s is of type %s with %s: pass a list of its coordinates, as [4.0], or %s.reshape(-1)"
                        % (name, kind, what, name))
    if str(getattr(point, "dtype", "")) == "bool" or isinstance(point, memoryview) and point.format == "?":
        raise TypeError("%s holds bool, which is no coordinate: pass float64 numbers" % name)


def check_many(given, name, cure):
    """That something has entries, one after the other."""
    try:
        iter(given)
    except TypeError:
        raise TypeError("%s is of type %s: pass %s" % (name, type(given).__name__, cure)) from None


def whole(number, name, most=MOST_WHOLE):
    """A whole number that a call can be passed."""
    try:
        found = operator.index(None if isinstance(number, bool) else number)
    except TypeError:
        raise TypeError("%s is %.60r, of type %s: pass a whole number" % (name, number, type(number).__name__)) from None
    if not 0 <= found <= most:
        raise ValueError("%s is %d: pass a whole number from 0 to %d" % (name, found, most))
    return found


def signed(number, name):
    """A whole number of either sign that 64 bits hold."""
    try:
        found = operator.index(None if isinstance(number, bool) else number)
    except TypeError:
        raise TypeError("%s is %.60r, of type %s: pass a whole number" % (name, number, type(number).__name__)) from None
    if not -(2 ** 63) <= found < 2 ** 63:
        raise ValueError("%s is %d: pass a whole number that 64 bits hold" % (name, found))
    return found


def flag(value, name):
    """A flag; what is neither True nor False is not guessed."""
    if value is True or value is False or (numpy and isinstance(value, numpy.bool_)):
        return bool(value)
    raise TypeError("%s is %.60r: pass True or False" % (name, value))


def whole_cure(given, name):
    """What to pass in place of something that is not taken as whole numbers: what a conversion would cut or misread has none."""
    if isinstance(given, (array.array, memoryview)):
        letter = (given.typecode if isinstance(given, array.array) else given.format).lstrip("@=<>!^|")
    else:
        letter = getattr(getattr(given, "dtype", None), "char", "")
    if letter in ("d", "f", "e", "g"):
        return "pass the whole numbers that are meant, as ints; a conversion would cut fractions off"
    if numpy and letter and letter in "bBhHiIlLqQ":
        return "pass numpy.ascontiguousarray(%s, dtype=numpy.int64)" % name
    if letter and letter in "bBhHiIlLqQ":
        return "pass a list of ints, or array.array('q', %s)" % name
    return "pass a list of ints, one an entry, or an array of int64"


def wholes(given, name):
    """Whole numbers of 64 bits, lent: an int64 or uint64 array of one dimension, or a list of ints."""
    if isinstance(given, (list, tuple)):
        return Lent(memoryview(array.array("Q", [whole(x, "%s[%d]" % (name, i)) for i, x in enumerate(given)])))
    cure = whole_cure(given, name)
    view = seen(given, name, cure)
    check_kind(view, given, name, "lLqQ", "int64 or uint64", cure)
    if view.ndim != 1:
        raise ValueError("%s has %d dimensions, and one is taken: pass %s.reshape(-1)" % (name, view.ndim, name))
    return lent(view, name)


def signed_wholes(given, name):
    """Whole numbers of either sign, lent: an int64 array of one dimension, or a list of ints."""
    if isinstance(given, (list, tuple)):
        return Lent(memoryview(array.array("q", [signed(x, "%s[%d]" % (name, i)) for i, x in enumerate(given)])))
    cure = whole_cure(given, name)
    view = seen(given, name, cure)
    check_kind(view, given, name, "lq", "int64", cure)
    if view.ndim != 1:
        raise ValueError("%s has %d dimensions, and one is taken: pass %s.reshape(-1)" % (name, view.ndim, name))
    return lent(view, name)


def octets(given, name):
    """The bytes of a file, lent: bytes, or an array of uint8 of one dimension."""
    cure = "pass its bytes, as open(path, 'rb') reads them"
    view = seen(given, name, cure)
    if view.format not in ("B", "c") or view.ndim != 1 or not view.c_contiguous:
        raise TypeError("%s is no row of bytes side by side: %s" % (name, cure))
    return Lent(view, 1)


# What goes out


def column(entries):
    """Room for so many whole numbers, for a call to write to. What stands in it does not matter: a call writes all of it."""
    return numpy.empty(entries, dtype=numpy.int64) if numpy else array.array("q", [0]) * entries


def cut(written, entries):
    """The first entries of a column, to be read only. Room that was not used is given back, and nothing is copied."""
    if numpy:
        written.resize(entries, refcheck=False)
        written.flags.writeable = False
        return written
    del written[entries:]
    return memoryview(written).toreadonly()


def as_given(written, given):
    """A column of entries that were copied from lent ones, to be read only: of uint64 if those were and one of them is so large
    that int64 cannot hold it, and else as it is."""
    if given.view.format.lstrip("@=<>!^|") in "lq" or not len(written) or (
            written.min() if numpy else min(written)) >= 0:
        return written
    return written.view(numpy.uint64) if numpy else written.cast("B").cast("Q")


def shown(entries):
    """Lent whole numbers as a column to be read only."""
    if numpy:
        column = numpy.frombuffer(entries.view, dtype=numpy.int64)
        column.flags.writeable = False
        return column
    if entries.view.format in ("q", "Q", "l", "L") and entries.entries:
        return entries.view.cast("B").cast("q").toreadonly()
    return memoryview(array.array("q", entries.view.tobytes())).toreadonly()


def packed(numbers):
    """Whole numbers that were worked out without NumPy, as a column to be read only."""
    return memoryview(array.array("q", numbers)).toreadonly()
