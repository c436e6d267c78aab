"""The columns of a tree file that may be damaged, as far as they can be read: by its trailer, or, where that is lost, in the
order in which such files are written. Only what a salvage takes is read: keys, own counts, begins and the order column."""

import array
import re
import struct
import sys
from collections import Counter
from dataclasses import dataclass
from itertools import accumulate

from survey_file import DEEPEST, Refused, axes_text, code_of, is_valid, level_of, read_bytes, some

# a trailer has one entry a section (code, bytes from the trailer's start back to it, its bytes), then axes and entries
ENTRY, END = struct.Struct("<3I"), struct.Struct("<2I")
KEYS, OWN, BEGINS, TOTALS, ORDER, LAST, MOST_CODE = 1, 2, 3, 4, 5, 9, 31
NAMES = {KEYS: "keys", OWN: "own counts", BEGINS: "begins", ORDER: "entries of the order column"}
EIGHT_BYTES = (1, 7, 9)
NOT_ZERO = re.compile(b"[^\\0]")
MOST_SOURCES = 1048576


@dataclass
class Columns:
    """What was read, and what is told of it."""

    axes: int
    key: array.array
    own: array.array
    begin: array.array
    order: array.array
    # how many sources the file had, where it says so
    had: int
    told: list
    # in what the columns are not whole, a few words each
    faults: list

    def doubtful(self):
        """The rows whose run has an entry that stands in the order column more than once, or is no source of so many as the file
        had: a gap lies there, or anything else that is not the file's."""
        times, most = Counter(self.order), 2 ** 32 if self.had is None else self.had
        before = list(accumulate((times[one] > 1 or one >= most for one in self.order), initial=0))
        return [row for row, (start, count) in enumerate(zip(self.begin, self.own))
                if start + count < len(before) and before[start + count] > before[start]]


def width(code):
    return 8 if code in EIGHT_BYTES else 4


def entries(data, start, end, code):
    """The whole entries of a section that are in the file, as whole numbers of eight bytes."""
    end = max(start, min(end, len(data)))
    found = array.array("Q" if width(code) == 8 else "I")
    found.frombytes(data[start:end - (end - start) % found.itemsize])
    if sys.byteorder == "big":
        found.byteswap()
    return found if width(code) == 8 else array.array("Q", found)


def read_columns(path, axes=None, nodes=None):
    """The columns of a file; axes and nodes are what its user says of a file whose trailer is lost."""
    data = read_bytes(path)
    if len(data) < 8:
        raise Refused("%s: %s, in which there is not one key; take another copy of the file" % (path, some(len(data), "byte")))
    try:
        found, sections = by_trailer(data)
    except ValueError as why:
        return by_layout(path, data, str(why), axes, nodes)
    for option, given, said in (("--axes", axes, found), ("--nodes", nodes, len(sections[KEYS]))):
        if given is not None and given != said:
            raise Refused("%s: %s %d, but its trailer, which is whole, says %d; leave the option out" % (path, option, given, said))
    check_keys(path, found, sections[KEYS])
    told, faults = ["%s: %s, trailer found, %s" % (path, some(len(data), "byte"), axes_text(found))], []
    had = number_of_sources(sections, ("the order column's section", len(sections[ORDER])), told, faults)
    return made(found, sections, had, told, faults, "its section ends early")


def check_keys(path, axes, keys):
    """That there is a key of a tree at all."""
    if not any(is_valid(axes, key) for key in keys):
        raise Refused("%s: there is no key in it that a tree of %s can have: is it a tree file? give one, as tools/tree-file writes it"
                      % (path, axes_text(axes)))


# With a trailer


def by_trailer(data):
    """The axes and the sections that the trailer names; ValueError, with the reason, where it is not whole."""
    axes, count = END.unpack_from(data, len(data) - END.size)
    start = len(data) - END.size - ENTRY.size * count
    if start < 0 or not LAST <= count <= MOST_CODE:
        raise ValueError("its last four bytes say %d entries" % count)
    if not 1 <= axes <= 3:
        raise ValueError("it says %d axes" % axes)
    places = {}
    for code, back, length in ENTRY.iter_unpack(data[start:len(data) - END.size]):
        if not 1 <= code <= MOST_CODE or code in places:
            raise ValueError("it has an entry with the code %d%s" % (code, " twice" if code in places else ""))
        if not length <= back <= start or code <= LAST and length % width(code):
            raise ValueError("the section with the code %d is not inside the file or not of whole entries" % code)
        places[code] = (start - back, start - back + length)
    for code in range(1, LAST + 1):
        if code not in places:
            raise ValueError("it lacks the code %d" % code)
    return axes, {code: entries(data, *places[code], code) for code in (KEYS, OWN, BEGINS, TOTALS, ORDER)}


# Without


def by_layout(path, data, why, axes, nodes):
    """The sections one after the other, as files are written, where the trailer does not say where they are."""
    lost = "%s: the trailer at its end, which says where the columns are, is lost (%s)" % (path, why)
    keys = entries(data, 0, len(data), KEYS)
    check_keys(path, axes or 3, keys)
    if axes is None:
        raise Refused("%s; the columns can be read in the order in which files are written, but the number of axes stands in "
                      "the trailer alone: give --axes" % lost)
    seen = "as given"
    if nodes is None:
        nodes, seen = number_of_nodes(path, data, axes, keys)
    found = {KEYS: keys[:nodes]}
    check_keys(path, axes, found[KEYS])
    for code in (OWN, BEGINS, TOTALS):
        start = (8 + 4 * (code - OWN)) * nodes
        found[code] = entries(data, start, start + 4 * nodes, code)
    told, faults = ["%s: %s" % (path, some(len(data), "byte")), lost.split(": ", 1)[1],
                    "read in the order in which files are written, with %s and %s, %s" % (
                        some(nodes, "node"), axes_text(axes), seen)], []
    if len(found[KEYS]) < nodes:
        told.append("%d of %d keys are there, as the file ends there" % (len(found[KEYS]), nodes))
    misgivings(axes, found, told, faults)
    had = number_of_sources(found, arranged(data, nodes, found), told, faults)
    most = max([one for one in said_numbers(found).values() if one <= MOST_SOURCES], default=0) if had is None else had
    found[ORDER] = entries(data, 20 * nodes, 20 * nodes + 4 * most, ORDER)
    return made(axes, found, had, told, faults, "the file ends there")


def number_of_nodes(path, data, axes, keys):
    """How many keys there are, and how it was seen. After the root's every key has a level of 1 or more; the column behind them
    begins with the root's own count, which is 0, so that what stands there, read as a key, has the level 0. In a damaged file
    there may be such entries among the keys too. So a number is taken only if the columns behind the keys bear it out."""
    ends = [n for n in range(1, len(keys)) if keys[n] % 32768 == 0]
    words, least = entries(data, 0, len(data), OWN), 0
    first = ends[0] if ends else len(keys)
    if depth_first(axes, keys[:first]):
        if not ends:
            return first, "as that many keys are there: the file ends among them or right behind"
        if counts_fit(axes, keys, words, first):
            return first, "as the keys end there"
    for n in ends:
        if n < least:
            continue
        there = NOT_ZERO.search(data, 8 * n)
        if not there or there.start() >= 12 * n:
            # no count but 0
            least = (there.start() if there else len(data)) // 12 + 1
        elif sums_hold(words, n):
            return n, "as the keys end there"
    raise Refused("%s: its trailer is lost, and where the keys end cannot be seen; give the number of nodes with --nodes, as the "
                  "build of the same survey has it, and look whether --axes %d is right" % (path, axes))


def place_in_order(axes, key):
    """What the keys of a tree ascend by: the first cell of the deepest level in it, then the level."""
    return code_of(key) << axes * (DEEPEST - level_of(key)), level_of(key)


def depth_first(axes, keys):
    """Whether keys are all those of a tree up to some node: from the root on, each in a cell that stands on the way to the one
    before it, and behind that."""
    if not keys or keys[0] or not all(is_valid(axes, key) for key in keys):
        return False
    for before, key in zip(keys, keys[1:]):
        up, above = level_of(before) - level_of(key) + 1, code_of(key) >> axes
        if up < 0 or code_of(before) >> axes * up != above or place_in_order(axes, before) >= place_in_order(axes, key):
            return False
    return True


def counts_fit(axes, keys, words, nodes):
    """Whether counts follow on so many keys, which are those of a tree, in a file that ends before a begin could say more: the
    first that is not 0 is the first leaf's, a node with children has 0, and no key that would go on stands there."""
    inner = [level_of(keys[n + 1]) > level_of(keys[n]) for n in range(nodes - 1)] + [False]
    leaf, own = inner.index(False), words[2 * nodes:3 * nodes]
    if len(words) > 3 * nodes + leaf + 1 or any(words[3 * nodes:]):
        return False
    last = place_in_order(axes, keys[nodes - 1])
    return (next((n for n, count in enumerate(own) if count), None) == leaf and sum(own) <= MOST_SOURCES
            and not any(count and above for count, above in zip(own, inner))
            and not any(is_valid(axes, key) and place_in_order(axes, key) > last for key in keys[nodes:]))


def sums_hold(words, nodes):
    """Whether, behind so many keys, each begin is the sum of the counts before it, as far as the file goes, and one of these
    sums, or the root's total behind them, is not 0."""
    own, begin, total = 2 * nodes, 3 * nodes, 4 * nodes
    there = min(nodes, len(words) - begin)
    if there < 2 or words[begin] or any(words[begin + i] + words[own + i] != words[begin + i + 1] for i in range(there - 1)):
        return False
    return any(words[begin:begin + there]) or len(words) > total and 0 < words[total] == words[begin - 1] + words[total - 1]


def misgivings(axes, found, told, faults):
    """Tells of columns that are none of a tree with the axes and the nodes that were given."""
    keys, wrong, last = found[KEYS], 0, (0, 0)
    for key in keys:
        if key and is_valid(axes, key):
            last, before = place_in_order(axes, key), last
            wrong += last <= before
        else:
            wrong += key != 0
    if wrong:
        told.append("the keys are not in order for %s, as %d of %d are out of place or not valid: is --axes right, or are they "
                    "damaged?" % (axes_text(axes), wrong, len(keys)))
        faults.append("the keys are not in order")
    if not running_sums(found):
        told.append("the begins are no running sums of the own counts: is the number of nodes right, or are they damaged?")
        faults.append("the begins are no running sums")


# How many sources


def running_sums(found):
    """Whether each begin that is there is the sum of the counts before it."""
    return all(begin == right for begin, right in zip(found[BEGINS], accumulate(found[OWN], initial=0)))


def said_numbers(found):
    """How many sources there were, by the root's total, and by the last row, as far as they are there."""
    rows, said = len(found[KEYS]), {}
    if found[TOTALS]:
        said["the root's total"] = int(found[TOTALS][0])
    if rows and min(len(found[OWN]), len(found[BEGINS])) >= rows:
        said["the last row's begin and count"] = int(found[BEGINS][rows - 1] + found[OWN][rows - 1])
    return said


def arranged(data, nodes, found):
    """Where total and last row differ: the one of them below which the order column holds each number once, if there is one."""
    numbers = set(said_numbers(found).values())
    for number in sorted(numbers, reverse=True) if len(numbers) > 1 else ():
        order = entries(data, 20 * nodes, 20 * nodes + 4 * min(number, MOST_SOURCES), ORDER)
        if 0 < number == len(order) and sorted(order) == list(range(number)):
            return "the order column, which holds each number below it once,", number
    return None


def number_of_sources(found, order, told, faults):
    """How many sources the file had: what the root's total, the last row and the order column say, or most of them; else the
    last row if all begins are sums. None if that cannot be seen. Where they differ it is told."""
    said = said_numbers(found)
    last = said.get("the last row's begin and count") if running_sums(found) else None
    said.update([order] if order else [])
    counted = Counter(said.values()).most_common(1)
    if len(set(said.values())) < 2:
        return counted[0][0] if counted else None
    number = counted[0][0] if counted[0][1] > 1 else last
    told.append("how many sources the file had: %s; %s" % (
        ", ".join("%s %s %d" % (what, "says" if "total" in what else "say" if "count" in what else "has", one)
                  for what, one in said.items()),
        "which is right cannot be seen" if number is None else "%d is taken" % number))
    faults.append("they differ in the number of sources")
    return number


# What is told


def made(axes, found, had, told, faults, why):
    """The columns of sections: as many rows as there are keys. A row that lacks its count or its begin gets the count 0."""
    rows, before = len(found[KEYS]), len(told)
    columns = {}
    for code in (OWN, BEGINS):
        there = found[code][:rows]
        if len(there) < rows:
            told.append("%d of %d %s are there, as %s: the other rows get the count 0" % (len(there), rows, NAMES[code], why))
        columns[code] = there + array.array("Q", [0]) * (rows - len(there))
    whole = min(len(found[OWN]), len(found[BEGINS]), rows)
    for row in range(whole, rows):
        columns[OWN][row] = columns[BEGINS][row] = 0
    order = found[ORDER]
    if had is not None and len(order) < had:
        told.append("%d of %d %s are there, as %s" % (len(order), had, NAMES[ORDER], why))
    if len(told) > before:
        faults.append("they end early")
    told.append("read: %s and %d entr%s of the order column" % (some(rows, "row"), len(order), "y" if len(order) == 1 else "ies"))
    return Columns(axes, found[KEYS], columns[OWN], columns[BEGINS], order, had, told, faults)


def place(axes, key):
    """Where a cell is, in a few words, if its key is valid."""
    level, code = key % 32768, key // 32768
    if level > DEEPEST or code >> axes * level:
        return ""
    anchors = [sum((code >> axes * i + a & 1) << i for i in range(level)) for a in range(axes)]
    return " [level %d, cell %s]" % (level, ",".join(map(str, anchors)))
