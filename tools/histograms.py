"""The page of histograms that inspect writes: leaves by level, readings of a leaf, sizes of rows, near work."""

import math
import os
import statistics

from page import NEAR, box, words

WIDTH, HEIGHT, GAP, LEFT, TOP, APART = 330, 190, 70, 70, 122, 116
# the most bars of a histogram, and the height of the lowest, so that few of many are seen
MOST_BARS, LEAST = 24, 1.5
FAR, PLAIN, EMPTY = "#2b6cb0", "#5f6b76", "#c9d2da"


def page(inspection):
    """The picture, as parts of text."""
    panels = [
        by_level(inspection),
        histogram("Readings in a leaf", "readings", "leaves", [inspection.own[leaf] for leaf in inspection.leaves], PLAIN),
        histogram("Readings in the U row of a leaf", "readings", "leaves", list(inspection.near_readings.values()), NEAR),
        histogram("Keys in the U row of a leaf (near)", "keys", "leaves", inspection.near_sizes, NEAR),
        histogram("Keys in the V row of a node (far)", "keys", "nodes", inspection.far_sizes, FAR),
        histogram("Near work of a leaf", "near work", "leaves", list(inspection.work.values()), NEAR)]
    width, height = 3 * (WIDTH + GAP) + LEFT - 20, 2 * (HEIGHT + APART) + TOP - 50
    yield ('<svg xmlns="http://www.w3.org/2000/svg" width="%d" height="%d" viewBox="0 0 %d %d" '
           'font-family="DejaVu Sans, Verdana, sans-serif">\n' % (width, height, width, height))
    yield box((0, 0, width, height), fill="#ffffff") + "\n"
    yield "\n".join(head(inspection)) + "\n"
    for i, panel in enumerate(panels):
        yield "\n".join(panel(LEFT + i % 3 * (WIDTH + GAP), TOP + i // 3 * (HEIGHT + APART))) + "\n"
    yield "</svg>\n"


def head(inspection):
    once = "each leaf meets each reading exactly once"
    if inspection.at_fault:
        once = "%d leaves do NOT meet each reading exactly once" % len(inspection.at_fault)
    figures = "%d readings, %d nodes, depth %d, %d leaves, near work %d; %s" % (
        inspection.readings, len(inspection.key), inspection.depth, len(inspection.leaves), inspection.near_work, once)
    return [words(LEFT, 34, "Tree and lists of %s" % os.path.basename(inspection.name), 19, font_weight="bold"),
            words(LEFT, 58, figures)]


def by_level(inspection):
    """Leaves by level, those without readings lighter on top."""
    found = list(inspection.by_level())
    counts = {level: (leaves, owners) for level, leaves, owners, _, _ in found}
    levels = [(level, *counts.get(level, (0, 0))) for level in range(min(counts), max(counts) + 1)] if counts else []
    bars = [(str(level), [(owners, PLAIN), (leaves - owners, EMPTY)]) for level, leaves, owners in levels]
    empty = sum(leaves - owners for _, leaves, owners, _, _ in found)
    note = "lighter: %d without readings" % empty if empty else ""
    return lambda x, y: panel(x, y, "Leaves by level", "level", "leaves", bars, note)


def histogram(title, across, up, numbers, colour):
    """How many of some whole numbers lie in each of at most so many ranges of one width."""
    if not numbers:
        return lambda x, y: panel(x, y, title, across, up, [], "none")
    low, high = min(numbers), max(numbers)
    step = step_of((high - low + 1) / MOST_BARS)
    first = low // step * step
    counts = [0] * ((high - first) // step + 1)
    for number in numbers:
        counts[(number - first) // step] += 1
    names = [short(first + i * step) for i in range(len(counts))]
    bars = [(name, [(count, colour)]) for name, count in zip(names, counts)]
    note = "least %s, median %s, most %s" % (short(low), short(int(statistics.median_low(numbers))), short(high))
    ranges = across if step == 1 else "%s (from the number named on, %s a bar)" % (across, short(step))
    return lambda x, y: panel(x, y, title, ranges, up, bars, note)


def step_of(least):
    """The least of 1, 2, 5, 10, 20 .. that is no less."""
    step = 10 ** max(0, math.floor(math.log10(max(1, least))))
    return next(step * part for part in (1, 2, 5, 10, 20) if step * part >= least)


def short(number):
    """A whole number in few letters: those past a million with their thousands or millions."""
    for size, letter in ((10 ** 12, "T"), (10 ** 9, "G"), (10 ** 6, "M")):
        if number >= size:
            return ("%.2f" % (number / size)).rstrip("0").rstrip(".") + letter
    return str(number)


def panel(x, y, title, across, up, bars, note):
    """One histogram: bars of stacked parts, each with its name under it where there is room."""
    most = max([sum(count for count, _ in parts) for _, parts in bars] + [1])
    shapes = [words(x, y - 26, title, 14, font_weight="bold"), words(x, y - 9, note, 11, fill="#555555")]
    step = step_of(most / 4)
    for tick in range(0, most + 1, step):
        level = y + HEIGHT - HEIGHT * tick / most
        shapes += [box((x, level - 0.5, WIDTH, 1), fill="#e3e3e3"), words(x - 6, level + 4, short(tick), 11, text_anchor="end")]
    width = WIDTH / max(1, len(bars))
    every = math.ceil(len(bars) * (7 * max([len(name) for name, _ in bars] + [1]) + 8) / WIDTH) if bars else 1
    for i, (name, parts) in enumerate(bars):
        left, bottom = x + i * width, y + HEIGHT
        for count, colour in parts:
            tall = max(LEAST, HEIGHT * count / most) if count else 0
            bottom -= tall
            if count:
                shapes.append(box((left + 0.08 * width, bottom, 0.84 * width, tall), fill=colour,
                                  hint="%s %s: %d %s" % (across.split(" (")[0], name, count, up)))
        if i % every == 0:
            shapes.append(words(left + width / 2, y + HEIGHT + 16, name, 11, text_anchor="middle"))
    shapes.append(box((x, y + HEIGHT - 0.5, WIDTH, 1), fill="#333333"))
    shapes.append(words(x + WIDTH / 2, y + HEIGHT + 36, "%s across, %s up" % (across, up), 11, text_anchor="middle",
                        fill="#555555"))
    return shapes
