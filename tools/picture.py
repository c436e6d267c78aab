"""The picture that draw writes: a survey's cells and readings as one leaf sees them, or those in one cell, and the legend."""

import os
from collections import Counter

import survey_file as house
from grid_points import Grid
from page import (ADDED, CHOSEN, HATCH, LEFT, LEGEND, LINE, MARK, NEAR, PAGE_WIDTH, PLAIN, PLOT, ROW, TOP, UNSTORED, across_tick,
                  along, box, far_colour, frame, ink_on, line_width, mark, mark_radii, sample_frame, sample_mark, swatch, tag,
                  ticks, up_tick, words)


class Picture:
    """A survey and its listing, seen from one leaf, with one cell chosen, or neither."""

    def __init__(self, names, survey, listing, leaf, view, cell=None):
        self.names, self.survey, self.listing, self.leaf, self.view = names, survey, listing, leaf, view
        self.cell = cell
        # the V rows that are not empty, the leaf's own first
        self.far = [(level, row) for level, row in listing.rows_of(leaf)[1:] if row] if leaf else []
        self.colours = {level: far_colour(i, len(self.far)) for i, (level, _) in enumerate(self.far)}
        self.kinds = [self.kind(key) for key in listing.source_keys]
        self.marks = Counter(self.kinds)
        self.shown = [i for i, key in enumerate(listing.source_keys) if view.rect(listing.leaf_at(key).key)]
        self.spots = [view.spot(survey.sources[i]) for i in self.shown]
        self.radii = mark_radii(self.spots)
        self.targets = [row for row in survey.targets if names.targets and self.cuts(row)]

    def kind(self, source_key):
        """How the chosen leaf meets a source: once in U, once in V, or wrongly; or whether the chosen cell holds it."""
        if self.cell:
            return "inside" if self.in_cell(source_key) else "other"
        if not self.leaf:
            return "single"
        around = set(house.ancestors(self.listing.axes, source_key))
        near = sum(key in around for key in self.leaf.near)
        far = sum(key in around for _, row in self.far for key in row)
        return {(1, 0): "single", (0, 1): "grouped"}.get((near, far), "fault")

    def in_cell(self, key):
        """Whether a cell is the chosen one or lies in it."""
        return self.cell is not None and self.cell.key in house.ancestors(self.listing.axes, key)

    def text(self):
        legend, legend_height = self.legend()
        height = TOP + max(self.view.height + 62, legend_height + 20)
        body = self.head() + self.axes() + self.cells() + self.listed_cells() + self.chosen() + self.points()
        body += self.grid() + legend
        return ('<svg xmlns="http://www.w3.org/2000/svg" width="%d" height="%d" viewBox="0 0 %d %d" '
                'font-family="DejaVu Sans, Verdana, sans-serif">\n' % (PAGE_WIDTH, height, PAGE_WIDTH, height)
                + HATCH + box((0, 0, PAGE_WIDTH, height), fill="#ffffff") + "\n" + "\n".join(body) + "\n</svg>\n")

    def head(self):
        if self.leaf:
            title = "What leaf %d sums singly, and what in groups" % self.leaf.number
        elif self.cell:
            title = "The readings in cell %d" % self.cell.key
        else:
            title = "Cells and readings" if self.listing.before is None else "Cells and readings, balanced"
        figures = "%s: axes %d, nodes %d, depth %d, readings %d, near work %d" % (
            os.path.basename(self.names.survey), self.listing.axes, len(self.listing.nodes), self.listing.depth,
            len(self.survey.sources), self.listing.near_work)
        return [words(LEFT, 34, title, 19, font_weight="bold"), words(LEFT, 58, figures)]

    def axes(self):
        view, bottom, shapes = self.view, TOP + self.view.height, []
        for axis, is_across in zip(view.axes, (True, False)):
            middle, radius = self.survey.centre[axis], self.survey.radius
            for coordinate, text in ticks(middle - radius, middle + radius):
                place = PLOT * along(self.survey, axis, coordinate)
                shapes += across_tick(place, bottom, text) if is_across else up_tick(place, text)
        shapes.append(words(LEFT + PLOT / 2, bottom + 44, house.AXIS_NAMES[view.axes[0]], text_anchor="middle"))
        if len(view.axes) == 2:
            shapes.append(words(12, TOP + PLOT / 2, house.AXIS_NAMES[view.axes[1]], text_anchor="middle"))
        else:
            shapes += [words(LEFT - 12, TOP + ROW * level + 24, "level %d" % level, 12, text_anchor="end")
                       for level in range(view.depth + 1)]
        return shapes

    def cells(self):
        """The ground, and every cell of the view: in plain white, or coloured if it lies in the chosen cell or came by the
        balancing."""
        shapes = [box((LEFT, TOP, PLOT, self.view.ground), class_="ground", fill=UNSTORED)]
        for node in self.listing.nodes:
            rect = self.view.rect(node.key) if self.view.shows(node) else None
            if rect:
                hint = "node %d, key %d, level %d: %s" % (
                    node.number, node.key, house.level_of(node.key), some(self.listing.held[node.key], "reading"))
                kind, fill = ("inner", CHOSEN) if self.in_cell(node.key) else self.plain(node)
                shapes.append(box(rect, class_=kind, fill=fill, stroke=LINE, stroke_width=line_width(rect, 0.8), hint=hint))
        return shapes

    def plain(self, node):
        """A cell's kind and colour where nothing is chosen."""
        return ("added", ADDED) if self.is_added(node) else ("cell", PLAIN)

    def is_added(self, node):
        """Whether the balancing has brought a cell."""
        return self.listing.before is not None and node.key not in self.listing.before

    def listed_cells(self):
        """The cells of the rows, coloured, with the name of the row where there is room, and the leaves in them."""
        shapes = []
        for level, row in self.far:
            for key in row:
                shapes += self.listed("far", key, "V%d" % level, self.colours[level])
        for key in self.leaf.near if self.leaf else []:
            shapes += self.listed("near", key, "U", NEAR)
        inside = [self.view.rect(node.key) for node in self.listing.nodes if self.view.shows(node) and self.far]
        return shapes + [box(rect, fill="none", stroke="#333333", stroke_width=line_width(rect, 0.4))
                         for rect in inside if rect]

    def listed(self, kind, key, name, colour):
        rect = self.view.rect(key)
        if not rect:
            return []
        node = self.listing.by_key[key]
        hint = "%s: node %d, key %d, level %d: %s" % (
            name, node.number, key, house.level_of(key), some(self.listing.held[key], "reading"))
        shape = box(rect, class_=kind, data_key=key, fill=colour, stroke="#333333", stroke_width=line_width(rect, 1.2),
                    hint=hint)
        return [shape] + self.name_in(rect, name, ink_on(colour))

    def name_in(self, rect, name, ink):
        """A name in the first corner of a cell that is free of readings, if there is one."""
        x, y, width, height = rect
        if width < 30 or height < 20:
            return []
        for left in (x + 4, x + width - 24):
            for base in (y + 13, y + height - 5):
                if not any(left - 5 < sx < left + 25 and base - 16 < sy < base + 8 for sx, sy in self.spots):
                    return [words(left, base, name, 11, fill=ink)]
        return []

    def chosen(self):
        """The chosen leaf, or the outline of the chosen cell, in which the cells are coloured already."""
        chosen = self.leaf or self.cell
        rect = self.view.rect(chosen.key) if chosen else None
        if not rect:
            return []
        what, fill = ("leaf", CHOSEN) if self.leaf else ("cell", "none")
        shapes = [box(rect, class_="chosen", fill=fill, stroke="#000000", stroke_width=2 * line_width(rect, 1.75),
                      hint="the chosen %s, node %d, key %d" % (what, chosen.number, chosen.key))]
        return shapes + self.ring(rect)

    def ring(self, rect):
        """A ring around a chosen leaf or cell that is too small to be seen."""
        x, y, width, height = rect
        if max(width, height) >= 10:
            return []
        middle = {"cx": x + width / 2, "cy": y + height / 2}
        return [tag("circle", **middle, r=13, fill="none", stroke="#000000", stroke_width=3.5)]

    def points(self):
        """The marks, those in groups or outside the chosen cell first, so that none of them covers a reading that is
        summed singly or wrongly, or lies in the cell."""
        shapes = self.view.strip() + [mark("target", self.view.spot(row)) for row in self.targets]
        placed = list(zip(self.shown, self.spots, self.radii))
        for kind in ("grouped", "other", "single", "inside", "fault"):
            for i, spot, radius in placed:
                if self.kinds[i] == kind:
                    hint = "source %d: %s" % (i, ", ".join("%r" % x for x in self.survey.sources[i]))
                    shapes.append(mark(kind, spot, radius, hint=hint))
        return shapes

    def cuts(self, row):
        """Whether a target lies in a leaf of the view."""
        key = house.point_key(self.survey.centre, self.survey.radius, row)
        leaf = self.listing.leaf_at(key) if key is not None else None
        return leaf is not None and self.view.rect(leaf.key) is not None

    def grid(self):
        """The outline of a grid of targets, from its first point to its last."""
        if not isinstance(self.survey.targets, Grid):
            return []
        (left, bottom), (right, top) = [self.view.spot(corner) for corner in self.survey.targets.corners()]
        return [frame(left, top, right, bottom, class_="grid", hint="the grid: %s" % self.survey.targets.text())]

    # The legend: entries of a sample and lines of text

    def legend(self):
        """The legend's shapes and its height."""
        shapes, y = [], TOP + 14
        for sample, lines in self.entries():
            shapes += [sample((LEGEND + 14, y - 4))] if sample else []
            shapes += [words(LEGEND + (36 if sample else 0), y + 17 * i, line) for i, line in enumerate(lines)]
            y += 17 * len(lines) + 11
        return shapes, y - TOP

    def entries(self):
        return self.slice_entry() + self.chosen_entry() + self.row_entries() + self.ground_entries() + self.mark_entries()

    def slice_entry(self):
        if self.view.cut_axis is None:
            return []
        through = ", through source %d" % self.view.source if self.view.source is not None else ""
        return [(None, ["Slice at %s = %r%s:" % (house.AXIS_NAMES[self.view.cut_axis], self.view.cut, through),
                        "the cells that it cuts, and the readings", "in the leaves among them"])]

    def chosen_entry(self):
        chosen, what = (self.leaf, "leaf") if self.leaf else (self.cell, "cell")
        if not chosen:
            return []
        rect = self.view.rect(chosen.key)
        where = ["not cut by this slice"] if not rect else ["in the ring"] if self.ring(rect) else []
        return [(swatch(CHOSEN, 3.5), [
            "chosen %s: node %d, level %d," % (what, chosen.number, house.level_of(chosen.key)),
            "key %d, %s" % (chosen.key, some(self.listing.held[chosen.key], "reading"))] + where)]

    def row_entries(self):
        if not self.leaf:
            return []
        level = house.level_of(self.leaf.key)
        entries = [(swatch(NEAR), ["U: " + self.cells_text(self.leaf.near),
                                   self.readings_text(self.leaf.near, "summed singly")])]
        for row_level, row in self.far:
            whose = "of the leaf" if row_level == level else "of its ancestor"
            entries.append((swatch(self.colours[row_level]), [
                "V%d, %s: %s" % (row_level, whose, self.cells_text(row)), self.readings_text(row, "in groups")]))
        return entries if self.far else entries + [(None, ["V of the leaf and its ancestors: no cells"])]

    def cells_text(self, row):
        return some(len(row), "cell") + self.in_slice(sum(self.view.rect(key) is not None for key in row)) + ","

    def readings_text(self, row, how):
        return "%s %s" % (some(sum(self.listing.held[key] for key in row), "reading"), how)

    def ground_entries(self):
        shown = [node for node in self.listing.nodes if self.view.shows(node) and self.view.rect(node.key)]
        listed = {key for _, row in self.far for key in row}
        listed |= set(self.leaf.near + [self.leaf.key] if self.leaf else [])
        listed |= {self.cell.key} if self.cell else set()
        plain = "cell in none of these lists" if self.leaf else "other cell" if self.cell else "cell"
        entries = []
        free = [node for node in shown if listed.isdisjoint(house.ancestors(self.listing.axes, node.key))]
        if not all(map(self.is_added, free)):
            entries.append((swatch(PLAIN), [plain]))
        if any(map(self.is_added, free)):
            before = "before: %s in all" % some(len(self.listing.before), "node")
            entries.append((swatch(ADDED), ["cell that the balancing has added", before]))
        covered = sum(width * height for _, _, width, height in (self.view.rect(node.key) for node in shown))
        if covered < PLOT * self.view.ground * (1 - 1e-9):
            entries.append((swatch(UNSTORED), ["no cell stored"]))
        return entries

    def mark_entries(self):
        names = {"single": "reading summed singly" if self.leaf else "reading", "grouped": "reading in a group",
                 "inside": "reading in the cell", "other": "other reading",
                 "fault": "reading in no list or in several: FAULT"}
        here = Counter(self.kinds[i] for i in self.shown)
        entries = [(sample_mark(kind), ["%s: %d%s" % (name, self.marks[kind], self.in_slice(here[kind]))])
                   for kind, name in names.items() if self.marks[kind]]
        if any(radius < 0.9 * MARK for radius in self.radii):
            entries.append((None, ["(marks are smaller where readings are dense)"]))
        if isinstance(self.survey.targets, Grid):
            shape = " by ".join(map(str, self.survey.targets.shape))
            entries.append((sample_frame, ["grid of %s, %s" % (some(len(self.survey.targets), "target"), shape)]))
        if self.names.targets:
            entries.append((sample_mark("target"), ["target in a leaf drawn here: %d" % len(self.targets)]))
        return entries

    def in_slice(self, count):
        return " (%d in the slice)" % count if self.view.cut_axis is not None else ""


def some(count, name):
    return "%d %s%s" % (count, name, "" if count == 1 else "s")
