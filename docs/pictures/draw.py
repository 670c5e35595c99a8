"""Draws the pictures from what numbers.c prints.

draw.py TREE PACKING NOISE FOLDER writes FOLDER/lookup-tree.svg, FOLDER/vertical-packing.svg and FOLDER/noise.svg.
"""
import math
import pathlib
import sys
from html import escape

PATH, PALE, LIMIT, OWN, TEXT, SOFT = "#0b5cad", "#e3eefa", "#b3261e", "#1a7f37", "#1f2328", "#6b737c"


class Walk:
    """The parameters, and what is reported at every level of the named entry's path, and at every rotation after it.

    The declared weight is N. The levels are also reported with the weight of the key that is used.
    """

    def __init__(self, text):
        lines = [line.split() for line in text.splitlines()]
        rows = {kind: [[int(word) for word in words[1:]] for words in lines if words[0] == kind]
                for kind in ("parameters", "weight", "amplitude", "entry", "level", "own", "rotated", "step", "vertical")}
        self.N, self.g, self.L, self.M, self.s, self.d, self.r, self.entry = rows["parameters"][0]
        self.weight = rows["weight"][0][0]
        self.amplitudes = [row[1] for row in rows["amplitude"]]
        self.entries = [row[1:] for row in rows["entry"]]
        self.levels, self.own = ([Level(*row[1:4], *row[4:5], classes=row[5:]) for row in rows[kind]] for kind in ("level", "own"))
        self.rotated = [row[1:] for row in rows["rotated"]]
        self.steps = [Level(0, *row[1:4], classes=row[4:]) for row in rows["step"]]
        self.vertical = [Level(0, *row[:2], classes=row[2:]) for row in rows["vertical"]]
        self.limit = 2**31 // self.M

    def charge(self, amplitude, weight):
        """The two parts of a charge: that of the block's noise, and that of rounding."""
        precision = self.g * self.L
        rounding = 2 ** (31 - precision) if precision < 32 else 0
        return 2 * self.L * self.N * 2 ** (self.g - 1) * amplitude, (1 + weight) * rounding

    def charges(self, selectors, weight):
        return sum(sum(self.charge(self.amplitudes[i], weight)) for i in selectors)

    def classes(self, places):
        """The classes of entries with their signs: a changed sign makes class c to -c modulo M."""
        return [sign * value % self.M for sign, h in places for value in self.entries[h]]

    def places(self, sample, q=0):
        """The entries in the coefficients of a sample of the table times X^(-q), each with its sign."""
        count = 2**self.r
        turned = [(i + q) % count for i in range(count)]
        return [(1 if place >= q else -1, count * sample + place) for place in turned]

    def check(self):
        """Stops where the numbers aren't what the pictures say of them."""
        require(len(set(self.amplitudes)) == 1, "the amplitudes differ, and the pictures show one")
        for levels, weight in (self.levels, self.N), (self.own, self.weight):
            require(len(levels) == self.d - self.r + 1, "a level is missing")
            for i, level in enumerate(levels):
                self.check_level(i, level, weight)
        for level, own in zip(self.levels, self.own):
            same = (level.gates, level.distance, level.classes) == (own.gates, own.distance, own.classes)
            require(level.answer != 0 or same, "a sample goes by the declared weight")
        require(self.r == 0 or 2**self.r == self.N, "a coefficient has no entry, and the pictures show one in each")
        require(len(self.rotated) == len(self.steps) == self.r, "a rotation is missing")
        for i, step in enumerate(self.steps):
            self.check_step(i, step)
        if self.r > 0:
            self.check_vertical(self.vertical[0], self.steps[-1])

    def check_level(self, i, level, weight):
        bound, accepted = self.charges(range(self.r, self.r + i), weight), level.answer == 0
        require(level.bound == bound, f"the bound of level {i} isn't the sum of its charges")
        require(level.answer == (0 if bound < self.limit else 9), f"the answer of level {i} doesn't go by the limit")
        require(level.gates == (2**i - 1 if accepted else 0), f"level {i} has other gates")
        require(not accepted or level.distance <= bound, f"level {i} is farther off than its bound")
        classes = self.classes(self.places(self.entry >> self.r))
        require(not accepted or level.classes == classes, f"level {i} isn't the sample of the named entry")

    def check_step(self, i, step):
        sample, before, after = self.entry >> self.r, self.entry % 2**i, self.entry % 2 ** (i + 1)
        root = self.levels[-1]
        require(step.bound == root.bound + self.charges(range(i + 1), self.N), f"the bound of step {i} isn't the sum of its charges")
        require(step.gates == root.gates + i + 1, f"step {i} has other gates")
        require(step.distance <= step.bound, f"step {i} is farther off than its bound")
        require(self.rotated[i] == self.classes(self.places(sample, before + 2**i)), f"step {i} has another rotated sample")
        require(step.classes == self.classes(self.places(sample, after)), f"step {i} isn't rotated by the bits so far")

    def check_vertical(self, whole, last):
        require((whole.bound, whole.gates) == (last.bound, last.gates), "the whole lookup reports other numbers than its steps")
        require(whole.classes == self.entries[self.entry], "the whole lookup isn't the named entry")


def require(true, otherwise):
    if not true:
        sys.exit(f"draw.py: {otherwise}")


class Level:
    """What one lookup reports; a refused one has no distance and no classes."""

    def __init__(self, answer, bound, gates, distance=None, classes=()):
        self.answer, self.bound, self.gates, self.distance, self.classes = answer, bound, gates, distance, classes


class Picture:
    """An SVG file of a given size: white, with a title and a description."""

    def __init__(self, width, height, title, description):
        self.parts = [
            f'<svg xmlns="http://www.w3.org/2000/svg" viewBox="0 0 {width} {height}" width="{width}" height="{height}" '
            f'role="img" aria-labelledby="title description" font-family="system-ui, sans-serif" font-size="12" fill="{TEXT}">',
            f'<title id="title">{escape(title)}</title>',
            f'<desc id="description">{escape(description)}</desc>',
        ]
        self.rectangle(0, 0, width, height, fill="#ffffff")
        self.text(24, 32, title, font_size=17, font_weight="bold")

    def add(self, name, content=None, **attributes):
        written = "".join(f' {key.replace("_", "-")}="{number(value)}"' for key, value in attributes.items())
        self.parts.append(f"<{name}{written}/>" if content is None else f"<{name}{written}>{escape(content)}</{name}>")

    def text(self, x, y, content, **attributes):
        self.add("text", content, x=x, y=y, **attributes)

    def lines(self, x, y, step, contents, **attributes):
        for i, content in enumerate(contents):
            self.text(x, y + step * i, content, **attributes)

    def rectangle(self, x, y, width, height, **attributes):
        self.add("rect", x=x, y=y, width=width, height=height, **attributes)

    def line(self, x1, y1, x2, y2, **attributes):
        self.add("line", x1=x1, y1=y1, x2=x2, y2=y2, **attributes)

    def selector(self, y, i, bit, *further):
        """What is said of a selector, in the margin."""
        self.text(24, y - 3, f"selector {i}", font_weight="bold")
        self.lines(24, y + 13, 16, [f"holds bit {bit}", *further], fill=PATH)

    def edge(self, start, end, bit, bold, part=0.42):
        """From a gate's input to what the gate makes, with the bit that picks this input at a part of the way."""
        (x1, y1), (x2, y2) = start, end
        self.line(x1, y1, x2, y2, stroke=PATH if bold else "#aab2bb", stroke_width=4 if bold else 1.5)
        x, y = x1 + (x2 - x1) * part, y1 + (y2 - y1) * part
        self.add("circle", cx=x, cy=y, r=9, fill="#ffffff")
        self.text(x, y + 4, str(bit), text_anchor="middle", font_weight="bold" if bold else "normal", fill=PATH if bold else SOFT)

    def box(self, x, y, width, height, bold):
        self.rectangle(x, y, width, height, rx=6, fill=PALE if bold else "#ffffff", stroke=PATH if bold else "#aab2bb",
                       stroke_width=2.5 if bold else 1)

    def write(self, path):
        path.write_text("\n".join(self.parts) + "\n</svg>\n", encoding="utf-8")


def number(value):
    """Whole numbers as they are, others with at most two decimals."""
    return f"{value:.2f}".rstrip("0").rstrip(".") if isinstance(value, float) else value


def listed(numbers):
    return ", ".join(map(str, numbers))


def parameters(walk):
    return f"N = {walk.N}, g = {walk.g}, L = {walk.L}, M = {walk.M}, A = {walk.amplitudes[0]}"


class Tree:
    """lookup-tree.svg: entries at the bottom, a row of gates for each selector."""

    WIDTH, HEIGHT, LEFT, STEP, BOTTOM, RISE = 800, 500, 190, 80, 434, 108

    def __init__(self, walk):
        self.walk = walk
        bits = [walk.entry >> i & 1 for i in range(walk.d)]
        self.picture = Picture(
            self.WIDTH, self.HEIGHT, f"A lookup with {walk.d} selectors: {2**walk.d} entries, {walk.levels[-1].gates} gates",
            f"A binary tree over {2**walk.d} entries. Selector i joins pairs of nodes of level i. The path of entry {walk.entry} "
            "to the root is in bold, with the bound and the gates that the lookup reports at each of its nodes.")
        self.picture.text(24, 54, f"The bits {listed(bits)} of selectors 0 to {walk.d - 1} name entry {walk.entry}. "
                          f"Below an entry's number are its classes. {parameters(walk)}.", fill=SOFT)
        for level in range(walk.d):
            self.selector(level, bits[level])
        for level in range(walk.d + 1):
            for node in range(2 ** (walk.d - level)):
                self.node(level, node)

    def centre(self, level, node):
        return self.LEFT + self.STEP * (2**level * (2 * node + 1) - 1) / 2, self.BOTTOM - self.RISE * level

    def on_path(self, level, node):
        return self.walk.entry >> level == node

    def selector(self, level, bit):
        """The edges from one level to the next, and what is said of the selector that joins there."""
        self.picture.selector(self.BOTTOM - self.RISE * (level + 0.5), level, bit)
        for node in range(2 ** (self.walk.d - level)):
            self.picture.edge(self.centre(level, node), self.centre(level + 1, node // 2), node % 2, self.on_path(level, node))

    def node(self, level, node):
        x, y = self.centre(level, node)
        bold = self.on_path(level, node)
        labels = self.labels(level, node, bold)
        width, height = (70 if level == 0 else 128), 10 + 15 * len(labels)
        top = y - height / 2 if level > 0 else y - 20
        self.picture.box(x - width / 2, top, width, height, bold)
        for i, label in enumerate(labels):
            self.picture.text(x, top + 17 + 15 * i, label, text_anchor="middle",
                              font_weight="bold" if bold and i == 0 else "normal", fill=TEXT if bold else SOFT)

    def labels(self, level, node, bold):
        reported = self.walk.levels[level]
        report = [f"bound {reported.bound:,}", f"gates {reported.gates}"]
        if level == 0:
            return [f"entry {node}", listed(self.walk.entries[node])] + (report if bold else [])
        covered = [f"entries {node << level}–{((node + 1) << level) - 1}"]
        decrypted = [f"decrypts to {listed(reported.classes)}"] if level == self.walk.d else []
        return covered + (report + decrypted if bold else [])


class Packing:
    """vertical-packing.svg: the table's samples at the bottom, a row of gates for each selector of the tree, then rotations."""

    WIDTH, HEIGHT, LEFT, STEP, TOP, RISE, ASIDE = 800, 716, 210, 166, 98, 128, 220
    # A box, and its height with coefficients and what is reported, with coefficients alone, and with its title alone.
    CELL, BOX, REPORTED, UNREPORTED, BARE = 36, 156, 94, 76, 25

    def __init__(self, walk):
        self.walk, self.tree, self.sample = walk, walk.d - walk.r, walk.entry >> walk.r
        self.picture = Picture(
            self.WIDTH, self.HEIGHT,
            f"A lookup in the vertical packing: {2**walk.d} entries in {2**self.tree} samples, {walk.vertical[0].gates} gates",
            f"{2**self.tree} samples with {walk.N} entries each. Selectors {walk.r} to {walk.d - 1} pick a sample by a tree of "
            f"gates, and selectors 0 to {walk.r - 1} rotate it. The path of entry {walk.entry} is in bold, from its sample to "
            "coefficient 0 of the result, with the bound and the gates so far.")
        self.introduction()
        for level in range(self.tree):
            self.joins(level)
        for step in range(walk.r):
            self.rotates(step)
        for level in range(self.tree + 1):
            for node in range(2 ** (self.tree - level)):
                self.node(level, node)
        for step in range(walk.r):
            self.step(step)
        self.captions()
        self.result()

    def introduction(self):
        bits = listed(self.bit(i) for i in range(self.walk.d))
        self.picture.lines(24, 54, 18, [
            f"The bits {bits} of selectors 0 to {self.walk.d - 1} name entry {self.walk.entry}. {parameters(self.walk)}.",
            "Times X^(−q), coefficient t takes coefficient t + q. What passes the end comes with its sign changed."], fill=SOFT)

    def bit(self, selector):
        return self.walk.entry >> selector & 1

    def on_path(self, level, node):
        return self.sample >> level == node

    def x(self, level, node):
        return self.LEFT + self.STEP * (2**level * (2 * node + 1) - 1) / 2

    def spine(self):
        """The middle of the tree's root, of what every step makes, and of the result."""
        return self.x(self.tree, 0)

    def top(self, row):
        """Rows are numbered from below: the levels of the tree, then what each step makes."""
        return self.TOP + self.RISE * (self.tree + self.walk.r - row)

    def gap(self, row):
        """The middle of the gap above a row."""
        return self.top(row) - (self.RISE - self.REPORTED) / 2

    def margin(self, row, selector, does):
        self.picture.selector(self.gap(row) - 8, selector, self.bit(selector), does)

    def edge(self, start, end, row, bit, bold):
        """An edge through the gap above a row, with its label there."""
        (_, y1), (_, y2) = start, end
        self.picture.edge(start, end, bit, bold, (y1 - self.gap(row)) / (y1 - y2))

    def joins(self, level):
        """The edges from one level of the tree to the next."""
        self.margin(level, self.walk.r + level, "picks a sample")
        for node in range(2 ** (self.tree - level)):
            start = self.x(level, node), self.ends(level, node)[0]
            end = self.x(level + 1, node // 2), self.ends(level + 1, node // 2)[1]
            self.edge(start, end, level, node % 2, self.on_path(level, node))

    def ends(self, level, node):
        """Where the box of a node begins and ends. Beside the path, above the table, it has its title alone."""
        bare = level > 0 and not self.on_path(level, node)
        inset = (self.REPORTED - self.BARE) / 2 if bare else 0
        return self.top(level) + inset, self.top(level) + self.REPORTED - inset

    def rotates(self, step):
        """The edges from a sample, and from the same one rotated, to what the step makes of them."""
        row, bit = self.tree + step, self.bit(step)
        self.margin(row, step, f"rotates by 0 or {2**step}")
        end = self.spine(), self.top(row + 1) + self.REPORTED
        self.edge((self.spine(), self.top(row)), end, row, 0, bit == 0)
        self.edge((self.spine() + self.ASIDE, self.top(row)), end, row, 1, bit == 1)

    def node(self, level, node):
        x, (y, _) = self.x(level, node), self.ends(level, node)
        title = f"sample {node}" if level == 0 else f"samples {node << level}–{((node + 1) << level) - 1}"
        if self.on_path(level, node):
            self.made(x, y, title, self.walk.levels[level], 0)
        elif level > 0:
            self.box(x, y, self.BARE, title, False)
        else:
            places = self.walk.places(node)
            self.box(x, y, self.UNREPORTED, title, False)
            self.cells(x, y, places, self.walk.classes(places), False)

    def step(self, step):
        """The rotated sample, beside the one that it is made of; and in the next row what the step makes."""
        row, so_far, bit = self.tree + step, self.walk.entry % 2**step, self.bit(step)
        x, y = self.spine() + self.ASIDE, self.top(row)
        self.arrow(self.spine() + self.BOX / 2, x - self.BOX / 2, y + 53, f"·X^(−{2**step})", bit == 1)
        self.box(x, y, self.UNREPORTED, f"rotated by {2**step}", bit == 1)
        self.cells(x, y, self.walk.places(self.sample, so_far + 2**step), self.walk.rotated[step], bit == 1)
        title = f"after step {step}" if step + 1 < self.walk.r else "result"
        self.made(self.spine(), self.top(row + 1), title, self.walk.steps[step], so_far + 2**step * bit)

    def made(self, x, y, title, reported, q):
        """A sample on the path, rotated by q in all, with what is reported of it."""
        self.box(x, y, self.REPORTED, title, True)
        self.cells(x, y, self.walk.places(self.sample, q), reported.classes, True)
        self.picture.text(x, y + 86, f"bound {reported.bound:,}, gates {reported.gates}", text_anchor="middle")

    def box(self, x, y, height, title, bold):
        self.picture.box(x - self.BOX / 2, y, self.BOX, height, bold)
        self.picture.text(x, y + 17, title, text_anchor="middle", font_weight="bold" if bold else "normal",
                          fill=TEXT if bold else SOFT)

    def cells(self, x, y, places, classes, bold):
        """The coefficients of a sample: an entry, with its sign, and the class. The named entry stands out on its path."""
        for i, ((sign, h), value) in enumerate(zip(places, classes)):
            middle, named = x + self.CELL * (i + 0.5 - self.walk.N / 2), bold and h == self.walk.entry
            self.picture.text(middle, y + 31, str(i), text_anchor="middle", font_size=9, fill=SOFT)
            self.picture.rectangle(middle - self.CELL / 2, y + 35, self.CELL, 36, fill=PATH if named else "#ffffff",
                                   stroke="#aab2bb")
            self.picture.lines(middle, y + 50, 15, [f"{h}" if sign > 0 else f"−{h}", f"{value}"], text_anchor="middle",
                               fill="#ffffff" if named else TEXT if bold else SOFT)

    def arrow(self, x1, x2, y, label, bold):
        colour = PATH if bold else SOFT
        self.picture.line(x1, y, x2 - 7, y, stroke=colour, stroke_width=1.5, stroke_dasharray="4 3")
        self.picture.add("polygon", points=f"{number(x2)},{y} {number(x2 - 8)},{y - 4} {number(x2 - 8)},{y + 4}", fill=colour)
        self.picture.text((x1 + x2) / 2, y - 7, label, text_anchor="middle", font_size=11, fill=colour)

    def captions(self):
        """What the lines of a sample are, beside the first one."""
        x, y = self.LEFT - self.BOX / 2 - 8, self.top(0)
        for line, caption in ((31, "coefficient"), (50, "entry"), (65, "class")):
            self.picture.text(x, y + line, caption, text_anchor="end", font_size=11, fill=SOFT)

    def result(self):
        """What is said of the result: its class, and the first coefficient with a changed sign, if there is one."""
        x, y, walk = self.spine() + self.BOX / 2 + 16, self.top(self.tree + self.walk.r) + 17, self.walk
        self.picture.lines(x, y, 16, [f"Coefficient 0 decrypts to class {listed(walk.vertical[0].classes)},",
                                      f"that of entry {walk.entry}."], fill=PATH)
        places = walk.places(self.sample, walk.entry % 2**walk.r)
        changed = [(h, value) for (sign, h), value in zip(places, walk.steps[-1].classes) if sign < 0]
        for h, value in changed[:1]:
            negated = f"−{listed(walk.entries[h])}, which is class {value} modulo {walk.M}."
            self.picture.lines(x, y + 40, 16, [f"Entry {h} comes with its sign changed:", negated], fill=SOFT)


class Noise:
    """noise.svg: bounds and distances over the levels, and the numbers in a table below."""

    WIDTH, HEIGHT, LEFT, STEP, TOP, BOTTOM = 900, 582, 96, 71, 76, 418
    LOWEST, HIGHEST = 6, 29

    def __init__(self, walk):
        self.walk = walk
        self.picture = Picture(
            self.WIDTH, self.HEIGHT, "The noise of a lookup: what is reported, and what is measured",
            f"For levels 0 to {walk.d} of a lookup: the reported bound, which is the sum of the charges, with the declared weight N "
            "and with that of the key, the greatest distance of the phase from the named entry's exact encoding, and the limit, "
            "from which on a lookup is refused with 9.")
        self.picture.text(24, 54, f"{parameters(walk)}. At level i the first i selectors have joined 2^i entries.", fill=SOFT)
        self.scale()
        self.refused()
        self.legend()
        self.points()
        self.table()

    def x(self, level):
        return self.LEFT + self.STEP * (level + 0.5)

    def y(self, value):
        """On the scale of powers of two; 0 has the lowest place to itself."""
        power = math.log2(value) if value > 0 else self.LOWEST
        return self.BOTTOM - (self.BOTTOM - self.TOP) * (power - self.LOWEST) / (self.HIGHEST - self.LOWEST)

    def right(self):
        return self.LEFT + self.STEP * (self.walk.d + 1)

    def mark(self, value, label, colour, width):
        y = self.y(value)
        self.picture.line(self.LEFT, y, self.right(), y, stroke=colour, stroke_width=width)
        self.picture.text(self.LEFT - 8, y + 4, label, text_anchor="end", fill=SOFT)

    def scale(self):
        self.mark(0, "0", "#dfe3e8", 1)
        for power in range(8, self.HIGHEST - 4, 4):
            self.mark(2**power, f"2^{power}", "#dfe3e8", 1)

    def refused(self):
        y = self.y(self.walk.limit)
        self.picture.rectangle(self.LEFT, self.TOP, self.right() - self.LEFT, y - self.TOP, fill=LIMIT, fill_opacity=0.12)
        self.mark(self.walk.limit, f"2^{self.walk.limit.bit_length() - 1}", LIMIT, 1.5)
        self.picture.text(self.LEFT + 10, y - 10, f"refused with 9: from 2^31/M = {self.walk.limit:,} on", fill=LIMIT)

    def points(self):
        self.curve(self.walk.own, OWN)
        self.curve(self.walk.levels, PATH)
        for i, distance in enumerate(self.distances()):
            if distance is not None:
                self.distance_point(self.x(i), self.y(distance))

    def curve(self, levels, colour):
        bounds = [(self.x(i), self.y(level.bound)) for i, level in enumerate(levels)]
        self.picture.add("polyline", points=" ".join(f"{number(x)},{number(y)}" for x, y in bounds[1:]), fill="none",
                         stroke=colour, stroke_width=2)
        for x, y in bounds:
            self.bound_point(x, y, colour)

    def distances(self):
        """Where a lookup is accepted with either weight; they are those of the same sample."""
        return [own.distance if level.answer else level.distance for level, own in zip(self.walk.levels, self.walk.own)]

    def bound_point(self, x, y, colour):
        self.picture.add("circle", cx=x, cy=y, r=5, fill=colour)

    def distance_point(self, x, y):
        self.picture.rectangle(x - 5, y - 5, 10, 10, fill="none", stroke=TEXT, stroke_width=2)

    def legend(self):
        left, top, walk = self.x(2) + 20, self.y(2**17), self.walk
        (noise, rounding), (_, own) = (walk.charge(walk.amplitudes[0], weight) for weight in (walk.N, walk.weight))
        self.picture.rectangle(left - 16, top - 22, 510, 148, rx=6, fill="#ffffff", stroke="#dfe3e8")
        self.bound_point(left, top - 4, PATH)
        self.bound_point(left, top + 18, OWN)
        self.distance_point(left, top + 40)
        self.picture.lines(left + 16, top, 22, [
            "bound that the lookup reports, with W = N: a charge for each selector so far",
            f"bound with W = {walk.weight}, which is how many words of this key are 1",
            "greatest distance of the phase from the named entry's exact encoding",
            f"A charge is 2·L·N·2^(g−1)·A = {noise:,} for the noise of a block, and",
            f"(1 + W)·E for rounding: {rounding:,} with W = N, and {own:,} with W = {walk.weight}.",
            "Rounding shows where the bit is 1."])

    def table(self):
        rows = [("level i", [str(i) for i in range(self.walk.d + 1)], TEXT),
                ("bit i − 1", [""] + [str(self.walk.entry >> i & 1) for i in range(self.walk.d)], TEXT),
                ("W = N", [f"{level.bound:,}" for level in self.walk.levels], PATH),
                (f"W = {self.walk.weight}", [f"{level.bound:,}" for level in self.walk.own], OWN),
                ("distance", ["refused" if d is None else f"{d:,}" for d in self.distances()], TEXT),
                ("gates", [f"{level.gates or own.gates:,}" for level, own in zip(self.walk.levels, self.walk.own)], TEXT)]
        for i, (name, values, colour) in enumerate(rows):
            y = self.BOTTOM + 28 + 22 * i
            self.picture.text(self.LEFT - 8, y, name, text_anchor="end", font_weight="bold", fill=colour)
            for level, value in enumerate(values):
                self.picture.text(self.x(level), y, value, text_anchor="middle", font_size=10, fill=colour)


def main(tree, packing, noise, folder):
    pictures = (Tree, tree, "lookup-tree.svg"), (Packing, packing, "vertical-packing.svg"), (Noise, noise, "noise.svg")
    for kind, source, name in pictures:
        walk = Walk(pathlib.Path(source).read_text(encoding="ascii"))
        walk.check()
        kind(walk).picture.write(pathlib.Path(folder) / name)


if __name__ == "__main__":
    main(*sys.argv[1:])
