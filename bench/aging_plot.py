#!/usr/bin/env python3
"""docs/aging.svg from the tables docs/aging-pages.csv, docs/aging-columns.csv and docs/aging-bound.csv, and the last two before document 02's point 3."""
import math
import os
from aging_bound import DEFAULT, DOCS, table

LIMITS = {(200, 0): ("#1f4e9c", ""), (500, 0): ("#c0392b", "7 4"), (2000, 0): ("#2a7d46", "2 3")}
AGAIN = {(200, 2000): ("#d98200", "9 2"), (500, 2000): ("#8e44ad", "4 2")}
LEVELS = {0: ("#222222", ""), 1: ("#b8541a", "8 3"), 2: ("#7a3e9d", "5 3"), 3: ("#0b7a75", "2 3")}
WIDTH, HEIGHT, ACROSS = 400, 250, 490  # of a panel's field, and from panel to panel
DOWN = 350


class Panel:
    """One field with its axes; x is a raw bit error rate in percent on a logarithmic scale."""

    def __init__(self, place, title, unit, x, y, logarithmic):
        self.left, self.top = 70 + place % 2 * ACROSS, 66 + place // 2 * DOWN
        self.x, self.y, self.logarithmic = x, y, logarithmic
        self.parts = [f'<text x="{self.left}" y="{self.top - 30}" class="title">{title}</text>',
                      f'<text x="{self.left + WIDTH / 2}" y="{self.top + HEIGHT + 36}" class="middle">raw bit error rate, percent</text>',
                      f'<text transform="translate({self.left - 52} {self.top + HEIGHT / 2}) rotate(-90)" class="middle">{unit}</text>']

    def across(self, x):
        return self.left + WIDTH * math.log(x / self.x[0]) / math.log(self.x[1] / self.x[0])

    def up(self, y):
        low, high = self.y
        share = math.log(y / low) / math.log(high / low) if self.logarithmic else (y - low) / (high - low)
        return self.top + HEIGHT * (1 - share)

    def grid(self, xs, ys):
        for x in xs:
            self.parts.append(f'<path d="M{self.across(x):.1f} {self.top}v{HEIGHT}" class="grid"/>'
                              f'<text x="{self.across(x):.1f}" y="{self.top + HEIGHT + 17}" class="middle">{x:g}</text>')
        for y, label in ys:
            self.parts.append(f'<path d="M{self.left} {self.up(y):.1f}h{WIDTH}" class="grid"/>'
                              f'<text x="{self.left - 7}" y="{self.up(y) + 4:.1f}" class="end">{label}</text>')
        self.parts.append(f'<rect x="{self.left}" y="{self.top}" width="{WIDTH}" height="{HEIGHT}" class="frame"/>')

    def inside(self, points):
        return [(self.across(x), self.up(y)) for x, y in points if self.x[0] <= x <= self.x[1] and self.y[0] <= y <= self.y[1]]

    def line(self, points, style, width=2.0, dots=True):
        places = self.inside(points)
        if not places:
            return
        path = "L".join(f"{x:.1f} {y:.1f}" for x, y in places)
        self.parts.append(f'<path d="M{path}" fill="none" stroke="{style[0]}" stroke-width="{width}" stroke-dasharray="{style[1] or "none"}"/>')
        if dots:
            self.parts += [f'<circle cx="{x:.1f}" cy="{y:.1f}" r="2.4" fill="{style[0]}"/>' for x, y in places]

    def rings(self, points, style):
        self.parts += [f'<circle cx="{x:.1f}" cy="{y:.1f}" r="4" fill="white" stroke="{style[0]}" stroke-width="1.4"/>' for x, y in self.inside(points)]

    def legend(self, entries):
        """Above the field: (style, text) from left to right."""
        x = self.left
        for style, text in entries:
            y = self.top - 13
            self.parts.append(f'<path d="M{x} {y}h22" stroke="{style[0]}" stroke-width="2" stroke-dasharray="{style[1] or "none"}"/>'
                              f'<text x="{x + 26}" y="{y + 4}">{text}</text>')
            x += 36 + 6.3 * len(text)

    def mark(self, y, text):
        self.parts.append(f'<path d="M{self.left} {self.up(y):.1f}h{WIDTH}" stroke="#000" stroke-width="1.2"/>'
                          f'<text x="{self.left + 8}" y="{self.top + 18}">{text}</text>')


def powers(low, high, step):
    names = str.maketrans("-0123456789", "⁻⁰¹²³⁴⁵⁶⁷⁸⁹")
    return [(10.0 ** k, "1" if k == 0 else "10" + str(k).translate(names)) for k in range(low, high + 1, step)]


def of_way(rows, way):
    return [r for r in rows if (r["limit"], r["then"]) == way]


def percents(rows, value):
    """The points of a line: the rate in percent and a value of the row."""
    return [(r["rate"] / 1e4, value(r)) for r in rows]


def page_panels(pages):
    share = Panel(0, "Pages that come back", "share of pages, percent", (0.1, 6), (0, 105), False)
    share.grid((0.1, 0.2, 0.5, 1, 2, 3, 4, 6), [(y, y) for y in range(0, 101, 20)])
    steps = Panel(1, "Steps of an answered page", "average steps, thousands", (0.001, 6), (0, 70), False)
    steps.grid((0.001, 0.01, 0.1, 0.5, 1, 2, 4), [(y, y) for y in range(0, 71, 10)])
    erased = Panel(2, "Erased columns of an answered page, all levels", "average number of columns", (0.001, 6), (1e-4, 100), True)
    erased.grid((0.001, 0.01, 0.1, 0.5, 1, 2, 4), powers(-4, 2, 1))
    for way, style in (LIMITS | AGAIN).items():
        share.line(percents(of_way(pages, way), lambda r: 100 * r["back"] / r["pages"]), style)
    for way, style in LIMITS.items():
        answered = [r for r in of_way(pages, way) if r["pages"] - r["refused"] >= 20]
        steps.line(percents(answered, lambda r: r["steps"] / (r["pages"] - r["refused"]) / 1e3), style)
        erased.line(percents(answered, lambda r: sum(r[f"erased{i}"] for i in range(4)) / (r["pages"] - r["refused"])), style)
    return [share, steps, erased]


def bound_panel(bounds, before):
    panel = Panel(3, "Chance of a bad page (001, equations 10 to 12)", "bound; rings: upper limits; thin: before", (0.0005, 4), (1e-32, 1), True)
    panel.grid((0.001, 0.01, 0.1, 0.5, 1, 2, 4), powers(-32, 0, 4))
    panel.mark(1e-16, "black: the promise, 10⁻¹⁶")
    for way, style in LIMITS.items():
        panel.line(percents(of_way(before, way), lambda r: r["measured"]), style, 0.9, False)
        panel.rings(percents(of_way(bounds, way), lambda r: r["upper"]), style)
        panel.line(percents(of_way(bounds, way), lambda r: r["measured"]), style)
    for way, style in AGAIN.items():
        panel.rings(percents(of_way(bounds, way), lambda r: r["upper"]), style)
    return panel


def column_panels(columns, bounds, before):
    unread = Panel(4, f"Unread columns by level, limit {DEFAULT}", "share of columns; thin: before", (0.0005, 4), (1e-7, 1), True)
    misread = Panel(5, f"Misread columns by level, limit {DEFAULT}", "share of columns; thin: bound by words", (0.0005, 4), (1e-16, 1), True)
    unread.grid((0.001, 0.01, 0.1, 0.5, 1, 2, 4), powers(-7, 0, 1))
    misread.grid((0.001, 0.01, 0.1, 0.5, 1, 2, 4), powers(-16, 0, 2))
    for level, style in LEVELS.items():
        now, old = ([r for r in rows if r["limit"] == DEFAULT and r["level"] == level] for rows in (columns, before))
        unread.line(percents([r for r in old if r["unread"]], lambda r: r["unread"] / r["columns"]), style, 0.9, False)
        for panel, key in ((unread, "unread"), (misread, "misread")):
            panel.line(percents([r for r in now if r[key]], lambda r: r[key] / r["columns"]), style)
    for level in (2, 3):
        misread.line(percents(of_way(bounds, (DEFAULT, 0)), lambda r: r[f"misread{level}_by_words"]), (LEVELS[level][0], ""), 0.9, False)
    return [unread, misread]


def main():
    pages, columns, bounds = table("aging-pages.csv"), table("aging-columns.csv"), table("aging-bound.csv")
    by_limit = page_panels(pages) + [bound_panel(bounds, table("aging-bound-before.csv"))]
    by_level = column_panels(columns, bounds, table("aging-columns-before.csv"))
    for place, panel in enumerate(by_limit):
        again = [(style, f"{limit:,} then {then:,}") for (limit, then), style in AGAIN.items()] if place in (0, 3) else []
        panel.legend([(style, f"{limit:,}") for (limit, _), style in LIMITS.items()] + again)
    for panel in by_level:
        panel.legend([(style, f"level {level}") for level, style in LEVELS.items()])
    style = ("text{font:12px sans-serif;fill:#222}.title{font-size:14px;font-weight:bold}.middle{text-anchor:middle}.end{text-anchor:end}"
             ".grid{stroke:#ddd;stroke-width:1}.frame{fill:none;stroke:#555}")
    body = "\n".join(part for panel in by_limit + by_level for part in panel.parts)
    with open(os.path.join(DOCS, "aging.svg"), "w") as out:
        out.write(f'<svg xmlns="http://www.w3.org/2000/svg" viewBox="0 0 990 1070" width="990" height="1070">\n<style>{style}</style>\n'
                  f'<rect width="990" height="1070" fill="white"/>\n{body}\n</svg>\n')


if __name__ == "__main__":
    main()
