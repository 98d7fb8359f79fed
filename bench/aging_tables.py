#!/usr/bin/env python3
"""Writes the tables of docs/AGING.md, each between its two marks, from docs/aging-pages.csv, aging-columns.csv, aging-spreads.csv, aging-ties.csv, aging-lists.csv,
aging-chip.csv and aging-bound.csv, and from aging-columns-before.csv and aging-bound-before.csv, which keep the study before document 02's point 3."""
import itertools
import math
import os
import re
from aging_bound import DEFAULT, DOCS, LIMITS, WAYS, cases, inverse_tail, level_bound, table, upper_rates, way_bound

PROMISE = 1e-16
CODE_RATE = 150 * 8 / (63 * 30)
SINGLE = WAYS[: len(LIMITS)]  # the ways with one decode


def way_of(row):
    return int(row["limit"]), int(row["then"])


def name(way):
    limit, then = way
    return f"{limit:,}, then {then:,}" if then else f"{limit:,}"


def percent(rate):
    return f"{rate / 1e4:g} %"


def power(x):
    """A small number as the data sheet prints it."""
    if x == 0:
        return "0"
    exponent = math.floor(math.log10(x) + 1e-9)
    return f"{x:.2g}" if exponent >= -3 else f"{x / 10 ** exponent:.1f}e{exponent}" if exponent > -300 else "below 1e-300"


def lines(head, rows):
    return "\n".join(["| " + " | ".join(head) + " |", "|" + "---|" * len(head)] + ["| " + " | ".join(row) + " |" for row in rows])


def by_rate(rows):
    """Of each raw bit error rate: its rows by way."""
    grouped = {}
    for r in rows:
        grouped.setdefault(int(r["rate"]), {})[way_of(r)] = r
    return grouped


def answered(r):
    return int(r["pages"] - r["refused"])


def page_table(pages):
    rows = []
    for rate, at in by_rate(pages).items():
        back = [f"{int(at[way]['back']):,}" for way in WAYS]
        steps = [f"{at[way]['steps'] / answered(at[way]):,.0f}" if answered(at[way]) else "–" for way in SINGLE]
        rows.append([percent(rate), *back, *steps])
    return lines(["raw errors", *(f"back, {name(way)}" for way in WAYS), *(f"steps, {name(way)}" for way in SINGLE)], rows)


def erased_table(pages):
    cell = lambda r: " / ".join(f"{r[f'erased{i}'] / answered(r):.3g}" for i in range(4)) if answered(r) else "–"
    rows = [[percent(rate), *(cell(at[way]) for way in SINGLE)] for rate, at in by_rate(pages).items()]
    return lines(["raw errors", *(f"limit {name(way)}" for way in SINGLE)], rows)


def column_table(columns, limit):
    rows = []
    for rate in sorted({int(r["rate"]) for r in columns}):
        levels = [r for r in columns if int(r["rate"]) == rate and int(r["limit"]) == limit]
        cells = [f"{int(r[key]):,}" for key in ("misread", "unread") for r in levels]
        rows.append([percent(rate), " / ".join(f"{r['columns'] / 1e6:g}" for r in levels), *cells])
    return lines(["raw errors", "columns read, millions", *(f"misread {i}" for i in range(4)), *(f"unread {i}" for i in range(4))], rows)


def bound_table(bounds):
    shown = [(way, key) for way in WAYS for key in ("measured", "upper") if key == "upper" or way in SINGLE]
    rows = [[percent(rate), *(power(at[way][key]) for way, key in shown)] for rate, at in by_rate(bounds).items()]
    return lines(["raw errors", *(f"{name(way)}, {key}" for way, key in shown)], rows)


def level_table(bounds, way):
    keys = [*(f"level{i}" for i in range(4)), "misread2_by_words", "misread3_by_words"]
    rows = [[percent(rate), *(power(at[way][key]) for key in keys)] for rate, at in by_rate(bounds).items() if rate <= 20000]
    return lines(["raw errors", *(f"level {i}" for i in range(4)), "misread 2 by words, at most", "misread 3 by words, at most"], rows)


def bracket(rows):
    """The two neighbouring rows between which the measured bound passes the promise; None where they lie outside the rates read."""
    above = next((n for n, r in enumerate(rows) if r["measured"] >= PROMISE), len(rows))
    return rows[above - 1] if above else None, rows[above] if above < len(rows) else None


def crossing(rows):
    """The raw bit error rate where the measured bound meets the promise, on a straight line of logarithms between two rates read."""
    a, b = bracket(rows)
    x, y, low, high = (math.log(v) for v in (a["rate"], b["rate"], a["measured"], b["measured"]))
    return f"{math.exp(x + (y - x) * (math.log(PROMISE) - low) / (high - low)) / 1e4:.3g} %"


def between(rows):
    a, b = bracket(rows)
    if not a:
        return "below " + percent(b["rate"])
    return f"{a['rate'] / 1e4:g} to {percent(b['rate'])}" if b else "above " + percent(a["rate"])


def kept(rows, key):
    """The largest rate read at which this bound, there and at every smaller rate read, is below the promise."""
    held = list(itertools.takewhile(lambda r: r[key] < PROMISE, rows))
    if not held:
        raise ValueError("no rate read keeps the promise: too few columns were read")
    return held[-1]


def of_way(bounds, way):
    return [r for r in bounds if way_of(r) == way]


def ends(bounds):
    """Of each way the line of the largest rate up to which the promise holds."""
    return {way: kept(of_way(bounds, way), "upper") for way in WAYS}


def most_at(row, by_case):
    """The upper limits behind a line of the bound."""
    return upper_rates(by_case, int(row["rate"]), {i: row[f"misread{i}_by_words"] for i in (2, 3)})


def decisive(row):
    return max(range(4), key=lambda i: row[f"upper{i}"])


def cause(row, by_case):
    """Which level makes most of the bound, and by what."""
    level = decisive(row)
    if row["upper_wrong"] > row["upper"] / 2:
        return f"level {level}, wrong data by the first decode"
    limit, then = way_of(row)
    unread = level_bound(level, 0.0, most_at(row, by_case)[then or limit][level][1])
    return f"level {level}, {'unread' if unread > row[f'upper{level}'] / 2 else 'misread'} columns"


def seen(row, by_case):
    """What was counted at the level that decides, with the limit that decides."""
    limit, then = way_of(row)
    level, limit = decisive(row), limit if row["upper_wrong"] > row["upper"] / 2 else then or limit
    r = by_case[int(row["rate"]), limit, level]
    return f"level {level}, limit {limit:,}: {int(r['misread']):,} misread, {int(r['unread']):,} unread of {r['columns'] / 1e6:g} M"


def cost_table(before, by_case_before, bounds, by_case):
    old, new = ends(before), ends(bounds)
    rows = [[name(way), percent(old[way]["rate"]), cause(old[way], by_case_before), percent(new[way]["rate"]), cause(new[way], by_case)] for way in WAYS]
    return lines(["limit", "before: holds up to", "what decided", "now: holds up to", "what decides"], rows)


def promise_table(bounds, by_case):
    rows = [[name(way), percent(end["rate"]), power(end["upper"]), crossing(of_way(bounds, way)), seen(end, by_case)] for way, end in ends(bounds).items()]
    return lines(["limit", "promise holds up to (upper limits)", "bound there", "measured rates alone would say", "counted where it is decided"], rows)


def figure(before, bounds):
    old, new = ({way: percent(end["rate"]) for way, end in ends(b).items()} for b in (before, bounds))
    alone, again = (DEFAULT, 0), (DEFAULT, 2000)
    others = "; ".join(f"with {name(way)}{',' if way[1] else ''} up to {new[way]} (before {old[way]})" for way in WAYS if way not in (alone, again))
    return (f"**With limit {DEFAULT}, the default, the promise holds up to a raw bit error rate of {new[alone]} (before {old[alone]}), and up to {new[again]} "
            f"(before {old[again]}) where a page that is refused by 10 is decoded once more with 2,000; {others}. This is on the channel below. \"Before\" is "
            f"before the bias by level. Above these rates we do not promise it.**")


def room(most, way):
    """How many times the unread rates of levels 1 to 3 may be what they are with the promise still kept."""
    low, high = 1.0, 100.0
    for _ in range(20):
        middle = math.sqrt(low * high)
        scaled = {limit: [(m, u * middle if i else u) for i, (m, u) in enumerate(rates)] for limit, rates in most.items()}
        low, high = (middle, high) if math.fsum(way_bound(scaled, way)[0]) < PROMISE else (low, middle)
    return low


def room_table(bounds, by_case):
    rows = [[name(way), percent(end["rate"]), f"{math.floor(100 * (room(most_at(end, by_case), way) - 1))} %"] for way, end in ends(bounds).items()]
    return lines(["limit", "at", "unread more often by at most"], rows)


def tie_table(ties):
    """Of each rate and level: unread or misread columns of the last word, and of any word at most."""
    cells = {}
    for r in ties:
        cells.setdefault((r["rate"], int(r["level"])), []).append(f"{int(r['last_word']):,} / {int(r['any_word']):,}")
    rows = [[percent(rate), str(level), *row] for (rate, level), row in cells.items()]
    return lines(["raw errors", "level", *(f"limit {limit:,}" for limit in LIMITS)], rows)


def list_table(lists):
    """Of three rates and each limit, without list of two and with it: the average steps and changed columns of an answered page, the refused and the wrong pages."""
    def cell(r):
        n, changed = answered(r), sum(r[f"changed{i}"] for i in range(4))
        return f"{r['steps'] / n:,.0f} / {changed / n:.3g} / {int(r['refused']):,} / {int(r['wrong']):,}" if n else f"– / – / {int(r['refused']):,} / 0"

    choice = lambda r: f"threshold {int(r['threshold']):,}" if r["list"] else "without"
    heads, rows = {choice(r): None for r in lists}, {}
    for r in lists:
        if r["rate"] not in (5000, 20000, 40000):
            continue
        rows.setdefault((r["rate"], int(r["limit"])), {})[choice(r)] = cell(r)
    return lines(["raw errors", "limit", *heads], [[percent(rate), f"{limit:,}", *(row[head] for head in heads)] for (rate, limit), row in rows.items()])


def by_limit(chip):
    """Of each rate and limit: its rows by level."""
    grouped = {}
    for r in chip:
        grouped.setdefault((r["rate"], int(r["limit"])), []).append(r)
    return grouped


def share(part, whole):
    return f"{100 * part / whole:.3g} %"


def chip_table(chip):
    """Of each rate and limit, levels together: how often the chip's stack overflows; of the chip's search and the supercode search what comes of the columns and the pages."""
    rows = []
    for (rate, limit), levels in by_limit(chip).items():
        page, total = levels[0], {key: sum(r[key] for r in levels) for key in levels[0]}
        both = lambda of, a, b: f"{int(of[a]):,} / {int(of[b]):,}"
        rows.append([percent(rate), f"{limit:,}", share(total["pushed"], total["columns"]), share(page["pages_pushed"], page["pages"]), both(total, "spent", "supercode_spent"), f"{int(total['emptied']):,}",
                     both(total, "misread", "supercode_misread"), f"{int(total['other_word']):,}", f"{total['steps'] / total['columns']:.1f} / {total['supercode_steps'] / total['columns']:.1f}",
                     both(page, "refused", "supercode_refused"), both(page, "wrong", "supercode_wrong")])
    return lines(["raw errors", "limit", "columns with a path pushed out", "pages with one", "by 9", "by 13", "misread", "another word", "steps a column", "pages refused", "pages wrong"], rows)


def chip_level_table(chip):
    """Of each rate and limit by level: how often the chip's stack overflows, and which columns one search alone reads rightly."""
    cell = lambda levels, key: " / ".join(f"{int(r[key]):,}" for r in levels)
    rows = [[percent(rate), f"{limit:,}", " / ".join(share(r["pushed"], r["columns"]) for r in levels), cell(levels, "lost"), cell(levels, "gained")] for (rate, limit), levels in by_limit(chip).items()]
    return lines(["raw errors", "limit", "a path pushed out", "right without a bound alone", "right with the chip alone"], rows)


def decibels(rate):
    """E_b/N_0 of a raw bit error rate r = Q(sqrt(2 R E_b/N_0))."""
    return f"{10 * math.log10(inverse_tail(rate / 1e6) ** 2 / (2 * CODE_RATE)):.1f} dB"


def paper_table(before, bounds):
    old, new = ends(before), ends(bounds)
    rows = [[name(way), decibels(old[way]["rate"]), decibels(new[way]["rate"])] for way in WAYS]
    return lines(["limit", "E_b/N_0 at the end before", "E_b/N_0 at the end now"], rows)


def spread_table(rows):
    """Of each spread and limit the two rates read between which the measured bound passes the promise."""
    found = []
    for spread in sorted({r["spread"] for r in rows}):
        cells = []
        for limit in LIMITS:
            ours = {}
            for r in rows:
                if r["spread"] == spread and int(r["limit"]) == limit:
                    ours.setdefault(r["rate"], []).append((r["misread"] / r["columns"], r["unread"] / r["columns"]))
            cells.append(between([{"rate": rate, "measured": math.fsum(way_bound({limit: levels}, (limit, 0))[0])} for rate, levels in ours.items()]))
        found.append([f"{spread:g}" if spread else "0 (hard readings)", *cells])
    return lines(["thresholds spread by", *(f"limit {limit:,}" for limit in LIMITS)], found)


def check_table(pages, bounds):
    paged, bounded = by_rate(pages), by_rate(bounds)
    rows = []
    for rate in sorted(set(paged) & set(bounded)):
        if rate < 4000:
            continue
        bad = [paged[rate][way]["pages"] - paged[rate][way]["back"] for way in WAYS]
        expected = [paged[rate][way]["pages"] * bounded[rate][way]["measured"] for way in WAYS]
        rows.append([percent(rate), *(f"{a:,.0f} / {b:,.0f}" if b >= 10 else f"{a:,.0f} / {power(b)}" for a, b in zip(bad, expected))])
    return lines(["raw errors", *(name(way) for way in WAYS)], rows)


def deviation(row):
    """How many standard deviations the share of wrong bits lies off the rate named."""
    bits, rate = 30 * row["columns"], row["rate"] / 1e6
    return abs(row["wrong_bits"] - bits * rate) / math.sqrt(bits * rate * (1 - rate))


def totals(pages, columns):
    read = [r for r in columns if int(r["limit"]) == 2000]
    off = max(deviation(r) for r in read)
    count = {key: f"{int(sum(r[key] for r in pages)):,}" for key in ("pages", "back", "refused", "wrong")}
    where = "; ".join(f"{int(r['wrong'])} at {percent(r['rate'])} with {name(way_of(r))}" for r in pages if r["wrong"]) or "none"
    return (f"{count['pages']} pages read ({int(pages[0]['pages']):,} pages a rate, each in the five ways), of which {count['back']} came back, "
            f"{count['refused']} were refused and {count['wrong']} gave wrong data as sound ({where}). {sum(r['columns'] for r in read) / 1e6:g} million "
            f"columns, the number of their wrong bits at every rate and level within {math.ceil(10 * off) / 10:.1f} standard deviations of what the rate says.")


def main():
    pages, columns, spreads, ties, lists, chip, bounds = (table(f"aging-{kind}.csv") for kind in ("pages", "columns", "spreads", "ties", "lists", "chip", "bound"))
    before, by_case_before, by_case = table("aging-bound-before.csv"), cases(table("aging-columns-before.csv")), cases(columns)
    texts = {"cost": cost_table(before, by_case_before, bounds, by_case), "promise": promise_table(bounds, by_case), "figure": figure(before, bounds),
             "totals": totals(pages, columns), "pages": page_table(pages), "erased": erased_table(pages), "columns": column_table(columns, DEFAULT),
             "bound": bound_table(bounds), "levels": level_table(bounds, (DEFAULT, 0)), "check": check_table(pages, bounds), "ties": tie_table(ties), "lists": list_table(lists),
             "chip": chip_table(chip), "chip levels": chip_level_table(chip),
             "room": room_table(bounds, by_case), "spreads": spread_table(columns + spreads), "paper": paper_table(before, bounds)}
    page = os.path.join(DOCS, "AGING.md")
    with open(page) as old:
        text = old.read()
    for key, value in texts.items():
        text, found = re.subn(rf"(<!-- {key} -->\n).*?(\n<!-- end {key} -->)", lambda m: m[1] + value + m[2], text, flags=re.S)
        if found != 1:
            raise ValueError(f"docs/AGING.md has no place for {key}")
    with open(page, "w") as new:
        new.write(text)


if __name__ == "__main__":
    main()
