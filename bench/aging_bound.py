#!/usr/bin/env python3
"""The chance of a bad page by equations 10 to 12 of source document 001, from docs/aging-columns.csv and docs/aging-columns-before.csv.

Writes docs/aging-bound.csv and docs/aging-bound-before.csv, one line a raw bit error rate and way of reading a page: the bound from the rates as measured with
its four levels, the bound from their upper limits with its four levels and the part of wrong data by a first decode, and the bounds by words on a misread."""
import csv
import itertools
import math
import operator
import os
from collections import Counter

COLUMNS, BITS, REACH = 63, 30, (30, 12, 6, 4)
VALUES = (2, 1, -1, -5, -11, -20, -35, -60)  # of a bit 0 by its reading, at level 0
FACTORS = (67, 87, 103, 73)
DOUBT = 0.01  # all upper limits of the table hold at once with 1 - DOUBT
WORDS_FROM = 2  # from this level on misreads are also bounded without sampling
TABLES = {"aging-columns-before.csv": ("aging-bound-before.csv", 0), "aging-columns.csv": ("aging-bound.csv", 2)}  # and by how much the values rise a level
LIMITS = (200, 500, 2000)
DEFAULT = 200  # of the calls that name no limit
WAYS = ((200, 0), (500, 0), (2000, 0), (200, 2000), (500, 2000))  # the limit, and that of a second decode if the first is refused
DOCS = os.path.join(os.path.dirname(os.path.abspath(__file__)), "..", "docs")


def table(name):
    """A table in docs/ as a list of dictionaries of numbers."""
    with open(os.path.join(DOCS, name)) as lines:
        return [{key: float(value) for key, value in row.items()} for row in csv.DictReader(lines)]


def row_chance(misread, unread, lost):
    """Equation 10: the chance that q unread and t misread columns are such that lost(q, t); P_b of a column is the chance of a misread among those read."""
    error = misread / (1 - unread)
    logs = [math.log(x) if x > 0 else -math.inf for x in (unread, 1 - unread, error, 1 - error)]
    total = []
    for q in range(COLUMNS + 1):
        for t in range(COLUMNS - q + 1):
            if not lost(q, t):
                continue
            terms = ((q, logs[0]), (COLUMNS - q, logs[1]), (t, logs[2]), (COLUMNS - q - t, logs[3]))
            exponent = math.log(math.comb(COLUMNS, q) * math.comb(COLUMNS - q, t)) + sum(n * x for n, x in terms if n)
            total.append(math.exp(exponent))
    return math.fsum(total)


def level_bound(level, misread, unread):
    """Equation 11: the chance that 2 · misread + unread columns are more than T."""
    return row_chance(misread, unread, lambda q, t: 2 * t + q > REACH[level])


def wrong_bound(level, misread, unread):
    """At most the chance that the row gives another word. That word differs from the written one in T + 1 columns or more, so in T + 1 - q that were read; each
    of these is misread or one of the (T - q) / 2 at most that the row alters. More than T unread are refused; left in, the sum grows with both rates."""
    return row_chance(misread, unread, lambda q, t: t > max(REACH[level] - q + 1, 0) // 2)


def way_bound(rates, way):
    """Equation 12: of each level its part in the chance of a bad page, and the part of wrong data by a first decode; rates: of each limit and level (misread,
    unread). A second decode leaves a page bad if its own limit does; a first one adds the pages it answers wrongly."""
    limit, then = way
    wrong = [wrong_bound(i, *rates[limit][i]) if then else 0.0 for i in range(4)]
    return [level_bound(i, *rates[then or limit][i]) + wrong[i] for i in range(4)], math.fsum(wrong)


def at_most(seen, count, p):
    """The chance of at most `seen` hits in `count` tries of chance p >= seen / count."""
    term = math.exp(math.lgamma(count + 1) - math.lgamma(seen + 1) - math.lgamma(count - seen + 1) + seen * math.log(p) + (count - seen) * math.log1p(-p))
    total, k = 0.0, seen
    while k >= 0 and term > total * 1e-12:
        total += term
        term *= k / (count - k + 1) * (1 - p) / p
        k -= 1
    return total


def upper_limit(seen, count, doubt):
    """Clopper and Pearson's upper limit of a rate."""
    low, high = max(seen, 0.5) / count, min(1.0, (seen + 40 + 10 * math.sqrt(seen + 1)) / count)
    for _ in range(50):
        middle = (low + high) / 2
        if at_most(int(seen), int(count), middle) > doubt:
            low = middle
        else:
            high = middle
    return high


def product(a, b):
    r = 0
    while b:
        if b & 1:
            r ^= a
        a, b = a << 1, b >> 1
    return r


def rivals(level):
    """Over all words but zero of the level and all places t from the first one on: how often (ones before t, bit at t, of each later one the ones and zeros
    after t up to it) occurs."""
    generator = 1
    for factor in FACTORS[: level + 1]:
        generator = product(generator, factor)
    shapes = Counter()
    for message in range(1, 1 << (6 * (4 - level))):
        word = product(message, generator)
        bits = [word >> k & 1 for k in reversed(range(BITS))]
        places = [j for j in range(BITS) if bits[j]]
        for t in range(places[0], BITS):
            before = sum(bits[:t])
            later = places[before + bits[t] :]
            shapes[before, bits[t], tuple((n + 1, j - t - n - 1) for n, j in enumerate(later)) or ((0, 0),)] += 1
    return shapes


def tail(x):
    return math.erfc(x / math.sqrt(2)) / 2


def inverse_tail(rate):
    """1/σ for a raw bit error rate."""
    low, high = 0.0, 10.0
    for _ in range(100):
        middle = (low + high) / 2
        low, high = (middle, high) if tail(middle) > rate else (low, middle)
    return low


def readings(rate):
    """The chances of the eight readings of a bit written as 0: bench/aging.c's channel."""
    strength = inverse_tail(rate)
    above = [1.0] + [tail((2 * k + 1) / 7 * strength) for k in range(7)] + [0.0]
    return [above[k] - above[k + 1] for k in range(8)]


def added(sums, chances, values):
    """The distribution of a sum with one more independent value; a distribution: the lowest sum, and from it upwards the chances."""
    low, old = sums
    least = min(values)
    new = [0.0] * (len(old) + max(values) - least)
    for chance, value in zip(chances, values):
        part = slice(value - least, value - least + len(old))
        new[part] = [a + chance * b for a, b in zip(new[part], old)]
    return low + least, new


def not_below(sums, count):
    """Entry k of `count`: the chance of a sum of -k or more; the largest sum is not below 0."""
    low, chances = sums
    tails = list(itertools.accumulate(reversed(chances)))[low + len(chances) - 1 :][:count]
    return tails + [1.0] * (count - len(tails))


def ahead_at(shapes, chances, written):
    """Of (ones before t, bit at t) the chances that another word's sum at t is 0, 1, ... above the written one's and that this one falls there."""
    gain = [b - a for a, b in zip(written, reversed(written))]
    falling = [n for n in range(8) if written[n] < 0]
    gains = [(0, [1.0])]
    while len(gains) <= max(before for before, _, _ in shapes):
        gains.append(added(gains[-1], chances, gain))
    ahead = {}
    for before, bit in {shape[:2] for shape in shapes}:
        there = falling if before else range(8)
        low, sums = added(gains[before], [chances[n] for n in there], [bit * gain[n] for n in there])
        ahead[before, bit] = sums[-low:]
    return ahead


def kept_after(pairs, chances, written, count):
    """Of each pair (ones, zeros) of another word after t: entry k is the chance that its sum falls by at most k over them."""
    rests = {(0, 0): (0, [1.0])}
    for ones in range(max(k for k, _ in pairs) + 1):
        if ones:
            rests[ones, 0] = added(rests[ones - 1, 0], chances, written[::-1])
        for zeros in range(1, max((z for k, z in pairs if k == ones), default=0) + 1):
            rests[ones, zeros] = added(rests[ones, zeros - 1], chances, written)
    return {pair: not_below(rests[pair], count) for pair in pairs}


def misread_bound(shapes, rate, rise):
    """At most this share of columns is misread, whatever the limit; the level's branch values are those of level 0 and `rise`. A word r comes out for the
    written c only if r is ahead of c (demand 3). Let t be the first place past their shared beginning where c's sum is lowest: there c falls, or it is the
    first such place, and r's sum at t and at every later place is not below c's at t. Of the later places the best is taken; added over all r and t."""
    chances, written = readings(rate), [value + rise for value in VALUES]
    ahead = ahead_at(shapes, chances, written)
    parts = {(before, bit, pair) for before, bit, later in shapes for pair in later}
    kept = kept_after({pair for _, _, pair in parts}, chances, written, max(len(sums) for sums in ahead.values()))
    chance = {(before, bit, pair): sum(map(operator.mul, ahead[before, bit], kept[pair])) for before, bit, pair in parts}
    return math.fsum(times * min(chance[before, bit, pair] for pair in later) for (before, bit, later), times in shapes.items())


def measured_rates(by_case, rate):
    """Of each limit and level the shares of misread and unread columns."""
    return {limit: [tuple(by_case[rate, limit, i][key] / by_case[rate, limit, i]["columns"] for key in ("misread", "unread")) for i in range(4)]
            for limit in LIMITS}


def upper_rates(by_case, rate, words):
    """Their upper limits; words: of a level the bound on misread columns by words."""
    doubt = DOUBT / (2 * len(by_case))
    limits = {}
    for limit in LIMITS:
        rows = [by_case[rate, limit, i] for i in range(4)]
        limits[limit] = [(min(upper_limit(r["misread"], r["columns"], doubt), words.get(i, 1.0)), upper_limit(r["unread"], r["columns"], doubt))
                         for i, r in enumerate(rows)]
    return limits


def cases(rows):
    return {(int(r["rate"]), int(r["limit"]), int(r["level"])): r for r in rows}


def write_bounds(by_case, name, rise):
    shapes = {level: rivals(level) for level in range(WORDS_FROM, 4)}
    with open(os.path.join(DOCS, name), "w") as out:
        out.write("rate,limit,then,measured,level0,level1,level2,level3,upper,upper0,upper1,upper2,upper3,upper_wrong,misread2_by_words,misread3_by_words\n")
        for rate in sorted({case[0] for case in by_case}):
            words = {level: misread_bound(shapes[level], rate / 1e6, rise * level) for level in shapes}
            seen, most = measured_rates(by_case, rate), upper_rates(by_case, rate, words)
            for way in WAYS:
                levels, (upper, wrong) = way_bound(seen, way)[0], way_bound(most, way)
                numbers = [math.fsum(levels), *levels, math.fsum(upper), *upper, wrong, *words.values()]
                out.write(",".join(str(x) for x in (rate, *way)) + "," + ",".join(f"{x:.4g}" for x in numbers) + "\n")


def main():
    for source, (name, rise) in TABLES.items():
        write_bounds(cases(table(source)), name, rise)


if __name__ == "__main__":
    main()
