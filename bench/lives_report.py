"""Tails in four lives of a set: lives_report.py LIVES.csv TABLE.md. Prints the table."""
import sys

from report import number, processor, rows_of

LIVES = ("fresh", "worn", "restarted", "next day")
WRITES = ("insert", "replace", "remove", "basket")
OPS = WRITES + ("get",)
OWN = ("owner's calls", "the handle")  # the handle makes the owner's calls
EXACT, HAND = "this set", "by hand (own)"
BEFORE = 155  # µs: what a call for any index took in the next day's slow stretch
SEEN = "seen_"  # before the columns of all times; those of each call's least time over the turns have no such word


def ns(text):
    """Nanoseconds, or microseconds where they are many."""
    value = float(text)
    return f"{value:,.0f}" if value < 9999.5 else f"{value / 1000:,.0f} µs"


def cell(row, seen):
    return " / ".join(ns(row[seen + column]) for column in ("median", "p99", "p999", "worst")) if row else "–"


def times_table(rows, seen, what):
    lines = []
    found = {(r["n"], r["life"], r["engine"], r["op"]): r for r in rows}
    sizes, engines = (list(dict.fromkeys(r[column] for r in rows)) for column in ("n", "engine"))
    for life in LIVES:
        lines += ["", f"### {life}, {what}: median / p99 / p99.9 / worst, ns", ""]
        lines += ["| N | engine | " + " | ".join(OPS) + " |", "|---" * (2 + len(OPS)) + "|"]
        for n in sizes:
            for engine in engines:
                cells = [cell(found.get((n, life, engine, op)), seen) for op in OPS]
                lines.append(f"| {number(n)} | {engine} | " + " | ".join(cells) + " |")
    return lines


def long_calls(rows):
    always = sum(int(r["always_long"]) for r in rows)
    mean = sum(int(r["always_long"]) * float(r["long_mean"]) for r in rows) / always if always else 0
    return sum(int(r["long"]) for r in rows), sum(int(r["calls"]) for r in rows), always, mean


def long_table(rows):
    lines = ["", "### calls over 10 µs: seen, of all calls; in every turn, with their mean", ""]
    lines += ["| N | engine | " + " | ".join(LIVES) + " |", "|---" * (2 + len(LIVES)) + "|"]
    for n in dict.fromkeys(r["n"] for r in rows):
        for engine in dict.fromkeys(r["engine"] for r in rows):
            cells = []
            for life in LIVES:
                seen, calls, always, mean = long_calls([r for r in rows if (r["n"], r["engine"], r["life"]) == (n, engine, life)])
                cells.append(f"{seen:,} of {calls:,}; {always:,}" + (f", {ns(mean)}" if always else ""))
            lines.append(f"| {number(n)} | {engine} | " + " | ".join(cells) + " |")
    return lines


def rate_table(rows):
    """A rate that is the same for calls of every length is not the calls' own."""
    lines = ["", "### calls over 10 µs for each ms that calls take, in all lives", "", "| engine | " + " | ".join(OPS) + " |", "|---" * (1 + len(OPS)) + "|"]
    for engine in dict.fromkeys(r["engine"] for r in rows):
        cells = []
        for op in OPS:
            here = [r for r in rows if (r["engine"], r["op"]) == (engine, op)]
            took = sum(int(r["calls"]) * float(r[SEEN + "median"]) for r in here) / 1e6
            cells.append(f"{sum(int(r['long']) for r in here) / took:.2f}" if took else "–")
        lines.append(f"| {engine} | " + " | ".join(cells) + " |")
    return lines


def spread(rows, engine, ops, seen):
    """The worst p99.9 by its median, where, and how many of the figures are above 3."""
    found = [(float(r[seen + "p999"]) / max(float(r[seen + "median"]), 1), r) for r in rows if r["engine"] == engine and r["op"] in ops]
    value, r = max(found, key=lambda x: x[0])
    return value, f"{value:.2f} ({r['op']}, N {number(r['n'])}, {r['life']}); {sum(v > 3 for v, _ in found)} of {len(found)} above"


def goals(rows):
    """Each goal, the worst figure, and whether it is met."""
    found = []
    for what, ops in (("writing calls", WRITES), ("get", ("get",))):
        for seen, how in (("", "each call's least over the turns"), (SEEN, "as seen, with interrupts and other work")):
            for engine in OWN:
                value, figure = spread(rows, engine, ops, seen)
                found.append((f"{engine}, {what}, {how}: p99.9 at most 3 × the median", figure, value <= 3))
            found.append((f"the same of {HAND}, no goal", spread(rows, HAND, ops, seen)[1], None))
    for engine in OWN:
        day = [r for r in rows if r["engine"] == engine and r["life"] == "next day"]
        seen, calls, always, _ = long_calls(day)
        figure = f"{always} in every turn, the worst {ns(max(float(r['worst']) for r in day))} ns; {seen} of {calls:,} in some turn"
        found.append((f"{engine}: no call over 10 µs in the next day but by preemption", figure, always == 0))
    _, _, always, mean = long_calls([r for r in rows if (r["engine"], r["life"]) == (EXACT, "next day") and r["op"] in WRITES[:-1]])
    figure = f"{always:,} calls, {mean / 1000:,.1f} µs in the mean"
    found.append((f"insert, replace, remove for any index over 10 µs in the next day: at most a third of {BEFORE} µs", figure, mean <= BEFORE * 1000 / 3))
    lines = ["", "### Goals", "", "| Goal | Worst figure | |", "|---|---|---|"]
    said = {None: "", True: "met", False: "MISSED"}
    return lines + [f"| {goal} | {figure} | {said[met]} |" for goal, figure, met in found]


def main():
    rows = rows_of(sys.argv[1])
    lines = [f"Tails, measured on {processor()}. Each wait is sfence, mfence and lfence (S 0); the clock's own time is taken off."]
    lines += goals(rows) + long_table(rows) + rate_table(rows) + times_table(rows, "", "each call's least over the turns") + times_table(rows, SEEN, "as seen")
    text = "\n".join(lines) + "\n"
    print(text)
    with open(sys.argv[2], "w") as out:
        out.write(text)
    print(f"table: {sys.argv[2]}")


main()
