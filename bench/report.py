"""The table and the chart: report.py TIMES.csv COUNTS.csv TABLE.md CHART.svg. Prints the table; ratios are to the first engine, (a)."""
import csv
import platform
import sys

ENGINES = ("by hand", "this set", "two waits", "libpmemobj", "LMDB", "SQLite")
OWN = "owner's calls"  # counted; their times are in the lives (lives_report.py)
SETTINGS = (("P", "0"), ("S", "0"), ("S", "200"), ("S", "800"))
OPS = ("insert", "replace", "remove")
STEPS = {"new": "insert", "acknowledge": "replace", "fill": "replace", "withdraw": "remove"}  # a step of the book, and what the set does for it
COLOURS = ("#999999", "#c0392b", "#d9822b", "#2e7d6b", "#3b6ea5", "#7a5ba6")


def number(n):
    return f"{int(n):,}"


def rows_of(path):
    with open(path) as file:
        return list(csv.DictReader(file))


class Figures:
    """The rows of both files, by what they are of."""

    def __init__(self, times, counts):
        self.ns, self.waits, self.flushes, self.instructions, self.configs = {}, {}, {}, {}, []
        for row in rows_of(times):
            config = (row["n"], row["heads"], row["size"])
            if config not in self.configs:
                self.configs.append(config)
            key = (row["mode"], row["delay"], *config, row["engine"], row["op"])
            self.ns[key], self.waits[key], self.flushes[key] = float(row["ns"]), float(row["waits"]), float(row["flushes"])
        for row in rows_of(counts):
            self.instructions[row["n"], row["heads"], row["size"], row["engine"], row["op"]] = float(row["instructions"])

    def time(self, setting, config, engine, op):
        """Nanoseconds; an engine without heads has one figure for both numbers of them."""
        found = self.ns.get((*setting, *config, engine, op))
        if found is None:
            found = self.ns.get((*setting, config[0], "65536", config[2], engine, op))
        return found

    def ratio(self, setting, config, engine, op):
        return self.time(setting, config, engine, op) / self.time(setting, config, ENGINES[0], op)


def cell(figures, setting, config, engine, op):
    ns = figures.time(setting, config, engine, op)
    if ns is None:
        return "–"
    text = f"{ns:,.0f}" if ns >= 100 else f"{ns:.1f}"
    return text if engine == ENGINES[0] else f"{text} ({figures.ratio(setting, config, engine, op):.2f})"


def times_table(figures):
    lines = []
    for op in OPS + ("get",):
        lines += ["", f"### {op}, ns an operation (ratio to the first)", "", "| N | B | bytes | wait | " + " | ".join(ENGINES) + " |", "|---" * (4 + len(ENGINES)) + "|"]
        for config in figures.configs:
            for setting in SETTINGS[:1] if op == "get" else SETTINGS:
                wait = "–" if op == "get" else " ".join(setting)
                cells = [cell(figures, setting, config, e, op) for e in ENGINES]
                lines.append(f"| {number(config[0])} | {number(config[1])} | {config[2]} | {wait} | " + " | ".join(cells) + " |")
    lines += ["", "### recover, µs (ratio to the first)", "", "| N | B | bytes | by hand | this set |", "|---|---|---|---|---|"]
    for config in figures.configs:
        a, b = (figures.time(SETTINGS[0], config, e, "recover") / 1000 for e in ENGINES[:2])
        lines.append(f"| {number(config[0])} | {number(config[1])} | {config[2]} | {a:,.1f} | {b:,.1f} ({b / a:.2f}) |")
    return lines


def book_table(figures):
    lines = ["", "### The book, this set, ns an operation (ratio to what the set does for it)", ""]
    lines += ["| N | B | wait | " + " | ".join(OPS + tuple(STEPS)) + " |", "|---" * (3 + len(OPS) + len(STEPS)) + "|"]
    for config in figures.configs:
        for setting in SETTINGS if config[2] == "24" else ():
            ns = {op: figures.time(setting, config, "this set", op) for op in OPS + tuple(STEPS)}
            cells = [f"{ns[op]:,.0f}" for op in OPS] + [f"{ns[step]:,.0f} ({ns[step] / ns[op]:.2f})" for step, op in STEPS.items()]
            lines.append(f"| {number(config[0])} | {number(config[1])} | {' '.join(setting)} | " + " | ".join(cells) + " |")
    return lines


def counts_table(figures):
    counted = [(op, e) for op in OPS + ("get", "recover") for e in ENGINES[:2] + (OWN,) if (*figures.configs[0], e, op) in figures.instructions]
    head = " | ".join(f"{op}: {e}" if e == ENGINES[0] else e for op, e in counted)
    lines = ["", "### Instructions (insert, replace and remove with the persist)", "", f"| N | B | bytes | {head} |", "|---" * (3 + len(counted)) + "|"]
    for config in figures.configs:
        cells = [f"{figures.instructions[(*config, e, op)]:,.0f}" for op, e in counted]
        lines.append(f"| {number(config[0])} | {number(config[1])} | {config[2]} | " + " | ".join(cells) + " |")
    config = figures.configs[0]
    lines += ["", f"Of these the persist is {figures.instructions[(*config, 'persist', 'persist')]:.0f}."]
    lines += ["", "### Instructions of the book's steps, this set and the owner's calls (ratio to what the set does for them)", ""]
    lines += ["| N | B | | " + " | ".join(STEPS) + " |", "|---" * (3 + len(STEPS)) + "|"]
    for config in figures.configs:
        for engine in (ENGINES[1], OWN) if config[2] == "24" else ():
            found = {op: figures.instructions[(*config, engine, op)] for op in OPS + tuple(STEPS)}
            cells = [f"{found[step]:,.0f} ({found[step] / found[op]:.2f})" for step, op in STEPS.items()]
            lines.append(f"| {number(config[0])} | {number(config[1])} | {engine} | " + " | ".join(cells) + " |")
    return lines


def waits_table(figures):
    lines = ["", "### Waits and line flushes for each call", "", "| | " + " | ".join(OPS + ("get",)) + " |", "|---" * 5 + "|"]
    for e in ENGINES:
        cells = []
        for op in OPS + ("get",):
            key = ("S", "0", *figures.configs[0], e, op)
            flushes = "" if e in ("LMDB", "SQLite") else f", {figures.flushes[key]:.2f} flushes"
            cells.append(f"{figures.waits[key]:.2f} waits{flushes}")
        lines.append(f"| {e} | " + " | ".join(cells) + " |")
    return lines + ["", "LMDB and SQLite wait by system calls; what libpmemobj flushes inside copies is not counted."]


def goals(figures):
    """Each goal, the worst figure, and whether it is met."""
    every = figures.configs

    def worst(setting, ops):
        return max(((figures.ratio(setting, c, "this set", op), op, c) for c in every for op in ops), key=lambda x: x[0])

    def place(op, config):
        return f"{op}, N {number(config[0])}, B {number(config[1])}, {config[2]} bytes"

    rows = []
    for setting, limit in ((SETTINGS[0], 1.25), (SETTINGS[1], 1.25), (SETTINGS[3], 1.10)):
        value, op, config = worst(setting, OPS)
        rows.append((f"insert, replace, remove at {' '.join(setting)}: at most {limit:.2f} × by hand", f"{value:.2f} ({place(op, config)})", value <= limit))
    value, op, config = worst(SETTINGS[0], ("get",))
    rows.append(("get: at most 1.25 × by hand", f"{value:.2f} ({place(op, config)})", value <= 1.25))
    value, op, config = worst(SETTINGS[0], ("recover",))
    rows.append(("recover: at most 1.50 × by hand", f"{value:.2f} ({place(op, config)})", value <= 1.5))
    value, op, config = max((figures.instructions[(*c, "this set", op)], op, c) for c in every for op in OPS)
    rows.append(("insert, replace, remove with the persist: at most 600 instructions", f"{value:.0f} ({place(op, config)})", value <= 600))
    value, config = max((figures.instructions[(*c, "this set", "get")] / figures.instructions[(*c, "by hand", "get")], c) for c in every)
    rows.append(("get: at most 1.50 × the instructions by hand", f"{value:.2f} ({place('get', config)})", value <= 1.5))
    value, setting, engine, op, config = min(
        (figures.time(s, c, e, op) / figures.time(s, c, "this set", op), s, e, op, c) for s in SETTINGS for c in every for e in ENGINES[2:] for op in OPS
    )
    rows.append(("ahead of every other engine in every writing call", f"{value:.2f} × this set ({engine}, {place(op, config)}, {' '.join(setting)})", value > 1))
    keys = [k for k in figures.waits if k[5] == "this set"]
    writing = OPS + tuple(STEPS)
    counted = all(figures.waits[k] == (1 if k[6] in writing else 0) and figures.flushes[k] == (2 if k[6] in writing else 0) for k in keys)
    rows.append(("one fence and two line flushes for each insert, replace, remove and step of the book, none for get and recover", "counted", counted))
    lines = ["", "### Goals", "", "| Goal | Worst figure | |", "|---|---|---|"]
    return lines + [f"| {goal} | {figure} | {'met' if met else 'MISSED'} |" for goal, figure, met in rows]


def round_top(least):
    """A top for a scale of four steps, each a round number."""
    step, power = least / 4, 1.0
    while power * 10 <= step:
        power *= 10
    return 4 * power * next(k for k in (1, 2, 2.5, 5, 10) if power * k >= step)


def bars(svg, x, y, width, title, groups, top):
    """One panel: a group of bars for each operation, by engine, linear from 0 to top. A bar that goes past the top carries its figure."""
    height, gap = 200, 26
    svg.append(f'<text x="{x}" y="{y - 12}" class="title">{title}</text>')
    group = (width - gap * (len(groups) - 1)) / len(groups)
    for line in range(5):
        at = y + height - height * line / 4
        svg.append(f'<line x1="{x}" y1="{at:.1f}" x2="{x + width}" y2="{at:.1f}" class="grid"/>')
        svg.append(f'<text x="{x - 6}" y="{at + 4:.1f}" class="scale">{top * line / 4:,.10g}</text>')
    for g, (label, figures) in enumerate(groups):
        left, bar = x + g * (group + gap), group / len(ENGINES)
        svg.append(f'<text x="{left + group / 2:.1f}" y="{y + height + 16}" class="label">{label}</text>')
        for e, figure in enumerate(figures):
            if figure is None:
                continue
            tall, middle = height * min(figure, top) / top, left + (e + 0.5) * bar
            svg.append(f'<rect x="{left + e * bar:.1f}" y="{y + height - tall:.1f}" width="{bar - 1.5:.1f}" height="{tall:.1f}" fill="{COLOURS[e]}"/>')
            if figure > top:
                svg.append(f'<text transform="translate({middle - 3.5:.1f},{y + 6}) rotate(90)" class="over">{figure:,.0f}</text>')


def chart(figures, path):
    most = max(int(c[0]) for c in figures.configs)
    config = next(c for c in figures.configs if c == (str(most), "65536", "80"))
    svg = [
        '<svg xmlns="http://www.w3.org/2000/svg" width="1240" height="620" viewBox="0 0 1240 620">',
        "<style>text{font-family:sans-serif;font-size:12px;fill:#222}.title{font-size:14px;font-weight:bold}.head{font-size:18px;font-weight:bold}"
        ".grid{stroke:#ddd;stroke-width:1}.scale{text-anchor:end;fill:#666}.label{text-anchor:middle}text.over{font-size:10px;fill:#fff}</style>",
        '<rect width="1240" height="620" fill="#fff"/>',
        f'<text x="40" y="30" class="head">Nanoseconds a call: N = {number(config[0])} half full, B = {number(config[1])}, values of {config[2]} bytes</text>',
    ]
    for e, engine in enumerate(ENGINES):
        svg.append(f'<rect x="{40 + 150 * e}" y="44" width="12" height="12" fill="{COLOURS[e]}"/><text x="{58 + 150 * e}" y="55">{engine}</text>')
    panels = (("no added delay", SETTINGS[1]), ("200 ns added to each wait", SETTINGS[2]), ("800 ns added to each wait", SETTINGS[3]))
    for p, (title, setting) in enumerate(panels):
        groups = [(op, [figures.time(setting, config, e, op) for e in ENGINES]) for op in OPS]
        bars(svg, 70 + 400 * p, 100, 340, title, groups, round_top(2 * max(max(g[1][:3]) for g in groups)))
    gets = [figures.time(SETTINGS[0], config, e, "get") for e in ENGINES]
    bars(svg, 70, 380, 140, "get", [("get", gets)], round_top(2 * max(gets[:3])))
    recoveries = [figures.time(SETTINGS[0], config, e, "recover") for e in ENGINES[:2]]
    recoveries = [ns / 1e6 for ns in recoveries]
    bars(svg, 290, 380, 140, "recover, ms", [("recover", recoveries + [None] * 4)], round_top(1.2 * max(recoveries)))
    notes = (
        "A bar that reaches the top of its panel carries its figure.",
        "Each wait is sfence, mfence, lfence and then the added delay.",
        "Every engine has a file in /dev/shm. One run, the engines in turn; medians of the repetitions.",
        f"{platform.machine()}, {processor()}",
    )
    svg += [f'<text x="490" y="{400 + 20 * i}">{note}</text>' for i, note in enumerate(notes)]
    svg.append("</svg>")
    with open(path, "w") as out:
        out.write("\n".join(svg) + "\n")


def processor():
    with open("/proc/cpuinfo") as lines:
        names = [line.split(":", 1)[1].strip() for line in lines if line.startswith("model name")]
    return names[0] if names else "unknown processor"


def main():
    times, counts, table, picture = sys.argv[1:]
    figures = Figures(times, counts)
    lines = [f"Measured on {processor()}. P: sfence. S: sfence, mfence, lfence, then the delay in ns."]
    lines += goals(figures) + times_table(figures) + book_table(figures) + counts_table(figures) + waits_table(figures)
    text = "\n".join(lines) + "\n"
    print(text)
    with open(table, "w") as out:
        out.write(text)
    chart(figures, picture)
    print(f"table: {table}\nchart: {picture}")


if __name__ == "__main__":
    main()
