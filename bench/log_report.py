"""The tables of the message log: log_report.py TIMES.csv STORES.csv TABLE.md. Prints them; ratios are to the first engine, the checksum by hand."""
import sys

from report import number, processor, rows_of

ENGINES = ("checksum", "append_after", "append", "two waits", "LMDB", "LMDB writes")
SETTINGS = (("P", "0"), ("S", "0"), ("S", "200"), ("S", "800"))


def figures_of(rows):
    """By setting, cells, size and engine; an engine that keeps everything has one figure for all numbers of cells."""
    figures = {(r["mode"], r["delay"], r["cells"], r["size"], r["engine"]): r for r in rows}
    cells = list(dict.fromkeys(r["cells"] for r in rows))

    def find(setting, count, size, engine):
        return figures.get((*setting, count, size, engine)) or figures[(*setting, cells[0], size, engine)]

    return find, cells, list(dict.fromkeys(r["size"] for r in rows))


def times_table(find, cells, sizes):
    lines = ["", "### append, ns (ratio to the first)", "", "| K | bytes | wait | " + " | ".join(ENGINES) + " |", "|---" * (3 + len(ENGINES)) + "|"]
    for count in cells:
        for size in sizes:
            for setting in SETTINGS:
                ns = [float(find(setting, count, size, e)["ns"]) for e in ENGINES]
                row = [f"{ns[0]:,.0f}"] + [f"{x:,.0f} ({x / ns[0]:.2f})" for x in ns[1:]]
                lines.append(f"| {number(count)} | {size} | {' '.join(setting)} | " + " | ".join(row) + " |")
    return lines


def counts_table(find, cells, sizes):
    lines = ["", "### bytes stored, line flushes and waits of an append", "", "| K | bytes | " + " | ".join(ENGINES) + " |", "|---" * (2 + len(ENGINES)) + "|"]
    for count in cells:
        for size in sizes:
            row = []
            for engine in ENGINES:
                r = find(SETTINGS[1], count, size, engine)
                stored = "" if engine == "LMDB" else f"{float(r['bytes']):,.0f} bytes, "
                flushes = "" if engine.startswith("LMDB") else f"{float(r['flushes']):.2f} flushes, "
                row.append(f"{stored}{flushes}{float(r['waits']):.2f} waits{' and a write that waits' * (engine == ENGINES[-1])}")
            lines.append(f"| {number(count)} | {size} | " + " | ".join(row) + " |")
    return lines + ["", "LMDB waits by system calls; its last write waits by itself (O_DSYNC), without the delay. With a writable map its bytes are not counted."]


def stores_table(rows):
    lines = ["", "### stores of an append, by what stands in its cell", "", "| | bytes | stores | at most | line flushes |", "|---|---|---|---|---|"]
    return lines + [f"| {r['case']} | {r['size']} | {float(r['stores']):.1f} | {r['most']} | {float(r['lines']):.1f} |" for r in rows]


def goals(times, stores):
    own = [r for r in times if r["engine"] in ("append_after", "append")]
    waits, most = {float(r["waits"]) for r in own}, max(int(r["most"]) for r in stores)
    rows = (("one fence for each append", ", ".join(f"{w:g}" for w in sorted(waits)), waits == {1.0}), ("at most 56 stores", most, most <= 56))
    lines = ["", "### Goals", "", "| Goal | Figure | |", "|---|---|---|"]
    return lines + [f"| {goal} | {figure} | {'met' if met else 'MISSED'} |" for goal, figure, met in rows]


def main():
    times, stores = rows_of(sys.argv[1]), rows_of(sys.argv[2])
    found = figures_of(times)
    lines = [f"The message log, measured on {processor()}. P: sfence. S: sfence, mfence, lfence, then the delay in ns."]
    text = "\n".join(lines + goals(times, stores) + times_table(*found) + counts_table(*found) + stores_table(stores)) + "\n"
    print(text)
    with open(sys.argv[3], "w") as out:
        out.write(text)
    print(f"table: {sys.argv[3]}")


main()
