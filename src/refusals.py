#!/usr/bin/env python3
"""src/refusals.py writes what comes from src/refusals.def into the files below, each between two marks; with the option
--check it writes nothing and ends with status 1 where one of them is not as it would write it."""
import os
import re
import sys
import textwrap

WIDTH = 120


def table():
    """section, number, name, words, what to do: as the lines stand."""
    text = open("src/refusals.def").read()
    rows, section = [], None
    form = r'/\* section: (.*?) \*/|^REFUSAL\((\d+), (\w+),\s*"(.*?)",\s*"(.*?)"\)$'
    for match in re.finditer(form, text, re.M):
        if match[1]:
            section = match[1]
        else:
            rows.append((section, int(match[2]), *match.groups()[2:]))
    assert len({row[1] for row in rows}) == len({row[2] for row in rows}) == text.count("\nREFUSAL(") == len(rows)
    return rows


def by_number(rows):
    return sorted(rows, key=lambda row: row[1])


def is_answer(number):
    return 1000 <= number < 1010


def enum(rows, _):
    lines = ["enum orderset_number {", "    ORDERSET_OK = 0,"]
    for _, number, name, words, _ in by_number(rows):
        entry = f"    ORDERSET_{name} = {number},".ljust(44)
        text = [line.replace("\xa0", " ") for line in textwrap.wrap(f"/* {words}\xa0*/", WIDTH - 47)]
        lines += [f"{entry}{text[0]}"] + [" " * 47 + line for line in text[1:]]
    return "\n".join(lines + ["};"])


def manual(rows, _):
    entries = []
    for _, number, name, words, _ in by_number(rows):
        said = words[0].upper() + words[1:] + (": an answer, and no error." if is_answer(number) else ".")
        entries.append(f".TP\n.B {number} ORDERSET_{name}\n{textwrap.fill(said, WIDTH)}")
    return "\n".join(entries)


def operations(rows, section):
    lines = []
    for of, number, name, words, do in by_number(rows):
        if of == section:
            lines += textwrap.wrap(f"- **{number}** {name}: {words}. *{do}.*", WIDTH, subsequent_indent="  ",
                                   break_on_hyphens=False)
    return "\n".join(lines)


def rust(rows, _):
    lines = ["kinds! {"]
    for _, number, name, words, _ in by_number(rows):
        if not is_answer(number):
            lines += textwrap.wrap(words[0].upper() + words[1:] + ".", WIDTH, initial_indent="    /// ",
                                   subsequent_indent="    /// ")
            lines.append(f"    {name.title().replace('_', '')} = {number},")
    return "\n".join(lines + ["}"])


def python(rows, _):
    lines = ["class Number(_Numbers):",
             '    """What a call gives where it is not done; an Error has one that is no answer."""', ""]
    for _, number, name, words, _ in by_number(rows):
        lines += [f"    {name} = {number}"]
        lines += textwrap.wrap(f'"""{words[0].upper() + words[1:]}{": an answer" if is_answer(number) else ""}."""', WIDTH,
                               initial_indent="    ", subsequent_indent="    ")
    return "\n".join(lines)


PLACES = {
    "include/orderset.h": (r"/\* (.*) \*/", enum),
    "man/orderset.3": (r'\.\\" (.*)', manual),
    "docs/OPERATIONS.md": (r"<!-- (.*) -->", operations),
    "bindings/rust/src/error.rs": (r"// (.*)", rust),
    "bindings/python/orderset/__init__.py": (r"# (.*)", python),
}


def written(path, rows):
    mark, form = PLACES[path]
    begin = mark.replace("(.*)", r"from src/refusals\.def(?:: (.*?))?")
    end = mark.replace("(.*)", r"end of src/refusals\.def")
    text = open(path).read()
    new, count = re.subn(rf"(^{begin}$\n).*?(^{end}$)",
                         lambda m: m[1] + form(rows, m[2]) + "\n" + m[3], text, flags=re.M | re.S)
    assert count, f"{path} has no marks"
    return text, new


def main():
    os.chdir(os.path.join(os.path.dirname(os.path.abspath(__file__)), ".."))
    rows, different = table(), []
    for path in PLACES:
        text, new = written(path, rows)
        if text != new:
            different.append(path)
            if "--check" not in sys.argv:
                open(path, "w").write(new)
    if different and "--check" in sys.argv:
        print("not as src/refusals.py writes them:", *different)
        sys.exit(1)


if __name__ == "__main__":
    main()
