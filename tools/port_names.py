#!/usr/bin/env python3
"""Brings the names of this repository's definitions and lemmas to the spelling of today's Rattle, after port.py.

usage: tools/port_names.py [--list]      at the top of the repository; with --list it prints the table and writes nothing

Words are in snake case: a definition, a lemma, a field or a constructor that is declared in specs/ or proofs/ in lower
camel case or with dashes gets underscores. A dash stays where both names that it joins stand in the lemma's statement
(length-set_word), and in a name that begins with a capital. A name that the kit's library has too, or that is taken
(two names that would fall together), keeps its spelling and is listed. The crate log becomes message_log, since the kit
has a library of that name. Functions of src/, exported names, strings, inputs and outputs keep their names.
"""
import os
import re
import sys

CRATE = ("log", "message_log")
# A lemma or a field that port.py gave the name that a definition gets here goes back to its dashes; and names by hand.
BACK = """all_lines all_made each_line goes_on held_in in_window is_digit left_by left_in made_by on_line one_key owner_of
paired_by put_record reads_only room_of same_bytes set_last set_next step_by step_call too_many with_all write_done""".split()
BY_HAND = {"sameMap": "is_same_map", "lastWord": "last_word_of", "takeAll": "all_taken_of"}
WORD = r"[A-Za-z0-9_'\u2080-\u2089\u2032*+<\u2264\u2261\u2115-]"
TOKEN = re.compile(rf"(?<!{WORD}){WORD}+")
DECLARED = re.compile(r"^(?P<indent>\s*)(?:(?:abbrev|unfoldable|pub|instance|private) )*(?P<names>[a-z][\w'-]*(?: [a-z][\w'-]*)*)(?: [({][^)}]*[)}])* :(?= |$)")


def files(kind):
    for folder, dirs, names in os.walk("crates"):
        dirs[:] = sorted(d for d in dirs if d != "out")
        for name in sorted(names):
            if name.endswith(kind):
                yield os.path.join(folder, name)


def read(path):
    with open(path, encoding="utf-8") as f:
        return f.read()


def is_walk(text):
    return bool(re.search(r"proofs\.[\w.+]*\.(Tie|Statement)\b", text))


def snake(name):
    name = re.sub(r"(?<=[a-z0-9'])([A-Z])(?=[a-z0-9'_-]|$)", lambda m: "_" + m.group(1).lower(), name)
    name = re.sub(r"(?<=[a-z0-9'])([A-Z]+)", lambda m: "_" + m.group(1).lower(), name)
    return name


def turned(name, statement):
    parts = name.split("-")
    out = snake(parts[0])
    for left, right in zip(parts, parts[1:]):
        both = left in statement and right in statement and not left.isdigit() and not right.isdigit()
        out += ("-" if both else "_") + snake(right)
    return out


def declared():
    """Each name that is declared, with the words of its statement; and the names that the kit's library gives."""
    found, kit = {}, set()
    for path in files(".antt"):
        text = read(path)
        for m in re.finditer(r"(?m)^(?:unfoldable |pub )*use ([\w.+-]+?)(?:\.\{([^}]*)\})?(?: as .*)?$", text):
            if not re.match(r"Rattle\.(?!std\b|core\b)", m.group(1)):
                kit |= {w.strip().split(" as ")[0] for w in (m.group(2) or "").split(",")}
        if is_walk(text):
            continue
        lines = text.split("\n")
        for i, line in enumerate(lines):
            m = DECLARED.match(line)
            if not m or line.lstrip().startswith("--"):
                continue
            rest, k = line, i + 1
            while k < len(lines) and lines[k].startswith(" ") and len(lines[k]) - len(lines[k].lstrip()) > len(m.group("indent")):
                rest += "\n" + lines[k]
                k += 1
            statement = set(TOKEN.findall(rest.split(" :", 1)[1]))
            for name in m.group("names").split():
                if name not in ("pub", "abbrev", "unfoldable", "record", "data", "use", "mod", "where", "let"):
                    found.setdefault(name, set()).update(statement)
    return found, kit


def main(argv):
    found, kit = declared()
    table, kept = {}, []
    for name, statement in sorted(found.items()):
        if not re.search(r"[A-Z-]", name):
            continue
        new = turned(name, statement)
        if new == name:
            continue
        if name in kit:
            kept.append((name, "the library has this name"))
            continue
        table[name] = BY_HAND.get(name, new)
    texts = {p: read(p) for p in files(".antt")}
    sources = {p: read(p) for p in files(".rt")}
    words = set()
    for t in texts.values():
        if not is_walk(t):
            t = re.sub(r"(?m)--.*$", "", re.sub(r"Rattle\.[\w.+-]*", "", t))
            words |= set(TOKEN.findall(re.sub(rf"\.{WORD}+", "", t)))
    words -= set(BACK)
    rust = {}
    for path, t in sources.items():
        for name in set(re.findall(r"[(,]\s*(?:mut )?([a-z_][a-z0-9_]*)\s*:", t)):
            rust.setdefault(name, set()).add(path)
    by = {}
    for name, new in table.items():
        by.setdefault(new, []).append(name)
    for new, names in by.items():
        first = sorted(names, key=lambda n: ("-" in n, n))
        for name in first[1:]:
            kept.append((name, f"{new} is what {first[0]} becomes"))
            del table[name]
        name = first[0]
        beside = [p for p in rust.get(new, ()) if re.search(rf"(?<!{WORD}){re.escape(name)}(?!{WORD})", sources[p])]
        if new in words or beside:
            kept.append((name, f"{new} is taken" + (f" by a parameter in {beside[0]}" if beside else "")))
            del table[name]
    table |= {name: name.replace("_", "-") for name in BACK}
    if "--list" in argv:
        for name, new in sorted(table.items()):
            print(name, new)
        for name, why in kept:
            print("kept:", name, "-", why)
        return 0
    turn(table, texts, sources)
    for name, why in kept:
        print("kept:", name, "-", why)
    return 0


def replaced(text, table):
    return TOKEN.sub(lambda m: table.get(m.group(0), m.group(0)), text)


def comment(text, table):
    camel = {a: b for a, b in table.items() if re.search("[A-Z]", a)}
    text = re.sub(r"`([^`]*)`", lambda m: "`" + replaced(m.group(1), table) + "`", text)
    return replaced(text, camel)


def crate(text):
    old, new = CRATE
    text = re.sub(rf"\bRattle\.{old}\.", f"Rattle.{new}.", text)
    return re.sub(rf"(?<![\w:]){old}::", f"{new}::", text)


def antt(text, table):
    out = []
    for line in text.split("\n"):
        at = line.find("--") if re.search(r"(^|\s)--(\s|$)", line) else -1
        code, note = (line, "") if at < 0 else (line[:at], line[at:])
        out.append(crate(replaced(code, table)) + comment(note, table))
    return "\n".join(out)


def rust(text, table):
    out = []
    for line in text.split("\n"):
        at = line.find("//") if re.search(r"(^|\s)//", line) else -1
        code, note = (line, "") if at < 0 else (line[:at], line[at:])
        pieces = re.split(r'(b?"(?:\\.|[^"\\])*")', code)
        code = "".join(x if i % 2 else crate(replaced(x, table)) for i, x in enumerate(pieces))
        out.append(code + comment(note, table))
    return "\n".join(out)


def turn(table, texts, sources):
    for path, text in texts.items():
        new = antt(text, table)
        if new != text:
            with open(path, "w", encoding="utf-8") as f:
                f.write(new)
    for path, text in sources.items():
        new = rust(text, table)
        if new != text:
            with open(path, "w", encoding="utf-8") as f:
                f.write(new)
    for path in files(".edit"):
        text = read(path)
        turned_by = antt if re.search(r"(?m)^file: .*\.antt", text) else rust
        new = "\n".join(line[:5] + turned_by(line[5:], table) if line.startswith(("old: ", "new: ")) else line for line in text.split("\n"))
        if new != text:
            with open(path, "w", encoding="utf-8") as f:
                f.write(new)
    old, new = CRATE
    if os.path.isdir(f"crates/{old}"):
        os.rename(f"crates/{old}", f"crates/{new}")
    lines = read("crates.txt").split("\n")
    for i, line in enumerate(lines):
        if not line.startswith("#") and ":" in line:
            lines[i] = re.sub(rf"(?<![\w]){old}(?![\w])", new, line)
    with open("crates.txt", "w", encoding="utf-8") as f:
        f.write("\n".join(lines))


if __name__ == "__main__":
    sys.exit(main(sys.argv[1:]))
