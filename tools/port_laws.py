#!/usr/bin/env python3
"""tools/port_laws.py OLD NEW compares what the files of crates/NAME/proofs/*.antt declare in two checkouts (functions'
proofs, which have folders of their own, are left out, as are the crates SKIPPED): names with their statements, fields of
records and laws inside modules among them. It prints how many OLD has, how many of these have no declaration of their
name in NEW, how many only ones with another statement, and how many stand, in whatever file; for public ones and for
all. With --list the names too, those of public ones. White space does not count; what a module takes is not compared."""
import glob
import os
import re
import sys

SKIPPED = {"mir_steps", "calls_basket_list_code", "lists_code", "stores_list_code"}


def declarations(root):
    """name: [(public, crate/File, statement)]"""
    found = {}
    for path in sorted(glob.glob(f"{root}/crates/*/proofs/*.antt")):
        crate, file = path.split(os.sep)[-3], os.path.basename(path)[:-5]
        if crate in SKIPPED:
            continue
        lines = open(path).read().split("\n")
        at = 0
        while at < len(lines):
            match = re.match(r"^(\s*)(?:abbrev )?(pub )?([^\s:(){}]+) : (.*)$", lines[at])
            at += 1
            if not match or match[3] in ("--", "use", "module"):
                continue
            statement = [match[4]]
            while at < len(lines) and lines[at].strip() and len(lines[at]) - len(lines[at].lstrip()) > len(match[1]):
                statement.append(lines[at])
                at += 1
            found.setdefault(match[3], []).append((bool(match[2]), f"{crate}/{file}", " ".join(" ".join(statement).split())))
    return found


def main():
    words = [word for word in sys.argv[1:] if word != "--list"]
    if len(words) != 2:
        sys.exit("usage: tools/port_laws.py [--list] OLD NEW")
    old, new = map(declarations, words)
    for kind, public in ("public", True), ("all", False):
        gone, other, count = [], [], 0
        for name, places in sorted(old.items()):
            for is_public, place, statement in places:
                if is_public or not public:
                    count += 1
                    if name not in new:
                        gone.append(f"{place} {name}")
                    elif all(statement != there for _, _, there in new[name]):
                        other.append(f"{place} {name}")
        print(f"{kind}: {count}, gone {len(gone)}, another statement {len(other)}, stand {count - len(gone) - len(other)}")
        if public and "--list" in sys.argv:
            print(*(f"  gone   {name}" for name in gone), *(f"  other  {name}" for name in other), sep="\n")


main()
