#!/usr/bin/env python3
"""tests/planted.py [-jN] [WORD...] plants each fault of tests/planted/TEST/*.edit in a copy of the tree in a temporary
folder (rt ci refuses a tree with a copy of itself in it), runs TEST there with seed 1, and says whether the test failed with
the message that the edit asks for. With words, only the edits that have one of them in their path or description. N are
tried at a time, by default one for each processor. It ends with status 1 if a fault was not seen.

An edit has the form of crates/*/must-fail/*.edit: a description after #, `message:` (a regular expression), `file:`, and for
each change the lines of the file after `old:`, which stand there once, and those in their place after `new:`."""
import concurrent.futures
import glob
import os
import queue
import re
import shutil
import subprocess
import sys
import tempfile

ROOT = os.path.join(os.path.dirname(os.path.abspath(__file__)), "..")
ARCHIVES = [f"target/staticlib/lib{name}.a" for name in ("orderset_c", "orderset2_c", "orderset_log_c")]
PROGRAMS = ["crates/report/out/report", "crates/plug/out/plug"]
BUILT = [*ARCHIVES, *PROGRAMS]
PARTS = "Makefile crates.txt README.md include src examples tests tools command man docs bindings".split()


class Edit:
    def __init__(self, path):
        self.path, self.test, self.changes, last = path, os.path.basename(os.path.dirname(path)), [], ""
        for line in open(path).read().splitlines():
            kind, _, text = ("#:" + line[1:] if line[0] == "#" else line).partition(":")
            text = text[1:] if text[:1] == " " else text
            if kind == "old" and last != "old":
                self.changes.append(([], []))
            if kind in ("old", "new"):
                self.changes[-1][kind == "new"].append(text)
            else:
                setattr(self, {"#": "what"}.get(kind, kind), text)
            last = kind

    def apply(self, text):
        """The text with the fault; or None where an old text does not stand there once."""
        text = f"\n{text}"
        places = [(text.find(f"\n{(old := chr(10).join(lines))}\n") + 1, old, new) for lines, new in self.changes]
        if any(text.count(f"\n{old}\n") != 1 for _, old, _ in places):
            return None
        for at, old, new in sorted(places, reverse=True):
            text = text[:at] + "\n".join(new) + text[at + len(old):]
        return text[1:]


def copy_tree(tree):
    os.makedirs(f"{tree}/target")
    subprocess.run(["cp", "-rp", *PARTS, tree], check=True)
    os.symlink(os.path.abspath("target/staticlib"), f"{tree}/target/staticlib")
    for program in PROGRAMS:
        os.makedirs(os.path.dirname(f"{tree}/{program}"))
        os.symlink(os.path.abspath(program), f"{tree}/{program}")
    subprocess.run(["cp", "-rp", *glob.glob("target/[clr]*"), f"{tree}/target"], check=True)


def attempt(edit, trees):
    """What was said where the fault was seen; else None and why. What an earlier fault may have left is removed."""
    tree = trees.get()
    shutil.rmtree(f"{tree}/target/lib", ignore_errors=True)
    for left in {*glob.glob(f"{tree}/target/c/*.img*"), *glob.glob(f"{tree}/target/c/*.log*")}:
        os.remove(left)
    try:
        path = os.path.join(tree, edit.file)
        text = open(path).read()
        faulty = edit.apply(text)
        if faulty is None:
            return None, "the edit does not fit the file"
        open(path, "w").write(faulty)
        done = subprocess.run(["make", "-s", "-C", tree, *(w for b in BUILT for w in ("-o", b)), f"run-{edit.test}", "SEED=1",
                               "WARNINGS=-Wall -Wextra"], text=True, stdout=subprocess.PIPE, stderr=subprocess.STDOUT,
                              errors="replace", env={k: v for k, v in os.environ.items() if "MAKE" not in k})
        open(path, "w").write(text)
        found = re.search(rf".*(?:{edit.message}).*", done.stdout, re.M)
        return (found[0] if done.returncode and found else None), "\n".join(done.stdout.splitlines()[-5:])
    finally:
        trees.put(tree)


def main():
    os.chdir(ROOT)
    at_once = next((int(w[2:]) for w in sys.argv[1:] if re.fullmatch(r"-j\d+", w)), os.cpu_count())
    words = [w for w in sys.argv[1:] if not w.startswith("-j")]
    edits = [Edit(path) for path in sorted(glob.glob("tests/planted/*/*.edit"))]
    edits = [e for e in edits if not words or any(w in f"{e.path} {e.what}" for w in words)]
    trees, unseen = queue.Queue(), 0
    with tempfile.TemporaryDirectory(prefix="planted-") as room, concurrent.futures.ThreadPoolExecutor(at_once) as pool:
        for i in range(min(at_once, len(edits))):
            copy_tree(f"{room}/{i}")
            trees.put(f"{room}/{i}")
        for edit, (seen, said) in zip(edits, pool.map(lambda e: attempt(e, trees), edits)):
            unseen += seen is None
            print(f"seen      {edit.test}: {edit.what}: {seen[:100]}" if seen else f"NOT SEEN  {edit.path}: {said}", flush=True)
    print(f"{len(edits)} faults planted, {len(edits) - unseen} seen")
    sys.exit(1 if unseen or not edits else 0)


if __name__ == "__main__":
    main()
