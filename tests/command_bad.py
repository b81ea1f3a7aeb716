"""Input that is not as it should be, of every kind and to every subcommand: one clear line, and the status."""
import fcntl
import os
import re
import subprocess

from command_files import Image, log_area, picture_image, so
from command_check import refused_images

READERS = "show", "check", "log", "copy", "dump"  # these read a file of the set or of the log
SUBCOMMANDS = READERS + ("create", "create-log", "load", "trace")


def words_for(desk, subcommand, path):
    return [path, desk.path("none.img")] if subcommand == "copy" else [path]


def one_line(desk, what, subcommand, path, status, says, **options):
    seen = desk.asked(what, subcommand, words_for(desk, subcommand, path), status, "", re.compile(says), **options)
    so(len(seen[2].splitlines()) == 1 and seen[2].startswith(f"orderset {subcommand}: "), "it is one line", seen)
    so(not os.path.exists(desk.path("none.img")), "nothing is made", subcommand)


def unreadable(desk):
    path, fifo, log = desk.file("orders.img", picture_image()), desk.path("fifo"), desk.file("a.log", log_area())
    os.mkfifo(fifo)
    inner = desk.path("inner")
    os.mkdir(inner)
    for subcommand in READERS:
        good = log if subcommand == "log" else path
        one_line(desk, "a missing file", subcommand, "/nowhere/a.img", 2, ": /nowhere/a.img: No such file or directory\n")
        if subcommand != "check":
            one_line(desk, "a folder", subcommand, inner, 2, f"{inner}: no 1013: not a regular file\n")
        one_line(desk, "a pipe", subcommand, fifo, 2, f"{fifo}: no 1013: not a regular file\n")
        with open(good, "rb") as file:
            fcntl.flock(file, fcntl.LOCK_EX)
            one_line(desk, "a file that is written", subcommand, good, 2, "no 1011: .*--live")
            fcntl.flock(file, fcntl.LOCK_SH)
            if subcommand != "copy":
                so(desk.run(subcommand, good)[0] == 0, f"{subcommand} reads beside other readers")
        os.chmod(good, 0)
        limited = {} if os.geteuid() else {"user": 65534, "group": 65534, "extra_groups": []}
        if os.geteuid() or os.access(desk.program("orderset"), os.X_OK) and may_run(desk, limited):
            os.chmod(desk.folder, 0o755)
            one_line(desk, "a file of others", subcommand, good, 2, "Permission denied", **limited)
        os.chmod(good, 0o644)
    one_line(desk, "a missing trace", "trace", "/nowhere/a", 2, "/nowhere/a: No such file or directory\n")
    one_line(desk, "a folder as a trace", "trace", inner, 2, "Is a directory\n")
    os.rmdir(inner)
    os.remove(fifo)


def may_run(desk, limited):
    """Whether another user can run the command at all: its folder may be closed to others."""
    try:
        return subprocess.run([desk.program("orderset"), "--version"], stdout=subprocess.DEVNULL, **limited).returncode == 0
    except OSError:
        return False


def outputs(desk):
    """A full disk and a closed output behind standard output, and a reader that is gone."""
    path, log, trace = desk.path("orders.img"), desk.path("a.log"), desk.file("a.trace", b"new 1 5\n")
    calls = [["show", path], ["show", "--slots", path], ["show", "--svg", "-", path], ["check", path], ["log", log],
             ["dump", path], ["trace", trace], ["--help"], ["show", "--help"], ["--version"]]
    for words in calls:
        with open("/dev/full", "w") as full:
            seen = desk.run(*words, stdout=full)
            so(seen[0] == 2 and "standard output: No space left on device\n" in seen[2], f"{words}: a full disk", seen)
        command = ["/bin/sh", "-c", 'exec "$0" "$@" >&-', desk.program("orderset"), *words]
        closed = subprocess.run(command, text=True, stderr=subprocess.PIPE)
        so(closed.returncode == 2 and "standard output: Bad file descriptor\n" in closed.stderr, f"{words}: a closed output",
           closed)
        read, write = os.pipe()
        os.close(read)
        seen = desk.run(*words, stdout=write)
        os.close(write)
        so(seen[0] == 2 and "standard output: Broken pipe\n" in seen[2], f"{words}: a reader that is gone", seen)


def arguments(desk):
    path = desk.path("orders.img")
    desk.asked("help", "--help", [], 0, re.compile("^usage: orderset SUBCOMMAND "))
    desk.asked("the version", "--version", [], 0, re.compile(r"^orderset \d+\.\d+\.\d+\n$"))
    desk.asked("no such subcommand", "sell", [path], 2, "", "orderset: no such subcommand: sell (orderset --help tells more)\n")
    done = subprocess.run([desk.program("orderset")], capture_output=True, text=True)
    so((done.returncode, done.stdout, done.stderr) == (2, "", "orderset: which subcommand? (orderset --help tells more)\n"),
       "no subcommand", done)
    for subcommand in SUBCOMMANDS:
        help_text = desk.asked("help", subcommand, ["--help"], 0, re.compile(f"^usage: orderset {subcommand} "))[1]
        so("--json" in help_text and "Status: 0" in help_text or subcommand == "check", "help tells of status and JSON",
           help_text)
        so(all(len(line) <= 120 for line in help_text.splitlines()), "help has short lines", help_text)
        desk.asked("the version", subcommand, ["--version"], 0, re.compile(r"^orderset \d+\.\d+\.\d+\n$"))
        many = [path] * (3 if subcommand == "copy" else 2)
        for words, says in ([], "which file"), (["--no", path], "no such option: --no"), (["-x", path], "no such option: -x"), \
                (["--json=1", path], "followed by nothing"), (many, "one file too many"):
            if subcommand == "check" and words is many:
                continue
            seen = desk.asked(f"arguments {words}", subcommand, words, 2, "", re.compile(says))
            so(seen[2].endswith(f"(orderset {subcommand} --help tells more)\n"), "bad arguments are told where help is", seen)
    desk.asked("one file of two", "copy", [path], 2, "", re.compile("a file more"))
    desk.asked("no picture", "show", [path, "--svg"], 2, "", re.compile("--svg needs"))
    for words in ["--slots", "--svg", "a.svg"], ["--slots", "--count"], ["--count", "--svg", "a.svg"]:
        desk.asked("two of them", "show", [*words, path], 2, "", re.compile("no two of them"))


def read_once(desk):
    """A file is read once, under the lock, and what is said is of that copy, whatever the name becomes after that."""
    contents = [content for _, _, _, content in refused_images()] + [picture_image(), log_area()]
    for content in contents:
        path = desk.file("once.img", content)
        for subcommand in "check", "show":
            due = desk.run(subcommand, path)
            for swap in "fifo", "short", "other":
                os.remove(path)
                desk.file("once.img", content)
                desk.file("once.img.other", Image(5))
                try:
                    seen = desk.run(subcommand, path, env=desk.preloaded(PRELOAD_SWAP=swap, PRELOAD_FILE=path), timeout=10)
                except subprocess.TimeoutExpired:
                    seen = "it hangs"
                so(seen == due, f"{subcommand} says the same where the name becomes {swap} after it was read", seen, due)
            os.remove(path)
            desk.file("once.img", content)
    for subcommand in "check", "show":
        path = desk.file("once.img", picture_image())
        seen = desk.run(subcommand, path, env=desk.preloaded(PRELOAD_SWAP="cut", PRELOAD_FILE=path))
        so(seen == (2, "", f"orderset {subcommand}: {path}: Input/output error\n"),
           f"{subcommand} tells that the file becomes shorter", seen)


TESTS = unreadable, outputs, arguments, read_once
