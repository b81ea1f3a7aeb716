"""--live: looks at files that a gateway and a recorder have open."""
import os
import re
import subprocess

from command_files import so

NOTE = "{}: a live look: the call in flight may be shown before it is durable\n"


class Running:
    """A program that has its file open, and answers each line."""

    def __init__(self, program, path):
        self.process = subprocess.Popen([program, path], text=True, stdin=subprocess.PIPE, stdout=subprocess.PIPE)

    def say(self, line):
        self.process.stdin.write(line + "\n")
        self.process.stdin.flush()
        return self.process.stdout.readline()

    def end(self):
        self.process.stdin.close()
        self.process.stdout.read()
        return self.process.wait()


def gateway(desk):
    for layout in "1", "2":
        path, to = desk.path(f"live{layout}.img"), desk.path("copy.img")
        so(desk.run("create", path, "--slots", "1000", "--layout", layout)[0] == 0, "a set is made")
        running = Running(desk.program("gateway"), path)
        running.process.stdout.readline()
        for number in range(1, 41):
            answer = running.say(f"basket 2 new {2 * number} 5 new {2 * number + 1} 6")
            so(answer.endswith("done\n"), "the gateway goes on", answer)
            for subcommand in "show", "check", "dump", "copy":
                words = [path, to] if subcommand == "copy" else [path]
                if number == 1:
                    desk.asked("without --live", subcommand, words, 2, "",
                               re.compile(r"no 1011: .*; --live looks at it all the same\n"))
                if number % 10 and subcommand != "show":
                    continue
                seen = desk.run(subcommand, *words, "--live")
                so(seen[0] == 0 and seen[2] == f"orderset {subcommand}: " + NOTE.format(path), f"{subcommand} --live", seen)
                if subcommand in ("show", "dump"):
                    orders = [line for line in seen[1].splitlines() if line[0] != "#"]
                    so(len(orders) == 2 * number, f"{subcommand} --live shows what was answered", number, seen)
            if number % 10 == 0:
                so(len(desk.run("show", to)[1].splitlines()) == 2 * number, "copy --live has what was answered")
                os.remove(to)
        picture = desk.path("live.svg")
        so(desk.run("show", path, "--live", "--svg", picture)[0] == 0 and open(picture).read().count("<rect") == 1000,
           "a live picture")
        os.remove(picture)
        so(running.end() == 0, "the gateway ends")
        so(desk.run("show", path)[0] == 0 and len(desk.run("show", path)[1].splitlines()) == 80, "all is there")


def recorder(desk):
    path = desk.path("live.log")
    so(desk.run("create-log", path, "--cells", "100")[0] == 0, "a log is made")
    running = Running(desk.program("recorder"), path)
    for number in range(1, 31):
        so(running.say(f"message {number}") == f"message {number}\n", "the recorder goes on")
        seen = desk.run("log", path, "--live", "--last", "1")
        so(seen == (0, f"{number}: message {number}\n", "orderset log: " + NOTE.format(path)), "log --live", seen)
    desk.asked("without --live", "log", [path], 2, "", re.compile("no 1011: "))
    so(running.end() == 0, "the recorder ends")


TESTS = gateway, recorder
