#!/usr/bin/env python3
"""tests/command.py FOLDER PLUG runs the command orderset of that folder on good, wrong and damaged files, and compares what
it prints and its status with what the files, made here byte by byte, must give; PLUG is the program plug. Each
tests/command_SUBJECT.py has the tests of a subject. It ends with status 1 at the first thing that is not so.

tests/command.py --picture FILE writes the file of which docs/command-picture.svg is the picture."""
import os
import sys
import tempfile

import command_bad
import command_check
import command_live
import command_log
import command_make
import command_show
import command_trace
from command_files import Desk, comparisons, picture_image


def main():
    if sys.argv[1] == "--picture":
        open(sys.argv[2], "wb").write(picture_image().bytes)
        return
    tools, plug = (os.path.abspath(word) for word in sys.argv[1:3])
    os.chdir(os.path.join(os.path.dirname(os.path.abspath(__file__)), ".."))
    for subject in command_show, command_check, command_make, command_log, command_trace, command_live, command_bad:
        with tempfile.TemporaryDirectory() as folder:
            for test in subject.TESTS:
                test(Desk(tools, folder, plug))
    print(f"command: {comparisons[0]} comparisons")


if __name__ == "__main__":
    main()
