"""Instructions of an append with its persist, by callgrind: log_count.py PROGRAM > CSV. The program is log, for a processor that valgrind knows."""
import re
import subprocess
import sys
import tempfile

CALLS = 2000


def inclusive(program, cells, size):
    """Instructions of each function of the program that is named count_log_..., with what it calls."""
    with tempfile.NamedTemporaryFile() as out:
        run = ["valgrind", "--tool=callgrind", "--callgrind-out-file=" + out.name, program, "count", str(cells), str(size)]
        subprocess.run(run, check=True, stdout=subprocess.DEVNULL, stderr=subprocess.DEVNULL)
        annotate = ["callgrind_annotate", "--inclusive=yes", "--threshold=100", "--auto=no", out.name]
        text = subprocess.run(annotate, check=True, capture_output=True, text=True).stdout
    return {name: int(number.replace(",", "")) for number, name in re.findall(r"^\s*([\d,]+)\s.*?:count_(log_\w+)", text, re.M)}


print("cells,size,engine,instructions")
for cells in (16, 1000):
    for size in (64, 384):
        for engine, found in inclusive(sys.argv[1], cells, size).items():
            print(f"{cells},{size},{engine},{found / CALLS:.1f}", flush=True)
