"""Instructions of each operation, by callgrind: count.py PROGRAM > CSV."""
import re
import subprocess
import sys
import tempfile

CALLS = 2000
ENGINES = {"by hand": "count_hand_", "this set": "count_set_", "owner's calls": "count_own_"}
OPS = ("insert", "replace", "remove", "get", "new", "acknowledge", "fill", "withdraw")


def inclusive(program, n, heads, size):
    """Instructions of each function of the program that is named count_..., with what it calls."""
    with tempfile.NamedTemporaryFile() as out:
        run = ["valgrind", "--tool=callgrind", "--callgrind-out-file=" + out.name, program, str(n), str(heads), str(size), str(CALLS)]
        subprocess.run(run, check=True, stdout=subprocess.DEVNULL, stderr=subprocess.DEVNULL)
        text = subprocess.run(
            ["callgrind_annotate", "--inclusive=yes", "--threshold=100", "--auto=no", out.name], check=True, capture_output=True, text=True
        ).stdout
    return {name: int(number.replace(",", "")) for number, name in re.findall(r"^\s*([\d,]+)\s.*?:(count_\w+)", text, re.M)}


def main():
    program = sys.argv[1]
    print("n,heads,size,engine,op,instructions")
    for n in (1000, 65535):
        for heads in (65536, n // 4):
            for size in (24, 80):
                found = inclusive(program, n, heads, size)
                for engine, prefix in ENGINES.items():
                    for op in OPS:
                        if prefix + op in found:
                            print(f"{n},{heads},{size},{engine},{op},{found[prefix + op] / CALLS:.1f}")
                    if prefix + "recover" in found:
                        print(f"{n},{heads},{size},{engine},recover,{found[prefix + 'recover']}")
                print(f"{n},{heads},{size},persist,persist,{found['count_persist'] / CALLS:.1f}", flush=True)


main()
