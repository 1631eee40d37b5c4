"""Compares the C library with the programs, and `loads` with json and ujson.

Usage: speed.py SPEED RESHAPE MEZDRUK, the built speed.c and the built programs. It prints processor
times, and with valgrind also instructions, which other work on the machine does not change.
"""

import json
import os
import random
import resource
import shutil
import subprocess
import sys
import tempfile

EDITS = {"records": '[["set",[0,"name"],"Ada"]]', "words": '[["set",[0,0],"Ada"]]'}
SMALL = {"records": '[{"name":1}]', "words": '[[1]]'}
READERS = {"mezdruk": "import mezdruk as m", "json": "import json as m", "ujson": "import ujson as m"}
WORDS = "amber birch cedar dune ember fjord grove heath inlet juniper knoll lagoon".split()


def records(source, size):
    """Returns a text of records of about this size."""
    made = []
    for number in range(size // 165):
        made.append({
            "id": number, "guid": "%032x" % source.getrandbits(128), "active": source.random() < 0.5,
            "balance": round(source.uniform(-1e6, 1e6), 2), "note": None,
            "name": " ".join(source.choice(WORDS) for _ in range(3)),
            "tags": [source.choice(WORDS) for _ in range(source.randrange(4))],
        })
    return json.dumps(made)


def words(source, size):
    """Returns a text of lists of short strings of about this size."""
    return json.dumps([[source.choice(WORDS)[:source.randrange(1, 8)] for _ in range(12)]
                       for _ in range(size // 78)], separators=(",", ":"))


def run(command, stdin=None):
    """Runs a command, and returns its processor time and what it printed."""
    before = resource.getrusage(resource.RUSAGE_CHILDREN)
    with open(stdin or os.devnull, "rb") as source:
        ran = subprocess.run(command, stdin=source, stdout=subprocess.PIPE, check=True,
                             stderr=subprocess.DEVNULL)
    after = resource.getrusage(resource.RUSAGE_CHILDREN)
    return after.ru_utime + after.ru_stime - before.ru_utime - before.ru_stime, ran.stdout


def instructions(command, stdin=None):
    """Returns how many instructions a command takes."""
    with tempfile.NamedTemporaryFile("r") as counted:
        run(["valgrind", "--tool=callgrind", f"--callgrind-out-file={counted.name}", *command], stdin)
        return sum(int(line.split()[1]) for line in counted if line.startswith(("totals:",)))


def beside_program(speed, call, command, path, small, edits):
    """Prints a call beside the program, both without their start."""
    least = min(run(command(path), path)[0] for _ in range(9)) \
        - min(run(command(small), small)[0] for _ in range(9))
    took = float(run([speed, call, path, edits, "9"])[1])
    print(f"{call} {took * 1e3:.2f} ms, the program {least * 1e3:.2f} ms: {took / least:.2f}")
    if shutil.which("valgrind"):
        once, twice = (instructions([speed, call, path, edits, n]) for n in "12")
        program = instructions(command(path), path) - instructions(command(small), small)
        print(f"{call} {twice - once} instructions, the program {program}: "
              f"{(twice - once) / program:.3f}")


def beside_readers(path, size):
    """Prints the time of each reader on a file."""
    program = ("import sys, time\n{}\ntext = open(sys.argv[1], encoding='utf-8').read()\n"
               "least = 9e9\nfor _ in range(int(sys.argv[2])):\n    start = time.process_time()\n"
               "    read = m.loads(text)\n    least = min(least, time.process_time() - start)\n"
               "    del read\nprint(least)")
    for name, imported in READERS.items():
        command = [sys.executable, "-I", "-c", program.format(imported), path]
        took = float(run([*command, "15"])[1])
        print(f"{name}.loads {took * 1e3:.2f} ms", end="")
        if shutil.which("valgrind"):
            once, twice = (instructions([*command, n]) for n in "12")
            print(f", {(twice - once) / size:.1f} instructions a byte", end="")
        print()


def main():
    speed, reshape, mezdruk = sys.argv[1:]
    for name, make in (("records", records), ("words", words)):
        with tempfile.TemporaryDirectory() as room:
            path, small = os.path.join(room, "text.json"), os.path.join(room, "small.json")
            with open(path, "w", encoding="utf-8") as file:
                file.write(make(random.Random(5), 2_000_000))
            with open(small, "w", encoding="utf-8") as file:
                file.write(SMALL[name])
            size = os.path.getsize(path)
            print(f"== {name}, {size} bytes")
            if os.access(reshape, os.X_OK):
                beside_program(speed, "edit", lambda _: [reshape, EDITS[name]], path, small, EDITS[name])
            if os.access(mezdruk, os.X_OK):
                beside_program(speed, "check", lambda p: [mezdruk, "check", p], path, small, "")
            beside_readers(path, size)


main()
