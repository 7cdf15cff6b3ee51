#!/usr/bin/env python3
"""replays.py PROGRAM COUNT [SEED]: turns one bit at random, COUNT times, in copies of folders that PROGRAM (swallow) left, each behind an open gate,
and counts by kind of effect what `replay` says: that a file is damaged, that the logs differ, or that they replay. Of those that replay it compares
what `snapshot`, `audit` and `history` show with the folder before. It writes a table, and ends with status 1 if a change of a committed value, an
answer or a script was neither found nor without effect."""
import os
import random
import shutil
import subprocess
import sys
import tempfile

sys.dont_write_bytecode = True
sys.path.insert(0, os.path.dirname(os.path.realpath(__file__)))
sys.path.insert(0, os.path.join(os.path.dirname(os.path.abspath(__file__)), "..", "tools"))
from pages import Bad, Reader

TOP = os.path.dirname(os.path.dirname(os.path.realpath(__file__)))
FOLDERS = [
    ("load", [(["load", "7", "60"], None)]),
    ("retired", [(["load", "3", "40"], None), (["retire", "1", "20"], None)]),
    ("bank", [(["run"], "examples/first.plan"), (["run"], "examples/homes.plan")]),
    ("cut", [(["run", "--messages", "17"], "examples/settle/two.plan"), (["settle", "2"], None)]),
]


def call(program, folder, *words, given=None):
    done = subprocess.run([program, folder, *words], stdin=open(given) if given else subprocess.DEVNULL, stdout=subprocess.PIPE, stderr=subprocess.DEVNULL, check=False)
    return done.returncode, done.stdout.decode("latin-1")


# The bytes of all effects: of each the file, where it begins, how long it is, and its kind.
def places(folder):
    found = []
    for name in sorted(os.listdir(folder)):
        if name == "lock":
            continue
        data = open(f"{folder}/{name}", "rb").read()
        for page in range(len(data) // 4096):
            here = data[4096 * page : 4096 * page + 4096]
            if here[0] != 0xA5 or here[4] != 0:
                continue
            body = here[5 : 5 + int.from_bytes(here[2:4], "big")]
            reader = Reader(body)
            try:
                while reader.at < len(body):
                    begins = reader.at
                    effect = reader.effect()
                    found.append((name, 4096 * page + 5 + begins, reader.at - begins, effect[0]))
            except Bad:
                pass
    return found


# What the commands show that read the folder alone.
def shown(program, folder, objects):
    texts = [call(program, folder, "snapshot")]
    for object in objects:
        texts += [call(program, folder, "audit", object), call(program, folder, "history", object)]
    return texts


def main():
    if len(sys.argv) not in (3, 4):
        sys.exit(__doc__)
    program, count = os.path.realpath(sys.argv[1]), int(sys.argv[2])
    draw = random.Random(int(sys.argv[3]) if len(sys.argv) == 4 else 1)
    table, missed = {}, 0
    with tempfile.TemporaryDirectory() as work:
        folders = []
        for name, calls in FOLDERS:
            folder = f"{work}/{name}"
            for words, given in calls:
                call(program, folder, *words, given=given and f"{TOP}/{given}")
            status, text = call(program, folder, "replay", "--values")
            if status:
                sys.exit(f"{name} doesn't replay: status {status}, {text}")
            objects = [line.split()[1] for line in text.splitlines() if line.startswith("value ")][:3]
            folders.append((folder, places(folder), objects, shown(program, folder, objects)))
        for _ in range(count):
            folder, effects, objects, before = draw.choice(folders)
            name, begins, size, kind = draw.choice(effects)
            copy = f"{work}/copy"
            shutil.rmtree(copy, ignore_errors=True)
            shutil.copytree(folder, copy)
            with open(f"{copy}/{name}", "r+b") as file:
                at = begins + draw.randrange(size)
                file.seek(at)
                byte = file.read(1)[0] ^ (1 << draw.randrange(8))
                file.seek(at)
                file.write(bytes([byte]))
            status, text = call(program, copy, "replay")
            came = {6: "damaged", 8: "differs"}.get(status, f"status {status}")
            if status == 0:
                same = shown(program, copy, objects) == before
                came = "same" if same else "shown"
                missed += not same and kind in ("put", "got", "act")
            row = table.setdefault(kind, {})
            row[came] = row.get(came, 0) + 1
    columns = ["damaged", "differs", "same", "shown"]
    columns += sorted({came for row in table.values() for came in row} - set(columns))
    print(f"| Effect | {' | '.join(columns)} |")
    print("|---|" + "---|" * len(columns))
    for kind in sorted(table):
        print(f"| {kind} | {' | '.join(str(table[kind].get(came, 0)) for came in columns)} |")
    print(f"{count} bits turned; {missed} changes of a version, an answer or a script replay and are shown by another command")
    sys.exit(missed > 0)


if __name__ == "__main__":
    main()
