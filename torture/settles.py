"""Kills and power cuts of a settle. settles.py PROGRAM FOLDER IMAGES SEED

A run whose acts add 1 to 1.1 and to 2.1 is cut off by `--messages`, and its deadlines pass. Then `settle 2` is recorded
by strace, images are made of what a power cut at one instant of it may leave, and as many settles are ended by their
process ids. Each folder that is left settles again. What is right is worked out from the pages before the first
settle: an attempt is committed if its home has a decision to commit, each of them added 1, and no settle changes that. So after
it both objects have their number, nothing is open, and another settle changes no byte.
"""

import os
import random
import shutil
import subprocess
import sys
import time

sys.dont_write_bytecode = True

from images import committed, events, image

PROGRAM, FOLDER, IMAGES, SEED = sys.argv[1], sys.argv[2], int(sys.argv[3]), int(sys.argv[4])
PAGES = 400
CUTS_OF_A_RUN = 20
KILLS_OF_A_RUN = 20
# The last clock that there is.
END = "1099511627775"
FILES = ["repository-1-0", "repository-2-0"]
ACT = "read a 1.1\nread b 2.1\nwrite 1.1 given(a, 0) + 1\nwrite 2.1 given(b, 0) + 1\ndone\n"
draw = random.Random(SEED)


def plan(acts):
    lines = "swallow plan 1\nrun 1\nrepositories 2\nbrokers 2\n"
    for i in range(acts):
        lines += "act broker %d home %d timeout 1 tries 30\n" % (i % 2 + 1, i % 2 + 1) + ACT
    return lines


def call(folder, words, given=""):
    done = subprocess.run([PROGRAM, folder] + words, input=given.encode(), stdout=subprocess.PIPE, stderr=subprocess.PIPE)
    return done.returncode, done.stdout.decode()


def files_of(folder):
    return {name: open(os.path.join(folder, name), "rb").read() for name in FILES}


def lay(files):
    """A folder with these files."""
    folder = os.path.join(FOLDER, "image")
    shutil.rmtree(folder, ignore_errors=True)
    os.mkdir(folder)
    for name, bytes_of in files.items():
        with open(os.path.join(folder, name), "wb") as file:
            file.write(bytes_of)
    return folder


def judge(folder, stamps):
    """Whether the folder settles as it has to, if these attempts are committed."""
    def right(what, is_so, told):
        if not is_so:
            kept = os.path.join(FOLDER, "wrong")
            shutil.rmtree(kept, ignore_errors=True)
            shutil.copytree(folder, kept)
            sys.exit("wrong: %s; the files are in %s\n%s" % (what, kept, told))

    status, text = call(folder, ["settle", "2"])
    lines = text.splitlines()
    right("a settle leaves nothing open", status == 0 and len(lines) == 3 and all(line.endswith(" open 0") for line in lines[1:]), text)
    settled = files_of(folder)
    right("the same attempts are committed", sorted(committed(settled)) == sorted(stamps), text)
    for repository in (1, 2):
        status, text = call(folder, ["asof", str(repository), END])
        values = ["value %d.1 %d" % (repository, len(stamps))] if stamps else []
        right("the map of %d with %d committed" % (repository, len(stamps)), status == 0 and text.splitlines()[1:] == values, text)
    status, text = call(folder, ["settle", "2"])
    none = "settle repositories 2\n" + "".join("repository %d committed 0 aborted 0 open 0\n" % r for r in (1, 2))
    right("another settle does nothing", (status, text) == (0, none) and files_of(folder) == settled, text)


def main():
    images, kills, doubts = 0, 0, 0
    while images < IMAGES:
        folder = os.path.join(FOLDER, "data")
        shutil.rmtree(folder, ignore_errors=True)
        os.mkdir(folder)
        for name in FILES:
            with open(os.path.join(folder, name), "wb") as file:
                file.truncate(4096 * PAGES)
        status, report = call(folder, ["run", "--messages", str(draw.randrange(8, 120))], plan(12))
        if status == 0:
            continue
        if status != 5:
            sys.exit("status %d of a run that was cut off\n%s" % (status, report))
        # Each deadline is a second after its attempt began, and the clock counts whole seconds.
        time.sleep(2.1)
        before = files_of(folder)
        stamps = committed(before)
        record = os.path.join(FOLDER, "record")
        traced = ["strace", "-f", "-y", "-xx", "-s", "70000", "-e", "trace=pwrite64,fdatasync,fsync", "-o", record]
        subprocess.run(traced + [PROGRAM, lay(before), "settle", "2"], stdout=subprocess.PIPE, check=True)
        found = events(open(record), FILES)
        doubts += sum(event[0] == "write" for event in found)
        for _ in range(min(CUTS_OF_A_RUN, IMAGES - images)):
            judge(lay(image(draw, before, found, draw.randrange(len(found) + 1))), stamps)
            images += 1
        for _ in range(KILLS_OF_A_RUN):
            place = lay(before)
            settling = subprocess.Popen([PROGRAM, place, "settle", "2"], stdout=subprocess.PIPE)
            time.sleep(draw.random() * 0.01)
            settling.kill()
            settling.communicate()
            judge(place, stamps)
            kills += 1
    if doubts == 0:
        sys.exit("no settle had anything to write")
    print("images %d, kills %d: none wrong; the settles that were recorded wrote %d pages" % (images, kills, doubts))


main()
