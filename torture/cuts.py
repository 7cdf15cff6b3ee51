"""Power cuts of the whole system. cuts.py PROGRAM FOLDER IMAGES WORKERS SEED

Runs and retirements of the program are recorded by strace: each write and each sync of each file, in the order in
which they began and ended. Half of the runs have small acts alone; in a quarter each act also writes a text of 61,440
bytes, which takes 16 pages; and a quarter of what is recorded is a retirement after such a run. Then an instant is drawn for all files at once. What a sync had made durable by then stands; of each
write that began before the instant and wasn't made durable nothing, all, or any part may stand, also bytes that
nobody wrote. The folder with these files is opened again twice, each time as a copy: by a later run that reads both
objects, and by the same plan again, which has to end all its acts.

What is right is worked out here from the pages alone, by docs/FORMATS.md: each act adds 1 to both objects, so a
later run reads of each the number of attempts below its own in pseudotime whose home has a decision to commit on the
image, and its finals are the number of all of these; and the plan that goes on ends with as many as it says are
committed, which are at least those.
"""

import os
import random
import re
import shutil
import subprocess
import sys

sys.dont_write_bytecode = True

from images import committed, events, image

PROGRAM, FOLDER, IMAGES, WORKERS, SEED = sys.argv[1], sys.argv[2], int(sys.argv[3]), sys.argv[4], int(sys.argv[5])
PAGES = 400
CUTS_OF_A_RUN = 50
FILES = ["repository-1-0", "repository-1-1", "repository-2-0", "broker-1-0", "broker-2-0"]
ACT = "read a 1.1\nread b 2.1\nwrite 1.1 given(a, 0) + 1\nwrite 2.1 given(b, 0) + 1\n"
# The numeral ten, doubled eleven times, and three times that: 61,440 bytes.
TEXT = 'let t = "0123456789"\nrepeat 11\nlet t = t & t\nend\nlet u = t & t\nwrite 1.2 u & t\n'
MARK = "1000"
draw = random.Random(SEED)


def plan(run, acts, long):
    lines = "swallow plan 1\nrun %d\nrepositories 2\nbrokers 2\n" % run
    for i in range(acts):
        lines += "act broker %d home %d timeout 5 tries 30\n" % (i % 2 + 1, i % 2 + 1) + ACT + (TEXT if long else "") + "done\n"
    return lines


READS = "swallow plan 1\nrun 9\nrepositories 2\nbrokers 2\nact broker 1 home 1 timeout 5 tries 30\nread a 1.1\nread b 2.1\nwithdraw\ndone\n"


def fresh(folder):
    shutil.rmtree(folder, ignore_errors=True)
    os.mkdir(folder)
    for name in FILES:
        with open(os.path.join(folder, name), "wb") as file:
            file.truncate(4096 * PAGES)


def run(folder, words, given):
    done = subprocess.run([PROGRAM, folder] + words, input=given.encode(), stdout=subprocess.PIPE, stderr=subprocess.PIPE)
    return done.returncode, done.stdout.decode()


def wrong(files, why, report):
    kept = os.path.join(FOLDER, "wrong")
    shutil.rmtree(kept, ignore_errors=True)
    os.mkdir(kept)
    for name, bytes_of in files.items():
        open(os.path.join(kept, name), "wb").write(bytes_of)
    print("wrong: " + why + "; the files are in " + kept)
    print(report)
    sys.exit(1)


def judge(files, given):
    stamps = committed(files)
    count = len(stamps)
    for again in (False, True):
        folder = os.path.join(FOLDER, "image")
        shutil.rmtree(folder, ignore_errors=True)
        os.mkdir(folder)
        for name, bytes_of in files.items():
            with open(os.path.join(folder, name), "wb") as file:
                file.write(bytes_of)
        status, report = run(folder, ["run", "--workers", WORKERS], given if again else READS)
        if status != 0:
            wrong(files, "status %d" % status, report)
        if again:
            totals = int(re.search(r"^totals acts \d+ committed (\d+)", report, re.M)[1])
            finals = re.findall(r"^final \d\.1 (\d+)$", report, re.M)
            if totals < count or any(int(value) != totals for value in finals) or (totals > 0 and len(finals) != 2):
                wrong(files, "%d decisions to commit, then other finals" % count, report)
        else:
            last = report[report.rindex("try "):]
            clock, broker = re.match(r"try (\d+)\.(\d+)\.", last).groups()
            below = sum(stamp < (int(clock), int(broker)) for stamp in stamps)
            value, final = (str(n) if n else "nothing" for n in (below, count))
            reads = all("read %d.1 %s\n" % (r, value) in last for r in (1, 2))
            if not reads or count > 0 and not all("final %d.1 %s\n" % (r, final) in last for r in (1, 2)):
                wrong(files, "%d decisions to commit, but" % count, report)
    return count


def record(folder, words, given):
    """What the call did to the files, in order."""
    log = os.path.join(FOLDER, "record")
    traced = ["strace", "-f", "-y", "-xx", "-s", "70000", "-e", "trace=pwrite64,fdatasync,fsync", "-o", log]
    done = subprocess.run(traced + [PROGRAM, folder] + words, input=given.encode(), stdout=subprocess.PIPE, stderr=subprocess.DEVNULL)
    if done.returncode != 0:
        sys.exit("status %d of a call that nothing ended" % done.returncode)
    return events(open(log), FILES)


def contents(folder):
    return {name: open(os.path.join(folder, name), "rb").read() for name in FILES}


def main():
    images, tried = 0, {}
    while images < IMAGES:
        folder = os.path.join(FOLDER, "data")
        fresh(folder)
        kind = draw.choice(("acts", "acts", "long", "retire"))
        given = plan(1, draw.choice((2, 6, 12)), kind == "long" or kind == "retire" and draw.choice((False, True)))
        if kind == "retire":
            run(folder, ["run", "--workers", WORKERS], given)
            before = contents(folder)
            found = record(folder, ["retire", "1", MARK], "")
        else:
            before = contents(folder)
            found = record(folder, ["run", "--workers", WORKERS], given)
        for _ in range(min(CUTS_OF_A_RUN, IMAGES - images)):
            count = judge(image(draw, before, found, draw.randrange(len(found) + 1)), given)
            tried[(kind, count)] = tried.get((kind, count), 0) + 1
            images += 1
    print("images %d, workers %s: none wrong; by what was cut and how many acts were committed then: %s" % (images, WORKERS, " ".join("%s-%d:%d" % (*k, n) for k, n in sorted(tried.items()))))


main()
