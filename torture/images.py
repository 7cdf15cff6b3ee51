"""What a power cut may leave of files, and what their pages say: cuts.py and settles.py use it."""

import os
import re
import sys


def text(hexed):
    return bytes(int(b, 16) for b in hexed.split("\\x")[1:])


def events(log, names):
    """What began and ended with the files of these names, in order: ('write', number, file, offset, bytes), ('sync', number, file), ('end', number)."""
    found, open_calls, number = [], {}, 0
    for line in log:
        started = re.match(r'(\d+) +(pwrite64|fdatasync|fsync)\((\d+)<([^>]*)>(?:, "([^"]*)", \d+, (\d+))?(\)| <unfinished)', line)
        resumed = re.match(r"(\d+) +<\.\.\. (pwrite64|fdatasync|fsync) resumed>.*= (-?\d+)", line)
        if started:
            number += 1
            name = os.path.basename(text(started[4]).decode())
            if name not in names:
                continue
            if started[2] == "pwrite64":
                found.append(("write", number, name, int(started[6]), text(started[5])))
            else:
                found.append(("sync", number, name))
            if started[7] == ")":
                found.append(("end", number))
            else:
                open_calls[started[1]] = number
        elif resumed:
            found.append(("end", open_calls.pop(resumed[1])))
        elif "pwrite64(" in line or "sync(" in line:
            sys.exit("not understood: " + line[:200])
    return found


def torn(draw, old, new):
    """What may stand of a write."""
    how = draw.randrange(6)
    if how == 0:
        return old
    if how == 1:
        return new
    at = draw.randrange(len(new) + 1)
    if how == 2:
        return new[:at] + old[at:]
    if how == 3:
        return old[:at] + new[at:]
    if how == 4:
        return bytes(draw.choice(pair) for pair in zip(old, new))
    return bytes(draw.randrange(256) for _ in new)


def image(draw, before, found, instant):
    """The files as a power cut at this instant may leave them, which were so before."""
    files = {name: bytearray(bytes_of) for name, bytes_of in before.items()}
    waits = {name: [] for name in files}   # writes that began and aren't durable
    ended, syncs = set(), {}
    for event in found[:instant]:
        if event[0] == "write":
            waits[event[2]].append(event)
        elif event[0] == "sync":
            syncs[event[1]] = (event[2], [w for w in waits[event[2]] if w[1] in ended])
        else:
            ended.add(event[1])
            if event[1] in syncs:
                name, durable = syncs.pop(event[1])
                for write in durable:
                    if write in waits[name]:
                        files[name][write[3]:write[3] + len(write[4])] = write[4]
                        waits[name].remove(write)
    for name in files:
        for write in waits[name]:
            old = bytes(files[name][write[3]:write[3] + len(write[4])])
            files[name][write[3]:write[3] + len(write[4])] = torn(draw, old, write[4])
    return files


def length_of(page, place):
    """How long the effect is that stands there in a repository's log; its values are numbers."""
    tag = page[place]
    if tag == 4:
        return 28 if page[place + 11] == 3 else 12
    return {1: 35, 2: 20, 3: 19, 5: 12}[tag]


def committed(files):
    """The stamps of the attempts that have a decision to commit in their home's log: clock, then broker."""
    stamps = []
    for home in (1, 2):
        whole = files["repository-%d-0" % home]
        for at in range(0, len(whole), 4096):
            page = whole[at:at + 4096]
            # A page with a piece of a long text has no other effect.
            if page[0] != 0xA5 or page[1] != 2 or page[4] != 0:
                continue
            size, place = int.from_bytes(page[2:4], "big"), 5
            while place < 5 + size:
                if page[place] == 4 and page[place + 10] == home and page[place + 11] == 1:
                    stamps.append((int.from_bytes(page[place + 1:place + 9], "big"), page[place + 9]))
                place += length_of(page, place)
    return stamps
