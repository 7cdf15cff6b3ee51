"""full.py FILE EFFECTS: a repository's file with so many effects, by docs/FORMATS.md alone: attempts that each begin, read, write one of 1,000 objects and commit."""

import sys

file, count = open(sys.argv[1], "wb"), int(sys.argv[2])
places, pages, body = {}, 0, b""


def close():
    global pages, body
    file.write((b"\xa5\x02" + len(body).to_bytes(2, "big") + b"\x00" + body).ljust(4096, b"\0"))
    pages, body = pages + 1, b""


def add(effect):
    global body
    if len(body) + len(effect) > 4091:
        close()
    body += effect


made = 0
for clock in range(1, count // 4 + 1):
    stamp, number = clock.to_bytes(8, "big") + b"\x01\x01", clock % 1000
    thing = b"\x01" + number.to_bytes(4, "big")
    add(b"\x03" + stamp + (clock + 5).to_bytes(8, "big"))
    add(b"\x02" + thing + stamp + (1).to_bytes(4, "big"))
    put = b"\x01" + thing + stamp + (2).to_bytes(4, "big") + b"\x01" + clock.to_bytes(8, "big")
    if len(body) + len(put) + 6 > 4091:
        close()
    place = pages.to_bytes(4, "big") + (len(body) + 5).to_bytes(2, "big")
    add(put + places.get(number, b"\xff" * 6))
    places[number] = place
    add(b"\x04" + stamp + b"\x01")
close()
file.write(bytes(4096 * 64))
