#!/usr/bin/env python3
"""pages.py FOLDER PAGE [--object R.N] [--repository R] [--from CLOCK] [--to CLOCK]: whether PAGE is what swallow_look shows of FOLDER. It is worked out
here from the bytes of the files by docs/FORMATS.md, over plain lists, and shares nothing with the program but the page's head (the style). Each link has
to lead somewhere, no place may be there twice, and headings and heads of tables have to be in order. `pages.py --cases STDOUT DATA` does so for each page
of look_cases."""
import os
import re
import struct
import sys
from html.parser import HTMLParser

BLANK = bytes(4096)
ENDS = {1: "committed", 2: "withdrawn", 3: "failed", 4: "refused", 5: "refused", 6: "expired", 7: "spent"}
KINDS = [None, "overflow", "division", "kind", "long", "object", "count", "budget"]


class Bad(Exception):
    pass


class Reader:
    def __init__(self, data):
        self.data, self.at = data, 0

    def take(self, count):
        if self.at + count > len(self.data):
            raise Bad
        self.at += count
        return self.data[self.at - count : self.at]

    def number(self, count, low=0, high=None):
        n = int.from_bytes(self.take(count), "big")
        if n < low or high is not None and n > high:
            raise Bad
        return n

    def stamp(self):
        return (self.number(8, 1, 2**40 - 1), self.number(1, 1, 16), self.number(1, 1, 16))

    def time(self):
        return (*self.stamp(), self.number(4, 1))

    def object(self):
        return (self.number(1, 1, 16), self.number(4))

    def value(self):
        tag = self.number(1, 0, 3)
        if tag == 0:
            return None
        if tag == 1:
            return struct.unpack(">q", self.take(8))[0]
        size = self.number(2, 0, 1000) if tag == 2 else self.number(4, 1001, 65536)
        return self.take(size)

    def decision(self):
        tag = self.number(1, 1, 3)
        if tag == 3:
            self.take(16)
        return tag == 1

    def outcome(self):
        tag = self.number(1, 1, 7)
        if tag == 1:
            return tag, "committed"
        if tag == 2:
            return tag, f"withdrawn line {self.number(2, 1, 200)}"
        if tag == 3:
            line = self.number(2, 1, 200)
            return tag, f"failed line {line} {KINDS[self.number(1, 1, 7)]}"
        if tag in (4, 5):
            o = self.object()
            return tag, f"refused {'later-read' if tag == 4 else 'later-version'} {o[0]}.{o[1]} {printed_time(self.time())}"
        if tag == 6:
            return tag, f"expired deadline {self.number(8)} moment {self.number(8)}"
        return tag, f"spent {self.number(8)}"

    def effect(self):
        tag = self.number(1, 1, 13)
        if tag == 1:
            found = ("put", self.object(), self.time(), self.value())
            self.take(6)
            return found
        if tag == 2:
            return ("stretch", self.object(), self.time())
        if tag == 3:
            return ("begin", self.stamp(), self.number(8))
        if tag == 4:
            return ("settle", self.stamp(), self.decision(), "decide")
        if tag == 5:
            return ("settle", self.stamp(), self.number(1, 1, 2) == 1, "learn")
        if tag == 6:
            return ("run", self.number(4, 1))
        if tag == 7:
            index, home, _, tries, _ = self.number(4, 1, 10000), self.number(1, 1, 16), self.number(4, 1, 10**6), self.number(1, 1, 100), self.number(8, 1, 2**40 - 1)
            return ("act", index, home, tries, self.take(self.number(2, 0, 3900)))
        if tag == 8:
            self.number(4, 1, 10000)
            return ("try", self.stamp())
        if tag == 9:
            return ("got", self.number(4, 1), self.value())
        if tag == 10:
            return ("acked", self.number(4, 1))
        if tag == 11:
            self.number(4, 1, 10000)
            return ("end", *self.outcome())
        if tag == 12:
            return ("floor", self.time())
        return ("whole",)


def effects_of(data):
    reader, found = Reader(data), []
    while reader.at < len(data):
        found.append(reader.effect())
    if not found:
        raise Bad
    return found


class Medium:
    def __init__(self, folder, name):
        self.kind, self.number, self.volume = name.split("-")
        self.number, self.volume = int(self.number), int(self.volume)
        data = open(f"{folder}/{name}", "rb").read()
        self.log, self.state, self.spoiled, self.gated, self.pages = [], ("shut",), [], 0, 0
        if len(data) % 4096 and len(data) < 4096:
            return
        self.pages = len(data) // 4096
        pages = [data[4096 * i : 4096 * i + 4096] for i in range(self.pages)]
        for i, page in enumerate(pages):
            if page != BLANK and page[0] == 0xA5:
                self.gated += 1
            elif page != BLANK:
                self.spoiled.append(i)
        self.state = ("whole",)
        try:
            self.log = self.read(pages)
        except Bad as fault:
            self.state = ("damaged", fault.args[0])

    def read(self, pages):
        log, pieces, ended = [], None, False
        for i, page in enumerate(pages):
            if ended and page != BLANK:
                raise Bad(i)
            if page == BLANK:
                ended = True
                continue
            if page[0] != 0xA5:
                pieces = None
                continue
            form, size, piece = page[1], page[2] * 256 + page[3], page[4]
            start = 4 if form == 1 else 5
            if form not in (1, 2) or not 1 <= size <= 4096 - start or any(page[start + size :]):
                raise Bad(i)
            body = page[start : start + size]
            if form == 1 or piece == 0:
                pieces = None
                try:
                    log += effects_of(body)
                except Bad:
                    raise Bad(i)
            elif piece == 1 and size == 4091:
                pieces = body
            elif piece == 2 and size == 4091 and pieces is not None:
                pieces += body
            elif piece == 3 and pieces is not None:
                try:
                    found = effects_of(pieces + body)
                except Bad:
                    raise Bad(i)
                if len(found) != 1:
                    raise Bad(i)
                log, pieces = log + found, None
            else:
                raise Bad(i)
        return log

    def name(self):
        return f"{self.kind} {self.number}, volume {self.volume}"


def printed_stamp(s):
    return ".".join(map(str, s[:3]))


def printed_time(t):
    return f"{printed_stamp(t)}/{t[3]}"


def printed(value):
    if value is None:
        return "nothing"
    if isinstance(value, int):
        return str(value)
    shown = {34: '\\"', 92: "\\\\", 10: "\\n"}
    return '"' + "".join(shown.get(b) or (chr(b) if 32 <= b < 127 else f"\\x{b:02x}") for b in value) + '"'


def escaped(text):
    if isinstance(text, str):
        text = text.encode("latin-1")
    marks = {38: "&#38;", 60: "&#60;", 62: "&#62;", 34: "&#34;", 39: "&#39;", 10: "\n"}
    return "".join(marks.get(b) or (chr(b) if 32 <= b < 127 else f"&#92;x{b:02x}") for b in text)


class Version:
    def __init__(self, start, value):
        self.start, self.value, self.end = start, value, start


class History:
    """What a repository's log says of an object, read from its first effect on."""

    def __init__(self, log, wanted):
        self.origin, self.versions, self.floor, self.settled = None, [], None, {}
        for effect in log:
            if effect[0] == "put" and effect[1] == wanted:
                self.versions.append(Version(effect[2], effect[3]))
            elif effect[0] == "settle":
                self.settled.setdefault(effect[1], effect[2])
            elif effect[0] == "floor":
                self.floor = max(self.floor or effect[1], effect[1])
            elif effect[0] == "stretch" and effect[1] == wanted:
                seen = [v for v in self.versions if v.start < effect[2] and self.settled.get(v.start[:3]) is not False]
                if seen:
                    # Of equal starts the one that was put last.
                    best = max(range(len(seen)), key=lambda i: (seen[i].start, i))
                    seen[best].end = max(seen[best].end, effect[2])
                else:
                    self.origin = max(self.origin or effect[2], effect[2])
        if self.floor:
            self.origin = max(self.origin or self.floor, self.floor)
            for version in self.versions:
                version.end = max(version.end, self.floor)
        self.versions.sort(key=lambda v: v.start)
        self.rows = [(v, self.state(v), None) for v in self.versions]

    def state(self, version):
        return {None: "undecided", True: "committed", False: "aborted"}[self.settled.get(version.start[:3])]


def history(logs, wanted):
    """What the volumes of a repository with these logs say of an object: the current one, behind what each older one alone has."""
    current = max((i for i, log in enumerate(logs) if ("whole",) in log), default=0)
    each = [History(log, wanted) for log in logs[: current + 1]] or [History([], wanted)]
    older = []
    for i in range(len(each) - 1):
        next_starts = {v.start for v in each[i + 1].versions}
        older += [(v, state, i) for v, state, _ in each[i].rows if v.start not in next_starts]
    each[-1].rows = older + each[-1].rows
    return each[-1]


def bars(word, at=None, wide=None, text=""):
    style = ";".join(f"--{name}:{n}" for name, n in (("a", at), ("w", wide)) if n is not None)
    return f'<i class="{word}" style="{style}">{text}</i>' if style else f'<i class="{word}">{text}</i>'


def front(text, most):
    return escaped(text[:most]) + "&#8230;" if len(text) > most else escaped(text)


def table(heads, rows):
    return "<table><thead><tr>" + "".join(f'<th scope="col">{h}</th>' for h in heads) + "</tr></thead><tbody>\n" + "".join(rows) + "</tbody></table>\n"


def folded(many, inside):
    return f'<details class="more"><summary>objects, {many} more</summary>\n{inside}</details>\n' if many else ""


class Attempt:
    """An attempt: what the broker's log says of it, and what the repositories' logs say of its steps."""

    def __init__(self, stamp, log, touches):
        self.stamp, self.steps, self.outcome = stamp, [], None
        for e in log:
            if e[0] in ("run", "act", "try"):
                break
            if e[0] == "end":
                self.outcome = e if ENDS[e[1]] != "spent" else None
                break
            if e[0] in ("got", "acked"):
                self.steps.append((e, touches.get(stamp[:3] + (e[1],))))

    def word(self):
        return ENDS[self.outcome[1]] if self.outcome else "open"

    def objects(self):
        found = {t[0] for _, t in self.steps if t}
        if self.word() == "refused":
            found.add(tuple(map(int, self.outcome[2].split(" ")[2].split("."))))
        return found


class Page:
    def __init__(self, folder, media, wanted):
        self.media, self.wanted = media, wanted
        self.all_given = wanted["object"] is None and wanted["repository"] is None
        logs = [m for m in media if m.kind == "repository" and m.volume < 1000]
        self.volumes = {}
        for m in logs:
            self.volumes.setdefault(m.number, []).append(m.log)
        self.touches = {}
        for m in logs:
            for e in m.log:
                if e[0] in ("put", "stretch"):
                    self.touches[e[2]] = (e[1], e[3] if e[0] == "put" else Nothing)
        self.objects = sorted({e[1] for m in logs for e in m.log if e[0] in ("put", "stretch")})
        chosen = [o for o in self.objects if self.has_object(o)]
        self.left, left = max(0, len(chosen) - 200), 2000
        self.homes = {e[1]: e[2] for m in logs for e in m.log if e[0] == "settle" and e[3] == "decide"}
        self.rows = []
        for o in chosen[:200]:
            h = history(self.volumes.get(o[0], []), o)
            h.rows = [self.at_home(*r) for r in h.rows if self.has_stamp(r[0].start)]
            h.shown = h.rows[:left]
            left -= len(h.shown)
            self.rows.append((o, h))
        self.tries = set()
        for m in media:
            chosen = [e[1][:3] for i, e in enumerate(m.log) if m.kind == "broker" and e[0] == "try" and self.has_try(e[1], m.log[i + 1 :])]
            self.tries |= set(chosen[:300])

    def at_home(self, version, state, volume):
        """With the decision of its home, for one that its repository holds undecided; and whether the repository knows its state."""
        if state == "undecided" and version.start[:3] in self.homes:
            return version, "committed" if self.homes[version.start[:3]] else "aborted", volume, False
        return version, state, volume, True

    def has_object(self, o):
        return self.wanted["object"] in (None, o) and self.wanted["repository"] in (None, o[0])

    def has_stamp(self, s):
        return self.wanted["from"] <= s[0] <= self.wanted["to"]

    def has_try(self, stamp, log):
        return self.has_stamp(stamp) and (self.all_given or any(map(self.has_object, Attempt(stamp, log, self.touches).objects())))

    def link(self, place, text, there):
        return f'<a href="#{place}">{text}</a>' if there else text

    def object(self, o):
        name = f"{o[0]}.{o[1]}"
        return self.link("o" + name, name, o in [r[0] for r in self.rows])

    def stamp(self, s, text=None):
        return self.link("t" + printed_stamp(s), text or printed_stamp(s), s[:3] in self.tries)

    def time(self, t):
        return self.stamp(t, printed_time(t)) if t else "none"

    # ---- the first screen

    def first(self):
        out = "" if self.media else '<p class="banner">no file of a node is there</p>\n'
        for m in self.media:
            if m.state[0] != "whole":
                what = "can't be read" if m.state[0] == "shut" else f"is damaged at page {m.state[1]}"
                out += f'<p class="banner">{m.name()} {what}: nothing of its log is shown</p>\n'
        log = [e for m in self.media for e in m.log]
        count = lambda word: sum(e[0] == word for e in log)
        done = sum(e[0] == "end" and e[1] == 1 for e in log)
        cells = [(len(self.objects), "objects"), (count("act"), "acts"), (count("try"), "attempts"), (done, "committed"), (count("end") - done, "ended otherwise")]
        out += '<div class="tally">\n' + "".join(f"<span><b>{n}</b> {w}</span>\n" for n, w in cells if n) + "</div>\n<h2>Current values</h2>\n"
        cut = lambda rows: table(["object", "value", "version", "read up to", "versions"], map(self.value_row, rows))
        out += cut(self.rows[:20]) + folded(len(self.rows[20:]), cut(self.rows[20:]))
        return out + (f'<p class="banner">objects, {self.left} more aren\'t shown: choose with --object or --repository</p>\n' if self.left else "")

    def value_row(self, row):
        o, h = row
        name = f"{o[0]}.{o[1]}"
        last = [v for v, state, volume, _ in h.rows if state == "committed" and volume is None]
        cells = "<td>none is committed</td><td></td><td></td>"
        if last:
            v = last[-1]
            cells = f"<td>{front(printed(v.value), 80)}</td><td>{self.time(v.start)}</td><td>{printed_time(v.end)}</td>"
        open_ones = sum(state == "undecided" for _, state, _, _ in h.rows)
        more = f", undecided {open_ones}" if open_ones else ""
        return f'<tr><th scope="row"><a href="#o{name}">{name}</a></th>{cells}<td>{len(h.rows)}{more}</td></tr>\n'

    # ---- attempts

    def shown_tries(self, log):
        return [Attempt(e[1], log[i + 1 :], self.touches) for i, e in enumerate(log) if e[0] == "try" and e[1][:3] in self.tries]

    def attempts(self):
        key = lambda word, text: f'<i class="{word}"></i> {text}'
        out = "<h2>Attempts</h2>\n<p class=\"key\">In the order of their stamps: "
        out += " ".join([key("committed", "committed"), key("refused", "refused"), key("failed", "withdrawn, failed or expired"), key("open", "open")]) + "</p>\n"
        total = sum(e[0] == "try" for m in self.media for e in m.log)
        if len(self.tries) < total:
            out += f'<p class="key">attempts shown, {len(self.tries)} of {total}: 300 of each broker at most; choose with --object, --repository, --from and --to</p>\n'
        order = {s: i for i, s in enumerate(sorted(self.tries))}
        out += f'<div class="lines" style="--n:{len(order)}">\n'
        brokers = [m for m in self.media if m.kind == "broker"]
        for m in brokers:
            marks = "".join(bars(a.word(), order[a.stamp[:3]]) for a in self.shown_tries(m.log))
            out += f'<div class="line"><b>broker {m.number}</b><span class="bars">{marks}</span></div>\n'
        out += "</div>\n"
        for m in brokers:
            starts = [i for i, e in enumerate(m.log) if e[0] == "run"]
            parts = [(0, m.log[: starts[0]] if starts else m.log, False)]
            parts += [(m.log[i][1], m.log[i + 1 : j], self.all_given) for i, j in zip(starts, starts[1:] + [len(m.log)])]
            out += f"<section><h3>{m.name()}</h3>\n" + "".join(self.run(*p) for p in parts) + "</section>\n"
        return out

    def run(self, number, log, always):
        tries = len(self.shown_tries(log))
        if not (always or tries):
            return ""
        starts = [i for i, e in enumerate(log) if e[0] == "act"]
        rows = self.act(log[: starts[0]] if starts else log)
        for i, j in zip(starts, starts[1:] + [len(log)]):
            inside = log[i + 1 : j]
            if self.all_given or self.shown_tries(inside):
                _, index, home, allowed, script = log[i]
                rows += f'<tr class="act"><th colspan="3" scope="rowgroup">act {index}, home {home}, attempts allowed {allowed}<details><summary>script</summary><pre>{escaped(script)}</pre></details></th></tr>\n'
                rows += self.act(inside)
        is_open = " open" if len(self.tries) <= 20 else ""
        return f'<details class="run"{is_open}><summary>run {number}, attempts {tries}</summary>\n' + table(["stamp", "reads and writes", "outcome"], [rows]).rstrip() + "</details>\n"

    def act(self, log):
        out = ""
        for i, e in enumerate(log):
            if e[0] == "try" and e[1][:3] in self.tries:
                a, p = Attempt(e[1], log[i + 1 :], self.touches), printed_stamp(e[1])
                out += f'<tr id="t{p}"><td>{p}</td><td>{"".join(map(self.step, a.steps))}</td><td class="{a.word()}">{a.outcome[2] if a.outcome else "open"}</td></tr>\n'
            elif e[0] == "end" and ENDS[e[1]] == "spent":
                out += f'<tr><td></td><td></td><td class="spent">{e[2]}</td></tr>\n'
        return out

    def step(self, step):
        e, touch = step
        if e[0] == "got":
            return f"<p>read {self.object(touch[0]) + ' = ' if touch else ''}{escaped(printed(e[2]))}</p>\n"
        wrote = self.object(touch[0]) + ("" if touch[1] is Nothing else f" = {escaped(printed(touch[1]))}") if touch else ""
        return f"<p>wrote {wrote}</p>\n"

    # ---- histories

    def histories(self):
        axis = set()
        for _, h in self.rows:
            axis |= {h.origin[:3]} if h.origin else set()
            for v, _, _, _ in h.shown:
                axis |= {v.start[:3], v.end[:3]}
        self.axis = sorted(axis)
        out = '<h2>Histories</h2>\n<p class="key">'
        keys = [("committed", "committed"), ("undecided", "undecided"), ("aborted", "aborted"), ("committed unsettled", "decided at its home, not settled here yet"), ("committed older", "only in an older volume"), ("origin", "reads of what was there at first"), ("floor", "floor of a retirement")]
        out += " ".join(f'<i class="{word}"></i> {text}' for word, text in keys) + "</p>\n"
        out += "<p class=\"key\">A bar goes from a version's start to how far it was read. Each stamp has a column, so equal widths aren't equal distances. Open an object for its versions.</p>\n"
        return out + self.picture(self.rows[:20]) + folded(len(self.rows[20:]), self.picture(self.rows[20:]))

    def picture(self, rows):
        out = f'<div class="histories" style="--n:{len(self.axis)}">\n<div class="axis"><b></b><span class="bars">\n'
        every = len(self.axis) // 8 + 1
        out += "".join(f'<i style="--a:{i}">{self.stamp(s)}</i>\n' for i, s in enumerate(self.axis) if i % every == 0)
        return out + "</span></div>\n" + "".join(map(self.object_row, rows)) + "</div>\n"

    def object_row(self, row):
        o, h = row
        name, column = f"{o[0]}.{o[1]}", {s: i for i, s in enumerate(self.axis)}
        out = f'<details class="row" id="o{name}"><summary><b>{name}</b><span class="bars">\n'
        lines = []
        if h.origin:
            out += bars("origin", wide=column[h.origin[:3]]) + "\n"
            lines.append(f"<tr><td>origin</td><td>{printed_time(h.origin)}</td><td></td><td>what was there at first</td></tr>\n")
        if h.floor:
            out += bars("floor", sum(s < h.floor[:3] for s in self.axis)) + "\n"
        for v, state, volume, settled in h.shown:
            first, last = column[v.start[:3]], column[v.end[:3]]
            mark, where = ("", "") if volume is None else (" older", f", only in volume {volume}")
            if not settled:
                mark, where = " unsettled", where + ", not settled here yet"
            out += bars(state + mark, first, max(1, last - first), front(printed(v.value), 20)) + "\n"
            lines.append(f"<tr><td>{self.time(v.start)}</td><td>{printed_time(v.end)}</td><td>{state}{where}</td><td>{escaped(printed(v.value))}</td></tr>\n")
        out += "</span></summary>\n" + table(["version", "read up to", "state", "value"], lines)
        out += f"<p>floor {printed_time(h.floor)}</p>\n" if h.floor else ""
        more = len(h.rows) - len(h.shown)
        out += f"<p>versions, {more} more: choose with --object, --from and --to</p>\n" if more else ""
        return out + "</details>\n"

    # ---- files

    def files(self):
        acts = sum(e[0] == "act" for m in self.media for e in m.log)
        rows = []
        for m in self.media:
            written = m.gated + len(m.spoiled)
            role = "log" if m.kind == "broker" or m.volume < 1000 else ROLES.get(m.volume, "other")
            state = {"whole": "whole", "shut": "can't be read"}.get(m.state[0]) or f"damaged at page {m.state[1]}"
            room = f"some {(m.pages - written) * acts // written} acts" if acts and written and m.volume == 0 else ""
            spoiled = f", spoiled {len(m.spoiled)}" if m.spoiled else ""
            strip = bars("gated", wide=written) + "".join(bars("spoiled", p) for p in m.spoiled)
            strip += bars("damaged", m.state[1]) if m.state[0] == "damaged" else ""
            rows.append(f'<tr><th scope="row">{m.name()}</th><td>{role}</td><td class="{m.state[0]}">{state}</td><td>{len(m.log)}</td><td>{written} of {m.pages}{spoiled}<span class="bars strip" style="--n:{m.pages}">{strip}</span></td><td>{room}</td></tr>\n')
        return "<h2>Files</h2>\n" + table(["file", "role", "state", "effects", "pages written", "room for"], rows)


ROLES = {1001: "totals by count", 1002: "totals by sum", 1003: "totals by last", 1010: "votes"}
Nothing = object()
ALL = {"object": None, "repository": None, "from": 0, "to": 2**40 - 1}


def body(folder, wanted):
    names = [n for n in os.listdir(folder) if re.fullmatch(r"(repository|broker)-\d+-\d+", n)]
    media = sorted((Medium(folder, n) for n in names), key=lambda m: (m.kind != "repository", m.number, m.volume))
    page = Page(folder, media, wanted)
    return page.first() + page.attempts() + page.histories() + page.files() + "</body></html>\n"


class Checker(HTMLParser):
    """Links that lead nowhere, places that are there twice, headings out of order, cells and columns without a head."""

    def __init__(self):
        super().__init__()
        self.places, self.links, self.level, self.wrong = [], [], 0, []

    def handle_starttag(self, tag, attrs):
        given = dict(attrs)
        if "id" in given:
            self.places.append(given["id"])
        if tag == "a":
            self.links.append(given["href"][1:])
        if tag == "th" and "scope" not in given:
            self.wrong.append("a head without a scope")
        if re.fullmatch("h[1-6]", tag):
            self.wrong += [f"{tag} after h{self.level}"] if int(tag[1]) > self.level + 1 else []
            self.level = int(tag[1])

    def faults(self):
        dead = sorted(set(self.links) - set(self.places))
        twice = sorted({p for p in self.places if self.places.count(p) > 1}) if len(self.places) < 3000 else []
        return self.wrong + [f"link to {p}" for p in dead] + [f"{p} is there twice" for p in twice]


def brightness(colour):
    digits = colour if len(colour) == 6 else "".join(2 * c for c in colour)
    parts = [int(digits[i : i + 2], 16) / 255 for i in (0, 2, 4)]
    parts = [c / 12.92 if c <= 0.03928 else ((c + 0.055) / 1.055) ** 2.4 for c in parts]
    return sum(weight * c for weight, c in zip((0.2126, 0.7152, 0.0722), parts))


def faint(head):
    """Texts of the style, light or dark, whose contrast is below 4.5 (WCAG 2)."""
    texts = [(text, "paper") for text in ("ink", "soft", "good", "open", "bad")] + [("ink", "tint"), ("soft", "tint"), ("paper", "good")]
    found = []
    for scheme in re.findall(r":root\{([^}]*)\}", head):
        colours = dict(re.findall(r"--(\w+):#(\w+)", scheme))
        for text, ground in texts:
            low, high = sorted((brightness(colours[text]), brightness(colours[ground])))
            if (high + 0.05) / (low + 0.05) < 4.5:
                found.append(f"{text} on {ground} is faint")
    return found


def judge(folder, page, wanted=ALL):
    name = escaped(os.path.basename(folder) if CASES else folder)
    head, mark, rest = page.partition("</style></head><body>\n")
    title, rest = rest.split("\n", 1) if mark else ("", "")
    due = body(folder, wanted)
    checker = Checker()
    checker.feed(page)
    faults = checker.faults() + faint(head)
    for fault in faults:
        print(f"{folder}: {fault}")
    if mark and rest == due and title == f"<h1>{name}</h1>" and f"<title>{name}</title>" in head and not faults:
        return head.replace(f"<title>{name}</title>", "")
    ours, theirs = due.split("\n"), rest.split("\n")
    at = next((i for i, (a, b) in enumerate(zip(ours, theirs)) if a != b), min(len(ours), len(theirs)))
    print(f"{folder}: line {at + 1} of the body\n due   {ours[at : at + 1]}\n found {theirs[at : at + 1]}, title {title}")
    return None


def main():
    if CASES:
        text = open(sys.argv[2], encoding="latin-1").read()
        parts = re.split(r"^folder (\w+)\n", text, flags=re.M)[1:]
        heads = [judge(f"{sys.argv[3]}/{parts[i]}", parts[i + 1]) for i in range(0, len(parts), 2)]
    elif len(sys.argv) >= 3:
        given = dict(ALL)
        for word, value in zip(sys.argv[3::2], sys.argv[4::2]):
            given[word[2:]] = tuple(map(int, value.split("."))) if word == "--object" else int(value)
        heads = [judge(sys.argv[1], open(sys.argv[2], encoding="latin-1").read(), given)]
    else:
        sys.exit(__doc__)
    print(f"{sum(h is not None for h in heads)} pages of {len(heads)} are right")
    sys.exit(None in heads or len(set(heads)) != 1)


CASES = len(sys.argv) == 4 and sys.argv[1] == "--cases"
if __name__ == "__main__":
    main()
