#!/usr/bin/env python3
"""access.py PAGE ..: whether pages of swallow_look can be read by everybody: the contrast of each text and of each mark in the light and
the dark form, headings without a gap, names of table heads, links that lead somewhere, no place twice, labels of at least 12 pixels,
no text that shows only on hover, nothing that moves, and a form for print. Ends with a count, and with status 0 if all was right."""
import re
import sys
from html.parser import HTMLParser

LEAST_TEXT, LEAST_MARK, LEAST_PIXELS = 4.5, 3.0, 12
# What stands on what: a text and the ground under it, by the names of the style.
TEXTS = [(text, ground) for text in ("ink", "soft") for ground in ("paper", "tint")] + [
    ("good", "paper"), ("open", "paper"), ("bad", "paper"), ("paper", "good"),
]
# Marks that say something by their colour.
MARKS = [("good", "paper"), ("open", "paper"), ("bad", "paper"), ("soft", "paper")]
VOID = {"meta", "link", "br", "hr", "img", "input"}


def light_of(colour):
    digits = colour[1:] if len(colour) == 7 else "".join(d + d for d in colour[1:])
    parts = [int(digits[i : i + 2], 16) / 255 for i in (0, 2, 4)]
    red, green, blue = (p / 12.92 if p <= 0.04045 else ((p + 0.055) / 1.055) ** 2.4 for p in parts)
    return 0.2126 * red + 0.7152 * green + 0.0722 * blue


def contrast(one, other):
    high, low = sorted((light_of(one), light_of(other)), reverse=True)
    return (high + 0.05) / (low + 0.05)


class Page(HTMLParser):
    def __init__(self):
        super().__init__()
        self.heads, self.places, self.links, self.open, self.wrong = [], [], [], [], []
        self.lang = self.title = self.viewport = False

    def handle_starttag(self, tag, attrs):
        have = dict(attrs)
        if "id" in have:
            self.places.append(have["id"])
        if "title" in have:
            self.wrong.append(f"a text that shows only on hover: {have['title']}")
        if tag == "html":
            self.lang = bool(have.get("lang"))
        if tag == "meta" and have.get("name") == "viewport":
            self.viewport = "width=device-width" in have.get("content", "")
        if tag == "title":
            self.title = True
        if re.fullmatch("h[1-6]", tag):
            self.heads.append(int(tag[1]))
        if tag == "a":
            self.links.append(have.get("href", ""))
        if tag == "th" and have.get("scope") not in ("col", "row", "rowgroup", "colgroup"):
            self.wrong.append("a table head without its scope")
        if tag in ("img", "svg") and not (have.get("alt") or have.get("aria-label")):
            self.wrong.append(f"{tag} without a label")
        if tag in ("script", "iframe", "object", "embed"):
            self.wrong.append(f"{tag} in a page that runs nothing")
        if have.get("tabindex", "0") not in ("0", "-1"):
            self.wrong.append("a place out of the keyboard's order")
        if tag == "summary" and (not self.open or self.open[-1] != "details"):
            self.wrong.append("summary outside details")
        if tag not in VOID:
            self.open.append(tag)

    def handle_endtag(self, tag):
        if not self.open or self.open.pop() != tag:
            self.wrong.append(f"</{tag}> ends nothing")


def colours_of(style, dark):
    found = re.findall(r":root\{([^}]*)\}", style)
    if len(found) != 2:
        return {}
    colours = dict(re.findall(r"--([a-z]+):(#[0-9a-f]{3,6})", found[0]))
    if dark:
        colours.update(re.findall(r"--([a-z]+):(#[0-9a-f]{3,6})", found[1]))
    return colours


def faults_of(text):
    page = Page()
    page.feed(text)
    wrong = page.wrong
    if page.open:
        wrong.append(f"not closed: {page.open}")
    for name in ("lang", "title", "viewport"):
        if not getattr(page, name):
            wrong.append(f"no {name}")
    if page.heads[:1] != [1] or page.heads.count(1) != 1:
        wrong.append("not one first heading")
    for before, after in zip(page.heads, page.heads[1:]):
        if after > before + 1:
            wrong.append(f"heading {after} after heading {before}")
    for place in {p for p in page.places if page.places.count(p) > 1} if len(page.places) != len(set(page.places)) else ():
        wrong.append(f"place {place} twice")
    places = set(page.places)
    for link in set(page.links):
        if not link.startswith("#") or link[1:] not in places:
            wrong.append(f"link {link} leads nowhere")
    style = text[text.index("<style>") : text.index("</style>")]
    for form in (False, True):
        colours = colours_of(style, form)
        for pairs, least in ((TEXTS, LEAST_TEXT), (MARKS, LEAST_MARK)):
            for over, under in pairs:
                if over not in colours or under not in colours:
                    wrong.append(f"no colour {over} or {under}")
                elif contrast(colours[over], colours[under]) < least:
                    wrong.append(f"{'dark' if form else 'light'} {over} on {under}: {contrast(colours[over], colours[under]):.2f}")
    for size in re.findall(r"font(?:-size)?:[^;}]*?(\d+(?:\.\d+)?)px", style):
        if float(size) < LEAST_PIXELS:
            wrong.append(f"a text of {size} pixels")
    if re.search(r"animation|transition", style) and "prefers-reduced-motion" not in style:
        wrong.append("something moves, also for who asks for no motion")
    if "@media print" not in style:
        wrong.append("no form for print")
    if re.search(r"outline:(0|none)", style):
        wrong.append("the keyboard's place isn't shown")
    return wrong


right = 0
for name in sys.argv[1:]:
    found = faults_of(open(name, encoding="utf-8", errors="surrogateescape").read())
    for fault in found:
        print(f"WRONG {name}: {fault}")
    right += not found
print(f"{right} pages of {len(sys.argv) - 1} can be read")
sys.exit(right != len(sys.argv) - 1)
