"""second/page.py FOLDER COUNT: reads pages of members by Python's html.parser, FOLDER/page.N, beside the lister's text of their books,
FOLDER/listed.N, and retype's, FOLDER/typed.N. Every tag is closed, ids are unique, nothing is fetched or run, and the figures, heads and bars of the
tables are those that the lines give, computed once more. Stops at the first page that is not so, and says what is wrong."""

import re
import sys
from html.parser import HTMLParser

VOID = {"meta", "br"}
SOURCES = [3, 4, 5, 10, 6, 7, 9]


class Page(HTMLParser):
    """The rows of each table: a list of cells, each with its tag, its attributes and its text, and the bars among them."""

    def __init__(self, text):
        super().__init__(convert_charrefs=True)
        self.open, self.ids, self.tables, self.texts = [], [], {}, {}
        self.row, self.cell = None, None
        self.feed(text)
        self.close()
        assert not self.open, f"not closed: {self.open}"

    def handle_starttag(self, tag, attrs):
        attributes = dict(attrs)
        assert len(attributes) == len(attrs), f"an attribute twice: {tag} {attrs}"
        assert tag not in ("script", "link", "iframe", "img", "object", "embed", "base", "form", "a"), f"the tag {tag}"
        for name, value in attrs:
            assert not name.startswith("on") and name not in ("src", "href", "style", "srcset", "action"), f"the attribute {name}"
        if "id" in attributes:
            assert attributes["id"] not in self.ids, f"the id {attributes['id']} twice"
            self.ids.append(attributes["id"])
        if tag in VOID:
            return
        self.open.append((tag, attributes))
        if tag == "table":
            self.tables[attributes["id"]] = self.rows = []
        elif tag == "tr":
            self.row = {"of": attributes, "in": self.open[-2][0], "cells": [], "bars": []}
            self.rows.append(self.row)
        elif tag in ("td", "th"):
            self.cell = {"tag": tag, "of": attributes, "text": ""}
            self.row["cells"].append(self.cell)
        elif tag in ("rect", "line"):
            self.row["bars"].append((tag, attributes))

    def handle_endtag(self, tag):
        assert tag not in VOID, f"the end of {tag}"
        assert self.open and self.open[-1][0] == tag, f"{tag} ends inside {self.open[-1:]}"
        self.open.pop()
        if tag in ("td", "th"):
            self.cell = None

    def handle_data(self, data):
        if self.cell is not None:
            self.cell["text"] += data
        for tag, attributes in self.open:
            key = attributes.get("id") or tag
            self.texts[key] = self.texts.get(key, "") + data


def grams(text):
    """Kilograms with thin spaces and a minus sign, to the gram."""
    found = re.fullmatch("(\u2212?)(\\d{1,3}(?:\u202f\\d{3})*)\\.(\\d{3})", text)
    assert found, f"{text!r} is no figure"
    sign, whole, parts = found.groups()
    assert whole == "0" or not whole.startswith("0"), f"{text!r} begins with a zero"
    number = int(whole.replace("\u202f", "") + parts)
    assert not (sign and number == 0), f"{text!r} has a sign"
    return -number if sign else number


def figure(text):
    """A cell that is empty where it is 0."""
    assert text == "" or grams(text) != 0, "0 is printed"
    return grams(text) if text else 0


def rows_of(page, table, part):
    return [row for row in page.tables[table] if row["in"] == part and row["of"].get("class") != "bars"]


def cells_of(row):
    return [cell["text"] for cell in row["cells"]]


def check_bars(page, table, amounts):
    """The cascade of a table."""
    sums = [0]
    for amount in amounts:
        sums.append(sums[-1] + amount)
    lo, hi = min(sums), max(sums)
    unit = max(1, -((lo - hi) // 1000))
    places = [(s - lo) // unit for s in sums]
    bars = [row["bars"] for row in page.tables[table] if row["of"].get("class") == "bars"]
    assert len(bars) == len(amounts), f"{table}: {len(bars)} bars"
    for bar, amount, start, end in zip(bars, amounts, places, places[1:]):
        wanted = {"x": str(min(start, end)), "y": "0", "width": str(abs(end - start)), "height": "8"}
        if amount < 0:
            wanted.update({"class": "up", "y": "1", "height": "6"})
        lines = [("rect", wanted)]
        if lo < 0:
            zero = str(-lo // unit)
            lines.append(("line", {"class": "zero", "x1": zero, "y1": "0", "x2": zero, "y2": "8"}))
        assert bar == lines, f"{table}: the bar {bar}, and not {lines}"
        assert 0 <= min(start, end) and max(start, end) <= 1000, f"{table}: a bar ends outside"


def added(lines):
    return [sum(line[place] for line in lines) for place in range(2, 8)]


def to_even(number, by):
    whole, rest = divmod(number, by)
    return whole + (1 if 2 * rest > by or (2 * rest == by and whole % 2 == 1) else 0)


class Book:
    """What the lister and retype print of a closed book."""

    def __init__(self, listed, typed):
        words = [line.split() for line in listed.splitlines()]
        self.closed = words[-1] == ["closed"]
        self.lines = {}
        for line in words:
            if line[0].isdigit():
                self.lines.setdefault((int(line[0]), int(line[1])), []).append([int(word) for word in line])
        typed = [line.split() for line in typed.splitlines()]
        self.farm = typed[0][1:] if typed else None
        self.headings = [line[1:] for line in typed if line[0] == "heading"]
        self.records = len(typed)
        if self.farm:
            factors = {1: (21, 310), 2: (23, 296)}
            self.factors = tuple(map(int, self.farm[2:])) if len(self.farm) == 4 else factors[int(self.farm[2])]

    def of(self, *kinds):
        return [line for (kind, _), lines in self.lines.items() if kind in kinds for line in lines]

    def of_group(self, kind, group):
        return self.lines.get((kind, int(group)), [])

    def co2e(self, figures):
        return self.factors[0] * figures[0] + self.factors[1] * figures[1] + figures[2] + figures[5]


def check_groups(page, book, total):
    rows = rows_of(page, "groups", "tbody")
    own = book.of(6, 7, 9)
    assert len(rows) == len(book.headings) + bool(own), f"{len(rows)} rows of groups"
    amounts = []
    for row, (group, name, head) in zip(rows, book.headings):
        [subtotal] = book.of_group(16, group)
        figures = subtotal[2:]
        figures[5] = added(book.of_group(10, group))[5]
        co2e = book.co2e(figures)
        cells = cells_of(row)
        assert row["of"] == {"data-group": group} and cells[:2] == [f"Group {group} {name}", head], f"the row {cells}"
        a_head = None if head == "0" else to_even(co2e, int(head))
        assert (grams(cells[2]) if cells[2] else None) == a_head, f"group {group}: {cells[2]} a head"
        wanted = [figures[3], figures[4], figures[0], figures[1], figures[5]]
        assert [figure(cell) for cell in cells[3:8]] == wanted and grams(cells[8]) == co2e, f"group {group}: {cells}"
        amounts.append(co2e)
    if own:
        amounts.append(added(own)[2])
        cells = cells_of(rows[-1])
        assert cells[0].startswith("The farm as a whole") and grams(cells[1]) == amounts[-1], f"the farm's row: {cells}"
    foot = cells_of(rows_of(page, "groups", "tfoot")[0])
    assert foot[:3] == ["Total", "", ""] and sum(amounts) == total[6] == grams(foot[8]), f"the groups end in {foot}"
    assert [figure(cell) for cell in foot[3:8]] == [total[3], total[4], total[0], total[1], total[5]], f"the groups end in {foot}"
    check_bars(page, "groups", amounts)


def check_sources(page, book, total):
    rows = rows_of(page, "sources", "tbody")
    assert [row["of"] for row in rows] == [{"data-kind": str(kind)} for kind in SOURCES], "the sources"
    amounts = []
    for row, kind in zip(rows, SOURCES):
        figures, cells = added(book.of(kind)), cells_of(row)
        amounts.append(book.co2e(figures))
        assert [figure(cell) for cell in cells[1:4]] == figures[:3] and grams(cells[4]) == amounts[-1], f"kind {kind}: {cells}"
        assert ("none in the book" in cells[0]) == (not book.of(kind)), f"kind {kind}: {cells}"
        assert ("takes up" in cells[0]) == (amounts[-1] < 0), f"kind {kind}: {cells}"
    foot = cells_of(rows_of(page, "sources", "tfoot")[0])
    assert [figure(cell) for cell in foot[1:4]] == total[:3] and sum(amounts) == total[6] == grams(foot[4]), f"the sources end in {foot}"
    check_bars(page, "sources", amounts)


def check_gases(page, book, total):
    rows = [cells_of(row) for row in rows_of(page, "gases", "tbody")]
    factors = [*book.factors, 1]
    parts = [total[place] * factors[place] for place in range(3)] + [total[5]]
    assert [grams(row[3]) for row in rows] == parts and sum(parts) == total[6], f"the gases {rows}"
    assert [figure(row[1]) for row in rows[:3]] == total[:3] and rows[3][1:3] == ["", ""], f"the gases {rows}"
    assert [row[2] for row in rows[:3]] == [f"\u00d7 {factor}" for factor in factors], f"the gases {rows}"
    assert grams(cells_of(rows_of(page, "gases", "tfoot")[0])[3]) == total[6], "the gases end in another total"


def check(text, book):
    page = Page(text)
    assert not re.search(r"url\(|@import|https?:|javascript|//", text), "something is fetched"
    name = f"Farm {book.farm[0]}, {book.farm[1]}" if book.farm else "No farm"
    assert page.texts["h1"] == name and page.texts["title"].startswith(name + ": "), "the name"
    assert page.texts["verdict"].startswith(name + ". ") and page.texts["verdict"].endswith(f" {book.records} records."), "the verdict"
    if not book.closed:
        assert not page.tables and "<small>" not in text and "Not for members" in text, "figures of a book that is not closed"
        return
    [total] = [line[2:] for line in book.of(8)]
    assert grams(page.texts["total"].split(" ")[0]) == total[6], "the total"
    assert "Not for members" not in text and f"closed book of {book.records} records" in page.texts["verdict"], "the verdict"
    check_groups(page, book, total)
    check_sources(page, book, total)
    check_gases(page, book, total)


def main():
    folder, count = sys.argv[1], int(sys.argv[2])
    for number in range(count):
        texts = {}
        for name in ("page", "listed", "typed"):
            with open(f"{folder}/{name}.{number}", encoding="utf-8", newline="") as file:
                texts[name] = file.read()
        try:
            check(texts["page"], Book(texts["listed"], texts["typed"]))
        except AssertionError as fault:
            sys.exit(f"page {number}: {fault}")


main()
