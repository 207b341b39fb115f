"""The farms at a glance. Every figure on it was printed by a proved program; what a person sent is put in as text."""

from __future__ import annotations

import html

from desk import app_page
from desk.access import Person
from desk.library import Known, standing
from desk.store import Book

# Silent so long, an open book wants a call.
SILENT_DAYS = 3
DAY = 24 * 60 * 60

STYLE = (app_page.FILES / "overview.css").read_text(encoding="utf-8")
COLUMNS = ("Farm", "Year", "State", "Records", "Last heading", "Last part", "Sent by", "See")
FOR_MEMBERS = ("Farm", "Year", "Records", "Last part", "See")


def overview(person: Person, known: list[Known], headings: dict[str, str], now: float) -> str:
    """What needs a call first; then the books that still come in; then the closed ones; last what a newer delivery replaced."""
    stands = standing(known)
    newest_first = sorted(known, key=lambda pair: pair[0].heard, reverse=True)
    shown = [pair for pair in newest_first if pair[0].id in stands]
    sections = [
        ("Needs a call", f"Refused, or silent for {SILENT_DAYS} days.", [pair for pair in shown if needs_call(pair, now)]),
        ("Coming in", "Not closed yet: not for members.", [pair for pair in shown if not needs_call(pair, now) and not pair[1].closed]),
        ("Closed", "The newest one of a farm and year is the farm's page.", [pair for pair in shown if pair[1].closed]),
        ("Replaced", "A newer delivery of the same farm and year is above.", [pair for pair in newest_first if pair[0].id not in stands]),
    ]
    content = ""
    for title, words, pairs in sections if person.may_read_all else sections[2:]:
        content += _section(title, words, [_row(pair, known, headings, person, now) for pair in pairs], person)
    return _page("The farms at a glance", _ways(), content) if person.may_read_all else _page("Your farm's books", "", content)


def needs_call(pair: Known, now: float) -> bool:
    """A refused book, and an open one that was not heard of for days."""
    book, facts = pair
    return facts.refused or (not facts.closed and now - book.heard > SILENT_DAYS * DAY)


def _ways() -> str:
    """Where one goes from here."""
    app = '<a href="/app">The page for the tablet</a> ' if app_page.is_here() else ""
    return f'<p>{app}<a href="/table.csv">The table of all farms</a></p>\n'


def _page(title: str, ways: str, content: str) -> str:
    return (
        f'<!doctype html>\n<html lang="en">\n<head>\n<meta charset="utf-8">\n<meta name="viewport" content="width=device-width">\n'
        f"<title>{title}</title>\n<style>\n{STYLE}</style>\n</head>\n<body>\n<main>\n<h1>{title}</h1>\n{ways}{content}</main>\n</body>\n</html>\n"
    )


def _section(title: str, words: str, rows: list[str], person: Person) -> str:
    if not rows:
        return f"<h2>{title}</h2>\n<p>None.</p>\n"
    head = "".join(f'<th scope="col">{column}</th>' for column in (COLUMNS if person.may_read_all else FOR_MEMBERS))
    return f"<h2>{title}</h2>\n<p>{words}</p>\n<table>\n<thead><tr>{head}</tr></thead>\n<tbody>\n{''.join(rows)}</tbody>\n</table>\n"


def _row(pair: Known, known: list[Known], headings: dict[str, str], person: Person, now: float) -> str:
    (book, facts), heading = pair, headings.get(pair[0].id, "")
    mark = ' class="wrong"' if facts.refused else ""
    cells = dict(zip(COLUMNS, (facts.farm, facts.year, facts.state, facts.records, heading, _ago(now - book.heard), book.sender)))
    names = COLUMNS if person.may_read_all else FOR_MEMBERS
    shown = "".join(f'<td data-l="{name}"{mark if name == "State" else ""}>{html.escape(cells[name])}</td>' for name in names[:-1])
    return f'<tr data-book="{book.id}">{shown}<td>{_links(pair, known, person)}</td></tr>\n'


def _links(pair: Known, known: list[Known], person: Person) -> str:
    book, facts = pair
    links = [("page", "page"), ("sheet", "sheet.csv")] if facts.closed else []
    if person.may_read_all:
        links += [("why", "why"), ("book", "book")]
        before = earlier(pair, known)
        if before is not None:
            links.append(("compare", f"compare/{before.id}"))
    return " ".join(f'<a href="/books/{book.id}/{place}">{words}</a>' for words, place in links)


def earlier(pair: Known, known: list[Known]) -> Book | None:
    """The delivery of the same farm and year that began last before this one."""
    book, facts = pair
    same = [other for other, said in known if facts.farm and (said.farm, said.year) == (facts.farm, facts.year) and other.begun < book.begun]
    return same[-1] if same else None


def _ago(seconds: float) -> str:
    for size, word in ((DAY, "days"), (3600, "hours"), (60, "minutes")):
        if seconds >= 2 * size:
            return f"{int(seconds // size)} {word} ago"
    return "just now"
