"""What the adviser does: entering, correcting, closing; what is refused; every figure that she sees."""
from page import Page
from reference import SAMPLES, figures, kinds, reference

KINDS = kinds()


def lines_of(name):
    return [line for line in (SAMPLES / name).read_text().lstrip("\ufeff").split("\n") if line.split("#")[0].split()]


def words_of(line):
    return line.lstrip("\ufeff").split("#")[0].split()


def fields_of(name, count):
    return next((fields for (each, _), fields in KINDS.items() if each == name and len(fields) == count), None)


def chosen(word, choices):
    """The choice as the form shows it: the word in small letters, or the one that a number stands for."""
    if word.isdigit() and choices and int(word) <= len(choices):
        return choices[int(word) - 1]
    return word.lower() if choices else word


def fits_form(name, words):
    fields = fields_of(name, len(words))
    return fields is not None and all(not choices or chosen(word, choices) in choices for (_, choices), word in zip(fields, words))


def enter(page, line):
    """One record through the form's fields; gives the button that was pressed."""
    name, *words = words_of(line)
    name = name.lower()
    fields = fields_of(name, len(words))
    if name == "heading":
        if page.text("#heading") != "New group, not begun yet":
            page.press("New group")
    elif name == "farm":
        if len(words) == 4:
            page.press("Other factors")
    else:
        page.press(name)
    page.fill_all(fields, [chosen(word, choices) for word, (_, choices) in zip(words, fields)])
    return {"heading": "Begin group", "farm": "Begin the book"}.get(name, "Add ")


def enter_text(page, name):
    """All lines of a text. Before the close the figures that are seen are those that the closed book has."""
    book, _ = reference("writer", (SAMPLES / name).read_bytes())
    for line in lines_of(name):
        if words_of(line)[0] == "close":
            seen, printed = seen_figures(page), figures(book)
            assert seen == {place: printed.get(place) for place in seen} and any(owner.startswith("group") for owner, _ in seen), seen
            page.press("Close the book")
            page.changed(lambda: page.press("Close the book"))
        else:
            page.changed(lambda: page.press(enter(page, line)))


SEEN = """const names = ["ch4", "n2o", "co2", "excreted", "land", "grazing", "co2e"];
    return [...document.querySelectorAll("#records tr[data-record], #records tr[data-group]")].flatMap((row) =>
        names.map((name, at) => [row.dataset.record ?? `group ${row.dataset.group}`, name, row.querySelector(`.f${at}`)?.lastChild?.data ?? ""]))
        .filter(([, , words]) => words);"""


def seen_figures(page):
    """The figures of the list as they are drawn."""
    return {(owner, name): words for owner, name, words in page.script(SEEN)}


def entered(name):
    page = Page()
    try:
        enter_text(page, name)
        count = len(lines_of(name))
        assert page.state().startswith(f"{count} records, closed, saved on this device"), page.state()
        book, _ = reference("writer", (SAMPLES / name).read_bytes())
        assert page.saved("Save the book") == book, "the saved book is another one than bin/writer's"
        assert page.saved("Save the sheet") == reference("sheet", book)[0], "the sheet is another one"
        typed = [line for line in reference("retype", book)[0].decode().split("\n") if line]
        rows = sorted((int(row.get_attribute("data-record")), row.get_attribute("data-typed")) for row in page.all("#records tr[data-record]"))
        assert rows == list(enumerate(typed)), "the list is another one than retype's"
        printed = {place: words for place, words in figures(book).items() if not place[0].startswith("group")}
        assert seen_figures(page) == printed, "a figure of the list is another one than that of bin/records and bin/kilograms"
        total = [words for (owner, _), words in printed.items() if owner == str(count - 1)]
        shown = page.script("return [...document.querySelectorAll('.total td')].map((each) => each.innerText.replace(' kg', ''))")
        assert shown == total, f"the total is {total}, not {shown}"
        assert page.saved("Save the page") == reference("page", book)[0], "the page is another one than bin/page's"
        assert page.errors() == [], page.errors()
    finally:
        page.close()


def test_sample():
    """samples/sample.txt through the form, field by field: book, sheet, list and page are those of bin/."""
    entered("sample.txt")


def test_farm():
    """samples/farm.txt, with a record of every kind, in the same way."""
    entered("farm.txt")


def expected(lines, line):
    """The writer's words on a line that is typed after the others; none where it is written."""
    _, said = reference("writer", "\n".join([*lines, line, ""]).encode())
    mark = f"line {len(lines) + 1}: "
    found = [each[len(mark):] for each in said.split("\n") if each.startswith(mark) and not each.startswith(mark + "unusual")]
    return found[0] if found else None


def test_mistakes():
    """Every mistake of samples/mistakes.txt: refused with the writer's words, nothing entered. By fields where the form can hold it, else as a
    line."""
    page, lines, refused = Page(), [], 0
    try:
        for line in lines_of("mistakes.txt"):
            words = words_of(line)
            name = words[0].lower()
            if name == "close" and expected(lines, " ".join(words)) is None:
                continue  # it would close the book: in the form no close comes too early
            by_fields = fits_form(name, words[1:])
            if by_fields and name not in ("farm", "heading") and not page.buttons(name):
                by_fields = False  # the form has no such kind under this heading
            typed = " ".join([name, *(word.replace(",", ".") for word in words[1:])]) if by_fields else " ".join(words)
            want = expected(lines, typed)
            before = page.shown()
            if by_fields:
                button = enter(page, line)
            else:
                page.press("Type a line")
                page.field("line").send_keys(typed)
                button = "Add the line"
            if want is None:
                page.changed(lambda: page.press(button))
                lines.append(typed)
            else:
                refused += 1
                assert want in page.text("#remarks"), f"{typed}: {page.text('#remarks')} instead of {want}"
                page.press(button)
                page.until(lambda: want in page.text("#remarks"), f"{typed}: the words are gone")
                assert page.shown() == before, f"{typed} was entered"
                if name == "heading" or page.text("#heading").startswith("New group"):
                    page.changed(lambda: page.press("Undo"))
                elif not by_fields:
                    page.press("Back to the fields")
            if page.buttons("Back to the fields"):
                page.press("Back to the fields")
        assert refused >= 14, refused
    finally:
        page.close()
