"""How the page looks and who can use it: pictures of each view for whoever looks at them, and what can be measured."""
import pathlib

from keeping import begin
from page import Page
from reference import ROOT, SAMPLES

PICTURES = ROOT / "target/pictures"
SIZES = ((390, 844), (768, 1024), (1024, 768), (1440, 900))
MEASURE = (pathlib.Path(__file__).parent / "measure.js").read_text()

FARM = ("farm 1174 2026 1", "heading 12 milking 64", "enteric 31 342 6.5", "enteric 28 342 6.5", "cattle 31 20.80 16.40 29.40 3.38 40 15 85 0",
        "heading 20 dry 11", "heading 31 heifer 38", "heading 50 pig 240", "energy 1 9400 2730",
        "tillage mixedwood-plains medium intensive-to-no 6 42.5")


def taken(page, scene):
    """Pictures of a scene at each width, light and dark (target/pictures); gives what is wrong in one: contrast, targets, labels, width."""
    wrong = []
    for width, height in SIZES:
        for dark in (False, True):
            page.size(width, height, dark)
            name = f"{scene}-{width}-{'dark' if dark else 'light'}"
            page.picture(PICTURES / f"{name}.png")
            wrong += [f"{name}: {each}" for each in page.script(MEASURE)]
    page.size(1024, 768)
    return wrong


SEEN = """const each = document.querySelector(arguments[0]), box = each.getBoundingClientRect();
    const at = (y) => each.contains(document.elementFromPoint(box.left + 8, y)); return at(box.top + 4) && at(box.bottom - 4);"""


def with_keypad(page):
    """The keypad is up: the heading, the field, its remark and Add stay in sight."""
    wrong = []
    for width, height in ((1024, 420), (390, 480)):
        page.click("#field-2")
        page.size(width, height)
        page.script("document.activeElement.scrollIntoView({ block: 'nearest' })")  # as a browser does when the keypad comes up
        page.picture(PICTURES / f"keypad-{width}.png")
        parts = ("#heading", "#field-2", "#field-2-say", "#todo")
        wrong += [f"keypad, {width}: {name} is out of sight" for name in parts if not page.script(SEEN, name)]
        page.size(1024, 768)
    return wrong


def test_looks():
    """What the adviser sees: contrast 4.5 at least, targets of 44 points, a label for each field, nothing wider than the screen."""
    page = Page()
    try:
        wrong = taken(page, "new")
        begin(page, FARM)
        page.press("Group 12, milking")
        page.press("enteric")
        page.fill_all([("days", []), ("GE", []), ("Ym", [])], ["31", "34.20", "65"])
        wrong += taken(page, "book") + with_keypad(page)
        for kind in ("cattle", "grazing", "tillage"):
            page.press(kind)
            wrong += taken(page, f"form-{kind}")
        page.press("Group 50, pig")
        page.click(".offer summary")
        page.press("Fill in from A4-19")
        wrong += taken(page, "form-pig")
        page.press("New group")
        wrong += taken(page, "form-heading")
        page.press("Group 12, milking")
        page.click("#records tr[data-record='2']")
        page.fill("GE", "350")
        wrong += taken(page, "form-correct")
        page.press("Close the book")
        wrong += taken(page, "form-close")
        page.changed(lambda: page.press("Close the book"))
        wrong += taken(page, "closed")
        assert wrong == [], "; ".join(sorted(set(wrong))[:12])
    finally:
        page.close()


def test_office_looks():
    """What the office sees, measured in the same way: books of each state, a page, a refused book, what differs, an estimate."""
    page = Page()
    try:
        begin(page, ("farm 7 2010 1", "heading 12 milking 40", "enteric 31 310 6.5"))
        page.view("page")
        page.choose_files("Open books", *(SAMPLES / name for name in ("damaged.book", "farm.txt", "mistakes.txt", "sample.csv")))
        page.until(lambda: len(page.all(".books li")) == 5, "the books are not listed")
        page.click(".books button", 2)
        wrong = taken(page, "page")
        page.click(".books button", 3)
        wrong += taken(page, "page-unfinished")
        page.view("compare")
        page.one("#old-file").send_keys(str(SAMPLES / "sample.book"))
        page.press("Take the draft as the new")
        page.until(lambda: page.all("#compared pre"), "nothing is compared")
        wrong += taken(page, "compare")
        page.view("whatif")
        page.press("Keep this line")
        wrong += taken(page, "whatif")
        page.view("check")
        wrong += taken(page, "check-draft")
        page.choose_files("Check another book", SAMPLES / "damaged.book")
        page.until(lambda: "Refused at record 3" in page.text("#view-check"), "the damaged book is not refused")
        wrong += taken(page, "check")
        page.view("book")
        page.choose_files("Open", SAMPLES / "mistakes.txt")
        page.until(lambda: page.all("dialog"), "no question")
        wrong += taken(page, "question")
        page.press("Open it")
        page.until(lambda: page.all("#records .failed"), "the text with mistakes is not opened")
        wrong += taken(page, "mistakes")
        page.press("Mend line 6")
        wrong += taken(page, "form-line")
        assert wrong == [], "; ".join(sorted(set(wrong))[:12])
    finally:
        page.close()
