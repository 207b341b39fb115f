"""A text with mistakes is opened: every line is kept, failed ones are marked and mended; farm records of both forms; the keyboard alone."""
import pathlib
import shutil
import tempfile

from selenium.webdriver.common.keys import Keys

from entering import enter
from keeping import begin
from page import Page
from reference import SAMPLES


def opened(text):
    folder = tempfile.mkdtemp()
    path = pathlib.Path(folder) / "farm.txt"
    path.write_text(text)
    page = Page()
    try:
        page.choose_files("Open", path)
        page.until(lambda: page.shown(), "the text was not opened")
    finally:
        shutil.rmtree(folder)
    return page


def test_mending():
    """Failed lines are kept and marked with the writer's words, mended one by one; then the text's own close closes the book."""
    text = "farm 7 2010 1\n# the barn\nheading 12 milking 40 # cows\nenteric 31 300 6,5\nheading 20 drye 9\nenteric 31 200 6.5\nclose\n"
    page = opened(text)
    try:
        assert page.saved("Save the text") == text.encode(), "a line of the text was changed"
        assert page.state().startswith("2 records, not closed"), page.state()
        for words in ('"6,5" is no number: use a point', '"drye" is none of milking', "without heading: the heading in line 5 was not written",
            "close withheld"):
            assert words in page.text("#records"), words
        page.press("Close the book")
        assert page.one("#todo").get_attribute("disabled"), "a book with a failed line can be closed"
        page.press("Go on entering")
        page.press("Mend line 4")
        page.fill("line", "enteric 31 300 6.5x")
        page.press("Correct line 4")
        assert '"6.5x" is no number' in page.text("#remarks") and page.state().startswith("2 records"), page.text("#remarks")
        page.fill("line", "enteric 31 300 6.5")
        page.changed(lambda: page.press("Correct line 4"))
        page.press("Mend line 5")
        page.fill("line", "heading 20 dry 9")
        page.changed(lambda: page.press("Correct line 5"))
        assert page.state().startswith("6 records, closed"), page.state()
        assert page.saved("Save the text").decode().startswith("farm 7 2010 1\n# the barn\nheading 12 milking 40 # cows\n")
    finally:
        page.close()


def test_many_mistakes():
    """More mistakes than the writer prints: a record after them is corrected in its own line, and one that is added goes in."""
    page = opened("farm 7 2010 1\nheading 12 milking 40\n" + "enteric 31 300 6,5\n" * 30 + "enteric 31 300 6.5 # right\n" + "soil 3,x\n" * 5)
    try:
        assert "and 15 more" in page.text("#records"), page.text("#records")
        page.click("#records tr[data-record='2']")
        page.fill("GE", "310")
        page.changed(lambda: page.press("Correct record 2"))
        assert page.shown()[2] == "enteric 31 310.00 6.50", page.shown()
        assert b"\nenteric 31 310 6.50 # right\n" in page.saved("Save the text")
        page.changed(lambda: page.press(enter(page, "enteric 28 300 6.5")))
        assert page.shown()[3] == "enteric 28 300.00 6.50", page.shown()
    finally:
        page.close()


def test_factors():
    """Other warming factors than the two sets: a farm record of the second form, entered and corrected."""
    page = Page()
    try:
        begin(page, ("farm 7 2010 28 265", "heading 12 milking 40", "enteric 31 300 6.5"))
        assert page.shown()[0] == "farm 7 2010 28 265", page.shown()
        page.click("#records tr[data-record='0']")
        page.fill("N2O factor", "273")
        page.changed(lambda: page.press("Correct record 0"))
        assert page.shown()[0] == "farm 7 2010 28 273", page.shown()
        assert page.text("#name") == "Farm 7, 2010"
    finally:
        page.close()


def test_keyboard():
    """By the keyboard alone: Tab from field to field, Enter adds, Escape leaves a correction, Ctrl+Z undoes."""
    page = Page()
    try:
        page.script("document.getElementById('field-0').focus()")
        for word in ("7", "2010", "1"):
            page.keys(word, Keys.TAB)
        page.again(lambda: page.field("warming set").click())
        page.changed(lambda: page.keys(Keys.ENTER))
        begin(page, ("heading 12 milking 40",))
        page.script("document.getElementById('field-0').focus()")
        page.keys("31", Keys.TAB)
        page.keys("300", Keys.TAB)
        page.changed(lambda: page.keys("6,5", Keys.ENTER))
        assert page.shown()[-1] == "enteric 31 300.00 6.50", page.shown()
        page.script("document.querySelector('#records tr[data-record=\"2\"] button').focus()")
        page.keys(Keys.ENTER)
        page.until(lambda: page.buttons("Correct record 2"), "Enter on a record does not correct it")
        page.keys(Keys.ESCAPE)
        page.until(lambda: page.buttons("Add enteric"), "Escape does not leave the correction")
        page.field("days").send_keys("3", Keys.CONTROL, "z")
        page.field("days").clear()
        page.changed(lambda: page.press(enter(page, "enteric 28 300 6.5")))
        assert len(page.shown()) == 4, "Ctrl+Z in a field took a record away"
        page.changed(lambda: page.one("#undo").send_keys(Keys.CONTROL, "z"))
        assert len(page.shown()) == 3, page.shown()
    finally:
        page.close()


def test_samples():
    """The text with mistakes that is kept in samples/ is opened, with as many lines not in the book as the writer counts."""
    page = opened((SAMPLES / "mistakes.txt").read_text())
    try:
        assert page.state().startswith("10 records, not closed"), page.state()
        assert "Not in the book: 10 refused, 6 not read, 4 without heading" in page.text("#records")
        assert page.errors() == [], page.errors()
    finally:
        page.close()
