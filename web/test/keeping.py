"""What is kept, and where: before it is shown, by one window, with and without room."""
import shutil
import tempfile

from entering import enter
from page import PAGE, Page

BEGIN = ("farm 7 2010 1", "heading 12 milking 40", "enteric 31 300 6.5")

# The end of each transaction waits until the test lets it go, as on a slow disk.
HELD = """
const late = Object.getOwnPropertyDescriptor(IDBTransaction.prototype, "oncomplete");
window.ends = [];
window.hold = false;
window.letGo = () => { window.hold = false; window.ends.splice(0).forEach((end) => end()); };
Object.defineProperty(IDBTransaction.prototype, "oncomplete", { set(handler) {
    late.set.call(this, (event) => (window.hold ? window.ends.push(() => handler.call(this, event)) : handler.call(this, event))); } });
"""

FULL = """
const put = IDBObjectStore.prototype.put;
IDBObjectStore.prototype.put = function (...words) { if (window.full) { throw new DOMException("no room",
    "QuotaExceededError"); } return put.apply(this, words); };
"""

NO_STORE = "Object.defineProperty(window, 'indexedDB', { get() { throw new Error('no store'); } });"

NO_LOCKS = "Object.defineProperty(Navigator.prototype, 'locks', { get() { return undefined; } });"


def begin(page, lines=BEGIN):
    for line in lines:
        page.changed(lambda: page.press(enter(page, line)))


def test_slow():
    """A change is kept before it is shown: while the disk has not answered, the record is not in the list, and no other change begins."""
    page = Page(script=HELD)
    try:
        begin(page, BEGIN[:2])
        button = enter(page, BEGIN[2])
        page.script("window.hold = true")
        page.press(button)
        page.until(lambda: page.script("return window.ends.length") == 1, "nothing is kept")
        assert len(page.shown()) == 2, "the record is shown before it is kept"
        page.press("Undo")
        page.script("window.letGo()")
        page.until(lambda: len(page.shown()) == 3, "the record is not shown")
        assert page.text("#trouble") == "", page.text("#trouble")
        begin(page, ("enteric 28 300 6.5",))
        assert page.shown()[2:] == ["enteric 31 300.00 6.50", "enteric 28 300.00 6.50"], "Undo in the meantime took a record away"
    finally:
        page.close()


def test_killed():
    """The browser is killed (SIGKILL) in the middle: the draft is there to the last added record, and Undo too."""
    folder = tempfile.mkdtemp()
    try:
        page = Page(profile=f"{folder}/profile")
        try:
            begin(page)
            before = page.shown()
            page.kill()
            page = Page(profile=f"{folder}/profile")
            assert page.shown() == before, page.shown()
            assert page.state().startswith("3 records, not closed, saved on this device"), page.state()
            page.changed(lambda: page.press("Undo"))
            assert page.shown() == before[:-1]
        finally:
            page.close()
    finally:
        shutil.rmtree(folder, ignore_errors=True)


def two_windows(page):
    page.script("window.open(arguments[0])", PAGE.as_uri())
    first, second = page.driver.window_handles
    page.driver.switch_to.window(second)
    page.size(1024, 768)
    page.until(lambda: page.one("#state").get_attribute("data-opened"), "the second window did not open")
    return first, second


def test_windows():
    """The second window says so and only reads; when the first one is closed it goes on with what was kept last."""
    page = Page()
    try:
        begin(page)
        first, second = two_windows(page)
        assert "another window" in page.text("#trouble"), page.text("main")
        assert len(page.shown()) == 3
        assert page.script("return document.getElementById('form').inert"), "the second window can be typed into"
        page.driver.switch_to.window(first)
        page.changed(lambda: page.press(enter(page, "enteric 28 300 6.5")))
        page.driver.close()
        page.driver.switch_to.window(second)
        page.until(lambda: len(page.shown()) == 4, "the second window has not what was kept last")
        page.changed(lambda: page.press(enter(page, "enteric 29 300 6.5")))
        assert len(page.shown()) == 5
    finally:
        page.close()


def test_locks():
    """Two windows of a browser without locks: the one that comes late keeps nothing, says so, and overwrites nothing."""
    page = Page(script=NO_LOCKS)
    try:
        begin(page)
        page.command("Page.addScriptToEvaluateOnNewDocument", source=NO_LOCKS)
        page.driver.switch_to.new_window("window")
        page.command("Page.enable")
        page.size(1024, 768)
        page.command("Page.addScriptToEvaluateOnNewDocument", source=NO_LOCKS)
        page.open()
        page.changed(lambda: page.press(enter(page, "enteric 28 300 6.5")))
        second = page.driver.current_window_handle
        first = [each for each in page.driver.window_handles if each != second][0]
        page.driver.switch_to.window(first)
        page.press(enter(page, "enteric 30 300 6.5"))
        page.until(lambda: "Another window has changed" in page.text("#trouble"), "nothing is said")
        assert len(page.shown()) == 3
        page.open()
        assert page.shown()[-1] == "enteric 28 300.00 6.50", page.shown()
    finally:
        page.close()


def test_quota():
    """No room: it is said, nothing is lost while the page is open, and the next change that has room keeps all."""
    page = Page(script=FULL)
    try:
        begin(page, BEGIN[:2])
        page.script("window.full = true")
        page.changed(lambda: page.press(enter(page, BEGIN[2])))
        assert page.state() == "3 records, not closed, not saved", page.state()
        assert "no room" in page.text("#trouble") and "Save the text" in page.text("#trouble")
        assert b"enteric 31 300 6.5\n" in page.saved("Save the text")
        page.script("window.full = false")
        page.changed(lambda: page.press(enter(page, "enteric 28 300 6.5")))
        assert page.state() == "4 records, not closed, saved on this device", page.state()
        assert page.text("#trouble") == ""
        page.open()
        assert len(page.shown()) == 4
    finally:
        page.close()


def test_private():
    """Without a kept draft the page works and says that nothing is kept. A private window of Chromium keeps until it is closed, which no page can
    see:
    there the first screen has said so."""
    page = Page(script=NO_STORE)
    try:
        begin(page)
        assert page.state() == "3 records, not closed, not saved", page.state()
        assert "private" in page.text("#trouble"), page.text("#trouble")
    finally:
        page.close()
    page = Page("--incognito")
    try:
        assert "private window" in page.text("#band"), page.text("#band")
        begin(page)
        assert page.state().startswith("3 records, not closed"), page.state()
    finally:
        page.close()
