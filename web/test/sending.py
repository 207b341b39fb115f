"""The desk in a real browser: the farms at a glance, `Send` while the desk is killed, `/app` without a desk, a member's view. Needs target/farmbook.html,
the shared library and the programs. Pictures go to target/pictures."""
import base64
import contextlib
import pathlib
import sqlite3
import sys
import tempfile
import time

ROOT = pathlib.Path(__file__).resolve().parents[2]
sys.path[:0] = [str(ROOT), str(ROOT / "web/test")]

import run  # noqa: E402
from entering import enter  # noqa: E402
from page import PAGE, Page  # noqa: E402

from desk.check import check  # noqa: E402
from desk.store import Store  # noqa: E402
from desk.tests.support import REFUSED, SAMPLE, Server, Tablet  # noqa: E402

PICTURES = ROOT / "target/pictures"
TOKENS = "anna-token adviser Anna\nolga-token office Olga\nmia-token member Mia 7\n"
BEGIN = ("farm 9 2011 1", "heading 12 milking 40", "enteric 31 300 6.5")
SLOW = {"offline": False, "latency": 20, "downloadThroughput": 1e6, "uploadThroughput": 12000}


def many_records():
    """A text of about 4,000 records, which goes out in many parts."""
    lines = ["farm 8 2010 1"]
    for group in range(1, 11):
        lines += [f"heading {group} milking {group}", *(f"enteric 1 {300 + day % 50} 6.5" for day in range(365))]
    return "\n".join([*lines, "close", ""])


@contextlib.contextmanager
def desk(tokens=False):
    with tempfile.NamedTemporaryFile("w", suffix=".tokens") as file:
        file.write(TOKENS)
        file.flush()
        with Server(*(["--tokens", file.name] if tokens else [])) as server:
            yield server


@contextlib.contextmanager
def browser(**words):
    if not PAGE.exists():
        raise FileNotFoundError(f"{PAGE} is not there: web/build makes it")
    page = Page(load=False, **words)
    try:
        yield page
    finally:
        page.close()


def visit(page, server, path="/app", who=""):
    page.driver.get(f"http://{who and who + '@'}127.0.0.1:{server.port}{path}")
    if path == "/app":
        page.until(lambda: page.one("#state").get_attribute("data-opened"), "the page did not open")
        page.until(lambda: page.buttons("Send"), "there is no Send")


def said(page, words):
    page.until(lambda: page.text("#sent").startswith(words), lambda: f"{words} is not said, but {page.text('#sent')}")


def deliveries(server):
    """The bytes of each delivery in which something came, in their order."""
    store = Store(server.store)
    assert check(store) == []
    return [store.sent(book.id)[0] for book in store.books() if book.taken]


def bytes_said(page):
    words = page.text("#sent").split()
    return int(words[1].replace(",", "")) if words[:1] == ["sent"] else 0


def book_of(page):
    return page.saved("Save the book")


def begin(page, lines):
    for line in lines:
        page.changed(lambda: page.press(enter(page, line)))


def no_error(page):
    """Nothing that the browser calls an error, but for a desk that is not there, which it has many words for."""
    gone = lambda each: "Failed to load resource: net::ERR_" in each and "ERR_BLOCKED" not in each
    found = [each for each in page.errors() if not gone(each) and not any(word in each for word in (" 401 ", " 403 "))]
    assert found == [], found


def test_desk_killed():
    """Three times killed while a book is sent, once with a reload: all arrives once."""
    with desk() as server, browser() as page, tempfile.TemporaryDirectory() as folder:
        text = pathlib.Path(folder) / "many.txt"
        text.write_text(many_records())
        visit(page, server)
        page.changed(lambda: page.choose_files("Open", text))
        page.until(lambda: page.state().startswith("3662 records, closed"), "the text did not open")
        book = book_of(page)
        page.command("Network.enable")
        page.command("Network.emulateNetworkConditions", **SLOW)
        page.press("Send")
        for turn, least in enumerate((1, 12000, 24000)):
            page.until(lambda: bytes_said(page) >= least, lambda: f"{least} bytes were never sent: {page.text('#sent')}")
            server.kill()
            page.until(lambda: "the desk does not answer and is asked again" in page.text("#sent"), "that the desk is gone is not said")
            assert bytes_said(page) < len(book), "all was sent before the desk was killed"
            if turn == 1:
                page.driver.refresh()
                page.until(lambda: page.one("#state").get_attribute("data-opened"), "the page did not open without the desk")
            time.sleep(0.5)
            server.start()
        said(page, "all is there")
        assert deliveries(server) == [book], f"not one delivery of the book, but {[len(each) for each in deliveries(server)]}"
        page.press("Send")
        time.sleep(1)
        said(page, "all is there")
        assert deliveries(server) == [book]
        no_error(page)


def test_desk_grows():
    """A book that goes on sends only what is new; one that was corrected is a new delivery."""
    with desk() as server, browser() as page:
        visit(page, server)
        begin(page, BEGIN)
        first = book_of(page)
        page.press("Send")
        said(page, "all is there so far: the book is not closed")
        begin(page, ("enteric 28 300 6.5",))
        said(page, "changed since it was sent")
        page.press("Send")
        said(page, "all is there so far")
        grown = book_of(page)
        assert grown.startswith(first) and deliveries(server) == [grown]
        visit(page, server)
        said(page, "all is there so far")
        page.changed(lambda: page.press("Undo"))
        begin(page, ("enteric 27 310 6.5",))
        page.press("Send")
        said(page, "all is there so far")
        assert deliveries(server) == [grown, book_of(page)]
        page.press("Close the book")
        page.changed(lambda: page.press("Close the book"))
        page.press("Send")
        page.until(lambda: page.text("#sent") == "all is there", "the close is not sent")
        assert deliveries(server) == [grown, book_of(page)]
        for width, height in ((390, 844), (820, 1180), (1280, 800)):
            page.size(width, height)
            page.picture(PICTURES / f"send-{width}.png")
            assert page.script("return document.documentElement.scrollWidth <= innerWidth"), f"wider than {width}"
        no_error(page)


def test_desk_token():
    """The token is asked for once and kept; one that may not send, or that nobody has, is asked for again."""
    with desk(tokens=True) as server, browser() as page:
        visit(page, server, who="Anna:anna-token")
        begin(page, BEGIN)
        page.press("Send")
        for token, words in (("nobodys-token", "Type the token"), ("olga-token", "a token is needed"), ("anna-token", "your token does not let you")):
            page.until(lambda: page.text("dialog").startswith(words), f"{words} is not asked, but {page.text('dialog')}")
            if token == "nobodys-token":
                page.picture(PICTURES / "send-token.png")
            page.one("#token").send_keys(token)
            page.press("Send with this token")
        said(page, "all is there so far")
        visit(page, server, who="Anna:anna-token")
        begin(page, ("enteric 28 300 6.5",))
        page.press("Send")
        said(page, "all is there so far")
        assert page.all("dialog") == [] and len(deliveries(server)) == 1
        assert "token" not in server.said()


def test_desk_off():
    """Once it was there, the page opens without the desk, with the draft; what is sent waits and goes on by itself."""
    with desk() as server, browser() as page:
        visit(page, server)
        page.until(lambda: page.driver.execute_async_script(
            "const done = arguments[0]; caches.match('/app').then((kept) => done(Boolean(kept && navigator.serviceWorker.controller)))"),
            "the page is not kept")
        begin(page, BEGIN)
        server.kill()
        visit(page, server)
        assert page.state().startswith("3 records"), page.state()
        page.press("Send")
        said(page, "nothing is sent yet; the desk does not answer and is asked again")
        visit(page, server)
        server.start()
        said(page, "all is there so far")
        assert deliveries(server) == [book_of(page)]


def filled(server):
    """Books of every state, one of them silent for five days."""
    for book, parts in ((SAMPLE, 1), (REFUSED, 1), (SAMPLE, 1), (SAMPLE[:60], 1)):
        tablet = Tablet(server, book, "anna-token")
        tablet.begin()
        tablet.send(0, book)
    other = Tablet(server, SAMPLE, "anna-token")
    other.begin()
    other.send(0, bytes.fromhex("0201") + SAMPLE[2:2])
    with sqlite3.connect(server.store) as store:
        store.execute("UPDATE books SET heard = heard - 432000 WHERE id = (SELECT id FROM books ORDER BY begun DESC LIMIT 1)")


def authorized(page, token):
    page.command("Network.enable")
    given = base64.b64encode(f"x:{token}".encode()).decode()
    page.command("Network.setExtraHTTPHeaders", headers={"Authorization": f"Basic {given}"})


def test_desk_overview():
    """At three widths, light and dark: nothing is wider than the screen, what needs a call is first; a member sees the own farm alone."""
    with desk(tokens=True) as server, browser() as page:
        filled(server)
        authorized(page, "olga-token")
        visit(page, server, "/")
        titles = page.script("return [...document.querySelectorAll('h2')].map((each) => each.innerText)")
        assert titles == ["Needs a call", "Coming in", "Closed", "Replaced"], titles
        for width, height in ((390, 844), (820, 1180), (1280, 800)):
            for dark in (False, True):
                page.size(width, height, dark)
                page.picture(PICTURES / f"overview-{width}-{'dark' if dark else 'light'}.png")
                assert page.script("return document.documentElement.scrollWidth <= innerWidth"), f"wider than {width}"
        page.click("a[href$='/page']")
        page.until(lambda: page.text("h1") == "Farm 7, 2010", "the member's page did not open")
        authorized(page, "mia-token")
        visit(page, server, "/")
        shown = page.script("return [...document.querySelectorAll('td[data-l=Farm]')].map((each) => each.innerText)")
        assert set(shown) == {"7"} and page.text("h1") == "Your farm's books", shown
        links = page.script("return [...document.querySelectorAll('a')].map((each) => each.pathname.split('/').at(-1))")
        assert set(links) == {"page", "sheet.csv"}, links
        page.size(390, 844)
        page.picture(PICTURES / "member-390.png")


if __name__ == "__main__":
    run.TESTS = {name[5:]: test for name, test in list(globals().items()) if name.startswith("test_")}
    sys.exit(run.main(sys.argv[1:]))
