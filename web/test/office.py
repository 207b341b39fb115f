"""What the office does: many books at once, Check, Compare, What if, the page; files of every kind."""
import pathlib
import shutil
import tempfile

from entering import enter
from keeping import begin
from page import Page
from reference import SAMPLES, reference


def folder_of(files):
    folder = pathlib.Path(tempfile.mkdtemp())
    for name, data in files.items():
        (folder / name).write_bytes(data)
    return folder


def test_files():
    """A typed text, a damaged book, a sheet, garbage, an empty file and 200 MB: words, no crash, and nothing replaces the draft without a
    question."""
    folder = folder_of({"garbage.bin": bytes(range(256)) * 40, "letter.txt": b"Dear Sir,\nthe cows are well.\n", "empty.book": b"",
                        "cut.book": (SAMPLES / "sample.book").read_bytes()[:40]})
    with open(folder / "huge.book", "wb") as file:
        file.truncate(200_000_000)
    page = Page()
    try:
        begin(page)
        before = page.shown()
        for path, words in ((SAMPLES / "damaged.book", "Refused at record 3"), (SAMPLES / "sample.csv", "This is a sheet"),
            (folder / "garbage.bin", "No book"),
                            (folder / "letter.txt", "no book and no text"), (folder / "empty.book", "The file is empty"), (folder / "huge.book",
                                "too large for a book")):
            page.choose_files("Open", path)
            page.until(lambda: page.one("#view-check").is_displayed() and words in page.text("#view-check"),
                f"{path.name}: {page.text('#view-check')}")
            page.view("book")
            assert page.shown() == before, f"{path.name} replaced the draft"
        page.script("""const data = new DataTransfer(); data.items.add(new File(["hello"], "dropped.txt"));
            window.dispatchEvent(new DragEvent("drop", { dataTransfer: data, cancelable: true }));""")
        page.until(lambda: "dropped.txt" in page.text("#view-check"), "what is dropped is not opened")
        page.view("book")
        for path, count in ((SAMPLES / "farm.txt", 27), (folder / "cut.book", 3)):
            page.choose_files("Open", path)
            page.until(lambda: page.all("dialog"), f"{path.name} replaced the draft without a question")
            page.press("Keep the draft")
            page.until(lambda: not page.all("dialog"), "the question stays")
            assert page.shown() == before
            page.choose_files("Open", path)
            page.until(lambda: page.all("dialog"), "no question")
            page.press("Open it")
            page.until(lambda: page.state().startswith(f"{count} records"), page.state())
            before = page.shown()
        page.changed(lambda: page.press(enter(page, "enteric 29 300 6.5")))
        assert len(page.shown()) == 4, "an unfinished book does not go on"
        assert page.errors() == [], page.errors()
    finally:
        page.close()
        shutil.rmtree(folder)


def test_check():
    """Check: the reason in why's words, the clean copy and the list are salvage's; the draft can be replaced by it."""
    damaged = (SAMPLES / "damaged.book").read_bytes()
    page = Page()
    try:
        page.choose_files("Open", SAMPLES / "damaged.book")
        page.until(lambda: "Refused at record 3" in page.text("#view-check"), "not refused")
        machine, people = reference("why", damaged)[0].decode().split("\n")[:2]
        assert machine in page.text("#view-check") and people in page.text("#view-check")
        clean, said = reference("salvage", damaged)
        assert page.saved("Save it as a file") == clean
        assert page.saved("Save the list").decode() == said
        page.press("Open the saved book in Book")
        page.until(lambda: page.state().startswith("8 records, closed"), page.state())
        page.changed(lambda: page.press("Undo") if page.button("Undo").is_enabled() else page.press("Open again"))
    finally:
        page.close()


def test_books():
    """Many books at once, and a book in parts: which are ready; the page, sheet and text of one; all pages that are ready."""
    sample = (SAMPLES / "sample.book").read_bytes()
    folder = folder_of({"a.book": sample, "b.part1": sample[:30], "b.part2": sample[30:], "c.book": sample[:40],
        "d.book": (SAMPLES / "refused.book").read_bytes(),
                        "e.txt": (SAMPLES / "farm.txt").read_bytes()})
    page = Page()
    try:
        page.view("page")
        page.choose_files("Open books", *sorted(folder.iterdir()))
        page.until(lambda: len(page.all(".books li")) == 5, f"{len(page.all('.books li'))} books")
        words = [each.text for each in page.all(".books li")]
        assert [("page is ready" in each) for each in words] == [True, True, False, False, True], words
        assert "b.part1 + b.part2" in words[1] and "not closed: not for members" in words[2] and "refused at record 2: see Check" in words[3]
        page.click(".books button", 2)
        page.until(lambda: "Not for members" in page.one("#frame").get_attribute("srcdoc"), "the page of a book that is not closed")
        assert not page.button("Save the page").get_attribute("href"), "the page of a book that is not closed can be saved"
        page.click(".books button", 0)
        assert page.saved("Save the sheet") == reference("sheet", sample)[0]
        assert page.saved("Save its text") == reference("retype", sample)[0]
        page.press("Save all ready pages")
        page.until(lambda: len([each for each in page.files_saved() if each.suffix == ".html"]) == 3, "not three pages")
        pages = {each.read_bytes() for each in page.files_saved() if each.suffix == ".html"}
        assert pages == {reference("page", sample)[0], reference("page", reference("writer", (SAMPLES / "farm.txt").read_bytes())[0])[0]}
        page.until(lambda: page.one("#page-busy").text == "3 pages were given to the browser.", "how many pages were saved is not said")
        assert page.one("#page-all").is_enabled(), "the pages can't be saved once more"
    finally:
        page.close()
        shutil.rmtree(folder)


def test_compare():
    """Compare prints what bin/compare prints; its last word stands after what differs, and alone where nothing does."""
    sample = (SAMPLES / "sample.book").read_bytes()
    folder = folder_of({"old.book": sample, "new.book": sample[:29] + b"1" + sample[30:]})
    page = Page()
    try:
        page.view("compare")
        page.one("#old-file").send_keys(str(folder / "old.book"))
        page.one("#new-file").send_keys(str(folder / "new.book"))
        page.until(lambda: page.all("#compared pre"), "nothing is compared")
        printed = page.one("#compared pre").get_attribute("textContent").encode()
        assert page.saved("Save this comparison") == printed
        assert printed == reference("compare", b"", str(folder / "old.book"), str(folder / "new.book"))[0]
        order = "return [...document.querySelectorAll('#compared > table, #compared > .big')].map((each) => each.tagName)"
        assert page.script(order) == ["TABLE", "P"], "the last word does not stand after what differs"
        page.one("#new-file").send_keys(str(folder / "old.book"))
        page.until(lambda: page.text("#compared .big") == "nothing differs", "the same book differs from itself")
        assert page.script(order) == ["P"], "something stands beside a book that does not differ"
    finally:
        page.close()
        shutil.rmtree(folder)


def test_whatif():
    """What if prints bin/whatif's slip at each move; a value that it refuses is said in its words."""
    page = Page()
    try:
        begin(page)
        page.view("whatif")
        page.press("Take it from group 12")
        page.press("head times X")
        page.script("const field = document.getElementById('whatif-X'); field.value = '1,25'; field.dispatchEvent(new Event('input'));")
        printed = reference("whatif", b"300.00 6.50 40 31 head 1.25\n")[0].decode().strip()
        assert page.one("#slip").get_attribute("data-printed") == printed, page.one("#slip").get_attribute("data-printed")
        page.script("const field = document.getElementById('whatif-X'); field.value = '9'; field.dispatchEvent(new Event('input'));")
        assert "refused 14" in page.text("#slip") or "refused 15" in page.text("#slip"), page.text("#slip")
    finally:
        page.close()


def test_tables():
    """Holos' values fill the fields of a pig record and of a ration, with the tables' numbers; all can be changed."""
    page = Page()
    try:
        begin(page, ("farm 7 2010 1", "heading 12 milking 40"))
        page.press("Dairy lactation diet: Ym 6.5 (A4-14)")
        assert page.field("Ym").get_attribute("value") == "6.5"
        begin(page, ("heading 50 pig 100",))
        page.click(".offer summary")
        assert "A4-19" in page.text(".offer") and "A4-24" in page.text(".offer")
        page.press("Fill in from A4-19")
        page.fill("days", "31")
        page.changed(lambda: page.press("Add pig to group 50"))
        assert page.shown()[-1] == "pig 31 0.70 0.1446 1.000 0.020 22.00 1.000 0.00500 0.450 0.01000 0.000 0.00750", page.shown()[-1]
    finally:
        page.close()
