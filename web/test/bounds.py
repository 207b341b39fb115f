"""What the page can bear: a full book, strange words, no network."""
import pathlib
import shutil
import tempfile

from entering import enter
from keeping import begin
from page import PAGE, Page
from reference import reference


def largest():
    """A text of 4,096 records, closed."""
    lines = ["farm 7 2010 1"]
    for group in range(1, 301):
        lines += [f"heading {group} milking 40", *["enteric 30 300 6.5"] * 12]
    return "\n".join([*lines, *["energy 1 12.5 70000"] * (4095 - len(lines)), "close", ""])


def times(page):
    """What the last change took, in ms: all of it, the programs, the keeping on the disk, and the rest, which is drawing."""
    total, judging, keeping = (float(page.data(name)) for name in ("ms", "judging", "keeping"))
    return f"{total:.0f} ms (programs {judging:.0f}, disk {keeping:.0f}, drawing {total - judging - keeping:.0f})"


def test_large():
    """A book of 4,096 records opens, lists, takes changes, which are in sight, is closed and paged; the times are printed."""
    folder = tempfile.mkdtemp()
    path = pathlib.Path(folder) / "large.txt"
    path.write_text(largest())
    page = Page()
    try:
        page.choose_files("Open", path)
        page.until(lambda: page.state().startswith("4096 records, closed"), page.state)
        assert page.one("#records").get_attribute("aria-rowcount") == "4096"
        took = [f"opened, {times(page)}"]
        page.changed(lambda: page.press("Open again"))
        page.click("#records tr[data-record='4094'] button")
        page.changed(lambda: page.press("Remove record 4094"))
        for source in (2, 3, 4):
            page.changed(lambda: page.press(enter(page, f"energy {source} 12.5 70000")))
            assert page.shown()[-1] == f"energy {source} 12.5 70000", "what was added is not in sight"
            took.append(f"added, {times(page)}")
            if source < 4:
                page.changed(lambda: page.press("Undo"))
                took.append(f"undone, {times(page)}")
        page.press("Show earlier ones")
        key = page.script("""const start = performance.now(); const field = document.getElementById("field-0"); field.value = "3";
            field.dispatchEvent(new Event("input", { bubbles: true })); return performance.now() - start;""")
        text = largest().replace("energy 1 12.5 70000\nclose\n", "energy 4 12.5 70000\nclose\n")
        assert page.saved("Save the book") == reference("writer", text.replace("close\n", "").encode())[0]
        page.open()
        took.append(f"the page opened anew with it, {float(page.data('opened')):.0f} ms")
        page.press("Close the book")
        page.changed(lambda: page.press("Close the book"))
        took.append(f"closed, {times(page)}")
        page.view("page")
        page.until(lambda: page.all("#frame"), "no page")
        assert page.one("#frame").get_attribute("srcdoc").encode() == reference("page", reference("writer", text.encode())[0])[0]
        print(f"large: {'; '.join(took)}; a key, {key:.0f} ms")
    finally:
        page.close()
        shutil.rmtree(folder)


def test_opening():
    """The page has less than 500 KB; from opening the file to the first list, of a small book that was kept, is printed."""
    size = PAGE.stat().st_size
    assert size < 500_000, f"the page has {size} bytes"
    page = Page()
    try:
        begin(page)
        took = []
        for _ in range(5):
            page.open()
            took.append(float(page.data("opened")))
            assert len(page.shown()) == 3
        print(f"opening: to the first list {', '.join(f'{each:.0f}' for each in took)} ms; {size} bytes")
    finally:
        page.close()


def test_words():
    """What a person typed is never put into the page as HTML."""
    folder = tempfile.mkdtemp()
    path = pathlib.Path(folder) / "strange.txt"
    bad = "<img src=x onerror='document.title=1'><b id=injected>"
    path.write_text(f"farm 7 2010 1\nheading 12 milking 40\nenteric 31 300 {bad}\n{bad}\nenteric 31 300 6.5 # {bad}\n")
    page = Page()
    try:
        page.choose_files("Open", path)
        page.until(lambda: page.state().startswith("2 records") or page.state().startswith("3 records"), page.state())
        for view in ("book", "page", "check", "compare"):
            page.view(view)
            assert page.all("#injected") == [] and page.all("main img") == [], f"{view}: HTML was put in"
        page.view("book")
        assert bad in page.one("#records").get_attribute("textContent")
    finally:
        page.close()
        shutil.rmtree(folder)


def test_offline():
    """The file from disk with the network off: it works, asks for nothing, and its policy stops whatever would."""
    page = Page("--host-resolver-rules=MAP * ~NOTFOUND", load=False)
    try:
        page.command("Network.enable")
        page.command("Network.emulateNetworkConditions", offline=True, latency=0, downloadThroughput=0, uploadThroughput=0)
        page.open()
        begin(page)
        for view in ("page", "check", "compare", "whatif", "book"):
            page.view(view)
        asked = page.script("return performance.getEntriesByType('resource').map((each) => each.name)")
        assert [each for each in asked if not each.startswith("blob:")] == [], asked
        sent = [entry["message"] for entry in page.driver.get_log("performance")
            if '"Network.requestWillBeSent"' in entry["message"] and '"http' in entry["message"].split('"request"')[-1][:400]]
        assert [each for each in sent if '"url":"http' in each] == [], sent
        stopped = page.driver.execute_async_script("""const done = arguments[0];
            document.addEventListener("securitypolicyviolation", (event) => { window.stopped = event.violatedDirective; });
            fetch("https://example.org/").then(() => done("sent"), (error) => done("stopped"));""")
        assert stopped == "stopped" and page.script("return window.stopped") == "connect-src", "the policy does not stop a request"
    finally:
        page.close()
