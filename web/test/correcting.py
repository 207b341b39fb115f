"""Headings that are refused, and records that are corrected, removed and given back."""
from entering import enter
from keeping import BEGIN, begin
from page import Page
from reference import reference


def test_heading():
    """A heading that is refused: no ration can be entered until a heading is in; after a reload too. Undo gives it up."""
    page = Page()
    try:
        begin(page)
        page.changed(lambda: page.press(enter(page, "heading 12 dry 9")))
        for again in (False, True):
            if again:
                page.open()
            assert page.text("#heading") == "New group, not begun yet"
            assert not page.buttons("Add") and not page.buttons("enteric"), "a ration can be entered"
            assert not page.button("Group 12").is_enabled(), "the group before can be chosen"
            assert "refused 8" in page.text("#remarks"), page.text("#remarks")
            assert b"heading 12 dry 9\n" in page.saved("Save the text")
        page.changed(lambda: page.press("Undo"))
        assert page.text("#heading") == "Group 12, milking, 40 head"
        page.changed(lambda: page.press(enter(page, "heading 12 dry 9")))
        page.fill("group", "13")
        page.changed(lambda: page.press("Begin group 13"))
        assert page.text("#heading") == "Group 13, dry, 9 head"
        page.changed(lambda: page.press(enter(page, "enteric 31 200 6.5")))
        assert page.shown()[-2:] == ["heading 13 dry 9", "enteric 31 200.00 6.50"], page.shown()
    finally:
        page.close()


def test_correcting():
    """A line in the middle is corrected, removed, and given back by Undo; unusual values go in; groups and farm's own records find their place."""
    page = Page()
    try:
        begin(page, (*BEGIN, "energy 1 12,5 70000", "heading 9 dry 10", "enteric 365 220 6.5"))
        page.press("Group 12, milking")
        page.changed(lambda: page.press(enter(page, "enteric 28 3 6,5")))
        wanted = ["farm 7 2010 1", "heading 9 dry 10", "enteric 365 220.00 6.50", "heading 12 milking 40", "enteric 31 300.00 6.50",
            "energy 1 12.5 70000", "enteric 28 3.00 6.50"]
        order = lambda: [row for _, row in sorted((int(row.get_attribute("data-record")), row.get_attribute("data-typed"))
            for row in page.all("#records tr[data-record]"))]
        assert order() == wanted, order()
        assert "unusual: enteric, GE 3.00 MJ" in page.text("#records")
        book, _ = reference("writer", "".join(f"{line}\n" for line in wanted).encode())
        assert page.saved("Save the book") == book, "another book than bin/writer's"
        page.click("#records tr[data-record='4']")
        page.fill("GE", "400")
        page.until(lambda: "will be" in page.text("#effect") and "record 4" in page.text("#effect"), "what the correction changes is not shown")
        page.changed(lambda: page.press("Correct record 4"))
        assert order()[4] == "enteric 31 400.00 6.50"
        page.click("#records tr[data-record='3']")
        page.changed(lambda: page.press("Remove group 12"))
        assert order() == wanted[:3] + ["energy 1 12.5 70000"], order()
        page.changed(lambda: page.press("Undo"))
        page.changed(lambda: page.press("Undo"))
        assert order() == wanted, order()
        page.press("Group 12, milking")
        page.click("#records tr[data-record='3']")
        page.fill("class", "pig")
        page.until(lambda: "refused 6" in page.text("#remarks"), "a heading may become pigs' with cattle's rations under it")
        page.press("Correct record 3")
        assert order() == wanted, order()
    finally:
        page.close()
