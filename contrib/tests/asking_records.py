"""How a record comes to the page to ask: from a file, by pasting, and its variations; and empty boards of all sizes."""

import pathlib

from .common import TOP, expect
from .serving import becomes

BRANCHES = "(;FF[4]GM[1]SZ[9];B[ee](;W[ec];B[gc])(;W[gc];B[ec]C[the second])(;W[ge]))"
PASTED = """
const data = new DataTransfer();
data.setData('text', arguments[0]);
document.body.dispatchEvent(new ClipboardEvent('paste', { clipboardData: data, bubbles: true, cancelable: true }));
"""


def test_records(asking, folder):
    """A file that is chosen, a text in the field, and a text that is pasted anywhere."""
    asking.open()
    asking.element("file").send_keys(str(TOP / "examples/two-eyes.sgf"))
    expect("a file that is chosen", becomes(lambda: asking.text("told").startswith("The record is open.")))
    asking.press("undo")
    expect("undo gives the board before back", asking.stones(), {"black": 0, "white": 0})
    later = pathlib.Path(folder, "game.mgt")
    later.write_text(BRANCHES)
    asking.element("file").send_keys(str(later))
    expect("a file of another name", becomes(lambda: asking.cell("gc") == "G7, Black"))
    asking.open()
    asking.element("text").send_keys(BRANCHES)
    asking.press("read")
    expect("a text in the field", (asking.cell("gc"), asking.text("node")), ("G7, Black", "Node 3 of 3. White to move."))
    asking.open()
    asking.run(PASTED, "no record")
    expect("other text that is pasted changes nothing", (asking.text("told"), asking.stones()), ("", {"black": 0, "white": 0}))
    asking.run(PASTED, BRANCHES)
    expect("a record that is pasted anywhere", asking.cell("gc"), "G7, Black")


def test_variations(asking):
    """The nodes of a record with three variations."""
    asking.open()
    asking.run("openRecord(arguments[0])", BRANCHES)
    asking.press("start")
    asking.press("after")
    buttons = asking.browser.find_elements("css selector", "#variations button")
    expect("they are named", [it.text for it in buttons], ["1: E7", "2: G7", "3: G5"])
    buttons[1].click()
    expect("the second one", (asking.cell("gc"), asking.text("node")), ("G7, White", "Node 2 of 3. Black to move."))
    asking.press("end")
    expect("its end", (asking.cell("ec"), asking.text("remark")), ("E7, Black", "the second"))
    asking.press("start")
    asking.press("end")
    expect("the main line is another", asking.cell("ec"), "E7, White")
    asking.tool("play")
    asking.press("before")
    asking.press("before")
    asking.click("ge")
    expect("a move of a variation goes there", (asking.cell("ge"), asking.text("node")), ("G5, White", "Node 2 of 2. Black to move."))
    asking.click("aa")
    asking.press("undo")
    expect("a move is taken back", (asking.cell("aa"), asking.cell("ge")), ("A9, empty", "G5, White"))


def test_sizes(asking):
    """Empty boards of 1, 9, 13, 19 and 25 rows, and a stone in the last corner of each."""
    asking.open()
    for rows in (1, 9, 13, 19, 25):
        asking.choose("size", rows)
        asking.press("new")
        cells = asking.browser.find_elements("css selector", "#asked .hit")
        expect(f"{rows} rows", (len(cells), asking.stones()), (rows * rows, {"black": 0, "white": 0}))
        corner = chr(96 + rows) * 2
        asking.click(corner)
        expect("a stone", asking.stones(), {"black": 1, "white": 0})
        asking.tool("remove")
        asking.click(corner)
        expect("is taken off", asking.stones(), {"black": 0, "white": 0})
