"""How the page to ask looks on screens of several sizes, and that an answer is seen where it comes."""

from .asking_page import game_of_250
from .common import expect, set_size


def test_looks(asking):
    """A telephone with a finger, dark and light; nothing wider than the screen."""
    for width, height, dark, touch in ((320, 640, False, True), (375, 667, True, True), (1400, 900, False, False)):
        set_size(asking.browser, width, height, dark, touch)
        asking.open()
        expect(f"{width} wide: no scrolling sideways", asking.is_no_wider(width))
        small = asking.run(
            "return [...document.querySelectorAll('button, select, .choices span')].filter((it) => it.offsetParent && it.getBoundingClientRect().height < 36).map((it) => it.id || it.textContent)"
        )
        expect(f"{width} wide: nothing is too small to touch", small, [])
        asking.shoot(f"asked-{width}{'-dark' if dark else ''}")
    colours = []
    for dark in (False, True):
        set_size(asking.browser, 375, 667, dark, True)
        colours.append(asking.run("return getComputedStyle(document.body).backgroundColor"))
    expect("dark and light differ", colours[0] != colours[1])
    asking.open()
    asking.choose("size", 19)
    asking.press("new")
    asking.click("dd")
    expect(
        "on small points the first touch names the point", (asking.stones()["black"], asking.text("confirm")), (0, "● Black at D16")
    )
    asking.press("confirm")
    expect("the button acts", asking.stones()["black"], 1)
    asking.click("dp")
    asking.click("dp")
    expect("or a second touch", asking.stones()["black"], 2)
    asking.choose("part", "ul")
    expect("a quarter of the board", asking.run("return document.querySelectorAll('#asked .hit').length"), 121)
    asking.click("cc")
    expect("where points are large enough at once", asking.stones()["black"], 2)
    expect("no wider with a board of 19 rows", asking.is_no_wider(375))
    set_size(asking.browser, 820, 1000)


IN_VIEW = """
const seen = (it) => { const at = it.getBoundingClientRect(); return at.top >= 0 && at.bottom <= innerHeight && at.height > 0; };
return arguments[0].map((name) => seen(document.querySelector(name)));
"""


def test_seen(asking):
    """Nobody has to scroll for the answer: beside the board on a wide screen, below it on others."""
    for width, height, touch, names in (
        (1280, 800, False, ["#asked svg", "#node", "#told", "#meaning p", "#questions li:last-child"]),
        (820, 1000, False, ["#asked svg", "#told"]),
        (375, 667, True, ["#told", "#meaning p"]),
    ):
        set_size(asking.browser, width, height, False, touch)
        asking.open()
        expect(f"{width} wide: how to open a game is seen", asking.run(IN_VIEW, ["#lead label"]), [True])
        expect("and opens a file", asking.run("return document.querySelector('#lead label').control.id"), "file")
        asking.drop(game_of_250())
        expect(f"{width} wide: what to do is seen", asking.run(IN_VIEW, ["#told"]), [True])
        asking.run("along(-129)")
        asking.click("hk")
        if asking.text("confirm"):
            asking.press("confirm")
        asking.wait()
        expect(f"{width} wide: the answer is seen", asking.run(IN_VIEW, names), [True] * len(names))
        asking.shoot(f"seen-{width}")
    set_size(asking.browser, 820, 1000)
