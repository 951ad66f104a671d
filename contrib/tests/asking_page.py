"""The page to ask, in the browser, and the records that it is given."""

import pathlib
import re

from .common import TOP, expect
from .serving import becomes

SECONDS = 120
PROBLEM = (TOP / "examples/straight-three.sgf").read_text()
GAME = (TOP / "examples/unmarked/game.sgf").read_text()


def points(name, record=PROBLEM):
    """The points of a property of the first node, rectangles written out."""
    found = []
    for corner, _, other in re.findall(r"\[(\w\w)(:(\w\w))?\]", re.search(rf"{name}((\[[\w:]+\])+)", record)[1]):
        last = other or corner
        found += [
            chr(column) + chr(row)
            for row in range(ord(corner[1]), ord(last[1]) + 1)
            for column in range(ord(corner[0]), ord(last[0]) + 1)
        ]
    return found


def game_of_250():
    """The game of the examples up to its 131st move, and after it moves at empty points in the order of the board: 250 in all."""
    moves = re.findall(r";([BW])\[(\w\w)\]", GAME)[:131]
    taken = {point for _, point in moves}
    free = [
        chr(97 + column) + chr(97 + row)
        for row in range(13)
        for column in range(13)
        if chr(97 + column) + chr(97 + row) not in taken
    ]
    for number in range(len(moves), 250):
        point = free[number % len(free)] if number % 2 and free else ""
        moves.append(("BW"[number % 2], point if number - 131 < len(free) else ""))
    return f"(;FF[4]GM[1]SZ[13]C[A game of 250 moves]{''.join(f';{side}[{point}]' for side, point in moves)})"


class Asking:
    """The page in the browser."""

    def __init__(self, browser, server, folder):
        self.browser, self.server, self.folder = browser, server, pathlib.Path(folder)

    def open(self, path=""):
        self.browser.get("about:blank")
        self.browser.get(self.server.address(path))

    def element(self, name):
        return self.browser.find_element("id", name)

    def text(self, name):
        return self.element(name).text

    def hidden_text(self, name):
        return self.element(name).get_attribute("textContent")

    def run(self, script, *words):
        return self.browser.execute_script(script, *words)

    def press(self, name):
        self.run("arguments[0].scrollIntoView({block: 'center'})", self.element(name))
        self.element(name).click()

    def tool(self, name):
        self.browser.find_element("css selector", f'input[value="{name}"]').click()

    def click(self, turn, board="asked"):
        place = self.browser.find_element("css selector", f'#{board} [data-turn="{turn}"]')
        self.run("arguments[0].scrollIntoView({block: 'center'})", place)
        place.click()

    def wait(self):
        """Waits until the question at work has ended."""
        expect("the question ends", becomes(lambda: self.run("return byId('work').hidden"), SECONDS))

    def stones(self, board="asked"):
        return {
            side: len(self.browser.find_elements("css selector", f"#{board} .stone.{side}:not(.put)"))
            for side in ("black", "white")
        }

    def choose(self, name, value):
        self.browser.find_element("css selector", f'#{name} option[value="{value}"]').click()

    def cell(self, turn):
        return self.browser.find_element("css selector", f'#asked [data-turn="{turn}"]').get_attribute("aria-label")

    def drop(self, text, name="game.sgf"):
        self.run(
            "const data = new DataTransfer(); data.items.add(new File([arguments[0]], arguments[1]));"
            "document.body.dispatchEvent(new DragEvent('drop', { dataTransfer: data, bubbles: true, cancelable: true }))",
            text,
            name,
        )
        expect(f"{name} is read", becomes(lambda: self.text("told") != ""))

    def keys(self, *keys):
        self.browser.switch_to.active_element.send_keys(*keys)

    def shoot(self, name):
        self.browser.save_screenshot(str(self.folder / f"{name}.png"))

    def is_no_wider(self, width):
        return self.run("return document.documentElement.scrollWidth") <= width
