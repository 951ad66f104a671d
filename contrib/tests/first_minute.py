"""A new user in the browser: opens the page, drops a game, clicks a stone, and has an answer within a minute.

    python3 -m tests.first_minute PORT BEGUN FOLDER

PORT is where the server listens on 127.0.0.1, BEGUN when its start began, in seconds since 1970, and FOLDER is given the screenshots. It
prints what was answered, and after how many seconds. The status is 0 where that was within a minute, 1 where it was not, 4 where a
package is missing.
"""

import pathlib
import subprocess
import sys
import time

from . import common
from .asking_page import Asking

GAMES, PACKAGE = pathlib.Path("/usr/share/goban"), "goban-original-games"
# A game of 257 moves, and a group of it in a corner.
GAME, STONE = "Hon-54-3.mgt", "dd"
MOST_SECONDS = 60


class Started:
    """A server that was started elsewhere."""

    def __init__(self, port):
        self.port = port

    def address(self, path=""):
        return f"http://127.0.0.1:{self.port}/{path}"


def game():
    if not (GAMES / GAME).exists():
        subprocess.run(["apt-get", "install", "-y", PACKAGE], stdin=subprocess.DEVNULL, capture_output=True, check=False)
    if not (GAMES / GAME).exists():
        print(f"contrib/test-package: there is no file {GAMES / GAME} (of the package {PACKAGE})", file=sys.stderr)
        sys.exit(4)
    return (GAMES / GAME).read_text()


def main():
    port, begun, folder = sys.argv[1], float(sys.argv[2]), pathlib.Path(sys.argv[3])
    # What has to be installed here first is no part of the user's minute.
    before = time.time()
    text = game()
    common.install("contrib/test-package", {"chromium": "chromium", "chromedriver": "chromium-driver"}, {"selenium": "python3-selenium"})
    begun += time.time() - before
    folder.mkdir(parents=True, exist_ok=True)
    browser = common.new_browser()
    try:
        common.set_size(browser, 1280, 800)
        asking = Asking(browser, Started(port), folder)
        asking.open()
        asking.drop(text, GAME)
        asking.shoot("dropped")
        asking.click(STONE)
        asking.wait()
        seconds, told = time.time() - begun, asking.text("told")
        asking.shoot("answered")
    finally:
        browser.quit()
    print(f"the page answers {told!r}, {seconds:.1f} s after the start of the server")
    return 0 if told.startswith("D16 is ") and seconds <= MOST_SECONDS else 1


if __name__ == "__main__":
    sys.exit(main())
