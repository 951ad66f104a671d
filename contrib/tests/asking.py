"""Asks in the browser as its users would: draws a problem, opens a game, on a wide screen and on a telephone."""

import http.client
import http.server
import pathlib
import re
import subprocess
import threading
import urllib.parse

from .asking_looks import test_looks, test_seen
from .asking_page import PROBLEM, SECONDS, Asking, game_of_250, points
from .asking_records import test_records, test_sizes, test_variations
from .common import TOP, expect, new_browser, set_size
from .serving import Server, becomes, stand_ins


def test_draw(asking):
    """The README's problem, stone by stone; who lives; and its answer to click through."""
    asking.open()
    asking.choose("size", 7)
    asking.press("new")
    for name, side in (("AB", "black"), ("AW", "white")):
        asking.tool(side)
        for point in points(name):
            asking.click(point)
    expect("its stones", asking.stones(), {"black": 7, "white": 7})
    asking.tool("ask")
    asking.click("ab")
    asking.wait()
    expect("A6 is unsettled: whoever plays in the middle of the three decides", asking.text("told"), "A6 is unsettled (proved).")
    sentences = [it.text for it in asking.browser.find_elements("css selector", "#meaning p")]
    moves = [it for it in sentences if it.startswith("If ")]
    wanted = ["If White moves first at C7, the group is taken", "If Black moves first at C7, the group lives"]
    expect("a sentence for each side", [it.partition(",")[0] for it in moves], [it.partition(",")[0] for it in wanted])
    expect("White kills by C7, Black lives by it", [it.startswith(begin) for it, begin in zip(moves, wanted)], [True, True])
    expect("the first move is on the board", "first move" in asking.cell("ca"))
    expect("the group is marked", asking.cell("ab"), "A6, Black, target")
    asking.shoot("drawn")
    asking.press("undo")
    expect("undo takes a stone back", asking.stones(), {"black": 7, "white": 6})
    asking.tool("white")
    asking.click(points("AW")[-1])
    expect("and it is put again", asking.stones(), {"black": 7, "white": 7})


def test_problem(asking):
    """The problem that was drawn is marked and solved, and its answer clicked through."""
    asking.tool("target")
    asking.click("ab")
    asking.click("aa")
    asking.click("ea")
    expect("chains are marked whole", [asking.cell(it) for it in ("aa", "eb")], ["A7, Black, target", "E6, Black, target"])
    asking.tool("region")
    for point in points("SQ"):
        asking.click(point)
    expect("the region is marked", asking.cell("ca"), "C7, empty, in the region")
    asking.choose("mover", "O")
    asking.press("solve")
    asking.wait()
    expect("the problem to click through", asking.text("task"), "White to move. Can it capture the marked stones?")
    asking.click("ba", "board")
    expect("a wrong move is refuted", asking.text("said"), "Wrong: refuted by C7.")
    asking.shoot("refuted")
    asking.press("again")
    asking.click("ca", "board")
    expect("the right move", asking.text("said"), "Right. Black answers with B7.")
    asking.press("leave")
    expect("back at the position", (asking.run("return byId('problem').hidden"), asking.stones()), (True, {"black": 7, "white": 7}))
    asking.press("clear")
    expect("no marks", asking.cell("ca"), "C7, empty")
    asking.tool("target")
    asking.click("ab")
    asking.press("propose")
    asking.wait()
    expect("the proposed region", [asking.cell(it) for it in points("SQ")], [f"{it}7, empty, in the region" for it in "BCD"])
    asking.press("undo")
    expect("undo takes it away", asking.cell("ca"), "C7, empty")


def test_game(asking):
    """A game of 250 moves is dropped; at a node of it a group is asked about, and then all."""
    asking.open()
    asking.drop(game_of_250())
    expect("it is open", asking.text("told").startswith("The record is open. This is its last position, at node 250"))
    asking.run("byId('at').value = 121; byId('at').dispatchEvent(new Event('input'))")
    expect("at the node", asking.text("node")[:15], "Node 121 of 250")
    asking.click("hk")
    asking.wait()
    expect("the group of the guide", asking.text("told"), "H3 is dead (sure).")
    expect("what the word means", "Of 69 such answers 62 agreed" in asking.text("meaning"))
    put = len(asking.browser.find_elements("css selector", "#asked .stone.put"))
    expect("stones that are supposed are drawn otherwise", put > 0)
    asking.shoot("game")
    asking.run("byId('further').open = true")
    asking.browser.find_elements("css selector", "#every button")[1].click()
    expect(
        "another question is drawn",
        asking.browser.find_elements("css selector", "#every button")[1].get_attribute("aria-pressed"),
        "true",
    )
    asking.press("before")
    expect(
        "another node, and the answer goes",
        (asking.text("node")[:8], asking.text("told"), asking.run("return byId('answer').hidden")),
        ("Node 120", "", True),
    )
    asking.run("along(11)")
    asking.press("groups")
    asking.wait()
    expect("all groups", re.search(r"^Dead: .*H3 \(sure\)", asking.text("meaning"), re.MULTILINE) is not None)
    expect("the dead are marked", asking.cell("hk"), "H3, White, dead")
    asking.shoot("groups")
    asking.press("start")
    expect("the first node, with its comment", (asking.text("node")[:6], asking.text("remark")), ("Node 0", "A game of 250 moves"))


def test_playout(asking):
    """A question of the answer is played out, with the stones that it supposes."""
    asking.open()
    asking.drop(game_of_250())
    asking.run("along(-129)")
    asking.click("fl")
    asking.wait()
    asking.run("byId('further').open = true")
    first = asking.browser.find_elements("css selector", "#every button")[0]
    expect("the first question", first.text.startswith("If Black moves first, the group dies, by H2. Both sides play at 6 empty points;"))
    first.click()
    asking.press("playout")
    asking.wait()
    expect("the question as a problem", asking.text("task"), "Black to move. Can it capture the marked stones?")
    asking.click("hl", "board")
    expect("its first move is right", asking.text("said").partition(" ")[0], "Right.")


def test_refusals(asking):
    """What is refused is a sentence with its remedy, and the page goes on."""
    asking.open()
    asking.tool("ask")
    asking.click("aa")
    expect("no stone there", asking.text("told"), "There is no stone at A9: click a stone of the group.")
    asking.press("solve")
    expect("no group", asking.text("told"), "Which group? Choose “Target” and click its stones, or “Ask” and click one.")
    asking.run("openRecord(arguments[0])", "(;GM[1]SZ[5]AB[aa]AW[ba][ab])")
    asking.click("aa")
    asking.wait()
    told = asking.text("told")
    expect("the program's words", told.startswith("Refused: A5, node 0: no liberty."))
    expect("and what to do", told.endswith("The setup has a chain without a liberty: take it off, or free a point beside it."))
    for text, part in (
        ("hello", "no SGF record"),
        ("(;SZ[9]AB[aa", "cut off, or a bracket is missing"),
        ("(;GM[2])", "another game than Go"),
        ("(;SZ[26])", "1 to 25 rows"),
        ("(;SZ[9](;B[aa]", "cut off"),
    ):
        asking.run("openRecord(arguments[0])", text)
        expect(f"{text} is refused", part in asking.text("told"))
    expect("the record before is still there", asking.stones(), {"black": 1, "white": 2})
    asking.open("#%")
    expect("a link that is none", asking.text("told"), "The link has no record that can be read: ask for it again.")
    asking.run("openRecord(arguments[0])", "(;SZ[9]C[" + "long " * 200_000 + "];B[aa])")
    expect("a comment of a megabyte", asking.text("told").startswith("The record is open."))
    evil = '<img src=x onerror="window.hit = 1"><script>window.hit = 1</script> a\\]b'
    asking.run("openRecord(arguments[0])", f"(;SZ[9]C[{evil}];B[aa])")
    asking.press("start")
    expect("text of a record is text", asking.hidden_text("remark"), evil.replace("\\", ""))
    expect("nothing of it runs", asking.run("return window.hit === undefined && !document.querySelector('img')"))
    asking.drop(" " * 3 + "(;SZ[5]AB[aa]C[\u00fc])\n(;SZ[9])", "two.sgf")
    expect("a file of two", "It is the first of 2 in the file." in asking.text("told"))
    wide = "(;SZ[5]AB[ab]C[\u8a70\u7881])"
    for name, codec in (("UTF-16", "utf-16"), ("UTF-8", "utf-8"), ("Shift_JIS", "shift_jis")):
        text = wide if codec.startswith("utf") else wide.replace("C[", "CA[Shift_JIS]C[")
        asking.run("readFile(new File([new Uint8Array(arguments[0])], 'x.sgf'))", list(text.encode(codec)))
        expect(
            f"a file in {name}",
            becomes(lambda: asking.text("told").startswith("The record is open.")) and asking.run("return ask.node.props.C[0]"),
            "\u8a70\u7881",
        )


def test_hands(asking, keys):
    """By keyboard alone; what a screen reader is told; links, and what is saved."""
    asking.open()
    asking.run("document.querySelector('#asked [tabindex=\"0\"]').focus()")
    asking.keys(keys.ARROW_RIGHT, keys.ARROW_DOWN, keys.ENTER)
    expect("a stone by keys", asking.cell("bb"), "B8, Black")
    expect("the focus stays", asking.run("return document.activeElement.dataset.turn"), "bb")
    asking.keys("w", keys.ARROW_DOWN, " ")
    expect("a white one", asking.cell("bc"), "B7, White")
    asking.keys("p", keys.ARROW_DOWN, keys.ENTER)
    expect("a move", (asking.cell("bd"), asking.text("node")), ("B6, Black", "Node 1 of 1. White to move."))
    asking.keys(keys.PAGE_UP)
    expect("back in the game", asking.cell("bd"), "B6, empty")
    asking.keys(keys.PAGE_DOWN, "u")
    expect("taken back", (asking.cell("bd"), asking.stones()), ("B6, empty", {"black": 1, "white": 1}))
    asking.keys("x", keys.ENTER)
    board = asking.browser.find_element("css selector", "#asked svg")
    expect("the board is a grid", (board.get_attribute("role"), board.get_attribute("aria-label")), ("grid", "Board of 9 rows"))
    expect("with rows", len(asking.browser.find_elements("css selector", '#asked [role="row"]')), 9)
    expect("and cells", len(asking.browser.find_elements("css selector", '#asked [role="row"] > [role="gridcell"]')), 81)
    expect("one takes the keys", len(asking.browser.find_elements("css selector", '#asked [tabindex="0"]')), 1)
    expect("answers are announced", asking.element("told").get_attribute("role"), "status")
    expect(
        "the position in words",
        asking.hidden_text("position").startswith("A board of 9 lines. Black stones: B8. White stones: B7."),
    )
    unnamed = asking.run(
        "return [...document.querySelectorAll('button, input, select, textarea')].filter((it) => !(it.textContent.trim() || it.getAttribute('aria-label') || it.labels && it.labels.length)).map((it) => it.id)"
    )
    expect("every control has a name", [it for it in unnamed if it not in ("playout", "confirm")], [])
    asking.press("link")
    address = asking.element("address").get_attribute("value")
    expect("the position is in the link", "AB[bb]" in urllib.parse.unquote(address))
    asking.browser.get("about:blank")
    asking.browser.get(address)
    expect("the link opens it", (asking.cell("bb"), asking.cell("bc")), ("B8, Black", "B7, White"))
    saved = asking.run("return written(ask.root)")
    expect("the record that is saved", (saved.count("AB[bb]"), saved.count("AW[bc]"), saved[:2]), (1, 1, "(;"))
    asking.press("draw")
    asking.wait()
    expect("a picture is saved", asking.text("told"), "The picture is saved as position.svg.")


def test_gone(asking, folder):
    """A question that is given up ends its process; the server that goes in the middle is told of."""
    programs = stand_ins(folder)
    slow = pathlib.Path(programs["GROUP_STATUS"])
    slow.write_text(slow.read_text().replace("case $record in", "exec sleep 41.5\ncase $record in"))
    with Server(folder, programs=programs) as server:
        other = Asking(asking.browser, server, folder)
        other.open()
        other.click("cc")
        other.tool("ask")
        other.click("cc")
        expect("it shows that it runs", becomes(lambda: re.match("Asking about C7 … [1-9]", other.text("working")) is not None))
        expect("a process runs", becomes(lambda: len(server.children()) == 1))
        other.press("stop")
        expect("given up", becomes(lambda: other.text("told") == "Given up."))
        expect("its process has ended", becomes(lambda: server.children() == []))
        other.click("cc")
        expect("a process runs again", becomes(lambda: len(server.children()) == 1))
        child = server.children()[0]
        server.kill()
        expect(
            "the server is gone",
            becomes(lambda: other.text("told").startswith("The server does not answer. Is tsumego-server still running?")),
        )
        expect("the position stays", other.stones(), {"black": 1, "white": 0})
        subprocess.run(["kill", child])


class Prefix(http.server.BaseHTTPRequestHandler):
    """A web server that has the server under /go/, as nginx would by `location /go/ { proxy_pass http://ADDRESS/; }`."""

    server_port = None

    def do_GET(self):
        body = self.rfile.read(int(self.headers.get("Content-Length", 0)))
        if not self.path.startswith("/go/"):
            self.send_error(404)
            return
        inner = http.client.HTTPConnection("127.0.0.1", self.server_port, timeout=SECONDS)
        inner.request(
            self.command, self.path[3:], body or None, {name: it for name, it in self.headers.items() if name != "Connection"}
        )
        answer = inner.getresponse()
        text = answer.read()
        self.send_response(answer.status)
        for name, it in answer.getheaders():
            self.send_header(name, it)
        self.end_headers()
        self.wfile.write(text)

    do_POST = do_GET

    def log_message(self, *_):
        pass


def test_path(asking):
    """The page works under a path of its own."""
    handler = type("Handler", (Prefix,), {"server_port": asking.server.port})
    with http.server.ThreadingHTTPServer(("127.0.0.1", 0), handler) as proxy:
        threading.Thread(target=proxy.serve_forever, daemon=True).start()
        asking.browser.get(f"http://127.0.0.1:{proxy.server_port}/go/")
        asking.run("openRecord(arguments[0])", (TOP / "examples/two-eyes.sgf").read_text())
        asking.click("ba")
        asking.wait()
        expect("an answer under a path", asking.text("told"), "B9 is alive (proved).")
        proxy.shutdown()


def test_proof(asking):
    """An answer with a proof by answers shows its kept stones, its region, and on what it rests."""
    asking.open()
    asking.run("openRecord(arguments[0])", PROBLEM)
    found = {
        "target": "A6",
        "status": "alive",
        "word": "proved",
        "questions": [],
        "proof": {
            "kept": ["A6", "B6"],
            "region": ["B7", "C7", "D7"],
            "friends": ["F7"],
            "while": ["G2"],
            "answers": [["B7", "C7"]],
        },
    }
    asking.run(
        "ask.answer = arguments[0]; ask.chosen = firstShown(ask.answer, 'X'); tell(statusSentence(ask.answer), 'alive'); showAsked()",
        found,
    )
    expect("the status", asking.text("told"), "A6 is alive (proved).")
    expect(
        "kept stones and region", [asking.cell(it) for it in ("ab", "ca")], ["A6, Black, target, kept", "C7, empty, in the region"]
    )
    meaning = asking.text("meaning")
    expect(
        "on what it rests",
        ["liberties elsewhere: G2" in meaning, "rests on these stones too" in meaning and "F7" in meaning],
        [True, True],
    )
    asking.run("ask.answer.status = 'dead'; showAsked()")
    expect("who takes a dead group", "whatever its owner plays, the other side takes the group" in asking.text("meaning"))
    asking.run("ask.answer.proof = undefined; ask.answer.questions = undefined; ask.answer.status = 'alive'; ask.chosen = firstShown(ask.answer, 'X'); showAsked()")
    expect("by its shape", "nothing that is played takes the group" in asking.text("meaning"))


def test_first_moves(asking):
    """Of a group that each side decides by moving first both moves are named, and shown on the board."""
    asking.open()
    asking.run("openRecord(arguments[0])", PROBLEM)
    proofs = {move: {"kept": [], "region": [move], "friends": [], "answers": [["D7", move]]} for move in ("B7", "C7")}
    first_moves = [
        {"first": "W", "winner": "W", "move": "B7", "proof": proofs["B7"]},
        {"first": "B", "winner": "B", "move": "C7", "proof": proofs["C7"]},
    ]
    found = {"target": "A6", "status": "unsettled", "word": "proved", "questions": [], "first_moves": first_moves}
    asking.run(
        "ask.answer = arguments[0]; ask.chosen = firstShown(ask.answer, 'X'); tell(statusSentence(ask.answer), 'unsettled'); showAsked()",
        found,
    )
    expect("the status", asking.text("told"), "A6 is unsettled (proved).")
    expect("the first moves", [asking.cell(it) for it in ("ba", "ca")], ["B7, empty, in the region, first move", "C7, empty, in the region, first move"])
    meaning = asking.text("meaning")
    expect("what White's does", "If White moves first at B7, the group is taken" in meaning)
    expect("what Black's does", "If Black moves first at C7, the group lives" in meaning)


def test_status(asking):
    """The sentences that are shown first say what the status says, not what a question says that supposes more against it."""
    asking.open()
    asking.run("openRecord(arguments[0])", PROBLEM)
    questions = [
        {"first": "W", "points": 6, "walls": "natural", "winner": "B", "move": None, "inside": []},
        {"first": "W", "points": 12, "walls": "hard", "winner": "W", "move": "B7", "inside": []},
        {"first": "B", "points": 9, "walls": "race", "winner": "W", "move": None, "inside": []},
        {"first": "B", "points": 6, "walls": "natural", "winner": "B", "move": "C7", "inside": []},
    ]
    show = "ask.answer = arguments[0]; ask.chosen = firstShown(ask.answer, 'X'); showAsked()"
    for status, ends in (("alive", ["lives, by C7", "lives."]), ("dead", ["dies.", "dies, by B7"]), ("unsettled", ["lives, by C7", "dies, by B7"])):
        asking.run(show, {"target": "A6", "status": status, "word": "likely", "questions": questions})
        told = [it.text for it in asking.browser.find_elements("css selector", "#questions button")]
        expect(f"{status}: a sentence for each side", [end in it for it, end in zip(told, ends)], [True, True])


def console(browser):
    """What is on the browser's console, but for the statuses of refusals, which it lists by itself."""
    return [it["message"] for it in browser.get_log("browser") if it["source"] != "network"]


def run(folder, shots, programs):
    from selenium.webdriver.common.keys import Keys

    browser = new_browser()
    try:
        with Server(folder, "--timeout", str(SECONDS), programs=programs) as server:
            asking = Asking(browser, server, shots)
            set_size(browser, 820, 1000)
            test_draw(asking)
            test_problem(asking)
            test_game(asking)
            test_playout(asking)
            test_refusals(asking)
            test_hands(asking, Keys)
            test_records(asking, folder)
            test_variations(asking)
            test_sizes(asking)
            test_looks(asking)
            test_seen(asking)
            test_proof(asking)
            test_first_moves(asking)
            test_status(asking)
            test_path(asking)
            asking.open()
            resources = asking.run("return performance.getEntriesByType('resource').map((it) => it.name)")
            expect("nothing is fetched from elsewhere", [it for it in resources if not it.startswith(server.address())], [])
            test_gone(asking, folder)
            expect("nothing is said on the browser's console", console(browser), [])
            expect("no process is left", becomes(lambda: server.children() == []))
    finally:
        browser.quit()
