"""The texts of claims by answers that are accepted: read into their parts, written again, and spoilt.

Spoilt texts are for compare-answers and play-answers: most are rejected, and what is accepted is still true."""
import re
from dataclasses import dataclass
from functools import cache

from cases import list_of, point_name
from reading import EMPTY, RecordReader, board_of, read_problem

REST, TAKEN = "rest", "taken"


@dataclass
class AreaLines:
    """An area; `answers` has for each of its states REST or a list of replies: turn, answer, number."""

    cells: str
    gives: str | None
    states: list[str]  # without the first, which is that of the cells
    answers: list


@dataclass
class DeathLines:
    """What kills: entries of state, turn and then TAKEN or a list of replies (turn, number)."""

    cells: str
    entries: list
    last: str | list  # the number of `use`, or replies


@dataclass
class AnswerText:
    """A record and a claim by answers."""

    record: str
    head: list[str]
    areas: list[AreaLines]
    first: str | None
    death: DeathLines | None

    @property
    def size(self):
        return int(self.head[2])

    @property
    def keeper(self):
        return "X" if self.head[3] == "B" else "O"

    def parts(self):
        """The areas, and what kills: all that has cells."""
        return [*self.areas, *([self.death] if self.death else [])]

    def replies(self):
        """All lists of replies, of life and of death."""
        bodies = [body for area in self.areas for body in area.answers]
        if self.death:
            bodies += [*(entry[2] for entry in self.death.entries), self.death.last]
        return [body for body in bodies if isinstance(body, list)]

    def write(self):
        lines = [" ".join(self.head)]
        for area in self.areas:
            lines += [f"area {area.cells}", *([f"gives {area.gives}"] if area.gives else [])]
        lines += [f"first {self.first}"] if self.first else []
        for area in self.areas:
            lines += ["body", *(f"state {state}" for state in area.states)]
            lines += [line for body in area.answers for line in lines_of(body)] + ["end"]
        if self.death:
            lines.append(f"kill {self.death.cells}")
            for state, turn, body in self.death.entries:
                lines += [f"entry {state} {turn}", *lines_of(body)]
            lines += [*(lines_of(self.death.last) if isinstance(self.death.last, list) else [f"use {self.death.last}"]), "end"]
        return "\n".join([self.record, *lines]) + "\n"


def lines_of(body):
    if isinstance(body, str):
        return [body]
    return [f"all {len(body)}", *(" ".join(["reply", *words]) for words in body)]


class Lines:
    """The lines of an accepted claim, one after the other."""

    def __init__(self, text):
        self.rest = iter([line.split(" ") for line in text.splitlines()])
        self.words = next(self.rest)

    def take(self):
        """The words of this line; the next one is then due."""
        words, self.words = self.words, next(self.rest, [""])
        return words

    def take_all(self, kind):
        """The lines of this kind that come now."""
        found = []
        while self.words[0] == kind:
            found.append(self.take())
        return found

    def take_body(self):
        words = self.take()
        return words[0] if words[0] in (REST, TAKEN) else [self.take()[1:] for _ in range(int(words[1]))]


def read_area(lines):
    cells = lines.take()[1]
    gives = lines.take()[1] if lines.words[0] == "gives" else None
    return AreaLines(cells, gives, [], [])


def read_text(text):
    """The parts of a record with a claim by answers that is accepted."""
    record, claim = re.match(r"(.*?\))\n(tsu.*)", text, re.DOTALL).groups()
    lines = Lines(claim)
    head, areas = lines.take(), []
    while lines.words[0] == "area":
        areas.append(read_area(lines))
    first = lines.take()[1] if lines.words[0] == "first" else None
    for area in areas:
        lines.take()
        area.states = [words[1] for words in lines.take_all("state")]
        area.answers = [lines.take_body() for _ in range(len(area.states) + 1)]
        lines.take()
    death = read_death(lines) if lines.words[0] == "kill" else None
    return AnswerText(record, head, areas, first, death)


def read_death(lines):
    cells, entries = lines.take()[1], []
    while lines.words[0] == "entry":
        _, state, turn = lines.take()
        entries.append([state, turn, lines.take_body()])
    return DeathLines(cells, entries, lines.take()[1] if lines.words[0] == "use" else lines.take_body())


# --- Records ---------------------------------------------------------------


@cache
def problem_of(record):
    return read_problem(RecordReader(record.encode("latin-1")).read())[0]


def changes(before, after, size):
    """A node that makes one colouring of another."""
    names = {"AB": "X", "AW": "O", "AE": EMPTY}
    changed = [point for point in range(size * size) if before[point] != after[point]]
    return ";" + "".join(list_of(name, [point for point in changed if after[point] == cell], size) for name, cell in names.items())


def with_earlier(record, cells):
    """The record with one more position, just before that of the problem; None where it would be refused or be no other one."""
    problem = problem_of(record)
    now, size = problem.start.cells, problem.board.size
    if cells == now or not board_of(size).all_have_liberties(cells):
        return None
    place = record.rindex(";")
    return record[:place] + changes(now, cells, size) + changes(cells, now, size) + record[place:]


def put(cells, point, cell):
    return cells[:point] + cell + cells[point + 1 :]


def point_of(name, size):
    return ord(name[1]) * size + ord(name[0]) - 97 * (size + 1)


def points_in(cells):
    return [point for point, cell in enumerate(cells) if cell in ".XO"]


# --- Ways to spoil a text: each changes it, or gives False where it cannot --


def change_kept(chance, text):
    """A point outside is said to be kept, or the other way round."""
    part = chance.choice(text.parts())
    point = chance.choice([point for point, cell in enumerate(part.cells) if cell in "-#"] or [0])
    part.cells = put(part.cells, point, "-" if part.cells[point] == "#" else "#")
    return part.cells[point] != "."


def change_cell(chance, text):
    """Another cell at a point of a region, or a point outside that comes into it without the states' knowing."""
    part = chance.choice(text.parts())
    point = chance.choice(points_in(part.cells) if chance.random() < 0.8 else range(len(part.cells)))
    part.cells = put(part.cells, point, chance.choice(".XO-"))


def resize_states(part, change):
    if isinstance(part, DeathLines):
        part.entries = [[change(state), turn, body] for state, turn, body in part.entries]
    else:
        part.states = [change(state) for state in part.states]


def drop_point(chance, text):
    """A point of a region is outside, in all states."""
    part = chance.choice(text.parts())
    points = points_in(part.cells)
    place = chance.randrange(len(points))
    part.cells = put(part.cells, points[place], "-")
    resize_states(part, lambda state: state[:place] + state[place + 1 :])
    name = point_name(points[place], text.size)
    for body in text.replies():
        body[:] = [words for words in body if words[0] != name]


def add_point(chance, text):
    """A point outside comes into a region, with the cell that it has on the board, in all states."""
    part = chance.choice(text.parts())
    outside = [point for point, cell in enumerate(part.cells) if cell == "-"]
    if not outside:
        return False
    point = chance.choice(outside)
    place, cell = sum(other < point for other in points_in(part.cells)), problem_of(text.record).start.cells[point]
    part.cells = put(part.cells, point, cell)
    resize_states(part, lambda state: state[:place] + cell + state[place:])


def change_answer(chance, text):
    """Another answer in a reply of life, or another move of an entry."""
    moves = [(words, 1) for area in text.areas for body in area.answers if body != REST for words in body]
    moves += [(entry, 1) for entry in (text.death.entries if text.death else [])]
    if not moves:
        return False
    words, place = chance.choice(moves)
    names = [point_name(point, text.size) for part in text.parts() for point in points_in(part.cells)]
    words[place] = chance.choice(["pass", *names])


def change_state(chance, text):
    """Another cell in a state."""
    lists = [(area.states, place) for area in text.areas for place in range(len(area.states))]
    lists += [(entry, 0) for entry in (text.death.entries if text.death else [])]
    if not lists:
        return False
    texts, place = chance.choice(lists)
    texts[place] = put(texts[place], chance.randrange(len(texts[place])), chance.choice(".XO"))


def change_number(chance, text):
    """Another number at the end of a reply, or of `use`."""
    replies = [words for body in text.replies() for words in body]
    if text.death and isinstance(text.death.last, str) and chance.random() < 0.3:
        text.death.last = str(chance.randint(0, len(text.death.entries) + 1))
    elif replies:
        words = chance.choice(replies)
        words[-1] = str(max(0, int(words[-1]) + chance.choice([-2, -1, 1, 1, 2])))
    else:
        return False


def change_replies(chance, text):
    """A reply that is dropped, doubled, or exchanged with the next one."""
    bodies = [body for body in text.replies() if body]
    if not bodies:
        return False
    body = chance.choice(bodies)
    place, kind = chance.randrange(len(body)), chance.randrange(3)
    body[place : place + 2] = [body[place + 1 : place + 2], body[place : place + 1] * 2, body[place : place + 2][::-1]][kind]


def change_body(chance, text):
    """A state that is said to be at rest or won, or one at rest whose replies are left out."""
    if text.death and chance.random() < 0.5:
        entry = chance.choice(text.death.entries)
        entry[2] = TAKEN if entry[2] != TAKEN else []
    elif text.areas:
        answers = chance.choice(text.areas).answers
        place = chance.randrange(len(answers))
        answers[place] = REST if answers[place] != REST else []
    else:
        return False


def drop_state(chance, text):
    """A state is gone, and the numbers after it are less by one."""
    areas = [area for area in text.areas if area.states]
    if not areas:
        return False
    area = chance.choice(areas)
    place = chance.randrange(len(area.states))
    del area.states[place], area.answers[place + 1]
    for words in [words for body in area.answers if body != REST for words in body]:
        words[2] = str(int(words[2]) - (int(words[2]) > place + 1))


def change_entries(chance, text):
    """Two entries are exchanged, or one is dropped."""
    if not text.death or len(text.death.entries) < 2:
        return False
    place = chance.randrange(len(text.death.entries) - 1)
    two = text.death.entries[place : place + 2]
    text.death.entries[place : place + 2] = chance.choice([two[::-1], two[:1], two[1:]])


def change_gives(chance, text):
    """What an area gives: nothing, everything, or one point more or less."""
    if not text.areas:
        return False
    kind = chance.randrange(4)
    if kind == 0:
        for area in text.areas:
            area.gives = "".join("#" if cell == "#" else "-" for cell in area.cells)
        return None
    area = chance.choice(text.areas)
    point = chance.choice([point for point, cell in enumerate(area.cells) if cell == "#"] or [0])
    gives = area.gives or "-" * len(area.cells)
    area.gives = None if kind == 1 else put(gives, point, "-" if gives[point] == "#" else "#")


def change_areas(chance, text):
    """Two areas are exchanged, or one is dropped."""
    if len(text.areas) < (1 if text.death else 2):
        return False
    place = chance.randrange(len(text.areas))
    area = text.areas.pop(place)
    if chance.random() < 0.5:
        text.areas.insert(chance.randint(0, len(text.areas)), area)


def add_first(chance, text):
    """The keeper moves first, elsewhere than the claim says, or not at all."""
    names = [point_name(point, text.size) for area in text.areas for point in points_in(area.cells)]
    text.first = None if text.first and chance.random() < 0.5 else chance.choice(["pass", *names])


def bar_answer(chance, text):
    """An earlier position in which an answer of the claim has been given, with other changes elsewhere."""
    problem = problem_of(text.record)
    moves = [words[1] for area in text.areas for body in area.answers if body != REST for words in body]
    moves = [name for name in moves if name != "pass"] + ([text.first] if text.first else [])
    cells = problem.start.cells
    if text.death and (not moves or chance.random() < 0.6):
        state, name, _ = chance.choice(text.death.entries)
        for point, cell in zip(points_in(text.death.cells), state):
            cells = put(cells, point, cell)
        moves = [name]
    if not moves:
        return False
    point = point_of(chance.choice(moves), text.size)
    cells = put(cells, point, text.keeper)
    return add_earlier(chance, text, cells, 0.1)


def add_earlier(chance, text, cells, share):
    """One more earlier position: these cells, with others at a share of the points outside, where none is without a liberty."""
    outside = [point for point in range(len(cells)) if all(part.cells[point] == "-" for part in text.parts())]
    for point in outside:
        if chance.random() < share:
            cells = put(cells, point, chance.choice(".XO"))
    board = board_of(text.size)
    for point in board.points:  # what has no liberty is taken off
        if cells[point] != EMPTY and board.dead_chain(cells, point):
            cells = put(cells, point, EMPTY)
    record = with_earlier(text.record, cells)
    text.record = record or text.record
    return record is not None


def add_past(chance, text):
    """An earlier position that has nothing to do with the claim."""
    cells = problem_of(text.record).start.cells
    for _ in range(chance.randint(1, len(cells))):
        cells = put(cells, chance.randrange(len(cells)), chance.choice(".XO"))
    return add_earlier(chance, text, cells, 0.2)


def change_record(chance, text):
    """Another mover, a pass before, another target, or a smaller region."""
    place = text.record.rindex(";")
    before, node, kind = text.record[:place], text.record[place:], chance.randrange(4)
    points = range(text.size**2)
    if kind == 0:
        node = re.sub(r"PL\[(.)\]", lambda found: f"PL[{'BW'[found[1] == 'B']}]", node)
    elif kind == 1:
        before += f";{chance.choice('BW')}[]"
    elif kind == 2:
        node = re.sub(r"TR(\[..\])+", list_of("TR", [chance.choice(points)], text.size), node)
    else:
        used = [point for point in points if any(part.cells[point] != "-" for part in text.parts())]
        used.remove(chance.choice(used))
        node = re.sub(r"(SQ(\[..\])+)?\)", list_of("SQ", used, text.size) + ")", node)
    text.record = before + node


def change_head(chance, text):
    """Another size, side, or kind of claim."""
    place = chance.randint(0, 3)
    text.head[place] = chance.choice(["tsureply", "tsudeath", "1", "2", "0", str(text.size + 1), "B", "W"])


WAYS = [
    change_kept, change_cell, drop_point, add_point, change_answer, change_state, change_number, change_replies, change_body,
    drop_state, change_entries, change_gives, change_areas, add_first, bar_answer, add_past, change_record, change_head,
]  # fmt: skip

SECOND_WAYS = [change_answer, change_number, change_replies, change_body]  # those that can follow any other


def spoil_bytes(chance, text):
    """A text with a byte of the claim changed, dropped or added, or with its end cut off, or with more after it."""
    begin = text.index("\ntsu") + 1
    place = chance.randrange(begin, len(text))
    kind = chance.randrange(6)
    if kind == 0:
        return text[:place]
    if kind == 1:
        return text + chance.choice(["\n", "end\n", " ", "body\n"])
    added = chance.choice(".XO#-0123456789 \nabcdehps") if kind < 5 else ""
    return text[:place] + added + text[place + (kind != 4) :]


def spoil_record(chance, text):
    """A text with a byte of its record changed, dropped or added."""
    place = chance.randrange(text.index("\ntsu"))
    added = chance.choice(["", "a", "b", "[", "]", ";", "(", ")", "B", "W"])
    return text[:place] + added + text[place + chance.randrange(2) :]


def spoilt(chance, text):
    """A text that differs from this accepted one, and the name of the way in which it was spoilt."""
    while True:
        if chance.random() < 0.12:
            way = chance.choice([spoil_bytes, spoil_bytes, spoil_record])
            other = way(chance, text)
        else:
            parts, way = read_text(text), chance.choice(WAYS)
            if way(chance, parts) is False:
                continue
            if way is not change_head and chance.random() < 0.1:
                chance.choice(SECOND_WAYS)(chance, parts)
            other = parts.write()
        if other != text:
            return other, way.__name__.replace("_", " ")
