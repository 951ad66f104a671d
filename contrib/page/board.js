// Problems as data, the rules of the game, and pictures: what the page to click, the sheet to print and the page to ask share.
// `man problem_tools` has the data, which stand in the element "problems".
"use strict";

const LETTERS = "ABCDEFGHJKLMNOPQRSTUVWXYZ";
const SIDES = { X: "Black", O: "White" };
const CELLS = { black: "X", white: "O" };
const OTHER = { X: "O", O: "X" };
const CELL = 40;
const EDGE = 34;
const MOST_SHOWN = 400;
const byId = (id) => document.getElementById(id);

// ---- The rules: a board is an array of ".", "X" and "O", row by row; a pass is the point -1.

const pointOf = (size, turn) => (turn === "pass" ? -1 : (turn.charCodeAt(1) - 97) * size + turn.charCodeAt(0) - 97);
const turnOf = (size, point) =>
  point < 0 ? "pass" : String.fromCharCode(97 + (point % size), 97 + Math.floor(point / size));
const nameOf = (size, point) => (point < 0 ? "a pass" : LETTERS[point % size] + (size - Math.floor(point / size)));

function neighbours(size, point) {
  const near = [];
  if (point % size > 0) near.push(point - 1);
  if (point % size < size - 1) near.push(point + 1);
  if (point >= size) near.push(point - size);
  if (point < size * (size - 1)) near.push(point + size);
  return near;
}

// The points of the chain at a point; none where it has a liberty.
function captured(size, stones, point) {
  const chain = new Set([point]);
  for (const one of chain) {
    for (const near of neighbours(size, one)) {
      if (stones[near] === ".") return [];
      if (stones[near] === stones[point]) chain.add(near);
    }
  }
  return [...chain];
}

// The stones after a move: the other side's chains without liberty go first, then the mover's.
function afterMove(size, stones, colour, point) {
  const after = stones.slice();
  after[point] = colour;
  for (const near of neighbours(size, point)) {
    if (after[near] === OTHER[colour]) for (const one of captured(size, after, near)) after[one] = ".";
  }
  for (const one of captured(size, after, point)) after[one] = ".";
  return after;
}

// ---- A problem and its positions

// A node is [turn, word?, note?, node..]: the word says what the turn is worth to who makes it, the note has a comment and
// labels, and says whether what follows is unaudited.
const wordOf = (node) => (typeof node[1] === "string" ? node[1] : null);
const repliesOf = (node) => (node ? node.filter(Array.isArray) : []);
const noteOf = (node) => (node && node.find((it) => typeof it === "object" && !Array.isArray(it))) || {};

function problemOf(data) {
  const stones = [...data.rows.join("")];
  const points = (turns) => turns.map((turn) => pointOf(data.size, turn));
  const targets = points(data.targets);
  const mover = CELLS[data.mover];
  const region = points(data.region);
  const used = usedPoints(data.size, stones, [...region, ...targets]);
  return {
    ...data,
    columns: shownLines(data.size, used.map((point) => point % data.size)),
    lines: shownLines(data.size, used.map((point) => Math.floor(point / data.size))),
    mover,
    winner: CELLS[data.winner],
    stones,
    targets,
    defender: stones[targets[0]],
    region: new Set(region),
    put: new Set(points(data.put || [])),
    start: {
      stones,
      mover,
      passes: data.passes,
      node: ["", data.note || {}, ...data.turns],
      seen: new Set([...data.past.map((rows) => rows.join("")), stones.join("")]),
      point: null,
      worth: null,
    },
  };
}

// What belongs to a problem: its region and targets, and the stones beside these.
function usedPoints(size, stones, inside) {
  return [...new Set([...inside, ...inside.flatMap((point) => neighbours(size, point)).filter((near) => stones[near] !== ".")])];
}

// Who has won, if anybody has.
function winnerOf(problem, at) {
  if (problem.targets.some((target) => at.stones[target] !== problem.defender)) return OTHER[problem.defender];
  return at.passes >= 2 ? problem.defender : null;
}

// Why the mover may not play at a point, if it may not.
function barred(problem, at, point) {
  const name = nameOf(problem.size, point);
  if (winnerOf(problem, at)) return "The game is over.";
  if (point < 0) return "";
  if (at.stones[point] !== ".") return `There is a stone at ${name}.`;
  if (!problem.region.has(point)) return `${name} is not one of the points to play at.`;
  const after = afterMove(problem.size, at.stones, at.mover, point).join("");
  return at.seen.has(after) ? `${name} is barred now: it would repeat a position.` : "";
}

// Where the comment of a node says that play goes on as after other turns: the node of the last of these, if the record has it.
function namedNode(problem, node) {
  const named = /^As after (.+)\.$/.exec(noteOf(node).comment || "");
  const next = (at, turn) => repliesOf(at).find((it) => nameOf(problem.size, pointOf(problem.size, it[0])).replace("a ", "") === turn.slice(2));
  return named && named[1].split(", ").reduce(next, problem.start.node);
}

// The nodes that may follow a position by the record. Of those that follow the node that it names, some may be barred here.
function nextNodes(problem, at) {
  const named = namedNode(problem, at.node);
  if (!named) return repliesOf(at.node);
  return repliesOf(named).filter((node) => !barred(problem, at, pointOf(problem.size, node[0])));
}

// Whether the record ends here because the marked stones live by their shape.
const isAlive = (at) => /^(Black|White) lives[:.]/m.test(noteOf(at.node).comment || "");

// What the record says here, but for what the page says in words of its own.
const commentOf = (at) => (noteOf(at.node).comment || "").replace(/^((also )?right: |wrong: )?(Black|White) wins(\n|$)/, "");

// What a turn is worth to its side, as far as the record says it.
function worthOf(problem, at, node) {
  if (!node) return null;
  if (wordOf(node)) return wordOf(node);
  if (problem.winner) return at.mover === problem.winner ? "wins" : "loses";
  if (!at.worth || at.worth === "unknown") return null;
  return at.worth === "wins" ? "loses" : "wins"; // the turn before was the other side's
}

// The position after a turn that is not barred.
function after(problem, at, point) {
  const stones = point < 0 ? at.stones : afterMove(problem.size, at.stones, at.mover, point);
  const node = nextNodes(problem, at).find((it) => it[0] === turnOf(problem.size, point)) || null;
  return {
    stones,
    mover: OTHER[at.mover],
    passes: point < 0 ? at.passes + 1 : 0,
    node,
    seen: new Set(at.seen).add(stones.join("")),
    point,
    worth: worthOf(problem, at, node),
  };
}

// The positions of the solution: the line that the record gives, or the first right turn, or the first one with its refutation, and
// the first replies.
function solution(problem) {
  const line = [problem.start];
  for (const turn of problem.line || []) {
    const at = line[line.length - 1], point = pointOf(problem.size, turn);
    if (barred(problem, at, point)) return line.slice(1);
    line.push(after(problem, at, point));
  }
  if (problem.line) return line.slice(1);
  for (;;) {
    const at = line[line.length - 1];
    const nodes = nextNodes(problem, at);
    if (nodes.length === 0 || line.length > MOST_SHOWN) return line.slice(1);
    const best = (!line[1] && nodes.find((it) => wordOf(it) === "wins")) || nodes[0];
    line.push(after(problem, at, pointOf(problem.size, best[0])));
  }
}

// What is said of what nobody audited: of the solution, or of a line that begins with this position; or of what was judged otherwise.
const UNAUDITED = "Nobody audited this solution; what proves such an answer is the short claim that “short_claims prove” writes.";
const JUDGED = "A short claim of this answer was accepted; nobody audited the lines.";
function auditOf(problem, first) {
  const note = first ? noteOf(first.node) : {};
  if (problem.unaudited) return UNAUDITED;
  if (problem.judged || note.judged) return JUDGED;
  return note.unaudited ? UNAUDITED.replace("this solution", "what follows this first move") : "";
}

// The first turns that are right by the record.
function rightTurns(problem) {
  return problem.turns.filter((node) => worthOf(problem, problem.start, node) === "wins").map((node) => nameOf(problem.size, pointOf(problem.size, node[0])));
}

// Whether the record says that the side to move wins; null where it does not say.
function isWon(problem) {
  if (problem.winner) return problem.winner === problem.mover;
  const words = problem.turns.map(wordOf);
  return words.includes("wins") || (words.length && words.every((word) => word === "loses") ? false : null);
}

// What is asked, as books say it. A seki cannot be killed: where not all of several problems can be solved, all are questions, so
// that none gives its answer away.
function shortTask(problem, isQuestion) {
  const verb = problem.mover === problem.defender ? "live" : "kill";
  return `${SIDES[problem.mover]} to play${isQuestion ? `. Can it ${verb}?` : ` and ${verb}.`}`;
}

function taskOf(problem) {
  const side = SIDES[problem.mover];
  const verb = problem.mover === problem.defender ? "save" : "capture";
  return `${side} to move. Can it ${verb} the marked stones?`;
}

// ---- Drawing

const DRAWN = ["svg", "rect", "circle", "path", "text"];

function element(name, attributes, ...inner) {
  const made = DRAWN.includes(name) ? document.createElementNS("http://www.w3.org/2000/svg", name) : document.createElement(name);
  for (const key in attributes) made.setAttribute(key, attributes[key]);
  made.append(...inner);
  return made;
}

// The first and the last line that are shown: those in use and one more, or to the edge where that is near.
function shownLines(size, used) {
  const low = Math.min(...used) - 1, high = Math.max(...used) + 1, last = size - 1;
  return size <= 9 ? [0, last] : [low <= 2 ? 0 : low, high >= last - 2 ? last : high];
}

function starPoints(size) {
  if (size < 9) return [];
  const edge = size < 13 ? 2 : 3, last = size - 1 - edge, middle = size % 2 ? (size - 1) / 2 : -1;
  const lines = size < 17 || middle < 0 ? [edge, last] : [edge, middle, last];
  const stars = lines.flatMap((row) => lines.map((column) => row * size + column));
  if (middle >= 0) stars.push(middle * size + middle);
  return stars;
}

// The picture of a position. `given` has the labels, and may have the last turn, the cursor, what a click does, the stones that are
// supposed (`put`), and how points are marked (`marks`).
function drawn(problem, stones, given) {
  const { size, columns: [left, right], lines: [top, bottom] } = problem;
  const x = (column) => EDGE + CELL * (column - left + 0.5);
  const y = (row) => EDGE + CELL * (row - top + 0.5);
  const width = EDGE + CELL * (right - left + 1) + 6, height = EDGE + CELL * (bottom - top + 1) + 6;
  const svg = element("svg", { viewBox: `0 0 ${width} ${height}`, "aria-hidden": "true", style: `--columns:${right - left + 1}` });
  svg.append(element("rect", { class: "wood", x: EDGE - 5, y: EDGE - 5, width: width - EDGE + 4, height: height - EDGE + 4, rx: 4 }));
  // Where the board goes on, its lines do for half a step.
  const isEdge = (line) => line === 0 || line === size - 1;
  const end = (place, line) => place + (isEdge(line) ? 0 : CELL / 2);
  const from = 2 * x(left) - end(x(left), left), to = end(x(right), right);
  const head = 2 * y(top) - end(y(top), top), foot = end(y(bottom), bottom);
  const kind = (line) => (isEdge(line) ? "line edge" : "line");
  for (let column = left; column <= right; column += 1) {
    svg.append(element("path", { class: kind(column), d: `M${x(column)} ${head}V${foot}` }));
    svg.append(element("text", { class: "name", x: x(column), y: 20 }, LETTERS[column]));
  }
  for (let row = top; row <= bottom; row += 1) {
    svg.append(element("path", { class: kind(row), d: `M${from} ${y(row)}H${to}` }));
    svg.append(element("text", { class: "name", x: 13, y: y(row) + 5 }, String(size - row)));
  }
  const stars = starPoints(size);
  for (let row = top; row <= bottom; row += 1) {
    for (let column = left; column <= right; column += 1) {
      const point = row * size + column;
      if (stars.includes(point)) svg.append(element("circle", { class: "star", cx: x(column), cy: y(row), r: 3.5 }));
      drawPoint(svg, problem, stones, given, point, x(column), y(row));
    }
  }
  return svg;
}

// What a mark draws around the middle of a stone.
const MARKS = { dead: "m-8 -8l16 16m0 -16l-16 16", alive: "m-9 0l6 7l11 -14", unsettled: "m-9 4q4.5 -14 9 -4t9 -4", kept: "m-12 -12h24v24h-24z" };

function drawPoint(svg, problem, stones, given, point, x, y) {
  const isPut = Boolean(given.put && given.put.has(point));
  const cell = isPut ? given.put.get(point) : stones[point], label = given.labels.get(point);
  const side = cell === "X" ? "black" : "white";
  if (cell !== ".") {
    const stone = element("circle", { class: `stone ${side}`, cx: x, cy: y, r: 18.5 });
    if (point === given.last) stone.classList.add("new");
    if (isPut) stone.classList.add("put");
    svg.append(stone);
    if (problem.put && problem.put.has(point) && cell === problem.stones[point]) svg.append(element("circle", { class: "ring", cx: x, cy: y, r: 15 }));
  } else if (problem.region.has(point) && label === undefined) {
    svg.append(element("rect", { class: "open", x: x - 4, y: y - 4, width: 8, height: 8, rx: 1.5 }));
  }
  const mark = given.marks && given.marks.get(point);
  if (mark) {
    svg.append(element("path", { class: `mark ${mark} on${side}`, d: `M${x} ${y}${MARKS[mark]}` }));
  } else if (label !== undefined) {
    if (cell === ".") svg.append(element("circle", { class: "wood", cx: x, cy: y, r: 14 }));
    const small = label.length > 2 ? " small" : "";
    svg.append(element("text", { class: `label ${cell === "." ? "free" : `on${side}`}${small}`, x, y: y + 6 }, label));
  } else if (cell !== "." && problem.targets.includes(point)) {
    svg.append(element("path", { class: `mark on${side}`, d: `M${x} ${y - 10}l8.7 15h-17.4z` }));
  } else if (point === given.last) {
    svg.append(element("circle", { class: `mark on${side}`, cx: x, cy: y, r: 6 }));
  }
  if (point === given.cursor) svg.append(element("rect", { class: "cursor", x: x - 19, y: y - 19, width: 38, height: 38, rx: 5 }));
  if (given.hit) {
    const free = cell === "." && problem.region.has(point);
    const hit = element("rect", { class: free ? "hit free" : "hit", "data-turn": turnOf(problem.size, point), x: x - 20, y: y - 20, width: 40, height: 40, rx: 20 });
    hit.addEventListener("click", () => given.hit(point));
    svg.append(hit);
  }
}

// A line of play on one board, as books print it: stones stay where they are captured, a second move at a point and
// passes are told below, and so are the labels of its end that are not at an empty point.
function diagram(problem, line) {
  const end = line.length ? line[line.length - 1] : problem.start;
  const stones = problem.stones.slice(), labels = new Map(), told = [];
  line.forEach((at, i) => {
    const colour = OTHER[at.mover], number = i + 1;
    if (at.point < 0) told.push(`${SIDES[colour]} ${number} passes`);
    else if (stones[at.point] !== ".") told.push(`${SIDES[colour]} ${number} at ${nameOf(problem.size, at.point)}`);
    else {
      stones[at.point] = colour;
      labels.set(at.point, String(number));
    }
  });
  for (const [point, text] of labelsAt(problem, noteOf(end.node).labels)) {
    if (stones[point] === ".") labels.set(point, text);
    else told.push(`${text} at ${nameOf(problem.size, point)}`);
  }
  return { svg: drawn(problem, stones, { labels }), told: told.join(", "), comment: commentOf(end) };
}

function labelsAt(problem, labels) {
  return new Map((labels || []).map(([turn, text]) => [pointOf(problem.size, turn), text]));
}

function inWords(problem, stones, labels) {
  const list = (test) => stones.map((cell, point) => (test(cell, point) ? nameOf(problem.size, point) : "")).filter(Boolean).join(", ") || "none";
  return `A board of ${problem.size} lines. Black stones: ${list((cell) => cell === "X")}. White stones: ${list((cell) => cell === "O")}. ` +
    `Marked: ${list((cell, point) => cell !== "." && problem.targets.includes(point))}. ` +
    `Points to play at: ${list((cell, point) => cell === "." && problem.region.has(point))}.` +
    (labels.size ? ` Labels: ${[...labels].map(([point, text]) => `${text} at ${nameOf(problem.size, point)}`).join(", ")}.` : "");
}
