// The page to click. It says of a turn what its record says, and no more: where the record has no branch for it, the turn
// is "not judged".
"use strict";

// What was solved on this device, of this page and of others: by the keys of problems.
const SOLVED = "tsumego-solved";
const solved = new Set(solvedBefore());
let problems = [], number = 0, problem = null, line = [], cursor = null, isShown = false;

const now = () => line[line.length - 1];
const isOffRecord = () => line.length > 1 && !now().node;
const nameHere = (point) => nameOf(problem.size, point);

// Where a browser keeps nothing, as for some files, a page remembers for itself alone.
function solvedBefore() {
  try {
    return JSON.parse(localStorage.getItem(SOLVED)) || [];
  } catch {
    return [];
  }
}

function remember(key) {
  solved.add(key);
  try {
    localStorage.setItem(SOLVED, JSON.stringify([...new Set([...solvedBefore(), ...solved])]));
  } catch {
    return;
  }
}

function overText(at) {
  const winner = winnerOf(problem, at);
  if (!winner) return nextNodes(problem, at).length || isAlive(at) ? "" : " The record ends here.";
  return ` ${SIDES[winner]} wins: ${winner === problem.defender ? "the marked stones live" : "marked stones are captured"}.`;
}

// What is said of the reader's turn, after which the record's reply, if it has one, was made.
function saidOf(at, reply) {
  const answer = reply ? nameHere(reply.point) : "";
  const end = overText(reply || at);
  if (at.worth === "wins") return `${at !== line[1] && wordOf(at.node) ? "Also right" : "Right"}.${reply ? ` ${SIDES[at.mover]} answers with ${answer}.` : ""}${end}`;
  if (at.worth === "loses") return `Wrong${reply ? `: refuted by ${answer}` : ""}.${end}`;
  return line.length > 2 && line[line.length - 2].worth === "wins" && wordOf(line[1].node) === "loses" ? "This record leaves it out." : "May be right: not judged.";
}

function play(point) {
  if (isShown) return;
  const isEnd = !winnerOf(problem, now()) && (isOffRecord() || isAlive(now()) || now().mover !== problem.mover);
  const why = isEnd ? `The record ends here: ${line.length > 1 ? "take back" : "show the solution"}.` : barred(problem, now(), point);
  if (why) {
    say(why, "");
    return;
  }
  const mine = after(problem, now(), point);
  line.push(mine);
  const replies = nextNodes(problem, mine);
  if (point >= 0) cursor = point;
  answer(mine, replies.length && !winnerOf(problem, mine) ? replies[0][0] : null);
}

// Makes the other side's reply to the reader's turn, if there is one.
function answer(mine, turn) {
  const reply = turn && after(problem, mine, pointOf(problem.size, turn));
  if (reply) line.push(reply);
  if (mine.worth === "wins" && (winnerOf(problem, now()) === problem.mover || isAlive(now()))) remember(keyOf(number));
  show();
  say(saidOf(mine, reply), mine.worth || "unknown");
}

// Takes the reader's last turn back, and the reply to it.
function takeBack() {
  if (isShown) isShown = false;
  else if (line.length > 1) {
    line.pop();
    while (line.length > 1 && now().mover !== problem.mover) line.pop();
  }
  show();
  say("Taken back.", "");
}

// Who is to move stands above the board.
function startAgain() {
  line = [problem.start];
  isShown = false;
  show();
  say("", "");
}

function showSolution() {
  isShown = true;
  const moves = solution(problem);
  show(moves);
  const won = isWon(problem);
  const names = moves.map((at, i) => `${i + 1} ${nameHere(at.point)}`).join(", ");
  const right = rightTurns(problem);
  if (won === null) say("The record has no solution.", "unknown");
  else if (won) say(`${right.length > 1 ? `Right are ${right.join(", ")}. ` : ""}${SIDES[problem.mover]} wins${names && ": "}${names}.`, "wins");
  else say(`No: ${SIDES[OTHER[problem.mover]]} wins.${names && ` One try: ${names}.`}`, "loses");
}

function say(text, kind) {
  byId("said").textContent = text;
  byId("said").dataset.kind = kind;
}

function showOthers() {
  const isReply = line.length > 2 && !isShown && now().mover === problem.mover;
  const turns = isReply ? nextNodes(problem, line[line.length - 2]).map((node) => node[0]) : [];
  const buttons = turns.filter((turn) => turn !== turnOf(problem.size, now().point)).map((turn) => {
    const button = element("button", { type: "button" }, nameHere(pointOf(problem.size, turn)));
    button.addEventListener("click", () => {
      line.pop();
      answer(now(), turn);
    });
    return button;
  });
  byId("others").replaceChildren(...(buttons.length ? [`${SIDES[OTHER[problem.mover]]} may also answer: `, ...buttons] : []));
}

// What the record says of the reader's turn, and of the reply to it.
function notesOf(line) {
  const turns = line.slice(1).slice(now().mover === problem.mover ? -2 : -1);
  return turns.map(commentOf).filter(Boolean).join("\n\n");
}

function show(moves) {
  const at = now();
  const labels = labelsAt(problem, line.length > 1 ? noteOf(at.node).labels : problem.labels);
  const shown = moves ? diagram(problem, moves) : { svg: drawn(problem, at.stones, { labels, last: at.point, cursor, hit: play }), told: "", comment: notesOf(line) };
  byId("board").replaceChildren(shown.svg);
  byId("board").dataset.mover = at.mover === "X" ? "black" : "white";
  byId("board").setAttribute("aria-label", `Board: ${taskOf(problem)}`);
  byId("notes").textContent = shown.told;
  byId("note").textContent = shown.comment;
  byId("audit").textContent = auditOf(problem, moves ? moves[0] : line[1]);
  byId("words").textContent = inWords(problem, at.stones, labels);
  byId("place").textContent = `Problem ${number + 1} of ${problems.length}${solved.has(keyOf(number)) ? " · solved" : ""}`;
  byId("pass").disabled = isShown || Boolean(winnerOf(problem, at)) || isAlive(at) || isOffRecord();
  byId("back").disabled = byId("again").disabled = !isShown && line.length < 2;
  byId("show").disabled = isShown || (problem.turns.length === 0 && !problem.note);
  showOthers();
}

const keyOf = (which) => problems[which].key || which;

function openProblem(which) {
  number = which;
  problem = problems[number];
  cursor = null;
  byId("name").textContent = problem.name || "";
  byId("task").textContent = taskOf(problem);
  const comment = (problem.comment || "").replace(shortTask(problem), "").trim();
  byId("comment").textContent = [comment, problem.source].filter(Boolean).join("\n\n");
  document.title = problem.name || taskOf(problem);
  byId("turning").hidden = problems.length < 2;
  byId("previous").disabled = number === 0;
  byId("next").disabled = number === problems.length - 1;
  startAgain();
}

function moveCursor(across, down) {
  const { size } = problem;
  const within = (value, [least, most]) => Math.max(least, Math.min(most, value));
  if (cursor === null) [cursor] = problem.region;
  else cursor = within(Math.floor(cursor / size) + down, problem.lines) * size + within((cursor % size) + across, problem.columns);
  if (!isShown) show();
  const cell = now().stones[cursor];
  byId("cursor").textContent = `${nameHere(cursor)}, ${cell === "." ? (problem.region.has(cursor) ? "open" : "outside") : SIDES[cell]}`;
}

const KEYS = {
  ArrowLeft: () => moveCursor(-1, 0),
  ArrowRight: () => moveCursor(1, 0),
  ArrowUp: () => moveCursor(0, -1),
  ArrowDown: () => moveCursor(0, 1),
  Enter: () => { if (cursor === null) moveCursor(0, 0); else play(cursor); },
  Backspace: takeBack,
  p: () => play(-1),
};

function onKey(event) {
  const does = KEYS[event.key.length === 1 ? event.key.toLowerCase() : event.key];
  if (!does || event.altKey || event.ctrlKey || event.metaKey) return;
  event.preventDefault();
  does();
}

const BUTTONS = {
  pass: () => play(-1),
  back: takeBack,
  again: startAgain,
  show: showSolution,
  previous: () => openProblem(number - 1),
  next: () => openProblem(number + 1),
};

// Shows these problems, each given as data.
function begin(data) {
  problems = data.map(problemOf);
  byId("problem").hidden = problems.length === 0;
  if (problems.length > 0) openProblem(0);
}

for (const id in BUTTONS) byId(id).addEventListener("click", BUTTONS[id]);
byId("board").addEventListener("keydown", onKey);
begin(JSON.parse(byId("problems").textContent));
