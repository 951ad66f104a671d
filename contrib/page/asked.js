// The page to ask, as it is drawn: the board with what an answer adds to it, the nodes of the record, and the answer in words.
"use strict";

const ask = { root: newNode(null, { SZ: ["9"] }), node: null, undone: [], answer: null, chosen: -1, groups: null, at: 0, part: "all", ready: null };
ask.node = ask.root;

const tool = () => document.querySelector('input[name="tool"]:checked').value;
const chooseTool = (name) => { document.querySelector(`input[name="tool"][value="${name}"]`).checked = true; };

function tell(text, kind = "") {
  byId("told").textContent = text;
  byId("told").dataset.kind = kind;
  if (text) byId("told").scrollIntoView({ block: "nearest" });
}

// The lines that are shown: all, or a quarter of the board with a bit more.
function shownPart(size) {
  const most = Math.ceil(size / 2), low = [0, Math.min(size - 1, most)], high = [Math.max(0, size - 1 - most), size - 1];
  if (ask.part === "all") return { columns: [0, size - 1], lines: [0, size - 1] };
  return { columns: ask.part[1] === "l" ? low : high, lines: ask.part[0] === "u" ? low : high };
}

function chainAt(size, stones, point) {
  const chain = new Set([point]);
  for (const one of chain) for (const near of neighbours(size, one)) if (stones[near] === stones[point]) chain.add(near);
  return chain;
}

// What an answer adds to the board: its region, the stones that are supposed, marks and labels.
function drawnAnswer(now) {
  const { size, stones } = now, props = ask.node.props;
  const shown = { region: new Set(pointsOf(size, props.SQ)), targets: pointsOf(size, props.TR), put: new Map(), marks: new Map(), labels: new Map() };
  for (const group of ask.groups || []) {
    if (group.status !== "unknown") for (const one of pointsNamed(size, group.stones)) shown.marks.set(one, group.status);
  }
  if (!ask.answer) return shown;
  const point = pointNamed(size, ask.answer.target), question = (ask.answer.questions || [])[ask.chosen];
  if (point !== null && stones[point] !== ".") shown.targets = [...chainAt(size, stones, point)];
  if (question) {
    shown.region = new Set(pointsNamed(size, question.inside));
    for (const one of pointsNamed(size, question.black)) shown.put.set(one, "X");
    for (const one of pointsNamed(size, question.white)) shown.put.set(one, "O");
    const move = pointNamed(size, question.move || "");
    if (move !== null) shown.labels.set(move, "1");
  } else if (ask.answer.proof) {
    shown.region = new Set(pointsNamed(size, ask.answer.proof.region).filter((inside) => stones[inside] === "."));
    for (const one of pointsNamed(size, ask.answer.proof.kept)) shown.marks.set(one, "kept");
  } else {
    for (const one of ask.answer.first_moves || []) {
      for (const inside of pointsNamed(size, one.proof.region)) if (stones[inside] === ".") shown.region.add(inside);
      for (const move of pointsNamed(size, [one.move])) shown.labels.set(move, "1");
    }
  }
  return shown;
}

function nameOfPoint(now, shown, point) {
  const cell = shown.put.get(point) || now.stones[point];
  const parts = [nameOf(now.size, point), cell === "." ? "empty" : `${SIDES[cell]}${shown.put.has(point) ? ", supposed" : ""}`];
  if (shown.targets.includes(point)) parts.push("target");
  if (shown.region.has(point)) parts.push("in the region");
  if (shown.marks.has(point)) parts.push(shown.marks.get(point));
  if (shown.labels.has(point)) parts.push("first move");
  return parts.join(", ");
}

// Makes the picture a grid whose cells have names, and in which one cell takes the keys.
function asGrid(svg, now, shown) {
  svg.removeAttribute("aria-hidden");
  svg.setAttribute("role", "grid");
  svg.setAttribute("aria-label", `Board of ${now.size} rows`);
  const { columns, lines } = shownPart(now.size), cells = [...svg.querySelectorAll(".hit")], width = columns[1] - columns[0] + 1;
  ask.at = Math.min(Math.max(ask.at, 0), now.size * now.size - 1);
  if (!isShownPoint(now.size, ask.at)) ask.at = lines[0] * now.size + columns[0];
  for (let first = 0; first < cells.length; first += width) {
    const row = document.createElementNS("http://www.w3.org/2000/svg", "g");
    row.setAttribute("role", "row");
    for (const cell of cells.slice(first, first + width)) {
      const point = pointOf(now.size, cell.dataset.turn);
      cell.setAttribute("role", "gridcell");
      cell.setAttribute("aria-label", nameOfPoint(now, shown, point));
      cell.setAttribute("tabindex", point === ask.at ? "0" : "-1");
      if (point === ask.ready) cell.classList.add("ready");
      row.append(cell);
    }
    svg.append(row);
  }
}

function isShownPoint(size, point) {
  const { columns, lines } = shownPart(size), column = point % size, row = Math.floor(point / size);
  return column >= columns[0] && column <= columns[1] && row >= lines[0] && row <= lines[1];
}

function drawAsked() {
  const now = positionAt(ask.node), shown = drawnAnswer(now), hadFocus = byId("asked").contains(document.activeElement);
  const view = { size: now.size, ...shownPart(now.size), region: shown.region, targets: shown.targets };
  const svg = drawn(view, now.stones, { labels: shown.labels, last: now.last, put: shown.put, marks: shown.marks, hit: onHit });
  asGrid(svg, now, shown);
  byId("asked").replaceChildren(svg);
  if (hadFocus) svg.querySelector('[tabindex="0"]').focus();
  byId("position").textContent = inWords({ size: now.size, targets: shown.targets, region: shown.region }, now.stones, shown.labels);
  byId("mover").value = now.mover;
  byId("undo").disabled = ask.undone.length === 0;
  byId("confirming").hidden = ask.ready === null;
  byId("confirm").textContent = ask.ready === null ? "" : `${byId("tools").querySelector(":checked + span").textContent} at ${nameOf(now.size, ask.ready)}`;
  drawNodes(now);
}

function drawNodes(now) {
  const rest = [];
  for (let at = ask.node.children[0]; at; at = at.children[0]) rest.push(at);
  const number = now.path.length - 1, remark = (ask.node.props.C || [""])[0];
  byId("nodes").hidden = now.path.length + rest.length < 2;
  byId("at").max = number + rest.length;
  byId("at").value = number;
  byId("start").disabled = byId("before").disabled = number === 0;
  byId("after").disabled = byId("end").disabled = rest.length === 0;
  byId("node").textContent = `Node ${number} of ${number + rest.length}. ${SIDES[now.mover]} to move.`;
  byId("remark").textContent = unescaped(remark);
  const buttons = ask.node.children.length < 2 ? [] : ask.node.children.map((child, i) => {
    const turn = turnIn(now.size, child.props), button = element("button", { type: "button" }, turn ? `${i + 1}: ${nameOf(now.size, turn.point)}` : `${i + 1}`);
    button.addEventListener("click", () => goTo(child));
    return button;
  });
  byId("variations").replaceChildren(...(buttons.length ? ["Variations: ", ...buttons] : []));
}

// A question as a button that draws it.
function questionItem(number, defender) {
  const question = ask.answer.questions[number];
  const button = element("button", { type: "button", "aria-pressed": String(number === ask.chosen) }, questionSentence(question, defender));
  button.addEventListener("click", () => {
    ask.chosen = number;
    showAsked();
  });
  return element("li", {}, button);
}

// The answer in words: what its word means, what tells most of either side's first move, and below that all questions.
function drawMeaning() {
  const found = ask.answer, questions = (found && found.questions) || [];
  byId("answer").hidden = !found && !ask.groups;
  byId("playing").hidden = !questions[ask.chosen];
  byId("further").hidden = questions.length === 0;
  const now = positionAt(ask.node), defender = found && now.stones[pointNamed(now.size, found.target)];
  const sentences = found ? wordSentences(found, defender) : groupSentences(ask.groups || []);
  byId("meaning").replaceChildren(...sentences.map((it) => element("p", {}, it)));
  byId("questions").replaceChildren(...(found ? bestQuestions(found, defender) : []).map((it) => questionItem(it, defender)));
  byId("count").textContent = `All ${questions.length} questions that were asked`;
  byId("every").replaceChildren(...questions.map((_, i) => questionItem(i, defender)));
}

function showAsked() {
  drawAsked();
  drawMeaning();
}
