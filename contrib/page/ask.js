// The page to ask: a board to put stones on and a record to go through, about which the server is asked.
"use strict";

const TOOL_KEYS = { b: "black", w: "white", x: "remove", p: "play", a: "ask", t: "target", r: "region" };
const STEPS_OF_GROUPS = 2000, MOST_UNDONE = 1000;

// ---- What is changed

// A change that can be taken back.
function change(does, back) {
  does();
  ask.undone.push(back);
  if (ask.undone.length > MOST_UNDONE) ask.undone.shift();
  forget();
}

// Answers are about the position that was asked; when it changes they go.
function forget() {
  ask.answer = ask.groups = ask.ready = null;
  ask.chosen = -1;
  tell("");
  showAsked();
}

function goTo(node) {
  ask.node = node;
  forget();
}

function addNode(props) {
  const parent = ask.node, node = newNode(parent, props);
  change(() => { parent.children.push(node); ask.node = node; }, () => { parent.children.splice(parent.children.indexOf(node), 1); ask.node = parent; });
}

function setProps(props) {
  const node = ask.node, before = node.props;
  change(() => { node.props = props; }, () => { node.props = before; ask.node = node; });
}

// Puts the stones of a position into this node, or, where it has a move or others follow it, into a new one.
function setStones(stones) {
  const now = positionAt(ask.node), { size } = now;
  const isOwn = !turnIn(size, ask.node.props) && ask.node.children.length === 0;
  const base = isOwn ? (ask.node.parent ? positionAt(ask.node.parent).stones : Array(size * size).fill(".")) : now.stones;
  const props = isOwn ? { ...ask.node.props } : {};
  for (const [name, cell] of [["AB", "X"], ["AW", "O"], ["AE", "."]]) {
    const points = [...stones.keys()].filter((point) => stones[point] === cell && base[point] !== cell);
    delete props[name];
    if (points.length) props[name] = points.map((point) => turnOf(size, point));
  }
  if (isOwn) setProps(props);
  else addNode(props);
}

function put(point, cell) {
  const { stones } = positionAt(ask.node), after = stones.slice();
  after[point] = stones[point] === cell ? "." : cell;
  if (after[point] !== stones[point]) setStones(after);
}

function playAt(point) {
  const now = positionAt(ask.node), name = nameOf(now.size, point);
  if (now.stones[point] !== ".") return tell(`There is a stone at ${name}: play at an empty point.`, "refused");
  const after = afterMove(now.size, now.stones, now.mover, point);
  if (now.seen.has(after.join(""))) return tell(`${name} is barred: it would repeat a position.`, "refused");
  const colour = now.mover === "X" ? "B" : "W", turn = turnOf(now.size, point);
  const same = ask.node.children.find((child) => child.props[colour] && child.props[colour][0] === turn);
  if (same) return goTo(same);
  return addNode({ [colour]: [turn] });
}

// Marks a point with TR or SQ, or takes the mark away.
function mark(name, points, isOn) {
  const { size } = positionAt(ask.node), marked = new Set(pointsOf(size, ask.node.props[name]));
  for (const point of points) if (isOn) marked.add(point); else marked.delete(point);
  const props = { ...ask.node.props, [name]: [...marked].sort((a, b) => a - b).map((point) => turnOf(size, point)) };
  if (marked.size === 0) delete props[name];
  setProps(props);
}

function markTarget(point) {
  const now = positionAt(ask.node);
  if (now.stones[point] === ".") return tell(`There is no stone at ${nameOf(now.size, point)}: a target is a stone.`, "refused");
  const isOn = !pointsOf(now.size, ask.node.props.TR).includes(point);
  return mark("TR", chainAt(now.size, now.stones, point), isOn);
}

const TOOLS = {
  black: (point) => put(point, "X"),
  white: (point) => put(point, "O"),
  remove: (point) => put(point, "."),
  play: playAt,
  ask: askAbout,
  target: markTarget,
  region: (point) => mark("SQ", [point], !pointsOf(sizeOf(ask.root), ask.node.props.SQ).includes(point)),
};

// Where points are smaller than a finger, a first touch names the point, and a second one, or the button, acts.
function onHit(point) {
  const cell = byId("asked").querySelector(".hit").getBoundingClientRect().width;
  ask.at = point;
  if (cell < 22 && matchMedia("(pointer: coarse)").matches && ask.ready !== point) {
    ask.ready = point;
    drawAsked();
    return;
  }
  act(point);
}

function act(point) {
  ask.ready = null;
  ask.at = point;
  TOOLS[tool()](point);
}

// ---- What is asked

const refused = (text) => tell(text, "refused");
const nodeNumber = () => pathTo(ask.node).length - 1;

// The question that is drawn first: of the side whose first move is told. An answer with a proof has its own region.
function firstShown(found, defender) {
  const best = bestQuestions(found, defender);
  const withMove = best.find((it) => found.questions[it].move);
  return found.proof || best.length === 0 ? -1 : withMove === undefined ? best[0] : withMove;
}

function askAbout(point) {
  const now = positionAt(ask.node), name = nameOf(now.size, point);
  if (now.stones[point] === ".") return refused(`There is no stone at ${name}: click a stone of the group.`);
  forget();
  return working(`Asking about ${name}`, async (asked) => {
    const { text, code, line } = await asked(`status?node=${nodeNumber()}&target=${name}`, recordTo(ask.node));
    if (code !== 0) throw new Error(line);
    ask.answer = JSON.parse(text);
    ask.chosen = firstShown(ask.answer, now.stones[point]);
    tell(statusSentence(ask.answer), ask.answer.status);
    showAsked();
  }, refused);
}

function askAll() {
  forget();
  return working("Asking about all groups", async (asked) => {
    const { text } = await asked(`status?all&quick&steps=${STEPS_OF_GROUPS}&node=${nodeNumber()}`, recordTo(ask.node));
    ask.groups = text.split("\n").filter(Boolean).map((it) => JSON.parse(it));
    tell(ask.groups.length ? "All groups, by a quick look: ask about one for more." : "There are no groups on the board.");
    showAsked();
  }, refused);
}

// The stones that a problem is about: the marked ones, or those of the last answer.
function targetsNow(now) {
  const marked = pointsOf(now.size, ask.node.props.TR);
  const point = ask.answer ? pointNamed(now.size, ask.answer.target) : null;
  return marked.length || point === null ? marked : [...chainAt(now.size, now.stones, point)];
}

const sideWord = (cell) => (cell === "X" ? "black" : "white");

// The record in which a region is marked, by the server.
async function markedRecord(asked, now, targets, words) {
  const target = targets.map((point) => turnOf(now.size, point)).join(",");
  const { text, code, line, notes } = await asked(`mark?node=${nodeNumber()}&target=${target}${words}`, recordTo(ask.node));
  if (code !== 0) throw new Error(line);
  return { text, notes };
}

function propose() {
  const now = positionAt(ask.node), targets = targetsNow(now);
  if (targets.length === 0) return refused("Which group? Choose “Target” and click its stones, or “Ask” and click one.");
  return working("Proposing a region", async (asked) => {
    const { text, notes } = await markedRecord(asked, now, targets, `&to-play=${sideWord(now.mover)}&region=${byId("regions").value}`);
    let at = readRecord(text).root;
    while (!at.props.SQ && !at.props.TR && at.children[0]) [at] = at.children;
    const props = { ...ask.node.props, TR: targets.map((point) => turnOf(now.size, point)) };
    if (at.props.SQ) props.SQ = at.props.SQ;
    else delete props.SQ;
    setProps(props);
    tell(notes ? `Proposed. ${notes.replace(/problem_tools: /g, "")}` : "Proposed: the squares are the region. “Region” adds points and takes them away.");
  }, refused);
}

// Has a problem answered, and shows the answer to click through.
async function clickThrough(asked, record) {
  const answered = await asked("first-moves?record", record);
  if (answered.code !== 0) throw new Error(answered.line);
  const data = await asked("page?unaudited", answered.text);
  if (data.code !== 0) throw new Error(data.line);
  byId("ask").hidden = true;
  begin([JSON.parse(data.text)]);
  byId("leave").focus();
  scrollTo(0, 0);
}

function solve() {
  const now = positionAt(ask.node), targets = targetsNow(now), region = pointsOf(now.size, ask.node.props.SQ);
  if (targets.length === 0) return refused("Which group? Choose “Target” and click its stones, or “Ask” and click one.");
  return working("Solving", async (asked) => {
    const words = `&to-play=${sideWord(now.mover)}&region=${region.length ? region.map((point) => turnOf(now.size, point)).join(",") : byId("regions").value}`;
    const { text } = await markedRecord(asked, now, targets, words);
    await clickThrough(asked, text);
  }, refused);
}

// The chosen question as a problem, with the stones that it supposes.
function playOut() {
  const now = positionAt(ask.node), question = ask.answer.questions[ask.chosen], point = pointNamed(now.size, ask.answer.target);
  const shut = (question.shut || []).length ? `&shut=${question.shut.join(",")}` : "";
  const words = `&to-play=${sideWord(BY_LETTER[question.first])}&region=${question.points}&walls=${question.walls}${shut}`;
  return working("Solving", async (asked) => {
    const { text } = await markedRecord(asked, now, [point], words);
    await clickThrough(asked, text);
  }, refused);
}

function leave() {
  begin([]);
  byId("ask").hidden = false;
  document.title = "Go: is this group dead?";
  showAsked();
}

// ---- Records in and out

function openRecord(text) {
  try {
    const { root, games } = readRecord(text);
    const before = { root: ask.root, node: ask.node };
    let last = root;
    while (last.children[0]) [last] = last.children;
    change(() => { ask.root = root; ask.node = last; }, () => { ask.root = before.root; ask.node = before.node; });
    const hasMarks = last.props.TR || last.props.SQ;
    chooseTool("ask");
    const where = last === root ? "" : ` This is its last position, at node ${pathTo(last).length - 1}: go to the one you mean.`;
    tell(`The record is open.${games > 1 ? ` It is the first of ${games} in the file.` : ""}${where} ${hasMarks ? "“Solve” solves its problem." : "Click a stone to ask about its group."}`);
  } catch (error) {
    refused(error.message);
  }
}

// The text of a file: UTF-16 by its mark, else UTF-8, else the character set that the record names, a byte a character.
async function readFile(file) {
  const bytes = new Uint8Array(await file.arrayBuffer());
  if ((bytes[0] === 255 && bytes[1] === 254) || (bytes[0] === 254 && bytes[1] === 255)) {
    return openRecord(new TextDecoder(bytes[0] === 255 ? "utf-16le" : "utf-16be").decode(bytes));
  }
  try {
    return openRecord(new TextDecoder("utf-8", { fatal: true }).decode(bytes));
  } catch {
    const plain = new TextDecoder("iso-8859-1").decode(bytes), named = /CA\[([\w.:-]+)\]/.exec(plain);
    try {
      return openRecord(new TextDecoder(named ? named[1] : "iso-8859-1").decode(bytes));
    } catch {
      return openRecord(plain);
    }
  }
}

function download(name, text, type) {
  const address = URL.createObjectURL(new Blob([text], { type }));
  const link = element("a", { href: address, download: name });
  document.body.append(link);
  link.click();
  link.remove();
  setTimeout(() => URL.revokeObjectURL(address), 1000);
}

function savePicture() {
  return working("Drawing", async (asked) => {
    const props = ask.node.props, now = positionAt(ask.node);
    const marks = { ...(props.TR ? { TR: props.TR } : {}), ...(props.SQ ? { SQ: props.SQ } : {}) };
    const { text } = await asked("picture?node=0&whole", setupOf(now.size, now.stones, now.mover, marks));
    download("position.svg", text, "image/svg+xml");
    tell("The picture is saved as position.svg.");
  }, refused);
}

function makeLink() {
  const now = positionAt(ask.node), { TR = [], SQ = [] } = ask.node.props;
  const address = `${location.href.split("#")[0]}#${encodeURIComponent(setupOf(now.size, now.stones, now.mover, { TR, SQ }))}`;
  byId("linkbox").hidden = false;
  byId("address").value = address;
  byId("address").select();
  if (navigator.clipboard) navigator.clipboard.writeText(address).then(() => tell("The link is copied."), () => tell("Copy the link from its field."));
}

function newBoard() {
  const before = { root: ask.root, node: ask.node }, root = newNode(null, { SZ: [byId("size").value] });
  change(() => { ask.root = root; ask.node = root; }, () => { ask.root = before.root; ask.node = before.node; });
  chooseTool("black");
}

function openAddress() {
  if (location.hash.length < 2) return;
  try {
    openRecord(decodeURIComponent(location.hash.slice(1)));
  } catch {
    refused("The link has no record that can be read: ask for it again.");
  }
}

// ---- Keys, buttons, and what is dropped

function undo() {
  const back = ask.undone.pop();
  if (!back) return;
  back();
  forget();
  tell("Taken back.");
}

function along(steps) {
  let node = ask.node;
  for (let i = 0; i < Math.abs(steps); i += 1) node = (steps < 0 ? node.parent : node.children[0]) || node;
  if (node !== ask.node) goTo(node);
}

function moveTo(across, down) {
  const { size } = positionAt(ask.node), column = (ask.at % size) + across, row = Math.floor(ask.at / size) + down;
  const point = row * size + column;
  if (column < 0 || column >= size || row < 0 || row >= size || !isShownPoint(size, point)) return;
  ask.at = point;
  for (const cell of byId("asked").querySelectorAll(".hit")) cell.setAttribute("tabindex", pointOf(size, cell.dataset.turn) === point ? "0" : "-1");
  byId("asked").querySelector('[tabindex="0"]').focus();
}

const ASK_KEYS = {
  ArrowLeft: () => moveTo(-1, 0), ArrowRight: () => moveTo(1, 0), ArrowUp: () => moveTo(0, -1), ArrowDown: () => moveTo(0, 1),
  Enter: () => act(ask.at), " ": () => act(ask.at), PageUp: () => along(-1), PageDown: () => along(1), Home: () => along(-MOST_NODES),
  End: () => along(MOST_NODES), u: undo, Backspace: undo,
};

function onAskKey(event) {
  const key = event.key.length === 1 ? event.key.toLowerCase() : event.key;
  if (event.altKey || event.ctrlKey || event.metaKey) return;
  if (TOOL_KEYS[key]) {
    chooseTool(TOOL_KEYS[key]);
    tell(`A click now: ${TOOL_KEYS[key]}.`);
  } else if (ASK_KEYS[key]) ASK_KEYS[key]();
  else return;
  event.preventDefault();
}

const ASK_BUTTONS = {
  undo, groups: askAll, propose, solve, playout: playOut, leave, save: () => download("record.sgf", written(ask.root), "application/x-go-sgf"),
  draw: savePicture, link: makeLink, new: newBoard, read: () => openRecord(byId("text").value), confirm: () => act(ask.ready),
  clear: () => { const { TR, SQ, ...props } = ask.node.props; if (TR || SQ) setProps(props); else forget(); },
  start: () => along(-MOST_NODES), before: () => along(-1), after: () => along(1), end: () => along(MOST_NODES),
};

function setMover(cell) {
  const letter = cell === "X" ? "B" : "W";
  if (turnIn(sizeOf(ask.root), ask.node.props)) addNode({ PL: [letter] });
  else setProps({ ...ask.node.props, PL: [letter] });
}

function onDrop(event) {
  event.preventDefault();
  document.body.classList.remove("dropping");
  const [file] = event.dataTransfer.files;
  if (file) readFile(file);
  else if (event.dataTransfer.getData("text")) openRecord(event.dataTransfer.getData("text"));
}

function onPaste(event) {
  const text = event.clipboardData.getData("text");
  if (/\(\s*;/.test(text) && event.target.id !== "text") openRecord(text);
}

for (let rows = 1; rows <= MOST_ROWS; rows += 1) byId("size").append(element("option", { value: rows, ...(rows === 9 ? { selected: "" } : {}) }, String(rows)));
for (const id in ASK_BUTTONS) byId(id).addEventListener("click", ASK_BUTTONS[id]);
byId("asked").addEventListener("keydown", onAskKey);
byId("at").addEventListener("input", () => along(Number(byId("at").value) - nodeNumber()));
byId("mover").addEventListener("change", () => setMover(byId("mover").value));
byId("part").addEventListener("change", () => { ask.part = byId("part").value; drawAsked(); });
byId("file").addEventListener("change", () => byId("file").files[0] && readFile(byId("file").files[0]));
for (const radio of document.querySelectorAll('input[name="tool"]')) radio.addEventListener("change", () => { ask.ready = null; drawAsked(); });
addEventListener("dragover", (event) => { event.preventDefault(); document.body.classList.add("dropping"); });
addEventListener("dragleave", () => document.body.classList.remove("dropping"));
addEventListener("drop", onDrop);
addEventListener("paste", onPaste);
addEventListener("hashchange", openAddress);
showAsked();
openAddress();
