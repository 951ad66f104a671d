// Records: reading and writing SGF, and the positions of their nodes. A node has its properties, each a list of values as they are
// written, the nodes that may follow, and the one before it.
"use strict";

const MOST_ROWS = 25;
const MOST_NODES = 100000;
const newNode = (parent, props = {}) => ({ parent, props, children: [] });

// The first game of a text, and how many there are; a sentence says what is wrong.
function readRecord(text) {
  const from = text.search(/\(\s*;/);
  if (from < 0) throw new Error("That is no SGF record: there is no “(;” in it.");
  const token = /\(|\)|;|([A-Za-z]+)\s*((?:\[(?:[^\\\]]|\\[\s\S])*\]\s*)+)|\s+/y;
  const open = [];
  let root = null, at = null, count = 0;
  token.lastIndex = from;
  while (token.lastIndex < text.length) {
    const place = token.lastIndex, found = token.exec(text);
    if (!found) throw new Error(`The record cannot be read at character ${place}: it is cut off, or a bracket is missing.`);
    if (found[0] === "(") open.push(at);
    else if (found[0] === ")") {
      at = open.pop();
      if (open.length === 0) break;
    } else if (found[0] === ";") {
      at = newNode(at);
      if (at.parent) at.parent.children.push(at);
      else root = at;
      if ((count += 1) > MOST_NODES) throw new Error("The record has more than 100,000 nodes.");
    } else if (found[1]) addValues(at, found[1].replace(/[a-z]/g, ""), found[2]);
  }
  if (open.length > 0) throw new Error("The record is cut off: it has more opening brackets than closing ones.");
  sizeOf(root);
  return { root, games: 1 + (text.slice(token.lastIndex).match(/\(\s*;/g) || []).length };
}

function addValues(node, name, written) {
  const values = [...written.matchAll(/\[((?:[^\\\]]|\\[\s\S])*)\]/g)].map((it) => it[1]);
  node.props[name] = [...(node.props[name] || []), ...values];
}

// The number of rows of a record; a sentence says what is wrong.
function sizeOf(root) {
  const [written] = root.props.SZ || ["19"], found = /^\s*([0-9]+)(?::\1)?\s*$/.exec(written);
  if ((root.props.GM || ["1"])[0].trim() !== "1") throw new Error("The record is of another game than Go.");
  if (!found || found[1] < 1 || found[1] > MOST_ROWS) throw new Error("The board has to be square, with 1 to 25 rows.");
  return Number(found[1]);
}

const unescaped = (text) => text.replace(/\\(\r\n|[\s\S])/g, (_, one) => (/[\r\n]/.test(one) ? "" : one));
const writtenNode = (props) => `;${Object.entries(props).map(([name, values]) => name + values.map((it) => `[${it}]`).join("")).join("")}`;

// A tree as a record; variations have brackets of their own.
function written(root) {
  const parts = ["("], todo = [root];
  while (todo.length > 0) {
    const one = todo.pop();
    if (typeof one === "string") parts.push(one);
    else {
      parts.push(writtenNode(one.props));
      if (one.children.length === 1) todo.push(one.children[0]);
      else for (const child of [...one.children].reverse()) todo.push(")", child, "(");
    }
  }
  return `${parts.join("")})`;
}

function pathTo(node) {
  const path = [];
  for (let at = node; at; at = at.parent) path.unshift(at);
  return path;
}

// The points of values such as aa and aa:cb.
function pointsOf(size, values) {
  const points = [];
  for (const value of values || []) {
    const [from, to = from] = value.trim().split(":").map((it) => (/^[a-y]{2}$/.test(it) ? it : null));
    if (!from || !to) continue;
    for (let row = from.charCodeAt(1); row <= to.charCodeAt(1); row += 1) {
      for (let column = from.charCodeAt(0); column <= to.charCodeAt(0); column += 1) {
        if (row - 97 < size && column - 97 < size) points.push((row - 97) * size + column - 97);
      }
    }
  }
  return points;
}

// The turn of a node: whose it is and its point, -1 for a pass; nothing where it has none.
function turnIn(size, props) {
  const name = props.B ? "B" : props.W ? "W" : null;
  if (!name) return null;
  const value = props[name][0].trim();
  const point = value === "" || (value === "tt" && size < 20) ? -1 : pointsOf(size, [value])[0];
  return { colour: name === "B" ? "X" : "O", point: point === undefined ? -1 : point };
}

function afterNode(size, before, props) {
  let { stones, mover } = before;
  const turn = turnIn(size, props);
  if (turn) {
    stones = turn.point < 0 ? stones : afterMove(size, stones, turn.colour, turn.point);
    return { stones, mover: OTHER[turn.colour], last: turn.point < 0 ? null : turn.point };
  }
  for (const [name, cell] of [["AB", "X"], ["AW", "O"], ["AE", "."]]) {
    if (props[name]) stones = stones.slice();
    for (const point of pointsOf(size, props[name])) stones[point] = cell;
  }
  const told = (props.PL || [""])[0].trim().toUpperCase();
  if (told.startsWith("B") || told.startsWith("W")) mover = told.startsWith("B") ? "X" : "O";
  return { stones, mover, last: null };
}

// The position at a node, with all that have occurred before it.
function positionAt(node) {
  const path = pathTo(node), size = sizeOf(path[0]);
  let at = { stones: Array(size * size).fill("."), mover: "X", last: null };
  const seen = new Set();
  for (const one of path) {
    at = afterNode(size, at, one.props);
    seen.add(at.stones.join(""));
  }
  return { ...at, size, seen, path };
}

// What programs are sent: the nodes up to this one without what they do not read, and marks at the last alone.
function recordTo(node, marks) {
  const path = pathTo(node), kept = ["SZ", "AB", "AW", "AE", "B", "W", "PL"];
  const nodes = path.map((one, i) => {
    const props = i === 0 ? { FF: ["4"], GM: ["1"] } : {};
    for (const name of kept) if (one.props[name]) props[name] = one.props[name];
    return writtenNode(props);
  });
  return `(${nodes.join("")}${marks ? writtenNode(marks) : ""})`;
}

// The position alone as a record.
function setupOf(size, stones, mover, marks) {
  const list = (cell) => [...stones.keys()].filter((point) => stones[point] === cell).map((point) => turnOf(size, point));
  const props = { GM: ["1"], SZ: [String(size)], AB: list("X"), AW: list("O"), PL: [mover === "X" ? "B" : "W"], ...marks };
  for (const name in props) if (props[name].length === 0) delete props[name];
  return `(${writtenNode(props)})`;
}
