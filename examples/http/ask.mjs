import { readFile } from "node:fs/promises";

const body = await readFile("examples/straight-three.sgf");
const headers = { "Content-Type": "text/plain" };
const answer = await fetch("http://127.0.0.1:8642/first-moves", { method: "POST", headers, body });
if (!answer.ok) throw new Error((await answer.json()).error);
for (const line of (await answer.text()).trim().split("\n")) {
  const { turn, mover } = JSON.parse(line);
  if (mover === "wins") console.log(turn);
}
