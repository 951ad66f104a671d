// Asks the server that the page came from. One question runs at a time; it shows that it runs, and can be given up.
"use strict";

const HINTS = {
  lost: "The server does not answer. Is tsumego-server still running? Start it again, and ask once more; the position stays here.",
  stopped: "Given up.",
};
let running = null;

// The refusal of an answer, in sentences: what was said, and what to do.
async function refusedBy(response) {
  const text = await response.text();
  let told = {};
  try {
    told = JSON.parse(text);
  } catch {
    told = { error: `the server answers with status ${response.status}` };
  }
  const said = String(told.error || "").replace(/\.$/, "");
  return new Error(`${said.charAt(0).toUpperCase()}${said.slice(1)}. ${told.remedy || ""}`.trim());
}

async function fetched(path, record, signal) {
  let response;
  try {
    response = await fetch(path, { method: "POST", headers: { "Content-Type": "application/x-go-sgf" }, body: record, signal });
  } catch (error) {
    throw new Error(error.name === "AbortError" ? HINTS.stopped : HINTS.lost);
  }
  if (!response.ok) throw await refusedBy(response);
  try {
    const text = await response.text();
    return { text, code: Number(response.headers.get("Tsumego-Exit-Code")), line: response.headers.get("Tsumego-First-Line") || "", notes: response.headers.get("Tsumego-Notes") || "" };
  } catch (error) {
    throw new Error(error.name === "AbortError" ? HINTS.stopped : HINTS.lost);
  }
}

// Runs a task that asks the server, with the seconds that it takes; `told` gets a sentence where it fails.
async function working(what, task, told) {
  if (running) return;
  running = new AbortController();
  const begun = Date.now(), tick = () => { byId("working").textContent = `${what} … ${Math.round((Date.now() - begun) / 1000)} s`; };
  const timer = setInterval(tick, 500);
  tick();
  byId("work").hidden = false;
  byId("work").scrollIntoView({ block: "nearest" });
  try {
    await task((path, record) => fetched(path, record, running.signal));
  } catch (error) {
    told(error.message);
  } finally {
    clearInterval(timer);
    running = null;
    byId("work").hidden = true;
  }
}

byId("stop").addEventListener("click", () => running && running.abort());
