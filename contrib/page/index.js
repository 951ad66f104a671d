// The index of pages with a problem each: by grade, with those marked that were solved on this device.
"use strict";

const problems = JSON.parse(byId("problems").textContent).map(problemOf);

function solvedKeys() {
  try {
    return new Set(JSON.parse(localStorage.getItem("tsumego-solved")) || []);
  } catch {
    return new Set();
  }
}

const isQuestion = problems.some((one) => !one.won);

function entry(one) {
  const svg = drawn(one, one.stones, { labels: new Map() });
  return element("a", { href: one.page, "data-key": one.key }, svg, element("span", {}, one.name || one.page.replace(/\.html$/, "")), element("br", {}), shortTask(one, isQuestion).replace(/\.$/, ""));
}

function showIndex() {
  const grades = [...new Set(problems.map((one) => one.grade || 0))].sort((one, other) => one - other);
  byId("grades").replaceChildren(
    ...grades.flatMap((grade) => {
      const those = problems.filter((one) => (one.grade || 0) === grade);
      return [...(grade ? [element("h2", {}, `Grade ${grade}`)] : []), element("div", { class: "problems" }, ...those.map(entry))];
    }),
  );
  document.querySelector("h1").textContent = document.title;
  markSolved();
}

function markSolved() {
  const keys = solvedKeys();
  for (const link of document.querySelectorAll("[data-key]")) link.classList.toggle("solved", keys.has(link.dataset.key));
  byId("count").textContent = `${problems.length} problem${problems.length === 1 ? "" : "s"}, ${problems.filter((one) => keys.has(one.key)).length} solved on this device.`;
}

showIndex();
addEventListener("pageshow", markSolved);
