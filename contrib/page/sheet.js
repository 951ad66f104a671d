// A sheet to print: the problems, so many on a page, and last the answers.
"use strict";

const problems = JSON.parse(byId("problems").textContent).map(problemOf);

const isQuestion = problems.some((one) => !isWon(one));

const isOpen = (one) => !["", JUDGED].includes(auditOf(one, solution(one)[0]));

function figure(index, one, svg, told) {
  const title = `${index + 1}.${one.name ? ` ${one.name}${told && ":"}` : ""}`;
  return element("figure", {}, svg, element("figcaption", {}, [title, told].filter(Boolean).join(" ")));
}

// Whether the side to move wins, and by which first moves where there are several. What was not asked is not answered.
function verdict(one, isExplained) {
  const won = isWon(one), right = rightTurns(one);
  if (won === null) return "Not judged.";
  if (!won) return isExplained ? "No." : `No: the marked stones ${one.mover === one.defender ? "die" : "live"}.`;
  const also = right.length > 1 ? right.join(", ") : "";
  return isQuestion ? `Yes${also && ": "}${also}.` : also && `Right are ${also}.`;
}

function sheets(perPage) {
  const pages = (figures, count, name, heading) => {
    const made = [];
    for (let from = 0; from < figures.length; from += count) {
      made.push(element("section", { class: name, style: `--across:${Math.ceil(Math.sqrt(count * 0.66))}` }, ...(from === 0 && heading ? [element("h2", {}, heading)] : []), ...figures.slice(from, from + count)));
    }
    return made;
  };
  const asked = problems.map((one, i) => figure(i, one, drawn(one, one.stones, { labels: labelsAt(one, one.labels) }), shortTask(one, isQuestion)));
  const answers = problems.map((one, i) => {
    const moves = solution(one);
    const { svg, told, comment } = diagram(one, moves);
    const says = [verdict(one, Boolean(comment)), told && `${told}.`, comment];
    return figure(i, one, svg, says.filter(Boolean).join(" ") + (isOpen(one) ? " *" : ""));
  });
  const last = pages(answers, 12, "sheet answers", "Answers");
  if (problems.some(isOpen)) last[last.length - 1].append(element("p", { class: "audit" }, `* ${UNAUDITED}`));
  document.body.append(...pages(asked, perPage, "sheet"), ...last);
}

sheets(Number(document.body.dataset.sheet));
