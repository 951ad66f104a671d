// What the server's answers say, in sentences.
"use strict";

const WORDS = {
  proved: "This is proved.",
  sure: "Two procedures agree though everything that is supposed favours the other side. Of 99 such answers 93 agreed with people's.",
  likely: "One procedure is sure and the other says the same. Of 66 such answers 57 agreed with people's.",
  hint: "Both procedures say so, and neither is sure. Of 113 such hints 79 agreed with people's answers.",
  leaning: "Only one procedure decides. Of 84 such leanings 53 agreed with people's answers.",
  unknown: "No question was decided.",
};
const WORDS_OF_ONE = {
  sure: "One procedure says so though everything that is supposed favours the other side. Of 69 such answers 62 agreed with people's.",
  likely: "One procedure says so, by walls as they stand. Of 73 such answers 54 agreed with people's.",
};
const WALLS = {
  open: "no stones are supposed",
  natural: "walls stand where the attacker is nearer",
  kind: "walls with few liberties outside fall",
  hard: "the group is shut in, and cut off from every friend",
  race: "walls stand where the attacker gets there first",
  given: "walls stand where the attacker gets there first, and those with one or two liberties outside fall",
  alone: "walls stand where the attacker gets there first, no friend helps, and ways out where a stone would be taken are shut",
};
const LEANS = { life: "it may live", death: "it may die", either: "it may depend on who moves first", none: "nothing is known" };
const BY_LETTER = { B: "X", W: "O" };
const STATUSES = ["alive", "dead", "unsettled", "unknown"];

function pointNamed(size, name) {
  const found = /^([A-HJ-Z])([0-9]{1,2})$/i.exec(name);
  if (found && found[2] >= 1 && found[2] <= size) {
    const column = LETTERS.indexOf(found[1].toUpperCase());
    return column < size ? (size - found[2]) * size + column : null;
  }
  return /^[a-y]{2}$/.test(name) ? pointsOf(size, [name])[0] ?? null : null;
}

const pointsNamed = (size, names) => (Array.isArray(names) ? names : []).map((name) => pointNamed(size, String(name))).filter((it) => it !== null);

// The first line of an answer.
function statusSentence(found) {
  if (found.status && found.status !== "unknown") return `${found.target} is ${found.status} (${found.word}).`;
  return `${found.target}: unknown${found.leans && found.leans !== "none" ? `; ${LEANS[found.leans]} (${found.word})` : ""}.`;
}

const listed = (names) => (Array.isArray(names) ? names.join(", ") : String(names));

// What a proof depends on, as the end of a sentence.
const condition = (proof) => (proof.while && proof.while.length ? `, as long as these stones have liberties elsewhere: ${listed(proof.while)}` : "");

// What a proof rests on, and its answers.
function proofSentences(proof) {
  const told = [];
  if (proof.friends && proof.friends.length) told.push(`It rests on these stones too, which stay by claims of their own: ${listed(proof.friends)}.`);
  if (proof.answers && proof.answers.length) told.push(`Answers: ${proof.answers.map((pair) => pair.join(" → ")).join(", ")}.`);
  return told;
}

// What a first move does that is proved to decide the group, whose side is `defender`.
function firstMoveSentences(one, defender) {
  const side = BY_LETTER[one.first], by = one.move ? ` at ${one.move}` : "";
  const end = side === defender ? "the group lives, whatever is played then" : "the group is taken, whatever its owner plays then";
  return [`If ${SIDES[side]} moves first${by}, ${end}. This is proved, on the whole board${condition(one.proof)}.`, ...proofSentences(one.proof)];
}

// What the word means, and, where it is proved, by what.
function wordSentences(found, defender) {
  const proof = found.proof, firsts = (found.first_moves || []).flatMap((one) => firstMoveSentences(one, defender));
  const words = found.procedures === 1 ? { ...WORDS, ...WORDS_OF_ONE } : WORDS;
  if (found.word !== "proved") return [words[found.word] || "", ...firsts];
  if (firsts.length) return firsts;
  if (!proof || proof.kind === "shape") {
    return ["This is proved: nothing that is played takes the group, anywhere on the board, even if its own side always passes."];
  }
  const meaning =
    found.status === "dead"
      ? "whatever its owner plays, the other side takes the group by playing at the squares"
      : "whatever is played at the squares is answered, and the stones with a frame stay";
  return [`This is proved, on the whole board: ${meaning}${condition(proof)}.`, ...proofSentences(proof)];
}

// A question in a sentence. `defender` is the side of the group.
function questionSentence(question, defender) {
  const winner = BY_LETTER[question.winner], first = SIDES[BY_LETTER[question.first]];
  const end = winner ? (winner === defender ? "the group lives" : "the group dies") : `it is unknown (${question.unknown})`;
  const by = question.move ? `, by ${question.move === "pass" ? "a pass" : question.move}` : "";
  const put = (question.black || []).length + (question.white || []).length;
  const supposed = `${WALLS[question.walls] || question.walls}${put ? `, so ${put === 1 ? "a stone is" : `${put} stones are`} put up` : ""}`;
  const past = question.winner_without_past;
  const ko = past !== undefined && past !== question.winner ? " A ko decides: without the past the other side wins." : "";
  return `If ${first} moves first, ${end}${by}. Both sides play at ${question.points} empty points; supposed: ${supposed}.${ko}`;
}

// Who wins by the status where this side moves first; nothing where none is named.
function winnerBy(status, side, defender) {
  const [own, other] = defender === "X" ? ["B", "W"] : ["W", "B"];
  return { alive: own, dead: other, unsettled: side }[status];
}

// The number of the question that tells most where this side moves first: one that says what the status says, then one that is
// decided, with a move, of those with the most points; -1 where there is none.
function bestQuestion(found, side, defender) {
  const wins = winnerBy(found.status, side, defender);
  const worth = (it) => (it.winner && it.winner === wins ? 2000 : 0) + (it.winner ? 1000 : 0) + (it.move ? 500 : 0) + it.points;
  return found.questions.reduce((best, it, i) => (it.first === side && (best < 0 || worth(it) > worth(found.questions[best])) ? i : best), -1);
}

// The best question of each side that moves first.
function bestQuestions(found, defender) {
  return found.questions ? ["B", "W"].map((side) => bestQuestion(found, side, defender)).filter((it) => it >= 0) : [];
}

// The groups of a position by their statuses, in a sentence for each that occurs.
function groupSentences(groups) {
  const named = { alive: "Alive", dead: "Dead", unsettled: "Whoever moves first decides", unknown: "Not decided" };
  return STATUSES.flatMap((status) => {
    const some = groups.filter((it) => it.status === status);
    return some.length ? [`${named[status]}: ${some.map((it) => `${it.target}${status === "unknown" ? "" : ` (${it.word})`}`).join(", ")}.`] : [];
  });
}
