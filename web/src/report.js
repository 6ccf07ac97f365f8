"use strict";

// What the page reads off an answer: nothing here judges a system, and no line of a text is believed to be well formed.

// The kinds of authority, by number (docs/POLICY.md).
const KINDS = ["control", "reset", "send", "receive", "grant", "call", "notify", "await", "read", "write", "reply", "context",
  "schedcontrol", "space", "derive", "runs", "holds"];

function reportOf(output) {
  try {
    return JSON.parse(output);
  } catch {
    return null; // a log, a policy or a certificate
  }
}

// A command's answer in a few words, and how it looks: good, bad, faulty or as it is.
function inWords(command, answer, report) {
  if (answer.status === null) return ["broken off", "faulty"];
  if (answer.status === 2) {
    if (report?.fault) return [`fault ${report.fault} in the ${report.file}, line ${report.line}`, "faulty"];
    return ["not answered", "faulty"];
  }
  if (report?.verdict === "deny") return [`denied by ${report.rule}`, "bad"];
  if (report?.verdict === "accept") return ["accepted", "good"];
  if (report?.verdict === "illegal") return [`not legal from entry ${report.entry} on`, "bad"];
  if (report?.verdict === "legal") {
    return report.state === "within" ? ["legal, and within the policy", "good"] : [`legal, but outside by ${report.rule}`, "bad"];
  }
  if (report?.verdict === "hold") return ["each claim holds", "good"];
  if (report?.broken) return [report.broken.length === 1 ? "1 claim is broken" : `${report.broken.length} claims are broken`, "bad"];
  if (report?.run === "impossible") return ["no run does it", ""];
  if (report?.run && report.steps === 0) return ["no run does it: they may only take", ""];
  if (report?.run) return [`none found in ${report.steps} calls`, "faulty"];
  if (command.option === "--missing") return answer.status === 0 ? ["nothing is missing", "good"] : ["edges are missing", "bad"];
  if (command.option === "--surplus") return answer.status === 0 ? ["nothing is surplus", "good"] : ["edges are surplus", ""];
  if (command.name === "diff") return answer.status === 0 ? ["nothing is added", "good"] : ["something is added", "bad"];
  if (command.name === "show") return ["a run that does it", ""];
  if (command.name === "summary") return ["no fault", "good"];
  if (command.name === "run") return ["accepted, and run", "good"];
  return ["", ""];
}

// The line that a report names: which text, and its number from 1; or none.
function namedLine(report, texts) {
  if (!report) return null;
  if (report.fault) return { file: report.file, line: report.line };
  if (report.entry) return { file: "log", line: report.entry + 1 };
  if (report.broken) return { file: "claims", line: report.broken[0].line };
  const [one, two, three, four] = report.place ?? [];
  const find = (file, ...beginnings) => {
    for (const beginning of beginnings) {
      const at = texts[file].split("\n").findIndex((line) => `${line} `.startsWith(`${beginning} `));
      if (at >= 0) return { file, line: at + 1 };
    }
    return null;
  };
  switch (report.rule) {
    case "A1":
    case "A2":
      return find("table", `cap ${one}`);
    case "A3":
      return find("table", `child ${one} ${two}`);
    case "A4":
      return find("table", `bind ${one} ${two}`);
    case "A5":
      return find("table", `reply ${one}`);
    case "A6":
      return find("table", `tcb ${one}`);
    case "C1":
      return { file: "certificate", line: Number(one) + 1 };
    case "P1":
      return find("policy", `edge ${one} ${three} ${four}`, `edge ${two} ${three} ${four}`);
    case "P2":
      return find("policy", `edge ${one} control ${three}`);
    case "P3":
      return find("policy", `edge ${one} ${three} ${four}`);
    default:
      return null;
  }
}

// The graph that `draw` writes: its labels, and an arrow for each authority of one on another, `full` or `take`; or null. With `--all` an
// arrow has an edge. Without it the labels are programs, and the graph is folded: a program has the words that stand in its box, and an
// arrow those that stand beside it. Then an arrow can be about memory alone, too.
function graphOf(text) {
  const lines = text.split("\n");
  if (lines[0] !== "digraph authority {") return null;
  const isFolded = lines.includes("  node [shape=box]");
  const labels = [], arrows = [], within = new Map();
  for (const line of lines) {
    const [, label, inside] = /^  "([^"]*)"(?: \[label="([^"]*)"\])?$/.exec(line) ?? [];
    const [, from, to, style, told] = /^  "([^"]*)" -> "([^"]*)" \[(?:style=(\w+), )?label="([^"]*)"\]$/.exec(line) ?? [];
    if (label) labels.push(label);
    if (inside) within.set(label, inside.split("\\n").slice(1).join(" "));
    if (!from) continue;
    const held = { dashed: "take", dotted: "memory" }[style] ?? "full";
    arrows.push(isFolded ? { from, to, held, words: told.split("\\n").filter(Boolean) } : { from, to, held, edge: told });
  }
  return { labels, arrows, within, isFolded };
}

// The claims that none of these labels has authority on another.
function claimsOfNone(labels) {
  const lines = labels.flatMap((from) => labels.filter((to) => to !== from).map((to) => `none ${from} ${to}\n`));
  return `confine-claims 2\n${lines.join("")}end\n`;
}

// The same graph, of the report on these claims: those that don't hold name the pairs, and how far the authority goes.
function graphOfBroken(labels, report) {
  const arrows = (report.broken ?? []).map(({ claim, authority }) => {
    const [, from, to] = claim.split(" ");
    return { from, to, held: authority };
  });
  return { labels, arrows };
}

// Why a claim is broken, of the sentence that the program says of it: what stands before the way out.
const reasonOf = (sentence) => /doesn't hold: (.*?)\.(?: [A-Z].*)?$/.exec(sentence.trimEnd())?.[1] ?? "";

// The lines of claims that claim something: all but the header, the last, empty lines and comments.
function claimLines(text) {
  const lines = text.split("\n");
  const end = lines.indexOf("end");
  return lines.map((_, at) => at + 1).filter((line) => line > 1 && line <= end && !/^(#.*)?$/.test(lines[line - 1]));
}

// Claims with one more, and the number of its line.
function withClaim(claims, claim) {
  if (claims === "") return { text: `confine-claims 2\n${claim}\nend\n`, line: 2 };
  const lines = claims.split("\n");
  if (lines.includes(claim)) return { text: claims, line: lines.indexOf(claim) + 1 };
  let at = lines.indexOf("end");
  if (at < 0) at = lines.length - (lines.at(-1) === "" ? 1 : 0);
  return { text: lines.toSpliced(at, 0, claim).join("\n"), line: at + 1 };
}

// What the program says of the lines of a text, on standard error: each with its line, or 0 where it is of the whole text.
function notesOf(file, error) {
  const notes = [];
  for (const line of error.split("\n").filter(Boolean)) {
    const [, number, note, words] = new RegExp(`^${file}:(?:(\\d+):)? (note: )?(.*)$`).exec(line) ?? [];
    if (words) notes.push({ line: Number(number ?? 0), words, isBad: number !== undefined && !note });
  }
  return notes;
}

// The matrix that `summary` writes: what its signs mean, a row of cells for each program, and who uses the other labels; or null.
function summaryOf(text) {
  if (text === "no label has a thread\n") return { signs: "", labels: [], rows: [], others: [] };
  if (!text.startsWith("who may change whom")) return null;
  const [head, ...lines] = text.trimEnd().split("\n");
  const rows = rowsOf(lines), others = [];
  for (const line of lines) {
    if (ROW.test(line)) continue;
    if (line.startsWith("    ") && /[a-z]/.test(line)) others.at(-1).users = line.trim();
    else if (/^[a-z]/.test(line)) others.push({ labels: line.split(", "), users: "" });
  }
  for (const other of others) {
    const [, changed, read] =
      /^(?:changed by ([^;]*))?(?:; )?(?:taken away by [^;]*)?(?:; )?(?:read by (.*))?$/.exec(other.users) ?? [];
    [other.changed, other.read] = [changed, read].map((names) => names?.split(", ") ?? []);
  }
  return { signs: head.slice(head.indexOf(": ") + 2), labels: [...rows.keys()], rows: [...rows.values()], others };
}

// The rows of a matrix: of each label the signs of its cells. A wide matrix has a label's cells in several lines.
const ROW = /^ *\d+ ([a-z]\w*) +(.*)$/;
function rowsOf(lines) {
  const rows = new Map();
  for (const line of lines) {
    const [, label, cells] = ROW.exec(line) ?? [];
    if (label) rows.set(label, [...(rows.get(label) ?? []), ...cells.split(/ +/)]);
  }
  return rows;
}

// What `flows` writes of two labels: whether the one flows to the other, the sets of programs through which all of it goes, and the links
// of a shortest chain.
function flowOf(text) {
  const lines = text.trimEnd().split("\n");
  const wordsAfter = (first) => wordsOf(text, first).map((words) => words.slice(1));
  return { isThere: lines[0] !== "none", isLarge: lines[0] === "more than 5", isMore: lines.includes("and more"),
    sets: wordsAfter("through"), links: wordsAfter("link") };
}

const LETTERS = { C: "calls", A: "answers", S: "signals", F: "changes for another reason", t: "only takes away", m: "shares memory" };
// What a cell says, in words.
const cellInWords = (cell) => [...cell].map((letter) => LETTERS[letter]).filter(Boolean).join(", ") || "never";

// The labels of memory that both use, and that one of them may change: frames, and untyped memory, of which frames can be made.
function memoryOf({ others }, table, one, other) {
  const isMemory = new Set(["frame", "untyped"].flatMap((kind) => wordsOf(table, kind)).map((words) => words[2]));
  const uses = ({ changed, read }, label) => changed.includes(label) || read.includes(label);
  const isShared = (it) => uses(it, one) && uses(it, other) && (it.changed.includes(one) || it.changed.includes(other));
  return others.filter(isShared).flatMap(({ labels }) => labels).filter((label) => isMemory.has(label));
}

// The list of a table's objects, in columns.
function inColumns(list) {
  const rows = list.trimEnd().split("\n").map((line) => line.split(" "));
  const wide = [0, 1, 2].map((at) => Math.max(...rows.map((row) => row[at].length)));
  return rows.map(([number, kind, name, label]) => {
    return `${number.padStart(wide[0])} ${kind.padEnd(wide[1])} ${name.padEnd(wide[2])} ${label}`;
  });
}

const wordsOf = (text, first) => text.split("\n").map((line) => line.split(" ")).filter((words) => words[0] === first);

// The labels of a table, in their order.
const labelsOf = (table) => wordsOf(table, "label").map((words) => words[1]);

// A policy with one more edge, in its place: edges rise by label, kind and label.
function withEdge(table, policy, edge) {
  const labels = labelsOf(table);
  const rank = (line) => {
    const [, from, kind, to] = line.split(" ");
    return [labels.indexOf(from), KINDS.indexOf(kind), labels.indexOf(to)];
  };
  const isBefore = (one, other) => {
    const at = one.findIndex((number, at) => number !== other[at]);
    return at >= 0 && one[at] < other[at];
  };
  const lines = policy.split("\n");
  let at = lines.findIndex((line) => line === "end" || (line.startsWith("edge ") && isBefore(rank(edge), rank(line))));
  if (at < 0) at = lines.length - (lines.at(-1) === "" ? 1 : 0);
  return { text: lines.toSpliced(at, 0, edge).join("\n"), line: at + 1 };
}
