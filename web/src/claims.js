"use strict";

// The claims: which hold, beside their lines, and where they are from.

// Marks each claim as one that holds or is broken.
async function markClaims(turn, given, report) {
  find("claimed").hidden = true;
  if (report?.verdict !== "hold" && report?.verdict !== "broken") return;
  const lines = given.claims.split("\n");
  const answer = await brokenClaims(given, report);
  if (turn !== asked || !answer || CLAIMS.reads.some((name) => texts[name].text !== given[name])) return; // stopped, or of older texts
  const { claimed, broken } = answer;
  signClaims(claimed, broken);
  showClaims(given, lines, claimed.length - broken.length, broken);
}

function signClaims(claimed, broken) {
  const signs = new Map(claimed.map((line) => [line, "good"]));
  for (const { line } of broken) signs.set(line, "bad");
  texts.claims.sign(signs);
}

// How many claims hold and are broken, in words.
function countOf(holding, broken) {
  const hold = holding === 1 ? "1 claim holds" : `${holding} claims hold`;
  return `${hold}, ${broken === 1 ? "1 is broken" : `${broken} are broken`}.`;
}

// Says above the summary which claims hold of a table without a fault, and marks them, whatever was asked.
async function tellClaims(turn, given, isFaulty) {
  const isAsked = !isFaulty && given.claims !== "";
  const answer = isAsked ? await program.answer(["claims", "table", "claims"], given).catch(failed) : null;
  if (turn !== asked) return;
  const report = answer && reportOf(decoded(answer.output));
  find("kept-claims").hidden = !report;
  if (!report) return;
  const claimed = claimLines(given.claims), broken = report.broken ?? [];
  if (!report.fault && texts.claims.text === given.claims) signClaims(claimed, broken);
  const words = report.fault ? `The claims have a fault. ` : `${countOf(claimed.length - broken.length, broken.length)} `;
  const line = report.fault ? report.line : broken[0]?.line;
  const button = element("button", { class: "place" }, `claims:${line}`);
  button.addEventListener("click", () => go("claims", line));
  find("kept-claims").className = line ? "small bad" : "small";
  find("kept-claims").replaceChildren(words, ...(line ? [button] : []));
}

// Which claims are broken: the report names all of them.
async function brokenClaims(given, report) {
  const claimed = claimLines(given.claims);
  if (report.verdict === "hold") return { claimed, broken: [] };
  const told = await program.answer(["claims", "table", "claims"], given);
  if (!told) return null;
  const sentences = decoded(told.error).split("\n");
  const reason = (line) => reasonOf(sentences.find((sentence) => sentence.startsWith(`claims:${line}: `)) ?? "");
  return { claimed, broken: report.broken.map(({ line }) => ({ line, reason: reason(line) })) };
}

function showClaims(given, lines, count, broken) {
  const how = `The mark beside a line says if its claim holds (${SIGNS.good}) or is broken (${SIGNS.bad}).`;
  const offer = ({ line, reason }) => {
    const button = element("button", {}, `Go to line ${line}`);
    button.addEventListener("click", () => {
      go("claims", line);
    });
    return element("li", {}, button, element("code", { class: "bad" }, lines[line - 1]), element("span", { class: "small" }, reason));
  };
  const words = element("p", {}, element("b", {}, `${countOf(count, broken.length)} `), element("span", { class: "small" }, how));
  find("claimed").replaceChildren(words, element("ul", {}, ...broken.slice(0, MOST_BROKEN).map(offer)));
  find("claimed").hidden = false;
}

// Begins the claims with those that a command writes, and marks them. A fault is shown in their place.
async function takeClaims(command) {
  const answer = await ask(command);
  if (answer?.status !== 0) return;
  texts.claims.text = decoded(answer.output);
  await ask(CLAIMS);
}

// Adds a claim, and marks all.
async function putClaim(claim) {
  const { text, line } = withClaim(texts.claims.text, claim);
  texts.claims.text = text;
  await ask(CLAIMS);
  if (texts.claims.marked === 0) texts.claims.markLine(line);
}
