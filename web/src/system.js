"use strict";

// What belongs to the table, whatever is asked, and whatever the policy says: its summary, the drawings, and the reason of two labels in
// them.

// Shows what belongs to the table, once a command was answered: the summary, which claims hold, and the drawings.
async function showSystem(turn, given, command, answer) {
  const told = command === SUMMARY ? answer : await program.answer(["summary", "table"], given).catch(failed);
  if (turn !== asked || !told) return;
  const lacking = told.status === 0 ? "" : whatLacks(told);
  showSummary(lacking ? null : summaryOf(decoded(told.output)), lacking);
  await showDifference(turn, given);
  await tellClaims(turn, given, lacking !== "");
  await draw(turn, given, lacking, command, answer);
}

// Shows beside an example that was edited what changed, as `diff` tells it of the example's table and this one.
async function showDifference(turn, given) {
  const old = chosenExample?.table ?? given.table;
  const told = given.table === old ? null : await program.answer(["diff", "example", "table"], { ...given, example: old }).catch(failed);
  if (turn !== asked) return;
  const lines = [0, 1].includes(told?.status) ? decoded(told.output).trimEnd() : "";
  find("difference").hidden = lines === "";
  if (lines === "") return;
  const [words, look] = inWords(DIFF, told, null);
  const title = element("p", {}, "What changed from the example, as ", element("code", {}, "confine diff"), " says it: ");
  title.append(element("b", { class: look }, words));
  find("difference").replaceChildren(title, element("pre", { tabindex: 0 }, ...lines.split("\n").map(asChange)));
}

// A line of `diff`, by its sign: what only the new system has, what only the old one has, or what differs.
function asChange(line, at) {
  const look = { "+": "bad", "-": "good", "~": "faulty" }[line[0]];
  return element("span", { class: look ?? "" }, at === 0 ? line : `\n${line}`);
}

// Why a table has no summary, in words.
function whatLacks(told) {
  const report = reportOf(decoded(told.output));
  return report?.fault ? `The ${report.file} has a fault.` : "The program gave no answer.";
}

// Shows a summary, or says why there is none. Cells that say otherwise than the summary before are outlined.
function showSummary(summary, lacking) {
  find("box-summary").classList.remove("old");
  find("stale").hidden = true;
  if (!summary || summary.labels.length === 0) {
    summed = null;
    find("reason").hidden = true;
    find("matrix").replaceChildren(element("p", { class: "small" }, summary ? "No label has a thread." : lacking));
    find("others").hidden = true;
    find("changed").hidden = true;
    return;
  }
  const isSame = summed && JSON.stringify(summed) === JSON.stringify(summary);
  if (isSame) return;
  find("reason").hidden = true;
  const whole = matrix(summary, summed, (one, other) => askWhy((reason) => find("texts").append(reason), one, other));
  summed = summary;
  const words = `${summary.signs}. Choose a cell to ask why, and what flows through whom.`;
  find("matrix").replaceChildren(whole, element("p", { class: "small" }, words));
  const count = whole.querySelectorAll(".changed").length;
  find("changed").hidden = count === 0;
  find("changed").textContent = count === 1 ? "1 cell differs from the answer before." : `${count} cells differ from the answer before.`;
  const rows = summary.others.map(({ labels, users }) => element("li", {}, element("code", {}, labels.join(", ")), ` ${users}`));
  find("others").hidden = rows.length === 0;
  find("others").querySelector("summary").textContent = `Memory and other labels without a thread (${rows.length})`;
  find("others").querySelector("ul").replaceChildren(...rows);
}

// Draws what belongs to the table, or says what it lacks.
async function draw(turn, given, lacking, command, answer) {
  if (command === DRAW || command === DRAW_ALL) pictured = command;
  find("pictured-programs").setAttribute("aria-pressed", pictured === DRAW);
  find("pictured-labels").setAttribute("aria-pressed", pictured === DRAW_ALL);
  const output = decoded(answer.output);
  const [graph, text] = lacking ? [null, ""] : command === pictured ? [graphOf(output), output] : await graphFor(given);
  if (turn !== asked) return;
  showGraph(graph, text, lacking);
  const objects = lacking ? null : drawObjects(given.table);
  frame("objects", objects, lacking || "The table has too many objects to be drawn.");
  find("objects").hidden = !lacking && !objects;
  find("objects").querySelector("details").open = !objects || objects.height.baseVal.value <= HIGH;
  find("signs").hidden = !objects;
}

// The graph of a table without a fault, and its text. With many labels `draw --all` takes long, since it has a reason for each arrow: then
// the graph is that of the claims that don't hold, of `none` for each pair, without reasons and without a text.
async function graphFor(given) {
  const labels = labelsOf(given.table);
  if (pictured === DRAW_ALL && labels.length > MOST_IN_TABLE) return [{ labels, arrows: [] }, ""];
  if (pictured === DRAW_ALL && labels.length > MOST_LABELS) return [await tableOf(labels, given), ""];
  const words = ["draw", "table", ...(pictured === DRAW ? [] : ["--all"])];
  const answer = await program.answer(words, given).catch(failed);
  if (answer?.status !== 0) return [null, ""];
  const text = decoded(answer.output);
  return [graphOf(text), text];
}

async function tableOf(labels, given) {
  const claims = claimsOfNone(labels);
  const answer = await program.answer(["claims", "table", "claims"], { ...given, claims }).catch(failed);
  if (answer?.status !== 0 && answer?.status !== 1) return null;
  return graphOfBroken(labels, JSON.parse(decoded(answer.output)));
}

// Shows a graph with its text, or says why there is none.
function showGraph(graph, text, lacking) {
  const isDrawn = graph && graph.labels.length > 0 && graph.labels.length <= MOST_IN_TABLE;
  const why = lacking ||
    (graph?.labels.length === 0 ? "No label has a thread." :
    graph ? `More than ${MOST_IN_TABLE} labels aren't drawn here.` :
    "The program gave no graph.");
  frame("labels", isDrawn ? drawLabels(graph, (one, other) => askWhy((reason) => find("kept").before(reason), one, other)) : null, why);
  find("kept").hidden = !isDrawn;
  find("never").hidden = document.querySelector("#labels .left") !== null;
  find("graph").hidden = !graph || text === "";
  find("graph").querySelector("pre").textContent = text;
}

// Asks `why` of two labels that were chosen in the matrix or in the drawing, beneath which the reason is put.
async function askWhy(put, one, other) {
  put(find("reason"));
  await askOf(WHY, one, other);
  find("reason").scrollIntoView({ block: "nearest" });
  for (const button of document.querySelectorAll(".matrix [aria-current]")) button.removeAttribute("aria-current");
  const [down, at] = [one, other].map((label) => summed?.labels.indexOf(label));
  document.querySelector(`.matrix [data-at="${down} ${at}"]`)?.setAttribute("aria-current", "true");
}

// Chooses which labels are drawn.
function drawOf(command) {
  pictured = command;
  ask(last === DRAW || last === DRAW_ALL ? command : last);
}

// Copies the graph's text, and selects it, so that it can be copied where the page may not.
function copyGraph() {
  const text = find("graph").querySelector("pre");
  getSelection().selectAllChildren(text);
  navigator.clipboard?.writeText(text.textContent).catch(() => {});
}

// Puts a drawing into its frame, or says why there is none.
function frame(id, drawing, why) {
  const box = find(id).querySelector(".drawing");
  box.replaceChildren(drawing ?? element("p", { class: "small" }, why));
  box.scrollLeft = (box.scrollWidth - box.clientWidth) / 2; // of a wide one, the middle
}

// Shows what threads of A may do to objects of B beneath the matrix or the drawing, where the two were chosen: the edges of a reason, each
// with its line in the policy if it stands there, where each is from, and the memory of both.
function showReason(given, [one, other], answer, output) {
  if (answer.status !== 0) return;
  const [held, ...edges] = output.trimEnd().split("\n");
  const policy = given.policy.split("\n");
  const offer = (edge) => {
    const line = policy.indexOf(edge) + 1;
    const button = element("button", { class: "place", title: `Go to line ${line} of the policy` }, `policy:${line}`);
    button.addEventListener("click", () => go("policy", line));
    return element("li", {}, element("code", {}, edge), " ", ...(line > 0 ? [button] : []));
  };
  const isMore = { full: "may change objects of", take: "may only take from objects of", none: "never changes objects of" };
  const names = [one, other].map((label) => element("code", {}, label));
  const title = element("p", {}, names[0], ` ${isMore[held]} `, names[1], edges.length > 0 ? ", by:" : ".");
  const sentences = decoded(answer.error).split("\n").filter(Boolean).map((line) => element("p", { class: "small" }, ...withPlaces(line)));
  const shared = summed ? memoryOf(summed, given.table, one, other) : [];
  const memory = shared.length > 0 ? [element("p", {}, "Memory of both: ", element("code", {}, shared.join(", ")), ".")] : [];
  const parts = [title, element("ul", {}, ...edges.map(offer)), ...sentences, ...memory, offerNext(one, other, held)];
  find("reason").replaceChildren(element("div", {}, ...parts));
  find("reason").hidden = false;
}

// What can be asked of two labels next: calls that do it, or that it must stay so.
function offerNext(one, other, held) {
  const next = element("p", { class: "next" });
  if (held !== "none") {
    const calls = element("button", {}, "Show calls that do it");
    calls.addEventListener("click", () => askOf(commandOf("show", held === "take" ? "--take" : undefined), one, other));
    next.append(calls);
  }
  if (held !== "full") {
    next.append(offerClaim(`${held} ${one} ${other}`));
  }
  return next;
}

// Lets what holds become a claim.
function offerClaim(claim) {
  const button = element("button", {}, "Claim ", element("code", {}, claim));
  button.addEventListener("click", () => putClaim(claim));
  return button;
}

// Asks a command of two labels, and brings the answer into sight.
async function askOf(command, one, other) {
  [find("label-A").value, find("label-B").value] = [one, other];
  const answer = await ask(command);
  if (answer && command !== WHY) find("answer").scrollIntoView({ block: "nearest" });
}
