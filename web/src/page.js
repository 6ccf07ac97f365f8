"use strict";

// The page: what is chosen, asked and shown.

const TABLE = ["table"], SYSTEM = ["table", "policy"];

// The commands, a button for each, in groups: the texts that it reads, an option, what is asked, which text its answer may become, and what
// else is to be seen with it. The texts beside description, table and policy are those that are named here.
const GROUPS = [
  { title: "The system", commands: [
    { name: "import", reads: ["description"], asks: "table, policy and summary of a description", shows: "summary" },
    { name: "check", reads: SYSTEM, asks: "does the table keep to the policy?" },
    { name: "close", reads: SYSTEM, asks: "the least policy for this table", gives: "policy" },
    { name: "close", option: "--missing", reads: SYSTEM, asks: "which edges does the policy lack?" },
    { name: "close", option: "--surplus", reads: SYSTEM, asks: "which edges does nothing need?" },
    { name: "list", reads: TABLE, asks: "the objects' numbers, for a script", shows: "script" },
  ] },
  { title: "Who can touch whom", commands: [
    { name: "summary", reads: TABLE, asks: "all programs at once", shows: "summary" },
    { name: "diff", reads: TABLE, asks: "what do your changes add to the example?", shows: "summary" },
    { name: "why", reads: TABLE, pair: true, asks: "by which edges?" },
    { name: "show", reads: TABLE, pair: true, asks: "by which calls does A change B?", gives: "script" },
    { name: "show", option: "--take", reads: TABLE, pair: true, asks: "by which calls does A take from B?", gives: "script" },
    { name: "flows", reads: TABLE, pair: true, asks: "through which programs does A affect B?" },
    { name: "flows", reads: TABLE, asks: "through how many programs: all at once" },
    { name: "draw", reads: TABLE, asks: "the programs, as a graph" },
    { name: "draw", option: "--all", reads: TABLE, asks: "all labels, as a graph" },
  ] },
  { title: "What has to hold", commands: [
    { name: "claims", reads: [...TABLE, "claims"], asks: "does each claim hold?" },
    { name: "claims", option: "--all", reads: TABLE, asks: "the strongest claims that hold", gives: "claims" },
    { name: "import", option: "--claims", reads: ["description"], asks: "the claims that the description makes", gives: "claims" },
  ] },
  { title: "Runs and certificates", commands: [
    { name: "run", reads: [...SYSTEM, "script"], asks: "what comes of the script's calls?", gives: "log" },
    { name: "replay", reads: [...SYSTEM, "log"], asks: "is this log one of the system?" },
    { name: "check", option: "--cert", reads: SYSTEM, asks: "what does each line give?", gives: "certificate" },
    { name: "verify", reads: [...SYSTEM, "certificate"], asks: "is this the table's certificate?" },
  ] },
];
const COMMANDS = GROUPS.flatMap(({ commands }) => commands);
const commandOf = (name, option) => COMMANDS.find((command) => command.name === name && command.option === option);
const IMPORT = commandOf("import"), CHECK = commandOf("check"), SUMMARY = commandOf("summary"), WHY = commandOf("why");
const CLAIMS = commandOf("claims"), DIFF = commandOf("diff"), FLOWS = COMMANDS.find(({ name, pair }) => name === "flows" && pair);
const DRAW = commandOf("draw"), DRAW_ALL = commandOf("draw", "--all");
const DRAWN = [SUMMARY, DRAW, DRAW_ALL]; // what the page shows in another form, too: as text it is folded
const STRONGEST = commandOf("claims", "--all"), DESIGN = commandOf("import", "--claims");
const FILES = [...new Set(COMMANDS.flatMap((command) => command.reads))];
// What the page begins with, and the texts that are there in each view. All others stand in the third place, behind the summary.
const VIEWS = { description: ["description"], system: SYSTEM };
const THIRD = ["summary", ...FILES.filter((name) => !Object.values(VIEWS).flat().includes(name))];
// How a description is read: the options, and what they are in plain words. The first is chosen.
const READINGS = {
  rights: { title: "Rights of capabilities", ways: {
    least: "only what the description needs", all: "every right of its kind, as the tool mints them" } },
};

const FIRST = "echo_server"; // the example that the page opens with
const MOST_SHOWN = 2000; // lines of an answer
const MOST_MISSING = 200; // edges that are offered
const MOST_BROKEN = 200; // broken claims that are listed with their reasons
const MOST_NOTES = 300; // notes on a description
const PAUSE = 300; // milliseconds without a key, before what follows from a text is asked

const texts = Object.fromEntries(FILES.map((name) => [name, new Text(name)]));
const find = (id) => document.getElementById(id);
const decoded = (bytes) => new TextDecoder().decode(bytes);
const allTexts = () => Object.fromEntries(FILES.map((name) => [name, texts[name].text]));

const margin = new Margin(texts.description);

let viewed = "system"; // the view
let shown = "summary"; // what is in the third place
let last = CHECK; // the command that was asked last
let asked = 0; // how often one was: what belongs to an earlier one is dropped
let pictured = DRAW; // which drawing is shown
let imported = null; // table and policy, as they followed from the description
let chosenExample = null; // the texts of the example that was chosen, until there is another system
let summed = null; // the summary that is shown

// ---- Texts, and the example that is chosen.

function layOut() {
  const isWide = matchMedia("(min-width: 901px)");
  const place = (name, ...parts) => element("div", { class: "place-of", id: `place-${name}` }, ...parts);
  const alone = (name) => place(name, element("div", { class: "head" }, name, space(), opener(() => name)), texts[name].box);
  offerReadings();
  texts.description.area.placeholder = "Paste the system description of a Microkit system here: a file often called NAME.system.";
  texts.description.box.append(margin.box, element("p", { id: "kept-by-hand", class: "small", hidden: "" }), find("readings"));
  const list = element("div", { role: "tablist", "aria-label": "What is beside it" });
  list.append(...tabsOf(THIRD, (name) => `box-${name}`, show));
  const third = place("third", element("div", { class: "head" }, list, space(), opener(() => shown)));
  third.append(find("box-summary"), ...THIRD.slice(1).map((name) => texts[name].box));
  find("texts").append(alone("description"), ...SYSTEM.map(alone), third);
  find("views").append(...tabsOf(Object.keys(VIEWS), () => "texts", view));
  find("tab-system").textContent = "table and policy";
  texts.script.box.append(element("div", { id: "objects-listed", tabindex: 0, "aria-label": "The objects by number" }));
  const strongest = element("button", { id: "strongest" }, "Strongest claims");
  strongest.addEventListener("click", () => takeClaims(STRONGEST));
  const design = element("button", { id: "design" }, "Claims of the description");
  design.addEventListener("click", () => takeClaims(DESIGN));
  texts.claims.box.append(element("div", { class: "start small" }, find("claim-words"), strongest, design));
  show(shown);
  unfold(isWide.matches);
  isWide.addEventListener("change", () => unfold(isWide.matches));
}

// Opens what is folded on a narrow screen alone, or folds it.
function unfold(isWide) {
  for (const part of document.querySelectorAll("details.fold")) part.open = isWide;
}

// Tabs, of which the arrow keys choose the next and the one before; each shows what it stands for.
function tabsOf(names, controls, open) {
  return names.map((name) => {
    const tab = element("button", { role: "tab", id: `tab-${name}`, "aria-controls": controls(name) }, name);
    tab.addEventListener("click", () => open(name));
    tab.addEventListener("keydown", ({ key }) => {
      const step = { ArrowRight: 1, ArrowLeft: -1 }[key];
      if (step) open(names.at((names.indexOf(name) + step) % names.length), true);
    });
    return tab;
  });
}

// Chooses one of some tabs.
function selectTab(names, chosen, isFocused) {
  for (const name of names) {
    find(`tab-${name}`).setAttribute("aria-selected", name === chosen);
    find(`tab-${name}`).tabIndex = name === chosen ? 0 : -1;
  }
  if (isFocused) find(`tab-${chosen}`).focus();
}

const space = () => element("span", { class: "space" });

// What opens a file of the person's own as the text that is told by `which`.
function opener(which) {
  const input = element("input", { type: "file", "aria-label": "Open a file" });
  input.addEventListener("change", async () => {
    if (input.files.length === 0) return;
    texts[which()].text = await input.files[0].text();
    input.value = "";
  });
  return element("label", { class: "opener" }, "Open a file", input);
}

// Shows what one begins with: a description, with its drawing beneath, or table and policy, with the commands beneath.
function view(name, isFocused = false) {
  viewed = name;
  find("texts").dataset.view = name;
  for (const [other, files] of Object.entries(VIEWS)) for (const file of files) find(`place-${file}`).hidden = other !== name;
  selectTab(Object.keys(VIEWS), name, isFocused);
  if (name === "description") find("asked").before(find("pictures"));
  else find("answer").after(find("pictures"));
  tellOfHand();
}

// Shows the summary or one of the texts in the third place.
function show(name, isFocused = false) {
  if (!THIRD.includes(name)) return;
  shown = name;
  for (const other of THIRD) find(`box-${other}`).hidden = other !== name;
  document.querySelector("#place-third .opener").hidden = name === "summary";
  selectTab(THIRD, name, isFocused);
}

// Brings a text into sight, and goes to one of its lines.
function go(name, line) {
  const there = Object.keys(VIEWS).find((view) => VIEWS[view].includes(name));
  if (there && there !== viewed) view(there);
  show(name);
  texts[name].go(line);
}

// Takes other texts, with how a description is read.
function put(given) {
  for (const option of Object.keys(READINGS)) choose(option, given[option]);
  for (const name of FILES) texts[name].text = given[name] ?? "";
  imported = null;
  summed = null;
}

// What follows from another table at once: the labels that may be chosen, no claim is marked any more, and, after a pause, the list.
const pauses = {};
function takeTable() {
  offerLabels();
  texts.claims.unmark();
  later("list", () => listObjects(asked, allTexts()));
}

// What follows from another description, after a pause: table, policy and summary.
function takeDescription() {
  find("design").hidden = texts.description.text === "";
  if (texts.description.text !== "") later("import", () => ask(IMPORT));
}

// What follows from other claims, after a pause, if they were asked about before: which hold.
function takeClaimed() {
  if (last === CLAIMS && texts.claims.text !== "") later("claims", () => ask(CLAIMS));
}

function later(what, act) {
  clearTimeout(pauses[what]);
  pauses[what] = setTimeout(act, PAUSE);
}

// The texts of an example; a line feed that isn't theirs stands before each.
function example(name) {
  const parts = [...document.querySelectorAll(`.example[data-system="${name}"]`)];
  return Object.fromEntries(parts.map((part) => [part.dataset.file, part.textContent.slice(1)]));
}

function chooseExample() {
  const name = find("example").value;
  if (!name) return;
  chosenExample = example(name);
  put(chosenExample);
  find("about").textContent = document.querySelector(`.about[data-system="${name}"]`).textContent.trim();
  find("link").hidden = true;
  history.replaceState(null, "", location.pathname + location.search);
  begin();
}

// Says that the texts aren't those of an example.
function takeOwn(words) {
  chosenExample = null;
  find("example").value = "";
  find("about").textContent = words;
}

// Empties what is still the example's, such as its claims, once the table is of another system: it lacks most labels of the example.
function leaveExample(table) {
  if (!chosenExample) return;
  const labels = new Set(labelsOf(table)), before = labelsOf(chosenExample.table);
  if (before.filter((label) => labels.has(label)).length * 2 > before.length) return;
  for (const name of THIRD.slice(1)) if (texts[name].text === (chosenExample[name] ?? "")) texts[name].text = "";
  takeOwn("");
}

// Asks what is asked first of other texts: of a table without a policy, the summary.
function begin(wanted) {
  const isDescribed = texts.description.text !== "" && wanted !== "system";
  view(isDescribed ? "description" : "system");
  show("summary");
  return ask(isDescribed ? IMPORT : texts.policy.text === "" ? SUMMARY : CHECK);
}

function offerExamples() {
  const names = [...document.querySelectorAll(".about")].map((part) => part.dataset.system);
  find("example").append(...names.map((name) => element("option", { value: name }, name)));
  find("example").append(element("option", { value: "", hidden: "" }, "your own"));
  find("example").value = FIRST;
  find("example").addEventListener("change", chooseExample);
}

// The labels that `why` may be asked about.
function offerLabels() {
  const labels = labelsOf(texts.table.text);
  ["A", "B"].forEach((which, at) => {
    const select = find(`label-${which}`);
    const chosen = labels.includes(select.value) ? select.value : labels[Math.min(at, labels.length - 1)];
    select.replaceChildren(...labels.map((label) => element("option", {}, label)));
    if (chosen !== undefined) select.value = chosen;
  });
}

// ---- Commands.

function offerCommands() {
  for (const { title, commands } of GROUPS) {
    const group = element("div", { class: "group" }, element("h2", {}, title));
    for (const command of commands) {
      const words = [command.name, command.option, command.pair && "A B"].filter(Boolean).join(" ");
      command.button = element("button", { "data-command": words }, element("code", {}, words), element("span", {}, command.asks));
      command.button.addEventListener("click", () => ask(command));
      if (command === WHY) group.append(offerPair());
      group.append(command.button);
    }
    find("commands").append(group);
  }
}

// The labels A and B, to be chosen.
function offerPair() {
  const choices = ["A", "B"].map((which) => element("select", { id: `label-${which}`, "aria-label": `label ${which}` }));
  return element("div", { class: "pair" }, "A:", choices[0], "B:", choices[1]);
}

// The words of the command line. `close` takes a table alone, too, and `diff` the table of the example before it.
function wordsFor(command, given) {
  const words = [command.name, ...(command === DIFF ? ["example"] : []), ...command.reads];
  if (command.name === "close" && given.policy === "") words.pop();
  if (command.pair) words.push(find("label-A").value, find("label-B").value);
  if (command.name === "import") for (const option of Object.keys(READINGS)) words.push(`--${option}`, chosen(option));
  if (command.option) words.push(command.option);
  if (find("explain").checked) words.push("--explain");
  return words;
}

// What is told where there is no answer, as in a browser that can't run the program.
const failed = (error) => ({ status: null, output: new Uint8Array(), error: new TextEncoder().encode(`${error}\n`) });

// Asks a command, in place of what is still being asked. Where no claims are written yet, it is asked which hold at all. Behind `import`
// the policy and the summary are asked, too. Gives the answer, unless it was stopped.
async function ask(command) {
  last = command;
  if (command === CLAIMS && texts.claims.text === "") command = STRONGEST;
  if (program.waiting.size > 0) program.stop();
  for (const pause of Object.values(pauses)) clearTimeout(pause);
  const turn = ++asked;
  document.body.dataset.asked = turn;
  for (const { button } of COMMANDS) button.removeAttribute("aria-current");
  command.button.setAttribute("aria-current", "true");
  for (const name of [...command.reads, command.shows]) show(name);
  let given = allTexts();
  if (command === DIFF) given.example = chosenExample?.table ?? given.table;
  const words = wordsFor(command, given);
  const lines = [words];
  const clock = startClock();
  const began = performance.now();
  let answer = await program.answer(words, given).catch(failed);
  if (turn === asked && command === IMPORT && answer) {
    showNotes(given, answer);
    if (answer.status === 0) [command, answer] = [SUMMARY, await followImport(turn, answer, lines)];
    given = allTexts();
  }
  const took = performance.now() - began;
  clock.stop();
  if (turn !== asked) return null;
  find("answer").hidden = false;
  find("line").textContent = lines.map((words) => `confine ${words.join(" ")}`).join("\n");
  if (!answer) {
    showStopped();
    return null;
  }
  const output = decoded(answer.output);
  const report = reportOf(output);
  showAnswer(command, given, answer, output, report, took);
  const pair = words.slice(1 + command.reads.length);
  if (command === WHY) showReason(given, pair, answer, output);
  await offerMissing(turn, given, answer, report);
  await markClaims(turn, given, command === CLAIMS ? report : null);
  if (command !== IMPORT) await showSystem(turn, given, command, answer);
  await listObjects(turn, allTexts());
  if (command === WHY) await showThrough(turn, given, pair);
  await showFlow(turn, given, command, pair, output);
  if (turn !== asked) return null;
  document.body.dataset.answered = turn;
  return answer;
}

// ---- The answer.

function showStopped() {
  find("words").textContent = "stopped";
  find("words").className = "faulty";
  for (const id of ["status", "sentences", "output"]) find(id).textContent = "";
  for (const id of ["missing", "claimed", "flowing", "whole", "keeping"]) find(id).hidden = true;
}

function showAnswer(command, given, answer, output, report, took) {
  const [words, look] = inWords(command, answer, report);
  find("words").textContent = words;
  find("words").className = look;
  find("status").textContent = answer.status === null ? "" : `status ${answer.status}, ${Math.ceil(took)} ms`;
  const sentences = decoded(answer.error).split("\n").filter((line) => line !== "").slice(0, MOST_MISSING);
  find("sentences").replaceChildren(...sentences.map((line) => element("p", {}, ...withPlaces(line))));
  const lines = output.split("\n");
  const isLong = lines.length > MOST_SHOWN;
  find("output").classList.toggle("unwrapped", command === SUMMARY || command.name === "flows");
  find("whole").hidden = output === "";
  find("whole").classList.toggle("folded", DRAWN.includes(command) && answer.status === 0);
  find("whole").open = !find("whole").classList.contains("folded");
  find("output").textContent = isLong ? `${lines.slice(0, MOST_SHOWN).join("\n")}\n.. ${lines.length - 1} lines in all` : output;
  for (const name of FILES.filter((name) => name !== "description")) texts[name].unmark();
  const named = namedLine(report, given);
  if (named && texts[named.file]) {
    show(named.file);
    texts[named.file].markLine(named.line);
    const button = element("button", { id: "go" }, `Go to line ${named.line} of the ${named.file}`);
    button.addEventListener("click", () => go(named.file, named.line));
    find("sentences").append(element("p", {}, button));
  }
  offerKeeping(command, answer, output);
}

// A sentence, in which each line of a text that it names can be chosen.
function withPlaces(sentence) {
  return sentence.split(/\b((?:table|policy|claims|script|log|certificate|description):\d+)\b/).map((part, at) => {
    if (at % 2 === 0) return part;
    const [file, line] = part.split(":");
    const button = element("button", { class: "place", title: `Go to line ${line} of the ${file}` }, part);
    button.addEventListener("click", () => go(file, Number(line)));
    return button;
  });
}

// Lets an answer become one of the texts.
function offerKeeping(command, answer, output) {
  find("keeping").hidden = !command.gives || answer.status !== 0 || output === texts[command.gives].text;
  if (find("keeping").hidden) return;
  const button = element("button", {}, `Keep this as the ${command.gives}`);
  button.addEventListener("click", () => {
    texts[command.gives].text = output;
    show(command.gives);
    find("keeping").hidden = true;
  });
  find("keeping").replaceChildren(button);
}

// Offers the edges that a policy lacks, where a denial or `close --missing` tells of it, each to be put in its place.
async function offerMissing(turn, given, answer, report) {
  const isAsked = report?.rule && report.rule !== "C1" && !report.place.some((name) => name.startsWith("#"));
  const isTold = last.name === "close" && last.option === "--missing" && answer.status === 1;
  const told = isAsked || isTold ? await program.answer(["close", "table", "policy", "--missing", "--explain"], given) : null;
  if (turn !== asked) return;
  const edges = told?.status === 1 ? decoded(told.output).trimEnd().split("\n") : [];
  find("missing").hidden = edges.length === 0;
  if (edges.length === 0) return;
  const reasons = new Map(decoded(told.error).split("\n").map((line) => line.split(": ")).map((parts) => [parts.at(-1), parts.at(-2)]));
  const sentence = decoded(answer.error);
  const named = edges.filter((edge) => sentence.includes(`\`${edge}\``));
  const ordered = [...named, ...edges.filter((edge) => !named.includes(edge))];
  const offer = (edge) => {
    const button = element("button", { class: "edge" }, "Put it in");
    button.addEventListener("click", () => putIn(edge));
    const reason = element("span", { class: "small" }, `for ${reasons.get(edge) ?? "the policy"}`);
    return element("li", {}, button, element("code", {}, edge), reason);
  };
  const count = edges.length === 1 ? "1 edge" : `${edges.length} edges`;
  const words = `Your policy lacks ${count} of the least policy for this table. Read each edge before you put it in. If you don't mean an
    edge, change the table instead. `;
  const all = element("button", { id: "all", ...(edges.length === 1 && { hidden: "" }) }, `Put all ${edges.length} in`);
  all.addEventListener("click", putAllIn);
  find("missing").replaceChildren(element("p", {}, words, all), element("ul", {}, ...ordered.slice(0, MOST_MISSING).map(offer)));
}

function putIn(edge) {
  const { text, line } = withEdge(texts.table.text, texts.policy.text, edge);
  replacePolicy(text, line);
}

async function putAllIn() {
  const closed = await program.answer(["close", "table", "policy"], allTexts());
  if (closed?.status === 0) replacePolicy(decoded(closed.output), 0);
}

// Takes another policy, marks one of its lines, and asks again.
async function replacePolicy(text, line) {
  texts.policy.text = text;
  last.button.focus();
  await ask(last);
  if (line && texts.policy.marked === 0) texts.policy.markLine(line);
}

// ---- The objects beside the script, by the numbers that it has to name.

async function listObjects(turn, given) {
  const answer = await program.answer(["list", "table"], given).catch(failed);
  if (turn !== asked || !answer) return;
  const list = decoded(answer.output);
  const rows = answer.status === 0 && list !== "" ? inColumns(list).join("\n") : "";
  const title = answer.status !== 0 ? "The table has a fault." : rows ? "The table's objects by number" : "The table has no objects.";
  find("objects-listed").replaceChildren(element("p", { class: "small" }, title), element("pre", {}, rows));
}

// ---- A link that holds the texts, in the part behind #.

async function share() {
  tellOfHand();
  const isKept = find("kept-by-hand").hidden;
  const readings = Object.fromEntries(Object.keys(READINGS).map((option) => [option, chosen(option)]));
  const whole = { ...allTexts(), ...readings, view: isKept ? viewed : "system" };
  const bytes = await packed(new TextEncoder().encode(JSON.stringify(whole)), "deflate-raw");
  let letters = "";
  for (const byte of bytes) letters += String.fromCharCode(byte);
  location.hash = btoa(letters).replaceAll("+", "-").replaceAll("/", "_").replaceAll("=", "");
  find("link").value = location.href;
  find("link").hidden = false;
  find("link").focus();
  find("link").select();
  navigator.clipboard?.writeText(location.href).catch(() => {}); // the link stands there to be copied, too
}

// Takes the texts from the link; tells whether there were some.
async function readLink() {
  try {
    const letters = location.hash.slice(1).replaceAll("-", "+").replaceAll("_", "/");
    if (letters === "") return false;
    const given = JSON.parse(decoded(await unpacked(bytesOf(letters), "deflate-raw")));
    put(given);
    takeOwn("the texts of the link");
    await begin(given.view);
    return true;
  } catch {
    return false;
  }
}

// Shows the answers that are stored in the page for its first example, until the program has answered, unless there is a link to read.
function showStored() {
  const isFirst = location.hash === "";
  showSummary(isFirst ? summaryOf(find("stored").textContent.trimStart()) : null, "");
  const graph = find("stored-graph").textContent.trimStart();
  showGraph(isFirst ? graphOf(graph) : null, graph, "");
}

// ---- What is done at once.

offerExamples();
offerCommands();
layOut();
showStored();
texts.table.changed = takeTable;
texts.description.changed = takeDescription;
texts.claims.changed = takeClaimed;
find("pictured-programs").addEventListener("click", () => drawOf(DRAW));
find("pictured-labels").addEventListener("click", () => drawOf(DRAW_ALL));
find("explain").addEventListener("change", () => ask(last));
find("stop").addEventListener("click", () => program.stop());
find("share").addEventListener("click", share);
find("copy").addEventListener("click", copyGraph);
addEventListener("hashchange", () => find("link").value !== location.href && readLink());
addEventListener("keydown", (event) => {
  if (event.key === "Enter" && (event.ctrlKey || event.metaKey)) ask(last);
});
// For the console: confine(["check", "table", "policy"], { table: "..", policy: ".." })
globalThis.confine = (words, files) => program.answer(words, files);
readLink().then((isRead) => isRead || chooseExample());
