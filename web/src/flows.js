"use strict";

// What flows from one program to another, and through whom: the sentence beneath a reason, and a drawing of it. The sets of programs, the
// chain, and what flows directly are those that `flows` writes.

const FLOW_HIGH = 30, FLOW_APART = 10; // a box, and what is between two of them
const FLOW_GAP = 74, FLOW_SIDE = 12, FLOW_CAPTION = 18; // an arrow, and what the frame has at its sides and at its top

// Shows with the reason through which programs what A does flows to B, and lets that become a claim. It is asked last: it may take long.
async function showThrough(turn, given, pair) {
  const [one, other] = pair;
  const told = one === other ? null : await program.answer(["flows", "table", one, other], given).catch(failed);
  if (turn !== asked || told?.status !== 0) return;
  const flow = flowOf(decoded(told.output));
  const next = find("reason").querySelector(".next");
  next.before(flowSentence(pair, flow));
  if (!flow.isThere) next.append(offerClaim(`apart ${one} ${other}`));
  if (flow.sets.length > 0) next.append(offerClaim(`through ${one} ${other} ${flow.sets[0].join(" ")}`));
  const drawing = await flowDrawing(given, pair, flow);
  if (turn === asked && drawing) find("reason").append(drawing);
}

// Draws the answer of `flows` to two labels beside it.
async function showFlow(turn, given, command, pair, output) {
  const isAsked = command === FLOWS && /^(through|more than 5|direct)/.test(output);
  const drawing = isAsked ? await flowDrawing(given, pair, flowOf(output)) : null;
  if (turn !== asked) return;
  find("flowing").hidden = !drawing;
  if (drawing) find("flowing").replaceChildren(drawing);
}

function flowSentence(pair, { isThere, isLarge, sets }) {
  const ways = sets.flatMap((set, at) => [at === 0 ? " only through " : ", or through ", element("code", {}, set.join(", "))]);
  const words = sets.length > 0 ? ways : [!isThere ? "" : isLarge ? " through more than 5 programs" : " directly"];
  const [from, to] = pair.map((label) => element("code", {}, label));
  return element("p", { class: "through" }, isThere ? "What " : "Nothing that ", from, " does flows to ", to, ...words, ".");
}

// The drawing of a flow between two labels, with a shortest chain and what the lines mean; or null where nothing flows.
async function flowDrawing(given, [one, other], flow) {
  if (!flow.isThere || one === other) return null;
  const cells = flow.sets.length > 0 ? await flowCells(given) : null;
  const isKnown = cells !== null && [one, other].every((label) => cells(label, label) === "="); // both are programs
  const drawing = flowPicture(one, other, flow, (from, to) => !isKnown || cells(from, to) === "d");
  const words = flow.links.length > 0 ? [`Shortest: ${chainOf(flow.links).join(" \u2192 ")}.`] : [];
  if (flow.sets.length > 1) words.push("Take any line of the frame, and the boxes above it: all that flows goes through these programs.");
  if (flow.isMore) words.push("There are more groups of this size.");
  if (flow.sets.length > 0 && !isKnown) words.push("The lines don't say what flows directly.");
  if (isKnown && drawing.querySelector(".dash")) words.push("Solid: directly. Dashed: through other programs.");
  return element("div", { class: "flow" }, drawing, element("p", { class: "small" }, words.join(" ")));
}

// The labels of a shortest chain, each once.
const chainOf = (links) => [...new Set(links.flat())];

// The cells of the matrix that `flows` writes of all programs, unless there are too many of them; kept until the table is another one.
let flowsKept = { table: null, cells: null };
async function flowCells(given) {
  if (flowsKept.table === given.table) return flowsKept.cells;
  if (!summed || summed.labels.length > MOST_PROGRAMS) return null;
  const told = await program.answer(["flows", "table"], given).catch(failed);
  if (told?.status !== 0) return null;
  const rows = rowsOf(decoded(told.output).split("\n"));
  const labels = [...rows.keys()];
  flowsKept = { table: given.table, cells: (from, to) => rows.get(from)?.[labels.indexOf(to)] };
  return flowsKept.cells;
}

// The two labels at the sides, and between them what the sets have in common, and in a frame what is left of each, if there are several.
function flowPicture(one, other, { sets, links, isLarge }, isDirect) {
  const groups = groupsOf(sets);
  const wideOf = (text) => 8 * text.length + 24;
  const [left, right] = [one, other].map(wideOf);
  const within = Math.max(70 - 2 * FLOW_SIDE, ...groups.map(({ programs }) => wideOf(programs.join(" + "))));
  const from = left + 2, column = from + FLOW_GAP, to = column + within + 2 * FLOW_SIDE + FLOW_GAP;
  const rows = placedGroups(groups);
  const height = rows.height + 2 * FLOW_SIDE, middle = height / 2;
  const boxes = [flowBox(2, middle, left, one, "tint-0"), flowBox(to, middle, right, other, "tint-0")];
  if (groups.length === 0) {
    const words = isLarge ? "more than 5 programs" : byWhat(links, one, other);
    boxes.push(arrow(`M${from} ${middle} H${to - 1}`, isLarge ? "dash" : ""));
    boxes.push(textAt((from + to) / 2, middle - 8, words, "words", "middle"));
  }
  const start = column + FLOW_SIDE, end = start + within;
  const ways = groups.flatMap(({ programs, isChoice, y }) => [
    flowBox(start, y, within, programs.join(" + "), isChoice ? "tint-5" : "tint-1"),
    flowArrow([from, middle], [start, y], programs.every((program) => isDirect(one, program))),
    flowArrow([end, y], [to, middle], programs.every((program) => isDirect(program, other))),
  ]);
  const frame = rows.frame ? flowFrame(column, within + 2 * FLOW_SIDE, rows.frame) : [];
  return picture(`What ${one} does flows to ${other}`, to + right + 2, height, ...frame, ...boxes, ...ways);
}

// Gives each group the middle of its place from top to bottom. Gives the height of all, and where the frame of those to choose from begins
// and ends, if there are some, and what stands at its top.
function placedGroups(groups) {
  let y = FLOW_SIDE, frame = null;
  for (const group of groups) {
    if (group.isChoice && !frame) {
      frame = { top: y, caption: group === groups[0] ? "any one of" : "and any one of" };
      y += FLOW_CAPTION;
    }
    group.y = y + (FLOW_HIGH + FLOW_APART) / 2;
    y += FLOW_HIGH + FLOW_APART;
    if (frame) frame.end = y + 4;
  }
  return { height: Math.max(FLOW_HIGH + FLOW_APART, y - FLOW_SIDE), frame };
}

const flowFrame = (x, wide, { top, end, caption }) => [
  boxAt(x, top, wide, end - top, "frame", 6), textAt(x + wide / 2, top + 15, caption, "small", "middle"),
];

// The programs of all sets, each alone, and then what is left of each set.
function groupsOf(sets) {
  if (sets.length === 0) return [];
  const common = sets[0].filter((program) => sets.every((set) => set.includes(program)));
  const left = sets.map((set) => set.filter((program) => !common.includes(program))).filter((set) => set.length > 0);
  const alone = common.map((program) => ({ programs: [program], isChoice: false }));
  return [...alone, ...left.map((programs) => ({ programs, isChoice: true }))];
}

// By what a direct flow goes, unless it is by an object of one of the two.
const byWhat = ([link], one, other) => (!link || link[1] === one || link[1] === other ? "" : `by ${link[1]}`);

const flowBox = (x, middle, wide, text, kind) => drawn("g", {},
  boxAt(x, middle - FLOW_HIGH / 2, wide, FLOW_HIGH, `label ${kind}`, 8), textAt(x + wide / 2, middle + 5, text, "name", "middle"));

function flowArrow([x1, y1], [x2, y2], isDirect) {
  const bend = (x2 - x1) / 2;
  return arrow(`M${x1} ${y1} C${x1 + bend} ${y1} ${x2 - bend} ${y2} ${x2 - 1} ${y2}`, isDirect ? "" : "dash");
}
