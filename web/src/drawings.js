"use strict";

// The drawings, in the manner of docs/pictures: who may change or take from whom, from the graph that `draw` writes, of programs or of all
// labels; and the objects of a small table.

const SVG = "http://www.w3.org/2000/svg";

function drawn(name, attributes = {}, ...children) {
  const made = document.createElementNS(SVG, name);
  for (const [key, value] of Object.entries(attributes)) made.setAttribute(key, value);
  made.append(...children);
  return made;
}

let pictures = 0; // how many there were: each has a head of arrows of its own
function picture(title, width, height, ...parts) {
  pictures++;
  const head = drawn(
    "marker",
    { id: `head-${pictures}`, viewBox: "0 0 8 8", refX: 7, refY: 4, markerWidth: 10, markerHeight: 10,
      markerUnits: "userSpaceOnUse", orient: "auto-start-reverse" },
    drawn("path", { d: "M0 0 L8 4 L0 8 z", class: "head" }),
  );
  const whole = drawn("svg", { viewBox: `0 0 ${width} ${height}`, width, height, role: "img" });
  whole.append(drawn("title", {}, title), drawn("defs", {}, head), ...parts);
  for (const part of whole.querySelectorAll(".arrow")) part.setAttribute("marker-end", `url(#${head.id})`);
  return whole;
}

const textAt = (x, y, text, kind = "", anchor = "start") => drawn("text", { x, y, class: kind, "text-anchor": anchor }, text);
const boxAt = (x, y, width, height, kind, rx = 4) => drawn("rect", { x, y, width, height, rx, class: kind });
const arrow = (d, kind = "") => drawn("path", { d, class: `arrow ${kind}` });
const tint = (number) => `tint-${number % 6}`;

// ---- Who may change or take from whom: the labels in a circle, or more of them in a table. Solid arrows are full authority, dashed ones
// that to take. `ask` is called with two labels, once an arrow or a cell between them is chosen.

const MOST_LABELS = 16, MOST_ARROWS = 4; // labels, and arrows for each of them; more stand in a table
const WIDEST = 900; // a circle; where long names need a wider one, there is a table
const MOST_IN_TABLE = 64;

function drawLabels(graph, ask) {
  return (graph.isFolded && programPicture(withoutTwins(graph), ask)) || labelDrawing(graph, ask);
}

function labelDrawing(graph, ask) {
  const { labels, arrows } = graph;
  const isLarge = labels.length > MOST_LABELS || arrows.length > MOST_ARROWS * labels.length || sizes(labels).width > WIDEST;
  return isLarge ? labelTable(graph, ask) : labelPicture(graph, ask);
}

const HELD = { full: "may change", take: "may take from", memory: "shares memory with" };
const inSentence = ({ from, to, held }) => `${from} ${HELD[held]} ${to}`;
const reasonIn = ({ edge, words }) => edge ?? words?.join(", ");
const asksOf = ({ from, to, first }) => first ?? [from, to]; // of a box that stands for several programs, the first
const withReason = (one) => (reasonIn(one) ? `${inSentence(one)}: ${reasonIn(one)}` : inSentence(one));

// How wide a label's box is, half of the circle, and the picture.
function sizes(labels) {
  const count = labels.length;
  const wide = 26 + 8 * Math.max(...labels.map((label) => label.length));
  const across = Math.max(count < 3 ? 200 - wide / 2 : 150, (count * wide) / 6);
  return { wide, across, width: 2 * across + wide + 20 };
}

function labelPicture({ labels, arrows }, ask) {
  const count = labels.length;
  const { wide, across, width } = sizes(labels);
  const height = count === 1 ? 80 : count === 2 ? 130 : 320 + 30 * Math.max(0, count - 8);
  const middle = [width / 2, height / 2];
  const places = new Map(labels.map((label, at) => [label, placeOf(at, count, middle, across)]));
  const lines = waysBetween(arrows, places, middle, [wide / 2 + 4, 20]).map((way, at) => asButton(arrows[at], way, ask));
  const boxes = labels.flatMap((label, at) => {
    const [x, y] = places.get(label);
    return [boxAt(x - wide / 2, y - 16, wide, 32, `label ${tint(at)}`, 8), textAt(x, y + 4, label, "name bold", "middle")];
  });
  return picture("Which labels may change or take from which", width, height, ...lines, ...boxes);
}

// Where a label stands: two side by side, and more in a circle, from its top on.
function placeOf(at, count, [x, y], across) {
  if (count === 1) return [x, y];
  const turn = Math.PI * ((2 * at) / count - (count === 2 ? 1 : 0.5));
  return [x + across * Math.cos(turn), y + (y - 30) * Math.sin(turn)];
}

const STROKES = { full: "", take: "dash", memory: "dots" };

// An arrow that can be chosen by mouse and keys; its line is thin, so that what is chosen is broader, and may lie beside it.
function asButton(one, way, ask, broad = way) {
  const whole = drawn("g", { class: "way", tabindex: 0, role: "button", "aria-label": `${withReason(one)}. Why?` });
  whole.append(drawn("title", {}, withReason(one)), drawn("path", { d: broad, class: "broad" }));
  whole.append(arrow(way, `${STROKES[one.held]} ${reasonsOf(one).length > 1 ? "strong" : ""}`));
  whole.addEventListener("click", () => ask(...asksOf(one)));
  whole.addEventListener("keydown", (event) => {
    if (event.ctrlKey || event.metaKey || (event.key !== "Enter" && event.key !== " ")) return;
    event.preventDefault();
    ask(...asksOf(one));
  });
  return whole;
}

// By what an arrow of a folded graph is, besides memory.
const reasonsOf = ({ words }) => words?.filter((word) => !word.includes(" ")) ?? [];

// The arrows' lines: each is bent to the middle, so that it passes by the boxes between the two, and runs a little to the right of the way,
// so that the way back has room. Where several meet at a box, they are put apart. `half` is half of a box's width and height.
function waysBetween(arrows, places, middle, half) {
  const ends = [];
  const bends = arrows.map(({ from, to }, at) => {
    const [[x1, y1], [x2, y2]] = [places.get(from), places.get(to)];
    const far = Math.hypot(x2 - x1, y2 - y1) / 7;
    const aside = [(y1 - y2) / far, (x2 - x1) / far];
    const bend = [((x1 + x2) / 2 + middle[0]) / 2, ((y1 + y2) / 2 + middle[1]) / 2];
    for (const label of [from, to]) ends.push({ at, label, place: leaving(places.get(label), aside, bend, half) });
    return [bend[0] + aside[0], bend[1] + aside[1]];
  });
  for (const label of places.keys()) putApart(ends.filter((end) => end.label === label), 4 * (half[0] + half[1]));
  const pointOf = ({ label, place }) => onEdge(place, half).map((part, axis) => part + places.get(label)[axis]);
  return bends.map((bend, at) => {
    const [first, by, last] = [pointOf(ends[2 * at]), bend, pointOf(ends[2 * at + 1])].map((point) => point.map(Math.round).join(" "));
    return `M${first} Q${by} ${last}`;
  });
}

// Where a line leaves a box, as the way round the box's edge to there; the line runs beside the one from the box's middle to a place.
function leaving(middle, aside, to, [wide, high]) {
  const way = [to[0] - middle[0], to[1] - middle[1]];
  const part = [wide, high].map((half, axis) =>
    Math.abs(way[axis]) < 1e-6 ? Infinity : (Math.sign(way[axis]) * half - aside[axis]) / way[axis],
  );
  const [x, y] = [0, 1].map((axis) => aside[axis] + way[axis] * Math.min(...part));
  if (part[1] <= part[0]) return way[1] < 0 ? wide + x : 3 * wide + 2 * high - x;
  return way[0] > 0 ? 2 * wide + high + y : 4 * wide + 3 * high - y;
}

// The point at this part of the way round a box's edge, from its left upper corner on, as seen from its middle.
function onEdge(place, [wide, high]) {
  const whole = 4 * (wide + high);
  let rest = ((place % whole) + whole) % whole;
  if (rest < 2 * wide) return [rest - wide, -high];
  rest -= 2 * wide;
  if (rest < 2 * high) return [wide, rest - high];
  rest -= 2 * high;
  return rest < 2 * wide ? [wide - rest, high] : [-wide, high - (rest - 2 * wide)];
}

// Moves the ends at a box along its edge, `whole` long, until no two are nearer than an arrow's head needs.
function putApart(ends, whole) {
  const least = Math.min(13, whole / ends.length);
  ends.sort((one, other) => one.place - other.place);
  for (let round = 0; round < 40; round++) {
    ends.forEach((one, at) => {
      if (ends.length < 2) return;
      const next = ends[(at + 1) % ends.length];
      const between = next.place - one.place + (at + 1 === ends.length ? whole : 0);
      const lacks = (least - between) / 2;
      if (lacks <= 0) return;
      one.place -= lacks;
      next.place += lacks;
    });
  }
}

// What a cell says: in a folded graph, by what.
const inCell = (one) => (one.held === "memory" ? "" : reasonsOf(one).join(", ")) || one.held;

function labelTable({ labels, arrows }, ask) {
  const held = new Map(arrows.map((one) => [`${one.from} ${one.to}`, one]));
  const cell = (one) => {
    if (!one) return element("td");
    const button = element("button", { title: withReason(one) }, inCell(one));
    button.addEventListener("click", () => ask(one.from, one.to));
    return element("td", { class: one.held }, button);
  };
  const head = element("tr", {}, element("td"), ...labels.map((label) => element("th", { scope: "col" }, element("span", {}, label))));
  const rows = labels.map((one) =>
    element("tr", {}, element("th", { scope: "row" }, one), ...labels.map((other) => cell(held.get(`${one} ${other}`)))),
  );
  return element("div", { class: "wide", tabindex: "0" }, element("table", {}, head, ...rows));
}

// ---- Programs, as boxes in columns: each is as far from the left as it takes arrows to come there. So an arrow leads to the next column,
// or to another program of its own. Between two programs are a line for each way, and the words of both in the middle.

const MOST_PROGRAMS = 24;
const WIDE = 1330, HIGH = 640; // what a screen of 1,400 pixels has room for
const LEAST_GAP = 96, MOST_GAP = 300; // between two columns
const WORDS_HIGH = 13, LETTER = 5.9; // of the words at arrows
const NAME_HIGH = 16; // of a program's name
const APART = 22; // between two boxes of a column
const END = 15; // between the ends of two lines at a box

// Draws programs, with what a screen has room for at the arrows: all words, or the letters of the summary, or those of the largest arrows
// alone. If there are too many arrows even so, only the largest are drawn. Or gives null, if there are too many programs.
function programPicture(graph, ask) {
  if (graph.labels.length > MOST_PROGRAMS) return null;
  const inOrder = { ...graph, arrows: graph.arrows.toSorted((one, other) => sizeOf(other) - sizeOf(one)) };
  const whole = ["words", "letters", "some"].reduce((drawing, told) => drawing ?? pictureOfParts(inOrder, told, ask), null);
  return whole ?? largestPicture(inOrder, ask);
}

// Draws as many of the largest arrows as there is room for, and says how many are left out.
function largestPicture(graph, ask) {
  const sizes = [...new Set(graph.arrows.map(sizeOf))].toReversed();
  for (const least of sizes.slice(1)) {
    const arrows = graph.arrows.filter((one) => sizeOf(one) >= least);
    const drawing = pictureOfParts({ ...graph, arrows }, "letters", ask);
    const words = wordsOnLeft(graph.arrows.length - arrows.length);
    if (drawing) return element("div", {}, drawing, element("p", { class: "small left" }, words));
  }
  return null;
}

const wordsOnLeft = (count) => (count === 1 ? "1 smaller arrow is left out. The matrix has it." :
  `${count} smaller arrows are left out. The matrix has them.`);

// How much an arrow is: authority to change is more than that to take, and that more than memory; then it is by how many reasons.
const sizeOf = (one) => 100 * ["memory", "take", "full"].indexOf(one.held) + 10 * reasonsOf(one).length + one.words.length;

// Programs with the same neighbours, and the same arrows to and from each, become one box with all their names. Few programs stay as they
// are.
const MOST_ALONE = 8;

function withoutTwins({ labels, arrows, within, isFolded }) {
  if (labels.length <= MOST_ALONE) return { labels, arrows, within, isFolded };
  const alike = Object.values(Object.groupBy(labels, (label) => `${arrows.flatMap((one) => atEnd(one, label)).sort()}`));
  const names = new Map(alike.flatMap((group) => group.map((label) => [label, group.join(", ")])));
  const folded = new Map();
  for (const one of arrows) {
    const [from, to] = [names.get(one.from), names.get(one.to)];
    const before = folded.get(`${from} > ${to}`);
    const words = before ? sharedWords(before, one) : one.words;
    folded.set(`${from} > ${to}`, { ...one, from, to, words, first: before?.first ?? asksOf(one) });
  }
  const withinAll = (group) => group.map((label) => within.get(label)).filter(Boolean).join(", ");
  const inside = new Map(alike.map((group) => [group.join(", "), withinAll(group)]));
  return { labels: [...new Set(names.values())], arrows: [...folded.values()], within: inside, isFolded };
}

// What an arrow is at one of its ends, besides the memory that it names.
function atEnd(one, label) {
  const what = `${one.held} ${reasonsOf(one)} ${one.words.length}`;
  return [...(one.from === label ? [`to ${one.to} ${what}`] : []), ...(one.to === label ? [`from ${one.from} ${what}`] : [])];
}

// The words of two arrows that became one: of memory, only what happens to it, if they name other memory.
function sharedWords(one, other) {
  if (`${one.words}` === `${other.words}`) return one.words;
  return [...reasonsOf(one), ...new Set(memoryWords(one).map((word) => `${word.split(" ")[0]} memory`))];
}

const memoryWords = ({ words }) => words.filter((word) => word.includes(" "));

function pictureOfParts(graph, told, ask) {
  if (graph.arrows.length > MOST_ARROWS * graph.labels.length) return null;
  const parts = partsOf(graph).map((labels) => placedPart(graph, labels, told));
  const rows = [];
  for (const part of parts) {
    const row = rows.at(-1);
    if (row && row.width + part.width <= WIDE) {
      row.parts.push(part);
      row.width += part.width;
    } else {
      rows.push({ parts: [part], width: part.width });
    }
  }
  let top = 8;
  const drawnParts = [];
  for (const row of rows) {
    let left = 0;
    for (const part of row.parts) {
      const moved = drawn("g", { transform: `translate(${left} ${top - part.top})` }, ...drawnPart(part, ask));
      drawnParts.push(moved);
      left += part.width;
    }
    top += Math.max(...row.parts.map(({ height }) => height)) + 8;
  }
  if (top > HIGH) return null;
  return picture("Which programs may change or take from which", Math.max(...rows.map(({ width }) => width)), top, ...drawnParts);
}

// The programs that arrows join, the largest part first.
function partsOf({ labels, arrows }) {
  const parts = new Map(labels.map((label) => [label, [label]]));
  for (const { from, to } of arrows) {
    const [one, other] = [parts.get(from), parts.get(to)];
    if (one === other) continue;
    one.push(...other);
    for (const label of other) parts.set(label, one);
  }
  const inOrder = [...new Set(parts.values())].map((part) => labels.filter((label) => part.includes(label)));
  return inOrder.sort((one, other) => other.length - one.length);
}

// Programs in columns, with the place of each box, and the lines between them. Of all programs that can stand alone at the left, it is the
// one with which fewest lines cross.
function placedPart(graph, labels, told) {
  const arrows = graph.arrows.filter(({ from }) => labels.includes(from));
  const near = new Map(labels.map((label) => [label, new Set()]));
  for (const { from, to } of arrows) {
    near.get(from).add(to);
    near.get(to).add(from);
  }
  const boxes = new Map(labels.map((label) => [label, boxOf(label, graph.within.get(label))]));
  const tries = labels.map((first) => columnsFrom(first, near)).map((columns) => ({ columns, cost: costOf(columns, near, boxes) }));
  const { columns } = tries.reduce((best, one) => (one.cost < best.cost ? one : best));
  const wides = columns.map((column) => Math.max(...column.map((label) => boxes.get(label).wide)));
  const gap = Math.max(LEAST_GAP, Math.min(MOST_GAP, (WIDE - 20 - sum(wides)) / Math.max(1, columns.length - 1)));
  const pairs = pairsOf(columns, arrows, gap, told);
  for (const box of boxes.values()) {
    const ends = pairs.flatMap(endsOf).filter(({ label }) => label === box.label);
    const most = Math.max(...[1, -1].map((side) => ends.filter((end) => end.side === side).length));
    box.high = Math.max(box.high, 10 + END * most); // room for the ends of its lines
  }
  const height = placeBoxes(columns, near, boxes, pairs);
  let left = 10;
  columns.forEach((column, at) => {
    for (const label of column) Object.assign(boxes.get(label), { column: at, middle: left + wides[at] / 2 });
    left += wides[at] + gap;
  });
  const isWider = pairs.some(({ gapAt }) => gapAt === columns.length - 1); // lines beside the last column
  placeLines(pairs, boxes, columns, wides, gap, height, told);
  const things = [...boxes.values(), ...pairs];
  const top = Math.min(...things.map(({ y, high }) => y - high / 2)) - 4;
  const end = Math.max(...things.map(({ y, high }) => y + high / 2)) + 4;
  return { boxes, pairs, labels, width: left - gap + (isWider ? gap : 0) + 10, top, height: end - top };
}

const sum = (numbers) => numbers.reduce((one, other) => one + other, 0);

// A program's box: its name, or those of several programs, and beneath the labels that it alone uses.
function boxOf(label, within) {
  const lines = within ? wrapped(within, 24).slice(0, 4) : [];
  const names = label.split(", ");
  const wide = Math.max(84, ...names.map((name) => 8 * name.length + 20), ...lines.map((line) => LETTER * line.length + 18));
  return { label, names, lines, wide, high: 14 + NAME_HIGH * names.length + WORDS_HIGH * lines.length };
}

// A text in lines of so many letters.
function wrapped(text, most) {
  const lines = [""];
  for (const word of text.split(" ")) {
    const longer = lines.at(-1) === "" ? word : `${lines.at(-1)} ${word}`;
    if (lines.at(-1) === "" || longer.length <= most) lines[lines.length - 1] = longer;
    else lines.push(word);
  }
  return lines;
}

// The programs by how many arrows lead to each from the first; in a column they are in the order of those beside it.
function columnsFrom(first, near) {
  const columns = [[first]];
  const seen = new Set([first]);
  while (columns.at(-1).length > 0) {
    const next = new Set(columns.at(-1).flatMap((label) => [...near.get(label)]).filter((label) => !seen.has(label)));
    next.forEach((label) => seen.add(label));
    columns.push([...next]);
  }
  columns.pop();
  for (let round = 0; round < 8; round++) {
    const order = round % 2 === 0 ? [...columns.keys()] : [...columns.keys()].reverse();
    const placeOf = new Map(columns.flatMap((column) => column.map((label, at) => [label, (at + 0.5) / column.length])));
    for (const at of order) {
      const mean = new Map(columns[at].map((label) => [label, meanOf([...near.get(label)].map((other) => placeOf.get(other)))]));
      columns[at].sort((one, other) => mean.get(one) - mean.get(other));
      columns[at].forEach((label, place) => placeOf.set(label, (place + 0.5) / columns[at].length));
    }
  }
  return columns;
}

const meanOf = (numbers) => (numbers.length === 0 ? 0.5 : sum(numbers) / numbers.length);

// What is against these columns: lines that cross, lines in one column, more width or height than a screen has.
function costOf(columns, near, boxes) {
  let cost = 0;
  columns.forEach((column, at) => {
    const next = columns[at + 1] ?? [];
    const ends = column.flatMap((label, from) => next.flatMap((other, to) => (near.get(label).has(other) ? [[from, to]] : [])));
    for (const one of ends) for (const other of ends) cost += one[0] < other[0] && one[1] > other[1] ? 3 : 0;
    column.forEach((label, from) => column.slice(from + 1).forEach((other, by) => {
      if (near.get(label).has(other)) cost += 8 + 4 * by;
    }));
  });
  const wide = sum(columns.map((column) => Math.max(...column.map((label) => boxes.get(label).wide)))) + LEAST_GAP * (columns.length - 1);
  const high = Math.max(...columns.map((column) => sum(column.map((label) => boxes.get(label).high + APART))));
  return cost + Math.max(0, wide - WIDE) / 10 + Math.max(0, high - 480) / 20 + (columns.length < 3 ? 2 : 0);
}

// The pairs of programs with arrows, from left to right: the arrows of both ways, the gap between columns in which the words stand, and
// these words. What both ways have in common is said once.
function pairsOf(columns, arrows, gap, told) {
  const columnOf = new Map(columns.flatMap((column, at) => column.map((label) => [label, at])));
  const order = columns.flat();
  const pairs = [];
  order.forEach((left, at) => {
    for (const right of order.slice(at + 1)) {
      const there = arrows.find(({ from, to }) => from === left && to === right);
      const back = arrows.find(({ from, to }) => from === right && to === left);
      if (!there && !back) continue;
      const [one, other] = [columnOf.get(left), columnOf.get(right)];
      const most = Math.max(10, Math.floor((gap - 44) / LETTER));
      const [ahead, behind, both] = one === other ? ["\u2193", "\u2191", "\u2195"] : ["\u2192", "\u2190", "\u2194"];
      const ways = [{ arrow: there, sign: ahead }, { arrow: back, sign: behind }].filter(({ arrow }) => arrow);
      if (told === "words") putWords(ways, both, most);
      else putLetters(ways, both);
      pairs.push({ left, right, ways, gapAt: one, isBeside: one === other });
    }
  });
  if (told === "some") for (const gapAt of columns.keys()) keepLargest(pairs.filter((pair) => pair.gapAt === gapAt));
  for (const pair of pairs) pair.high = WORDS_HIGH * sum(pair.ways.map(({ lines }) => lines.length)) + 4;
  return pairs;
}

// Puts words to the ways of a pair.
function putWords(ways, both, most) {
  const [one, other] = ways.map(({ arrow }) => `${arrow.held} ${arrow.words}`);
  ways.forEach((way, at) => {
    way.lines = one !== other ? wayLines(way.arrow, way.sign, most) : at === 0 ? wayLines(way.arrow, both, most) : [];
  });
}

// Puts the letters that the summary has to the ways of a pair, in one line.
function putLetters(ways, both) {
  const [one, other] = ways.map(({ arrow }) => lettersOf(arrow));
  for (const way of ways) way.lines = [];
  ways.at(-1).lines = [one === other ? `${both}${one}` : ways.map(({ arrow, sign }) => `${sign}${lettersOf(arrow)}`).join(" ")];
}

function lettersOf(arrow) {
  const letters = reasonsOf(arrow).map((word) => Object.keys(LETTERS).find((letter) => LETTERS[letter].includes(word)) ?? word);
  return `${letters.join("")}${memoryWords(arrow).length > 0 ? "m" : ""}`;
}

// Leaves in a gap the words of as many arrows as it has room for, the largest first.
function keepLargest(pairs) {
  let room = HIGH - 40;
  for (const pair of pairs.toSorted((one, other) => sizeOf(other.ways[0].arrow) - sizeOf(one.ways[0].arrow))) {
    room -= WORDS_HIGH * sum(pair.ways.map(({ lines }) => lines.length)) + 8;
    if (room < 0) for (const way of pair.ways) way.lines = [];
  }
}

// The words of an arrow in lines: by what, and then what happens to memory.
function wayLines(arrow, sign, most) {
  const reasons = reasonsOf(arrow);
  const memory = memoryWords(arrow);
  const groups = [...(reasons.length > 0 ? [reasons.join(", ")] : []), ...memory];
  return groups.flatMap((group, at) => wrapped(at === 0 ? `${sign} ${group}` : group, most));
}

// Places the boxes from top to bottom, each as near as there is room to the middle of those with which it is joined. Gives the height, in
// which the words of each gap have room, too.
function placeBoxes(columns, near, boxes, pairs) {
  const needs = columns.map((column, at) => {
    const words = sum(pairs.filter(({ gapAt }) => gapAt === at).map(({ high }) => high + 4));
    return Math.max(sum(column.map((label) => boxes.get(label).high + APART)), words);
  });
  const height = Math.max(...needs) + 8;
  for (const column of columns) {
    column.forEach((label, at) => {
      boxes.get(label).y = (height * (at + 0.5)) / column.length;
    });
  }
  for (let round = 0; round < 24; round++) {
    for (const column of columns) {
      for (const label of column) {
        const wanted = meanOf([height / 2, ...[...near.get(label)].map((other) => boxes.get(other).y)]);
        boxes.get(label).y += (wanted - boxes.get(label).y) / 2;
      }
      keepApart(column.map((label) => boxes.get(label)), APART, height);
    }
  }
  return height;
}

// Moves things that stand beneath each other, with a middle `y` and a height, until there is so much between them, within a height. The
// middle of all stays, if there is room.
function keepApart(things, between, height) {
  const middle = meanOf(things.map(({ y }) => y));
  for (let round = 0; round < 30; round++) {
    things.slice(1).forEach((next, at) => {
      const lacks = (things[at].high + next.high) / 2 + between - (next.y - things[at].y);
      if (lacks <= 0) return;
      things[at].y -= lacks / 2;
      next.y += lacks / 2;
    });
  }
  const moved = meanOf(things.map(({ y }) => y)) - middle;
  for (const thing of things) thing.y -= moved;
  let end = 0;
  for (const thing of things) {
    thing.y = Math.max(thing.y, end + thing.high / 2);
    end = thing.y + thing.high / 2 + between;
  }
  end = height;
  for (const thing of things.toReversed()) {
    thing.y = Math.min(thing.y, end - thing.high / 2);
    end = thing.y - thing.high / 2 - between;
  }
}

// Where the lines of a pair leave their boxes: at the right side of the one, and at the left of the other, unless that is in the same
// column.
const endsOf = (pair) => [
  { pair, label: pair.left, side: 1 },
  { pair, label: pair.right, side: pair.isBeside ? 1 : -1 },
];

// Gives each pair the place of its words, and each way its line. Lines leave a box beneath each other.
function placeLines(pairs, boxes, columns, wides, gap, height, told) {
  for (const gapAt of columns.keys()) {
    const here = pairs.filter((pair) => pair.gapAt === gapAt);
    for (const pair of here) pair.y = (boxes.get(pair.left).y + boxes.get(pair.right).y) / 2;
    here.sort((one, other) => one.y - other.y);
    keepApart(here, 4, height);
    const from = boxes.get(columns[gapAt][0]).middle + wides[gapAt] / 2;
    const beside = here.filter(({ isBeside }) => isBeside).sort((one, other) => lengthOf(one, boxes) - lengthOf(other, boxes));
    for (const pair of here) pair.x = from + gap / 2;
    beside.forEach((pair, at) => {
      pair.x = from + (gap * (at + 1)) / (beside.length + 1);
    });
  }
  const ends = pairs.flatMap(endsOf);
  for (const [label, box] of boxes) {
    for (const side of [1, -1]) {
      const here = ends.filter((end) => end.label === label && end.side === side).sort((one, other) => one.pair.y - other.pair.y);
      here.forEach((end, at) => {
        end.point = [box.middle + (side * box.wide) / 2, box.y + END * (at - (here.length - 1) / 2)];
      });
    }
  }
  pairs.forEach((pair, at) => {
    const [start, end] = [ends[2 * at].point, ends[2 * at + 1].point];
    pair.ways.forEach((way) => {
      const isAhead = way.arrow.from === pair.left;
      const lineAt = (aside) => {
        const line = pair.isBeside ? lineBeside(start, end, pair, aside) : lineBetween(start, end, pair, aside);
        return isAhead ? line : line.toReversed();
      };
      const aside = pair.ways.length === 1 ? 0 : isAhead ? -3 : 3;
      way.line = lineAt(told === "words" ? aside : 0); // with letters, the lines of both ways are one
      way.broad = lineAt(2 * aside);
    });
  });
}

const lengthOf = ({ left, right }, boxes) => Math.abs(boxes.get(left).y - boxes.get(right).y);

// The points of a line, for two curves: through the place of its words to the next column, or round to another box of the same column.
function lineBetween([x1, y1], [x2, y2], { x, y }, aside) {
  const [start, middle, end] = [y1 + aside, y + aside, y2 + aside];
  const bend = Math.max(20, (x2 - x1) / 4);
  return [[x1, start], [x1 + bend, start], [x - bend, middle], [x, middle], [x + bend, middle], [x2 - bend, end], [x2, end]];
}

function lineBeside([x1, y1], [x2, y2], { x, y }, aside) {
  const far = x + aside;
  return [[x1, y1 + aside], [far, y1 + aside], [far, y1 + aside], [far, y], [far, y2 + aside], [far, y2 + aside], [x2, y2 + aside]];
}

function curveOf(line) {
  const [first, ...rest] = line.map((point) => point.map((part) => Math.round(part)).join(" "));
  return `M${first} C${rest.slice(0, 3)} ${rest.slice(3)}`;
}

// The lines, then the words over them, which can be chosen by mouse as their line can, and then the boxes.
function drawnPart({ boxes, pairs }, ask) {
  const lines = [], words = [];
  for (const pair of pairs) {
    let y = pair.y - pair.high / 2 + WORDS_HIGH - 1;
    for (const { arrow, line, broad, lines: told } of pair.ways) {
      lines.push(asButton(arrow, curveOf(line), ask, curveOf(broad)));
      if (told.length === 0) continue;
      const wide = LETTER * Math.max(...told.map((one) => one.length)) + 6;
      const said = drawn("g", { class: "said" }, drawn("title", {}, withReason(arrow)));
      said.append(boxAt(pair.x - wide / 2, y - 10, wide, WORDS_HIGH * told.length, "paper", 3));
      said.append(...told.map((one, at) => textAt(pair.x, y + WORDS_HIGH * at, one, "words", "middle")));
      said.addEventListener("click", () => ask(...asksOf(arrow)));
      words.push(said);
      y += WORDS_HIGH * told.length;
    }
  }
  const drawnBoxes = [...boxes.values()].flatMap(({ names, lines, wide, high, middle, y }) => {
    const top = y - (14 + NAME_HIGH * names.length + WORDS_HIGH * lines.length) / 2;
    const below = top + 17 + NAME_HIGH * names.length;
    return [
      boxAt(middle - wide / 2, y - high / 2, wide, high, "label tint-0", 8),
      ...names.map((name, at) => textAt(middle, top + 19 + NAME_HIGH * at, name, "name bold", "middle")),
      ...lines.map((line, at) => textAt(middle, below + WORDS_HIGH * at, line, "small", "middle")),
    ];
  });
  return [...lines, ...words, ...drawnBoxes];
}

// ---- The matrix that `summary` writes: a cell for each two programs. Arrow keys lead from cell to cell. `before` is the matrix that was
// there, of which other cells are outlined.

function matrix(summary, before, ask) {
  const was = (one, other) => before?.rows[before.labels.indexOf(one)]?.[before.labels.indexOf(other)];
  const cell = (one, at, down) => {
    const other = summary.labels[at], said = summary.rows[down][at];
    if (said === "=") return element("td", { class: "self" });
    const old = was(one, other);
    const isChanged = old !== undefined && old !== said;
    const kind = /[CASF]/.test(said) ? "full" : said.includes("t") ? "take" : said.includes("m") ? "memory" : "none";
    const words = `${one} on ${other}: ${cellInWords(said)}${isChanged ? `; before: ${cellInWords(old)}` : ""}`;
    const button = element("button", { title: words, "aria-label": words, tabindex: -1, "data-at": `${down} ${at}` }, said);
    button.addEventListener("click", () => ask(one, other));
    return element("td", { class: isChanged ? `${kind} changed` : kind }, button);
  };
  const corner = element("td", { class: "corner small" }, "who \u2193 whom \u2192");
  const heads = summary.labels.map((label) => element("th", { scope: "col" }, element("span", {}, label)));
  const rows = summary.labels.map((one, down) => {
    return element("tr", {}, element("th", { scope: "row" }, one), ...summary.labels.map((_, at) => cell(one, at, down)));
  });
  const whole = element("table", { class: "matrix", style: `--count: ${summary.labels.length}` }, element("tr", {}, corner, ...heads), ...rows);
  whole.querySelector("button")?.setAttribute("tabindex", 0);
  whole.addEventListener("keydown", (event) => stepInMatrix(whole, event));
  return whole;
}

// Goes to the next cell in the way of an arrow key, over the label's own.
function stepInMatrix(whole, event) {
  const step = { ArrowRight: [0, 1], ArrowLeft: [0, -1], ArrowDown: [1, 0], ArrowUp: [-1, 0] }[event.key];
  if (!step || !event.target.dataset.at) return;
  event.preventDefault();
  const place = event.target.dataset.at.split(" ").map(Number);
  const to = (times) => whole.querySelector(`[data-at="${place.map((number, axis) => number + times * step[axis]).join(" ")}"]`);
  const next = to(1) ?? to(2);
  if (!next) return;
  event.target.tabIndex = -1;
  next.tabIndex = 0;
  next.focus();
}

// ---- The objects of a table: threads and their contexts at the left, CNodes with their filled slots, and all others at the right;
// a box for each label. Solid arrows are capabilities in slots, dashed ones those in root slots, dotted ones bindings.

const MOST_OBJECTS = 32, MOST_SLOTS = 64;
const OBJECTS = ["untyped", "cnode", "tcb", "endpoint", "notification", "reply", "frame", "context", "control"];

// The labels, objects, capabilities and bindings of a table without a fault.
function systemOf(table) {
  const objects = new Map();
  const caps = [], binds = [];
  for (const line of table.split("\n")) {
    const words = line.split(" ");
    if (OBJECTS.includes(words[0])) {
      objects.set(words[1], { kind: words[0], name: words[1], label: words[2], words: words.slice(3), slots: [] });
    } else if (words[0] === "cap") {
      const [holder, index] = words[1].split(".");
      const cap = { holder, index, slot: words[1], object: words[2], words: words.slice(3) };
      caps.push(cap);
      objects.get(holder).slots.push(cap);
    } else if (words[0] === "bind") {
      binds.push({ thread: words[1], context: words[2] });
    }
  }
  return { labels: labelsOf(table), objects, caps, binds };
}

// What stands below an object's name.
function detail({ kind, words }) {
  switch (kind) {
    case "cnode":
      return `${2 ** Number(words[1])} slots`;
    case "tcb":
      return words[1];
    case "context":
      return words[1] === "-" ? "not configured" : `core ${words[1]}, ${words[2]} of ${words[3]} µs`;
    case "control":
      return `core ${words[0]}`;
    case "untyped":
      return `2^${words[1]} bytes`;
    default:
      return "";
  }
}

// What a capability adds: rights and a badge, or a guard.
const added = (words) => (words.length === 2 && words[1].startsWith("0x") ? `guard ${words[0]}` : words.join(", "));

const columnOf = ({ kind }) => ({ tcb: 0, context: 0, cnode: 1 })[kind] ?? 2;
const titleOf = ({ kind, name }) => `${kind} ${name}`;

// How wide each column's boxes are: as the longest of their texts needs, in letters of 8 pixels, and small ones of 6.
function widths({ objects }) {
  const most = [160, 190, 170];
  for (const object of objects.values()) {
    const texts = [8 * titleOf(object).length, 6 * detail(object).length];
    texts.push(...object.slots.map((cap) => 8 * cap.slot.length + 6 * added(cap.words).length + 16));
    const column = columnOf(object);
    most[column] = Math.max(most[column], ...texts.map((wide) => wide + 16));
  }
  return most;
}

function drawObjects(table) {
  const system = systemOf(table);
  if (system.objects.size > MOST_OBJECTS || system.caps.length > MOST_SLOTS) return null;
  const WIDE = widths(system), HIGH = 40, SLOT = 24, GAP = 22, TOP = 40, SIDE = 30, BETWEEN = 60;
  const COLUMN = [SIDE, SIDE + WIDE[0] + BETWEEN, SIDE + WIDE[0] + WIDE[1] + 2 * BETWEEN];
  const width = COLUMN[2] + WIDE[2] + SIDE;
  const placed = new Map(); // of an object's or a slot's name: its box
  const bands = [], boxes = [], arrows = [];
  const contexts = new Map(system.binds.map(({ thread, context }) => [thread, context]));
  let y = 12;

  const place = (object, column, top) => {
    const [x, wide] = [COLUMN[column], WIDE[column]];
    placed.set(object.name, { x, y: top, wide, high: HIGH, column });
    const below = detail(object);
    boxes.push(boxAt(x, top, wide, HIGH, "box"));
    boxes.push(textAt(x + wide / 2, top + (below ? 17 : 24), titleOf(object), "name", "middle"));
    if (below) boxes.push(textAt(x + wide / 2, top + 32, below, "small", "middle"));
    top += HIGH;
    if (object.kind !== "cnode") return top + GAP;
    for (const cap of object.slots) {
      placed.set(cap.slot, { x, y: top, wide, high: SLOT, column });
      boxes.push(boxAt(x, top, wide, SLOT, "slot"), textAt(x + 8, top + 16, cap.slot, "name"));
      boxes.push(textAt(x + wide - 8, top + 16, added(cap.words), "small", "end"));
      top += SLOT;
    }
    return top + GAP;
  };

  system.labels.forEach((label, number) => {
    const own = [...system.objects.values()].filter((object) => object.label === label);
    if (own.length === 0) return;
    const ends = [y + TOP, y + TOP, y + TOP];
    const threads = own.filter((object) => object.kind === "tcb");
    const after = (thread) => [thread, ...own.filter((object) => object.name === contexts.get(thread.name))];
    const left = [...new Set([...threads.flatMap(after), ...own.filter((object) => columnOf(object) === 0)])];
    for (const object of left) ends[0] = place(object, 0, ends[0]);
    for (const object of own.filter((object) => columnOf(object) === 1)) ends[1] = place(object, 1, ends[1]);
    for (const object of own.filter((object) => columnOf(object) === 2)) ends[2] = place(object, 2, ends[2]);
    const high = Math.max(...ends) - y;
    bands.push(boxAt(12, y, width - 24, high, `label ${tint(number)}`, 8), textAt(22, y + 20, `label ${label}`, "bold"));
    y += high + 12;
  });

  for (const { thread, context } of system.binds) {
    const [from, to] = [placed.get(thread), placed.get(context)];
    const isBelow = to.y - from.y === HIGH + GAP;
    const d = isBelow
      ? `M${from.x + 80} ${from.y + HIGH} L${to.x + 80} ${to.y}`
      : `M${from.x} ${from.y + 30} C${from.x - 26} ${from.y + 30} ${to.x - 26} ${to.y + 20} ${to.x} ${to.y + 20}`;
    arrows.push(arrow(d, "dots"));
  }
  for (const cap of system.caps) {
    const isRoot = cap.index === "root";
    const from = placed.get(isRoot ? cap.holder : cap.slot), to = placed.get(cap.object);
    const [x1, y1] = [from.x + from.wide, from.y + from.high / 2];
    const y2 = to.y + to.high / 2;
    if (to.column > from.column) {
      const bend = (to.x - x1) / 2;
      arrows.push(arrow(`M${x1} ${y1} C${x1 + bend} ${y1} ${to.x - bend} ${y2} ${to.x} ${y2}`, isRoot ? "dash" : ""));
    } else if (to.column === from.column) {
      arrows.push(arrow(`M${x1} ${y1} C${x1 + 36} ${y1} ${x1 + 36} ${y2 + 6} ${to.x + to.wide} ${y2 + 6}`));
    } else {
      const bend = (from.x - to.x - to.wide) / 2;
      const end = to.x + to.wide;
      arrows.push(arrow(`M${from.x} ${y1} C${from.x - bend} ${y1} ${end + bend} ${y2 + 8} ${end} ${y2 + 8}`));
    }
  }
  return picture("The objects of the table, and their capabilities", width, y, ...bands, ...boxes, ...arrows);
}
