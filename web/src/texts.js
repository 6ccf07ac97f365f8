"use strict";

// The texts: a box for each, with line numbers, of which those in sight alone are drawn, a mark on a line, and signs beside lines.
// Browsers edit a text of many lines slowly, so a long one is kept beside its box, which shows its beginning. Beside a text a margin can
// stand, with what is said of its lines.

const LINE = 20; // the height of a line, as in page.css
const MOST_LINES = 5000; // of a text that can be edited
const SIGNS = { good: "\u2713", bad: "\u2717", note: "\u2022" };

class Text {
  constructor(name) {
    this.box = element("div", { class: "text", id: `box-${name}` });
    this.numbers = element("div", { class: "numbers", "aria-hidden": "true" });
    this.mark = element("div", { class: "mark", hidden: "" });
    this.area = element("textarea", {
      id: name,
      spellcheck: "false",
      wrap: "off",
      autocapitalize: "off",
      autocomplete: "off",
      "aria-label": name,
    });
    this.marked = 0; // the line, or 0
    this.signs = new Map(); // of a line's number: good, bad or note
    this.count = 1; // of lines
    this.whole = null; // a long text
    this.note = element("p", { class: "note small", hidden: "" });
    this.box.append(element("div", { class: "editor" }, this.mark, this.numbers, this.area), this.note);
    this.area.addEventListener("scroll", () => this.draw());
    this.changed = () => {}; // what is done once the text is another one
    this.area.addEventListener("input", () => {
      this.count = this.lines.length;
      this.unmark();
      this.changed();
    });
    new ResizeObserver(() => this.draw()).observe(this.area);
  }

  get text() {
    return this.whole ?? this.area.value;
  }

  set text(text) {
    const lines = text.split("\n");
    const isLong = lines.length > MOST_LINES;
    this.whole = isLong ? text : null;
    this.area.readOnly = isLong;
    this.area.value = isLong ? lines.slice(0, MOST_LINES).join("\n") : text;
    this.note.hidden = !isLong;
    this.note.textContent = `The first ${MOST_LINES} of ${lines.length - 1} lines: too many to be edited here.`;
    this.area.scrollTop = 0;
    this.count = Math.min(lines.length, MOST_LINES);
    this.unmark();
    this.changed();
  }

  get lines() {
    return this.text.split("\n");
  }

  draw() {
    const top = this.area.scrollTop;
    const first = Math.floor(top / LINE);
    const last = Math.min(first + Math.ceil(this.area.clientHeight / LINE) + 1, this.count);
    const numbers = [];
    for (let at = first; at < last; at++) numbers.push(this.numberOf(at + 1));
    this.numbers.replaceChildren(...numbers);
    this.numbers.style.transform = `translateY(${first * LINE - top}px)`;
    this.mark.hidden = this.marked === 0;
    this.mark.style.transform = `translateY(${(this.marked - 1) * LINE - top}px)`;
  }

  // A line's number, behind its sign.
  numberOf(line) {
    const sign = this.signs.get(line);
    return sign ? element("div", { class: sign }, `${SIGNS[sign]} ${line}`) : element("div", {}, line);
  }

  // Puts signs beside lines.
  sign(signs) {
    this.signs = signs;
    this.box.classList.toggle("signed", signs.size > 0);
    this.draw();
  }

  // Marks a line, counted from 1, and brings it into sight, unless it isn't shown.
  markLine(line) {
    if (line > this.count) return;
    this.marked = line;
    const top = (line - 1) * LINE;
    const seen = this.area.clientHeight;
    if (top < this.area.scrollTop || top + 3 * LINE > this.area.scrollTop + seen) {
      this.area.scrollTop = Math.max(0, top - seen / 2);
    }
    this.draw();
  }

  unmark() {
    this.marked = 0;
    this.sign(new Map());
  }

  // Puts the cursor at a line's beginning.
  go(line) {
    const at = this.lines.slice(0, line - 1).reduce((sum, text) => sum + text.length + 1, 0);
    this.area.focus();
    this.area.setSelectionRange(at, at);
    this.markLine(line);
  }
}

// What is said of the lines of a text, beside it. Each note stands at the height of its line, or behind the note before, and scrolls with
// the text; on a narrow screen the notes are a list.
class Margin {
  constructor(text) {
    this.text = text;
    this.list = element("ul");
    this.notes = element("div", { class: "notes", tabindex: 0, "aria-label": `Notes on the ${text.area.id}` }, this.list);
    this.count = element("summary");
    this.box = element("details", { class: "margin fold" }, this.count, this.notes);
    this.lines = []; // the lines of the notes
    text.area.addEventListener("scroll", () => {
      this.notes.scrollTop = text.area.scrollTop;
    });
    new ResizeObserver(() => this.place()).observe(this.notes);
  }

  // Takes other notes, each with its line, or 0 where it is of the whole text, its words, and whether it says what is wrong.
  put(notes) {
    this.lines = notes.map(({ line }) => line);
    const item = ({ line, words, isBad }) => {
      const made = element("li", { class: isBad ? "bad" : "" }, words);
      if (line === 0) return made;
      const button = element("button", { class: "place", "aria-label": `Go to line ${line}` }, line);
      button.addEventListener("click", () => this.text.go(line));
      made.prepend(button, " ");
      return made;
    };
    this.list.replaceChildren(...notes.map(item));
    this.count.textContent = notes.length === 1 ? "1 note on its lines" : `${notes.length} notes on its lines`;
    if (notes.some(({ isBad }) => isBad)) this.box.open = true;
    this.place();
  }

  place() {
    let end = 0;
    [...this.list.children].forEach((item, at) => {
      const top = Math.max(end, 6 + LINE * (Math.max(this.lines[at], 1) - 1));
      item.style.top = `${top}px`;
      end = top + item.offsetHeight + 6;
    });
    this.list.style.height = `${Math.max(end, this.text.area.scrollHeight)}px`;
    this.notes.scrollTop = this.text.area.scrollTop;
  }
}

// An element with attributes and children.
function element(name, attributes = {}, ...children) {
  const made = document.createElement(name);
  for (const [key, value] of Object.entries(attributes)) made.setAttribute(key, value);
  made.append(...children);
  return made;
}
