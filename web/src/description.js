"use strict";

// What follows from a description: how it is read, the table and the policy, and the notes beside its lines.

// How a description may be read, to be chosen; another choice is answered at once.
function offerReadings() {
  for (const [option, { title, ways }] of Object.entries(READINGS)) {
    const choices = Object.entries(ways).map(([way, words], at) => {
      const input = element("input", { type: "radio", name: option, value: way, id: `${option}-${way}`, ...(at === 0 && { checked: "" }) });
      input.addEventListener("change", () => texts.description.text !== "" && ask(IMPORT));
      return element("label", { title: `--${option} ${way}` }, input, ` ${words}`);
    });
    find("readings").append(element("fieldset", {}, element("legend", {}, title), ...choices));
  }
}

const chosen = (option) => document.querySelector(`input[name="${option}"]:checked`).value;

function choose(option, way) {
  find(`${option}-${Object.keys(READINGS[option].ways).includes(way) ? way : Object.keys(READINGS[option].ways)[0]}`).checked = true;
}

// Takes the table that was imported, with the least policy for it, and asks for the table's summary. Gives the last answer; `lines` get the
// words of what was asked, with the text that each became.
async function followImport(turn, answer, lines) {
  const table = decoded(answer.output);
  lines[0] = [...lines[0], ">table"];
  const closed = await program.answer(["close", "table"], { table }).catch(failed);
  if (turn !== asked || closed?.status !== 0) return closed;
  const policy = decoded(closed.output);
  lines.push(["close", "table", ">policy"]);
  imported = { table, policy };
  leaveExample(table);
  for (const name of SYSTEM) if (texts[name].text !== imported[name]) texts[name].text = imported[name];
  for (const pause of Object.values(pauses)) clearTimeout(pause);
  tellOfHand();
  lines.push(wordsFor(SUMMARY, allTexts()));
  return program.answer(lines.at(-1), allTexts()).catch(failed);
}

// Shows what the table leaves out, or what is wrong, beside the description's lines.
function showNotes(given, answer) {
  const notes = notesOf("description", decoded(answer.error)).slice(0, MOST_NOTES);
  const report = reportOf(decoded(answer.output));
  const isFaulty = report?.fault !== undefined;
  if (isFaulty && notes.length === 0) notes.push({ line: report.line, words: `fault ${report.fault}`, isBad: true });
  margin.put(notes);
  if (texts.description.text !== given.description) return;
  texts.description.unmark();
  texts.description.sign(new Map(notes.filter(({ line }) => line > 0).map(({ line, isBad }) => [line, isBad ? "bad" : "note"])));
  find("stale").hidden = !isFaulty || !summed;
  find("stale").textContent = "The description has a fault. This is the answer before it:";
  find("box-summary").classList.toggle("old", isFaulty);
}

// Says if table or policy were changed since they were made of the description.
function tellOfHand() {
  const isKept = !imported || SYSTEM.every((name) => texts[name].text === imported[name]);
  const again = element("button", {}, "Import again");
  again.addEventListener("click", () => ask(IMPORT));
  find("kept-by-hand").hidden = isKept;
  find("kept-by-hand").replaceChildren("Table or policy were changed since they were made of this description. ", again);
}

// Tells how long a command takes that takes long, with the way to stop it.
function startClock() {
  const began = performance.now();
  const tick = () => {
    const seconds = (performance.now() - began) / 1000;
    find("running").hidden = seconds < 0.3;
    find("clock").textContent = `${seconds.toFixed(1)} s`;
  };
  const timer = setInterval(tick, 100);
  return {
    stop() {
      clearInterval(timer);
      find("running").hidden = true;
    },
  };
}
