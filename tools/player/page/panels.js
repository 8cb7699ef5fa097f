// What stands beside the picture: this tick, the tasks, the words, the lines and the answers.
const callSaid = (moment, call) => `Task ${moment.task}, ${call.call}${call.inLane}`;

// The present moment in a sentence.
function sentence() {
  const moment = moments[at], call = callOf[at], several = laneCount() > 1;
  switch (moment.kind) {
    case "before": return "Before the first line.";
    case "start": return `Start: slots ${words[0]}, tasks ${words[1]}, growth ${words[2]}, lanes ${words[3]}.`;
    case "begin": return `Task ${moment.task} begins: <b>${call.call}</b>${call.inLane}. Its ticks are to come.`;
    case "idle": return "Every task is idle: no tick is made.";
    case "lane": return `The lane is read${several ? `, lane ${moment.lane}` : ""}.`;
    case "refused": return `Refused with <b>${moment.number}</b>: nothing changes.`;
    case "unread": return "This line is none of the program's: <b>unread</b>.";
  }
  const ends = [];
  if (moment.took !== undefined) ends.push(`<b>takes slot ${moment.took}</b>`);
  if (moment.lost) ends.push("<b>loses its swap</b>");
  if (moment.answer !== "going") ends.push(`answers <b>“${moment.answer}”</b>`);
  return `Tick ${tickOf[at]}: ${callSaid(moment, call)}, line <b>${moment.step}</b>: ${ends.join(", ") || "going"}.`;
}

const row = (name, ...cells) => `<tr><th scope="row">${name}</th>${cells.join("")}</tr>`;
const cell = (word) => `<td>${word}</td>`;
const sign = (mark) => `<td class="sign">${mark}</td>`;
const table = (caption, rows) => `<table><caption>${caption}</caption>${rows.join("")}</table>`;

function wroteTable({ undo }) {
  // Slots and hats first, then the task, then the header's counts.
  const order = ([at]) => at < HATS ? 2 : at < recordAt(0) ? 0 : 1;
  const rows = [...undo].sort((x, y) => order(x) - order(y) || x[0] - y[0]);
  return table("Wrote: before and after",
    rows.map(([at, old]) => row(place(at).name, cell(wordText(old)), sign("→"), cell(wordText(words[at])))));
}
function tickPanel() {
  const moment = moments[at], call = callOf[at];
  if (moment.kind !== "tick") {
    const all = moment.table ? `<p>Wrote all ${words.length} words of the table.</p>` : "";
    return `<p class="quiet">No tick at this moment.</p>${moment.wrote ? wroteTable(moment) : all}`;
  }
  let html = `<p class="what">${callSaid(moment, call)}</p>`
    + `<p>Line ${moment.step}. ${run.steps[moment.step].said[call.side]}</p>`;
  if (moment.dispatched) html += '<p class="quiet">The dispatcher chose this task.</p>';
  if (moment.lost) html += '<p class="answer lost">swap lost</p> ';
  if (moment.answer !== "going") html += `<p class="answer">${moment.answer}</p>`;
  if (moment.step === 28 || moment.step === 31) {
    const found = moment.took === undefined ? "none" : `slot ${moment.took}`;
    html += table("Looked for", [row(`a free slot from ${moment.hint} on`, cell(found))]);
  }
  const looks = looked(moment), compares = looks.some(({ wanted }) => wanted !== undefined);
  if (compares) {
    html += table("Compared: found and wanted",
      looks.map(({ name, was, wanted, same }) => row(name, cell(was), sign(same ? "=" : "≠"), cell(wanted))));
  } else if (looks.length) html += table("Read", looks.map(({ name, was }) => row(name, cell(was))));
  return html + wroteTable(moment);
}

function taskPanel() {
  const found = tasks(), present = ({ number }) => moments[at].task === number;
  if (!found.length) return '<p class="quiet">No task yet.</p>';
  const card = (one, title, more = "") =>
    `<div class="task${present(one) ? " present" : ""}"><h3>${title}</h3>${more}</div>`;
  const cards = found.filter((one) => one.operation || present(one)).map((one) => {
    if (!one.operation) return card(one, `Task ${one.number} <span class="quiet">idle</span>`);
    const registers = one.registers.filter(({ slot }) => slot !== NONE).map(({ name, slot, holds }) =>
      `<li class="${holds ? "held" : "loose"}">${name} → ${slot}${holds ? "" : " (not held)"}</li>`);
    const more = [];
    if (one.value !== "unused") more.push(`value read ${one.value}`);
    if (one.goal) more.push(`${one.counted} of ${one.goal} counted`);
    return card(one, `Task ${one.number} <span>${one.call}${one.inLane}</span>`,
      `<p><b>Next is line ${one.step}.</b> ${run.steps[one.step].said[one.side]}</p>`
      + `<ul class="registers">${registers.join("") || "<li>no register is set</li>"}</ul>`
      + `<p class="quiet">${more.join(", ")}</p>`);
  });
  const idle = found.filter((one) => !one.operation && !present(one)).map(({ number }) => number);
  const them = `Task${idle.length > 1 ? "s" : ""} ${ranges(idle)}`;
  if (idle.length) cards.push(card({}, `${them} <span class="quiet">idle</span>`));
  return cards.join("");
}

function wordsPanel() {
  if (!words.length) return "<p>No table yet.</p>";
  const wrote = new Set((moments[at].undo || []).map(([at]) => at));
  const word = (at) =>
    `<td data-at="${at}" class="${wrote.has(at) ? "wrote" : ""}">${words[at] === NONE ? "none" : words[at]}</td>`;
  const line = (name, from, count) => row(name, ...numbers(count).map((i) => word(from + i)));
  const block = (caption, names, rows) => {
    const heads = names.map((name) => `<th scope="col">${name}</th>`).join("");
    return `<div class="scroll">${table(caption, [`<tr><td></td>${heads}</tr>`, ...rows])}</div>`;
  };
  const hats = numbers(4).flatMap((lane) => SIDES.map((side) => `${side} hat ${lane}`));
  return block("Header", [...HEADER_WORDS, ...hats, "0", "0"], [line("", 0, HEADER)])
    + block("Slots", SLOT_WORDS, numbers(slotCount()).map((slot) => line(`slot ${slot}`, slotAt(slot), SLOT)))
    + block("Tasks", RECORD_WORDS, numbers(taskCount()).map((k) => line(`task ${k}`, recordAt(k), RECORD)));
}

// ---- The lines and the answers are made once, and marked as the run goes on.
const firstOf = [], lastOf = [];
moments.forEach(({ line }, i) => {
  if (line >= 0) firstOf[line] ??= i;
  if (line >= 0) lastOf[line] = i;
});
const isAnswer = ({ kind, answer }) => kind === "tick" && answer !== "going";
const answered = numbers(moments.length).filter((i) => isAnswer(moments[i]));
const item = (to, text, more, hidden = "") =>
  `<li${hidden}><button class="later" data-go="${to}">${escaped(text)}<i>${escaped(more)}</i></button></li>`;
const linesList = () => run.lines.map(([text, printed], i) => item(firstOf[i], text, printed)).join("");
function answersList() {
  const when = (i) => `tick ${tickOf[i]}: ${callSaid(moments[i], callOf[i])}`;
  return answered.map((i) => item(i, moments[i].answer, when(i), " hidden")).join("");
}

function keepInView(list, item) {
  if (!item) return;
  const top = item.offsetTop, bottom = top + item.offsetHeight;
  if (top < list.scrollTop || bottom > list.scrollTop + list.clientHeight) list.scrollTop = top - list.clientHeight / 2;
}
// Both lists are in order: only what lies between the moment before and this one changes.
const done = new Map();
function markList(list, endOf, setLater, present) {
  const items = list.children;
  let count = done.get(list) || 0;
  while (count < items.length && endOf(count) <= at) setLater(items[count++], false);
  while (count > 0 && endOf(count - 1) > at) setLater(items[--count], true);
  done.set(list, count);
  list.querySelector("[aria-current]")?.removeAttribute("aria-current");
  items[present]?.firstChild.setAttribute("aria-current", "step");
  keepInView(list, items[present] || items[count - 1]);
}
function markLists(lines, answers) {
  const setLater = (item, is) => item.firstChild.classList.toggle("later", is);
  const setHidden = (item, is) => {
    setLater(item, is);
    item.hidden = is;
  };
  markList(lines, (i) => lastOf[i], setLater, moments[at].line);
  markList(answers, (i) => answered[i], setHidden, answered.indexOf(at));
}
